//! Entries of frames and of losses: what is due to every number, every refusal and those that occur
//! together, every number at its limit and beside it, gaps and lateness round 2^32, odd accounts, and
//! entries one after the other.

use crate::lengths::wrong_lengths;
use crate::out::Calls;
use crate::verdicts::any;
use second::account::{account, fill_words, opened, Account, LATE, MOST_FRAMES, MOST_WORDS};
use second::word::FRAME_WORDS;
use second::xorshift::Xorshift;
use std::io::{self, Write};

/// Where numbers run round or change their sign.
pub const STARTS: [u32; 9] = [
    0,
    1,
    5,
    LATE - 1,
    LATE,
    LATE + 1,
    u32::MAX - 500_000,
    u32::MAX - 1,
    u32::MAX,
];

/// How far a number is ahead of the expected one.
pub const AHEAD: [u32; 13] = [
    0,
    1,
    2,
    999_998,
    999_999,
    1_000_000,
    1_000_001,
    LATE - 2,
    LATE - 1,
    LATE,
    LATE + 1,
    u32::MAX - 1,
    u32::MAX,
];

/// How far a number is from the start: the two with fill, and others near them and far.
const FROM_START: [u32; 8] = [0, 1, 2, 3, LATE, LATE + 1, u32::MAX - 1, u32::MAX];

/// Flags with so many words of each number, in any order.
fn flags_of(random: &mut Xorshift, tallies: [u64; 4]) -> Vec<u8> {
    let mut flags = vec![];
    for (flag, count) in (0..).zip(tallies) {
        flags.resize(flags.len() + count as usize, flag);
    }
    for place in 1..flags.len() {
        flags.swap(place, random.below(place as u64 + 1) as usize);
    }
    flags
}

/// The flags of a frame: any bytes for its fill, and so many words of each number behind it.
fn frame_flags(random: &mut Xorshift, tallies: [u64; 4]) -> Vec<u8> {
    let fill = FRAME_WORDS - tallies.iter().sum::<u64>() as usize;
    let mut flags = match random.below(4) {
        0 => vec![random.pick(&[0, 3, 4, 255]); fill],
        1 => random.bytes(fill),
        _ => (0..fill).map(|_| random.below(4) as u8).collect(),
    };
    flags.extend(flags_of(random, tallies));
    flags
}

/// Tallies of so many words.
fn some_tallies(random: &mut Xorshift, due: u64) -> [u64; 4] {
    let flagged = random.below(due / 8 + 1);
    let two = random.below(due / 8 + 1);
    let one = random.below(due / 4 + 1);
    random.pick(&[
        [due, 0, 0, 0],
        [0, due, 0, 0],
        [0, 0, due, 0],
        [0, 0, 0, due],
        [due / 4; 4],
        [due - due.min(1), 0, 0, due.min(1)],
        [due - one - two - flagged, one, two, flagged],
    ])
}

/// The flags of a frame with this number in a run from this start, as they should be.
fn random_flags(random: &mut Xorshift, start: u32, number: u32) -> Vec<u8> {
    let due = FRAME_WORDS - fill_words(start, number);
    let tallies = some_tallies(random, due as u64);
    frame_flags(random, tallies)
}

/// A start near a number, so that the number is due less than others, or nearly, or any.
pub fn start_near(random: &mut Xorshift, number: u32) -> u32 {
    match random.below(8) {
        0 => any(random) as u32,
        1 => random.pick(&STARTS),
        _ => number.wrapping_sub(random.pick(&FROM_START)),
    }
}

/// Numbers from which the entry of so many more is just done, just refused, or wraps.
pub fn edges(most: u64, more: u64) -> Vec<u64> {
    let wide = [(1 << 32) - 1, 1 << 32, (1 << 32) + 1, 1 << 63];
    let near = [
        most - more - 1,
        most - more,
        most - more + 1,
        most - 1,
        most,
        most + 1,
    ];
    let wraps = [
        0u64.wrapping_sub(more),
        u64::MAX - more,
        u64::MAX - 1,
        u64::MAX,
    ];
    [near.as_slice(), &wide, &wraps].concat()
}

pub const MOST: [u64; 6] = [
    MOST_FRAMES,
    MOST_FRAMES,
    MOST_WORDS,
    MOST_WORDS,
    MOST_WORDS,
    MOST_WORDS,
];

/// What is due to a number: 0, 320 or 384 words, in every place of its flags. A byte above 3 is one
/// word too few where it is tallied, and is not looked at where it is not.
fn due<W: Write>(calls: &mut Calls<W>, random: &mut Xorshift) -> io::Result<()> {
    let starts: Vec<u32> = STARTS
        .into_iter()
        .chain((0..4).map(|_| random.next_u64() as u32))
        .collect();
    for &start in &starts {
        for from_start in FROM_START {
            let due = match from_start {
                0 => 0,
                1 => 320,
                _ => 384,
            };
            let number = start.wrapping_add(from_start);
            for d in [0, 1, 900_000] {
                let numbers = [70, 60, 5_000, 400, 300, 20];
                let before = account(number.wrapping_sub(d), start, numbers);
                let tallies = some_tallies(random, due);
                let flags = frame_flags(random, tallies);
                let [clean, one, two, flagged] = tallies;
                let grown = [
                    71,
                    60 + u64::from(d),
                    5_000 + clean,
                    400 + one,
                    300 + two,
                    20 + flagged,
                ];
                let mut after = before;
                assert_eq!(calls.account_enter(&mut after, number, &flags)?, 0);
                assert_eq!(after, account(number.wrapping_add(1), start, grown));
                let fill = FRAME_WORDS - due as usize;
                if due > 0 {
                    let mut flags = flags.clone();
                    let last = FRAME_WORDS - 1;
                    let any = fill + random.below(due) as usize;
                    flags[random.pick(&[fill, last, any])] = 4 + random.below(252) as u8;
                    let refusal = calls.account_enter(&mut before.clone(), number, &flags)?;
                    assert_eq!(refusal, 12);
                }
                if fill > 0 {
                    let mut flags = flags.clone();
                    let any = random.below(fill as u64) as usize;
                    flags[random.pick(&[0, fill - 1, any])] = 4 + random.below(252) as u8;
                    let mut same = before;
                    assert_eq!(calls.account_enter(&mut same, number, &flags)?, 0);
                    assert_eq!(same, after);
                }
                let mut lost = before;
                assert_eq!(calls.account_lose(&mut lost, number)?, 0);
                assert_eq!((lost.start, lost.clean), (start, 5_000));
            }
        }
    }
    // One flag unlike the others, about the first that is tallied.
    for place in [0, 1, 31, 32, 62, 63, 64, 65, 95, 96, 319, 320, 383] {
        for flag in [0, 1, 2, 3, 4, 5, 128, 255] {
            for from_start in [0, 1, 2, u32::MAX] {
                let start = random.pick(&starts);
                let number = start.wrapping_add(from_start);
                let mut flags = vec![if flag == 0 { 1 } else { 0 }; FRAME_WORDS];
                flags[place] = flag;
                let mut after = account(number, start, [5, 0, 4, 3, 2, 1]);
                calls.account_enter(&mut after, number, &flags)?;
            }
        }
    }
    Ok(())
}

/// The first frames of a run, each of them accepted, lost or missing, up to the fourth.
fn first_frames<W: Write>(calls: &mut Calls<W>, random: &mut Xorshift) -> io::Result<()> {
    for start in [
        0,
        1,
        7,
        LATE,
        u32::MAX - 1,
        u32::MAX,
        random.next_u64() as u32,
    ] {
        for way in 0..27 {
            let ways = [way % 3, way / 3 % 3, way / 9, 0];
            let mut account = account(any(random) as u32, any(random) as u32, [u64::MAX; 6]);
            calls.account_open(&mut account, start)?;
            let mut total = 0;
            for (n, (way, due)) in (0..).zip(ways.into_iter().zip([0, 320, 384, 384])) {
                let number = start.wrapping_add(n);
                let flags = random_flags(random, start, number);
                let refusal = match way {
                    0 => calls.account_enter(&mut account, number, &flags)?,
                    1 => calls.account_lose(&mut account, number)?,
                    _ => continue,
                };
                assert_eq!(refusal, 0);
                total += if way == 0 { due } else { 0 };
                let Account {
                    clean,
                    one,
                    two,
                    flagged,
                    ..
                } = account;
                assert_eq!(clean + one + two + flagged, total);
            }
            assert_eq!(
                (account.start, account.accepted + account.missing),
                (start, 4)
            );
        }
    }
    Ok(())
}

/// Every number of an account at its edges, the others small or at their limits.
fn at_limits<W: Write>(calls: &mut Calls<W>, random: &mut Xorshift) -> io::Result<()> {
    for (from_start, tallies) in [
        (2, [300, 50, 30, 4]),
        (LATE, [0, 0, 0, 384]),
        (1, [250, 40, 27, 3]),
        (0, [0; 4]),
    ] {
        let flags = frame_flags(random, tallies);
        let [clean, one, two, flagged] = tallies;
        for d in [0, 2] {
            let start = (9 + d as u32).wrapping_sub(from_start);
            let frame = [1, d, clean, one, two, flagged];
            let loss = [0, d + 1, 0, 0, 0, 0];
            for which in 0..6 {
                for (more, others) in [(frame, false), (frame, true), (loss, false), (loss, true)] {
                    let mut numbers =
                        [0, 1, 2, 3, 4, 5].map(|n| if others { MOST[n] - more[n] } else { 7 });
                    for edge in edges(MOST[which], more[which]) {
                        numbers[which] = edge;
                        let mut before = account(9, start, numbers);
                        if more == frame {
                            calls.account_enter(&mut before, 9 + d as u32, &flags)?;
                        } else {
                            calls.account_lose(&mut before, 9 + d as u32)?;
                        }
                    }
                }
            }
        }
    }
    Ok(())
}

/// Gaps and lateness from every start, with few missing, as many as may be, and too many.
fn round<W: Write>(calls: &mut Calls<W>, random: &mut Xorshift) -> io::Result<()> {
    for start in STARTS {
        for d in AHEAD {
            let near = [0, 1, MOST_FRAMES - 1, MOST_FRAMES, MOST_FRAMES + 1];
            // Where the sum would be small again, were it to wrap.
            let wraps = [u64::from(d), u64::from(d) + 1, 1 << 31].map(u64::wrapping_neg);
            for missing in near.into_iter().chain(wraps).chain([1 << 31]) {
                let got = start.wrapping_add(d);
                let began = start_near(random, got);
                let before = account(start, began, [5, missing, 1_000, 500, 400, 20]);
                let flags = random_flags(random, began, got);
                calls.account_enter(&mut before.clone(), got, &flags)?;
                calls.account_lose(&mut before.clone(), got)?;
            }
        }
    }
    Ok(())
}

/// Every set of 4, 10, 11 and 12, with 11 by each number, and of 10 and 11 for a loss; for each number
/// of words due. Of a frame that is due none no flag is wrong.
fn together<W: Write>(calls: &mut Calls<W>, random: &mut Xorshift) -> io::Result<()> {
    const REFUSALS: [u32; 4] = [4, 10, 11, 12];
    for set in 0u32..16 {
        let applies = |number| {
            REFUSALS
                .iter()
                .position(|&n| n == number)
                .is_some_and(|at| set >> at & 1 == 1)
        };
        let lowest = |of: &[u32]| of.iter().copied().find(|&n| applies(n)).unwrap_or(0);
        for above in 0..6 {
            for (late, from_start, fill) in [
                (LATE, 0, 384),
                (LATE, 1, 64),
                (LATE, 2, 0),
                (u32::MAX, 0, 384),
                (u32::MAX, 1, 64),
                (u32::MAX, u32::MAX, 0),
            ] {
                let mut numbers = [0; 6];
                if applies(11) {
                    numbers[above] = MOST[above] + 1;
                }
                let expected = random.pick(&STARTS);
                let got = expected.wrapping_add(if applies(10) { late } else { 0 });
                let start = got.wrapping_sub(from_start);
                let mut flags = random_flags(random, start, got);
                if applies(12) {
                    // Anywhere where all is fill, else where it is tallied.
                    let first = fill % FRAME_WORDS;
                    flags[first + random.below((FRAME_WORDS - first) as u64) as usize] = 4;
                }
                if applies(4) {
                    flags.resize(random.pick(&[383, 385]), 0);
                }
                let before = account(expected, start, numbers);
                let refusal = calls.account_enter(&mut before.clone(), got, &flags)?;
                let of = if fill == FRAME_WORDS {
                    &REFUSALS[..3]
                } else {
                    &REFUSALS
                };
                assert_eq!(refusal, lowest(of));
                let refusal = calls.account_lose(&mut before.clone(), got)?;
                assert_eq!(refusal, lowest(&[10, 11]));
            }
        }
    }
    Ok(())
}

/// Every byte that is no flag, every wrong length, and bytes of any value.
fn odd_flags<W: Write>(calls: &mut Calls<W>, random: &mut Xorshift) -> io::Result<()> {
    for odd in 4..=255 {
        let mut flags = random_flags(random, 1, 3);
        let place = random.pick(&[0, 383, odd as usize]);
        flags[place] = odd;
        let mut long_ago = account(3, 1, [2, 0, 320, 0, 0, 0]);
        assert_eq!(calls.account_enter(&mut long_ago, 3, &flags)?, 12);
        // Counted nowhere, it moves no tally to its limit, nor does it make up for another.
        flags = vec![0; 383];
        flags.insert(place, odd);
        let full = account(3, 1, [1, 0, 7, MOST_WORDS, MOST_WORDS, MOST_WORDS]);
        assert_eq!(calls.account_enter(&mut full.clone(), 3, &flags)?, 12);
        for (clean, refusal) in [(MOST_WORDS - 383, 12), (MOST_WORDS - 382, 11)] {
            let mut brim = account(3, 1, [1, 0, clean, 0, 0, 0]);
            assert_eq!(calls.account_enter(&mut brim, 3, &flags)?, refusal);
        }
        // Nothing where all words are fill; and in the next frame by its place.
        assert_eq!(calls.account_enter(&mut opened(3), 3, &flags)?, 0);
        let refusal = if place < 64 { 0 } else { 12 };
        let mut next = account(3, 2, [1, 0, 0, 0, 0, 0]);
        assert_eq!(calls.account_enter(&mut next, 3, &flags)?, refusal);
        for (clean, refusal) in [(MOST_WORDS - 319, 12), (MOST_WORDS - 318, 11)] {
            let mut flags = vec![0; FRAME_WORDS];
            flags[64] = odd;
            let mut brim = account(3, 2, [1, 0, clean, 0, 0, 0]);
            assert_eq!(calls.account_enter(&mut brim, 3, &flags)?, refusal);
        }
        flags.push(0);
        assert_eq!(calls.account_enter(&mut full.clone(), 3, &flags)?, 4);
    }
    // Among them as many as are tallied of the second frame, and of the first two.
    for length in wrong_lengths(FRAME_WORDS).into_iter().chain([64, 320, 704]) {
        for byte in [0, 3, 4] {
            let flags = vec![byte; length];
            for start in [3, 2, 1] {
                let before = account(3, start, [0; 6]);
                assert_eq!(calls.account_enter(&mut before.clone(), 3, &flags)?, 4);
                assert_eq!(calls.account_enter(&mut before.clone(), 2, &flags)?, 4);
            }
        }
    }
    for flags in [vec![4; 384], vec![255; 384], random.bytes(384)] {
        for (start, refusal) in [(3, 0), (2, 12), (1, 12)] {
            let mut before = account(3, start, [0; 6]);
            assert_eq!(calls.account_enter(&mut before, 3, &flags)?, refusal);
        }
    }
    Ok(())
}

/// Any numbers, often at an edge.
pub fn odd_account(random: &mut Xorshift) -> Account {
    let numbers = MOST.map(|most| match random.below(4) {
        0 => random.pick(&edges(most, 1)),
        1 => any(random),
        _ => random.below(most + 1),
    });
    let expected = match random.below(2) {
        0 => random.pick(&STARTS),
        _ => any(random) as u32,
    };
    account(expected, start_near(random, expected), numbers)
}

fn odd_accounts<W: Write>(calls: &mut Calls<W>, random: &mut Xorshift) -> io::Result<()> {
    for _ in 0..1_500 {
        let before = match random.below(8) {
            0 => account(u32::MAX, u32::MAX, [u64::MAX; 6]),
            _ => odd_account(random),
        };
        let d = match random.below(3) {
            0 => random.pick(&AHEAD),
            1 => 0,
            _ => any(random) as u32,
        };
        let got = before.expected.wrapping_add(d);
        let mut flags = random_flags(random, before.start, got);
        if random.below(8) == 0 {
            flags[random.below(384) as usize] = random.next_u64() as u8;
        }
        calls.account_enter(&mut before.clone(), got, &flags)?;
        calls.account_lose(&mut before.clone(), got)?;
        calls.account_open(&mut before.clone(), got)?;
    }
    for start in STARTS {
        for began in [start, !start, 0, u32::MAX] {
            calls.account_open(&mut account(!start, began, [u64::MAX; 6]), start)?;
        }
    }
    Ok(())
}

/// Entries one after the other, most of them in order, round 2^32 or up to a limit.
fn streams<W: Write>(calls: &mut Calls<W>, random: &mut Xorshift) -> io::Result<()> {
    for start in [0, LATE - 150, u32::MAX - 200] {
        let mut account = account(any(random) as u32, any(random) as u32, [u64::MAX; 6]);
        calls.account_open(&mut account, start)?;
        for _ in 0..500 {
            let ahead = match random.below(16) {
                0 => 1 + random.below(3) as u32,
                1 => 0u32.wrapping_sub(1 + random.below(3) as u32),
                2 => random.pick(&AHEAD[9..]),
                _ => 0,
            };
            let got = account.expected.wrapping_add(ahead);
            let flags = random_flags(random, start, got);
            match random.below(12) {
                0 => calls.account_lose(&mut account, got)?,
                1 => calls.account_enter(&mut account, got, &flags[1..])?,
                2 => calls.account_enter(&mut account, got, &[&flags[1..], &[4]].concat())?,
                _ => calls.account_enter(&mut account, got, &flags)?,
            };
        }
    }
    for which in 0..6 {
        let mut numbers = [0; 6];
        numbers[which] = MOST[which] - if which < 2 { 8 } else { 96 * 8 };
        let mut account = account(7, 5, numbers);
        for entry in 0..20 {
            let flags = flags_of(random, [96; 4]);
            let got = account.expected;
            match (which, entry % 3) {
                (1, 0 | 1) | (_, 2) => calls.account_lose(&mut account, got)?,
                _ => calls.account_enter(&mut account, got, &flags)?,
            };
        }
    }
    Ok(())
}

pub fn write<W: Write>(calls: &mut Calls<W>, random: &mut Xorshift) -> io::Result<()> {
    due(calls, random)?;
    first_frames(calls, random)?;
    at_limits(calls, random)?;
    round(calls, random)?;
    together(calls, random)?;
    odd_flags(calls, random)?;
    odd_accounts(calls, random)?;
    streams(calls, random)
}
