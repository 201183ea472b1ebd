//! Steps of runs: from every phase over every kind of record, over records with more behind them and
//! captures cut anywhere, at every limit, by every refusal, and long runs with their verdict and
//! report after every step.

use crate::accounts::{edges, odd_account, start_near, AHEAD, MOST, STARTS};
use crate::frames::{damage_pilots, damage_words, flip_any, sent, Symbols};
use crate::out::Calls;
use crate::records::{order, unlawful};
use crate::reports::ROOM;
use crate::verdicts::any;
use second::account::{
    account, count_flags, enter_flags, fill_words, lose, Account, FAIL, LATE, NOT_MEASURED, PASS,
};
use second::capture::{
    frame_record, read, FRAME, FRAME_RECORD, KIND_PLACE, MORE_THAN_ONE, ORDER_RECORD, VERSION_PLACE,
};
use second::kept::{Kept, GOING, STOPPED, UNORDERED};
use second::lanes::{LANES_BYTES, STORE_BYTES};
use second::receive::receive;
use second::symbols::{NO_LOCK, PILOT_COUNT};
use second::word::FRAME_WORDS;
use second::xorshift::Xorshift;
use std::io::{self, Write};

/// Those that are one of the three, and those that are one of them in their lowest bits.
pub const PHASES: [u32; 13] = [
    0,
    1,
    2,
    3,
    4,
    5,
    255,
    256,
    257,
    1 << 16,
    (1 << 31) + 1,
    u32::MAX - 1,
    u32::MAX,
];

/// What a step must answer, by the calls that tell a record's refusal and that of its entry.
fn right_number(run: &Kept, piece: &[u8]) -> u32 {
    if run.phase > GOING {
        return 0;
    }
    let record = read(piece, 0);
    if record.refusal != 0 {
        return record.refusal;
    }
    if record.next != piece.len() {
        return MORE_THAN_ONE;
    }
    if run.phase == UNORDERED || record.kind != FRAME {
        return 0;
    }
    let symbols = &piece[record.symbols..record.next];
    let mut lanes = [0; LANES_BYTES];
    let mut flags = [0; FRAME_WORDS];
    let (refusal, _) = match receive(symbols, &mut [0; STORE_BYTES], &mut lanes, &mut flags) {
        0 => enter_flags(run.account, record.number, &flags),
        _ => lose(run.account, record.number),
    };
    refusal
}

/// A step; a refusal leaves the run stopped, and nothing else is changed.
pub fn step<W: Write>(calls: &mut Calls<W>, run: &mut Kept, piece: &[u8]) -> io::Result<u32> {
    let before = *run;
    let number = calls.run_step(run, piece)?;
    assert_eq!(number, right_number(&before, piece));
    if number != 0 || before.phase > GOING {
        let phase = STOPPED;
        assert_eq!(*run, Kept { phase, ..before });
    }
    Ok(number)
}

/// A step from this run, which must answer this number.
fn must<W: Write>(
    calls: &mut Calls<W>,
    number: u32,
    before: &Kept,
    piece: &[u8],
) -> io::Result<Kept> {
    let mut run = *before;
    assert_eq!(step(calls, &mut run, piece)?, number);
    Ok(run)
}

/// The same from a run of any stopped phase, which answers 0.
fn must_not<W: Write>(
    calls: &mut Calls<W>,
    random: &mut Xorshift,
    before: &Kept,
    piece: &[u8],
) -> io::Result<()> {
    let phase = random.pick(&PHASES[2..]);
    must(calls, 0, &Kept { phase, ..*before }, piece)?;
    Ok(())
}

/// Words with no flip, one, two and three, so that every tally moves, and nearly no lock.
fn damaged(random: &mut Xorshift) -> Symbols {
    let mut frame = sent(random, &mut [0; STORE_BYTES]);
    for (word, flips) in (0..FRAME_WORDS).zip([0, 1, 0, 2, 0, 0, 3].into_iter().cycle()) {
        flip_any(random, &mut frame, word, flips);
    }
    damage_pilots(random, &mut frame, NO_LOCK - 1);
    frame
}

fn lost(random: &mut Xorshift) -> Symbols {
    let mut frame = sent(random, &mut [0; STORE_BYTES]);
    let wrong = random.pick(&[NO_LOCK, NO_LOCK + 1, PILOT_COUNT]);
    damage_pilots(random, &mut frame, wrong);
    frame
}

fn spoilt(record: &[u8], place: usize, byte: u8) -> Vec<u8> {
    let mut record = record.to_vec();
    record[place] = byte;
    record
}

/// Records of every kind for a run that expects this number.
fn pieces(random: &mut Xorshift, expected: u32) -> Vec<Vec<u8>> {
    let first = order(random.pick(&STARTS), any(random) as u32, any(random) as u32);
    let (good, bad) = (damaged(random), lost(random));
    let frame = frame_record(expected, &good);
    let lengths = unlawful(random);
    let length = random.pick(&lengths);
    let mut pieces = vec![
        vec![],
        vec![0],
        first[..3].to_vec(),
        first[..4].to_vec(),
        first[..17].to_vec(),
        first.clone(),
        [&first[..], &first].concat(),
        [&first[..], &[0xFF; 9]].concat(),
        spoilt(&first, VERSION_PLACE, 2),
        spoilt(&first, KIND_PLACE, 1),
        spoilt(&spoilt(&first, KIND_PLACE, 2), VERSION_PLACE, 0),
        length.to_be_bytes().to_vec(),
        frame[..9].to_vec(),
        frame[..10].to_vec(),
        frame[..frame.len() - 1].to_vec(),
        [&frame[..], &first].concat(),
        [&frame[..], &[0xFF]].concat(),
        spoilt(&frame, VERSION_PLACE, 0),
        spoilt(&frame, KIND_PLACE, 0),
        spoilt(&frame, 3, 7),
    ];
    for d in [0, 1, 1_000_000, 1_000_001, 1 << 31, u32::MAX] {
        for symbols in [&good, &bad] {
            pieces.push(frame_record(expected.wrapping_add(d), symbols));
        }
    }
    pieces
}

/// An account far below its limits.
fn small(random: &mut Xorshift) -> Account {
    let expected = random.pick(&STARTS);
    let start = start_near(random, expected);
    account(expected, start, [3, 1, 1_000, 100, 50, 2])
}

fn odd_run(random: &mut Xorshift, phase: u32) -> Kept {
    Kept {
        phase,
        asked: any(random) as u32,
        allowed: any(random) as u32,
        account: odd_account(random),
    }
}

fn from_every_phase<W: Write>(calls: &mut Calls<W>, random: &mut Xorshift) -> io::Result<()> {
    for phase in PHASES {
        let odd = odd_run(random, phase);
        let account = small(random);
        for before in [odd, Kept { account, ..odd }] {
            for piece in pieces(random, before.account.expected) {
                let mut run = before;
                step(calls, &mut run, &piece)?;
                assert!(run.phase <= STOPPED);
            }
            calls.run_open(&mut before.clone())?;
            calls.run_stop(&mut before.clone())?;
        }
    }
    Ok(())
}

/// Whole records with more behind them: another of either kind, the same again, one byte of every
/// value, the beginning of a record, any bytes. By 22, whatever the record alone would have done.
fn with_more_behind<W: Write>(calls: &mut Calls<W>, random: &mut Xorshift) -> io::Result<()> {
    let (good, bad) = (damaged(random), lost(random));
    for phase in [UNORDERED, GOING] {
        for account in [small(random), account(9, 9, MOST), odd_account(random)] {
            let before = Kept {
                account,
                ..odd_run(random, phase)
            };
            let expected = account.expected;
            let first = order(expected, any(random) as u32, any(random) as u32);
            let next = frame_record(expected.wrapping_add(1), &good);
            let mut records = vec![first.clone()];
            for d in [0, 1, 1_000_001, LATE, u32::MAX] {
                for symbols in [&good, &bad] {
                    records.push(frame_record(expected.wrapping_add(d), symbols));
                }
            }
            for record in &records {
                let noise = 1 + random.below(40) as usize;
                let mut others = vec![
                    vec![random.next_u64() as u8],
                    random.bytes(noise),
                    first.clone(),
                    next.clone(),
                    record.clone(),
                    spoilt(record, VERSION_PLACE, 2),
                    spoilt(record, KIND_PLACE, 2),
                    record[..record.len() - 1].to_vec(),
                ];
                for cut in [1, 3, 4, 5, 10] {
                    others.push(first[..cut].to_vec());
                }
                for more in others {
                    let piece = [&record[..], &more].concat();
                    let stopped = must(calls, MORE_THAN_ONE, &before, &piece)?;
                    // What was refused as a whole is not taken up in parts.
                    if random.below(8) == 0 {
                        must(calls, 0, &stopped, record)?;
                        must_not(calls, random, &before, &piece)?;
                    }
                }
            }
            for byte in 0..=255 {
                let piece = [&first[..], &[byte]].concat();
                must(calls, MORE_THAN_ONE, &before, &piece)?;
            }
        }
    }
    Ok(())
}

/// An order and two frames in three pieces, cut at their bounds and beside them: only where each
/// piece is one record the run passes, and nowhere is a byte passed over.
fn in_pieces<W: Write>(calls: &mut Calls<W>, random: &mut Xorshift) -> io::Result<()> {
    let mut sender = [0; STORE_BYTES];
    let mut capture = order(u32::MAX, 2, 0);
    for number in [u32::MAX, 0] {
        capture.extend(frame_record(number, &sent(random, &mut sender)));
    }
    let end = capture.len();
    let bounds = [0, ORDER_RECORD, ORDER_RECORD + FRAME_RECORD, end];
    let places: Vec<usize> = (0..=end)
        .filter(|&place| bounds.iter().any(|bound| bound.abs_diff(place) < 3))
        .chain([4, 10, ORDER_RECORD + 4, end - FRAME_RECORD / 2])
        .collect();
    for &a in &places {
        for &b in places.iter().filter(|&&b| b >= a) {
            let mut run = Kept::new();
            let pieces = [&capture[..a], &capture[a..b], &capture[b..]];
            let mut stopped = false;
            for piece in pieces {
                let number = step(calls, &mut run, piece)?;
                assert!(number == 0 || !stopped);
                stopped |= run.phase == STOPPED;
            }
            let whole = [a, b] == [bounds[1], bounds[2]];
            assert_eq!(stopped, !whole);
            let right = if whole { PASS } else { NOT_MEASURED };
            assert_eq!(calls.run_verdict(&run)?, right);
        }
    }
    Ok(())
}

/// Records that are refused, by every number, and by the lowest where several apply.
fn refused(random: &mut Xorshift) -> Vec<(u32, Vec<u8>)> {
    let first = order(random.pick(&STARTS), any(random) as u32, any(random) as u32);
    let frame = frame_record(random.pick(&STARTS), &damaged(random));
    let mut pieces = vec![];
    for record in [&first, &frame] {
        let right = record[KIND_PLACE];
        let whole = record.len();
        let mut headed = |number, version, kind, length: usize| {
            let spoilt = spoilt(&spoilt(record, VERSION_PLACE, version), KIND_PLACE, kind);
            pieces.push((number, spoilt[..length].to_vec()));
        };
        for length in (1..12).chain([whole - 1]) {
            headed(6, 1, right, length);
        }
        for (version, kind) in [(0, right), (1, 2), (2, right ^ 1)] {
            for length in [3, 5, 6, whole - 1] {
                headed(6, version, kind, length);
            }
        }
        // Of an order every byte, of a frame some.
        let few = [0, 1, 2, 3, 6, 9, 10, 0x7F, 0x80, 0x81, 0xFE, 0xFF];
        for other in 0..=255 {
            if record == &frame && !few.contains(&other) {
                continue;
            }
            if other != 1 {
                headed(8, other, random.pick(&[right, right ^ 1, other]), whole);
            }
            if other != right {
                headed(9, 1, other, whole);
            }
        }
        for length in unlawful(random) {
            let mut long = record.clone();
            long[..4].copy_from_slice(&length.to_be_bytes());
            let kept = random.pick(&[4, 5, 6, 9, 17, 18, whole]);
            pieces.push((7, long[..kept.min(whole)].to_vec()));
        }
    }
    // Behind a head that is refused there may be anything, and whole records too: 22 comes last.
    for (number, piece) in pieces.clone() {
        if number > 6 && random.below(4) == 0 {
            let more = random.below(40) as usize;
            pieces.push((number, [&piece[..], &random.bytes(more)].concat()));
            pieces.push((number, [&piece[..], &first].concat()));
        }
        if number > 6 && random.below(16) == 0 {
            pieces.push((number, [piece, frame.clone()].concat()));
        }
    }
    pieces
}

/// By 6 to 9: before the order, going on, and not where the run was stopped.
fn by_records<W: Write>(calls: &mut Calls<W>, random: &mut Xorshift) -> io::Result<()> {
    for (number, piece) in refused(random) {
        for phase in [UNORDERED, GOING] {
            let account = match random.below(2) {
                0 => small(random),
                _ => odd_account(random),
            };
            let before = Kept {
                account,
                ..odd_run(random, phase)
            };
            let stopped = must(calls, number, &before, &piece)?;
            if random.below(4) == 0 {
                must(calls, 0, &stopped, &piece)?;
                must_not(calls, random, &before, &piece)?;
            }
        }
    }
    Ok(())
}

/// What the entry of a frame, with so many words of fill, adds to accepted, missing and the tallies;
/// of any store.
fn added(symbols: &Symbols, fill: usize, d: u64) -> [u64; 6] {
    let (mut lanes, mut flags) = ([0; LANES_BYTES], [0; FRAME_WORDS]);
    match receive(symbols, &mut [0; STORE_BYTES], &mut lanes, &mut flags) {
        0 => {
            let [clean, one, two, flagged] = count_flags(&flags[fill..]);
            [1, d, clean, one, two, flagged]
        }
        _ => [0, d + 1, 0, 0, 0, 0],
    }
}

/// By 10 and 11, with lock and without, alone and at once; limits just met are no refusal, nor is
/// anything before an order or where the run was stopped.
fn by_entries<W: Write>(calls: &mut Calls<W>, random: &mut Xorshift) -> io::Result<()> {
    for symbols in [damaged(random), lost(random)] {
        for (d, from_start) in [0, 1, 2, 999_999, LATE, LATE + 1, u32::MAX]
            .into_iter()
            .flat_map(|d| [(d, 0), (d, 1), (d, 2 + d)])
        {
            let late = d >= LATE;
            let fill = fill_words(0, from_start);
            let more = added(&symbols, fill, if late { 0 } else { d.into() });
            // All at their limits after the entry, all small, and one above beside both.
            let met = [0, 1, 2, 3, 4, 5].map(|which| MOST[which] - more[which]);
            let mut cases = vec![(false, met), (false, [0; 6])];
            for which in 0..6 {
                for others in [met, [0; 6]] {
                    for (above, by) in [(false, 0), (true, 1), (true, more[which].max(1))] {
                        let mut numbers = others;
                        numbers[which] = met[which] + by;
                        cases.push((above, numbers));
                    }
                }
            }
            for (above, numbers) in cases {
                let expected = random.pick(&STARTS);
                let got = expected.wrapping_add(d);
                let start = got.wrapping_sub(from_start);
                let before = Kept {
                    account: account(expected, start, numbers),
                    ..odd_run(random, GOING)
                };
                let record = frame_record(got, &symbols);
                let number = match (late, above) {
                    (true, _) => 10,
                    (false, true) => 11,
                    (false, false) => 0,
                };
                let after = must(calls, number, &before, &record)?;
                if random.below(4) == 0 {
                    // Once more: late now where it was entered, and no more where it was refused.
                    let again = if number == 0 { 10 } else { 0 };
                    must(calls, again, &after, &record)?;
                    must_not(calls, random, &before, &record)?;
                    let phase = UNORDERED;
                    let first = must(calls, 0, &Kept { phase, ..before }, &record)?;
                    assert_eq!(first.phase, STOPPED);
                }
            }
        }
    }
    Ok(())
}

/// A second order has no number, whatever it says and wherever the account stands.
fn second_orders<W: Write>(calls: &mut Calls<W>, random: &mut Xorshift) -> io::Result<()> {
    for d in AHEAD {
        for account in [small(random), account(9, 7, MOST), odd_account(random)] {
            let before = Kept {
                account,
                ..odd_run(random, GOING)
            };
            let start = account.expected.wrapping_add(d);
            let record = order(start, before.asked, before.allowed);
            let after = must(calls, 0, &before, &record)?;
            assert_eq!(after.phase, STOPPED);
            must_not(calls, random, &before, &record)?;
        }
    }
    Ok(())
}

fn at_limits<W: Write>(calls: &mut Calls<W>, random: &mut Xorshift) -> io::Result<()> {
    let (good, bad) = (damaged(random), lost(random));
    let d = 1;
    let got = 9 + d as u32;
    for symbols in [&good, &bad] {
        for start in [7, got - 1, got] {
            let fill = fill_words(start, got);
            let more = added(symbols, fill, d);
            if symbols == &good && fill < FRAME_WORDS {
                assert!(more.iter().all(|&more| more > 0));
            }
            for which in 0..6 {
                for edge in edges(MOST[which], more[which]) {
                    let mut numbers = [7; 6];
                    numbers[which] = edge;
                    let mut run = Kept {
                        account: account(9, start, numbers),
                        ..odd_run(random, GOING)
                    };
                    let record = frame_record(got, symbols);
                    step(calls, &mut run, &record)?;
                }
            }
        }
        for expected in STARTS {
            for d in AHEAD {
                let got = expected.wrapping_add(d);
                let start = start_near(random, got);
                let mut run = Kept {
                    account: account(expected, start, [7; 6]),
                    ..odd_run(random, GOING)
                };
                let record = frame_record(got, symbols);
                step(calls, &mut run, &record)?;
            }
        }
    }
    Ok(())
}

/// A run as a host keeps it, stepped over the records of one capture.
struct Host<'a, W: Write> {
    calls: &'a mut Calls<W>,
    run: Kept,
    sender: [u8; STORE_BYTES],
    /// What the last step answered.
    told: u32,
}

impl<'a, W: Write> Host<'a, W> {
    fn new(calls: &'a mut Calls<W>, random: &mut Xorshift) -> io::Result<Self> {
        let mut run = odd_run(random, GOING);
        calls.run_open(&mut run)?;
        step(calls, &mut run, &[])?;
        Ok(Host {
            calls,
            run,
            sender: [0; STORE_BYTES],
            told: 0,
        })
    }

    /// Asks for a record as far as it is wanted, steps over it, and tells the verdict.
    fn step(&mut self, random: &mut Xorshift, record: &[u8]) -> io::Result<u32> {
        let head = record.len().min(4);
        self.calls.wanted(&record[..head])?;
        self.told = step(self.calls, &mut self.run, record)?;
        let mut text = random.bytes(ROOM);
        self.calls.run_report(&self.run, &mut text)?;
        self.calls.run_verdict(&self.run)
    }

    fn frame(
        &mut self,
        random: &mut Xorshift,
        number: u32,
        damage: impl Fn(&mut Xorshift, &mut Symbols),
    ) -> io::Result<u32> {
        let mut symbols = sent(random, &mut self.sender);
        damage(random, &mut symbols);
        self.step(random, &frame_record(number, &symbols))
    }
}

/// Frames in order, of which every tenth has a flagged word, the first among its fill, and the second
/// frame this word; the verdict turns at the last.
fn measured<W: Write>(calls: &mut Calls<W>, random: &mut Xorshift) -> io::Result<()> {
    for (start, count, allowed, of_second, last) in [
        (u32::MAX - 99, 300, 29, 63, PASS),
        (7, 60, 5, 64, FAIL),
        (0, 1, u32::MAX, 0, NOT_MEASURED),
        (u32::MAX, 2, 0, 63, PASS),
        (u32::MAX - 1, 2, 0, 64, FAIL),
        (5, 2, 1, 383, PASS),
    ] {
        let mut host = Host::new(calls, random)?;
        assert_eq!(
            host.step(random, &order(start, count, allowed))?,
            NOT_MEASURED
        );
        for n in 0..count {
            let flagged = match n {
                1 => Some(of_second),
                _ if n % 10 == 0 => Some(0),
                _ => None,
            };
            let number = start.wrapping_add(n);
            let verdict = host.frame(random, number, |random, symbols| {
                for word in random.choose(FRAME_WORDS, 40) {
                    if flagged != Some(word) {
                        flip_any(random, symbols, word, 1 + word % 2);
                    }
                }
                if let Some(word) = flagged {
                    flip_any(random, symbols, word, 3);
                }
            })?;
            assert_eq!(verdict, if n + 1 < count { NOT_MEASURED } else { last });
        }
        // Nothing more may come: an empty piece changes nothing, and a byte stops the run.
        assert_eq!(host.step(random, &[])?, last);
        assert_eq!(host.step(random, &[0])?, NOT_MEASURED);
        assert_eq!(host.told, 6);
        let stopped = host.run;
        host.frame(random, start.wrapping_add(count), |_, _| ())?;
        host.step(random, &order(start, count, allowed))?;
        host.step(random, &[0])?;
        assert_eq!((host.run, host.told), (stopped, 0));
    }
    Ok(())
}

/// Hundreds of frames with gaps and losses round 2^32, stopped at last by a late one.
fn disturbed<W: Write>(calls: &mut Calls<W>, random: &mut Xorshift) -> io::Result<()> {
    let mut host = Host::new(calls, random)?;
    host.step(random, &order(u32::MAX - 150, 300, u32::MAX))?;
    for n in 0..300 {
        let ahead = if random.below(8) == 0 {
            random.below(4) as u32
        } else {
            0
        };
        let number = host.run.account.expected.wrapping_add(ahead);
        let wrong = random.pick(&[0, 1, 23, 24, 24, 25, 26]);
        host.frame(random, number, |random, symbols| {
            damage_words(random, symbols, 0, n % 7);
            damage_pilots(random, symbols, wrong);
        })?;
        assert_eq!((host.run.phase, host.told), (GOING, 0));
    }
    let late = host.run.account.expected.wrapping_sub(1);
    host.frame(random, late, |_, _| ())?;
    assert_eq!((host.run.phase, host.told), (STOPPED, 10));
    for _ in 0..5 {
        let next = host.run.account.expected;
        host.frame(random, next, |_, _| ())?;
    }
    Ok(())
}

/// Short runs of any records.
fn arbitrary<W: Write>(calls: &mut Calls<W>, random: &mut Xorshift) -> io::Result<()> {
    for _ in 0..60 {
        let mut host = Host::new(calls, random)?;
        if random.below(8) > 0 {
            let start = random.pick(&STARTS);
            host.step(random, &order(start, 2, 400))?;
        }
        for _ in 0..4 {
            let next = host.run.account.expected;
            if random.below(2) == 0 {
                host.frame(random, next, |_, _| ())?;
            } else {
                let pieces = pieces(random, next);
                let which = random.below(pieces.len() as u64) as usize;
                host.step(random, &pieces[which])?;
            }
        }
        if random.below(4) == 0 {
            host.calls.run_stop(&mut host.run)?;
            let next = host.run.account.expected;
            host.frame(random, next, |_, _| ())?;
        }
    }
    Ok(())
}

pub fn write<W: Write>(calls: &mut Calls<W>, random: &mut Xorshift) -> io::Result<()> {
    from_every_phase(calls, random)?;
    with_more_behind(calls, random)?;
    in_pieces(calls, random)?;
    by_records(calls, random)?;
    by_entries(calls, random)?;
    second_orders(calls, random)?;
    at_limits(calls, random)?;
    measured(calls, random)?;
    disturbed(calls, random)?;
    arbitrary(calls, random)
}

#[cfg(test)]
mod tests {
    use super::*;

    #[test]
    fn records_are_refused_by_the_numbers_beside_them() {
        let mut counts = [0; 4];
        for (number, piece) in refused(&mut Xorshift::new(5)) {
            assert_eq!(read(&piece, 0).refusal, number);
            counts[number as usize - 6] += 1;
        }
        assert!(counts.iter().all(|&count| count > 40), "{counts:?}");
    }
}
