//! The account of a run, and the verdict on it.

use crate::lanes::LANES;
use crate::word::FRAME_WORDS;

/// A frame so far ahead of the expected one, or further, is late.
pub const LATE: u32 = 1 << 31;
/// Neither accepted nor missing frames may stand above it after an entry.
pub const MOST_FRAMES: u64 = 1_000_000;
/// No tally may stand above it after an entry.
pub const MOST_WORDS: u64 = 384_000_000;

/// The words of each lane, from the start of a run on, that carry the sender's starting zeros.
const FILL_LANE_WORDS: usize = 14;
/// Those of all lanes: the first frame, and two words of each lane of the second.
pub const FILL_WORDS: usize = LANES * FILL_LANE_WORDS;

pub const NOT_MEASURED: u32 = 0;
pub const PASS: u32 = 1;
pub const FAIL: u32 = 2;

/// A stored account may hold any numbers.
#[derive(Clone, Copy, Debug, PartialEq, Eq)]
pub struct Account {
    pub expected: u32,
    /// The number with which the run began; no entry changes it.
    pub start: u32,
    pub accepted: u64,
    pub missing: u64,
    pub clean: u64,
    pub one: u64,
    pub two: u64,
    pub flagged: u64,
}

/// The account with these numbers besides: accepted, missing and the tallies.
pub fn account(
    expected: u32,
    start: u32,
    [accepted, missing, clean, one, two, flagged]: [u64; 6],
) -> Account {
    Account {
        expected,
        start,
        accepted,
        missing,
        clean,
        one,
        two,
        flagged,
    }
}

/// Accepted, missing and the tallies.
pub fn numbers(account: Account) -> [u64; 6] {
    let [clean, one, two, flagged] = tallies(account);
    [account.accepted, account.missing, clean, one, two, flagged]
}

/// The account of a new order.
pub fn opened(start: u32) -> Account {
    account(start, start, [0; 6])
}

/// Its tallies as `enter` and `verdict` take them.
pub fn tallies(account: Account) -> [u64; 4] {
    [account.clean, account.one, account.two, account.flagged]
}

/// How many words of a frame, the first in the order of its flags, are fill and not tallied. It goes
/// by the numbers alone, also where the frame at the start was lost or is missing.
pub fn fill_words(start: u32, number: u32) -> usize {
    match number.wrapping_sub(start) {
        0 => FRAME_WORDS,
        1 => FILL_WORDS - FRAME_WORDS,
        _ => 0,
    }
}

/// The tallies by these flags; one above 3 counts nowhere, so that they do not add up.
pub fn count_flags(flags: &[u8]) -> [u64; 4] {
    [0, 1, 2, 3].map(|number| flags.iter().filter(|&&flag| flag == number).count() as u64)
}

fn total(tallies: [u64; 4]) -> u128 {
    tallies.into_iter().map(u128::from).sum()
}

fn grown(stands: u64, by: u64, most: u64) -> Option<u64> {
    stands.checked_add(by).filter(|&after| after <= most)
}

/// The account with so much more, where none of its numbers then stands above its limit.
fn moved(
    account: Account,
    got: u32,
    accepted: u64,
    missing: u64,
    [clean, one, two, flagged]: [u64; 4],
) -> Option<Account> {
    Some(Account {
        expected: got.wrapping_add(1),
        start: account.start,
        accepted: grown(account.accepted, accepted, MOST_FRAMES)?,
        missing: grown(account.missing, missing, MOST_FRAMES)?,
        clean: grown(account.clean, clean, MOST_WORDS)?,
        one: grown(account.one, one, MOST_WORDS)?,
        two: grown(account.two, two, MOST_WORDS)?,
        flagged: grown(account.flagged, flagged, MOST_WORDS)?,
    })
}

/// Enters a frame: its tallied words clean, with one bit mended, with two, and flagged. Gives 0 and
/// the account after it, or the number of the refusal and the account as it was.
pub fn enter(account: Account, got: u32, tallies: [u64; 4]) -> (u32, Account) {
    let d = got.wrapping_sub(account.expected);
    if d >= LATE {
        return (10, account);
    }
    let due = FRAME_WORDS - fill_words(account.start, got);
    match moved(account, got, 1, u64::from(d), tallies) {
        None => (11, account),
        Some(_) if total(tallies) != due as u128 => (12, account),
        Some(after) => (0, after),
    }
}

/// The same by the frame's flag bytes, which must be one for each word; those of fill are not
/// looked at.
pub fn enter_flags(account: Account, got: u32, flags: &[u8]) -> (u32, Account) {
    if flags.len() != FRAME_WORDS {
        return (4, account);
    }
    let tallied = &flags[fill_words(account.start, got)..];
    enter(account, got, count_flags(tallied))
}

/// Enters the loss of a frame without lock: it is missing, as are those before it.
pub fn lose(account: Account, got: u32) -> (u32, Account) {
    let d = got.wrapping_sub(account.expected);
    if d >= LATE {
        return (10, account);
    }
    match moved(account, got, 0, u64::from(d) + 1, [0; 4]) {
        None => (11, account),
        Some(after) => (0, after),
    }
}

/// The verdict on any numbers, the tallies as in `enter`; a stopped run is never measured, nor is one
/// of a single frame. The right total is told by an addition: one frame has fewer words than are
/// fill.
pub fn verdict(
    asked: u32,
    allowed: u32,
    accepted: u64,
    missing: u64,
    tallies: [u64; 4],
    stopped: bool,
) -> u32 {
    let measured = !stopped
        && asked >= 2
        && accepted == u64::from(asked)
        && missing == 0
        && total(tallies) + FILL_WORDS as u128 == FRAME_WORDS as u128 * u128::from(accepted);
    if !measured {
        NOT_MEASURED
    } else if tallies[3] <= u64::from(allowed) {
        PASS
    } else {
        FAIL
    }
}

#[cfg(test)]
mod tests {
    use super::*;
    use crate::xorshift::Xorshift;

    const CLEAN: [u64; 4] = [384, 0, 0, 0];
    const MIXED: [u64; 4] = [300, 50, 30, 4];
    /// Of the frame at the start, and of the next.
    const NONE: [u64; 4] = [0; 4];
    const NEXT: [u64; 4] = [250, 40, 27, 3];

    /// A start far from every number below, so that all words of every frame are tallied.
    const FAR: u32 = 1 << 30;

    /// A run that began long ago.
    fn later(expected: u32, numbers: [u64; 6]) -> Account {
        account(expected, FAR, numbers)
    }

    /// A frame with its tallies, or a loss.
    fn entry(before: Account, got: u32, frame: Option<[u64; 4]>) -> (u32, Account) {
        match frame {
            Some(tallies) => enter(before, got, tallies),
            None => lose(before, got),
        }
    }

    fn refused(number: u32, before: Account, got: u32, frame: Option<[u64; 4]>) {
        assert_eq!(
            entry(before, got, frame),
            (number, before),
            "{got} {frame:?}"
        );
    }

    fn done(before: Account, got: u32, frame: Option<[u64; 4]>, after: Account) {
        assert_eq!(entry(before, got, frame), (0, after), "{got} {frame:?}");
    }

    /// Whether word k of each lane of a frame is tallied: it is word 12 n + k of its lane where the
    /// frame is n after the start, and word 14 is the first that has no fill.
    fn tallied_by_rule(start: u32, number: u32, k: usize) -> bool {
        let n = (i128::from(number) - i128::from(start)).rem_euclid(1 << 32);
        12 * n + k as i128 >= 14
    }

    fn due_by_rule(start: u32, number: u32) -> i128 {
        let tallied = (0..12).filter(|&k| tallied_by_rule(start, number, k));
        32 * tallied.count() as i128
    }

    /// The tallies of a frame, word by word.
    fn tallies_by_rule(start: u32, number: u32, flags: &[u8]) -> [u64; 4] {
        let mut tallies = [0; 4];
        for (place, &flag) in flags.iter().enumerate() {
            if flag <= 3 && tallied_by_rule(start, number, place / 32) {
                tallies[usize::from(flag)] += 1;
            }
        }
        tallies
    }

    /// The same in whole numbers without a width, from the list of refusals.
    fn entry_by_rule(before: Account, got: u32, frame: Option<[u64; 4]>) -> (u32, Account) {
        let round = 1i128 << 32;
        let d = (i128::from(got) - i128::from(before.expected)).rem_euclid(round);
        let mut after = numbers(before).map(i128::from);
        match frame {
            Some(tallies) => {
                after[0] += 1;
                after[1] += d;
                for (number, tally) in after[2..].iter_mut().zip(tallies) {
                    *number += i128::from(tally);
                }
            }
            None => after[1] += d + 1,
        }
        let frame_total = frame.map(|tallies| tallies.map(i128::from).iter().sum::<i128>());
        let due = due_by_rule(before.start, got);
        let refusals = [
            (10, d >= 2_147_483_648),
            (11, after[..2].iter().any(|&number| number > 1_000_000)),
            (11, after[2..].iter().any(|&number| number > 384_000_000)),
            (12, frame_total.is_some_and(|total| total != due)),
        ];
        match refusals.iter().find(|(_, applies)| *applies) {
            Some(&(number, _)) => (number, before),
            None => {
                let expected = (i128::from(got) + 1).rem_euclid(round) as u32;
                let after = after.map(|number| number as u64);
                (0, account(expected, before.start, after))
            }
        }
    }

    /// Tallies with this total, in any parts.
    fn in_parts(random: &mut Xorshift, total: u64) -> [u64; 4] {
        let clean = random.below(total + 1);
        let one = random.below(total + 1 - clean);
        let two = random.below(total + 1 - clean - one);
        [clean, one, two, total - clean - one - two]
    }

    /// Where numbers run round, and any.
    fn starts(random: &mut Xorshift) -> Vec<u32> {
        [0, 1, u32::MAX, u32::MAX - 1]
            .into_iter()
            .chain((0..50).map(|_| random.next_u64() as u32))
            .collect()
    }

    #[test]
    fn a_frame_and_a_loss_move_the_account() {
        let new = opened(7);
        assert_eq!(new, account(7, 7, [0; 6]));
        let first = account(8, 7, [1, 0, 0, 0, 0, 0]);
        done(new, 7, Some(NONE), first);
        let second = account(9, 7, [2, 0, 250, 40, 27, 3]);
        done(first, 8, Some(NEXT), second);
        let third = account(10, 7, [3, 0, 550, 90, 57, 7]);
        done(second, 9, Some(MIXED), third);
        // Frames 10 to 12 are missing, and frame 13 is accepted.
        let gap = account(14, 7, [4, 3, 934, 90, 57, 7]);
        done(third, 13, Some(CLEAN), gap);
        // Frames 14 and 15 are missing, and frame 16 has no lock.
        done(gap, 16, None, account(17, 7, [4, 6, 934, 90, 57, 7]));
        done(gap, 14, None, account(15, 7, [4, 4, 934, 90, 57, 7]));
    }

    #[test]
    fn how_many_words_are_fill() {
        assert_eq!(FILL_WORDS, 448);
        let mut random = Xorshift::new(44);
        for start in starts(&mut random) {
            for (after, fill) in [
                (0, 384),
                (1, 64),
                (2, 0),
                (3, 0),
                (1 << 31, 0),
                ((1 << 31) + 1, 0),
                (u32::MAX - 1, 0),
                (u32::MAX, 0),
            ] {
                assert_eq!(fill_words(start, start.wrapping_add(after)), fill);
            }
            let any = random.next_u64() as u32;
            let due = 384 - fill_words(start, any) as i128;
            assert_eq!(due, due_by_rule(start, any));
        }
    }

    /// 0, 320 or 384, by the number of the frame and whatever the account holds.
    #[test]
    fn what_is_due_to_a_number() {
        let mut random = Xorshift::new(45);
        for start in starts(&mut random) {
            for (got, due) in [
                (start, 0),
                (start.wrapping_add(1), 320),
                (start.wrapping_add(2), 384),
                (start.wrapping_sub(1), 384),
            ] {
                for d in [0, 1, 2, 1_000] {
                    let numbers = [9, 8, 700, 600, 500, 400];
                    let before = account(got.wrapping_sub(d), start, numbers);
                    for total in [0, 1, 63, 64, 319, 320, 321, 383, 384, 385, 448, 704, 768] {
                        let frame = Some(in_parts(&mut random, total));
                        if total != due {
                            refused(12, before, got, frame);
                            continue;
                        }
                        let (number, after) = entry(before, got, frame);
                        assert_eq!((number, after), entry_by_rule(before, got, frame));
                        assert_eq!((number, after.start, after.accepted), (0, start, 10));
                        let grown = super::total(tallies(after)) - super::total(tallies(before));
                        assert_eq!(grown, u128::from(due));
                    }
                    let (number, after) = lose(before, got);
                    assert_eq!((number, after.start), (0, start));
                    assert_eq!(tallies(after), tallies(before));
                }
            }
        }
    }

    /// The number decides, not how many frames came before.
    #[test]
    fn the_start_frame_lost_or_missing() {
        let mut random = Xorshift::new(46);
        for start in starts(&mut random) {
            let [next, third, fourth] = [1, 2, 3].map(|n| start.wrapping_add(n));
            let lost = account(next, start, [0, 1, 0, 0, 0, 0]);
            done(opened(start), start, None, lost);
            let both_lost = account(third, start, [0, 2, 0, 0, 0, 0]);
            done(lost, next, None, both_lost);
            // The next frame, behind the loss or a gap.
            for before in [lost, opened(start)] {
                let after = account(third, start, [1, 1, 250, 40, 27, 3]);
                done(before, next, Some(NEXT), after);
                refused(12, before, next, Some(NONE));
                refused(12, before, next, Some(CLEAN));
            }
            // The one behind it.
            for before in [both_lost, lost, opened(start)] {
                let after = account(fourth, start, [1, 2, 300, 50, 30, 4]);
                done(before, third, Some(MIXED), after);
                refused(12, before, third, Some(NONE));
                refused(12, before, third, Some(NEXT));
            }
            // The start frame measured, and the next lost or missing.
            let first = account(next, start, [1, 0, 0, 0, 0, 0]);
            done(opened(start), start, Some(NONE), first);
            let (number, next_lost) = lose(first, next);
            assert_eq!(number, 0);
            for before in [first, next_lost] {
                let after = account(fourth, start, [2, 1, 300, 50, 30, 4]);
                done(before, third, Some(MIXED), after);
            }
        }
    }

    /// A stored account may expect the start once more: nothing but the number decides then either.
    #[test]
    fn numbers_that_come_round_to_the_start() {
        let mut random = Xorshift::new(47);
        for start in starts(&mut random) {
            let [before, next, third] = [u32::MAX, 1, 2].map(|n| start.wrapping_add(n));
            let stored = [70, 0, 26_000, 400, 30, 2];
            let round = account(start, start, [71, 0, 26_384, 400, 30, 2]);
            let last = account(before, start, stored);
            done(last, before, Some(CLEAN), round);
            let again = account(next, start, [72, 0, 26_384, 400, 30, 2]);
            done(round, start, Some(NONE), again);
            refused(12, round, start, Some(CLEAN));
            let on = account(third, start, [73, 0, 26_634, 440, 57, 5]);
            done(again, next, Some(NEXT), on);
            refused(12, again, next, Some(CLEAN));
            assert_eq!(enter(on, third, CLEAN).0, 0);
            // Over the start by a gap.
            let over = account(third, start, [71, 2, 26_250, 440, 57, 5]);
            done(last, next, Some(NEXT), over);
        }
    }

    #[test]
    fn flags_are_counted() {
        assert_eq!(count_flags(&[0; 384]), [384, 0, 0, 0]);
        assert_eq!(count_flags(&[3; 384]), [0, 0, 0, 384]);
        assert_eq!(count_flags(&[1; 320]), [0, 320, 0, 0]);
        assert_eq!(count_flags(&[]), [0; 4]);
        let mut flags = [1; 384];
        flags[..30].fill(0);
        flags[100] = 3;
        flags[380..].fill(2);
        assert_eq!(count_flags(&flags), [30, 349, 4, 1]);
        for odd in [4, 5, 128, 255] {
            flags[383] = odd;
            assert_eq!(count_flags(&flags), [30, 349, 3, 1]);
            refused(12, later(0, [0; 6]), 0, Some(count_flags(&flags)));
        }
    }

    /// Only the flags of tallied words are looked at, place by place.
    #[test]
    fn flags_of_fill_do_not_count() {
        let mut random = Xorshift::new(48);
        for start in [0, 1, u32::MAX, u32::MAX - 1, random.next_u64() as u32] {
            for (after, first_tallied) in [(0, 384), (1, 64), (2, 0), (u32::MAX, 0)] {
                let number = start.wrapping_add(after);
                let before = account(number, start, [5, 0, 40, 30, 20, 10]);
                for place in 0..384 {
                    for flag in [0, 1, 2, 3, 4, 5, 128, 255] {
                        let mut flags = [0; 384];
                        flags[place] = flag;
                        let mut right = numbers(before);
                        right[0] += 1;
                        right[2] += 384 - first_tallied as u64;
                        let tallied = place >= first_tallied;
                        let refusal = if tallied && flag > 3 { 12 } else { 0 };
                        if tallied && flag <= 3 {
                            right[2] -= 1;
                            right[2 + usize::from(flag)] += 1;
                        }
                        let right = match refusal {
                            0 => account(number.wrapping_add(1), start, right),
                            _ => before,
                        };
                        assert_eq!(enter_flags(before, number, &flags), (refusal, right));
                    }
                }
            }
        }
    }

    #[test]
    fn arbitrary_flags_follow_the_rule() {
        let mut random = Xorshift::new(49);
        let mut seen = [[0; 13]; 3];
        for _ in 0..60_000 {
            let start = random.next_u64() as u32;
            let after = random.pick(&[0, 0, 1, 1, 2, 3, u32::MAX, start]);
            let number = start.wrapping_add(after);
            let full = random.pick(&[383_999_616, 383_999_680, 383_999_999, 384_000_000]);
            let clean = random.pick(&[0, 0, 7, full]);
            let expected = number.wrapping_sub(random.pick(&[0, 0, 0, 1, u32::MAX]));
            let before = account(expected, start, [3, 2, clean, 1, 2, 3]);
            let mut flags = [0; 384];
            let most = random.pick(&[1, 4, 4]);
            flags.fill_with(|| random.below(most) as u8);
            for _ in 0..random.pick(&[0, 0, 1, 2]) {
                let near = random.pick(&[384, 66]);
                flags[random.below(near) as usize] = 4 + random.below(252) as u8;
            }
            let answer = enter_flags(before, number, &flags);
            let tallies = tallies_by_rule(start, number, &flags);
            assert_eq!(answer, entry_by_rule(before, number, Some(tallies)));
            seen[after.min(2) as usize][answer.0 as usize] += 1;
        }
        for (after, seen) in seen.iter().enumerate() {
            assert!(seen[0] > 1_000 && seen[10] > 1_000, "{seen:?}");
            assert_eq!(seen[11] > 1_000, after > 0, "{seen:?}");
            assert_eq!(seen[12] > 1_000, after > 0, "{seen:?}");
        }
    }

    #[test]
    fn flags_must_be_one_for_each_word() {
        let before = later(9, [5, 4, 300, 200, 100, 50]);
        let mut flags = [0; 384];
        flags[7..9].fill(3);
        flags[383] = 1;
        let after = later(12, [6, 6, 681, 201, 100, 52]);
        assert_eq!(enter_flags(before, 11, &flags), (0, after));
        // Too few or too many are told first, before a late number, a limit and a byte above 3.
        flags[0] = 4;
        let above = later(9, [1_000_000, 0, 0, 0, 0, 0]);
        // Also as many as are tallied, where that is none or 320.
        for length in [0, 1, 320, 383, 385, 704, 768, 6_144] {
            let flags: Vec<u8> = flags.into_iter().cycle().take(length).collect();
            for (before, got) in [(before, 9), (before, 8), (above, 9), (above, 8)] {
                for start in [FAR, got, got.wrapping_sub(1)] {
                    let before = Account { start, ..before };
                    assert_eq!(enter_flags(before, got, &flags), (4, before));
                }
            }
        }
        assert_eq!(enter_flags(above, 8, &flags), (10, above));
        assert_eq!(enter_flags(above, 9, &flags), (11, above));
        assert_eq!(enter_flags(before, 9, &flags), (12, before));
    }

    #[test]
    fn numbers_run_round() {
        let last = u32::MAX;
        let after_last = account(0, last, [1, 0, 0, 0, 0, 0]);
        done(opened(last), last, Some(NONE), after_last);
        let next = account(1, last, [2, 0, 250, 40, 27, 3]);
        done(after_last, 0, Some(NEXT), next);
        done(
            next,
            1,
            Some(CLEAN),
            account(2, last, [3, 0, 634, 40, 27, 3]),
        );
        done(after_last, 0, None, account(1, last, [1, 1, 0, 0, 0, 0]));
        done(
            opened(last),
            last,
            None,
            account(0, last, [0, 1, 0, 0, 0, 0]),
        );
        // A gap over the end, and a number before it when the expected one is behind it.
        let before_last = opened(last - 1);
        let gap = account(2, last - 1, [1, 3, 384, 0, 0, 0]);
        done(before_last, 1, Some(CLEAN), gap);
        let lost = account(2, last - 1, [0, 4, 0, 0, 0, 0]);
        done(before_last, 1, None, lost);
        for frame in [Some(CLEAN), Some(NONE), None] {
            refused(10, after_last, last, frame);
            refused(10, opened(1), 0, frame);
        }
    }

    #[test]
    fn the_same_number_twice_is_late() {
        for start in [0, 1, 5, (1 << 31) - 1, 1 << 31, u32::MAX - 1, u32::MAX] {
            for first in [Some(NONE), None] {
                let (number, after) = entry(opened(start), start, first);
                assert_eq!(number, 0);
                for again in [Some(NONE), Some(MIXED), None] {
                    refused(10, after, start, again);
                }
            }
        }
    }

    #[test]
    fn late_begins_at_half_the_round() {
        for start in [0, 1, 1_000, (1 << 31) - 1, 1 << 31, (1 << 31) + 1, u32::MAX] {
            for frame in [Some(CLEAN), Some([0; 4]), None] {
                for before in [opened(start), later(start, [0; 6])] {
                    refused(11, before, start.wrapping_add((1 << 31) - 1), frame);
                    refused(10, before, start.wrapping_add(1 << 31), frame);
                    refused(10, before, start.wrapping_add((1 << 31) + 1), frame);
                    refused(10, before, start.wrapping_sub(1), frame);
                }
            }
        }
    }

    #[test]
    fn a_gap_at_the_limit_and_beyond() {
        let million = 1_000_000u32;
        for start in [0, 9, u32::MAX - 500_000, u32::MAX] {
            let ahead = |d: u32| start.wrapping_add(d);
            let most = 1_000_000;
            let frame = account(ahead(million + 1), start, [1, most, 384, 0, 0, 0]);
            done(opened(start), ahead(million), Some(CLEAN), frame);
            refused(11, opened(start), ahead(million + 1), Some(CLEAN));
            let loss = account(ahead(million), start, [0, most, 0, 0, 0, 0]);
            done(opened(start), ahead(million - 1), None, loss);
            refused(11, opened(start), ahead(million), None);
            // Nothing more may then be missing, but frames in order are accepted.
            refused(11, loss, ahead(million), None);
            refused(11, loss, ahead(million + 1), Some(CLEAN));
            let next = account(ahead(million + 1), start, [1, most, 384, 0, 0, 0]);
            done(loss, ahead(million), Some(CLEAN), next);
        }
    }

    /// What each number of an account may hold at most before the entry for it to be done.
    #[test]
    fn every_number_at_its_limit_and_beyond() {
        let (d, got) = (2, 5);
        let loss = [0, d + 1, 0, 0, 0, 0];
        // The start, and the tallies that are then due to the frame.
        for (start, tallies) in [(got, NONE), (got - 1, NEXT), (got + 1, MIXED), (FAR, MIXED)] {
            let [clean, one, two, flagged] = tallies;
            let frame = [1, d, clean, one, two, flagged];
            let stored = |expected, numbers| account(expected, start, numbers);
            let limits = [1_000_000, 1_000_000].into_iter().chain([384_000_000; 4]);
            for (which, limit) in limits.enumerate() {
                for (grows, frame) in [(frame, Some(tallies)), (loss, None)] {
                    let mut before = [0; 6];
                    before[which] = limit - grows[which];
                    let mut after = grows;
                    after[which] = limit;
                    done(stored(3, before), got, frame, stored(6, after));
                    // One beyond it, also where the entry does not move this number.
                    for beyond in [limit - grows[which] + 1, limit + 1, 1 << 32, u64::MAX] {
                        before[which] = beyond;
                        refused(11, stored(3, before), got, frame);
                    }
                }
            }
            let all = [
                1_000_000,
                1_000_000,
                384_000_000,
                384_000_000,
                384_000_000,
                384_000_000,
            ];
            let before: Vec<u64> = all.iter().zip(frame).map(|(most, by)| most - by).collect();
            let before = stored(3, before.try_into().unwrap());
            done(before, got, Some(tallies), stored(6, all));
        }
    }

    #[test]
    fn tallies_must_add_up() {
        let full = [CLEAN, MIXED, [0, 0, 0, 384], [96; 4], [0, 384, 0, 0]];
        let next = [NEXT, [320, 0, 0, 0], [80; 4], [0, 0, 0, 320]];
        let lawful = full
            .map(|tallies| (FAR, tallies))
            .into_iter()
            .chain(next.map(|tallies| (u32::MAX, tallies)))
            .chain([(0, NONE)]);
        for (start, tallies) in lawful {
            let [clean, one, two, flagged] = tallies;
            let before = account(0, start, [0; 6]);
            let after = account(1, start, [1, 0, clean, one, two, flagged]);
            done(before, 0, Some(tallies), after);
            for which in 0..4 {
                for by in [1, 64, 320, 384] {
                    let mut more = tallies;
                    more[which] += by;
                    refused(12, before, 0, Some(more));
                    let mut less = tallies;
                    if less[which] >= by {
                        less[which] -= by;
                        refused(12, before, 0, Some(less));
                    }
                }
            }
        }
        for tallies in [[0; 4], [383, 0, 0, 0], [384; 4], [384_000_000; 4]] {
            refused(12, later(0, [0; 6]), 0, Some(tallies));
        }
        for before in [opened(0), later(0, [0; 6])] {
            refused(11, before, 0, Some([384_000_001, 0, 0, 0]));
        }
    }

    #[test]
    fn no_sum_wraps() {
        let max = u64::MAX;
        // Every place of a frame's tallies, in a fresh account and in a full one.
        for set in 1..16 {
            let tallies = [0, 1, 2, 3].map(|which| if set >> which & 1 == 1 { max } else { 384 });
            for before in [opened(0), later(0, [max; 6]), later(0, [1; 6])] {
                refused(11, before, 0, Some(tallies));
                refused(10, before, u32::MAX, Some(tallies));
            }
        }
        // Totals that are right but for 2^64, and sums that are small but for it.
        refused(11, later(0, [0; 6]), 0, Some([max, 385, 0, 0]));
        refused(11, later(0, [0; 6]), 0, Some([1 << 63, 1 << 63, 0, 384]));
        refused(11, opened(0), 0, Some([max, 1, 0, 0]));
        refused(11, opened(0), 0, Some([1 << 63, 1 << 63, 0, 0]));
        refused(11, later(0, [0, 0, max, 0, 0, 0]), 0, Some(CLEAN));
        refused(11, later(0, [max, 0, 0, 0, 0, 0]), 0, Some(CLEAN));
        refused(11, later(0, [0, max, 0, 0, 0, 0]), 1, Some(CLEAN));
        refused(11, later(0, [0, max, 0, 0, 0, 0]), 0, None);
        refused(
            11,
            later(0, [0, max - (1 << 31) + 1, 0, 0, 0, 0]),
            (1 << 31) - 1,
            None,
        );
    }

    #[test]
    fn the_lowest_refusal_is_given() {
        // Late or not, above a limit or not (each of the six), adding up or not.
        let above = [
            [1_000_000, 0, 0, 0, 0, 0],
            [0, 1_000_001, 0, 0, 0, 0],
            [0, 0, 384_000_001, 0, 0, 0],
            [0, 0, 0, 384_000_001, 0, 0],
            [0, 0, 0, 0, 384_000_001, 0],
            [0, 0, 0, 0, 0, 384_000_001],
        ];
        // How far the frame is from the start, and what is then due to it.
        for (from_start, due) in [(0, NONE), (1, NEXT), (2, CLEAN)] {
            for got in [9, 10] {
                for numbers in above.into_iter().chain([[0; 6]]) {
                    let frames = [NONE, NEXT, CLEAN, [383, 0, 0, 0], [385, 0, 0, 0]].map(Some);
                    for frame in frames.into_iter().chain([None]) {
                        let full = numbers[0] == 1_000_000 && frame.is_some();
                        let beyond = numbers[0] == 0 && numbers != [0; 6];
                        let before = account(10, got - from_start, numbers);
                        if got == 9 {
                            refused(10, before, got, frame);
                        } else if full || beyond {
                            refused(11, before, got, frame);
                        } else if frame.is_some_and(|tallies| tallies != due) {
                            refused(12, before, got, frame);
                        } else {
                            assert_eq!(entry(before, got, frame).0, 0);
                        }
                    }
                }
            }
        }
    }

    /// Numbers about the limits and the widths, and any number.
    fn some_number(random: &mut Xorshift) -> u64 {
        const ABOUT: [u64; 9] = [
            1,
            384,
            999_999,
            1_000_000,
            383_999_616,
            384_000_000,
            1 << 32,
            1 << 63,
            u64::MAX - 1,
        ];
        match random.below(8) {
            0 => random.next_u64() >> random.below(64),
            1 => ABOUT[random.below(9) as usize] - 1 + random.below(3),
            _ => random.below(100),
        }
    }

    /// Those due to this number, or at times others.
    fn some_tallies(random: &mut Xorshift, start: u32, number: u32) -> [u64; 4] {
        let total = match random.below(16) {
            0 => random.pick(&[0, 320, 384]),
            _ => due_by_rule(start, number) as u64,
        };
        let mut tallies = in_parts(random, total);
        if random.below(4) == 0 {
            tallies[random.below(4) as usize] = some_number(random);
        }
        tallies
    }

    #[test]
    fn arbitrary_accounts_follow_the_rule() {
        let mut random = Xorshift::new(41);
        let mut seen = [[0; 13]; 4];
        for _ in 0..400_000 {
            let expected = random.next_u64() as u32;
            let numbers = [(); 6].map(|()| some_number(&mut random));
            let d = match random.below(4) {
                0 => random.next_u64(),
                1 => (1 << 31) - 2 + random.below(4),
                _ => some_number(&mut random),
            };
            let got = expected.wrapping_add(d as u32);
            let start = match random.below(4) {
                0 => random.next_u64() as u32,
                1 => expected.wrapping_add(random.below(5) as u32),
                from => got.wrapping_sub(from as u32 - 2),
            };
            let before = account(expected, start, numbers);
            let frame = (random.below(2) == 0).then(|| some_tallies(&mut random, start, got));
            let answer = entry(before, got, frame);
            assert_eq!(answer, entry_by_rule(before, got, frame));
            let which = match frame {
                None => 3,
                Some(_) => got.wrapping_sub(start).min(2) as usize,
            };
            seen[which][answer.0 as usize] += 1;
        }
        for (which, seen) in seen.iter().enumerate() {
            for number in [0, 10, 11, 12] {
                let none = which == 3 && number == 12;
                assert_eq!(seen[number] > 1_000, !none, "{which}: {seen:?}");
            }
        }
    }

    #[test]
    fn the_laws_hold_from_a_new_order_on() {
        let mut random = Xorshift::new(42);
        let mut seen = [0; 13];
        let mut whole = 0;
        for run in 0..3_000 {
            let start = match run % 3 {
                0 => random.next_u64() as u32,
                1 => 0u32.wrapping_sub(random.below(200) as u32),
                _ => random.below(3) as u32,
            };
            // Of every two runs one has neither gap nor loss at first.
            let calm = if run % 2 == 0 { 100 } else { 0 };
            let mut now = opened(start);
            for n in 0..200 {
                let d = match random.below(20) {
                    _ if n < calm => 0,
                    0 => random.next_u64() as u32,
                    1 => random.below(1_100_000) as u32,
                    2..=4 => random.below(10) as u32,
                    5 => 0u32.wrapping_sub(random.below(10) as u32),
                    _ => 0,
                };
                let got = now.expected.wrapping_add(d);
                let frame = (n < calm || random.below(5) != 0)
                    .then(|| some_tallies(&mut random, start, got));
                let (number, after) = entry(now, got, frame);
                assert_eq!((number, after), entry_by_rule(now, got, frame));
                seen[number as usize] += 1;
                now = after;
                assert_eq!(now.start, start);
                let total = total(tallies(now));
                let words = 384 * u128::from(now.accepted);
                assert!(total <= words && words <= total + 448);
                if now.missing == 0 && now.accepted >= 2 {
                    assert_eq!(total + 448, words);
                    whole += 1;
                }
                if now.accepted <= 1 && now.missing == 0 {
                    assert_eq!(total, 0);
                }
                let went = u64::from(now.expected.wrapping_sub(start));
                assert_eq!((now.accepted + now.missing) % (1 << 32), went);
            }
        }
        for number in [0, 10, 11, 12] {
            assert!(seen[number] > 1_000, "{seen:?}");
        }
        assert!(whole > 1_000, "{whole}");
    }

    #[test]
    fn a_million_frames_and_one_more() {
        let start = u32::MAX - 400_000;
        let mut now = opened(start);
        for n in 0..1_000_000 {
            let tallies = match n {
                0 => NONE,
                1 => [320, 0, 0, 0],
                _ => CLEAN,
            };
            let (number, after) = enter(now, start.wrapping_add(n), tallies);
            assert_eq!(number, 0);
            now = after;
        }
        let next = start.wrapping_add(1_000_000);
        let words = 384_000_000 - 448;
        let all = [1_000_000, 0, words, 0, 0, 0];
        assert_eq!(now, account(next, start, all));
        assert_eq!(
            verdict(1_000_000, 0, 1_000_000, 0, tallies(now), false),
            PASS
        );
        for tallies in [CLEAN, [0, 384, 0, 0], [0; 4]] {
            refused(11, now, next, Some(tallies));
            refused(10, now, next.wrapping_sub(1), Some(tallies));
        }
        let lost = [1_000_000, 1, words, 0, 0, 0];
        let lost = account(next.wrapping_add(1), start, lost);
        done(now, next, None, lost);
        assert_eq!(verdict(1_000_000, 0, 1_000_000, 1, tallies(lost), false), 0);
    }

    #[test]
    fn flagged_words_at_the_allowance_and_beyond() {
        let max = u64::from(u32::MAX);
        let cases = [
            (2, 0),
            (2, 319),
            (10, 100),
            (1_000_000, 383_999_551),
            (u32::MAX, u32::MAX),
        ];
        for (asked, allowed) in cases {
            let accepted = u64::from(asked);
            for flagged in [0, u64::from(allowed), u64::from(allowed) + 1] {
                let clean = 384 * accepted - 448 - flagged;
                let right = if flagged <= u64::from(allowed) { 1 } else { 2 };
                for tallies in [
                    [clean, 0, 0, flagged],
                    [0, clean, 0, flagged],
                    [0, 0, clean, flagged],
                ] {
                    assert_eq!(verdict(asked, allowed, accepted, 0, tallies, false), right);
                    assert_eq!(verdict(asked, allowed, accepted, 0, tallies, true), 0);
                }
            }
        }
        assert_eq!(verdict(2, 320, 2, 0, [0, 0, 0, 320], false), PASS);
        assert_eq!(verdict(2, u32::MAX, 2, 0, [0, 0, 0, 320], false), PASS);
        let many = [384 * max - 448 - (1 << 32), 0, 0, 1 << 32];
        assert_eq!(verdict(u32::MAX, 0, max, 0, many, false), FAIL);
    }

    #[test]
    fn what_is_not_measured() {
        let none = |asked, accepted, missing, tallies| {
            assert_eq!(verdict(asked, 5, accepted, missing, tallies, false), 0);
        };
        assert_eq!(verdict(2, 5, 2, 0, [320, 0, 0, 0], false), PASS);
        // More or fewer accepted than asked, the total right for either.
        for accepted in [0, 1, 3, 2 + (1 << 32), u64::MAX] {
            none(2, accepted, 0, [320, 0, 0, 0]);
            let total = accepted.wrapping_mul(384).wrapping_sub(448);
            none(2, accepted, 0, [total, 0, 0, 0]);
        }
        for missing in [1, 2, 1 << 32, 1 << 63, u64::MAX] {
            none(2, 2, missing, [320, 0, 0, 0]);
        }
        for which in 0..4 {
            for change in [1u64, 64, 128, 384, 448, 1 << 32] {
                for change in [change, change.wrapping_neg()] {
                    let mut tallies = [80u64; 4];
                    tallies[which] = tallies[which].wrapping_add(change);
                    none(2, 2, 0, tallies);
                    assert_eq!(verdict(2, u32::MAX, 2, 0, tallies, false), 0);
                }
            }
        }
        // With fill tallied, all of it or in one of the two frames.
        for total in [768, 704, 384] {
            none(2, 2, 0, [total, 0, 0, 0]);
        }
        // Right but for one, two or three times 2^64.
        let max = u64::MAX;
        none(2, 2, 0, [max, 321, 0, 0]);
        none(2, 2, 0, [1 << 63, 1 << 63, 320, 0]);
        none(2, 2, 0, [max, max, 322, 0]);
        none(2, 2, 0, [max, max, max, 323]);
        none(2, 2, 0, [max; 4]);
        none(u32::MAX, max, max, [max; 4]);
        // With 448 more it would be right but for 2^64.
        none(2, 2, 0, [max - 447, 768, 0, 0]);
        none(2, 2, 0, [max - 127, 0, 0, 0]);
    }

    /// No total is right for so few frames: less 448, one frame's words are fewer than none, and a
    /// subtraction that stops at 0 would take an account without tallies for right.
    #[test]
    fn fewer_than_two_frames_are_never_measured() {
        let max = u64::MAX;
        let mut random = Xorshift::new(50);
        for asked in [0, 1] {
            for accepted in [0, 1, 2, 1 << 32, (1 << 32) + 1, max] {
                for total in [
                    0,
                    1,
                    63,
                    64,
                    319,
                    320,
                    383,
                    384,
                    448,
                    768,
                    max - 63,
                    max - 447,
                ] {
                    for allowed in [0, 1, u32::MAX] {
                        let parts = in_parts(&mut random, total.min(1 << 40));
                        for tallies in [[total, 0, 0, 0], [0, 0, 0, total], parts] {
                            assert_eq!(verdict(asked, allowed, accepted, 0, tallies, false), 0);
                        }
                    }
                }
            }
        }
        // As the account of such an order comes out.
        let (number, one) = enter(opened(3), 3, NONE);
        assert_eq!((number, one.accepted, tallies(one)), (0, 1, NONE));
        assert_eq!(verdict(1, 0, 1, 0, tallies(one), false), NOT_MEASURED);
        assert_eq!(verdict(0, 0, 0, 0, NONE, false), NOT_MEASURED);
    }

    #[test]
    fn only_not_stopped_runs_are_measured() {
        let mut random = Xorshift::new(43);
        let mut seen = [0; 3];
        for _ in 0..200_000 {
            let asked = random.below(4) as u32;
            let allowed = random.below(3) as u32;
            let (accepted, missing) = (random.below(4), random.below(4) / 3);
            let mut tallies = [0; 4];
            for n in 0..accepted {
                let due = [0, 320, 384][n.min(2) as usize];
                let flagged = (random.below(50) / 24).min(due);
                tallies[random.below(3) as usize] += due - flagged;
                tallies[3] += flagged;
            }
            // At times the fill is there too.
            if random.below(8) == 0 {
                tallies[random.below(3) as usize] += random.pick(&[64, 384, 448]);
            }
            let answer = verdict(asked, allowed, accepted, missing, tallies, false);
            let sum: u64 = tallies.iter().sum();
            let measured = asked > 1
                && accepted == asked.into()
                && missing == 0
                && sum == 384 * accepted - 448;
            let right = match (measured, tallies[3] > allowed.into()) {
                (false, _) => 0,
                (true, false) => 1,
                (true, true) => 2,
            };
            assert_eq!(answer, right);
            assert_eq!(verdict(asked, allowed, accepted, missing, tallies, true), 0);
            seen[answer as usize] += 1;
        }
        assert!(seen.iter().all(|&count| count > 1_000), "{seen:?}");
    }
}
