//! Whole captures, each examined in one call, for its verdict and for its report into texts of every
//! length near the report's, and beside a host that steps over the same bytes record by record.

use crate::accounts::{AHEAD, STARTS};
use crate::frames::{damage_pilots, flip_any, sent, Symbols};
use crate::out::Calls;
use crate::records::order;
use crate::reports::ROOM;
use crate::runs::step;
use second::account::{FAIL, NOT_MEASURED, PASS};
use second::capture::{frame_record, wanted, FRAME_RECORD, ORDER_RECORD};
use second::kept::{Kept, STOPPED};
use second::lanes::STORE_BYTES;
use second::run::Run;
use second::symbols::NO_LOCK;
use second::xorshift::Xorshift;
use std::io::{self, Write};

/// The report of an empty capture, and room beyond the longest.
const EMPTY: usize = 80;
const BEYOND: usize = 220;

/// A host that asks for as many bytes as are wanted, and steps over what it has.
fn stepped<W: Write>(calls: &mut Calls<W>, capture: &[u8]) -> io::Result<Kept> {
    let mut run = Kept::new();
    let mut rest = capture;
    while !rest.is_empty() && run.phase != STOPPED {
        let mut have = 0;
        while have < wanted(&rest[..have]).min(rest.len()) {
            have = wanted(&rest[..have]).min(rest.len());
        }
        step(calls, &mut run, &rest[..have])?;
        rest = &rest[have..];
    }
    Ok(run)
}

/// Both calls over a capture, with these rooms, with those near the length, and with room for all.
fn examine<W: Write>(
    calls: &mut Calls<W>,
    random: &mut Xorshift,
    capture: &[u8],
    rooms: impl Iterator<Item = usize>,
) -> io::Result<u32> {
    let run = Run::of(capture);
    let length = run.report().len();
    for room in rooms.chain([0, 1, ROOM]).chain(length - 2..length + 3) {
        let written = calls.examine(capture, &mut random.bytes(room))?;
        assert_eq!(written, if room < length { 0 } else { length });
    }
    let verdict = calls.examine_verdict(capture)?;
    assert_eq!(verdict, run.verdict());
    Ok(verdict)
}

/// The same, and beside them the run of a host.
fn both_ways<W: Write>(
    calls: &mut Calls<W>,
    random: &mut Xorshift,
    capture: &[u8],
) -> io::Result<u32> {
    let verdict = examine(calls, random, capture, [].into_iter())?;
    let run = stepped(calls, capture)?;
    assert_eq!(run.report(), Run::of(capture).report());
    assert_eq!(calls.run_verdict(&run)?, verdict);
    calls.run_report(&run, &mut random.bytes(ROOM))?;
    Ok(verdict)
}

/// Frames one after the other, of which every second has a flagged word beside its fill; fill is
/// flagged in the first and in the second.
fn frames(random: &mut Xorshift, count: usize) -> Vec<Symbols> {
    let mut store = [0; STORE_BYTES];
    let mut frames: Vec<_> = (0..count).map(|_| sent(random, &mut store)).collect();
    for (n, frame) in frames.iter_mut().enumerate() {
        flip_any(random, frame, 70, n % 2 * 3);
        flip_any(random, frame, 77, 1);
        flip_any(random, frame, 300, 2);
        if n < 2 {
            flip_any(random, frame, 63, 3);
        }
    }
    frames
}

fn capture(start: u32, asked: u32, allowed: u32, frames: &[Symbols]) -> Vec<u8> {
    let mut capture = order(start, asked, allowed);
    for (frame, n) in frames.iter().zip(0..) {
        capture.extend(frame_record(start.wrapping_add(n), frame));
    }
    capture
}

/// Few frames asked, allowed and there: every verdict, into texts of every length.
fn verdicts<W: Write>(calls: &mut Calls<W>, random: &mut Xorshift) -> io::Result<()> {
    let all = frames(random, 3);
    assert_eq!(Run::of(&[]).report().len(), EMPTY);
    examine(calls, random, &[], 0..=BEYOND)?;
    for asked in 0..4 {
        for allowed in [0, 1, u32::MAX] {
            for count in 0..4 {
                let capture = capture(random.pick(&STARTS), asked, allowed, &all[..count]);
                let right = match asked as usize {
                    0 | 1 => NOT_MEASURED,
                    asked if asked != count => NOT_MEASURED,
                    _ if allowed == 0 => FAIL,
                    _ => PASS,
                };
                assert_eq!(both_ways(calls, random, &capture)?, right);
                if count == asked.max(1) as usize {
                    examine(calls, random, &capture, 0..=BEYOND)?;
                }
            }
        }
    }
    let mut store = [0; STORE_BYTES];
    let whole = [(); 2].map(|()| sent(random, &mut store));
    let shortest = capture(0, 2, 0, &whole);
    assert_eq!(examine(calls, random, &shortest, 0..=BEYOND)?, PASS);
    // The longest numbers that so few frames can bring.
    let ahead = [order(0, u32::MAX, 0), frame_record(1_000_000, &all[0])].concat();
    assert_eq!(examine(calls, random, &ahead, 0..=BEYOND)?, NOT_MEASURED);
    Ok(())
}

/// A measured capture, and a failed one, with something else in front, between, in place of a record
/// or behind: none of it is measured.
fn disturbed<W: Write>(calls: &mut Calls<W>, random: &mut Xorshift) -> io::Result<()> {
    let all = frames(random, 3);
    let start = u32::MAX;
    for allowed in [0, 1] {
        let measured = capture(start, 2, allowed, &all[..2]);
        let (first, rest) = measured.split_at(ORDER_RECORD);
        let (one, two) = rest.split_at(FRAME_RECORD);
        let mut lost = all[1];
        damage_pilots(random, &mut lost, NO_LOCK);
        let lost = frame_record(start.wrapping_add(1), &lost);
        let next = frame_record(start.wrapping_add(2), &all[2]);
        let apart = frame_record(start.wrapping_add(2), &all[1]);
        let mut captures = vec![
            vec![first, first, one, two],
            vec![one, two],
            vec![one, first, two],
            vec![first, one, first, two],
            vec![first, one, two, first],
            vec![first, two],
            vec![first, one],
            vec![first, two, one],
            vec![first, one, one, two],
            vec![first, one, two, two],
            vec![first, one, two, &next],
            vec![first, one, &lost],
            vec![first, one, two, &lost],
            vec![first, one, &apart],
        ];
        for more in [&[0][..], &[1], &[0xFF; 3], &[0; 4], &first[..17], &one[..9]] {
            captures.push(vec![first, one, two, more]);
            captures.push(vec![first, one, more, two]);
            captures.push(vec![first, more, one, two]);
            captures.push(vec![more, first, one, two]);
        }
        for records in captures {
            assert_eq!(both_ways(calls, random, &records.concat())?, NOT_MEASURED);
        }
        // Cut anywhere near a bound, and with any byte of a head another.
        for bound in [0, ORDER_RECORD, ORDER_RECORD + FRAME_RECORD, measured.len()] {
            for cut in bound.saturating_sub(6)..(bound + 11).min(measured.len()) {
                let verdict = both_ways(calls, random, &measured[..cut])?;
                assert_eq!(verdict, NOT_MEASURED);
            }
            for place in bound..(bound + 10).min(measured.len()) {
                let mut other = measured.clone();
                other[place] ^= 1 << random.below(8);
                assert_eq!(both_ways(calls, random, &other)?, NOT_MEASURED);
            }
        }
        let right = if allowed == 0 { FAIL } else { PASS };
        assert_eq!(both_ways(calls, random, &measured)?, right);
    }
    Ok(())
}

/// A frame with lock, or without, as far ahead of an order's start as may be, and farther, and the next
/// behind it. Where that is the second of the run it has fewer tallies.
fn ahead<W: Write>(calls: &mut Calls<W>, random: &mut Xorshift) -> io::Result<()> {
    let all = frames(random, 2);
    let (good, next) = (all[0], all[1]);
    let mut bad = good;
    damage_pilots(random, &mut bad, NO_LOCK);
    for d in AHEAD {
        for symbols in [&good, &bad] {
            let start = random.pick(&STARTS);
            let capture = [
                order(start, 2, 384),
                frame_record(start.wrapping_add(d), symbols),
                frame_record(start.wrapping_add(d).wrapping_add(1), &next),
            ];
            let verdict = both_ways(calls, random, &capture.concat())?;
            assert_eq!(verdict == PASS, d == 0 && symbols == &good);
        }
    }
    Ok(())
}

/// Every frame in which only fill is flagged, or one word more, about the first that is tallied; none
/// is allowed.
fn flagged_fill<W: Write>(calls: &mut Calls<W>, random: &mut Xorshift) -> io::Result<()> {
    let mut store = [0; STORE_BYTES];
    let clean = [(); 3].map(|()| sent(random, &mut store));
    for (frame, word, right) in [
        (0, 0, PASS),
        (0, 63, PASS),
        (0, 64, PASS),
        (0, 383, PASS),
        (1, 0, PASS),
        (1, 31, PASS),
        (1, 32, PASS),
        (1, 63, PASS),
        (1, 64, FAIL),
        (1, 383, FAIL),
        (2, 0, FAIL),
        (2, 63, FAIL),
        (2, 64, FAIL),
    ] {
        for start in [0, u32::MAX - 1, u32::MAX, random.next_u64() as u32] {
            let mut frames = clean;
            flip_any(random, &mut frames[frame], word, 3);
            let count = random.pick(&[frame + 1, 3]).max(2);
            let capture = capture(start, count as u32, 0, &frames[..count]);
            assert_eq!(both_ways(calls, random, &capture)?, right);
        }
    }
    Ok(())
}

/// Many frames, round 2^32.
fn long<W: Write>(calls: &mut Calls<W>, random: &mut Xorshift) -> io::Result<()> {
    let all = frames(random, 60);
    for (allowed, right) in [(30, PASS), (29, FAIL)] {
        let capture = capture(u32::MAX - 20, 60, allowed, &all);
        assert_eq!(calls.examine_verdict(&capture)?, right);
        calls.examine(&capture, &mut random.bytes(ROOM))?;
        let run = stepped(calls, &capture)?;
        assert_eq!(calls.run_verdict(&run)?, right);
    }
    Ok(())
}

/// Bytes of any value, with a lawful head at times.
fn noise<W: Write>(calls: &mut Calls<W>, random: &mut Xorshift) -> io::Result<()> {
    for _ in 0..200 {
        let length = random.below(60) as usize;
        let mut noise = random.bytes(length);
        let heads = [
            [0, 0, 0, 14, 1, 0],
            [0, 0, 0x18, 6, 1, 1],
            [0, 0, 0, 14, 1, 1],
        ];
        let head = random.pick(&heads);
        let kept = random.below(7) as usize;
        for (byte, head) in noise.iter_mut().zip(head).take(kept) {
            *byte = head;
        }
        assert_eq!(both_ways(calls, random, &noise)?, NOT_MEASURED);
    }
    Ok(())
}

pub fn write<W: Write>(calls: &mut Calls<W>, random: &mut Xorshift) -> io::Result<()> {
    verdicts(calls, random)?;
    disturbed(calls, random)?;
    ahead(calls, random)?;
    flagged_fill(calls, random)?;
    long(calls, random)?;
    noise(calls, random)
}
