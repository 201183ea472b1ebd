//! The hunt: whole runs of every kind, searches in pieces that are asked after every piece, and
//! states and kept symbols as no search leaves them.

use crate::frames::{damage_pilots, sent};
use crate::lengths::wrong_lengths;
use crate::out::Calls;
use crate::verdicts::any;
use second::hunt::{found_at, place, Found, State, NONE, SHORT};
use second::lanes::STORE_BYTES;
use second::symbols::{locks, FRAME_SYMBOLS, NO_LOCK, PILOTS, PILOT_COUNT, ROW_SYMBOLS};
use second::xorshift::Xorshift;
use std::io::{self, Write};

/// Found states: none, and any number that is not 0, some of which are 0 in their lower half.
const FOUND: [u64; 7] = [0, 1, 2, 7, 1 << 32, 1 << 63, u64::MAX];

/// How many pilots are wrong on both sides of the limit.
const NEAR: [usize; 4] = [NO_LOCK - 2, NO_LOCK - 1, NO_LOCK, NO_LOCK + 1];

/// A frame from any store.
fn frame(random: &mut Xorshift) -> Vec<u8> {
    let mut store = random.bytes(STORE_BYTES);
    sent(random, &mut store).to_vec()
}

/// Makes these pilots wrong, in turn in their X half alone and in their Y half alone.
fn spoil(random: &mut Xorshift, frame: &mut [u8], numbers: &[usize]) {
    for (n, number) in numbers.iter().enumerate() {
        let wrong = 1 + random.below(15) as u8;
        frame[ROW_SYMBOLS * number] ^= wrong << (4 * (n % 2));
    }
}

/// A frame of which so many pilots, any ones, are wrong.
fn spoiled(random: &mut Xorshift, count: usize) -> Vec<u8> {
    let mut frame = frame(random);
    let numbers = random.choose(PILOT_COUNT, count);
    spoil(random, &mut frame, &numbers);
    frame
}

/// So many symbols, the frame, and so many more.
fn within(random: &mut Xorshift, before: usize, frame: &[u8], behind: usize) -> Vec<u8> {
    [&random.bytes(before), frame, &random.bytes(behind)].concat()
}

fn start_if(found: bool, offset: usize) -> Found {
    if found {
        found_at(offset as u64)
    } else {
        NONE
    }
}

/// Runs of every length near that of a frame, of several kinds.
fn lengths<W: Write>(calls: &mut Calls<W>, random: &mut Xorshift) -> io::Result<()> {
    let frames = [frame(random), frame(random), frame(random)].concat();
    let short = [0, 1, 2, 63, 64, 95, 96, 384, 2_880, 5_280, 6_080, 6_081];
    let near = FRAME_SYMBOLS - 4..=FRAME_SYMBOLS + 4;
    let long = [6_207, 6_208, 6_209, 6_272, 12_287, 12_288, 12_289];
    for length in short.into_iter().chain(near).chain(long) {
        let (first, none) = match length < FRAME_SYMBOLS {
            true => (SHORT, SHORT),
            false => (found_at(0), NONE),
        };
        assert_eq!(calls.hunt(&frames[..length])?, first);
        assert_eq!(calls.hunt(&random.bytes(length))?, none);
        assert_eq!(calls.hunt(&vec![0; length])?, none);
    }
    Ok(())
}

fn offsets(random: &mut Xorshift) -> Vec<usize> {
    let mut offsets = vec![0, 1, 63, 64, 65, 127, 128, 129, 6_143, 6_144, 6_145];
    offsets.extend((0..8).map(|_| random.below(14_000) as usize));
    offsets
}

/// One frame among random symbols, with so many wrong pilots that it still locks or no longer does.
fn one_frame<W: Write>(calls: &mut Calls<W>, random: &mut Xorshift) -> io::Result<()> {
    for offset in offsets(random) {
        for wrong in [0, 1].into_iter().chain(NEAR).chain([PILOT_COUNT]) {
            let frame = spoiled(random, wrong);
            let behind = random.pick(&[0, 1, 63, 64, 1_000]);
            let run = within(random, offset, &frame, behind);
            assert_eq!(calls.hunt(&run)?, start_if(wrong < NO_LOCK, offset));
        }
        // Wrong in whatever bits.
        let wrong = random.pick(&NEAR);
        let mut frame = frame(random);
        damage_pilots(random, &mut frame, wrong);
        let lock = locks(frame[..].try_into().expect("a frame"));
        let run = within(random, offset, &frame, 70);
        assert_eq!(calls.hunt(&run)?, start_if(lock, offset));
    }
    // The last frame is whole, or a part of it is missing.
    for offset in offsets(random) {
        let frame = frame(random);
        let run = within(random, offset, &frame, 0);
        for missing in [0, 1, 2, 63, 64, 65, 3_000] {
            let run = &run[..run.len() - missing];
            let said = match missing {
                0 => found_at(offset as u64),
                _ if run.len() < FRAME_SYMBOLS => SHORT,
                _ => NONE,
            };
            assert_eq!(calls.hunt(run)?, said);
        }
        // Whatever is before it takes the place of its first pilot.
        let run = within(random, offset + 1, &frame[1..], 10);
        assert_eq!(calls.hunt(&run)?, found_at(offset as u64));
    }
    Ok(())
}

/// Each pilot as the one on which it depends; and the wrong ones all first, last, and in a row.
fn each_pilot<W: Write>(calls: &mut Calls<W>, random: &mut Xorshift) -> io::Result<()> {
    for number in 0..PILOT_COUNT {
        let mut others = random.choose(PILOT_COUNT - 1, NO_LOCK - 1);
        for other in &mut others {
            *other += usize::from(*other >= number);
        }
        let mut frame = frame(random);
        spoil(random, &mut frame, &others);
        let offset = random.below(20) as usize;
        let mut run = within(random, offset, &frame, 5);
        assert_eq!(calls.hunt(&run)?, found_at(offset as u64));
        run[offset + ROW_SYMBOLS * number] ^= 1 << random.below(8);
        assert_eq!(calls.hunt(&run)?, NONE);
    }
    for first in [0, 1, 30, PILOT_COUNT - NO_LOCK - 1, PILOT_COUNT - NO_LOCK] {
        for count in [NO_LOCK - 1, NO_LOCK] {
            let numbers: Vec<usize> = (first..first + count).collect();
            let mut frame = frame(random);
            spoil(random, &mut frame, &numbers);
            let run = within(random, 40, &frame, 300);
            assert_eq!(calls.hunt(&run)?, start_if(count < NO_LOCK, 40));
        }
    }
    Ok(())
}

/// Pilots alone, so many of them wrong, over what is there.
fn plant(random: &mut Xorshift, run: &mut [u8], wrong: usize) {
    for (number, pilot) in PILOTS.into_iter().enumerate() {
        run[ROW_SYMBOLS * number] = pilot;
    }
    let numbers = random.choose(PILOT_COUNT, wrong);
    spoil(random, run, &numbers);
}

/// Several starts: the first of them is told, whether a frame was sent there or not.
fn several<W: Write>(calls: &mut Calls<W>, random: &mut Xorshift) -> io::Result<()> {
    for offset in [0, 1, 64, 777] {
        for wrong in [0].into_iter().chain(NEAR) {
            let (first, second) = (spoiled(random, wrong), spoiled(random, NO_LOCK - 1));
            let run = [random.bytes(offset), first, second, frame(random)].concat();
            let start = match wrong < NO_LOCK {
                true => offset,
                false => offset + FRAME_SYMBOLS,
            };
            assert_eq!(calls.hunt(&run)?, found_at(start as u64));
            assert_eq!(calls.hunt(&run[offset + 1..])?.offset, 6_143);
        }
    }
    // Payload that resembles pilots, in the frame, before it, and behind.
    for ahead in [1, 2, 31, 63, 65, 127, 129, 1_000, 6_143] {
        let offset = 6_200;
        let frame = frame(random);
        let right = within(random, offset, &frame, 6_200);
        for wrong in [0].into_iter().chain(NEAR) {
            let mut run = right.clone();
            plant(random, &mut run[offset - ahead..], wrong);
            let start = match wrong < NO_LOCK {
                true => offset - ahead,
                false => offset,
            };
            assert_eq!(calls.hunt(&run)?, found_at(start as u64));
        }
        let mut run = right.clone();
        plant(random, &mut run[offset + ahead..], 0);
        assert_eq!(calls.hunt(&run)?, found_at(offset as u64));
        assert_eq!(calls.hunt(&run[offset + 1..])?.offset, ahead as u64 - 1);
    }
    // Many that nearly lock, and here and there one that does.
    let mut seen = [0; 2];
    for _ in 0..40 {
        let mut run = random.bytes(FRAME_SYMBOLS + 4 * ROW_SYMBOLS);
        for column in 0..ROW_SYMBOLS {
            let offset = column + ROW_SYMBOLS * random.below(4) as usize;
            let wrong = NO_LOCK - 1 + random.below(60) as usize;
            plant(random, &mut run[offset..], wrong);
        }
        seen[calls.hunt(&run)?.found as usize] += 1;
    }
    assert!(seen.iter().all(|&times| times > 0), "{seen:?}");
    Ok(())
}

/// Runs in which nothing locks, and long ones.
fn none<W: Write>(calls: &mut Calls<W>, random: &mut Xorshift) -> io::Result<()> {
    for length in [6_144, 6_300, 20_000, 40_000] {
        let any = random.bytes(length);
        let outer = any.iter().map(|symbol| symbol & 0xAA).collect();
        let one = vec![random.pick(&PILOTS); length];
        let mut turned = [frame(random), frame(random)].concat();
        turned.reverse();
        for run in [any, outer, one, turned, vec![0xFF; length]] {
            assert_eq!(calls.hunt(&run)?, NONE);
        }
    }
    for offset in [65_536, 300_000] {
        let frame = spoiled(random, NO_LOCK - 1);
        let run = within(random, offset, &frame, 0);
        assert_eq!(calls.hunt(&run)?, found_at(offset as u64));
        assert_eq!(calls.hunt(&run[..run.len() - 1])?, NONE);
    }
    Ok(())
}

/// A search in pieces over a run: every piece is a call, and after each it is asked.
struct Search<'a> {
    run: &'a [u8],
    said: Found,
    state: State,
    kept: Vec<u8>,
    place: usize,
}

impl<'a> Search<'a> {
    /// Opened over any state, and over any kept symbols.
    fn open<W: Write>(
        calls: &mut Calls<W>,
        random: &mut Xorshift,
        run: &'a [u8],
    ) -> io::Result<Self> {
        let (taken, found) = (any(random), random.pick(&FOUND));
        let mut search = Search {
            run,
            said: calls.hunt(run)?,
            state: State { taken, found },
            kept: kept_from(0, &frame(random)),
            place: 0,
        };
        calls.hunt_open(&mut search.state)?;
        assert_eq!(search.state, State { taken: 0, found: 0 });
        search.ask(calls)?;
        Ok(search)
    }

    /// What is said is what is said of all that was fed as one run.
    fn ask<W: Write>(&self, calls: &mut Calls<W>) -> io::Result<()> {
        let said = match self.said {
            _ if self.place < FRAME_SYMBOLS => SHORT,
            said if self.place as u64 >= said.offset + FRAME_SYMBOLS as u64 => said,
            _ => NONE,
        };
        assert_eq!(calls.hunt_answer(&self.state)?, said);
        if said.found == 1 {
            assert_eq!(self.state.taken, said.offset + FRAME_SYMBOLS as u64);
            let frame = &self.run[said.offset as usize..][..FRAME_SYMBOLS];
            assert!(self.kept == kept_from(said.offset, frame));
        } else {
            assert_eq!(self.state.taken, self.place as u64);
        }
        Ok(())
    }

    /// The next symbols, as many as there are.
    fn feed<W: Write>(&mut self, calls: &mut Calls<W>, count: usize) -> io::Result<()> {
        let piece = &self.run[self.place..];
        let piece = &piece[..count.min(piece.len())];
        let (before, kept) = (self.state, self.kept.clone());
        let refusal = calls.hunt_feed(&mut self.state, &mut self.kept, piece)?;
        assert_eq!(refusal, 0);
        if before.found != 0 {
            assert!(self.state == before && self.kept == kept);
        }
        self.place += piece.len();
        self.ask(calls)
    }

    fn ended(&self) -> bool {
        self.place == self.run.len()
    }
}

/// Pieces of one length from the beginning on, and empty ones among them.
fn even_pieces<W: Write>(calls: &mut Calls<W>, random: &mut Xorshift) -> io::Result<()> {
    for (size, offset) in [
        (63, 0),
        (63, 130),
        (64, 0),
        (64, 1),
        (64, 200),
        (65, 70),
        (1_000, 3_000),
        (6_143, 1),
        (6_143, 6_143),
        (6_144, 0),
        (6_144, 1),
        (6_144, 6_144),
        (6_145, 1),
        (6_145, 6_145),
        (20_000, 9_999),
    ] {
        for wrong in [NO_LOCK - 1, NO_LOCK] {
            if size < 100 && wrong == NO_LOCK && offset > 0 {
                continue;
            }
            let frame = spoiled(random, wrong);
            let run = within(random, offset, &frame, 300);
            let mut search = Search::open(calls, random, &run)?;
            assert_eq!(search.said, start_if(wrong < NO_LOCK, offset));
            search.feed(calls, 0)?;
            while !search.ended() {
                search.feed(calls, size)?;
                if random.below(8) == 0 {
                    search.feed(calls, 0)?;
                }
            }
        }
    }
    Ok(())
}

/// One symbol at a time, and two: the first, those that first make a frame's length, and those at
/// the find.
fn single_symbols<W: Write>(calls: &mut Calls<W>, random: &mut Xorshift) -> io::Result<()> {
    for size in [1, 2] {
        for (offset, wrong) in [
            (0, 0),
            (1, NO_LOCK - 1),
            (40, NO_LOCK),
            (64, 0),
            (6_144, NO_LOCK - 1),
            (7_000, 0),
        ] {
            let frame = spoiled(random, wrong);
            let run = within(random, offset, &frame, 20);
            let mut search = Search::open(calls, random, &run)?;
            let end = offset + FRAME_SYMBOLS;
            let near = [0, FRAME_SYMBOLS, end].map(|place| place.saturating_sub(10)..place + 10);
            while !search.ended() {
                let place = search.place;
                let next = near
                    .iter()
                    .filter(|near| near.end > place)
                    .map(|near| near.start);
                match next.min() {
                    Some(start) if start > place => search.feed(calls, start - place)?,
                    _ => search.feed(calls, size)?,
                }
            }
            assert_eq!(search.state.found, u64::from(wrong < NO_LOCK));
        }
    }
    Ok(())
}

/// Cut anywhere, with empty pieces, with pilots before the frame that are none of a frame, and with
/// pieces and frames behind the find.
fn any_pieces<W: Write>(calls: &mut Calls<W>, random: &mut Xorshift) -> io::Result<()> {
    let mut seen = [0; 2];
    for round in 0..40 {
        let wrong = random.pick(&[0, NO_LOCK - 1, NO_LOCK]);
        let first = spoiled(random, wrong);
        let (before, behind) = (random.below(9_000), random.below(3_000));
        let mut run = within(random, before as usize, &first, behind as usize);
        if round % 2 == 0 {
            run.extend(frame(random));
        }
        if round % 5 == 0 && before > 0 {
            let ahead = 1 + random.below(before.min(63)) as usize;
            plant(random, &mut run[before as usize - ahead..], NO_LOCK - 1);
        }
        let cut = random.pick(&[0, 0, 1, 100]);
        run.truncate(run.len() - cut);
        let mut search = Search::open(calls, random, &run)?;
        while !search.ended() {
            let most = random.pick(&[1, 64, 1_000, 6_144, 10_000]);
            let count = random.below(most + 1) as usize;
            search.feed(calls, count)?;
        }
        search.feed(calls, 0)?;
        assert_eq!(search.state.found, search.said.found.into());
        seen[search.said.found as usize] += 1;
    }
    assert!(seen.iter().all(|&times| times > 3), "{seen:?}");
    Ok(())
}

/// Symbols fed in one call from a stored state on, and what is said then.
fn feed_stored<W: Write>(
    calls: &mut Calls<W>,
    mut state: State,
    kept: &[u8],
    piece: &[u8],
) -> io::Result<(u32, State, Found)> {
    let mut left = kept.to_vec();
    let before = state;
    let refusal = calls.hunt_feed(&mut state, &mut left, piece)?;
    if refusal != 0 || before.found != 0 || piece.is_empty() {
        assert!(state == before && left == kept);
    }
    Ok((refusal, state, calls.hunt_answer(&state)?))
}

/// What is kept of a frame whose first symbol is this one of all.
fn kept_from(first: u64, frame: &[u8]) -> Vec<u8> {
    let mut kept = vec![0; FRAME_SYMBOLS];
    for (n, symbol) in (first..).zip(frame) {
        kept[place(n)] = *symbol;
    }
    kept
}

/// The kept symbols behind which the last so many symbols of this frame are still to be fed.
fn kept_before(random: &mut Xorshift, taken: u64, frame: &[u8], lacking: usize) -> Vec<u8> {
    let mut symbols = frame.to_vec();
    symbols[FRAME_SYMBOLS - lacking..].copy_from_slice(&random.bytes(lacking));
    // The next symbol comes to the place of the first that is lacking.
    kept_from(taken % FRAME_SYMBOLS as u64 + lacking as u64, &symbols)
}

/// So many were taken in, as is said: where something changes, and any number.
fn taken(random: &mut Xorshift) -> Vec<u64> {
    let mut taken = vec![0, 1, 63, 64, 3_000, 6_080, 6_081];
    taken.extend(6_140..=6_146);
    taken.extend([12_286, 12_287, 12_288, 12_289, 1 << 31, (1 << 32) - 1]);
    taken.extend([1 << 32, (1 << 32) + 1, 1 << 62, (1 << 63) - 1, 1 << 63]);
    taken.extend((0..8).map(|_| any(random)));
    taken
}

/// Frames that stand in what is kept, turned by what was taken in, and want a few symbols more.
fn completed<W: Write>(calls: &mut Calls<W>, random: &mut Xorshift) -> io::Result<()> {
    let last = [6_144, 6_143, 101, 100, 65, 64, 2, 1, 0].map(|more| u64::MAX - more);
    let mut seen = [0; 3];
    for taken in taken(random).into_iter().chain(last) {
        for lacking in [
            1,
            1,
            2,
            random.pick(&[64, 65, 100]),
            random.pick(&[640, 6_143]),
        ] {
            for wrong in [NO_LOCK - 1, NO_LOCK] {
                let frame = spoiled(random, wrong);
                let kept = kept_before(random, taken, &frame, lacking);
                let more = random.pick(&[0, 0, 1, 70]);
                let missing = &frame[FRAME_SYMBOLS - lacking..];
                let piece = [missing, &random.bytes(more)].concat();
                let state = State { taken, found: 0 };
                let (refusal, after, said) = feed_stored(calls, state, &kept, &piece)?;
                let Some(all) = taken.checked_add(piece.len() as u64) else {
                    assert_eq!(refusal, 23);
                    seen[2] += 1;
                    continue;
                };
                let end = taken + lacking as u64;
                let lock = wrong < NO_LOCK && end >= FRAME_SYMBOLS as u64;
                let (taken, found) = if lock { (end, 1) } else { (all, 0) };
                assert_eq!((refusal, after), (0, State { taken, found }));
                let said_none = if taken < FRAME_SYMBOLS as u64 {
                    SHORT
                } else {
                    NONE
                };
                let start = taken.wrapping_sub(FRAME_SYMBOLS as u64);
                assert_eq!(said, if lock { found_at(start) } else { said_none });
                seen[usize::from(lock)] += 1;
            }
        }
    }
    assert!(seen.iter().all(|&times| times > 20), "{seen:?}");
    Ok(())
}

/// What no search leaves: any numbers beside any symbols; and frames that are whole in what is kept
/// already, which no piece finds, or that a piece makes whole where a start was found before.
fn odd_states<W: Write>(calls: &mut Calls<W>, random: &mut Xorshift) -> io::Result<()> {
    for taken in taken(random).into_iter().chain([u64::MAX - 1, u64::MAX]) {
        for found in FOUND {
            let state = State { taken, found };
            let said = match (taken.checked_sub(FRAME_SYMBOLS as u64), found) {
                (None, _) => SHORT,
                (_, 0) => NONE,
                (Some(offset), _) => found_at(offset),
            };
            assert_eq!(calls.hunt_answer(&state)?, said);
            let mut opened = state;
            calls.hunt_open(&mut opened)?;
            assert_eq!(opened, State { taken: 0, found: 0 });
        }
        let found = random.pick(&FOUND[1..]);
        let frame = frame(random);
        let whole = kept_before(random, taken, &frame, 0);
        let lacking = kept_before(random, taken, &frame, 1);
        for (found, kept, piece) in [
            (0, &whole, &[][..]),
            (found, &whole, &[]),
            (found, &lacking, &frame[6_143..]),
            (found, &lacking, &frame[..]),
        ] {
            let state = State { taken, found };
            let (refusal, after, _) = feed_stored(calls, state, kept, piece)?;
            assert_eq!((refusal, after), (0, state));
        }
        for count in [1, 2, 64, 300] {
            if let Some(all) = taken.checked_add(count) {
                let piece = random.bytes(count as usize);
                let state = State { taken, found: 0 };
                let (refusal, after, _) = feed_stored(calls, state, &whole, &piece)?;
                assert_eq!((refusal, after.taken, after.found), (0, all, 0));
            }
        }
    }
    for _ in 0..150 {
        let (taken, found) = (any(random), random.pick(&[0, 0, 1, 2, u64::MAX]));
        let most = random.pick(&[1, 2, 64, 300, 7_000]);
        let count = random.below(most + 1) as usize;
        let (kept, piece) = (random.bytes(FRAME_SYMBOLS), random.bytes(count));
        let state = State { taken, found };
        let (refusal, after, _) = feed_stored(calls, state, &kept, &piece)?;
        assert_eq!((refusal, after.found), (0, found));
    }
    Ok(())
}

/// Any length of what is kept but the right one, beside every other ground and beside none; and
/// pieces that are as long as can still be counted, and longer.
fn refused<W: Write>(calls: &mut Calls<W>, random: &mut Xorshift) -> io::Result<()> {
    for length in wrong_lengths(FRAME_SYMBOLS) {
        for taken in [0, 6_143, 6_144, any(random), u64::MAX - 99, u64::MAX] {
            for count in [0, 1, 100] {
                for found in [0, random.pick(&FOUND[1..])] {
                    let (kept, piece) = (random.bytes(length), random.bytes(count));
                    let state = State { taken, found };
                    let (refusal, ..) = feed_stored(calls, state, &kept, &piece)?;
                    assert_eq!(refusal, 2);
                }
            }
        }
    }
    for left in [0usize, 1, 2, 63, 64, 100, 6_143, 6_144, 10_000] {
        let taken = u64::MAX - left as u64;
        for count in [
            0,
            left.saturating_sub(1),
            left,
            left + 1,
            left + 2,
            left + 7_000,
        ] {
            for found in [0, random.pick(&FOUND[1..])] {
                let (kept, piece) = (random.bytes(FRAME_SYMBOLS), random.bytes(count));
                let state = State { taken, found };
                let (refusal, after, _) = feed_stored(calls, state, &kept, &piece)?;
                let too_many = found == 0 && count > left;
                assert_eq!(refusal, if too_many { 23 } else { 0 });
                let more = if found == 0 && !too_many { count } else { 0 };
                assert_eq!(after.taken, taken + more as u64);
            }
        }
        // The first symbol would make a find, but the piece is refused as a whole.
        let frame = frame(random);
        let kept = kept_before(random, taken, &frame, 1);
        let piece = [&frame[6_143..], &random.bytes(left)].concat();
        let state = State { taken, found: 0 };
        let (refusal, after, _) = feed_stored(calls, state, &kept, &piece)?;
        assert_eq!((refusal, after), (23, state));
        if left > 0 {
            let (refusal, after, said) = feed_stored(calls, state, &kept, &piece[..left])?;
            assert_eq!((refusal, after.taken, after.found), (0, taken + 1, 1));
            assert_eq!(said, found_at(taken - 6_143));
        }
    }
    Ok(())
}

pub fn write<W: Write>(calls: &mut Calls<W>, random: &mut Xorshift) -> io::Result<()> {
    lengths(calls, random)?;
    one_frame(calls, random)?;
    each_pilot(calls, random)?;
    several(calls, random)?;
    none(calls, random)?;
    even_pieces(calls, random)?;
    single_symbols(calls, random)?;
    any_pieces(calls, random)?;
    completed(calls, random)?;
    odd_states(calls, random)?;
    refused(calls, random)
}

#[cfg(test)]
mod tests {
    use super::*;
    use second::hunt::by_rule;

    #[test]
    fn kept_symbols_want_the_rest_of_a_frame() {
        let mut random = Xorshift::new(8);
        for taken in [6_144, 6_145, 9_999, 12_287, u64::MAX - 7_000] {
            for lacking in [0, 1, 2, 64, 6_143, 6_144] {
                let frame = frame(&mut random);
                let mut kept = kept_before(&mut random, taken, &frame, lacking);
                let missing = &frame[FRAME_SYMBOLS - lacking..];
                let place = |n: u64| (96 * (n % 64) + n / 64 % 96) as usize;
                for (n, symbol) in (taken..).zip(missing) {
                    kept[place(n)] = *symbol;
                }
                let end = taken + lacking as u64;
                let last: Vec<u8> = (end - 6_144..end).map(|n| kept[place(n)]).collect();
                assert!(last == frame);
                assert_eq!(by_rule(&last), found_at(0));
            }
        }
    }

    #[test]
    fn the_calls_are_made_and_what_they_must_answer_holds() {
        let mut bytes = vec![];
        let mut calls = Calls::new(&mut bytes);
        write(&mut calls, &mut Xorshift::new(7)).unwrap();
        assert!((1_000_000..60_000_000).contains(&bytes.len()));
    }
}
