//! The hunt: where a frame starts in a run of symbols that does not mark it.
//!
//! A frame starts at an offset, as far as can be told, if all its symbols are there and it locks.
//! The smallest such offset is looked for. Payload can resemble pilots, so it may lie before the
//! first frame that was sent, but never behind it.
//!
//! A search in pieces keeps the last symbols of as long as a frame, those a multiple of 64 apart,
//! among which a frame has its pilots, side by side, and takes in no more once a start is found.

use crate::symbols::{locks, FRAME_SYMBOLS, NO_LOCK, PILOTS, PILOT_COUNT, ROW_SYMBOLS};

type Frame = [u8; FRAME_SYMBOLS];

/// What a search says: the number of a refusal, or 0; 1 if a start was found, else 0; and its
/// offset, or 0. Laid out as a host in C has it.
#[repr(C)]
#[derive(Clone, Copy, Debug, PartialEq, Eq)]
pub struct Found {
    pub refusal: u32,
    pub found: u32,
    pub offset: u64,
}

/// There are fewer symbols than a frame has.
pub const SHORT: Found = Found {
    refusal: 13,
    found: 0,
    offset: 0,
};

pub const NONE: Found = Found {
    refusal: 0,
    found: 0,
    offset: 0,
};

pub const fn found_at(offset: u64) -> Found {
    Found {
        refusal: 0,
        found: 1,
        offset,
    }
}

fn said(run: &[u8], start: Option<usize>) -> Found {
    if run.len() < FRAME_SYMBOLS {
        return SHORT;
    }
    start.map_or(NONE, |offset| found_at(offset as u64))
}

/// The search over a whole run.
pub fn hunt(run: &[u8]) -> Found {
    said(run, first_start(run))
}

/// So many neighbouring offsets are looked at together.
const TOGETHER: usize = 128;

/// So many pilots more are compared there than, if all are wrong, rule an offset out: few stay open
/// then.
const SPARE: usize = 7;

/// A loop without a jump compares a pilot at neighbouring offsets, and is compiled to many at once:
/// over symbols that never lock this is ten times as fast as to stop at each offset by itself.
fn first_start(run: &[u8]) -> Option<usize> {
    let mut offset = 0;
    while run.len() - offset >= FRAME_SYMBOLS + TOGETHER - 1 {
        let mut right = [0u8; TOGETHER];
        for (row, pilot) in PILOTS[..NO_LOCK + SPARE].iter().enumerate() {
            let symbols = &run[offset + ROW_SYMBOLS * row..][..TOGETHER];
            for (right, symbol) in right.iter_mut().zip(symbols) {
                *right += u8::from(symbol == pilot);
            }
        }
        // Unless more than the spare ones are right, so many are wrong that there is no lock.
        let open = |right: u8| usize::from(right) > SPARE;
        if open(right.into_iter().fold(0, u8::max)) {
            for (offset, right) in (offset..).zip(right) {
                let frame = run[offset..][..FRAME_SYMBOLS].try_into();
                if open(right) && locks(frame.expect("a frame")) {
                    return Some(offset);
                }
            }
        }
        offset += TOGETHER;
    }
    first_start_by_offset(&run[offset..]).map(|more| offset + more)
}

/// The same as `hunt`, one offset after the other.
pub fn hunt_by_offset(run: &[u8]) -> Found {
    said(run, first_start_by_offset(run))
}

/// Counting stops at the pilot with which so many are wrong that there is no lock. That is none
/// before the last of the first NO_LOCK, so those are counted without a look at it.
fn first_start_by_offset(run: &[u8]) -> Option<usize> {
    run.windows(FRAME_SYMBOLS).position(|frame| {
        let frame: &Frame = frame.try_into().expect("a frame");
        let differs = |number: usize| usize::from(frame[ROW_SYMBOLS * number] != PILOTS[number]);
        let mut wrong: usize = (0..NO_LOCK).map(differs).sum();
        let mut number = NO_LOCK;
        while wrong < NO_LOCK && number < PILOT_COUNT {
            wrong += differs(number);
            number += 1;
        }
        wrong < NO_LOCK && locks(frame)
    })
}

/// The same as `hunt`, straight from the words.
pub fn by_rule(run: &[u8]) -> Found {
    if run.len() < 6_144 {
        return SHORT;
    }
    for offset in 0..=run.len() - 6_144 {
        let frame = run[offset..offset + 6_144].try_into().expect("a frame");
        if locks(frame) {
            return found_at(offset as u64);
        }
    }
    NONE
}

/// What a search in pieces keeps beside its symbols: how many were taken in, and whether a start
/// was found, 0 if not. Any numbers are lawful. Laid out as a host in C has it.
#[repr(C)]
#[derive(Clone, Copy, Debug, PartialEq, Eq)]
pub struct State {
    pub taken: u64,
    pub found: u64,
}

/// A search before its first piece; whatever is kept then does not matter.
pub const fn open() -> State {
    State { taken: 0, found: 0 }
}

/// Where symbol n of all pieces is kept: in 64 columns of 96, one column behind the other.
pub const fn place(n: u64) -> usize {
    (96 * (n % 64) + n / 64 % 96) as usize
}

/// Takes in the next piece, symbol by symbol, until a start is found.
/// Returns 0, or the number of the refusal, which changes nothing.
pub fn feed(state: &mut State, kept: &mut [u8], piece: &[u8]) -> u32 {
    if kept.len() != 6_144 {
        return 2;
    }
    if state.found == 0 && u128::from(state.taken) + piece.len() as u128 >= 1 << 64 {
        return 23;
    }
    for &symbol in piece {
        if state.found != 0 {
            break;
        }
        kept[place(state.taken)] = symbol;
        state.taken += 1;
        if state.taken >= 6_144 && locks(&from_oldest(kept, state.taken)) {
            state.found = 1;
        }
    }
    0
}

/// The last symbols of so many taken in, the oldest first: it stands where the next one will be
/// written. Symbols 6,144 apart have the same place, so no number need be above 2^64.
fn from_oldest(kept: &[u8], taken: u64) -> Frame {
    let oldest = taken % 6_144;
    std::array::from_fn(|j| kept[place(oldest + j as u64)])
}

/// What a search says of all that was fed so far.
pub fn answer(state: &State) -> Found {
    if state.taken < 6_144 {
        return SHORT;
    }
    match state.found {
        0 => NONE,
        _ => found_at(state.taken - 6_144),
    }
}

/// The same as `feed`, with a look at neighbours before the whole rule is asked.
pub fn feed_fast(state: &mut State, kept: &mut [u8], piece: &[u8]) -> u32 {
    let kept: &mut Frame = match kept.try_into() {
        Ok(kept) => kept,
        Err(_) => return 2,
    };
    if state.found != 0 {
        return 0;
    }
    if state.taken.checked_add(piece.len() as u64).is_none() {
        return 23;
    }
    let mut column = (state.taken % ROW_SYMBOLS as u64) as usize;
    let mut row = (state.taken / ROW_SYMBOLS as u64 % PILOT_COUNT as u64) as usize;
    for &symbol in piece {
        kept[PILOT_COUNT * column + row] = symbol;
        state.taken += 1;
        column += 1;
        if column == ROW_SYMBOLS {
            column = 0;
            row = if row + 1 < PILOT_COUNT { row + 1 } else { 0 };
        }
        if state.taken >= FRAME_SYMBOLS as u64
            && may_lock(kept, column, row)
            && kept_lock(kept, state.taken)
        {
            state.found = 1;
            break;
        }
    }
    0
}

/// So many pilots are looked at before all are: as many as a column has in a row wherever its
/// oldest symbol stands.
const LOOKED_AT: usize = 32;

/// Whether kept symbols can lock whose oldest is in this column and row. Its column has the pilots
/// from that row on and round: either the first of them stand in a row, or those behind them.
#[inline(always)]
fn may_lock(kept: &Frame, column: usize, row: usize) -> bool {
    let (first, row) = if row <= PILOT_COUNT - LOOKED_AT {
        (0, row)
    } else {
        (LOOKED_AT, row + LOOKED_AT - PILOT_COUNT)
    };
    let symbols = &kept[PILOT_COUNT * column + row..][..LOOKED_AT];
    let pilots = &PILOTS[first..][..LOOKED_AT];
    let pairs = symbols.iter().zip(pilots);
    let right: u8 = pairs.map(|(a, b)| u8::from(a == b)).sum();
    // With no more than so many right, so many are wrong that there is no lock.
    usize::from(right) > LOOKED_AT - NO_LOCK
}

/// The whole rule, which is seldom asked: apart from the loop, so that it costs nothing there.
#[cold]
#[inline(never)]
fn kept_lock(kept: &Frame, taken: u64) -> bool {
    locks(&from_oldest(kept, taken))
}

#[cfg(test)]
mod tests {
    use super::*;
    use crate::receive::receive;
    use crate::send::send;
    use crate::xorshift::Xorshift;

    const WAYS: [fn(&[u8]) -> Found; 3] = [hunt, hunt_by_offset, by_rule];

    /// All ways must say the same.
    fn hunted(run: &[u8]) -> Found {
        let [first, others @ ..] = WAYS.map(|way| way(run));
        assert_eq!(others, [first; 2]);
        first
    }

    /// A frame of random lanes, sent from any store.
    fn sent(random: &mut Xorshift) -> Vec<u8> {
        let (mut store, mut frame) = (random.bytes(2_880), vec![0; 6_144]);
        assert_eq!(send(&random.bytes(5_280), &mut store, &mut frame), 0);
        frame
    }

    /// Makes so many pilots wrong, in turn in their X half alone and in their Y half alone.
    fn spoil(random: &mut Xorshift, frame: &mut [u8], count: usize) {
        for (n, number) in random.choose(96, count).into_iter().enumerate() {
            let wrong = 1 + random.below(15) as u8;
            frame[64 * number] ^= wrong << (4 * (n % 2));
        }
    }

    /// Pilots alone, so many of them wrong, from the first symbol on.
    fn plant(random: &mut Xorshift, run: &mut [u8], wrong: usize) {
        for (number, pilot) in PILOTS.into_iter().enumerate() {
            run[64 * number] = pilot;
        }
        spoil(random, run, wrong);
    }

    /// Random symbols of this length with these frames, each from its offset on.
    fn run_with(random: &mut Xorshift, length: usize, frames: &[(usize, &[u8])]) -> Vec<u8> {
        let mut run = random.bytes(length);
        for (offset, frame) in frames {
            run[*offset..offset + frame.len()].copy_from_slice(frame);
        }
        run
    }

    #[test]
    fn a_sent_frame_is_found() {
        let mut random = Xorshift::new(120);
        let mut offsets = vec![0, 1, 2, 62, 63, 64, 65, 127, 128, 129, 6_143, 6_144, 6_145];
        offsets.extend((0..12).map(|_| random.below(20_000) as usize));
        for offset in offsets {
            let frame = sent(&mut random);
            for behind in [0, 1, 126, 127, 128, 129, 6_143, 6_144] {
                let length = offset + 6_144 + behind;
                let run = run_with(&mut random, length, &[(offset, &frame)]);
                assert_eq!(hunted(&run), found_at(offset as u64));
            }
        }
    }

    #[test]
    fn of_many_frames_the_first_is_found() {
        let mut random = Xorshift::new(121);
        for offset in [0, 1, 64, 500] {
            let mut run = random.bytes(offset);
            for _ in 0..4 {
                run.extend(sent(&mut random));
            }
            assert_eq!(hunted(&run), found_at(offset as u64));
            // With others between them, and with the second right behind a part of the first.
            let (one, other) = (sent(&mut random), sent(&mut random));
            let frames: [(usize, &[u8]); 2] = [(offset, &one), (offset + 9_000, &other)];
            let run = run_with(&mut random, offset + 16_000, &frames);
            assert_eq!(hunted(&run), found_at(offset as u64));
            let frames: [(usize, &[u8]); 2] = [(offset, &one), (offset + 4_000, &other)];
            let run = run_with(&mut random, offset + 16_000, &frames);
            assert_eq!(hunted(&run), found_at(offset as u64 + 4_000));
        }
    }

    #[test]
    fn a_frame_that_is_cut_is_not_found() {
        let mut random = Xorshift::new(122);
        for offset in [0, 1, 63, 64, 127, 128, 129, 3_000] {
            let frame = sent(&mut random);
            let mut run = random.bytes(offset);
            run.extend(&frame);
            assert_eq!(hunted(&run), found_at(offset as u64));
            // Without its last symbol.
            run.pop();
            assert_eq!(hunted(&run), if offset == 0 { SHORT } else { NONE });
            // Without its first: whatever is before it takes the place of a pilot.
            run.extend(&frame[6_143..]);
            run.remove(offset);
            match offset {
                0 => assert_eq!(hunted(&run), SHORT),
                _ => assert_eq!(hunted(&run), found_at(offset as u64 - 1)),
            }
        }
    }

    #[test]
    fn the_first_frame_that_locks_is_found() {
        let mut random = Xorshift::new(123);
        for offset in [0, 7, 128] {
            for wrong in [0, 1, 23, 24, 25, 26, 48, 96] {
                let (mut one, mut other) = (sent(&mut random), sent(&mut random));
                spoil(&mut random, &mut one, wrong);
                spoil(&mut random, &mut other, 24);
                let run = [random.bytes(offset), one.clone(), other].concat();
                let start = if wrong < 25 { offset } else { offset + 6_144 };
                assert_eq!(hunted(&run), found_at(start as u64));
                let run = &run[..offset + 6_144];
                let alone = if wrong < 25 {
                    found_at(start as u64)
                } else {
                    NONE
                };
                assert_eq!(hunted(run), alone);
            }
        }
    }

    #[test]
    fn wrong_pilots_may_stand_together_anywhere() {
        let mut random = Xorshift::new(135);
        for first in 0..=71 {
            for count in [24, 25] {
                let mut frame = sent(&mut random);
                for number in first..first + count {
                    frame[64 * number] ^= [0x10, 0x01][number % 2];
                }
                let run = run_with(&mut random, 6_444, &[(100, &frame)]);
                assert_eq!(hunted(&run), if count < 25 { found_at(100) } else { NONE });
            }
        }
    }

    #[test]
    fn what_is_found_is_what_receiving_does_not_refuse() {
        let mut random = Xorshift::new(124);
        let mut seen = [0; 2];
        for count in 0..400 {
            let mut frame = sent(&mut random);
            for number in random.choose(96, count % 40) {
                let wrong = [0x0F, 0xF0, 0xFF][random.below(3) as usize];
                frame[64 * number] ^= wrong & random.next_u64() as u8;
            }
            let (mut store, mut lanes, mut flags) = ([0; 2_880], [0; 5_280], [0; 384]);
            let refusal = receive(&frame, &mut store, &mut lanes, &mut flags);
            let run = [random.bytes(3), frame].concat();
            assert_eq!(hunted(&run), if refusal == 0 { found_at(3) } else { NONE });
            seen[usize::from(refusal == 5)] += 1;
        }
        assert!(seen.iter().all(|&times| times > 50), "{seen:?}");
    }

    /// Pilots stand among the payload before a frame and in it: what they start is found.
    #[test]
    fn payload_can_resemble_pilots() {
        let mut random = Xorshift::new(125);
        for ahead in [1, 2, 63, 65, 127, 129, 1_000, 6_143] {
            let offset = 6_200;
            let frame = sent(&mut random);
            let right = run_with(&mut random, 15_000, &[(offset, &frame)]);
            for wrong in [0, 24, 25] {
                let mut run = right.clone();
                plant(&mut random, &mut run[offset - ahead..], wrong);
                let start = if wrong < 25 { offset - ahead } else { offset };
                assert_eq!(hunted(&run), found_at(start as u64));
            }
        }
    }

    #[test]
    fn short_runs_are_refused() {
        let mut random = Xorshift::new(126);
        let run = [sent(&mut random), sent(&mut random)].concat();
        for length in [0, 1, 2, 63, 64, 6_142, 6_143] {
            assert_eq!(hunted(&run[..length]), SHORT);
            assert_eq!(hunted(&random.bytes(length)), SHORT);
        }
        for length in [6_144, 6_145, 6_270, 6_271, 6_272, 12_288] {
            assert_eq!(hunted(&run[..length]), found_at(0));
            assert_eq!(hunted(&random.bytes(length)), NONE);
        }
        assert_eq!((SHORT.refusal, SHORT.found, SHORT.offset), (13, 0, 0));
        assert_eq!((NONE.refusal, NONE.found, NONE.offset), (0, 0, 0));
    }

    #[test]
    fn nothing_is_found_where_nothing_locks() {
        let mut random = Xorshift::new(127);
        for _ in 0..20 {
            let length = 6_144 + random.below(30_000) as usize;
            let any = random.bytes(length);
            // Outer levels alone, as pilots have; one pilot's byte alone; a frame turned round.
            let outer = any.iter().map(|symbol| symbol & 0xAA).collect();
            let one = vec![random.pick(&PILOTS); length];
            let mut turned = sent(&mut random);
            turned.reverse();
            for run in [any, outer, one, turned.repeat(3)] {
                assert_eq!(hunted(&run), NONE);
            }
        }
    }

    /// Many offsets at which most pilots are right, and at some of them so many that there is lock.
    #[test]
    fn all_ways_agree_near_the_limit() {
        let mut random = Xorshift::new(128);
        let mut found = 0;
        for _ in 0..300 {
            let mut run = random.bytes(6_144 + 300);
            for column in 0..64 {
                let offset = column + 64 * random.below(4) as usize;
                let wrong = 24 + random.below(60) as usize;
                plant(&mut random, &mut run[offset..], wrong);
            }
            found += hunted(&run).found;
        }
        assert!((50..250).contains(&found), "{found}");
    }

    type Way = fn(&mut State, &mut [u8], &[u8]) -> u32;

    const FEEDS: [Way; 2] = [feed, feed_fast];

    /// A search in pieces, both ways at once, over symbols that were kept before and do not matter.
    struct Search {
        state: State,
        kept: Vec<u8>,
    }

    impl Search {
        fn new(kept: Vec<u8>) -> Self {
            let state = open();
            Search { state, kept }
        }

        /// Both ways leave the same, and what is kept is what the rule says.
        fn feed(&mut self, piece: &[u8]) -> Found {
            let (before, kept) = (self.state, self.kept.clone());
            let [first, second] = FEEDS.map(|way| {
                let (mut state, mut kept) = (before, kept.clone());
                assert_eq!(way(&mut state, &mut kept, piece), 0);
                (state, kept)
            });
            assert!(first == second, "both ways differ");
            (self.state, self.kept) = first;
            if before.found != 0 {
                assert!(self.state == before && self.kept == kept);
            }
            answer(&self.state)
        }
    }

    /// What is kept of so many symbols over what stood there before.
    fn kept_of(symbols: &[u8], before: &[u8]) -> Vec<u8> {
        let mut kept = before.to_vec();
        for (n, &symbol) in symbols.iter().enumerate() {
            kept[96 * (n % 64) + n / 64 % 96] = symbol;
        }
        kept
    }

    /// What is kept of a frame whose first symbol is this one of all.
    fn kept_from(first: u64, frame: &[u8]) -> Vec<u8> {
        let numbers = (0..6_144).map(|j| (u128::from(first) + j) % 6_144);
        let mut kept = vec![0; 6_144];
        for (n, symbol) in numbers.zip(frame) {
            kept[(96 * (n % 64) + n / 64) as usize] = *symbol;
        }
        kept
    }

    #[test]
    fn every_symbol_has_its_own_place() {
        let mut random = Xorshift::new(136);
        let any = random.next_u64() >> 1;
        for first in [0, 1, 6_143, 6_144, any, u64::MAX - 6_143] {
            let mut places: Vec<usize> = (0..6_144).map(|j| place(first + j)).collect();
            // Those 64 apart side by side, and round in their column.
            for (place, next) in places.iter().zip(&places[64..]) {
                assert_eq!(place / 96, next / 96);
                assert_eq!((place + 1) % 96, next % 96);
            }
            // The next symbol comes to the oldest one's place.
            if let Some(next) = first.checked_add(6_144) {
                assert_eq!(place(next), places[0]);
            }
            places.sort();
            assert!(places.into_iter().eq(0..6_144));
        }
        assert_eq!([0, 1, 63, 64, 65].map(place), [0, 96, 6_048, 1, 97]);
        assert_eq!([6_143, 6_144, 6_145].map(place), [6_143, 0, 96]);
    }

    /// What is said of every beginning of a run, by its length.
    fn said_of_beginnings(run: &[u8]) -> Vec<Found> {
        let first = by_rule(run);
        let beginnings = 0..=run.len();
        beginnings
            .map(|length| match length as u64 {
                0..6_144 => SHORT,
                length if first.found == 1 && length >= first.offset + 6_144 => first,
                _ => NONE,
            })
            .collect()
    }

    #[test]
    fn beginnings_are_searched_like_runs() {
        let mut random = Xorshift::new(129);
        let frame = sent(&mut random);
        let with = run_with(&mut random, 6_300, &[(70, &frame)]);
        for run in [with, random.bytes(6_300)] {
            for (length, said) in said_of_beginnings(&run).into_iter().enumerate() {
                assert_eq!(by_rule(&run[..length]), said, "{length}");
            }
        }
    }

    #[test]
    fn every_cut_in_two_gives_the_answer_of_the_whole() {
        let mut random = Xorshift::new(130);
        let frame = sent(&mut random);
        let with = run_with(&mut random, 6_300, &[(70, &frame)]);
        for run in [with, random.bytes(6_300)] {
            let said = said_of_beginnings(&run);
            let stale = random.bytes(6_144);
            for cut in 0..=run.len() {
                let mut search = Search::new(stale.clone());
                assert_eq!(search.feed(&run[..cut]), said[cut]);
                assert_eq!(search.feed(&run[cut..]), said[run.len()]);
                let taken = match said[run.len()] {
                    NONE => run.len(),
                    found => found.offset as usize + 6_144,
                };
                assert_eq!(search.state.taken, taken as u64);
                assert!(search.kept == kept_of(&run[..taken], &stale));
            }
        }
    }

    #[test]
    fn any_pieces_give_the_answer_of_the_whole() {
        let mut random = Xorshift::new(131);
        for round in 0..60 {
            let length = 6_000 + random.below(20_000) as usize;
            let mut run = random.bytes(length);
            if round % 3 != 0 {
                // It may begin before the run, or not be there whole.
                let mut frame = sent(&mut random);
                let wrong = [0, 24, 25][round % 9 / 3];
                spoil(&mut random, &mut frame, wrong);
                let offset = random.below(length as u64) as usize;
                let there = frame.len().min(length - offset);
                run[offset..offset + there].copy_from_slice(&frame[..there]);
            }
            let said = said_of_beginnings(&run);
            assert_eq!(hunted(&run), said[length]);
            // A frame stands already where symbols are kept, and must not be taken for one.
            let mut search = Search::new(kept_from(0, &sent(&mut random)));
            let mut place = 0;
            while place < length {
                let most = random.pick(&[1, 2, 64, 128, 129, 1_000, 6_144, 10_000]);
                let count = random.below(most + 1).min((length - place) as u64) as usize;
                let piece = &run[place..place + count];
                place += count;
                assert_eq!(search.feed(piece), said[place]);
                assert_eq!(search.feed(&[]), said[place]);
            }
        }
    }

    /// Symbol by symbol over the moment of the find, and on.
    #[test]
    fn what_is_kept_then_holds_the_frame() {
        let mut random = Xorshift::new(132);
        for offset in [0, 1, 5, 64, 6_143, 6_144, 6_145, 9_999] {
            let frame = sent(&mut random);
            let run = run_with(&mut random, offset + 6_344, &[(offset, &frame)]);
            let (first, last) = run.split_at(offset + 6_044);
            let mut search = Search::new(random.bytes(6_144));
            search.feed(first);
            for (n, symbol) in last.iter().enumerate() {
                let said = search.feed(&[*symbol]);
                match n {
                    0..99 => assert_eq!(said, if offset + n < 99 { SHORT } else { NONE }),
                    _ => assert_eq!(said, found_at(offset as u64)),
                }
            }
            let state = State {
                taken: offset as u64 + 6_144,
                found: 1,
            };
            assert_eq!(search.state, state);
            for (j, symbol) in frame.iter().enumerate() {
                assert_eq!(search.kept[place((offset + j) as u64)], *symbol);
            }
            // Another frame changes nothing.
            assert_eq!(search.feed(&sent(&mut random)), found_at(offset as u64));
            assert_eq!(search.state, state);
        }
    }

    /// The kept symbols in which this frame lacks its last symbol only, so many being taken in.
    fn one_before(frame: &[u8], taken: u64, any: u8) -> Vec<u8> {
        let mut frame = frame.to_vec();
        frame[6_143] = any;
        kept_from(taken % 6_144 + 1, &frame)
    }

    /// Any number may have been stored, and any symbols.
    #[test]
    fn stored_states_go_on_by_the_same_rule() {
        let mut random = Xorshift::new(133);
        let mut taken = vec![
            0,
            1,
            6_141,
            6_142,
            6_143,
            6_144,
            6_145,
            12_287,
            12_288,
            1 << 32,
        ];
        taken.extend([u64::MAX - 6_144, u64::MAX - 2, u64::MAX - 1]);
        taken.extend((0..20).map(|_| random.next_u64() >> random.below(60)));
        for taken in taken {
            let mut frame = sent(&mut random);
            spoil(&mut random, &mut frame, 24);
            let right = frame[6_143];
            for (symbol, lock) in [(right, true), (right ^ 1, true), (right, false)] {
                if !lock {
                    let row = (0..96).find(|row| frame[64 * row] == PILOTS[*row]);
                    frame[64 * row.expect("a right pilot")] ^= 1;
                }
                let kept = one_before(&frame, taken, random.next_u64() as u8);
                // The last symbol of a frame is no pilot.
                let found = lock && taken >= 6_143;
                for piece in [vec![symbol], [vec![symbol], random.bytes(300)].concat()] {
                    if taken.checked_add(piece.len() as u64).is_none() {
                        continue;
                    }
                    for way in FEEDS {
                        let (mut state, mut kept) = (State { taken, found: 0 }, kept.clone());
                        assert_eq!(way(&mut state, &mut kept, &piece), 0);
                        let more = if found { 1 } else { piece.len() as u64 };
                        let (taken, found) = (taken + more, u64::from(found));
                        assert_eq!(state, State { taken, found });
                    }
                }
            }
        }
        // A frame that is whole before the piece is none that the piece makes.
        for taken in [6_144, 6_145, 10_000, 1 << 40] {
            let whole = kept_from(taken, &sent(&mut random));
            for count in [0, 1, 2, 64, 200, 7_000] {
                let piece = random.bytes(count as usize);
                for way in FEEDS {
                    let (mut state, mut kept) = (State { taken, found: 0 }, whole.clone());
                    assert_eq!(way(&mut state, &mut kept, &piece), 0);
                    let (taken, found) = (taken + count, 0);
                    assert_eq!(state, State { taken, found });
                }
            }
        }
        for _ in 0..500 {
            let taken = random.next_u64() >> random.below(64);
            let found = random.pick(&[0, 0, 0, 1, 2, u64::MAX]);
            let (kept, most) = (random.bytes(6_144), random.pick(&[1, 2, 130, 400]));
            let count = random.below(most + 1) as usize;
            let piece = random.bytes(count);
            let [first, second] = FEEDS.map(|way| {
                let (mut state, mut kept) = (State { taken, found }, kept.clone());
                (way(&mut state, &mut kept, &piece), state, kept)
            });
            assert!(first == second, "{taken}, {found}");
        }
    }

    /// Wherever the oldest symbol stands, and whichever pilots in a row are the wrong ones.
    #[test]
    fn wrong_pilots_may_stand_together_in_any_rows() {
        let mut random = Xorshift::new(137);
        for row in 0..96 {
            let taken = 6_144 * random.below(1_000) + 6_144 + 64 * row + random.below(64);
            let frame = sent(&mut random);
            for first in 0..=71 {
                for count in [24, 25] {
                    let mut frame = frame.clone();
                    for number in first..first + count {
                        frame[64 * number] ^= [0x10, 0x01][number % 2];
                    }
                    let kept = one_before(&frame, taken - 1, 0);
                    for way in FEEDS {
                        let (mut kept, found) = (kept.clone(), 0);
                        let mut state = State {
                            taken: taken - 1,
                            found,
                        };
                        assert_eq!(way(&mut state, &mut kept, &frame[6_143..]), 0);
                        let found = u64::from(count < 25);
                        assert_eq!(state, State { taken, found });
                        assert!(kept == kept_from(taken, &frame));
                    }
                }
            }
        }
    }

    #[test]
    fn refused_pieces_change_nothing() {
        let mut random = Xorshift::new(134);
        let taken = [0, 6_143, 6_144, u64::MAX - 300, u64::MAX - 1, u64::MAX];
        for (taken, found) in taken
            .into_iter()
            .flat_map(|taken| [0, 1, 7].map(|n| (taken, n)))
        {
            for length in [0, 1, 6_143, 6_144, 6_145, 12_288] {
                for count in [0, 1, 2, 299, 300, 301, 302] {
                    let refusal = match length {
                        6_144 if found == 0 && u64::MAX - taken < count => 23,
                        6_144 => 0,
                        _ => 2,
                    };
                    let (kept, piece) = (random.bytes(length), random.bytes(count as usize));
                    for way in FEEDS {
                        let (mut state, mut left) = (State { taken, found }, kept.clone());
                        assert_eq!(way(&mut state, &mut left, &piece), refusal);
                        let more = refusal == 0 && found == 0;
                        let taken = if more { taken + count } else { taken };
                        assert_eq!(state, State { taken, found });
                        assert!(left == kept || more && count > 0);
                    }
                }
            }
        }
    }

    #[test]
    fn answers_of_any_state() {
        assert_eq!(open(), State { taken: 0, found: 0 });
        for found in [0, 1, 2, 7, u64::MAX] {
            for taken in [0, 1, 6_143] {
                assert_eq!(answer(&State { taken, found }), SHORT);
            }
            for taken in [6_144, 6_145, 1 << 40, u64::MAX] {
                let offset = taken - 6_144;
                let said = if found == 0 { NONE } else { found_at(offset) };
                assert_eq!(answer(&State { taken, found }), said);
            }
        }
    }
}
