//! Test traffic: PRBS31 in place of the client's bits, and how many of them come back wrong.
//!
//! The register has 31 bits, ones before the first. Each new bit is the exclusive or of those 28 and
//! 31 places before it (x^31 + x^28 + 1), and what is sent is the new bit, inverted. A state is the
//! register as a number, the newest bit lowest; a bit above the 31 is no part of it: it is ignored
//! and comes out as zero.
//!
//! The stream goes round the 32 lanes from lane 0 on, ten bits a lane. Each lane comes back 36 blocks
//! later, behind zeros, which are no traffic and are not compared.

use crate::lanes::{
    BLOCK_BYTES, BLOCK_SYMBOLS, FRAME_BLOCKS, LANES, LANES_BYTES, LANE_BYTES, SYMBOL_BITS,
};
use crate::send::{bits_of, put_bits, Bits};

pub const STATE_BITS: usize = 31;
const STATE_MASK: u32 = (1 << STATE_BITS) - 1;

/// The register before the first bit: all ones.
pub const SEED: u32 = STATE_MASK;

/// Every state but 0 is back after so many bits and not before: as many as there are such states.
pub const PERIOD: u64 = (1 << STATE_BITS) - 1;

pub const FRAME_BITS: u64 = 8 * LANES_BYTES as u64;

/// How far behind the stream of all lanes comes back, and what of a lane's second frame is fill.
const LATE_BITS: u64 = 36 * 8 * (BLOCK_BYTES * LANES) as u64;
const FILL_BYTES: usize = 3 * BLOCK_BYTES;

/// The register with one bit more.
pub const fn step(state: u32) -> u32 {
    let new = (state >> 27 ^ state >> 30) & 1;
    (state << 1 | new) & STATE_MASK
}

/// What the step to this state has sent.
pub const fn sent(state: u32) -> bool {
    state & 1 == 0
}

/// What becomes of a state where each lone bit of it becomes what stands at its place.
fn sum(of_bits: &[u32; STATE_BITS], state: u32) -> u32 {
    let taken = of_bits.iter().enumerate();
    taken.fold(0, |sum, (place, of_bit)| {
        sum ^ (of_bit * (state >> place & 1))
    })
}

/// The states after 0 to 30 bits.
const FIRST_STATES: [u32; STATE_BITS] = {
    let mut states = [SEED; STATE_BITS];
    let mut bits = 1;
    while bits < STATE_BITS {
        states[bits] = step(states[bits - 1]);
        bits += 1;
    }
    states
};

/// The state after so many bits. With X for one bit later the stream keeps X^31 = X^3 + 1, so X^n is a
/// sum of some of X^0 to X^30, and the state after n bits the sum of the same of the first 31 states.
pub fn state_after(bits: u64) -> u32 {
    sum(&FIRST_STATES, power((bits % PERIOD) as u32))
}

/// X^n as the bits of its sum: from the upper digits of n down, squared for each more and times X
/// where it is 1.
fn power(n: u32) -> u32 {
    let digits = (u32::BITS - n.leading_zeros()).saturating_sub(5);
    let mut power = 1u64 << (n >> digits);
    for digit in (0..digits).rev() {
        let square = reduced(spread(power));
        power = reduced(square << (n >> digit & 1));
    }
    reduced(power) as u32
}

/// The square of a sum over two is the sum of the squares: each X^i becomes X^2i.
const fn spread(sum: u64) -> u64 {
    let sum = (sum | sum << 16) & 0x0000_FFFF_0000_FFFF;
    let sum = (sum | sum << 8) & 0x00FF_00FF_00FF_00FF;
    let sum = (sum | sum << 4) & 0x0F0F_0F0F_0F0F_0F0F;
    let sum = (sum | sum << 2) & 0x3333_3333_3333_3333;
    (sum | sum << 1) & 0x5555_5555_5555_5555
}

/// X^31 and what is above it goes 31 and 28 lower. Of up to X^62 nothing is left there after two.
const fn reduced(sum: u64) -> u64 {
    let above = sum >> STATE_BITS;
    sum & STATE_MASK as u64 ^ above ^ above << 3
}

/// A stream in words of 64 bits, the first on top: five for a row of ten bits a lane, and for a frame.
const ROW_WORDS: usize = LANES * SYMBOL_BITS / 64;
const STREAM_WORDS: usize = LANES_BYTES / 8;

/// What is sent from a state on. A square of x^31 + x^28 + 1 has the same terms twice as far apart,
/// so a bit is also a sum of those 112 and 124 back, and a word of those 28 and 31 words back.
fn stream(state: u32) -> [u64; STREAM_WORDS] {
    let mut words = [0; STREAM_WORDS];
    let mut last = !u64::from(state);
    for word in &mut words[..2] {
        for _ in 0..4 {
            last = last << 16 | !(last >> 12 ^ last >> 15) & 0xFFFF;
        }
        *word = last;
    }
    for n in 2..31 {
        let (a, b) = (words[n - 2], words[n - 1]);
        words[n] = !((a << 16 | b >> 48) ^ (a << 4 | b >> 60));
    }
    // As many at a time as wait for none of their own.
    for n in (31..STREAM_WORDS).step_by(28) {
        let (before, words) = words.split_at_mut(n);
        let pairs = before[n - 28..].iter().zip(&before[n - 31..]);
        for (word, (a, b)) in words.iter_mut().zip(pairs) {
            *word = !(a ^ b);
        }
    }
    words
}

/// The symbols of a row four by four, each four on top of whatever follows them.
#[inline(always)]
fn fours(row: &[u64]) -> [u64; LANES / 4] {
    let [a, b, c, d, e]: [u64; ROW_WORDS] = row.try_into().expect("a row");
    [
        a,
        a << 40 | b >> 24,
        b << 16,
        b << 56 | c >> 8,
        c << 32 | d >> 32,
        d << 8,
        d << 48 | e >> 16,
        e << 24,
    ]
}

/// Four symbols of each of four rows become four of each of four lanes: halves change their places,
/// and then symbols.
#[inline(always)]
fn turned([a, b, c, d]: [u64; 4]) -> [u64; 4] {
    const UPPER: u64 = 0xFFFFF << 44;
    const EVEN: u64 = 0x3FF << 54 | 0x3FF << 34;
    let exchanged = |a: u64, b: u64, lower: u32, mask: u64| {
        let difference = (a << lower ^ b) & mask;
        (a ^ difference >> lower, b ^ difference)
    };
    let (a, c) = exchanged(a, c, 20, UPPER);
    let (b, d) = exchanged(b, d, 20, UPPER);
    let (a, b) = exchanged(a, b, 10, EVEN);
    let (c, d) = exchanged(c, d, 10, EVEN);
    [a, b, c, d]
}

/// A block of each lane, which is four rows, in moves of so many bytes: the block's five, or eight
/// where what stands behind it is written later.
#[inline(always)]
fn deal_block<const MOVED: usize>(words: &[u64], block: usize, output: &mut [u8; LANES_BYTES]) {
    let [a, b, c, d] = [0, 1, 2, 3].map(|row| fours(&words[ROW_WORDS * row..][..ROW_WORDS]));
    for n in 0..LANES / 4 {
        let lanes = turned([a[n], b[n], c[n], d[n]]);
        for (lane, symbols) in (4 * n..).zip(lanes) {
            let place = LANE_BYTES * lane + BLOCK_BYTES * block;
            output[place..place + MOVED].copy_from_slice(&symbols.to_be_bytes()[..MOVED]);
        }
    }
}

/// Deals the stream round the lanes.
fn deal(words: &[u64; STREAM_WORDS], output: &mut [u8; LANES_BYTES]) {
    let blocks = words.chunks_exact(BLOCK_SYMBOLS * ROW_WORDS);
    for (block, words) in blocks.enumerate() {
        if block < FRAME_BLOCKS - 1 {
            deal_block::<8>(words, block, output);
        } else {
            deal_block::<BLOCK_BYTES>(words, block, output);
        }
    }
}

/// The lanes of a frame from a kept state on; the state moves to that after them.
/// Returns 0, or the number of the refusal, which changes nothing.
pub fn next(state: &mut u32, output: &mut [u8]) -> u32 {
    let output: &mut [u8; LANES_BYTES] = match output.try_into() {
        Ok(output) => output,
        Err(_) => return 3,
    };
    let words = stream(*state);
    *state = !words[STREAM_WORDS - 1] as u32 & STATE_MASK;
    deal(&words, output);
    0
}

/// The lanes of a frame by its number, counted from the first bit of all.
/// Returns 0, or the number of the refusal, which changes nothing.
pub fn frame(number: u32, output: &mut [u8]) -> u32 {
    let output: &mut [u8; LANES_BYTES] = match output.try_into() {
        Ok(output) => output,
        Err(_) => return 3,
    };
    deal(&stream(state_after(FRAME_BITS * u64::from(number))), output);
    0
}

/// Counts in each lane of a recovered frame the bits that are not those sent.
/// Returns 0, or the number of the refusal, which changes nothing.
pub fn check(number: u32, lanes: &[u8], wrong: &mut [u32]) -> u32 {
    let lanes: &[u8; LANES_BYTES] = match lanes.try_into() {
        Ok(lanes) => lanes,
        Err(_) => return 1,
    };
    let wrong: &mut [u32; LANES] = match wrong.try_into() {
        Ok(wrong) => wrong,
        Err(_) => return 3,
    };
    let fill = match number {
        0 => LANE_BYTES,
        1 => FILL_BYTES,
        _ => 0,
    };
    // A round more, since the first frames begin before the first bit.
    let before = FRAME_BITS * u64::from(number) + PERIOD - LATE_BITS;
    let mut right = [0; LANES_BYTES];
    deal(&stream(state_after(before)), &mut right);
    let right = right.chunks_exact(LANE_BYTES);
    for ((lane, right), wrong) in lanes.chunks_exact(LANE_BYTES).zip(right).zip(wrong) {
        let compared = lane.iter().zip(right).skip(fill);
        *wrong = compared.map(|(a, b)| (a ^ b).count_ones()).sum();
    }
    0
}

/// The state after so many bits, one after the other.
pub fn state_by_steps(bits: u64) -> u32 {
    (0..bits).fold(SEED, |state, _| step(state))
}

/// Where so many bits lead from a state: what a step makes of each lone bit is kept, and so many
/// steps done again are twice as many.
pub fn moved(mut state: u32, bits: u64) -> u32 {
    let mut steps = [0; STATE_BITS];
    for (place, of_bit) in steps.iter_mut().enumerate() {
        *of_bit = step(1 << place);
    }
    for digit in 0..u64::BITS {
        if bits >> digit & 1 == 1 {
            state = sum(&steps, state);
        }
        steps = steps.map(|of_bit| sum(&steps, of_bit));
    }
    state
}

/// The same as `state_after`, from what a step does.
pub fn state_after_by_rule(bits: u64) -> u32 {
    moved(SEED, bits)
}

/// The same as `next`, bit by bit.
pub fn next_by_rule(state: &mut u32, output: &mut [u8]) -> u32 {
    if output.len() != 5_280 {
        return 3;
    }
    let mut lanes = vec![Bits::new(); 32];
    for _ in 0..132 {
        for lane in &mut lanes {
            for _ in 0..10 {
                *state = step(*state);
                lane.push(sent(*state));
            }
        }
    }
    for (lane, bytes) in lanes.iter().zip(output.chunks_mut(165)) {
        put_bits(lane, bytes);
    }
    0
}

/// The same as `frame`, bit by bit.
pub fn frame_by_rule(number: u32, output: &mut [u8]) -> u32 {
    let mut state = state_after_by_rule(42_240 * u64::from(number));
    next_by_rule(&mut state, output)
}

/// The same as `check`, bit by bit.
pub fn check_by_rule(number: u32, lanes: &[u8], wrong: &mut [u32]) -> u32 {
    if lanes.len() != 5_280 {
        return 1;
    }
    if wrong.len() != 32 {
        return 3;
    }
    let lanes: Vec<Bits> = lanes.chunks(165).map(bits_of).collect();
    wrong.fill(0);
    // The frame's first bit among those sent in a lane. Before bit 0 stand zeros.
    let first = 1_320 * i64::from(number) - 1_440;
    let fill = (-first).max(0);
    let mut state = state_after_by_rule(32 * (first + fill) as u64);
    for n in (fill as usize..1_320).step_by(10) {
        for (lane, wrong) in lanes.iter().zip(&mut *wrong) {
            for &bit in &lane[n..n + 10] {
                state = step(state);
                *wrong += u32::from(bit != sent(state));
            }
        }
    }
    0
}

#[cfg(test)]
mod tests {
    use super::*;
    use crate::receive::receive;
    use crate::send::send;
    use crate::symbols::bit_place;
    use crate::xorshift::Xorshift;

    /// The stream by its recurrence alone, without a register: so many bits as they are sent.
    fn stream_by_recurrence(count: usize) -> Bits {
        let mut bits = vec![true; 31];
        for n in 31..31 + count {
            bits.push(bits[n - 28] ^ bits[n - 31]);
        }
        bits[31..].iter().map(|bit| !bit).collect()
    }

    fn number_of(bits: &[bool]) -> u64 {
        bits.iter().fold(0, |n, &bit| n << 1 | u64::from(bit))
    }

    #[test]
    fn the_first_bits() {
        let bits = stream_by_recurrence(64);
        assert_eq!(number_of(&bits[..31]), ((1 << 28) - 1) << 3);
        assert_eq!(number_of(&bits), 0xFFFF_FFF1_FFFF_FF03);
        let mut state = SEED;
        for bit in bits {
            state = step(state);
            assert_eq!(sent(state), bit);
        }
        let figures = [(0, 0x7FFF_FFFF), (1, 0x7FFF_FFFE), (28, 0x7000_0000)];
        let more = [(31, 7), (1_000, 0x7FF1_C700), (42_240, 0x0312_25A6)];
        for (bits, state) in figures.into_iter().chain(more) {
            assert_eq!(state_by_steps(bits), state, "{bits}");
        }
    }

    #[test]
    fn a_state_is_the_last_31_bits_before_they_are_inverted() {
        let bits = stream_by_recurrence(5_000);
        let mut state = SEED;
        for n in 0..5_000 {
            state = step(state);
            assert_eq!(sent(state), bits[n]);
            if n >= 30 {
                let last = !number_of(&bits[n - 30..=n]) as u32;
                assert_eq!(state, last & 0x7FFF_FFFF);
            }
        }
    }

    #[test]
    fn the_top_bit_is_not_looked_at() {
        let mut random = Xorshift::new(100);
        for _ in 0..1_000 {
            let state = random.next_u64() as u32;
            assert_eq!(step(state | 1 << 31), step(state & !(1 << 31)));
            assert_eq!(step(state) >> 31, 0);
        }
    }

    #[test]
    fn states_are_those_of_the_steps() {
        let mut random = Xorshift::new(101);
        let mut state = SEED;
        for bits in 0..3_000_000 {
            if bits < 3_000 || random.below(1_000) == 0 {
                assert_eq!(state_after(bits), state, "{bits}");
            }
            if bits < 300 || random.below(10_000) == 0 {
                assert_eq!(state_after_by_rule(bits), state, "{bits}");
            }
            state = step(state);
        }
    }

    /// Numbers of every size, and those beside powers of two and rounds.
    fn counts(random: &mut Xorshift) -> Vec<u64> {
        let mut counts = vec![0, u64::MAX];
        for digit in 0..64 {
            let power = 1u64 << digit;
            counts.extend([power - 1, power, power + 1]);
            counts.extend((0..4).map(|_| random.next_u64() >> digit));
        }
        for rounds in [1, 2, 3, 1 << 16, 1 << 32, u64::MAX / PERIOD] {
            let bits = rounds * PERIOD;
            counts.extend([bits - 1, bits, bits.saturating_add(1)]);
        }
        counts
    }

    #[test]
    fn both_ways_to_a_state_agree() {
        let mut random = Xorshift::new(102);
        for bits in counts(&mut random) {
            assert_eq!(state_after(bits), state_after_by_rule(bits), "{bits}");
        }
    }

    #[test]
    fn bits_and_more_bits_are_their_sum() {
        let mut random = Xorshift::new(103);
        for bits in counts(&mut random) {
            // One after the other.
            let few = random.below(200).min(u64::MAX - bits);
            let stepped = (0..few).fold(state_after(bits), |state, _| step(state));
            assert_eq!(stepped, state_after(bits + few));
            // Many, from any state.
            let many = random.next_u64() >> random.below(64);
            let many = many.min(u64::MAX - bits);
            assert_eq!(moved(state_after(bits), many), state_after(bits + many));
            let state = random.next_u64() as u32 & STATE_MASK;
            assert_eq!(moved(moved(state, bits), many), moved(state, bits + many));
            // So many twice.
            if let Some(twice) = bits.checked_mul(2) {
                assert_eq!(moved(state_after(bits), bits), state_after(twice));
            }
        }
    }

    #[test]
    fn a_round_is_2_to_the_31_less_1() {
        assert_eq!(PERIOD, 2_147_483_647);
        assert_eq!(state_after_by_rule(PERIOD), SEED);
        assert_eq!(state_after(PERIOD), SEED);
        for digit in 0..64 {
            assert_ne!(state_after_by_rule(1 << digit), SEED);
        }
        // 2^31 bits are one bit more, and so on.
        for digit in 0..33 {
            let again = state_after_by_rule(1 << (31 + digit));
            assert_eq!(again, state_after_by_rule(1 << digit));
        }
        // It is a prime: what comes back after it and not after one bit does not come back before.
        assert!((2..46_341).all(|divisor| PERIOD % divisor != 0));
        let mut random = Xorshift::new(104);
        for _ in 0..100 {
            let state = 1 + random.below(PERIOD) as u32;
            assert_ne!(step(state), state);
            assert_eq!(moved(state, PERIOD), state);
        }
    }

    #[test]
    fn a_state_of_zeros_stays_and_sends_ones() {
        for zero in [0, 1 << 31] {
            for way in [next, next_by_rule] {
                let (mut state, mut output) = (zero, [0x55; 5_280]);
                assert_eq!(way(&mut state, &mut output), 0);
                assert_eq!(state, 0);
                assert!(output == [0xFF; 5_280]);
            }
        }
    }

    /// As ITU-T O.150 has the sequence: its length, and 31 zeros in a row as the most.
    #[test]
    fn a_whole_round_of_the_stream() {
        let (mut ones, mut zeros) = (0, 0);
        // How often so many equal bits stand in a row.
        let mut in_a_row = [[0; 2]; 3];
        let mut state = SEED;
        let (mut before, mut left) = (stream(state_after(PERIOD - 64))[0], PERIOD);
        while left > 0 {
            let words = stream(state);
            state = !words[STREAM_WORDS - 1] as u32 & STATE_MASK;
            for word in words {
                let count = left.min(64);
                // The bits that end here and are counted, with those that stand before them.
                let counted = if count < 64 { !0 << (64 - count) } else { !0 };
                ones += u64::from((word & counted).count_ones());
                zeros += u64::from((!word & counted).count_ones());
                let both = u128::from(before) << 64 | u128::from(word);
                for (side, bits) in [!both, both].into_iter().enumerate() {
                    let two = bits & bits >> 1;
                    let four = two & two >> 2;
                    let eight = four & four >> 4;
                    let fifteen = eight & eight >> 7;
                    let thirty = fifteen & fifteen >> 15;
                    if thirty as u64 & counted != 0 {
                        for (more, count) in in_a_row.iter_mut().enumerate() {
                            let row = (0..=more).fold(thirty, |row, n| row & bits >> (29 + n));
                            count[side] += (row as u64 & counted).count_ones();
                        }
                    }
                }
                (before, left) = (word, left - count);
                if left == 0 {
                    break;
                }
            }
        }
        assert_eq!((ones, zeros), ((1 << 30) - 1, 1 << 30));
        // Of 30, 31 and 32 in a row: zeros, ones.
        assert_eq!(in_a_row, [[2, 1], [1, 0], [0, 0]]);
    }

    #[test]
    fn frames_have_the_stream_ten_bits_a_lane() {
        const FRAMES: usize = 5;
        let stream = stream_by_recurrence(42_240 * FRAMES);
        for f in 0..FRAMES {
            let mut output = [0x55; 5_280];
            assert_eq!(frame_by_rule(f as u32, &mut output), 0);
            for (p, lane) in output.chunks(165).map(bits_of).enumerate() {
                for (n, bit) in lane.into_iter().enumerate() {
                    let (s, i) = ((1_320 * f + n) / 10, n % 10);
                    assert_eq!(bit, stream[320 * s + 10 * p + i]);
                }
            }
        }
    }

    fn odd_states(random: &mut Xorshift) -> Vec<u32> {
        let mut states = vec![0, 1 << 31, SEED, u32::MAX, 1, 2, 0x5555_5555, 0xAAAA_AAAA];
        states.extend((0..32).map(|place| 1 << place));
        states.extend((0..100).map(|_| random.next_u64() as u32));
        states
    }

    #[test]
    fn both_ways_on_from_a_state_agree() {
        let mut random = Xorshift::new(105);
        for state in odd_states(&mut random) {
            let [first, second] = [next, next_by_rule].map(|way| {
                let (mut state, mut output) = (state, random.bytes(5_280));
                assert_eq!(way(&mut state, &mut output), 0);
                (state, output)
            });
            assert!(first == second, "{state:08X}");
            assert_eq!(first.0, moved(state & STATE_MASK, 42_240));
        }
    }

    #[test]
    fn a_frame_by_its_number_is_the_frame_of_the_run() {
        let mut random = Xorshift::new(106);
        let mut numbers = vec![0, 50_839, 50_840, 50_841, u32::MAX - 200];
        numbers.extend((0..32).map(|digit| 1 << digit));
        for start in numbers {
            let mut state = state_after_by_rule(42_240 * u64::from(start));
            for number in start..start + 12 {
                let [mut going_on, mut fast, mut slow] = [(); 3].map(|()| random.bytes(5_280));
                assert_eq!(next(&mut state, &mut going_on), 0);
                assert_eq!(frame(number, &mut fast), 0);
                assert!(fast == going_on, "{number}");
                if number < start + 3 {
                    assert_eq!(frame_by_rule(number, &mut slow), 0);
                    assert!(slow == going_on, "{number}");
                }
            }
        }
        for number in [u32::MAX, u32::MAX - 1] {
            let [mut fast, mut slow] = [(); 2].map(|()| random.bytes(5_280));
            assert_eq!(
                (frame(number, &mut fast), frame_by_rule(number, &mut slow)),
                (0, 0)
            );
            assert!(fast == slow);
        }
    }

    /// What comes back as a frame: of each lane the last 120 bits of the frame before the last, and
    /// the first 1,200 of the last; zeros where there was none.
    fn recovered(number: u32) -> Vec<u8> {
        let sent = |ago: u32| {
            let mut lanes = vec![0; 5_280];
            if let Some(number) = number.checked_sub(ago) {
                assert_eq!(frame_by_rule(number, &mut lanes), 0);
            }
            lanes
        };
        let (last, before) = (sent(1), sent(2));
        let lanes = last.chunks(165).zip(before.chunks(165));
        lanes
            .flat_map(|(last, before)| [&before[150..], &last[..150]].concat())
            .collect()
    }

    /// Both ways must count the same.
    fn counted(random: &mut Xorshift, number: u32, lanes: &[u8]) -> [u32; 32] {
        let [first, second] = [check, check_by_rule].map(|way| {
            // Whatever stands there before must not matter.
            let mut wrong = [0; 32].map(|_: u32| random.next_u64() as u32);
            assert_eq!(way(number, lanes, &mut wrong), 0);
            wrong
        });
        assert_eq!(first, second, "{number}");
        first
    }

    fn some_numbers(random: &mut Xorshift) -> Vec<u32> {
        let mut numbers = vec![
            0,
            1,
            2,
            3,
            4,
            50_840,
            50_842,
            1 << 31,
            u32::MAX - 1,
            u32::MAX,
        ];
        numbers.extend((0..10).map(|_| random.next_u64() as u32));
        numbers
    }

    /// How many bits of a lane are compared.
    fn compared(number: u32) -> u32 {
        match number {
            0 => 0,
            1 => 1_200,
            _ => 1_320,
        }
    }

    #[test]
    fn every_flip_is_counted_in_its_lane_but_for_fill() {
        let mut random = Xorshift::new(107);
        for number in some_numbers(&mut random) {
            let right = recovered(number);
            assert_eq!(counted(&mut random, number, &right), [0; 32]);
            let turned: Vec<u8> = right.iter().map(|byte| !byte).collect();
            let all = [compared(number); 32];
            assert_eq!(counted(&mut random, number, &turned), all);
            let edges = [0, 1, 118, 119, 120, 121, 1_199, 1_200, 1_318, 1_319];
            let any = random.choose(1_320, 10);
            for n in edges.into_iter().chain(any) {
                let lane = random.pick(&[0, 1, 15, 16, 30, 31]);
                let mut lanes = right.clone();
                lanes[165 * lane + n / 8] ^= 0x80 >> (n % 8);
                let mut wrong = [0; 32];
                wrong[lane] = u32::from(n as u32 >= 1_320 - compared(number));
                assert_eq!(counted(&mut random, number, &lanes), wrong, "{number}, {n}");
            }
        }
    }

    #[test]
    fn both_checks_agree_on_any_lanes() {
        let mut random = Xorshift::new(108);
        for number in some_numbers(&mut random) {
            for lanes in [random.bytes(5_280), vec![0; 5_280], vec![0xFF; 5_280]] {
                let wrong = counted(&mut random, number, &lanes);
                assert!(wrong.iter().all(|&wrong| wrong <= compared(number)));
            }
            // Lanes of another frame are wrong in about half their bits.
            let other = recovered(number.wrapping_add(1));
            let wrong: u32 = counted(&mut random, number, &other).iter().sum();
            let half = 16 * compared(number);
            assert!(wrong.abs_diff(half) <= half / 10, "{wrong} of {}", 2 * half);
        }
    }

    /// Sent and received: what is mended is not wrong, and of three flips in a word those of the
    /// information are, wherever they come out.
    #[test]
    fn traffic_comes_back_and_what_was_not_mended_is_counted() {
        const FRAMES: u32 = 12;
        let mut random = Xorshift::new(109);
        for unmended in [false, true] {
            let (mut sender, mut receiver) = ([0; 2_880], [0; 2_880]);
            let (mut state, mut passed, mut wrong) = (SEED, 0, 0);
            for number in 0..FRAMES {
                let (mut lanes, mut symbols) = ([0; 5_280], [0; 6_144]);
                assert_eq!(next(&mut state, &mut lanes), 0);
                assert_eq!(send(&lanes, &mut sender, &mut symbols), 0);
                for word in 0..384 {
                    // Late enough for no fill, and so early that all has come back at the end.
                    let hit = unmended && (3..9).contains(&number) && random.below(4) == 0;
                    let count = if hit { 3 } else { random.below(3) as usize };
                    for n in random.choose(126, count) {
                        let (symbol, bit) = bit_place(word / 32, word % 32, n);
                        symbols[symbol] ^= bit;
                        passed += u32::from(hit && n < 110);
                    }
                }
                let (mut lanes, mut flags) = ([0; 5_280], [0; 384]);
                assert_eq!(receive(&symbols, &mut receiver, &mut lanes, &mut flags), 0);
                if !unmended {
                    assert!(lanes == recovered(number)[..]);
                }
                wrong += counted(&mut random, number, &lanes).iter().sum::<u32>();
            }
            assert_eq!(wrong, passed);
            assert_eq!(wrong > 0, unmended);
        }
    }

    #[test]
    fn every_wrong_length_is_refused() {
        let mut random = Xorshift::new(110);
        let bytes = random.bytes(11_000);
        let numbers = [0; 400].map(|_: u32| random.next_u64() as u32);
        for length in (0..11_000).filter(|&length| length != 5_280) {
            for way in [next, next_by_rule] {
                let (mut state, mut output) = (numbers[0], bytes[..length].to_vec());
                assert_eq!(way(&mut state, &mut output), 3);
                assert!(state == numbers[0] && output == bytes[..length]);
            }
            for way in [frame, frame_by_rule] {
                let mut output = bytes[..length].to_vec();
                assert_eq!(way(length as u32, &mut output), 3);
                assert!(output == bytes[..length]);
            }
        }
        for lanes in [0, 1, 164, 165, 5_279, 5_280, 5_281, 6_144, 10_560] {
            for counts in (0..400).filter(|&counts| (lanes, counts) != (5_280, 32)) {
                for way in [check, check_by_rule] {
                    let mut wrong = numbers[..counts].to_vec();
                    let number = if lanes == 5_280 { 3 } else { 1 };
                    assert_eq!(way(counts as u32, &bytes[..lanes], &mut wrong), number);
                    assert!(wrong == numbers[..counts]);
                }
            }
        }
    }
}
