//! From the words to the frame and back: shuffle, mapping, pilots; and the levels of a label.
//!
//! A frame is 96 rows of a pilot and 63 payload symbols. A symbol is a byte of four labels of two
//! bits, XI on top, then XQ, YI, YQ, the tributaries 0 to 3.

use crate::lanes::LANES;
use crate::word::{join, split, FRAME_WORDS, INFORMATION_BITS, PARITY_BITS, WORD_BITS};

pub const PILOT_COUNT: usize = 96;
pub const ROW_SYMBOLS: usize = 64;
pub const ROW_PAYLOAD: usize = ROW_SYMBOLS - 1;
pub const FRAME_SYMBOLS: usize = PILOT_COUNT * ROW_SYMBOLS;
pub const PAYLOAD_SYMBOLS: usize = PILOT_COUNT * ROW_PAYLOAD;

/// Word k of all lanes fills so many payload symbols.
pub const WORD_SYMBOLS: usize = 504;

/// The rows carry four lanes each, eight rows all of them.
const ROW_LANES: usize = 4;
const WORD_ROWS: usize = LANES / ROW_LANES;

/// Table 5, from index 1 on; X in the upper half: 8 is 3-3j, A is 3+3j, 2 is -3+3j, 0 is -3-3j.
#[rustfmt::skip]
pub const PILOTS: [u8; PILOT_COUNT] = [
    0x88, 0x8A, 0xAA, 0x80, 0x82, 0x02, 0xA0, 0x22, 0x20, 0x28, 0x00, 0x28,
    0xAA, 0x20, 0x0A, 0x82, 0x22, 0x88, 0x8A, 0x02, 0x8A, 0x8A, 0xA8, 0x2A,
    0x20, 0x02, 0xA8, 0xA0, 0xA8, 0x00, 0x20, 0x80, 0xA2, 0x2A, 0x08, 0x00,
    0x82, 0xA2, 0x80, 0xA8, 0xAA, 0x28, 0x20, 0x00, 0x02, 0x02, 0xA8, 0x08,
    0xA2, 0x08, 0x8A, 0x0A, 0xA0, 0x08, 0x88, 0xA0, 0x02, 0x08, 0x80, 0x22,
    0x8A, 0x20, 0xA0, 0x8A, 0x82, 0x2A, 0xA2, 0x08, 0x22, 0x00, 0xA8, 0xA2,
    0x02, 0xA2, 0x20, 0x88, 0x20, 0xA2, 0x20, 0x20, 0x2A, 0xAA, 0x8A, 0xAA,
    0x28, 0x88, 0x0A, 0x0A, 0xA8, 0x22, 0x0A, 0x80, 0x88, 0x2A, 0x8A, 0x0A,
];

/// A frame in which so many pilots differ, or more, gives no lock.
pub const NO_LOCK: usize = 25;

pub const fn level(label: u8) -> Option<i8> {
    match label {
        0b00 => Some(-3),
        0b01 => Some(-1),
        0b11 => Some(1),
        0b10 => Some(3),
        _ => None,
    }
}

pub const fn label(level: i8) -> Option<u8> {
    match level {
        -3 => Some(0b00),
        -1 => Some(0b01),
        1 => Some(0b11),
        3 => Some(0b10),
        _ => None,
    }
}

/// Where information bit q of a word of lane p goes.
pub const fn shuffled_place(p: usize, q: usize) -> usize {
    (q + 20 * p) % INFORMATION_BITS as usize
}

/// What tributary t of payload symbol l takes: the lane, and the places of the upper and lower bit.
pub const fn source(l: usize, t: usize) -> (usize, [usize; 2]) {
    let j = l % ROW_PAYLOAD;
    let lane = 4 * (l / ROW_PAYLOAD) + (2 * l + l / 2 % 2 + t) % 4;
    (lane, [2 * j + l % 2, 2 * j + (l + 1) % 2])
}

/// Where payload symbol m = 504k + l stands in the frame.
pub const fn frame_place(m: usize) -> usize {
    ROW_SYMBOLS * (m / ROW_PAYLOAD) + 1 + m % ROW_PAYLOAD
}

/// Where bit `number` of word k of lane p stands in the frame: the symbol, and the bit in it.
pub const fn bit_place(k: usize, p: usize, number: usize) -> (usize, u8) {
    let place = if number < INFORMATION_BITS as usize {
        shuffled_place(p, number)
    } else {
        number
    };
    let l = ROW_PAYLOAD * (p / ROW_LANES) + place / 2;
    let t = (p + 4 - source(l, 0).0 % ROW_LANES) % ROW_LANES;
    let upper = place % 2 == l % 2;
    let bit = if upper { 0x80 } else { 0x40 };
    (frame_place(WORD_SYMBOLS * k + l), bit >> (2 * t))
}

/// The word of lane p with its information bits shuffled and its parity left in place.
#[inline(always)]
pub fn shuffle(p: usize, word: u128) -> u128 {
    const MASK: u128 = (1 << INFORMATION_BITS) - 1;
    let information = word >> PARITY_BITS & MASK;
    // Bit 0 is on top, so a bit moves to a higher place by moving down.
    let down = shuffled_place(p, 0) as u32;
    let turned = information >> down | information << (u32::from(INFORMATION_BITS) - down) & MASK;
    turned << PARITY_BITS | word & 0xFFFF
}

/// Undoes `shuffle`.
#[inline(always)]
pub fn unshuffle(p: usize, word: u128) -> u128 {
    const MASK: u128 = (1 << INFORMATION_BITS) - 1;
    let information = word >> PARITY_BITS & MASK;
    let up = shuffled_place(p, 0) as u32;
    let turned = (information << up | information >> (u32::from(INFORMATION_BITS) - up)) & MASK;
    turned << PARITY_BITS | word & 0xFFFF
}

/// One row: the pilot, then four words, already shuffled, of lanes 4g to 4g + 3.
#[inline(always)]
fn fill_row(row: &mut [u8; ROW_SYMBOLS], g: usize, pilot: u8, words: [u128; ROW_LANES]) {
    // The lane of the four that XI takes at l mod 4 = 0, 1, 2, 3.
    const FIRST: [usize; 4] = [0, 2, 1, 3];

    // Two empty bits stand above a word, so pair j of its bits is pair j + 1 of these bytes.
    let words = words.map(u128::to_be_bytes);
    let mut turned = words;
    for bytes in &mut turned {
        for byte in bytes {
            *byte = (*byte & 0xAA) >> 1 | (*byte & 0x55) << 1;
        }
    }
    let mut tributaries = [[0; 16]; 4];
    for (t, bytes) in tributaries.iter_mut().enumerate() {
        for (c, first) in FIRST.into_iter().enumerate() {
            let lane = (first + t) % 4;
            // Odd symbols take the two bits the other way round.
            let from = if c % 2 == 0 { &words } else { &turned };
            // l = 63g + j, so l mod 4 = c where j mod 4 = (c + g) mod 4.
            let mask = 0b1100_0000 >> (2 * ((c + g + 1) % 4));
            for (byte, taken) in bytes.iter_mut().zip(from[lane]) {
                *byte |= taken & mask;
            }
        }
    }

    // Four bytes are the labels of four symbols by tributary; transposed they are the symbols.
    for (b, symbols) in row.chunks_exact_mut(4).enumerate() {
        let [xi, xq, yi, yq] = &tributaries;
        let mut x = u32::from_le_bytes([xi[b], xq[b], yi[b], yq[b]]);
        let moved = (x ^ x >> 20) & 0x0000_0F0F;
        x ^= moved ^ moved << 20;
        let moved = (x ^ x >> 10) & 0x0033_0033;
        x ^= moved ^ moved << 10;
        symbols.copy_from_slice(&x.to_le_bytes());
    }
    row[0] = pilot;
}

/// The frame of 384 words with their parity; word i = 32k + p is `words[2i]`, `words[2i + 1]`.
pub fn frame(words: &[u64; 2 * FRAME_WORDS], output: &mut [u8; FRAME_SYMBOLS]) {
    // Rows of the same four lanes one after another: their shifts and masks are the same.
    for g in 0..WORD_ROWS {
        for k in 0..FRAME_WORDS / LANES {
            let number = WORD_ROWS * k + g;
            let four = &words[2 * ROW_LANES * number..][..2 * ROW_LANES];
            let mut shuffled = [0; ROW_LANES];
            for (lane, word) in shuffled.iter_mut().enumerate() {
                let sent = join(four[2 * lane], four[2 * lane + 1]);
                *word = shuffle(ROW_LANES * g + lane, sent);
            }
            let row = &mut output[ROW_SYMBOLS * number..][..ROW_SYMBOLS];
            let row = row.try_into().expect("64 symbols");
            fill_row(row, g, PILOTS[number], shuffled);
        }
    }
}

/// How many of the 96 pilots are not what table 5 has.
pub fn wrong_pilots(frame: &[u8; FRAME_SYMBOLS]) -> usize {
    let rows = frame.chunks_exact(ROW_SYMBOLS);
    rows.zip(PILOTS)
        .filter(|(row, pilot)| row[0] != *pilot)
        .count()
}

/// Whether a frame locks.
pub fn locks(frame: &[u8; FRAME_SYMBOLS]) -> bool {
    wrong_pilots(frame) < NO_LOCK
}

/// Exchanges the bits of `low` at the mask with those of `high` so many places above it.
#[inline(always)]
fn exchange(low: &mut u8, high: &mut u8, above: u32, mask: u8) {
    let difference = (*low ^ *high >> above) & mask;
    *low ^= difference;
    *high ^= difference << above;
}

/// The even bytes and the odd bytes.
#[inline(always)]
fn part<const HALF: usize>(bytes: &[u8], even: &mut [u8; HALF], odd: &mut [u8; HALF]) {
    // One loop for each, and numbers of two bytes: so it is done for many bytes at once.
    let pair = |two: &[u8]| u16::from_le_bytes(two.try_into().expect("two bytes"));
    for (even, two) in even.iter_mut().zip(bytes.chunks_exact(2)) {
        *even = pair(two) as u8;
    }
    for (odd, two) in odd.iter_mut().zip(bytes.chunks_exact(2)) {
        *odd = (pair(two) >> 8) as u8;
    }
}

/// Long enough for the labels of a quarter of the payload, four in a byte.
type Stream = [u8; FRAME_SYMBOLS / 4];

/// Stream r has the label of lane 4g + r of each payload symbol, so word k of that lane is the 126
/// bits from bit 126(8k + g) on.
#[inline(always)]
fn streams(frame: &[u8; FRAME_SYMBOLS]) -> [Stream; ROW_LANES] {
    let mut payload = [0; FRAME_SYMBOLS];
    let to = payload.chunks_exact_mut(ROW_PAYLOAD);
    for (to, row) in to.zip(frame.chunks_exact(ROW_SYMBOLS)) {
        to.copy_from_slice(&row[1..]);
    }
    let (mut even, mut odd) = ([0; FRAME_SYMBOLS / 2], [0; FRAME_SYMBOLS / 2]);
    part(&payload, &mut even, &mut odd);
    // XI is of lane 4g + 0, 2, 1, 3 at l mod 4 = 0, 1, 2, 3, so the labels in a byte are to turn by
    // so many places. The turn by two is made by taking 3 for 1 and 1 for 3.
    let mut streams = [[0; FRAME_SYMBOLS / 4]; ROW_LANES];
    let [first, second, third, fourth] = &mut streams;
    part(&even, first, third);
    part(&odd, fourth, second);
    for (((a, b), c), d) in first.iter_mut().zip(second).zip(third).zip(fourth) {
        let swapped = |byte: u8| (byte & 0xAA) >> 1 | (byte & 0x55) << 1;
        *b = swapped(*b).rotate_right(2);
        *c = c.rotate_right(2);
        *d = swapped(*d);
        // Four symbols become four labels of each of the four lanes.
        exchange(a, c, 4, 0x0F);
        exchange(d, b, 4, 0x0F);
        exchange(a, b, 2, 0x33);
        exchange(c, d, 2, 0x33);
    }
    streams
}

/// Eight words of a stream fill 126 bytes: word k of lanes r, 4 + r, and so on.
const EIGHT_WORDS: usize = 126;

/// The word of lane P; as P is a constant, so is every shift.
#[inline(always)]
fn cut<const P: usize>(eight: &[&[u8; EIGHT_WORDS + 1]; ROW_LANES]) -> (u64, u64) {
    let bytes = eight[P % ROW_LANES];
    let first = usize::from(WORD_BITS) * (P / ROW_LANES);
    let (start, before) = (first / 8, first % 8);
    let next = u128::from(bytes[start + 16]);
    let bytes: [u8; 16] = bytes[start..start + 16].try_into().expect("16 bytes");
    let word = u128::from_be_bytes(bytes) << before | next >> (8 - before);
    split(unshuffle(P, word >> 2))
}

/// The 384 words of a frame, as `frame` takes them; the pilots do not matter.
pub fn frame_words(frame: &[u8; FRAME_SYMBOLS]) -> [u64; 2 * FRAME_WORDS] {
    let streams = streams(frame);
    let mut words = [0; 2 * FRAME_WORDS];
    for (k, words) in words.chunks_exact_mut(2 * LANES).enumerate() {
        let eight = [0, 1, 2, 3].map(|r: usize| {
            let bytes = &streams[r][EIGHT_WORDS * k..][..EIGHT_WORDS + 1];
            bytes.try_into().expect("127 bytes")
        });
        macro_rules! each {
            ($($p:literal)*) => {
                $((words[2 * $p], words[2 * $p + 1]) = cut::<$p>(&eight);)*
            };
        }
        each!(0 1 2 3 4 5 6 7 8 9 10 11 12 13 14 15);
        each!(16 17 18 19 20 21 22 23 24 25 26 27 28 29 30 31);
    }
    words
}

#[cfg(test)]
mod tests {
    use super::*;
    use crate::word::{encode_frame, only_bit};
    use crate::xorshift::Xorshift;

    const WORDS: usize = 2 * FRAME_WORDS;
    const PAYLOAD_BITS: usize = 8 * PAYLOAD_SYMBOLS;

    fn random_words(random: &mut Xorshift) -> [u64; WORDS] {
        let mut words = [0; WORDS];
        words.fill_with(|| random.next_u64());
        encode_frame(&mut words);
        words
    }

    fn frame_of(words: &[u64; WORDS]) -> [u8; FRAME_SYMBOLS] {
        let mut output = [0xFF; FRAME_SYMBOLS];
        frame(words, &mut output);
        output
    }

    /// The bit of word k of lane p that stands at this place after the shuffle.
    fn bit_before_shuffle(p: usize, place: usize) -> usize {
        if place >= 110 {
            return place;
        }
        (0..110)
            .find(|&q| shuffled_place(p, q) == place)
            .expect("every place is taken")
    }

    #[test]
    fn sizes() {
        assert_eq!((FRAME_SYMBOLS, PAYLOAD_SYMBOLS), (6_144, 6_048));
        assert_eq!(PAYLOAD_BITS, 48_384);
        assert_eq!(FRAME_WORDS * usize::from(WORD_BITS), PAYLOAD_BITS);
        assert_eq!(12 * WORD_SYMBOLS, PAYLOAD_SYMBOLS);
        assert_eq!(WORD_ROWS * ROW_PAYLOAD, WORD_SYMBOLS);
    }

    #[test]
    fn levels_and_labels() {
        assert_eq!(level(0b00), Some(-3));
        assert_eq!(level(0b01), Some(-1));
        assert_eq!(level(0b11), Some(1));
        assert_eq!(level(0b10), Some(3));
        for value in 4..=u8::MAX {
            assert_eq!(level(value), None);
        }
        let mut none = 0;
        for value in i8::MIN..=i8::MAX {
            match label(value) {
                Some(found) => assert_eq!(level(found), Some(value)),
                None => none += 1,
            }
        }
        assert_eq!(none, 252);
    }

    /// Pilot bits of one polarisation by table 4: x^9 + x^8 + x^5 + x^4 + 1, the lowest bit first.
    fn prbs9(seed: u16) -> impl Iterator<Item = u8> {
        let mut register = seed;
        std::iter::repeat_with(move || {
            let out = register & 1;
            let new = register >> 8 ^ register >> 5 ^ register >> 4 ^ register;
            register = register >> 1 | (new & 1) << 8;
            out as u8
        })
    }

    #[test]
    fn pilots_are_what_table_4_produces() {
        let (mut x, mut y) = (prbs9(0x175), prbs9(0x03D));
        for (index, pilot) in PILOTS.into_iter().enumerate() {
            // A one is +3, a zero -3; I comes before Q.
            let of_level = |bits: &mut dyn Iterator<Item = u8>| {
                let outer = if bits.next() == Some(1) { 3 } else { -3 };
                label(outer).expect("a level")
            };
            let (xi, xq) = (of_level(&mut x), of_level(&mut x));
            let (yi, yq) = (of_level(&mut y), of_level(&mut y));
            assert_eq!(
                pilot,
                xi << 6 | xq << 4 | yi << 2 | yq,
                "index {}",
                index + 1
            );
        }
    }

    #[test]
    fn pilots_have_outer_levels_and_no_direct_part() {
        let mut sums = [0; 4];
        for pilot in PILOTS {
            for (t, sum) in sums.iter_mut().enumerate() {
                let level = level(pilot >> (6 - 2 * t) & 3).expect("a level");
                assert!(level == 3 || level == -3);
                *sum += i32::from(level);
            }
        }
        assert_eq!(sums, [0; 4]);
    }

    #[test]
    fn bench_rows_8_to_12() {
        assert_eq!(shuffled_place(31, 0), 70);
        assert_eq!(shuffled_place(16, 10), 0);
        assert_eq!(source(1, 0), (2, [3, 2]));
        assert_eq!(source(63, 0), (7, [1, 0]));
        assert_eq!(frame_place(6_047), 6_143);
    }

    #[test]
    fn bench_rows_8_to_12_in_the_fast_frame() {
        // Of a lone bit: its word k and lane p, its number; then its symbol and bit in the frame.
        let lands = |k: usize, p: usize, number: u8| {
            let mut words = [0; WORDS];
            let i = 32 * k + p;
            (words[2 * i], words[2 * i + 1]) = split(only_bit(number));
            let (with, without) = (frame_of(&words), frame_of(&[0; WORDS]));
            let found: Vec<_> = (0..FRAME_SYMBOLS)
                .filter(|&n| with[n] != without[n])
                .map(|n| (n, with[n] ^ without[n]))
                .collect();
            assert_eq!(found.len(), 1);
            found[0]
        };
        // Row 8: place 70 of lane 31 is the first of pair 35, l = 63 * 7 + 35 = 476 is even, and
        // (2l + l/2 % 2 + t) % 4 is 3 for t = 3: YQ, upper bit.
        assert_eq!(lands(0, 31, 0), (frame_place(476), 0b10));
        // Row 9: place 0 of lane 16 is in l = 63 * 4 = 252, XI, upper bit.
        assert_eq!(lands(0, 16, 10), (frame_place(252), 0b1000_0000));
        // Row 10: XI of l = 1 has bits 3 and 2 of lane 2, which before the shuffle are 73 and 72.
        assert_eq!(lands(5, 2, 73), (frame_place(5 * 504 + 1), 0b1000_0000));
        assert_eq!(lands(5, 2, 72), (frame_place(5 * 504 + 1), 0b0100_0000));
        // Row 11: XI of l = 63 has bits 1 and 0 of lane 7, before the shuffle 81 and 80.
        assert_eq!(lands(11, 7, 81), (frame_place(11 * 504 + 63), 0b1000_0000));
        assert_eq!(lands(11, 7, 80), (frame_place(11 * 504 + 63), 0b0100_0000));
        // Row 12: the last payload symbol, l = 503, has the last two bits of lanes 28 to 31.
        for p in 28..32 {
            assert_eq!(lands(11, p, 124).0, 6_143);
            assert_eq!(lands(11, p, 125).0, 6_143);
        }
    }

    #[test]
    fn shuffle_is_that_of_both_documents() {
        // Document 000 numbers the bits downwards from m_109 and writes (q - 20p) % 110.
        for p in 0..LANES as i64 {
            for q in 0..110i64 {
                let place = 109 - (q - 20 * p).rem_euclid(110);
                assert_eq!(
                    shuffled_place(p as usize, (109 - q) as usize),
                    place as usize
                );
            }
        }
        // The first column of the shuffled table in document 001, by lane.
        let printed = [
            0, 9, 7, 5, 3, 1, 10, 8, 6, 4, 2, 0, 9, 7, 5, 3, 1, 10, 8, 6, 4, 2, 0, 9, 7, 5, 3, 1,
            10, 8, 6, 4,
        ];
        for (p, symbol) in printed.into_iter().enumerate() {
            for bit in 0..10 {
                assert_eq!(shuffled_place(p, 10 * symbol + bit), bit);
            }
        }
    }

    #[test]
    fn shuffle_moves_each_bit_to_its_place() {
        for p in 0..LANES {
            for number in 0..WORD_BITS {
                let place = if number < INFORMATION_BITS {
                    shuffled_place(p, usize::from(number)) as u8
                } else {
                    number
                };
                assert_eq!(shuffle(p, only_bit(number)), only_bit(place));
            }
            assert_eq!(shuffle(p, (1 << 126) - 1), (1 << 126) - 1);
        }
    }

    #[test]
    fn frame_agrees_with_the_rule() {
        let mut random = Xorshift::new(21);
        for _ in 0..20 {
            let words = random_words(&mut random);
            let got = frame_of(&words);
            for (row, pilot) in PILOTS.into_iter().enumerate() {
                assert_eq!(got[64 * row], pilot);
            }
            for m in 0..PAYLOAD_SYMBOLS {
                let (k, l) = (m / WORD_SYMBOLS, m % WORD_SYMBOLS);
                let mut symbol = 0;
                for t in 0..4 {
                    let (p, places) = source(l, t);
                    let i = 32 * k + p;
                    let word = join(words[2 * i], words[2 * i + 1]);
                    for place in places {
                        let bit = word & only_bit(bit_before_shuffle(p, place) as u8) != 0;
                        symbol = symbol << 1 | u8::from(bit);
                    }
                }
                assert_eq!(got[frame_place(m)], symbol, "payload symbol {m}");
            }
        }
    }

    #[test]
    fn unshuffle_undoes_shuffle() {
        let mut random = Xorshift::new(22);
        for p in 0..LANES {
            for number in 0..WORD_BITS {
                assert_eq!(unshuffle(p, shuffle(p, only_bit(number))), only_bit(number));
            }
            let word = random.next_u128() >> 2;
            assert_eq!(unshuffle(p, shuffle(p, word)), word);
            assert_eq!(shuffle(p, unshuffle(p, word)), word);
            // The two bits above the word do not matter.
            assert_eq!(unshuffle(p, word | 3 << 126), unshuffle(p, word));
        }
    }

    #[test]
    fn frame_words_agree_with_the_rule_on_any_symbols() {
        let mut random = Xorshift::new(23);
        for _ in 0..20 {
            let mut frame = [0; FRAME_SYMBOLS];
            frame.fill_with(|| random.next_u64() as u8);
            let mut expected = [0u128; FRAME_WORDS];
            for m in 0..PAYLOAD_SYMBOLS {
                let (k, l) = (m / WORD_SYMBOLS, m % WORD_SYMBOLS);
                let symbol = frame[frame_place(m)];
                for t in 0..4 {
                    let (p, places) = source(l, t);
                    for (lower, place) in places.into_iter().enumerate() {
                        if symbol >> (7 - 2 * t - lower) & 1 == 1 {
                            expected[32 * k + p] |= only_bit(bit_before_shuffle(p, place) as u8);
                        }
                    }
                }
            }
            let words = frame_words(&frame);
            for (word, expected) in words.chunks_exact(2).zip(expected) {
                assert_eq!((word[0], word[1]), split(expected));
            }
        }
    }

    #[test]
    fn frame_words_undo_frame() {
        let mut random = Xorshift::new(24);
        for _ in 0..100 {
            let words = random_words(&mut random);
            let mut frame = frame_of(&words);
            assert!(frame_words(&frame) == words);
            // Whatever the pilots are.
            for row in frame.chunks_exact_mut(ROW_SYMBOLS) {
                row[0] = random.next_u64() as u8;
            }
            assert!(frame_words(&frame) == words);
        }
    }

    #[test]
    fn bit_place_agrees_with_the_rule() {
        for m in 0..PAYLOAD_SYMBOLS {
            let (k, l) = (m / WORD_SYMBOLS, m % WORD_SYMBOLS);
            for t in 0..4 {
                let (p, places) = source(l, t);
                for (lower, place) in places.into_iter().enumerate() {
                    let number = bit_before_shuffle(p, place);
                    let bit = 0x80 >> (2 * t + lower);
                    assert_eq!(bit_place(k, p, number), (frame_place(m), bit));
                }
            }
        }
    }

    #[test]
    fn wrong_pilots_are_counted() {
        let mut random = Xorshift::new(25);
        let right = frame_of(&random_words(&mut random));
        assert_eq!(wrong_pilots(&right), 0);
        for row in 0..PILOT_COUNT {
            for difference in 1..=u8::MAX {
                let mut frame = right;
                frame[ROW_SYMBOLS * row] ^= difference;
                assert_eq!(wrong_pilots(&frame), 1);
            }
        }
        let mut frame = right;
        for row in 0..PILOT_COUNT {
            assert_eq!(wrong_pilots(&frame), row);
            assert_eq!(locks(&frame), row < 25);
            frame[ROW_SYMBOLS * row] ^= 1 << random.below(8);
        }
        assert_eq!(wrong_pilots(&frame), 96);
        // The payload does not matter.
        for (n, symbol) in frame.iter_mut().enumerate() {
            if n % ROW_SYMBOLS == 0 {
                *symbol = PILOTS[n / ROW_SYMBOLS];
            } else {
                *symbol = random.next_u64() as u8;
            }
        }
        assert_eq!(wrong_pilots(&frame), 0);
    }

    #[test]
    fn mapping_is_a_bijection_of_the_payload_bits() {
        let mut taken = vec![false; PAYLOAD_BITS];
        for m in 0..PAYLOAD_SYMBOLS {
            let (k, l) = (m / WORD_SYMBOLS, m % WORD_SYMBOLS);
            for t in 0..4 {
                let (p, places) = source(l, t);
                assert!(p < LANES);
                for place in places {
                    assert!(place < 126);
                    let bit = 126 * (32 * k + p) + bit_before_shuffle(p, place);
                    assert!(!taken[bit], "word bit {bit} is sent twice");
                    taken[bit] = true;
                }
            }
        }
        assert!(taken.into_iter().all(|bit| bit));

        let mut places: Vec<_> = (0..PAYLOAD_SYMBOLS).map(frame_place).collect();
        places.extend((0..PILOT_COUNT).map(|row| ROW_SYMBOLS * row));
        places.sort_unstable();
        assert!(places.into_iter().eq(0..FRAME_SYMBOLS));
    }

    #[test]
    fn the_fast_frame_is_a_bijection_too() {
        // The frame is linear in the words but for the pilots, so lone bits stand for all words.
        let empty = frame_of(&[0; WORDS]);
        let mut reached = [0; FRAME_SYMBOLS];
        let mut words = [0; WORDS];
        for i in 0..FRAME_WORDS {
            for number in 0..WORD_BITS {
                (words[2 * i], words[2 * i + 1]) = split(only_bit(number));
                let full = frame_of(&words);
                let mut bits = 0;
                for n in 0..FRAME_SYMBOLS {
                    let changed = full[n] ^ empty[n];
                    bits += changed.count_ones();
                    assert_eq!(changed & reached[n], 0);
                    reached[n] |= changed;
                }
                assert_eq!(bits, 1);
            }
            (words[2 * i], words[2 * i + 1]) = (0, 0);
        }
        for (n, bits) in reached.into_iter().enumerate() {
            assert_eq!(bits, if n % ROW_SYMBOLS == 0 { 0 } else { 0xFF });
        }
    }

    #[test]
    fn the_other_reading_of_2l_mod_63_loses_bits() {
        let mut taken = vec![false; LANES * 126];
        for l in 0..WORD_SYMBOLS {
            let base = 2 * l % 63;
            for t in 0..4 {
                let lane = source(l, t).0;
                taken[126 * lane + base + l % 2] = true;
                taken[126 * lane + base + (l + 1) % 2] = true;
            }
        }
        let reached = taken.into_iter().filter(|&bit| bit).count();
        println!("{reached} of 4032 bits reached");
        assert_eq!(reached, 2_048);
    }

    #[test]
    fn each_63_payload_symbols_carry_four_whole_words() {
        for row in 0..PILOT_COUNT {
            // Counted by lane and place; a place counted once for each of 126 is a whole word.
            let mut carried = vec![[0; 126]; LANES];
            for j in 0..ROW_PAYLOAD {
                let m = ROW_PAYLOAD * row + j;
                assert_eq!(m / WORD_SYMBOLS, row / WORD_ROWS, "one word number a row");
                let mut of_symbol = [0; LANES];
                for t in 0..4 {
                    let (p, places) = source(m % WORD_SYMBOLS, t);
                    for place in places {
                        of_symbol[p] += 1;
                        carried[p][place] += 1;
                    }
                }
                let first = 4 * (row % WORD_ROWS);
                for (p, count) in of_symbol.into_iter().enumerate() {
                    let ours = first <= p && p < first + 4;
                    assert_eq!(count, if ours { 2 } else { 0 }, "symbol {m}, lane {p}");
                }
            }
            let whole = carried.iter().filter(|places| **places == [1; 126]).count();
            let absent = carried.iter().filter(|places| **places == [0; 126]).count();
            assert_eq!((whole, absent), (4, 28));
        }
    }

    #[test]
    fn a_word_spreads_evenly_over_the_eight_kinds_of_bits() {
        let mut kinds = vec![[0; 8]; LANES];
        for l in 0..WORD_SYMBOLS {
            for t in 0..4 {
                let lane = source(l, t).0;
                kinds[lane][2 * t] += 1;
                kinds[lane][2 * t + 1] += 1;
            }
        }
        for counts in kinds {
            assert!(counts.iter().all(|&n| n == 15 || n == 16));
            assert_eq!(counts.iter().sum::<i32>(), 126);
        }
    }
}
