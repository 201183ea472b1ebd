//! The word code BCH(126,110): 110 information bits, then 16 parity bits.
//!
//! Bit 0 of a word is the coefficient of x^125, bit 125 that of x^0. At the boundary a word is two
//! u64: `hi` holds bits 0..61 in its low 62 bits, `lo` holds bits 62..125; inside it is one u128.
//! Whatever stands above the 126 bits is no part of the word: it is ignored and comes out as zero.

pub const WORD_BITS: u8 = 126;
pub const INFORMATION_BITS: u8 = 110;
pub const PARITY_BITS: u8 = 16;
pub const FRAME_WORDS: usize = 384;

/// x^16 + x^14 + x^11 + x^10 + x^9 + x^7 + x^5 + x^3 + x + 1.
const GENERATOR: u32 = 0x14EAB;

const WORD_MASK: u128 = (1 << WORD_BITS) - 1;
const PARITY_MASK: u64 = (1 << PARITY_BITS) - 1;
const HI_MASK: u64 = (1 << (WORD_BITS - 64)) - 1;

pub const fn join(hi: u64, lo: u64) -> u128 {
    ((hi & HI_MASK) as u128) << 64 | lo as u128
}

pub const fn split(word: u128) -> (u64, u64) {
    ((word >> 64) as u64 & HI_MASK, word as u64)
}

/// The word in which only this bit is set.
pub const fn only_bit(number: u8) -> u128 {
    1 << (WORD_BITS - 1 - number)
}

/// What is left of a word after division by the generator, one bit at a time from x^125 down.
pub const fn remainder(word: u128) -> u16 {
    let mut rest: u32 = 0;
    let mut power = WORD_BITS;
    while power > 0 {
        power -= 1;
        rest = rest << 1 | (word >> power) as u32 & 1;
        if rest >> PARITY_BITS == 1 {
            rest ^= GENERATOR;
        }
    }
    rest as u16
}

pub const fn is_code_word(word: u128) -> bool {
    remainder(word) == 0
}

/// The parity of 110 information bits, bit 0 at 2^109; what stands above them is ignored.
pub fn parity(information: u128) -> u16 {
    remainder(information << PARITY_BITS)
}

/// Keeps bits 0..109 and puts their parity into bits 110..125.
pub fn encode(hi: u64, lo: u64) -> (u64, u64) {
    let information = join(hi, lo) >> PARITY_BITS;
    split(information << PARITY_BITS | u128::from(parity(information)))
}

/// What was done to a received word; places are bit numbers 0..125, rising.
#[derive(Clone, Copy, Debug, PartialEq, Eq)]
pub enum Mend {
    Clean,
    One(u8),
    Two(u8, u8),
    Flagged,
}

impl Mend {
    /// The flag number: 0, 1 or 2 bits mended, 3 flagged.
    pub fn flag(self) -> u8 {
        match self {
            Mend::Clean => 0,
            Mend::One(_) => 1,
            Mend::Two(_, _) => 2,
            Mend::Flagged => 3,
        }
    }
}

/// The rule as it is written: a code word within two bits is taken, else the word passes as it is.
pub fn decode_by_search(word: u128) -> (u128, Mend) {
    let word = word & WORD_MASK;
    if is_code_word(word) {
        return (word, Mend::Clean);
    }
    for a in 0..WORD_BITS {
        let tried = word ^ only_bit(a);
        if is_code_word(tried) {
            return (tried, Mend::One(a));
        }
    }
    for a in 0..WORD_BITS {
        for b in a + 1..WORD_BITS {
            let tried = word ^ only_bit(a) ^ only_bit(b);
            if is_code_word(tried) {
                return (tried, Mend::Two(a, b));
            }
        }
    }
    (word, Mend::Flagged)
}

/// The information bits lie in 14 bytes, the topmost of which has only six of them.
const INFORMATION_BYTES: usize = 14;

/// `PARITY[i][v]` is the parity of the byte v standing at x^(16+8i).
static PARITY: [[u16; 256]; INFORMATION_BYTES] = parity_tables();

const fn parity_tables() -> [[u16; 256]; INFORMATION_BYTES] {
    let mut tables = [[0; 256]; INFORMATION_BYTES];
    let mut place = 0;
    while place < INFORMATION_BYTES {
        let mut value = 1;
        while value < 256 {
            // The parity is linear: the value without its lowest bit, and that bit alone.
            let rest = value & (value - 1);
            tables[place][value] = if rest == 0 {
                remainder((value as u128) << (PARITY_BITS as usize + 8 * place))
            } else {
                tables[place][rest] ^ tables[place][value ^ rest]
            };
            value += 1;
        }
        place += 1;
    }
    tables
}

/// The parity of bits 0..109 by table; `hi` must be masked already.
#[inline(always)]
fn parity_by_table(hi: u64, lo: u64) -> u16 {
    let mut sum = 0;
    for i in 0..6 {
        sum ^= PARITY[i][usize::from((lo >> (16 + 8 * i)) as u8)];
    }
    for i in 0..8 {
        sum ^= PARITY[6 + i][usize::from((hi >> (8 * i)) as u8)];
    }
    sum
}

/// Replaces the parity of all 384 words; word i is `words[2i]`, `words[2i + 1]`.
pub fn encode_frame(words: &mut [u64; 2 * FRAME_WORDS]) {
    for word in words.chunks_exact_mut(2) {
        let hi = word[0] & HI_MASK;
        let lo = word[1] & !PARITY_MASK;
        word[0] = hi;
        word[1] = lo | u64::from(parity_by_table(hi, lo));
    }
}

/// A pattern in 16 bits: the flag number in the top two, then two places of seven bits each.
const fn pattern(flag: u8, a: u8, b: u8) -> u16 {
    (flag as u16) << 14 | (a as u16) << 7 | b as u16
}

/// The place of a flip that is not made.
const NO_PLACE: u8 = 127;

/// `FLIPS[place]` as (hi, lo); zero where there is no such bit, so that no branch is needed.
static FLIPS: [(u64, u64); 128] = flips();

const fn flips() -> [(u64, u64); 128] {
    let mut flips = [(0, 0); 128];
    let mut number = 0;
    while number < WORD_BITS {
        flips[number as usize] = split(only_bit(number));
        number += 1;
    }
    flips
}

/// Decodes by one table look-up on the remainder.
pub struct Decoder {
    patterns: Box<[u16; 1 << PARITY_BITS]>,
}

impl Decoder {
    pub fn new() -> Self {
        let flagged = vec![pattern(3, NO_PLACE, NO_PLACE); 1 << PARITY_BITS];
        let mut patterns: Box<[u16; 1 << PARITY_BITS]> = flagged
            .into_boxed_slice()
            .try_into()
            .expect("65,536 entries");
        patterns[0] = pattern(0, NO_PLACE, NO_PLACE);
        for a in 0..WORD_BITS {
            let of_a = remainder(only_bit(a));
            patterns[usize::from(of_a)] = pattern(1, a, NO_PLACE);
            for b in a + 1..WORD_BITS {
                let of_both = of_a ^ remainder(only_bit(b));
                patterns[usize::from(of_both)] = pattern(2, a, b);
            }
        }
        Decoder { patterns }
    }

    /// The pattern to flip; `hi` must be masked already.
    #[inline(always)]
    fn pattern_of(&self, hi: u64, lo: u64) -> u16 {
        let remainder = parity_by_table(hi, lo) ^ lo as u16;
        self.patterns[usize::from(remainder)]
    }

    #[inline(always)]
    fn flip(hi: u64, lo: u64, pattern: u16) -> (u64, u64) {
        let a = FLIPS[usize::from(pattern >> 7 & 127)];
        let b = FLIPS[usize::from(pattern & 127)];
        (hi ^ a.0 ^ b.0, lo ^ a.1 ^ b.1)
    }

    pub fn decode(&self, word: u128) -> (u128, Mend) {
        let (hi, lo) = split(word);
        let pattern = self.pattern_of(hi, lo);
        let (hi, lo) = Self::flip(hi, lo, pattern);
        let (a, b) = ((pattern >> 7 & 127) as u8, (pattern & 127) as u8);
        let mend = match pattern >> 14 {
            0 => Mend::Clean,
            1 => Mend::One(a),
            2 => Mend::Two(a, b),
            _ => Mend::Flagged,
        };
        (join(hi, lo), mend)
    }

    /// Decodes all 384 words in place and writes the flag number of each.
    pub fn decode_frame(&self, words: &mut [u64; 2 * FRAME_WORDS], flags: &mut [u8; FRAME_WORDS]) {
        for (word, flag) in words.chunks_exact_mut(2).zip(flags) {
            let (hi, lo) = (word[0] & HI_MASK, word[1]);
            let pattern = self.pattern_of(hi, lo);
            (word[0], word[1]) = Self::flip(hi, lo, pattern);
            *flag = (pattern >> 14) as u8;
        }
    }
}

impl Default for Decoder {
    fn default() -> Self {
        Self::new()
    }
}

#[cfg(test)]
mod tests {
    use super::*;
    use crate::xorshift::Xorshift;

    fn random_word(random: &mut Xorshift) -> u128 {
        random.next_u128() & WORD_MASK
    }

    fn random_code_word(random: &mut Xorshift) -> u128 {
        let (hi, lo) = split(random_word(random));
        let (hi, lo) = encode(hi, lo);
        join(hi, lo)
    }

    /// Flips this many different bits.
    fn damage(random: &mut Xorshift, word: u128, flips: u32) -> u128 {
        let mut pattern = 0u128;
        while pattern.count_ones() < flips {
            pattern |= only_bit(random.below(126) as u8);
        }
        word ^ pattern
    }

    fn bit_remainders() -> Vec<u16> {
        (0..WORD_BITS).map(|a| remainder(only_bit(a))).collect()
    }

    /// Calls back with each set of three rising bit numbers.
    fn each_triple(mut call: impl FnMut(u8, u8, u8)) {
        for a in 0..WORD_BITS {
            for b in a + 1..WORD_BITS {
                for c in b + 1..WORD_BITS {
                    call(a, b, c);
                }
            }
        }
    }

    #[test]
    fn bench_rows_1_to_4() {
        // Bit 109 is the last information bit, the coefficient of x^0 in the information.
        assert_eq!(parity(0), 0x0000);
        assert_eq!(parity(only_bit(109) >> 16), 0x4EAB);
        assert_eq!(parity(only_bit(108) >> 16), 0x9D56);
        assert_eq!(parity(only_bit(107) >> 16), 0x7407);
    }

    #[test]
    fn generator_is_the_product_in_the_document() {
        let times = |a: u32, b: u32| {
            (0..32)
                .filter(|i| b >> i & 1 == 1)
                .fold(0, |sum, i| sum ^ a << i)
        };
        let m1 = 1 << 7 | 1 << 3 | 1;
        let m3 = 1 << 7 | 1 << 3 | 1 << 2 | 1 << 1 | 1;
        let even_and_odd = 1 << 2 | 1;
        assert_eq!(times(times(m1, m3), even_and_odd), GENERATOR);
        let printed = [16, 14, 11, 10, 9, 7, 5, 3, 1, 0];
        assert_eq!(
            printed.iter().fold(0, |sum, power| sum | 1 << power),
            GENERATOR
        );
    }

    #[test]
    fn boundary_representation() {
        assert_eq!(split(only_bit(0)), (1 << 61, 0));
        assert_eq!(split(only_bit(61)), (1, 0));
        assert_eq!(split(only_bit(62)), (0, 1 << 63));
        assert_eq!(split(only_bit(125)), (0, 1));
        assert_eq!(join(u64::MAX, u64::MAX), (1 << 126) - 1);
        assert_eq!(encode(3 << 62, 0xFFFF), (0, 0));
        assert_eq!(encode(0, 1 << 16), (0, 0x1_4EAB));
        assert_eq!(parity(u128::MAX << 110), 0);
        assert_eq!(Decoder::new().decode(3 << 126), (0, Mend::Clean));
        assert_eq!(decode_by_search(3 << 126), (0, Mend::Clean));
    }

    #[test]
    fn encoding_keeps_information_and_gives_a_code_word() {
        let mut random = Xorshift::new(1);
        for _ in 0..10_000 {
            let word = random.next_u128();
            let (hi, lo) = encode((word >> 64) as u64, word as u64);
            assert!(is_code_word(join(hi, lo)));
            assert_eq!(join(hi, lo) >> 16, (word & WORD_MASK) >> 16);
            assert_eq!(hi >> 62, 0);
        }
    }

    #[test]
    fn one_and_two_flips_are_mended_and_three_are_flagged() {
        let decoder = Decoder::new();
        let mut random = Xorshift::new(2);
        for _ in 0..4 {
            let sent = random_code_word(&mut random);
            assert_eq!(decoder.decode(sent), (sent, Mend::Clean));
            let (mut ones, mut twos, mut threes) = (0, 0, 0);
            for a in 0..WORD_BITS {
                let got = sent ^ only_bit(a);
                assert_eq!(decoder.decode(got), (sent, Mend::One(a)));
                ones += 1;
                for b in a + 1..WORD_BITS {
                    let got = got ^ only_bit(b);
                    assert_eq!(decoder.decode(got), (sent, Mend::Two(a, b)));
                    twos += 1;
                }
            }
            each_triple(|a, b, c| {
                let got = sent ^ only_bit(a) ^ only_bit(b) ^ only_bit(c);
                assert_eq!(decoder.decode(got), (got, Mend::Flagged));
                threes += 1;
            });
            assert_eq!((ones, twos, threes), (126, 7_875, 325_500));
        }
    }

    #[test]
    fn four_flips_mended_to_a_wrong_word() {
        let decoder = Decoder::new();
        let sent = random_code_word(&mut Xorshift::new(3));
        let (mut all, mut wrong) = (0u32, 0u32);
        each_triple(|a, b, c| {
            let three = sent ^ only_bit(a) ^ only_bit(b) ^ only_bit(c);
            for d in c + 1..WORD_BITS {
                let got = three ^ only_bit(d);
                let (taken, mend) = decoder.decode(got);
                all += 1;
                if mend == Mend::Flagged {
                    assert_eq!(taken, got);
                } else {
                    assert!(taken != sent && (taken ^ got).count_ones() == 2);
                    wrong += 1;
                }
            }
        });
        println!("{wrong} of {all} four-flip patterns mended to a wrong word");
        assert_eq!((all, wrong), (10_009_125, 2_339_100));
    }

    #[test]
    fn decoder_agrees_with_search_on_random_words() {
        let decoder = Decoder::new();
        let mut random = Xorshift::new(4);
        let mut seen = [0; 4];
        for _ in 0..3_000 {
            let word = random_word(&mut random);
            let found = decode_by_search(word);
            assert_eq!(decoder.decode(word), found, "{word:032x}");
            seen[usize::from(found.1.flag())] += 1;
        }
        println!("random words by flag: {seen:?}");
        assert!(seen[2] > 0 && seen[3] > 0);
    }

    #[test]
    fn decoder_agrees_with_search_on_damaged_code_words() {
        let decoder = Decoder::new();
        let mut random = Xorshift::new(5);
        let mut seen = [[0; 4]; 7];
        for _ in 0..600 {
            for flips in 0..=6 {
                let sent = random_code_word(&mut random);
                let got = damage(&mut random, sent, flips);
                let found = decode_by_search(got);
                assert_eq!(decoder.decode(got), found, "{got:032x}");
                seen[flips as usize][usize::from(found.1.flag())] += 1;
            }
        }
        println!("code words with 0..6 flips by flag: {seen:?}");
        assert_eq!(seen[0], [600, 0, 0, 0]);
        assert_eq!(seen[1], [0, 600, 0, 0]);
        assert_eq!(seen[2], [0, 0, 600, 0]);
        assert_eq!(seen[3], [0, 0, 0, 600]);
        assert!(seen[4][2] > 0 && seen[4][3] > 0);
    }

    #[test]
    fn every_remainder_is_decoded_by_the_rule() {
        // A word is a code word plus its remainder, so the 65,536 remainders stand for all words.
        let decoder = Decoder::new();
        let mut random = Xorshift::new(6);
        let mut seen = [0; 4];
        for rest in 0..=u16::MAX {
            let got = random_code_word(&mut random) ^ u128::from(rest);
            let (taken, mend) = decoder.decode(got);
            let places = match mend {
                Mend::Clean | Mend::Flagged => 0,
                Mend::One(a) => only_bit(a),
                Mend::Two(a, b) => {
                    assert!(a < b);
                    only_bit(a) | only_bit(b)
                }
            };
            assert_eq!(taken, got ^ places);
            assert_eq!(is_code_word(taken), mend != Mend::Flagged);
            seen[usize::from(mend.flag())] += 1;
        }
        assert_eq!(seen, [1, 126, 7_875, 65_536 - 8_002]);
    }

    #[test]
    fn code_words_have_even_weight() {
        // Every code word is a sum of these 110, and a sum of even words is even.
        for number in 0..INFORMATION_BITS {
            let (hi, lo) = split(only_bit(number));
            let (hi, lo) = encode(hi, lo);
            assert_eq!(join(hi, lo).count_ones() % 2, 0);
        }
        // x^2 + 1 makes the even places and the odd places even each by itself.
        let mut random = Xorshift::new(7);
        let even_places = WORD_MASK / 3;
        for _ in 0..10_000 {
            let word = random_code_word(&mut random);
            assert_eq!((word & even_places).count_ones() % 2, 0);
            assert_eq!((word & !even_places).count_ones() % 2, 0);
        }
    }

    #[test]
    fn smallest_weight_is_6() {
        // A nonzero multiple of weight up to 4 would give two of these 8,002 the same remainder.
        let bits = bit_remainders();
        let mut of_two_or_less = vec![false; 1 << 16];
        of_two_or_less[0] = true;
        let mut distinct = 1;
        let mut enter = |rest: u16| {
            assert!(
                !of_two_or_less[usize::from(rest)],
                "a multiple of weight 4 or less"
            );
            of_two_or_less[usize::from(rest)] = true;
            distinct += 1;
        };
        for a in 0..bits.len() {
            enter(bits[a]);
            for b in a + 1..bits.len() {
                enter(bits[a] ^ bits[b]);
            }
        }
        assert_eq!(distinct, 8_002);

        // Weight 5 would give a triple the remainder of a pair; two triples alike give weight 6.
        let mut first = vec![0u128; 1 << 16];
        let mut alike = vec![0u64; 1 << 16];
        let mut found = None;
        let mut triples = 0;
        each_triple(|a, b, c| {
            triples += 1;
            let rest =
                usize::from(bits[usize::from(a)] ^ bits[usize::from(b)] ^ bits[usize::from(c)]);
            assert!(!of_two_or_less[rest], "a multiple of weight 5 or less");
            let triple = only_bit(a) | only_bit(b) | only_bit(c);
            if first[rest] == 0 {
                first[rest] = triple;
            } else if found.is_none() {
                found = Some(first[rest] ^ triple);
            }
            alike[rest] += 1;
        });
        assert_eq!(triples, 325_500);
        let six = found.expect("a code word of weight 6");
        assert!(is_code_word(six) && six.count_ones() == 6);
        let (hi, lo) = split(six);
        println!("a code word of weight 6: {hi:016x} {lo:016x}");

        // Each word of weight 6 is two triples in 10 ways and covers 15 four-flip patterns.
        let pairs_of_triples: u64 = alike.iter().map(|n| n * n.saturating_sub(1) / 2).sum();
        println!("code words of weight 6: {}", pairs_of_triples / 10);
        assert_eq!(pairs_of_triples % 10, 0);
        assert_eq!(pairs_of_triples / 10 * 15, 2_339_100);
    }

    #[test]
    fn frames_agree_with_words() {
        let decoder = Decoder::new();
        let mut random = Xorshift::new(8);
        let mut seen = [0; 4];
        for _ in 0..50 {
            let mut words = [0u64; 768];
            words.fill_with(|| random.next_u64());
            let before = words;
            encode_frame(&mut words);
            for i in 0..384 {
                let expected = encode(before[2 * i], before[2 * i + 1]);
                assert_eq!((words[2 * i], words[2 * i + 1]), expected);
            }

            for i in 0..384 {
                let sent = join(words[2 * i], words[2 * i + 1]);
                let got = damage(&mut random, sent, (i % 7) as u32);
                // The two bits above the word must not matter.
                words[2 * i] = (got >> 64) as u64 | random.next_u64() << 62;
                words[2 * i + 1] = got as u64;
            }
            let before = words;
            let mut flags = [0xFF; 384];
            decoder.decode_frame(&mut words, &mut flags);
            for i in 0..384 {
                let (taken, mend) = decoder.decode(join(before[2 * i], before[2 * i + 1]));
                assert_eq!((words[2 * i], words[2 * i + 1]), split(taken));
                assert_eq!(flags[i], mend.flag());
                seen[usize::from(flags[i])] += 1;
            }
        }
        println!("frame words by flag: {seen:?}");
        assert!(seen.iter().all(|&n| n > 0));
    }
}
