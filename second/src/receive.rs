//! Receiving: one frame of symbols in, one frame of lanes out, and a flag for each word.

use crate::lanes::{deinterleave, lanes_of_words, permute, EXCHANGED, LANES_BYTES, STORE_BYTES};
use crate::send::{bits_of, interleave_by_rule, put_bits, Bits};
use crate::symbols::{
    frame_place, frame_words, locks, shuffled_place, source, FRAME_SYMBOLS, PILOTS,
};
use crate::word::{Decoder, FRAME_WORDS};
use std::sync::OnceLock;

/// Returns 0, or the number of the refusal, which changes nothing.
pub fn receive(input: &[u8], store: &mut [u8], output: &mut [u8], flags: &mut [u8]) -> u32 {
    static DECODER: OnceLock<Decoder> = OnceLock::new();
    receive_with(
        DECODER.get_or_init(Decoder::new),
        input,
        store,
        output,
        flags,
    )
}

/// The same with a decoder made before, for timing.
pub fn receive_with(
    decoder: &Decoder,
    input: &[u8],
    store: &mut [u8],
    output: &mut [u8],
    flags: &mut [u8],
) -> u32 {
    let input: &[u8; FRAME_SYMBOLS] = match input.try_into() {
        Ok(input) => input,
        Err(_) => return 1,
    };
    let store: &mut [u8; STORE_BYTES] = match store.try_into() {
        Ok(store) => store,
        Err(_) => return 2,
    };
    let output: &mut [u8; LANES_BYTES] = match output.try_into() {
        Ok(output) => output,
        Err(_) => return 3,
    };
    let flags: &mut [u8; FRAME_WORDS] = match flags.try_into() {
        Ok(flags) => flags,
        Err(_) => return 4,
    };
    if !locks(input) {
        return 5;
    }

    let mut words = frame_words(input);
    decoder.decode_frame(&mut words, flags);
    let lanes = lanes_of_words(&words);
    deinterleave(&lanes, store, output);
    permute(output, EXCHANGED);
    0
}

/// What long division by the generator leaves of a word of 126 bits.
fn remainder_by_rule(word: &[bool]) -> Bits {
    let mut rest = word.to_vec();
    for n in 0..110 {
        if rest[n] {
            for power in [16, 14, 11, 10, 9, 7, 5, 3, 1, 0] {
                rest[n + 16 - power] ^= true;
            }
        }
    }
    rest.split_off(110)
}

/// The flips, none, one or two, that make a code word of it: those with its own remainder.
fn flips_by_rule(word: &[bool], of_flip: &[Bits]) -> Option<Vec<usize>> {
    let rest = remainder_by_rule(word);
    if !rest.contains(&true) {
        return Some(vec![]);
    }
    if let Some(a) = of_flip.iter().position(|of_a| *of_a == rest) {
        return Some(vec![a]);
    }
    for (a, of_a) in of_flip.iter().enumerate() {
        let without_a: Bits = rest.iter().zip(of_a).map(|(x, y)| x ^ y).collect();
        let later = &of_flip[a + 1..];
        if let Some(more) = later.iter().position(|of_b| *of_b == without_a) {
            return Some(vec![a, a + 1 + more]);
        }
    }
    None
}

/// The same as `receive`, straight from the formulas, bit by bit.
pub fn receive_by_rule(input: &[u8], store: &mut [u8], output: &mut [u8], flags: &mut [u8]) -> u32 {
    if input.len() != 6_144 {
        return 1;
    }
    if store.len() != 2_880 {
        return 2;
    }
    if output.len() != 5_280 {
        return 3;
    }
    if flags.len() != 384 {
        return 4;
    }
    let differ = |&number: &usize| input[64 * number] != PILOTS[number];
    if (0..96).filter(differ).count() >= 25 {
        return 5;
    }

    // words[p][k] is word k of lane p, its information bits shuffled.
    let mut words = vec![vec![vec![false; 126]; 12]; 32];
    for m in 0..6_048 {
        let (k, l) = (m / 504, m % 504);
        let symbol = bits_of(&[input[frame_place(m)]]);
        for t in 0..4 {
            let (p, places) = source(l, t);
            words[p][k][places[0]] = symbol[2 * t];
            words[p][k][places[1]] = symbol[2 * t + 1];
        }
    }

    let of_flip: Vec<Bits> = (0..126)
        .map(|a| remainder_by_rule(&(0..126).map(|n| n == a).collect::<Bits>()))
        .collect();
    let mut lanes: Vec<Bits> = Vec::new();
    for (p, kept) in store.chunks_mut(90).enumerate() {
        let mut interleaved = Bits::new();
        for k in 0..12 {
            let shuffled = &words[p][k];
            let mut word = shuffled.clone();
            for q in 0..110 {
                word[q] = shuffled[shuffled_place(p, q)];
            }
            let flips = flips_by_rule(&word, &of_flip);
            flags[32 * k + p] = flips.as_ref().map_or(3, |flips| flips.len() as u8);
            for a in flips.unwrap_or_default() {
                word[a] ^= true;
            }
            interleaved.extend(&word[..110]);
        }
        lanes.push(interleave_by_rule(&interleaved, [12, 6, 0], kept));
    }

    for (p, bytes) in output.chunks_mut(165).enumerate() {
        let permuted: Bits = (0..1_320)
            .map(|n| {
                let exchanged = n / 10 % 4 >= 2;
                let from = if exchanged { (p + 16) % 32 } else { p };
                lanes[from][n]
            })
            .collect();
        put_bits(&permuted, bytes);
    }
    0
}

#[cfg(test)]
mod tests {
    use super::*;
    use crate::send::send;
    use crate::symbols::bit_place;
    use crate::xorshift::Xorshift;

    type Way = fn(&[u8], &mut [u8], &mut [u8], &mut [u8]) -> u32;

    const ALL: [Way; 2] = [receive, receive_by_rule];

    /// Both receivings of the same frame must give the same; `store` moves on.
    fn receive_both_ways(
        random: &mut Xorshift,
        input: &[u8],
        store: &mut Vec<u8>,
    ) -> (Vec<u8>, Vec<u8>) {
        let [first, second] = ALL.map(|way| {
            let mut store = store.clone();
            // Whatever stands in the output and the flags must not matter.
            let mut output = random.bytes(5_280);
            let mut flags = random.bytes(384);
            assert_eq!(way(input, &mut store, &mut output, &mut flags), 0);
            (store, output, flags)
        });
        assert!(first.0 == second.0, "stores differ");
        assert!(first.1 == second.1, "lanes differ");
        assert!(first.2 == second.2, "flags differ");
        *store = first.0;
        (first.1, first.2)
    }

    fn send_random(random: &mut Xorshift, store: &mut [u8]) -> (Vec<u8>, Vec<u8>) {
        let input = random.bytes(5_280);
        let mut frame = vec![0; 6_144];
        assert_eq!(send(&input, store, &mut frame), 0);
        (input, frame)
    }

    fn flip(frame: &mut [u8], word: usize, numbers: &[usize]) {
        for &number in numbers {
            let (symbol, bit) = bit_place(word / 32, word % 32, number);
            frame[symbol] ^= bit;
        }
    }

    fn flip_any(random: &mut Xorshift, frame: &mut [u8], word: usize, count: usize) {
        let numbers = random.choose(126, count);
        flip(frame, word, &numbers);
    }

    fn spoil_pilots(random: &mut Xorshift, frame: &mut [u8], count: usize) {
        for number in random.choose(96, count) {
            frame[64 * number] ^= 1 + random.below(255) as u8;
        }
    }

    #[test]
    fn both_ways_agree_on_random_payload_and_stores() {
        let mut random = Xorshift::new(41);
        let mut seen = [0; 4];
        for _ in 0..60 {
            let mut input = random.bytes(6_144);
            for (row, pilot) in PILOTS.into_iter().enumerate() {
                input[64 * row] = pilot;
            }
            let mut store = random.bytes(2_880);
            let (_, flags) = receive_both_ways(&mut random, &input, &mut store);
            for flag in flags {
                seen[usize::from(flag)] += 1;
            }
        }
        println!("words of random payload by flag: {seen:?}");
        assert!(seen[2] > 0 && seen[3] > 0);
    }

    #[test]
    fn both_ways_agree_over_a_damaged_run() {
        let mut random = Xorshift::new(42);
        let (mut sender, mut receiver) = (vec![0; 2_880], vec![0; 2_880]);
        let mut seen = [[0; 4]; 7];
        for number in 0..80 {
            let (_, mut frame) = send_random(&mut random, &mut sender);
            let mut flips = [0; 384];
            match number % 4 {
                0 => {}
                1 => flips = [2; 384],
                _ => flips.fill_with(|| random.below(7) as usize),
            }
            for (word, count) in flips.into_iter().enumerate() {
                flip_any(&mut random, &mut frame, word, count);
            }
            spoil_pilots(&mut random, &mut frame, number % 25);
            let (_, flags) = receive_both_ways(&mut random, &frame, &mut receiver);
            for (flips, flag) in flips.into_iter().zip(flags) {
                seen[flips][usize::from(flag)] += 1;
            }
        }
        println!("words with 0..6 flips by flag: {seen:?}");
        for (flips, by_flag) in seen.into_iter().enumerate() {
            let all: i32 = by_flag.iter().sum();
            match flips {
                0..=3 => assert_eq!(by_flag[flips], all),
                4 | 6 => assert!(by_flag[2] > 0 && by_flag[3] > 0),
                _ => assert!(by_flag[1] > 0 && by_flag[3] > 0),
            }
        }
    }

    #[test]
    fn both_ways_agree_on_lone_bits() {
        let mut random = Xorshift::new(43);
        let mut empty = vec![0; 6_144];
        for (row, pilot) in PILOTS.into_iter().enumerate() {
            empty[64 * row] = pilot;
        }
        for _ in 0..100 {
            let mut input = empty.clone();
            let mut store = vec![0; 2_880];
            let at = random.below(8 * (6_144 + 2_880)) as usize;
            match input.get_mut(at / 8) {
                Some(byte) => *byte ^= 0x80 >> (at % 8),
                None => store[at / 8 - 6_144] = 0x80 >> (at % 8),
            }
            receive_both_ways(&mut random, &input, &mut store);
        }
    }

    #[test]
    fn a_stream_comes_back_36_blocks_later() {
        const FRAMES: usize = 6;
        let mut random = Xorshift::new(44);
        let (mut sender, mut receiver) = (vec![0; 2_880], vec![0; 2_880]);
        let mut went_in = vec![Vec::new(); 32];
        let mut came_back = vec![Vec::new(); 32];
        for _ in 0..FRAMES {
            let (input, frame) = send_random(&mut random, &mut sender);
            let (output, flags) = receive_both_ways(&mut random, &frame, &mut receiver);
            assert!(flags.iter().all(|&flag| flag == 0));
            for p in 0..32 {
                went_in[p].extend_from_slice(&input[165 * p..][..165]);
                came_back[p].extend_from_slice(&output[165 * p..][..165]);
            }
        }
        for (before, after) in went_in.iter().zip(&came_back) {
            assert_eq!(after.len(), 165 * FRAMES);
            assert!(after[..5 * 36].iter().all(|&byte| byte == 0));
            assert!(after[5 * 36..] == before[..165 * FRAMES - 5 * 36]);
        }
    }

    #[test]
    fn one_frame_alone_comes_back_as_zeros() {
        let mut random = Xorshift::new(45);
        let (_, frame) = send_random(&mut random, &mut [0; 2_880]);
        let mut store = vec![0; 2_880];
        let (output, flags) = receive_both_ways(&mut random, &frame, &mut store);
        assert!(output == [0; 5_280] && flags == [0; 384]);
        // Row 2 of the sender still had zeros, and what came of rows 0 and 1 is kept.
        assert!(store != [0; 2_880]);
    }

    #[test]
    fn two_flips_a_word_vanish_and_the_flag_tells_how_many() {
        let mut random = Xorshift::new(46);
        let mut patterns = vec![vec![]];
        for a in 0..126 {
            patterns.push(vec![a]);
            patterns.extend((a + 1..126).map(|b| vec![a, b]));
        }
        assert_eq!(patterns.len(), 8_002);
        for patterns in patterns.chunks(384) {
            let (_, clean) = send_random(&mut random, &mut [0; 2_880]);
            let mut damaged = clean.clone();
            let mut expected = vec![0; 384];
            for (word, numbers) in patterns.iter().enumerate() {
                flip(&mut damaged, word, numbers);
                expected[word] = numbers.len() as u8;
            }
            let before = random.bytes(2_880);
            let (mut of_clean, mut of_damaged) = (before.clone(), before);
            let (lanes, flags) = receive_both_ways(&mut random, &clean, &mut of_clean);
            assert_eq!(flags, [0; 384]);
            let (mended, flags) = receive_both_ways(&mut random, &damaged, &mut of_damaged);
            assert_eq!(flags, expected);
            assert!(mended == lanes && of_damaged == of_clean);
        }
    }

    /// Where information bit q of word k of lane p goes, by byte and bit of the lanes returned and,
    /// behind them, the store.
    fn passes_to(k: usize, p: usize, q: usize) -> (usize, u8) {
        let (n, in_block) = ((110 * k + q) / 40, (110 * k + q) % 40);
        let (turn, row) = (n / 3, n % 3);
        let kept = 5_280 + 90 * p;
        let exchanged = if in_block < 20 { p } else { (p + 16) % 32 };
        let byte = match row {
            0 => kept + 5 * (10 - turn),
            1 if turn >= 5 => kept + 60 + 5 * (10 - turn),
            1 => 165 * exchanged + 5 * (n + 18),
            _ => 165 * exchanged + 5 * n,
        };
        (byte + in_block / 8, 0x80 >> (in_block % 8))
    }

    #[test]
    fn three_flips_flag_a_word_and_it_passes_as_received() {
        let mut random = Xorshift::new(47);
        for _ in 0..20 {
            let (_, clean) = send_random(&mut random, &mut [0; 2_880]);
            let mut damaged = clean.clone();
            let before = random.bytes(2_880);
            let (mut of_clean, mut of_damaged) = (before.clone(), before);
            let (mut expected, _) = receive_both_ways(&mut random, &clean, &mut of_clean);
            expected.extend(of_clean);
            let mut expected_flags = vec![0; 384];
            for (word, flag) in expected_flags.iter_mut().enumerate() {
                if random.below(2) == 0 {
                    continue;
                }
                *flag = 3;
                let numbers = random.choose(126, 3);
                flip(&mut damaged, word, &numbers);
                for q in numbers.into_iter().filter(|&number| number < 110) {
                    let (byte, bit) = passes_to(word / 32, word % 32, q);
                    expected[byte] ^= bit;
                }
            }
            let (mut got, flags) = receive_both_ways(&mut random, &damaged, &mut of_damaged);
            got.extend(of_damaged);
            assert_eq!(flags, expected_flags);
            assert!(got == expected);
        }
    }

    #[test]
    fn an_odd_store_comes_out_newest_last() {
        let mut random = Xorshift::new(48);
        let mut input = vec![0; 6_144];
        for (row, pilot) in PILOTS.into_iter().enumerate() {
            input[64 * row] = pilot;
        }
        for _ in 0..20 {
            let before = random.bytes(2_880);
            let mut after = before.clone();
            let (output, flags) = receive_both_ways(&mut random, &input, &mut after);
            assert_eq!(flags, [0; 384]);
            let kept = |p: usize, place: usize| bits_of(&before[90 * p + 5 * place..][..5]);
            for p in 0..32 {
                for n in 0..33 {
                    let place = match (n % 3, n / 3) {
                        (0, turn) => Some(11 - turn),
                        (1, turn) if turn < 6 => Some(12 + 5 - turn),
                        _ => None,
                    };
                    let mut expected = vec![false; 40];
                    if let Some(place) = place {
                        expected[..20].copy_from_slice(&kept(p, place)[..20]);
                        expected[20..].copy_from_slice(&kept((p + 16) % 32, place)[20..]);
                    }
                    let got = bits_of(&output[165 * p + 5 * n..][..5]);
                    assert!(got == expected, "lane {p}, block {n}");
                }
                // Of the old blocks only the newest of row 0 stays, now the oldest.
                let mut expected = [0; 90];
                expected[5 * 11..][..5].copy_from_slice(&before[90 * p..][..5]);
                assert!(after[90 * p..][..90] == expected);
            }
        }
    }

    /// Receives with the first so many bytes of each buffer and asks that nothing changes.
    fn refused(way: Way, number: u32, buffers: &[Vec<u8>; 4], lengths: [usize; 4]) {
        let input = &buffers[0][..lengths[0]];
        let [mut store, mut output, mut flags] =
            [1, 2, 3].map(|which| buffers[which][..lengths[which]].to_vec());
        let got = way(input, &mut store, &mut output, &mut flags);
        assert_eq!(got, number, "{lengths:?}");
        assert!(store == buffers[1][..lengths[1]]);
        assert!(output == buffers[2][..lengths[2]]);
        assert!(flags == buffers[3][..lengths[3]]);
    }

    const RIGHT: [usize; 4] = [6_144, 2_880, 5_280, 384];

    /// The input begins with a frame in which so many pilots are wrong.
    fn long_buffers(seed: u64, wrong: usize) -> [Vec<u8>; 4] {
        let mut random = Xorshift::new(seed);
        let mut buffers = [(); 4].map(|()| random.bytes(20_000));
        let (_, mut frame) = send_random(&mut random, &mut [0; 2_880]);
        spoil_pilots(&mut random, &mut frame, wrong);
        buffers[0][..6_144].copy_from_slice(&frame);
        buffers
    }

    #[test]
    fn with_24_wrong_pilots_there_is_lock_and_with_25_there_is_none() {
        let mut random = Xorshift::new(49);
        for wrong in 0..=96 {
            for _ in 0..3 {
                let buffers = long_buffers(random.next_u64(), wrong);
                if wrong >= 25 {
                    for way in ALL {
                        refused(way, 5, &buffers, RIGHT);
                    }
                    continue;
                }
                let frame = &buffers[0][..6_144];
                let mut right = frame.to_vec();
                for (row, pilot) in PILOTS.into_iter().enumerate() {
                    right[64 * row] = pilot;
                }
                let mut store = buffers[1][..2_880].to_vec();
                let mut of_right = store.clone();
                let got = receive_both_ways(&mut random, frame, &mut store);
                assert!(got == receive_both_ways(&mut random, &right, &mut of_right));
                assert!(store == of_right);
            }
        }
    }

    #[test]
    fn every_wrong_length_is_refused() {
        let buffers = long_buffers(50, 0);
        let mut calls = 0;
        for (which, number) in [(0, 1), (1, 2), (2, 3), (3, 4)] {
            for length in (0..=7_000).filter(|&length| length != RIGHT[which]) {
                let mut lengths = RIGHT;
                lengths[which] = length;
                for way in ALL {
                    refused(way, number, &buffers, lengths);
                    calls += 1;
                }
            }
        }
        assert_eq!(calls, 2 * 4 * 7_000);
    }

    #[test]
    fn the_lowest_refusal_is_given() {
        let tried = [0, 1, 383, 384, 385, 2_880, 5_280, 6_143, 6_144, 20_000];
        let mut together = std::collections::BTreeSet::new();
        for wrong_pilots in [24, 25, 96] {
            let buffers = long_buffers(51, wrong_pilots);
            let mut lengths = [0; 4];
            for number in 0..tried.len().pow(4) {
                let digits = [number, number / 10, number / 100, number / 1_000];
                for (length, digit) in lengths.iter_mut().zip(digits) {
                    *length = tried[digit % 10];
                }
                // No lock is judged only of a frame.
                let mut apply: Vec<u32> = (0..4)
                    .filter(|&which| lengths[which] != RIGHT[which])
                    .map(|which| which as u32 + 1)
                    .collect();
                if wrong_pilots >= 25 && lengths[0] == 6_144 {
                    apply.push(5);
                }
                if let Some(&lowest) = apply.first() {
                    for way in ALL {
                        refused(way, lowest, &buffers, lengths);
                    }
                }
                together.insert(apply);
            }
        }
        // All sets of the five but those of 1 and 5: of no frame no pilot can be told.
        assert_eq!(together.len(), 32 - 8);
    }
}
