//! Sending: one frame of lanes in, one frame of symbols out.

use crate::lanes::{interleave, permute, words, EXCHANGED, LANES_BYTES, STORE_BYTES};
use crate::symbols::{frame, frame_place, shuffled_place, source, FRAME_SYMBOLS, PILOTS};
use crate::word::{encode, encode_frame};
use std::collections::VecDeque;

/// Returns 0, or the number of the refusal, which changes nothing.
pub fn send(input: &[u8], store: &mut [u8], output: &mut [u8]) -> u32 {
    send_with(false, input, store, output)
}

/// The same with a choice of how the parity is worked out: the tests go both ways.
fn send_with(parity_by_bit: bool, input: &[u8], store: &mut [u8], output: &mut [u8]) -> u32 {
    let input: &[u8; LANES_BYTES] = match input.try_into() {
        Ok(input) => input,
        Err(_) => return 1,
    };
    let store: &mut [u8; STORE_BYTES] = match store.try_into() {
        Ok(store) => store,
        Err(_) => return 2,
    };
    let output: &mut [u8; FRAME_SYMBOLS] = match output.try_into() {
        Ok(output) => output,
        Err(_) => return 3,
    };

    let mut lanes = *input;
    permute(&mut lanes, EXCHANGED);
    let mut interleaved = [0; LANES_BYTES];
    interleave(&lanes, store, &mut interleaved);
    let mut words = words(&interleaved);
    if parity_by_bit {
        for word in words.chunks_exact_mut(2) {
            (word[0], word[1]) = encode(word[0], word[1]);
        }
    } else {
        encode_frame(&mut words);
    }
    frame(&words, output);
    0
}

pub(crate) type Bits = Vec<bool>;

/// The earliest bit is the top bit of the first byte.
pub(crate) fn bits_of(bytes: &[u8]) -> Bits {
    let number = 0..8 * bytes.len();
    number
        .map(|n| bytes[n / 8] >> (7 - n % 8) & 1 == 1)
        .collect()
}

pub(crate) fn put_bits(bits: &[bool], bytes: &mut [u8]) {
    bytes.fill(0);
    for (n, &bit) in bits.iter().enumerate() {
        bytes[n / 8] |= u8::from(bit) << (7 - n % 8);
    }
}

/// The switch and the rows of one lane, a block of 40 bits at a time; so many blocks a row holds.
pub(crate) fn interleave_by_rule(lane: &[bool], held: [usize; 3], kept: &mut [u8]) -> Bits {
    let mut blocks = kept.chunks(5).map(bits_of);
    let mut rows: Vec<VecDeque<Bits>> = held
        .iter()
        .map(|&depth| blocks.by_ref().take(depth).collect())
        .collect();
    let mut out = Bits::new();
    for (n, block) in lane.chunks(40).enumerate() {
        let row = &mut rows[n % 3];
        // Written before it is read, so that the row of no blocks hands on what comes in.
        row.push_front(block.to_vec());
        out.extend(row.pop_back().expect("a block was written"));
    }
    let stored: Vec<Bits> = rows.into_iter().flatten().collect();
    put_bits(&stored.concat(), kept);
    out
}

/// The information, then what its product with x^16 leaves after long division by the generator.
fn encode_by_rule(information: &[bool]) -> Bits {
    let mut rest = information.to_vec();
    rest.resize(126, false);
    for n in 0..110 {
        if rest[n] {
            for power in [16, 14, 11, 10, 9, 7, 5, 3, 1, 0] {
                rest[n + 16 - power] ^= true;
            }
        }
    }
    [information, &rest[110..]].concat()
}

/// The same as `send`, straight from the formulas, bit by bit.
pub fn send_by_rule(input: &[u8], store: &mut [u8], output: &mut [u8]) -> u32 {
    if input.len() != 5_280 {
        return 1;
    }
    if store.len() != 2_880 {
        return 2;
    }
    if output.len() != 6_144 {
        return 3;
    }

    let lanes: Vec<Bits> = input.chunks(165).map(bits_of).collect();
    // words[p][k] is word k of lane p, its information bits shuffled.
    let mut words: Vec<Vec<Bits>> = Vec::new();
    for (p, kept) in store.chunks_mut(90).enumerate() {
        let permuted: Bits = (0..1_320)
            .map(|n| {
                let exchanged = n / 10 % 4 >= 2;
                let from = if exchanged { (p + 16) % 32 } else { p };
                lanes[from][n]
            })
            .collect();
        let interleaved = interleave_by_rule(&permuted, [0, 6, 12], kept);
        let of_lane = interleaved.chunks(110).map(|information| {
            let coded = encode_by_rule(information);
            let mut shuffled = coded.clone();
            for q in 0..110 {
                shuffled[shuffled_place(p, q)] = coded[q];
            }
            shuffled
        });
        words.push(of_lane.collect());
    }

    for (number, pilot) in PILOTS.into_iter().enumerate() {
        output[64 * number] = pilot;
    }
    for m in 0..6_048 {
        let (k, l) = (m / 504, m % 504);
        let mut symbol = 0;
        for t in 0..4 {
            let (p, places) = source(l, t);
            for place in places {
                symbol = symbol << 1 | u8::from(words[p][k][place]);
            }
        }
        output[frame_place(m)] = symbol;
    }
    0
}

#[cfg(test)]
mod tests {
    use super::*;
    use crate::account::fill_words;
    use crate::lanes::block_source;
    use crate::symbols::frame_words;
    use crate::word::{is_code_word, join, only_bit};
    use crate::xorshift::Xorshift;

    type Way = fn(&[u8], &mut [u8], &mut [u8]) -> u32;

    fn send_parity_by_bit(input: &[u8], store: &mut [u8], output: &mut [u8]) -> u32 {
        send_with(true, input, store, output)
    }

    const ALL: [Way; 3] = [send, send_parity_by_bit, send_by_rule];

    /// Three sendings of the same frame must give the same; `store` moves on.
    fn send_three_ways(random: &mut Xorshift, input: &[u8], store: &mut Vec<u8>) -> Vec<u8> {
        let mut results = ALL.iter().map(|way| {
            let mut store = store.clone();
            // Whatever stands in the output must not matter.
            let mut output = random.bytes(6_144);
            assert_eq!(way(input, &mut store, &mut output), 0);
            (store, output)
        });
        let first = results.next().expect("a first way");
        for other in results {
            assert!(first.0 == other.0, "stores differ");
            assert!(first.1 == other.1, "frames differ");
        }
        *store = first.0;
        first.1
    }

    #[test]
    fn send_agrees_with_the_rule_on_random_frames_and_stores() {
        let mut random = Xorshift::new(31);
        for _ in 0..100 {
            let input = random.bytes(5_280);
            let mut store = random.bytes(2_880);
            send_three_ways(&mut random, &input, &mut store);
        }
    }

    #[test]
    fn send_agrees_with_the_rule_over_a_run() {
        let mut random = Xorshift::new(32);
        let mut store = vec![0; 2_880];
        for _ in 0..100 {
            let input = random.bytes(5_280);
            send_three_ways(&mut random, &input, &mut store);
        }
    }

    #[test]
    fn send_agrees_with_the_rule_on_lone_bits() {
        let mut random = Xorshift::new(33);
        for _ in 0..100 {
            let mut input = vec![0; 5_280];
            let mut store = vec![0; 2_880];
            let at = random.below(8 * (5_280 + 2_880)) as usize;
            match input.get_mut(at / 8) {
                Some(byte) => *byte = 0x80 >> (at % 8),
                None => store[at / 8 - 5_280] = 0x80 >> (at % 8),
            }
            send_three_ways(&mut random, &input, &mut store);
        }
    }

    #[test]
    fn a_run_of_zeros_sends_pilots_and_lowest_levels() {
        let mut store = vec![0; 2_880];
        let mut output = vec![0xFF; 6_144];
        assert_eq!(send(&[0; 5_280], &mut store, &mut output), 0);
        assert!(store.iter().all(|&byte| byte == 0));
        for (n, &symbol) in output.iter().enumerate() {
            let expected = if n % 64 == 0 { PILOTS[n / 64] } else { 0 };
            assert_eq!(symbol, expected);
        }
    }

    /// Word k of lane p as it stands in the frame, taken back by the rule.
    fn word_in_frame(frame: &[u8], k: usize, p: usize) -> u128 {
        let mut word = 0;
        let row = p / 4;
        for l in 63 * row..63 * row + 63 {
            for t in 0..4 {
                let (lane, places) = source(l, t);
                if lane != p {
                    continue;
                }
                let label = frame[frame_place(504 * k + l)] >> (6 - 2 * t) & 3;
                for (place, bit) in [(places[0], label >> 1), (places[1], label & 1)] {
                    let before = if place < 110 {
                        (place + 110 * 6 - 20 * p) % 110
                    } else {
                        place
                    };
                    if bit == 1 {
                        word |= only_bit(before as u8);
                    }
                }
            }
        }
        word
    }

    #[test]
    fn sent_words_carry_the_blocks_of_the_stream() {
        const FRAMES: usize = 5;
        let mut random = Xorshift::new(34);
        let mut store = vec![0; 2_880];
        // The permuted lanes and the sent lanes as streams of bits.
        let mut came_in = vec![Bits::new(); 32];
        let mut went_out = vec![Bits::new(); 32];
        for _ in 0..FRAMES {
            let input = random.bytes(5_280);
            let mut output = vec![0; 6_144];
            assert_eq!(send(&input, &mut store, &mut output), 0);
            for p in 0..32 {
                for n in 0..1_320 {
                    let from = if n % 40 < 20 { p } else { p ^ 16 };
                    came_in[p].push(input[165 * from + n / 8] >> (7 - n % 8) & 1 == 1);
                }
                for k in 0..12 {
                    let word = word_in_frame(&output, k, p);
                    assert!(is_code_word(word));
                    went_out[p].extend((0..110).map(|q| word & only_bit(q) != 0));
                }
            }
        }
        for p in 0..32 {
            for (n, block) in went_out[p].chunks(40).enumerate() {
                match block_source(n as u64) {
                    Some(from) => assert!(block == &came_in[p][40 * from as usize..][..40]),
                    None => assert!(block.iter().all(|&bit| !bit)),
                }
            }
        }
    }

    /// Two runs from fresh stores over lanes of which every bit differs: the words in which they agree
    /// anywhere carry fill, and are those that an account does not tally.
    #[test]
    fn sent_words_with_fill() {
        let mut random = Xorshift::new(38);
        let mut stores = [[0; STORE_BYTES]; 2];
        for number in 0..5 {
            let lanes = random.bytes(5_280);
            let opposite = lanes.iter().map(|byte| !byte).collect();
            let mut sent = vec![];
            for (lanes, store) in [lanes, opposite].iter().zip(&mut stores) {
                let mut frame = [0; 6_144];
                assert_eq!(send(lanes, store, &mut frame), 0);
                sent.push(frame_words(&frame));
            }
            for i in 0..384 {
                let [a, b] = [&sent[0], &sent[1]].map(|words| join(words[2 * i], words[2 * i + 1]));
                let information = (1 << 110) - 1;
                let fill = (a ^ b) >> 16 & information != information;
                assert_eq!(fill, i < fill_words(0, number), "frame {number}, word {i}");
            }
        }
    }

    /// Sends with the first so many bytes of each buffer and asks that nothing changes.
    fn refused(way: Way, number: u32, buffers: &[Vec<u8>; 3], lengths: [usize; 3]) {
        let input = &buffers[0][..lengths[0]];
        let mut store = buffers[1][..lengths[1]].to_vec();
        let mut output = buffers[2][..lengths[2]].to_vec();
        assert_eq!(way(input, &mut store, &mut output), number, "{lengths:?}");
        assert!(store == buffers[1][..lengths[1]]);
        assert!(output == buffers[2][..lengths[2]]);
    }

    const RIGHT: [usize; 3] = [5_280, 2_880, 6_144];

    fn long_buffers(seed: u64) -> [Vec<u8>; 3] {
        let mut random = Xorshift::new(seed);
        [(); 3].map(|()| random.bytes(20_000))
    }

    #[test]
    fn every_wrong_length_is_refused() {
        let buffers = long_buffers(35);
        let mut calls = 0;
        for (which, number) in [(0, 1), (1, 2), (2, 3)] {
            for length in (0..=7_000).filter(|&length| length != RIGHT[which]) {
                let mut lengths = RIGHT;
                lengths[which] = length;
                for way in ALL {
                    refused(way, number, &buffers, lengths);
                    calls += 1;
                }
            }
        }
        assert_eq!(calls, 3 * 3 * 7_000);
    }

    #[test]
    fn the_lowest_refusal_is_given() {
        let buffers = long_buffers(36);
        let tried = [
            0, 1, 90, 165, 2_879, 2_880, 2_881, 5_279, 5_280, 5_281, 6_143, 6_144, 6_145, 20_000,
        ];
        let mut seen = [0; 4];
        for a in tried {
            for b in tried {
                for c in tried {
                    let lengths = [a, b, c];
                    let wrong = (0..3).find(|&which| lengths[which] != RIGHT[which]);
                    match wrong {
                        None => seen[0] += 1,
                        Some(which) => {
                            for way in ALL {
                                refused(way, which as u32 + 1, &buffers, lengths);
                            }
                            seen[which + 1] += 1;
                        }
                    }
                }
            }
        }
        assert_eq!(seen, [1, 13 * 14 * 14, 13 * 14, 13]);
    }
}
