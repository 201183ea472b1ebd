//! From the lanes to the words and back: permutation, interleaver, and the cut into words.
//!
//! A lane frame is 165 bytes, the earliest bit in the top bit of a byte: 33 blocks of four symbols of
//! ten bits, or 12 words of 110 bits. A frame is 32 of them, lane 0 first.

use crate::word::{join, FRAME_WORDS, PARITY_BITS};

pub const LANES: usize = 32;
pub const SYMBOL_BITS: usize = 10;
pub const BLOCK_SYMBOLS: usize = 4;
pub const BLOCK_BYTES: usize = 5;
pub const FRAME_BLOCKS: usize = 33;
pub const LANE_BYTES: usize = FRAME_BLOCKS * BLOCK_BYTES;
pub const LANES_BYTES: usize = LANES * LANE_BYTES;

/// The interleaver has three rows; the first holds no block.
pub const ROWS: usize = 3;
pub const ROW_1_BLOCKS: usize = 6;
pub const ROW_2_BLOCKS: usize = 12;

/// What a lane keeps between frames, in each row the newest block first. Sending keeps row 1, then
/// row 2; receiving keeps row 0, as long as row 2 of sending, then row 1.
pub const KEPT_BLOCKS: usize = ROW_1_BLOCKS + ROW_2_BLOCKS;
pub const KEPT_BYTES: usize = KEPT_BLOCKS * BLOCK_BYTES;
pub const STORE_BYTES: usize = LANES * KEPT_BYTES;

/// Places 2 and 3, counted from 0.
pub const EXCHANGED: u8 = 0b1100;

/// The bits of a block that stand at these places; bits of the set above place 3 mean nothing.
const fn block_mask(places: u8) -> [u8; BLOCK_BYTES] {
    let mut mask = 0u64;
    let mut place = 0;
    while place < BLOCK_SYMBOLS {
        if places >> place & 1 == 1 {
            mask |= 0x3FF << (SYMBOL_BITS * (BLOCK_SYMBOLS - 1 - place));
        }
        place += 1;
    }
    let bytes = mask.to_be_bytes();
    [bytes[3], bytes[4], bytes[5], bytes[6], bytes[7]]
}

/// In every four symbols lane n and lane n + 16 exchange those at the places of the set, in which
/// 2^s stands for place s. Done twice it changes nothing.
pub fn permute(lanes: &mut [u8; LANES_BYTES], places: u8) {
    // A mask as long as a lane lets the inner loop run over many bytes at once.
    let mut mask = [0; LANE_BYTES];
    for block in mask.chunks_exact_mut(BLOCK_BYTES) {
        block.copy_from_slice(&block_mask(places));
    }
    let (low, high) = lanes.split_at_mut(LANES_BYTES / 2);
    let pairs = low
        .chunks_exact_mut(LANE_BYTES)
        .zip(high.chunks_exact_mut(LANE_BYTES));
    for (low, high) in pairs {
        for ((a, b), m) in low.iter_mut().zip(high).zip(&mask) {
            let difference = (*a ^ *b) & m;
            *a ^= difference;
            *b ^= difference;
        }
    }
}

/// The input block that comes out as block n, both counted over a stream from a fresh store; none
/// where a zero of the store comes out.
pub const fn block_source(n: u64) -> Option<u64> {
    n.checked_sub(18 * (n % ROWS as u64))
}

/// The same for the way back, from received block to returned block. Both ways together are 36.
pub const fn returned_source(n: u64) -> Option<u64> {
    n.checked_sub(18 * (ROWS as u64 - 1 - n % ROWS as u64))
}

const TURNS: usize = FRAME_BLOCKS / ROWS;

#[inline(always)]
fn copy_block(to: &mut [u8], place: usize, from: &[u8], taken: usize) {
    to[BLOCK_BYTES * place..][..BLOCK_BYTES]
        .copy_from_slice(&from[BLOCK_BYTES * taken..][..BLOCK_BYTES]);
}

/// One frame of all lanes through the interleaver; the switch starts at row 0.
pub fn interleave(
    lanes: &[u8; LANES_BYTES],
    store: &mut [u8; STORE_BYTES],
    output: &mut [u8; LANES_BYTES],
) {
    let lanes = lanes.chunks_exact(LANE_BYTES);
    let store = store.chunks_exact_mut(KEPT_BYTES);
    let output = output.chunks_exact_mut(LANE_BYTES);
    for ((lane, kept), out) in lanes.zip(store).zip(output) {
        let (row_1, row_2) = kept.split_at_mut(ROW_1_BLOCKS * BLOCK_BYTES);
        for turn in 0..TURNS {
            copy_block(out, ROWS * turn, lane, ROWS * turn);
            if turn < ROW_1_BLOCKS {
                copy_block(out, ROWS * turn + 1, row_1, ROW_1_BLOCKS - 1 - turn);
            } else {
                copy_block(out, ROWS * turn + 1, lane, ROWS * (turn - ROW_1_BLOCKS) + 1);
            }
            // Row 2 holds one block more than a frame brings, so this frame's stay in it.
            copy_block(out, ROWS * turn + 2, row_2, ROW_2_BLOCKS - 1 - turn);
        }
        for age in 0..ROW_1_BLOCKS {
            copy_block(row_1, age, lane, ROWS * (TURNS - 1 - age) + 1);
        }
        row_2.copy_within(..BLOCK_BYTES, BLOCK_BYTES * TURNS);
        for age in 0..TURNS {
            copy_block(row_2, age, lane, ROWS * (TURNS - 1 - age) + 2);
        }
    }
}

/// Copies a block and, where there are any, three bytes more, in one move of eight. What stands
/// behind the block must be written later.
#[inline(always)]
fn copy_on(to: &mut [u8], place: usize, from: &[u8], taken: usize) {
    let to = &mut to[BLOCK_BYTES * place..];
    let from = &from[BLOCK_BYTES * taken..];
    if to.len() < 8 || from.len() < 8 {
        to[..BLOCK_BYTES].copy_from_slice(&from[..BLOCK_BYTES]);
    } else {
        to[..8].copy_from_slice(&from[..8]);
    }
}

/// One frame of all lanes through the interleaver of the receiver, whose last row holds no block.
pub fn deinterleave(
    lanes: &[u8; LANES_BYTES],
    store: &mut [u8; STORE_BYTES],
    output: &mut [u8; LANES_BYTES],
) {
    let lanes = lanes.chunks_exact(LANE_BYTES);
    let store = store.chunks_exact_mut(KEPT_BYTES);
    let output = output.chunks_exact_mut(LANE_BYTES);
    for ((lane, kept), out) in lanes.zip(store).zip(output) {
        // Row 1 is kept behind row 0, which is as long as row 2 of sending.
        for turn in 0..TURNS {
            copy_on(out, ROWS * turn, kept, ROW_2_BLOCKS - 1 - turn);
            if turn < ROW_1_BLOCKS {
                copy_on(out, ROWS * turn + 1, kept, KEPT_BLOCKS - 1 - turn);
            } else {
                copy_on(out, ROWS * turn + 1, lane, ROWS * (turn - ROW_1_BLOCKS) + 1);
            }
            copy_on(out, ROWS * turn + 2, lane, ROWS * turn + 2);
        }
        let mut stays = [0; BLOCK_BYTES];
        copy_block(&mut stays, 0, kept, 0);
        for age in 0..TURNS {
            copy_on(kept, age, lane, ROWS * (TURNS - 1 - age));
        }
        copy_block(kept, TURNS, &stays, 0);
        for age in 0..ROW_1_BLOCKS {
            copy_on(kept, ROW_2_BLOCKS + age, lane, ROWS * (TURNS - 1 - age) + 1);
        }
    }
}

/// Four words fill 55 bytes; each lies within the 16 bytes from here, after so many other bits.
const STARTS: [(usize, u32); 4] = [(0, 0), (13, 6), (27, 4), (39, 18)];

/// The 384 words of a frame with no parity yet: word k of lane p is word i = 32k + p, and word i is
/// `words[2i]`, `words[2i + 1]`.
pub fn words(lanes: &[u8; LANES_BYTES]) -> [u64; 2 * FRAME_WORDS] {
    let mut words = [0; 2 * FRAME_WORDS];
    for (p, lane) in lanes.chunks_exact(LANE_BYTES).enumerate() {
        for (third, bytes) in lane.chunks_exact(55).enumerate() {
            for (w, (start, before)) in STARTS.into_iter().enumerate() {
                let bytes: [u8; 16] = bytes[start..start + 16].try_into().expect("16 bytes");
                let word = u128::from_be_bytes(bytes) << before >> 2;
                let i = LANES * (4 * third + w) + p;
                words[2 * i] = (word >> 64) as u64;
                words[2 * i + 1] = word as u64 & !0xFFFF;
            }
        }
    }
    words
}

/// The lanes of 384 words; their parity falls away.
pub fn lanes_of_words(words: &[u64; 2 * FRAME_WORDS]) -> [u8; LANES_BYTES] {
    let mut lanes = [0; LANES_BYTES];
    for (p, lane) in lanes.chunks_exact_mut(LANE_BYTES).enumerate() {
        for (third, bytes) in lane.chunks_exact_mut(55).enumerate() {
            let mut last = 0u128;
            for (w, (start, before)) in STARTS.into_iter().enumerate() {
                let i = LANES * (4 * third + w) + p;
                let information = join(words[2 * i], words[2 * i + 1]) >> PARITY_BITS;
                // The other bits are the end of the word before; none before the first.
                let others = last.checked_shl(128 - before).unwrap_or(0);
                let sixteen = others | information << (18 - before);
                bytes[start..start + 16].copy_from_slice(&sixteen.to_be_bytes());
                last = information;
            }
        }
    }
    lanes
}

#[cfg(test)]
mod tests {
    use super::*;
    use crate::word::{only_bit, INFORMATION_BITS};
    use crate::xorshift::Xorshift;

    const LANE_BITS: usize = 8 * LANE_BYTES;

    fn random_lanes(random: &mut Xorshift) -> [u8; LANES_BYTES] {
        let mut lanes = [0; LANES_BYTES];
        lanes.fill_with(|| random.next_u64() as u8);
        lanes
    }

    fn bit(lanes: &[u8; LANES_BYTES], p: usize, number: usize) -> u8 {
        lanes[LANE_BYTES * p + number / 8] >> (7 - number % 8) & 1
    }

    fn block(lanes: &[u8; LANES_BYTES], p: usize, n: usize) -> &[u8] {
        &lanes[LANE_BYTES * p + BLOCK_BYTES * n..][..BLOCK_BYTES]
    }

    #[test]
    fn sizes() {
        assert_eq!((LANE_BYTES, LANES_BYTES), (165, 5_280));
        assert_eq!((KEPT_BYTES, STORE_BYTES), (90, 2_880));
    }

    #[test]
    fn permutation_by_the_rule_for_every_set() {
        let mut random = Xorshift::new(11);
        for places in 0..16 {
            let before = random_lanes(&mut random);
            let mut after = before;
            permute(&mut after, places);
            for p in 0..LANES {
                for number in 0..LANE_BITS {
                    let place = number / 10 % 4;
                    let exchanged = places >> place & 1 == 1;
                    let from = if exchanged { (p + 16) % 32 } else { p };
                    assert_eq!(bit(&after, p, number), bit(&before, from, number));
                }
            }
            let mut high_bits_too = before;
            permute(&mut high_bits_too, places | 0xF0);
            assert!(high_bits_too == after);
            permute(&mut after, places);
            assert!(after == before);
        }
    }

    #[test]
    fn permutation_as_in_the_document() {
        assert_eq!(block_mask(EXCHANGED), [0, 0, 0x0F, 0xFF, 0xFF]);
        assert_eq!(block_mask(0b0001), [0xFF, 0xC0, 0, 0, 0]);
        // Lanes 0 to 15 carry A and B in turn, lanes 16 to 31 C and D; each may begin with either.
        for start in 0..4u8 {
            let mut lanes = [0; LANES_BYTES];
            for p in 0..LANES {
                let (pair, turned) = if p < 16 {
                    (0, start & 1)
                } else {
                    (2, start >> 1)
                };
                for number in 0..LANE_BITS {
                    let codeword = pair + (turned as usize + number / 10) % 2;
                    // The number of the codeword stands in the last two bits of a symbol.
                    let set = match number % 10 {
                        8 => codeword >> 1,
                        9 => codeword & 1,
                        _ => 0,
                    };
                    lanes[LANE_BYTES * p + number / 8] |= (set as u8) << (7 - number % 8);
                }
            }
            permute(&mut lanes, EXCHANGED);
            for p in 0..LANES {
                for n in 0..FRAME_BLOCKS {
                    let mut seen = [false; 4];
                    for place in 0..4 {
                        let at = 40 * n + 10 * place;
                        let codeword = bit(&lanes, p, at + 8) << 1 | bit(&lanes, p, at + 9);
                        seen[usize::from(codeword)] = true;
                    }
                    assert_eq!(seen, [true; 4], "lane {p}, block {n}");
                }
            }
        }
    }

    #[test]
    fn bench_rows_5_to_7() {
        assert_eq!(block_source(34), Some(16));
        assert_eq!(block_source(35), None);
        assert_eq!(block_source(38), Some(2));
    }

    #[test]
    fn block_rule_over_a_run() {
        const FRAMES: usize = 7;
        let mut random = Xorshift::new(12);
        let mut store = [0; STORE_BYTES];
        let mut came_in = Vec::new();
        let mut went_out = Vec::new();
        for _ in 0..FRAMES {
            let mut lanes = random_lanes(&mut random);
            permute(&mut lanes, EXCHANGED);
            let mut out = random_lanes(&mut random);
            interleave(&lanes, &mut store, &mut out);
            came_in.push(lanes);
            went_out.push(out);
        }
        let (mut fill, mut moved) = (0, 0);
        for p in 0..LANES {
            for n in 0..FRAMES * FRAME_BLOCKS {
                let got = block(&went_out[n / FRAME_BLOCKS], p, n % FRAME_BLOCKS);
                match block_source(n as u64) {
                    None => {
                        assert_eq!(got, [0; 5], "lane {p}, block {n}");
                        fill += 1;
                    }
                    Some(from) => {
                        let (frame, place) =
                            (from as usize / FRAME_BLOCKS, from as usize % FRAME_BLOCKS);
                        assert_eq!(got, block(&came_in[frame], p, place), "lane {p}, block {n}");
                        moved += 1;
                    }
                }
            }
        }
        println!("{moved} blocks where the rule has them, {fill} of fill");
        assert_eq!(fill, 32 * 18);

        // What has not come out is in the store: row 1 its last 6 blocks, row 2 its last 12.
        for p in 0..LANES {
            let kept = &store[KEPT_BYTES * p..][..KEPT_BYTES];
            let end = FRAMES * FRAME_BLOCKS;
            for (place, got) in kept.chunks_exact(BLOCK_BYTES).enumerate() {
                let n = if place < 6 {
                    end - 2 - 3 * place
                } else {
                    end - 1 - 3 * (place - 6)
                };
                assert_eq!(
                    got,
                    block(&came_in[n / FRAME_BLOCKS], p, n % FRAME_BLOCKS),
                    "lane {p}, kept {place}"
                );
            }
        }
    }

    #[test]
    fn block_rule_of_the_way_back_over_a_run() {
        const FRAMES: usize = 7;
        const END: usize = FRAMES * FRAME_BLOCKS;
        let mut random = Xorshift::new(14);
        let mut store = [0; STORE_BYTES];
        let mut came_in = Vec::new();
        let mut went_out = Vec::new();
        for _ in 0..FRAMES {
            let lanes = random_lanes(&mut random);
            let mut out = random_lanes(&mut random);
            deinterleave(&lanes, &mut store, &mut out);
            came_in.push(lanes);
            went_out.push(out);
        }
        let received = |p, n| block(&came_in[n / FRAME_BLOCKS], p, n % FRAME_BLOCKS);
        let mut fill = 0;
        for p in 0..LANES {
            for n in 0..END {
                let got = block(&went_out[n / FRAME_BLOCKS], p, n % FRAME_BLOCKS);
                match returned_source(n as u64) {
                    None => {
                        assert_eq!(got, [0; 5], "lane {p}, block {n}");
                        fill += 1;
                    }
                    Some(from) => assert_eq!(got, received(p, from as usize), "{p}, {n}"),
                }
            }
            // Kept are the last 12 blocks of row 0, then the last 6 of row 1.
            let kept = &store[KEPT_BYTES * p..][..KEPT_BYTES];
            for (place, got) in kept.chunks_exact(BLOCK_BYTES).enumerate() {
                let n = if place < 12 {
                    END - 3 - 3 * place
                } else {
                    END - 2 - 3 * (place - 12)
                };
                assert_eq!(got, received(p, n), "lane {p}, kept {place}");
            }
        }
        assert_eq!(fill, 32 * 18);
    }

    #[test]
    fn both_ways_together_are_36_blocks() {
        for n in 0..1_000u64 {
            let through = returned_source(n).and_then(block_source);
            assert_eq!(through, n.checked_sub(36), "block {n}");
        }
        let mut random = Xorshift::new(15);
        let (mut sender, mut receiver) = ([0; STORE_BYTES], [0; STORE_BYTES]);
        let mut came_in = Vec::new();
        for frame in 0..7 {
            came_in.push(random_lanes(&mut random));
            let (mut sent, mut out) = ([0; LANES_BYTES], [0; LANES_BYTES]);
            interleave(&came_in[frame], &mut sender, &mut sent);
            deinterleave(&sent, &mut receiver, &mut out);
            for p in 0..LANES {
                for n in 0..FRAME_BLOCKS {
                    let got = block(&out, p, n);
                    match (FRAME_BLOCKS * frame + n).checked_sub(36) {
                        None => assert_eq!(got, [0; 5]),
                        Some(from) => {
                            let of_frame = &came_in[from / FRAME_BLOCKS];
                            assert_eq!(got, block(of_frame, p, from % FRAME_BLOCKS));
                        }
                    }
                }
            }
        }
    }

    /// Two runs from fresh stores over lanes of which every bit differs: where they agree a bit comes
    /// from before the stream. Exactly the words 0 to 13 of each lane have one, whichever symbols
    /// are exchanged.
    #[test]
    fn words_with_fill() {
        const FRAMES: usize = 4;
        let mut random = Xorshift::new(17);
        for places in [0b0011, 0b1001, 0b0110, 0b1100] {
            let mut stores = [[0; STORE_BYTES]; 2];
            for frame in 0..FRAMES {
                let lanes = random_lanes(&mut random);
                let opposite = lanes.map(|byte| !byte);
                let mut sent = [lanes, opposite].into_iter().zip(&mut stores);
                let [a, b] = [(); 2].map(|()| {
                    let (mut lanes, store) = sent.next().unwrap();
                    permute(&mut lanes, places);
                    let mut out = [0; LANES_BYTES];
                    interleave(&lanes, store, &mut out);
                    words(&out)
                });
                for i in 0..FRAME_WORDS {
                    let [a, b] = [a, b].map(|words| join(words[2 * i], words[2 * i + 1]));
                    let w = 12 * frame + i / LANES;
                    let mut fill = 0;
                    for q in 0..INFORMATION_BITS {
                        let same = (a ^ b) & only_bit(q) == 0;
                        let n = (110 * w + usize::from(q)) / 40;
                        assert_eq!(same, block_source(n as u64).is_none());
                        fill += usize::from(same);
                    }
                    assert_eq!(fill > 0, w < 14, "word {w} of lane {}", i % LANES);
                }
            }
        }
    }

    #[test]
    fn lanes_of_words_bit_by_bit() {
        let mut random = Xorshift::new(16);
        for _ in 0..20 {
            // Parity and the two bits above a word must not matter.
            let mut words = [0; 2 * FRAME_WORDS];
            words.fill_with(|| random.next_u64());
            let lanes = lanes_of_words(&words);
            for k in 0..12 {
                for p in 0..LANES {
                    let i = 32 * k + p;
                    let word = join(words[2 * i], words[2 * i + 1]);
                    for q in 0..INFORMATION_BITS {
                        let set = u8::from(word & only_bit(q) != 0);
                        assert_eq!(bit(&lanes, p, 110 * k + usize::from(q)), set);
                    }
                }
            }
            let lanes = random_lanes(&mut random);
            assert!(lanes_of_words(&super::words(&lanes)) == lanes);
        }
    }

    #[test]
    fn words_bit_by_bit() {
        let mut random = Xorshift::new(13);
        for _ in 0..20 {
            let lanes = random_lanes(&mut random);
            let words = words(&lanes);
            for k in 0..12 {
                for p in 0..LANES {
                    let i = 32 * k + p;
                    let mut word = 0;
                    for q in 0..INFORMATION_BITS {
                        if bit(&lanes, p, 110 * k + usize::from(q)) == 1 {
                            word |= only_bit(q);
                        }
                    }
                    assert_eq!(join(words[2 * i], words[2 * i + 1]), word);
                    assert_eq!(words[2 * i] >> 62, 0);
                }
            }
        }
    }
}
