//! Records read from captures, whole, cut and spoilt, at every kind of place, and how many bytes of
//! a record are wanted.

use crate::frames::sent;
use crate::out::Calls;
use second::capture::{
    frame_record, order_record, Order, FRAME_RECORD, KIND_PLACE, LENGTH_BYTES, ORDER_RECORD,
    VERSION_PLACE,
};
use second::lanes::STORE_BYTES;
use second::xorshift::Xorshift;
use std::io::{self, Write};

pub fn order(start: u32, asked: u32, allowed: u32) -> Vec<u8> {
    order_record(Order {
        start,
        asked,
        allowed,
    })
}

fn random_order(random: &mut Xorshift) -> Vec<u8> {
    let [start, asked, allowed] = [0; 3].map(|_| random.next_u64() as u32);
    order(start, asked, allowed)
}

fn random_frame(random: &mut Xorshift) -> Vec<u8> {
    let number = random.next_u64() as u32;
    frame_record(number, &sent(random, &mut [0; STORE_BYTES]))
}

/// Lengths that are not lawful, near those that are, with a bit or the bytes turned, or large.
pub fn unlawful(random: &mut Xorshift) -> Vec<u32> {
    let mut lengths = vec![
        0,
        1,
        13,
        15,
        18,
        384,
        6_144,
        6_149,
        6_151,
        6_154,
        u32::MAX,
        u32::MAX - 3,
    ];
    for lawful in [14u32, 6_150] {
        lengths.push(lawful.swap_bytes());
        lengths.push(0u32.wrapping_sub(lawful));
        lengths.extend((0..32).map(|bit| lawful ^ 1 << bit));
    }
    lengths.extend((0..8).map(|_| random.next_u64() as u32 | 1 << 20));
    lengths
}

fn cuts<W: Write>(calls: &mut Calls<W>, random: &mut Xorshift) -> io::Result<()> {
    let (order, frame) = (random_order(random), random_frame(random));
    // Each kind of record behind each, so that every boundary is met from both sides.
    for (first, second) in [(&order, &order), (&order, &frame), (&frame, &order)] {
        let capture = [&first[..], second].concat();
        for boundary in [
            0,
            VERSION_PLACE,
            10,
            first.len(),
            first.len() + 10,
            capture.len(),
        ] {
            for cut in boundary.saturating_sub(9)..capture.len().min(boundary + 9) + 1 {
                for place in [0, first.len()] {
                    calls.read(&capture[..cut], place)?;
                }
            }
        }
    }
    // Cut or not, with wrong versions and kinds: 6 comes before 8, and 8 before 9.
    for record in [&order, &frame] {
        let right = record[KIND_PLACE];
        for version in [0, 1, 2, 0x81, 0xFF] {
            for kind in [right, right ^ 1, 2, 0x80 | right, 0xFF] {
                let mut spoilt = record.clone();
                spoilt[VERSION_PLACE] = version;
                spoilt[KIND_PLACE] = kind;
                let whole = spoilt.len();
                for cut in [5, 6, 7, 9, 10, 11, whole - 1, whole] {
                    calls.read(&spoilt[..cut], 0)?;
                }
                spoilt.push(0);
                calls.read(&spoilt, 0)?;
            }
        }
    }
    for byte in 0..=255 {
        for place in [VERSION_PLACE, KIND_PLACE] {
            let mut spoilt = order.clone();
            spoilt[place] = byte;
            calls.read(&spoilt, 0)?;
        }
    }
    Ok(())
}

/// With nothing behind the length, with too little, and with a whole record.
fn lengths<W: Write>(calls: &mut Calls<W>, random: &mut Xorshift) -> io::Result<()> {
    let (order, frame) = (random_order(random), random_frame(random));
    for length in unlawful(random) {
        let first = length.to_be_bytes();
        let pieces = [
            first.to_vec(),
            [&first[..], &[2]].concat(),
            [&first[..], &order[4..]].concat(),
            [&first[..], &frame[4..]].concat(),
        ];
        for piece in pieces {
            calls.read(&piece, 0)?;
            assert_eq!(calls.wanted(&piece)?, LENGTH_BYTES);
            let behind = [&order[..], &piece].concat();
            calls.read(&behind, ORDER_RECORD)?;
        }
    }
    for count in 0..4 {
        for byte in [0, 1, 0xFF] {
            calls.read(&vec![byte; count], 0)?;
            assert_eq!(calls.wanted(&vec![byte; count])?, LENGTH_BYTES);
        }
    }
    Ok(())
}

/// Before, at and beyond the end, and where a place and a few bytes more would wrap.
fn places<W: Write>(calls: &mut Calls<W>, random: &mut Xorshift) -> io::Result<()> {
    let first = random_order(random);
    let captures = [
        vec![],
        vec![0],
        first.clone(),
        [&first[..], &random_frame(random), &random_order(random)].concat(),
        [&random_frame(random)[..], &random_frame(random)].concat(),
    ];
    for capture in &captures {
        let end = capture.len();
        let mut places: Vec<usize> = (0..30).chain(end.saturating_sub(30)..end + 30).collect();
        for boundary in [ORDER_RECORD, FRAME_RECORD, ORDER_RECORD + FRAME_RECORD] {
            places.extend(boundary - 5..boundary + 5);
        }
        for wide in [1 << 16, 1 << 31, 1 << 32, 1 << 63] {
            places.extend([wide - 1, wide, wide + 1, wide + ORDER_RECORD]);
        }
        for before in [1, 2, 3, 4, 5, 14, ORDER_RECORD, 6_150, FRAME_RECORD, end] {
            places.push(0usize.wrapping_sub(before));
        }
        for place in places {
            calls.read(capture, place)?;
        }
    }
    Ok(())
}

/// Walks over whole captures, and over bytes of any value.
fn walks<W: Write>(calls: &mut Calls<W>, random: &mut Xorshift) -> io::Result<()> {
    let mut captures: Vec<Vec<u8>> = vec![(0..200).flat_map(|_| random_order(random)).collect()];
    let mut mixed = vec![];
    for _ in 0..8 {
        mixed.extend(random_order(random));
        mixed.extend(random_frame(random));
    }
    captures.push(mixed);
    captures.push([order(0, 0, 0), order(u32::MAX, u32::MAX, u32::MAX)].concat());
    for _ in 0..200 {
        let length = random.below(60) as usize;
        let mut noise = random.bytes(length);
        let head = random.pick(&[
            [0, 0, 0, 14, 1, 0],
            [0, 0, 0x18, 6, 1, 1],
            [0, 0, 0, 14, 0, 1],
        ]);
        let kept = random.below(7) as usize;
        for (byte, head) in noise.iter_mut().zip(head).take(kept) {
            *byte = head;
        }
        captures.push(noise);
    }
    for capture in captures {
        let mut place = 0;
        loop {
            let record = calls.read(&capture, place)?;
            if record.next == place {
                break;
            }
            place = record.next;
        }
    }
    Ok(())
}

fn wanted<W: Write>(calls: &mut Calls<W>, random: &mut Xorshift) -> io::Result<()> {
    let (order, frame) = (random_order(random), random_frame(random));
    for (record, whole) in [(&order, ORDER_RECORD), (&frame, FRAME_RECORD)] {
        let two = [&record[..], record].concat();
        for count in (0..40).chain(whole - 2..whole + 3).chain([two.len()]) {
            let wants = calls.wanted(&two[..count.min(two.len())])?;
            assert_eq!(
                wants,
                if count < LENGTH_BYTES {
                    LENGTH_BYTES
                } else {
                    whole
                }
            );
        }
        // Neither version nor kind is looked at.
        for byte in [0, 2, 0xFF] {
            let mut spoilt = record.clone();
            spoilt[VERSION_PLACE..=KIND_PLACE].fill(byte);
            calls.wanted(&spoilt)?;
        }
    }
    Ok(())
}

pub fn write<W: Write>(calls: &mut Calls<W>, random: &mut Xorshift) -> io::Result<()> {
    cuts(calls, random)?;
    lengths(calls, random)?;
    places(calls, random)?;
    walks(calls, random)?;
    wanted(calls, random)
}
