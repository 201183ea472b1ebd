//! Capture records, an order or a frame, and a reader that walks over them.
//!
//! A record is its length, which counts what follows it; a version byte; a kind byte; then, of an
//! order, start number, frames asked and flagged words allowed, or, of a frame, its number and its
//! symbols. Every number has four bytes, big-endian, the length too.

use crate::symbols::FRAME_SYMBOLS;

pub const LENGTH_BYTES: usize = 4;

const ORDER_LENGTH: usize = 14;
const FRAME_LENGTH: usize = 6 + FRAME_SYMBOLS;

/// The bytes of a whole record, its length included.
pub const ORDER_RECORD: usize = LENGTH_BYTES + ORDER_LENGTH;
pub const FRAME_RECORD: usize = LENGTH_BYTES + FRAME_LENGTH;

/// Where version and kind stand in a record.
pub const VERSION_PLACE: usize = LENGTH_BYTES;
pub const KIND_PLACE: usize = LENGTH_BYTES + 1;

const VERSION: u8 = 1;
const ORDER_KIND: u8 = 0;
const FRAME_KIND: u8 = 1;

#[derive(Clone, Copy, Debug, PartialEq, Eq)]
pub struct Order {
    pub start: u32,
    pub asked: u32,
    pub allowed: u32,
}

fn record(length: usize, kind: u8, numbers: &[u32]) -> Vec<u8> {
    let mut record = Vec::with_capacity(LENGTH_BYTES + length);
    record.extend((length as u32).to_be_bytes());
    record.extend([VERSION, kind]);
    for number in numbers {
        record.extend(number.to_be_bytes());
    }
    record
}

pub fn order_record(order: Order) -> Vec<u8> {
    let numbers = [order.start, order.asked, order.allowed];
    record(ORDER_LENGTH, ORDER_KIND, &numbers)
}

pub fn frame_record(number: u32, symbols: &[u8; FRAME_SYMBOLS]) -> Vec<u8> {
    let mut record = record(FRAME_LENGTH, FRAME_KIND, &[number]);
    record.extend(symbols);
    record
}

/// What a reader answers; the symbols are the part of the capture where they lie.
#[derive(Clone, Copy, Debug, PartialEq, Eq)]
pub enum Answer<'a> {
    End,
    Refused(u32),
    Order(Order),
    Frame {
        number: u32,
        symbols: &'a [u8; FRAME_SYMBOLS],
    },
}

fn number(bytes: &[u8]) -> u32 {
    u32::from_be_bytes(bytes.try_into().expect("four bytes"))
}

/// The length that stands first, or the number of the refusal.
pub fn length(bytes: &[u8]) -> Result<usize, u32> {
    let first = bytes.get(..LENGTH_BYTES).ok_or(6u32)?;
    match number(first) as usize {
        length @ (ORDER_LENGTH | FRAME_LENGTH) => Ok(length),
        _ => Err(7),
    }
}

/// The answer where these bytes are all that is left.
fn answer(bytes: &[u8]) -> Answer<'_> {
    if bytes.is_empty() {
        return Answer::End;
    }
    let length = match length(bytes) {
        Ok(length) => length,
        Err(number) => return Answer::Refused(number),
    };
    let Some(record) = bytes[LENGTH_BYTES..].get(..length) else {
        return Answer::Refused(6);
    };
    let (version, kind, rest) = (record[0], record[1], &record[2..]);
    if version != VERSION {
        return Answer::Refused(8);
    }
    match (kind, length) {
        (ORDER_KIND, ORDER_LENGTH) => Answer::Order(Order {
            start: number(&rest[..4]),
            asked: number(&rest[4..8]),
            allowed: number(&rest[8..]),
        }),
        (FRAME_KIND, FRAME_LENGTH) => Answer::Frame {
            number: number(&rest[..4]),
            symbols: rest[4..].try_into().expect("6,144 symbols"),
        },
        _ => Answer::Refused(9),
    }
}

/// Walks over one lent capture and keeps its place.
#[derive(Clone, Debug)]
pub struct Reader<'a> {
    capture: &'a [u8],
    place: usize,
}

impl<'a> Reader<'a> {
    pub fn new(capture: &'a [u8]) -> Self {
        Reader::at(capture, 0)
    }

    /// Goes on from a place kept before, which may lie beyond the end.
    pub fn at(capture: &'a [u8], place: usize) -> Self {
        Reader { capture, place }
    }

    pub fn place(&self) -> usize {
        self.place
    }

    /// Only an order or a frame moves the place.
    pub fn next_record(&mut self) -> Answer<'a> {
        let answer = answer(self.capture.get(self.place..).unwrap_or_default());
        self.place += match answer {
            Answer::End | Answer::Refused(_) => 0,
            Answer::Order(_) => ORDER_RECORD,
            Answer::Frame { .. } => FRAME_RECORD,
        };
        answer
    }
}

/// More bytes than one record. A house number: 01 has none for it.
pub const MORE_THAN_ONE: u32 = 22;

/// The answer to bytes that must be one record and no more. What refuses the record itself has a
/// lower number and comes first, whatever stands behind it.
pub fn lone(bytes: &[u8]) -> Answer<'_> {
    let mut reader = Reader::new(bytes);
    match reader.next_record() {
        Answer::Order(_) | Answer::Frame { .. } if reader.place() < bytes.len() => {
            Answer::Refused(MORE_THAN_ONE)
        }
        answer => answer,
    }
}

/// How many bytes of a record to ask for, by those of it that are there: where the length is not
/// lawful, no more than those that tell so.
pub fn wanted(piece: &[u8]) -> usize {
    LENGTH_BYTES + length(piece).unwrap_or(0)
}

/// A record's kind in numbers.
pub const NONE: u32 = 0;
pub const ORDER: u32 = 1;
pub const FRAME: u32 = 2;

/// A reader's answer in numbers: what a kind does not have is 0, and so is the refusal of a record
/// that is not refused.
#[derive(Clone, Copy, Debug, Default, PartialEq, Eq)]
pub struct Record {
    pub refusal: u32,
    pub kind: u32,
    pub number: u32,
    pub asked: u32,
    pub allowed: u32,
    pub symbols: usize,
    pub next: usize,
}

/// What stands at a place of a capture.
pub fn read(capture: &[u8], place: usize) -> Record {
    let mut reader = Reader::at(capture, place);
    let answer = reader.next_record();
    let next = reader.place();
    match answer {
        Answer::End => Record {
            next,
            ..Record::default()
        },
        Answer::Refused(refusal) => Record {
            refusal,
            next,
            ..Record::default()
        },
        Answer::Order(order) => Record {
            kind: ORDER,
            number: order.start,
            asked: order.asked,
            allowed: order.allowed,
            next,
            ..Record::default()
        },
        Answer::Frame { number, symbols } => Record {
            kind: FRAME,
            number,
            symbols: next - symbols.len(),
            next,
            ..Record::default()
        },
    }
}

#[cfg(test)]
mod tests {
    use super::*;
    use crate::xorshift::Xorshift;

    const ORDER: Order = Order {
        start: 0x0102_0304,
        asked: 0x8596_A7B8,
        allowed: 0xF0E1_D2C3,
    };

    /// The same in the bytes of the scope.
    #[rustfmt::skip]
    const ORDER_BYTES: [u8; 18] = [
        0x00, 0x00, 0x00, 0x0E, 0x01, 0x00,
        0x01, 0x02, 0x03, 0x04, 0x85, 0x96, 0xA7, 0xB8, 0xF0, 0xE1, 0xD2, 0xC3,
    ];

    const NUMBER: u32 = 0xFEDC_BA98;

    /// Before the symbols of a frame with that number; 6,150 is 1806 in hex.
    const FRAME_START: [u8; 10] = [0x00, 0x00, 0x18, 0x06, 0x01, 0x01, 0xFE, 0xDC, 0xBA, 0x98];

    fn random_symbols(random: &mut Xorshift) -> [u8; 6_144] {
        let mut symbols = [0; 6_144];
        symbols.fill_with(|| random.next_u64() as u8);
        symbols
    }

    fn first_answer(capture: &[u8]) -> Answer<'_> {
        Reader::new(capture).next_record()
    }

    /// The answer must be this refusal or the end, and again, and the place must stay.
    fn stays(capture: &[u8], place: usize, answer: Answer) {
        let mut reader = Reader::at(capture, place);
        for _ in 0..3 {
            assert_eq!(reader.next_record(), answer, "at {place}");
            assert_eq!(reader.place(), place);
        }
    }

    fn refused(capture: &[u8], number: u32) {
        stays(capture, 0, Answer::Refused(number));
    }

    /// A length, a version and a kind, and random bytes behind them: so many in all.
    fn some_record(
        random: &mut Xorshift,
        length: u32,
        version: u8,
        kind: u8,
        all: usize,
    ) -> Vec<u8> {
        let mut bytes = length.to_be_bytes().to_vec();
        bytes.extend([version, kind]);
        bytes.resize_with(all.max(6), || random.next_u64() as u8);
        bytes.truncate(all);
        bytes
    }

    #[test]
    fn bytes_of_an_order() {
        assert_eq!(order_record(ORDER), ORDER_BYTES);
        let lone = Order {
            start: 0,
            asked: 1,
            allowed: 0,
        };
        let printed = [0, 0, 0, 0x0E, 1, 0, 0, 0, 0, 0, 0, 0, 0, 1, 0, 0, 0, 0];
        assert_eq!(order_record(lone), printed);
        assert_eq!(first_answer(&printed), Answer::Order(lone));
    }

    #[test]
    fn bytes_of_a_frame() {
        let symbols = random_symbols(&mut Xorshift::new(51));
        let record = frame_record(NUMBER, &symbols);
        assert_eq!(record.len(), 6_154);
        assert_eq!(record[..10], FRAME_START);
        assert_eq!(record[10..], symbols);
    }

    #[test]
    fn an_order_at_every_cut() {
        let mut random = Xorshift::new(52);
        // Behind a whole order too, and with any version and kind.
        for before in [vec![], ORDER_BYTES.to_vec()] {
            for (version, kind, whole) in [
                (1, 0, Answer::Order(ORDER)),
                (1, 1, Answer::Refused(9)),
                (2, 0, Answer::Refused(8)),
                (2, 1, Answer::Refused(8)),
            ] {
                for cut in 0..=18 {
                    let mut capture = before.clone();
                    capture.extend(&ORDER_BYTES[..cut]);
                    for (place, byte) in [(4, version), (5, kind)] {
                        if cut > place {
                            capture[before.len() + place] = byte;
                        }
                    }
                    let right = match cut {
                        0 => Answer::End,
                        1..=17 => Answer::Refused(6),
                        _ => whole,
                    };
                    if let Answer::Order(_) = right {
                        let mut reader = Reader::at(&capture, before.len());
                        assert_eq!(reader.next_record(), right);
                        assert_eq!(reader.place(), before.len() + 18);
                    } else {
                        stays(&capture, before.len(), right);
                    }
                }
            }
            // Whatever follows does not matter.
            for more in 0..40 {
                let mut capture = before.clone();
                capture.extend(ORDER_BYTES);
                capture.resize_with(capture.len() + more, || random.next_u64() as u8);
                let mut reader = Reader::at(&capture, before.len());
                assert_eq!(reader.next_record(), Answer::Order(ORDER));
                assert_eq!(reader.place(), before.len() + 18);
            }
        }
    }

    #[test]
    fn a_frame_at_every_cut() {
        let symbols = random_symbols(&mut Xorshift::new(53));
        let mut capture = [&FRAME_START[..], &symbols].concat();
        stays(&capture[..0], 0, Answer::End);
        for cut in 1..6_154 {
            refused(&capture[..cut], 6);
        }
        let whole = Answer::Frame {
            number: NUMBER,
            symbols: &symbols,
        };
        for more in 0..3 {
            let mut reader = Reader::new(&capture);
            assert_eq!(reader.next_record(), whole);
            assert_eq!(reader.place(), 6_154);
            let right = [Answer::End, Answer::Refused(6)][more.min(1)];
            assert_eq!(reader.next_record(), right);
            capture.push(0);
        }
        // A frame of the length of an order, and an order of that of a frame, are neither.
        capture[3] = 14;
        capture[2] = 0;
        refused(&capture, 9);
        refused(&capture[..18], 9);
        refused(&capture[..17], 6);
    }

    #[test]
    fn symbols_lie_in_the_capture() {
        let mut random = Xorshift::new(54);
        let mut capture = ORDER_BYTES.to_vec();
        for number in 0..3 {
            capture.extend(frame_record(number, &random_symbols(&mut random)));
        }
        let mut reader = Reader::new(&capture);
        assert_eq!(reader.next_record(), Answer::Order(ORDER));
        for frame in 0..3 {
            let Answer::Frame { number, symbols } = reader.next_record() else {
                panic!("no frame");
            };
            assert_eq!(number, frame);
            let place = 18 + 6_154 * frame as usize + 10;
            assert!(std::ptr::eq(
                symbols.as_slice(),
                &capture[place..place + 6_144]
            ));
            assert_eq!(reader.place(), place + 6_144);
        }
        assert_eq!(reader.next_record(), Answer::End);
    }

    #[test]
    fn a_place_at_the_end_or_beyond_is_the_end() {
        for length in [0, 1, 3, 4, 17, 18] {
            let capture = &ORDER_BYTES[..length];
            for beyond in [0, 1, 2, 3, 4, 5, 18, 6_154] {
                stays(capture, length + beyond, Answer::End);
            }
            for place in (usize::MAX - 6_200..=usize::MAX).rev() {
                stays(capture, place, Answer::End);
            }
        }
        for place in 15..18 {
            stays(&ORDER_BYTES, place, Answer::Refused(6));
        }
    }

    #[test]
    fn an_unlawful_length_is_refused_once_four_bytes_are_there() {
        let mut random = Xorshift::new(55);
        let near = [
            0, 1, 2, 5, 6, 13, 15, 16, 18, 256, 384, 3_584, 6_144, 6_149, 6_151, 6_154, 65_535,
        ];
        // The lawful ones with another bit, and with the bytes the other way round.
        let one_bit = (0..32).flat_map(|bit| [14 ^ 1 << bit, 6_150 ^ 1 << bit]);
        let turned = [14u32, 6_150].map(u32::swap_bytes);
        let lengths = near.into_iter().chain(one_bit).chain(turned);
        for length in lengths.chain([u32::MAX, 1 << 31]) {
            for version in [0, 1, 2] {
                for kind in [0, 1, 2] {
                    for all in [4, 5, 6, 7, 17, 18, 19, 6_153, 6_154, 7_000] {
                        let bytes = some_record(&mut random, length, version, kind, all);
                        refused(&bytes, 7);
                        for cut in 1..4 {
                            refused(&bytes[..cut], 6);
                        }
                    }
                }
            }
        }
    }

    #[test]
    fn version_is_judged_before_kind_and_after_length() {
        let mut random = Xorshift::new(56);
        for (length, own_kind) in [(14, 0), (6_150, 1)] {
            let whole = 4 + length as usize;
            for version in 0..=255 {
                for kind in [0, 1, 2, 3, 14, 128, 255] {
                    let bytes = some_record(&mut random, length, version, kind, whole);
                    match (version == 1, kind == own_kind) {
                        (false, _) => refused(&bytes, 8),
                        (true, false) => refused(&bytes, 9),
                        (true, true) => {
                            let mut reader = Reader::new(&bytes);
                            reader.next_record();
                            assert_eq!(reader.place(), whole);
                        }
                    }
                    for cut in [5, 6, 7, whole - 1] {
                        refused(&bytes[..cut], 6);
                    }
                }
            }
            for kind in 0..=255 {
                let bytes = some_record(&mut random, length, 1, kind, whole);
                if kind != own_kind {
                    refused(&bytes, 9);
                }
            }
        }
    }

    /// The same from the list of refusals, in whole numbers; the number, and where the record ends.
    fn by_rule(capture: &[u8], place: u128) -> (u32, u128) {
        let all = capture.len() as u128;
        let byte = |n: u128| u128::from(capture[(place + n) as usize]);
        let left = all.saturating_sub(place);
        if left == 0 {
            return (0, place);
        }
        if left < 4 {
            return (6, place);
        }
        let length = byte(0) * 0x100_0000 + byte(1) * 0x1_0000 + byte(2) * 0x100 + byte(3);
        if length != 14 && length != 6_150 {
            return (7, place);
        }
        if left - 4 < length {
            return (6, place);
        }
        let refusals = [
            (8, byte(4) != 1),
            (9, byte(5) != if length == 14 { 0 } else { 1 }),
        ];
        match refusals.iter().find(|(_, applies)| *applies) {
            Some(&(number, _)) => (number, place),
            None => (0, place + 4 + length),
        }
    }

    #[test]
    fn arbitrary_captures_follow_the_rule() {
        let mut random = Xorshift::new(57);
        let symbols = random_symbols(&mut random);
        let mut seen = [0; 10];
        let mut whole = [0; 2];
        for _ in 0..4_000 {
            let mut capture = Vec::new();
            for _ in 0..1 + random.below(3) {
                let start = capture.len();
                if random.below(3) > 0 {
                    let [start, asked, allowed] = [(); 3].map(|()| random.next_u64() as u32);
                    capture.extend(order_record(Order {
                        start,
                        asked,
                        allowed,
                    }));
                } else {
                    capture.extend(frame_record(random.next_u64() as u32, &symbols));
                }
                // Mostly in the first six bytes, where it tells.
                if random.below(4) == 0 {
                    let places = [6, 6, 6, capture.len() - start][random.below(4) as usize];
                    let place = start + random.below(places as u64) as usize;
                    capture[place] =
                        [0, 1, 2, 6, 14, random.next_u64() as u8][random.below(6) as usize];
                }
            }
            if random.below(3) == 0 {
                let cut = [8, 30, capture.len() as u64][random.below(3) as usize];
                capture.truncate(capture.len().saturating_sub(random.below(cut) as usize));
            }
            let mut reader = Reader::new(&capture);
            loop {
                let place = reader.place();
                let (number, next) = by_rule(&capture, place as u128);
                let answer = reader.next_record();
                assert_eq!(reader.place() as u128, next);
                match answer {
                    Answer::End => assert!(number == 0 && next == place as u128),
                    Answer::Refused(refusal) => assert_eq!(refusal, number),
                    Answer::Order(order) => {
                        assert_eq!(order_record(order), capture[place..reader.place()]);
                        whole[0] += 1;
                        continue;
                    }
                    Answer::Frame { number, symbols } => {
                        assert_eq!(
                            frame_record(number, symbols),
                            capture[place..reader.place()]
                        );
                        whole[1] += 1;
                        continue;
                    }
                }
                seen[number as usize] += 1;
                break;
            }
        }
        for number in [0, 6, 7, 8, 9] {
            assert!(seen[number] > 50, "{seen:?}");
        }
        assert!(whole.iter().all(|&count| count > 1_000), "{whole:?}");
    }

    #[test]
    fn a_record_in_numbers() {
        let mut random = Xorshift::new(88);
        let symbols = random_symbols(&mut random);
        let capture = [&ORDER_BYTES[..], &FRAME_START, &symbols, &[0, 0, 0]].concat();
        let order = Record {
            kind: 1,
            number: 0x0102_0304,
            asked: 0x8596_A7B8,
            allowed: 0xF0E1_D2C3,
            next: 18,
            ..Record::default()
        };
        assert_eq!(read(&capture, 0), order);
        let frame = Record {
            kind: 2,
            number: NUMBER,
            symbols: 28,
            next: 18 + 6_154,
            ..Record::default()
        };
        assert_eq!(read(&capture, 18), frame);
        assert!(capture[28..][..6_144] == symbols);
        // Neither a refusal nor the end moves the place.
        let stays = |refusal, next| Record {
            refusal,
            next,
            ..Record::default()
        };
        for (place, refusal) in [(1, 7), (17, 7), (6_172, 6), (6_174, 6)] {
            assert_eq!(read(&capture, place), stays(refusal, place));
        }
        for place in [6_175, 6_176, 1 << 32, usize::MAX - 3, usize::MAX] {
            assert_eq!(read(&capture, place), stays(0, place));
        }
        for (at, refusal) in [(4, 8), (5, 9)] {
            let mut spoilt = capture.clone();
            spoilt[18 + at] = 2;
            assert_eq!(read(&spoilt, 18), stays(refusal, 18));
            assert_eq!(read(&spoilt[..6_171], 18), stays(6, 18));
        }
        assert_eq!(read(&[], 0), Record::default());
    }

    /// Bytes that come one by one until there are as many as are wanted make a record, or tell
    /// that there will be none.
    #[test]
    fn as_much_of_a_record_is_wanted_as_there_is() {
        let mut random = Xorshift::new(89);
        let symbols = random_symbols(&mut random);
        let frame = [&FRAME_START[..], &symbols].concat();
        for (record, whole) in [
            (&ORDER_BYTES[..], 18),
            (&frame, 6_154),
            (&[0, 0, 0, 15, 1], 4),
        ] {
            for count in 0..=record.len() {
                let right = if count < 4 { 4 } else { whole };
                assert_eq!(wanted(&record[..count]), right);
            }
            let mut piece = vec![];
            while piece.len() < wanted(&piece) {
                piece.push(record[piece.len()]);
            }
            let refused = first_answer(&piece) == Answer::Refused(7);
            assert!(piece == record[..whole] && refused == (whole == 4));
        }
    }
}
