//! Compares the reports of a program, byte for byte, with those of the run over many seeded
//! captures, each given to the program on its standard input.
//!
//! About half of the captures are undisturbed, with an allowance near the flagged words that are
//! tallied; fill is often flagged too. Some orders are for one frame, which is never measured.
//! The others have one or two disturbances: in the numbers, the frames, the records or the end. Now
//! and then one is of random bytes.

use second::account::{fill_words, FAIL, NOT_MEASURED, PASS};
use second::capture::{
    frame_record, order_record, Answer, Order, Reader, FRAME_RECORD, KIND_PLACE, LENGTH_BYTES,
    ORDER_RECORD, VERSION_PLACE,
};
use second::lanes::{LANES_BYTES, STORE_BYTES};
use second::receive::receive;
use second::run::{Run, Stop};
use second::send::send;
use second::symbols::{bit_place, FRAME_SYMBOLS, NO_LOCK, PILOT_COUNT, ROW_SYMBOLS};
use second::word::{FRAME_WORDS, WORD_BITS};
use second::xorshift::Xorshift;
use std::ffi::OsString;
use std::io::{self, ErrorKind, Read, Write};
use std::process::{Command, ExitCode, Stdio};
use std::{env, fs, thread};

/// Odd, so that no two captures have the same seed.
const SEED: u64 = 0x6154_0018_0006_0B0B;
const POOL_SEED: u64 = 0x0384_6144_0024_0025;

/// No more frames in a capture, so that many captures take little time.
const MOST_FRAMES: usize = 5;

/// From so many captures on, every verdict and every stop must have occurred.
const ENOUGH: u64 = 1_000;

/// Longer than any report: of a program that writes without end no more is read.
const REPORT_LIMIT: u64 = 4_096;

/// Where a frame's number stands in a record.
const NUMBER_PLACE: usize = LENGTH_BYTES + 2;

type Records = Vec<Vec<u8>>;

fn below(random: &mut Xorshift, limit: usize) -> usize {
    random.below(limit as u64) as usize
}

struct Frame {
    symbols: [u8; FRAME_SYMBOLS],
    flags: [u8; FRAME_WORDS],
}

/// How many of these words are flagged.
fn flagged(flags: &[u8]) -> u32 {
    flags.iter().filter(|&&flag| flag == 3).count() as u32
}

/// Frames made once: sending one for each place of each capture would take most of the time.
struct Pool {
    locked: Vec<Frame>,
    lost: Vec<Frame>,
}

impl Pool {
    fn new() -> Self {
        let mut random = Xorshift::new(POOL_SEED);
        let mut store = [0; STORE_BYTES];
        let mut frames = |count: usize, wrong_pilots: &[usize]| {
            (0..count)
                .map(|n| {
                    let pilots = wrong_pilots[n / 5 % wrong_pilots.len()];
                    frame(&mut random, &mut store, n % 5, pilots)
                })
                .collect()
        };
        Pool {
            locked: frames(40, &[0, NO_LOCK - 1, 0, 1]),
            lost: frames(15, &[NO_LOCK, NO_LOCK + 1, PILOT_COUNT]),
        }
    }
}

/// The next frame of a sender's run: clean, or up to two flips in some words, or up to six in a few
/// words, or up to six in every word, or in those about the first that a run's second frame tallies.
fn frame(random: &mut Xorshift, store: &mut [u8], damage: usize, wrong_pilots: usize) -> Frame {
    let lanes = random.bytes(LANES_BYTES);
    let mut symbols = [0; FRAME_SYMBOLS];
    assert_eq!(send(&lanes, store, &mut symbols), 0);
    let (within, words, most) = [
        (0..FRAME_WORDS, 0, 0),
        (0..FRAME_WORDS, 50, 2),
        (0..FRAME_WORDS, 5, 6),
        (0..FRAME_WORDS, FRAME_WORDS, 6),
        (56..72, 16, 6),
    ][damage]
        .clone();
    for word in random.choose(within.len(), words) {
        let word = within.start + word;
        let flips = below(random, most + 1);
        for number in random.choose(usize::from(WORD_BITS), flips) {
            let (symbol, bit) = bit_place(word / 32, word % 32, number);
            symbols[symbol] ^= bit;
        }
    }
    for pilot in random.choose(PILOT_COUNT, wrong_pilots) {
        symbols[ROW_SYMBOLS * pilot] ^= 1 + random.below(255) as u8;
    }
    let mut flags = [0; FRAME_WORDS];
    let mut lanes = [0; LANES_BYTES];
    let refusal = receive(&symbols, &mut [0; STORE_BYTES], &mut lanes, &mut flags);
    assert_eq!(refusal, if wrong_pilots < NO_LOCK { 0 } else { 5 });
    Frame { symbols, flags }
}

fn seed(number: u64) -> u64 {
    SEED.wrapping_mul(number)
}

fn capture(number: u64, pool: &Pool) -> Vec<u8> {
    let mut random = Xorshift::new(seed(number));
    let random = &mut random;
    if random.below(32) == 0 {
        return noise(random);
    }
    let start = random_start(random);
    let count = random.pick(&[0, 1, 1, 2, 2, 2, 2, 2, 3, 3, 3, 3, 4, 4, 4, 4]);
    let asked = if random.below(16) == 0 {
        let any = random.next_u64() as u32 | 1 << 20;
        random.pick(&[1_000_001, 1 << 31, u32::MAX, any])
    } else {
        count
    };
    let mut records = vec![vec![]];
    let mut tallied = 0;
    for n in 0..count {
        let frame = &pool.locked[below(random, pool.locked.len())];
        tallied += flagged(&frame.flags[fill_words(0, n)..]);
        records.push(frame_record(start.wrapping_add(n), &frame.symbols));
    }
    // Near the flagged words that are tallied, since there the verdict turns.
    let small = random.below(4) as u32;
    let near = [tallied.saturating_sub(1), tallied, tallied + 1];
    let allowed = match random.below(16) {
        0 => u32::MAX,
        1..=5 => small,
        _ => random.pick(&near),
    };
    records[0] = order_record(Order {
        start,
        asked,
        allowed,
    });
    let disturbances = match random.below(16) {
        0..=7 => 0,
        8..=12 => 1,
        _ => 2,
    };
    for _ in 0..disturbances {
        disturb(random, pool, start, &mut records);
    }
    records.concat()
}

/// Often where numbers run round or change their sign.
fn random_start(random: &mut Xorshift) -> u32 {
    let any = random.next_u64() as u32;
    let near = random.pick(&[0, 1 << 31, u32::MAX, any]);
    near.wrapping_add(random.below(9) as u32).wrapping_sub(4)
}

/// Random bytes, but often with a lawful length first: else nearly all would stop by 7.
fn noise(random: &mut Xorshift) -> Vec<u8> {
    let most = random.pick(&[8, 40, 3 * FRAME_RECORD]);
    let length = below(random, most);
    let mut bytes = random.bytes(length);
    let lawful = random.pick(&[ORDER_RECORD, FRAME_RECORD]);
    let mut first = ((lawful - LENGTH_BYTES) as u32).to_be_bytes().to_vec();
    first.extend([random.below(3) as u8, random.below(3) as u8]);
    let kept = random.pick(&[0, LENGTH_BYTES, VERSION_PLACE + 1, KIND_PLACE + 1]);
    for (byte, first) in bytes.iter_mut().zip(first).take(kept) {
        *byte = first;
    }
    bytes
}

fn number_of(record: &[u8]) -> u32 {
    let bytes = &record[NUMBER_PLACE..NUMBER_PLACE + 4];
    u32::from_be_bytes(bytes.try_into().expect("four bytes"))
}

fn put_number(record: &mut [u8], number: u32) {
    record[NUMBER_PLACE..NUMBER_PLACE + 4].copy_from_slice(&number.to_be_bytes());
}

fn disturb(random: &mut Xorshift, pool: &Pool, start: u32, records: &mut Records) {
    let frames: Vec<usize> = (0..records.len())
        .filter(|&place| records[place].len() == FRAME_RECORD)
        .collect();
    let room = frames.len() < MOST_FRAMES;
    let lost = &pool.lost[below(random, pool.lost.len())].symbols;
    let locked = &pool.locked[below(random, pool.locked.len())].symbols;
    // Of no use where there is no frame.
    let chosen = below(random, frames.len().max(1));
    match (random.below(14), &frames[..]) {
        // A gap, at times before a frame without lock, which counts one more.
        (0, [_, ..]) => {
            let half = 1 << 31;
            let gaps = [1, half - 1, half, 999_999, 1_000_000, 1_000_001];
            let gap = random.pick(&gaps);
            for &place in &frames[chosen..] {
                let number = number_of(&records[place]).wrapping_add(gap);
                put_number(&mut records[place], number);
            }
            if random.below(4) == 0 {
                records[frames[chosen]] = frame_record(number_of(&records[frames[chosen]]), lost);
            }
        }
        // The same record twice, or the same number in place of the next.
        (1, [_, ..]) => {
            let place = frames[chosen];
            let number = number_of(&records[place]);
            match frames.get(chosen + 1) {
                Some(&next) if random.below(2) == 0 => put_number(&mut records[next], number),
                _ if room => records.insert(place + 1, records[place].clone()),
                _ => (),
            }
        }
        (2, [_, _, ..]) => {
            let pair = random.choose(frames.len(), 2);
            records.swap(frames[pair[0]], frames[pair[1]]);
        }
        (3, _) if room => {
            let number = match frames.last() {
                Some(&last) => number_of(&records[last]).wrapping_add(1),
                None => start,
            };
            records.push(frame_record(number, locked));
        }
        (4, [.., last]) => {
            records.remove(*last);
        }
        (5, [_, ..]) => {
            let place = frames[chosen];
            records[place] = frame_record(number_of(&records[place]), lost);
        }
        // The first order again, or another.
        (6, _) => {
            let other = order_record(Order {
                start: random_start(random),
                asked: random.below(5) as u32,
                allowed: random.below(4) as u32,
            });
            let order = match records.first() {
                Some(first) if first.len() == ORDER_RECORD && random.below(2) == 0 => first.clone(),
                _ => other,
            };
            let place = below(random, records.len() + 1);
            records.insert(place, order);
        }
        (kind @ 7..=9, _) if !records.is_empty() => {
            let place = below(random, records.len());
            spoil_head(random, &mut records[place], kind);
        }
        (10, _) if room => records.insert(0, frame_record(start, locked)),
        (11, _) if !records.is_empty() => {
            records.remove(0);
        }
        // The beginning of a record, or any bytes.
        (12, _) => {
            let length = 1 + below(random, 5);
            let trailing = match random.below(4) {
                0 => vec![0; length],
                1 => order_record(Order {
                    start,
                    asked: 1,
                    allowed: 0,
                }),
                2 => frame_record(start, locked),
                _ => random.bytes(length),
            };
            records.push(trailing[..length].to_vec());
        }
        _ => cut(random, records),
    }
}

/// Changes the version, the kind or the length, where the record is long enough to have one.
fn spoil_head(random: &mut Xorshift, record: &mut [u8], which: u64) {
    let any = random.next_u64();
    match which {
        7 if record.len() > VERSION_PLACE => {
            record[VERSION_PLACE] = random.pick(&[0, 2, 0x81, 0xFF, any as u8]);
        }
        8 if record.len() > KIND_PLACE => {
            let other = record[KIND_PLACE] ^ 1;
            record[KIND_PLACE] = random.pick(&[other, other, 2, 0xFF, any as u8]);
        }
        9 if record.len() >= LENGTH_BYTES => {
            let right = u32::from_be_bytes(record[..LENGTH_BYTES].try_into().expect("four bytes"));
            let lengths = [
                right.wrapping_sub(1),
                right.wrapping_add(1),
                right.swap_bytes(),
                right | 1 << 16,
                right | 1 << 31,
                (ORDER_RECORD - LENGTH_BYTES) as u32,
                (FRAME_RECORD - LENGTH_BYTES) as u32,
                0,
                u32::MAX,
                any as u32,
            ];
            record[..LENGTH_BYTES].copy_from_slice(&random.pick(&lengths).to_be_bytes());
        }
        _ => (),
    }
}

/// Three times in four within eight bytes of where a record begins or ends.
fn cut(random: &mut Xorshift, records: &mut Records) {
    let whole: usize = records.iter().map(Vec::len).sum();
    let mut left = if random.below(4) == 0 {
        below(random, whole + 1)
    } else {
        let before = below(random, records.len() + 1);
        let boundary: usize = records[..before].iter().map(Vec::len).sum();
        (boundary + below(random, 17)).saturating_sub(8)
    };
    for record in records.iter_mut() {
        record.truncate(left);
        left -= record.len();
    }
    records.retain(|record| !record.is_empty());
}

/// What the program writes with these bytes on its standard input.
fn answer(program: &OsString, arguments: &[OsString], capture: &[u8]) -> io::Result<Vec<u8>> {
    let mut child = Command::new(program)
        .args(arguments)
        .stdin(Stdio::piped())
        .stdout(Stdio::piped())
        .spawn()?;
    let mut input = child.stdin.take().expect("a pipe");
    let output = child.stdout.take().expect("a pipe");
    let mut report = Vec::new();
    thread::scope(|scope| {
        let writing = scope.spawn(move || match input.write_all(capture) {
            // A program that stops early does not read on.
            Err(error) if error.kind() == ErrorKind::BrokenPipe => Ok(()),
            written => written,
        });
        let read = output.take(REPORT_LIMIT).read_to_end(&mut report);
        child.wait()?;
        read?;
        writing.join().expect("writing does not panic")
    })?;
    Ok(report)
}

/// Escaped, so that no byte of a difference stays unseen.
fn print_report(whose: &str, report: &[u8]) {
    eprintln!("{whose}:");
    for line in report.split_inclusive(|&byte| byte == b'\n') {
        eprintln!("  {}", line.escape_ascii());
    }
}

/// Of a capture's frames with lock, fill and all.
fn all_flagged(capture: &[u8]) -> u64 {
    let mut count = 0;
    let mut reader = Reader::new(capture);
    loop {
        match reader.next_record() {
            Answer::Frame { symbols, .. } => {
                // Without lock the flags stay as they are, and none is flagged.
                let mut flags = [0; FRAME_WORDS];
                let mut lanes = [0; LANES_BYTES];
                receive(symbols, &mut [0; STORE_BYTES], &mut lanes, &mut flags);
                count += u64::from(flagged(&flags));
            }
            Answer::Order(_) => (),
            Answer::Refused(_) | Answer::End => return count,
        }
    }
}

/// How the captures ended.
#[derive(Default)]
struct Seen {
    captures: u64,
    accepted: u64,
    verdicts: [u64; 3],
    /// With all frames of an order for one, two or more and nothing else.
    whole: [u64; 3],
    passed_for_fill: u64,
    refusals: [u64; 6],
    second_order: u64,
    no_order: u64,
}

impl Seen {
    fn add(&mut self, run: &Run, capture: &[u8]) {
        self.captures += 1;
        self.accepted += run.account.accepted;
        self.verdicts[run.verdict() as usize] += 1;
        if let (Some(order), None, 0) = (run.order, run.stop, run.account.missing) {
            let asked = u64::from(order.asked);
            if asked > 0 && asked == run.account.accepted {
                self.whole[asked.min(3) as usize - 1] += 1;
            }
            if run.verdict() == PASS && all_flagged(capture) > order.allowed.into() {
                self.passed_for_fill += 1;
            }
        }
        match run.stop {
            None => (),
            Some(Stop::Refused(number @ 6..=11)) => self.refusals[number as usize - 6] += 1,
            Some(Stop::SecondOrder) => self.second_order += 1,
            Some(Stop::NoOrder) => self.no_order += 1,
            Some(stop @ (Stop::Refused(_) | Stop::ReadFailed)) => {
                unreachable!("no capture stops by {stop:?}")
            }
        }
    }

    fn verdicts(&self) -> [(String, u64); 3] {
        [
            ("PASS", PASS),
            ("FAIL", FAIL),
            ("NOT MEASURED", NOT_MEASURED),
        ]
        .map(|(name, verdict)| (name.to_string(), self.verdicts[verdict as usize]))
    }

    fn orders(&self) -> Vec<(String, u64)> {
        let of = ["an order of 1", "an order of 2", "an order of more"];
        let mut orders: Vec<_> = of
            .into_iter()
            .zip(self.whole)
            .map(|(name, count)| (name.to_string(), count))
            .collect();
        let fill = "a PASS with more flagged than allowed, but in fill";
        orders.push((fill.to_string(), self.passed_for_fill));
        orders
    }

    fn stops(&self) -> Vec<(String, u64)> {
        let mut stops: Vec<_> = (6..)
            .zip(self.refusals)
            .map(|(number, count)| (format!("refusal {number}"), count))
            .collect();
        stops.push(("a second order".to_string(), self.second_order));
        stops.push(("no order".to_string(), self.no_order));
        stops
    }

    fn line(&self) -> String {
        let list = |counts: &[(String, u64)]| {
            let texts: Vec<_> = counts
                .iter()
                .map(|(name, count)| format!("{name} {count}"))
                .collect();
            texts.join(", ")
        };
        format!(
            "{} captures, {} frames accepted; {}; whole: {}; stopped by {}",
            self.captures,
            self.accepted,
            list(&self.verdicts()),
            list(&self.orders()),
            list(&self.stops())
        )
    }

    fn never(&self) -> Vec<String> {
        self.verdicts()
            .into_iter()
            .chain(self.orders())
            .chain(self.stops())
            .filter(|&(_, count)| count == 0)
            .map(|(name, _)| name)
            .collect()
    }
}

/// Tells whether all reports were the same and, of enough captures, whether nothing was left out.
fn compare(count: u64, program: &OsString, arguments: &[OsString]) -> io::Result<bool> {
    let pool = Pool::new();
    let mut seen = Seen::default();
    for number in 1..=count {
        let capture = capture(number, &pool);
        let run = Run::of(&capture);
        let right = run.report();
        let given = answer(program, arguments, &capture)?;
        if given != right.as_bytes() {
            let (seed, length) = (seed(number), capture.len());
            eprintln!(
                "captures: capture {number}, seed {seed:016x}, {length} bytes: the reports differ"
            );
            print_report("the program", &given);
            print_report("the run", right.as_bytes());
            let file = env::temp_dir().join(format!("captures_{number}.capture"));
            fs::write(&file, &capture)?;
            eprintln!("captures: the capture is in {}", file.display());
            return Ok(false);
        }
        seen.add(&run, &capture);
        if number % 500 == 0 {
            eprintln!("captures: {number} of {count}");
        }
    }
    writeln!(io::stdout(), "{}", seen.line())?;
    let never = seen.never();
    if count >= ENOUGH && !never.is_empty() {
        eprintln!("captures: never occurred: {}", never.join(", "));
        return Ok(false);
    }
    Ok(true)
}

fn main() -> ExitCode {
    let mut arguments = env::args_os().skip(1);
    let count = arguments
        .next()
        .and_then(|n| n.to_str()?.parse().ok())
        .filter(|&n| n > 0);
    let (Some(count), Some(program)) = (count, arguments.next()) else {
        eprintln!("usage: captures COUNT PROGRAM [ARGUMENT..]");
        return ExitCode::from(2);
    };
    let rest: Vec<_> = arguments.collect();
    match compare(count, &program, &rest) {
        Ok(true) => ExitCode::SUCCESS,
        Ok(false) => ExitCode::FAILURE,
        Err(error) => {
            eprintln!("captures: {error}");
            ExitCode::FAILURE
        }
    }
}

#[cfg(test)]
mod tests {
    use super::*;

    #[test]
    fn enough_captures_leave_nothing_out() {
        let pool = Pool::new();
        let mut seen = Seen::default();
        assert_eq!(seen.never().len(), 15);
        for number in 1..=ENOUGH {
            let capture = capture(number, &pool);
            assert!(capture.len() <= MOST_FRAMES * FRAME_RECORD + 3 * ORDER_RECORD + 10);
            seen.add(&Run::of(&capture), &capture);
        }
        println!("{}", seen.line());
        assert!(seen.never().is_empty(), "{}", seen.line());
        let [(_, pass), (_, fail), _] = seen.verdicts();
        assert!(pass.min(fail) * 10 >= ENOUGH, "{}", seen.line());
        for (name, count) in seen.orders() {
            assert!(count * 40 >= ENOUGH, "{name}: {}", seen.line());
        }
    }

    #[test]
    fn captures_are_always_the_same() {
        let (pool, again) = (Pool::new(), Pool::new());
        for number in 1..100 {
            assert!(capture(number, &pool) == capture(number, &again));
        }
    }

    #[test]
    fn a_program_that_repeats_its_input_or_does_not_read_it() {
        let long = vec![b'a'; 1 << 20];
        let cat = answer(&"cat".into(), &[], &long[..1_000]).expect("cat runs");
        assert!(cat == long[..1_000]);
        let quiet = answer(&"true".into(), &[], &long).expect("true runs");
        assert!(quiet.is_empty());
    }
}
