//! Writes sample captures, NAME.capture, and the report on each, NAME.report, into a folder.
//!
//! The frames are of a sender's run over random lanes, with flips put in afterwards. Where a record
//! stops the run, a program that skips it and one that takes it would, as far as can be, each print
//! another report.

use second::capture::{frame_record, order_record, Order, FRAME_RECORD, KIND_PLACE, VERSION_PLACE};
use second::lanes::{LANES_BYTES, STORE_BYTES};
use second::run::Run;
use second::send::send;
use second::symbols::{bit_place, FRAME_SYMBOLS, PILOT_COUNT, ROW_SYMBOLS};
use second::word::{FRAME_WORDS, WORD_BITS};
use second::xorshift::Xorshift;
use std::io;
use std::ops::Range;
use std::path::Path;
use std::process::ExitCode;

const SEED: u64 = 0x0014_6150_0006_0011;

/// Where a run's second frame carries fill, as all of the first does: words 0 and 1 of each lane.
const FILL_OF_SECOND: Range<usize> = 0..64;

/// No word with one flip, with two, with three.
const NO_FLIPS: [usize; 3] = [0; 3];

/// A number in this range that was not chosen before; now it is.
fn another(random: &mut Xorshift, from: &Range<usize>, chosen: &mut Vec<usize>) -> usize {
    loop {
        let number = from.start + random.below(from.len() as u64) as usize;
        if !chosen.contains(&number) {
            chosen.push(number);
            return number;
        }
    }
}

/// A capture in the making, and the sender's run that its frames are of.
struct Sample {
    random: Xorshift,
    store: Vec<u8>,
    /// Of the last order.
    start: u32,
    capture: Vec<u8>,
}

impl Sample {
    fn new(number: u64) -> Self {
        Sample {
            random: Xorshift::new(SEED.wrapping_mul(number)),
            store: vec![0; STORE_BYTES],
            start: 0,
            capture: vec![],
        }
    }

    fn order(&mut self, start: u32, asked: u32, allowed: u32) {
        self.start = start;
        self.capture.extend(order_record(Order {
            start,
            asked,
            allowed,
        }));
    }

    fn sent(&mut self) -> [u8; FRAME_SYMBOLS] {
        let mut lanes = [0; LANES_BYTES];
        lanes.fill_with(|| self.random.next_u64() as u8);
        let mut symbols = [0; FRAME_SYMBOLS];
        assert_eq!(send(&lanes, &mut self.store, &mut symbols), 0);
        symbols
    }

    /// The next frame of the run with so many wrong pilots, and so many words with one flip, with
    /// two and with three: of the second frame tallied ones. Gives the place of its record.
    fn frame(&mut self, number: u32, wrong_pilots: usize, hit: [usize; 3]) -> usize {
        let words = match number.wrapping_sub(self.start) {
            1 => FILL_OF_SECOND.end..FRAME_WORDS,
            _ => 0..FRAME_WORDS,
        };
        self.frame_hit_in(words, number, wrong_pilots, hit)
    }

    /// The same with hits among these words.
    fn frame_hit_in(
        &mut self,
        hit_in: Range<usize>,
        number: u32,
        wrong_pilots: usize,
        hit: [usize; 3],
    ) -> usize {
        let mut symbols = self.sent();
        let random = &mut self.random;
        let mut pilots = vec![];
        for _ in 0..wrong_pilots {
            let pilot = another(random, &(0..PILOT_COUNT), &mut pilots);
            symbols[ROW_SYMBOLS * pilot] ^= 1 + random.below(255) as u8;
        }
        // Three flips come last: one word more of them leaves all others as they are.
        let mut words = vec![];
        for (count, flips) in hit.into_iter().zip(1..) {
            for _ in 0..count {
                let word = another(random, &hit_in, &mut words);
                let mut bits = vec![];
                for _ in 0..flips {
                    let bit = another(random, &(0..usize::from(WORD_BITS)), &mut bits);
                    let (symbol, bit) = bit_place(word / 32, word % 32, bit);
                    symbols[symbol] ^= bit;
                }
            }
        }
        let place = self.capture.len();
        self.capture.extend(frame_record(number, &symbols));
        place
    }

    /// The next frame of the run is sent but not captured.
    fn leave_out(&mut self) {
        self.sent();
    }
}

/// Three frames, the second with as many wrong pilots as there may be with lock; three flagged
/// words are allowed, and so many come in the last frame beside the one of the second. That of the
/// first is fill.
fn measured(sample: &mut Sample, flagged: usize) {
    sample.order(1_000, 3, 3);
    sample.frame(1_000, 0, [30, 20, 1]);
    sample.frame(1_001, 24, [5, 7, 1]);
    sample.frame(1_002, 0, [11, 3, flagged]);
}

type Make = fn(&mut Sample);

/// Name, number of the seed, and how it is made. `pass` and `fail` have the same seed, so that they
/// differ in one word only.
const SAMPLES: [(&str, u64, Make); 30] = [
    ("pass", 1, |sample| measured(sample, 2)),
    ("fail", 1, |sample| measured(sample, 3)),
    ("gap", 2, |sample| {
        sample.order(20, 3, 5);
        sample.frame(20, 0, [2, 1, 0]);
        sample.leave_out();
        sample.frame(22, 0, [0, 3, 1]);
    }),
    // One byte is missing.
    ("cut", 3, |sample| {
        sample.order(30, 3, 5);
        sample.frame(30, 0, [1, 0, 0]);
        sample.frame(31, 0, [0, 1, 0]);
        sample.frame(32, 0, [0, 0, 1]);
        sample.capture.pop();
    }),
    ("no_lock", 4, |sample| {
        sample.order(40, 3, 5);
        sample.frame(40, 0, [4, 0, 0]);
        sample.frame(41, 25, [9, 9, 9]);
        sample.frame(42, 0, [0, 6, 2]);
    }),
    ("lone_order", 5, |sample| sample.order(0, 1, 0)),
    ("refusal_6", 6, |sample| {
        sample.order(60, 1, 0);
        sample.capture.extend([0, 0]);
    }),
    ("refusal_7", 7, |sample| {
        sample.order(70, 2, 0);
        sample.frame(70, 0, NO_FLIPS);
        sample.frame(71, 0, [3, 2, 0]);
        sample.capture.extend([0, 0, 0, 15, 1, 0]);
        sample.capture.extend([0; 13]);
    }),
    ("refusal_8", 8, |sample| {
        sample.order(80, 2, 0);
        sample.frame(80, 0, NO_FLIPS);
        sample.frame(81, 0, [1, 5, 0]);
        let place = sample.frame(82, 0, NO_FLIPS);
        sample.capture[place + VERSION_PLACE] = 2;
    }),
    // It comes first: taken as an order, it would be the one that is printed.
    ("refusal_9", 9, |sample| {
        sample.order(90, 7, 0);
        sample.capture[KIND_PLACE] = 1;
        sample.order(90, 2, 0);
        sample.frame(90, 0, NO_FLIPS);
        sample.frame(91, 0, NO_FLIPS);
    }),
    ("refusal_9_kind_2", 10, |sample| {
        sample.order(100, 2, 1);
        sample.frame(100, 0, NO_FLIPS);
        sample.frame(101, 0, [0, 8, 1]);
        let place = sample.frame(102, 0, NO_FLIPS);
        sample.capture[place + KIND_PLACE] = 2;
    }),
    ("refusal_10", 11, |sample| {
        sample.order(110, 2, 0);
        sample.frame(110, 0, NO_FLIPS);
        sample.frame(111, 0, [7, 0, 0]);
        sample.frame(109, 0, NO_FLIPS);
    }),
    // The first gap is as long as it may be. The last frame is the one expected.
    ("refusal_11", 12, |sample| {
        sample.order(120, 2, 0);
        sample.frame(1_000_120, 0, [1, 1, 0]);
        sample.frame(1_000_122, 0, NO_FLIPS);
        sample.frame(1_000_121, 0, NO_FLIPS);
    }),
    ("late_no_lock", 13, |sample| {
        sample.order(130, 2, 0);
        sample.frame(130, 0, NO_FLIPS);
        sample.frame(131, 0, [2, 2, 0]);
        sample.frame(131, 25, NO_FLIPS);
    }),
    ("wrap", 14, |sample| {
        sample.order(4_294_967_294, 3, 1);
        sample.frame(4_294_967_294, 0, [10, 0, 0]);
        sample.frame(4_294_967_295, 0, [0, 10, 0]);
        sample.frame(0, 0, [0, 0, 1]);
    }),
    // The same record twice, then the frame expected.
    ("twice", 15, |sample| {
        sample.order(150, 3, 0);
        sample.frame(150, 0, NO_FLIPS);
        let place = sample.frame(151, 0, [6, 1, 0]);
        let whole = place..place + FRAME_RECORD;
        sample.capture.extend_from_within(whole);
        sample.frame(152, 0, NO_FLIPS);
    }),
    ("order_of_0", 16, |sample| sample.order(160, 0, 0)),
    ("order_of_0_with_frame", 17, |sample| {
        sample.order(170, 0, 0);
        sample.frame(170, 0, [1, 0, 0]);
    }),
    ("empty", 18, |_| {}),
    // With its frames the second order alone would pass.
    ("second_order", 19, |sample| {
        sample.order(190, 2, 4);
        sample.frame(190, 0, NO_FLIPS);
        sample.frame(191, 0, [0, 0, 4]);
        sample.order(192, 2, 9);
        sample.frame(192, 0, NO_FLIPS);
        sample.frame(193, 0, NO_FLIPS);
    }),
    ("trailing", 20, |sample| {
        sample.order(200, 2, 1);
        sample.frame(200, 0, [0, 2, 0]);
        sample.frame(201, 0, [2, 0, 1]);
        sample.capture.extend([0, 0, 0]);
    }),
    // Without its first frame it would pass.
    ("frame_first", 21, |sample| {
        sample.frame(0, 0, [1, 1, 1]);
        sample.order(0, 2, 0);
        sample.frame(0, 0, NO_FLIPS);
        sample.frame(1, 0, NO_FLIPS);
    }),
    ("one_more", 22, |sample| {
        sample.order(220, 2, 9);
        sample.frame(220, 0, [3, 0, 0]);
        sample.frame(221, 0, [0, 3, 0]);
        sample.frame(222, 0, [0, 0, 3]);
    }),
    ("one_less", 23, |sample| {
        sample.order(230, 3, 9);
        sample.frame(230, 0, [5, 0, 0]);
        sample.frame(231, 0, [0, 5, 5]);
    }),
    ("order_above_limit", 24, |sample| {
        sample.order(240, 1_000_001, 0);
        sample.frame(240, 0, [0, 4, 0]);
    }),
    ("last_lost", 25, |sample| {
        sample.order(250, 2, 0);
        sample.frame(250, 0, [8, 0, 0]);
        sample.frame(251, 24, [0, 8, 0]);
        sample.frame(252, 25, NO_FLIPS);
    }),
    // All fill, and so nothing is measured.
    ("order_of_1", 26, |sample| {
        sample.order(260, 1, 0);
        sample.frame(260, 0, NO_FLIPS);
    }),
    // The second number of the run is behind the end.
    ("order_of_2", 27, |sample| {
        sample.order(4_294_967_295, 2, 0);
        sample.frame(4_294_967_295, 0, NO_FLIPS);
        sample.frame(0, 0, [4, 3, 0]);
    }),
    // Tallied with the others, it would fail.
    ("fill_flagged", 28, |sample| {
        sample.order(280, 3, 0);
        sample.frame(280, 0, [9, 8, 20]);
        sample.frame_hit_in(FILL_OF_SECOND, 281, 0, [7, 6, 10]);
        sample.frame(282, 0, [5, 4, 0]);
    }),
    // The second number tallies 320 words, though it is the first frame accepted.
    ("first_lost", 29, |sample| {
        sample.order(290, 2, 9);
        sample.frame(290, 25, NO_FLIPS);
        sample.frame(291, 0, [3, 1, 2]);
        sample.frame(292, 0, [1, 4, 1]);
    }),
];

fn capture(number: u64, make: Make) -> Vec<u8> {
    let mut sample = Sample::new(number);
    make(&mut sample);
    sample.capture
}

fn write(folder: &Path) -> io::Result<()> {
    std::fs::create_dir_all(folder)?;
    for (name, number, make) in SAMPLES {
        let capture = capture(number, make);
        let report = Run::of(&capture).report();
        std::fs::write(folder.join(format!("{name}.capture")), capture)?;
        std::fs::write(folder.join(format!("{name}.report")), report)?;
    }
    Ok(())
}

fn main() -> ExitCode {
    let mut arguments = std::env::args_os().skip(1);
    let (Some(folder), None) = (arguments.next(), arguments.next()) else {
        eprintln!("usage: samples folder");
        return ExitCode::from(2);
    };
    match write(Path::new(&folder)) {
        Ok(()) => ExitCode::SUCCESS,
        Err(error) => {
            eprintln!("samples: {error}");
            ExitCode::FAILURE
        }
    }
}

#[cfg(test)]
mod tests {
    use super::*;
    use second::receive::receive;
    use second::run::Stop;

    /// A frame's record, an order's, and what `refusal_7` has behind the frame.
    const F: usize = 6_154;
    const O: usize = 18;
    const LONG: usize = 19;

    const NOT_MEASURED: &str = "NOT MEASURED";

    /// By hand, from the lists above: the bytes; asked, accepted, missing, clean, one, two and
    /// flagged; the verdict; and what stops the run.
    type Expected = (&'static str, usize, [u32; 7], &'static str, Option<Stop>);

    #[rustfmt::skip]
    const EXPECTED: [Expected; 30] = [
        ("pass", O + 3 * F, [3, 3, 0, 675, 16, 10, 3], "PASS", None),
        ("fail", O + 3 * F, [3, 3, 0, 674, 16, 10, 4], "FAIL", None),
        ("gap", O + 2 * F, [3, 2, 1, 380, 0, 3, 1], NOT_MEASURED, None),
        ("cut", O + 3 * F - 1, [3, 2, 0, 319, 0, 1, 0], NOT_MEASURED, Some(Stop::Refused(6))),
        ("no_lock", O + 3 * F, [3, 2, 1, 376, 0, 6, 2], NOT_MEASURED, None),
        ("lone_order", O, [1, 0, 0, 0, 0, 0, 0], NOT_MEASURED, None),
        ("refusal_6", O + 2, [1, 0, 0, 0, 0, 0, 0], NOT_MEASURED, Some(Stop::Refused(6))),
        ("refusal_7", O + 2 * F + LONG, [2, 2, 0, 315, 3, 2, 0], NOT_MEASURED, Some(Stop::Refused(7))),
        ("refusal_8", O + 3 * F, [2, 2, 0, 314, 1, 5, 0], NOT_MEASURED, Some(Stop::Refused(8))),
        ("refusal_9", 2 * O + 2 * F, [0, 0, 0, 0, 0, 0, 0], NOT_MEASURED, Some(Stop::Refused(9))),
        ("refusal_9_kind_2", O + 3 * F, [2, 2, 0, 311, 0, 8, 1], NOT_MEASURED, Some(Stop::Refused(9))),
        ("refusal_10", O + 3 * F, [2, 2, 0, 313, 7, 0, 0], NOT_MEASURED, Some(Stop::Refused(10))),
        ("refusal_11", O + 3 * F, [2, 1, 1_000_000, 382, 1, 1, 0], NOT_MEASURED, Some(Stop::Refused(11))),
        ("late_no_lock", O + 3 * F, [2, 2, 0, 316, 2, 2, 0], NOT_MEASURED, Some(Stop::Refused(10))),
        ("wrap", O + 3 * F, [3, 3, 0, 693, 0, 10, 1], "PASS", None),
        ("twice", O + 4 * F, [3, 2, 0, 313, 6, 1, 0], NOT_MEASURED, Some(Stop::Refused(10))),
        ("order_of_0", O, [0, 0, 0, 0, 0, 0, 0], NOT_MEASURED, None),
        ("order_of_0_with_frame", O + F, [0, 1, 0, 0, 0, 0, 0], NOT_MEASURED, None),
        ("empty", 0, [0, 0, 0, 0, 0, 0, 0], NOT_MEASURED, None),
        ("second_order", 2 * O + 4 * F, [2, 2, 0, 316, 0, 0, 4], NOT_MEASURED, Some(Stop::SecondOrder)),
        ("trailing", O + 2 * F + 3, [2, 2, 0, 317, 2, 0, 1], NOT_MEASURED, Some(Stop::Refused(6))),
        ("frame_first", O + 3 * F, [0, 0, 0, 0, 0, 0, 0], NOT_MEASURED, Some(Stop::NoOrder)),
        ("one_more", O + 3 * F, [2, 3, 0, 698, 0, 3, 3], NOT_MEASURED, None),
        ("one_less", O + 2 * F, [3, 2, 0, 310, 0, 5, 5], NOT_MEASURED, None),
        ("order_above_limit", O + F, [1_000_001, 1, 0, 0, 0, 0, 0], NOT_MEASURED, None),
        ("last_lost", O + 3 * F, [2, 2, 1, 312, 0, 8, 0], NOT_MEASURED, None),
        ("order_of_1", O + F, [1, 1, 0, 0, 0, 0, 0], NOT_MEASURED, None),
        ("order_of_2", O + 2 * F, [2, 2, 0, 313, 4, 3, 0], "PASS", None),
        ("fill_flagged", O + 3 * F, [3, 3, 0, 695, 5, 4, 0], "PASS", None),
        ("first_lost", O + 3 * F, [2, 2, 1, 692, 4, 5, 3], NOT_MEASURED, None),
    ];

    #[test]
    fn every_sample_gives_the_figures_of_the_scope() {
        for ((name, number, make), expected) in SAMPLES.into_iter().zip(EXPECTED) {
            let capture = capture(number, make);
            let (expected_name, length, numbers, verdict, stop) = expected;
            assert_eq!((name, capture.len()), (expected_name, length));
            let [asked, accepted, missing, clean, one, two, flagged] = numbers;
            let (total, words) = (clean + one + two + flagged, 384 * accepted);
            assert!(total <= words && words <= total + 448, "{name}");
            if missing == 0 && accepted >= 2 {
                assert_eq!(total + 448, words, "{name}");
            }
            let text = [
                format!("asked {asked}\naccepted {accepted}\nmissing {missing}\n"),
                format!("clean {clean}\none {one}\ntwo {two}\nflagged {flagged}\n"),
                format!("verdict {verdict}\n"),
            ];
            let run = Run::of(&capture);
            assert_eq!(run.report(), text.concat(), "{name}");
            assert_eq!(run.stop, stop, "{name}");
            let mut read = Run::new();
            assert!(read.follow(&capture[..]).is_ok());
            assert!(read == run, "{name}");
        }
    }

    #[test]
    fn samples_are_always_the_same() {
        for (_, number, make) in SAMPLES {
            assert!(capture(number, make) == capture(number, make));
        }
    }

    #[test]
    fn pass_and_fail_differ_in_three_bits() {
        let [pass, fail] = [SAMPLES[0], SAMPLES[1]].map(|(_, number, make)| capture(number, make));
        assert_eq!(pass.len(), fail.len());
        let bits = pass.iter().zip(&fail).map(|(a, b)| (a ^ b).count_ones());
        assert_eq!(bits.sum::<u32>(), 3);
    }

    fn named(wanted: &str) -> Vec<u8> {
        let mut found = SAMPLES.into_iter().filter(|(name, ..)| *name == wanted);
        let (_, number, make) = found.next().expect("a sample of that name");
        capture(number, make)
    }

    /// How many words are flagged of each frame behind the order, and of its words from 64 on.
    fn flagged(capture: &[u8]) -> Vec<[usize; 2]> {
        let records = capture[O..].chunks(F);
        records
            .map(|record| {
                let mut flags = [0; FRAME_WORDS];
                let mut lanes = [0; LANES_BYTES];
                let symbols = &record[F - FRAME_SYMBOLS..];
                assert_eq!(
                    receive(symbols, &mut [0; STORE_BYTES], &mut lanes, &mut flags),
                    0
                );
                [0, 64].map(|from| flags[from..].iter().filter(|&&flag| flag == 3).count())
            })
            .collect()
    }

    #[test]
    fn where_words_are_flagged() {
        let [all, beyond] = [0, 1].map(|which| {
            move |name| -> Vec<usize> {
                let frames = flagged(&named(name));
                frames.into_iter().map(|counts| counts[which]).collect()
            }
        });
        assert_eq!(all("pass"), [1, 1, 2]);
        assert_eq!(all("fail"), [1, 1, 3]);
        for name in ["pass", "fail"] {
            assert_eq!(beyond(name)[1], 1);
        }
        assert_eq!(all("order_of_1"), [0]);
        assert_eq!(all("fill_flagged"), [20, 10, 0]);
        assert_eq!(beyond("fill_flagged")[1], 0);
    }

    /// Without the bytes told, and with all that follows them, these would pass.
    #[test]
    fn a_program_that_skips_what_spoils_a_run_would_pass_it() {
        for (name, spoils) in [
            ("refusal_7", O + 2 * F..O + 2 * F + LONG),
            ("refusal_8", O + 2 * F..O + 3 * F),
            ("refusal_9", 0..O),
            ("refusal_9_kind_2", O + 2 * F..O + 3 * F),
            ("refusal_10", O + 2 * F..O + 3 * F),
            ("late_no_lock", O + 2 * F..O + 3 * F),
            ("twice", O + 2 * F..O + 3 * F),
            ("second_order", 0..O + 2 * F),
            ("trailing", O + 2 * F..O + 2 * F + 3),
            ("frame_first", 0..F),
            ("one_more", O + 2 * F..O + 3 * F),
            ("last_lost", O + 2 * F..O + 3 * F),
        ] {
            let mut capture = named(name);
            capture.drain(spoils);
            let report = Run::of(&capture).report();
            assert!(report.ends_with("\nverdict PASS\n"), "{name}");
        }
    }
}
