//! The archive beside this program, in one run: first both make the same calls, then each is timed, whole calls and stage by stage, test traffic and the search
//! for a frame's start among them; at last their programs that examine a capture. `run` links it, and gives it the folder where it finds them.

use second::account::{enter_flags, FILL_WORDS};
use second::capture::{length, Answer, Reader, FRAME_RECORD, LENGTH_BYTES};
use second::hunt::{self, Found, State};
use second::lanes::{deinterleave, interleave, lanes_of_words, permute, words, EXCHANGED, LANES, LANES_BYTES, STORE_BYTES};
use second::receive::receive_with;
use second::run::{examine_verdict, Run};
use second::send::send;
use second::symbols::{bit_place, frame, frame_words, locks, FRAME_SYMBOLS, NO_LOCK, PILOT_COUNT, ROW_SYMBOLS};
use second::traffic;
use second::word::{encode_frame, Decoder, FRAME_WORDS};
use second::xorshift::Xorshift;
use std::fs::File;
use std::hint::black_box;
use std::io::{self, BufWriter, Read, Write};
use std::path::Path;
use std::process::Command;
use std::time::Instant;

type Lanes = [u8; LANES_BYTES];
type Store = [u8; STORE_BYTES];
type Frame = [u8; FRAME_SYMBOLS];
type Words = [u64; 2 * FRAME_WORDS];
type Flags = [u8; FRAME_WORDS];
type Wrong = [u32; LANES];

extern "C" {
    fn lr800_send(
        input: *const u8, input_length: usize, store: *mut u8, store_length: usize, output: *mut u8, output_length: usize,
    ) -> u32;
    fn lr800_receive(
        input: *const u8, input_length: usize, store: *mut u8, store_length: usize, output: *mut u8, output_length: usize, flags: *mut u8,
        flags_length: usize,
    ) -> u32;
    fn lr800_examine_verdict(capture: *const u8, capture_length: usize) -> u32;
    fn lr800_traffic_frame(frame: u32, output: *mut u8, output_length: usize) -> u32;
    fn lr800_traffic_next(state: &mut u32, output: *mut u8, output_length: usize) -> u32;
    fn lr800_traffic_check(frame: u32, lanes: *const u8, lanes_length: usize, wrong: *mut u32, wrong_length: usize) -> u32;
    fn lr800_hunt(run: *const u8, run_length: usize) -> Found;
    fn lr800_hunt_open(state: &mut State);
    fn lr800_hunt_feed(state: &mut State, kept: *mut u8, kept_length: usize, piece: *const u8, piece_length: usize) -> u32;
    fn lr800_hunt_answer(state: State) -> Found;
    // the stages, as `run` exports them
    fn stage_interleave(lanes: &Lanes, store: &mut Store, out: &mut Lanes);
    fn stage_to_words(lanes: &Lanes, words: &mut Words);
    fn stage_encode_frame(words: &mut Words);
    fn stage_frame_from_words(words: &Words, frame: &mut Frame);
    fn stage_locks(frame: *const u8, length: usize) -> u32;
    fn stage_words_from_frame(frame: &Frame, words: &mut Words);
    fn stage_decode_frame(words: &mut Words, flags: &mut Flags);
    fn stage_to_lanes(words: &Words, lanes: &mut Lanes);
    fn stage_deinterleave(lanes: &Lanes, store: &mut Store, out: &mut Lanes);
}

fn archive_send(input: &Lanes, store: &mut Store, output: &mut Frame) -> u32 {
    unsafe { lr800_send(input.as_ptr(), input.len(), store.as_mut_ptr(), store.len(), output.as_mut_ptr(), output.len()) }
}

fn archive_receive(input: &Frame, store: &mut Store, output: &mut Lanes, flags: &mut Flags) -> u32 {
    unsafe {
        lr800_receive(
            input.as_ptr(), input.len(), store.as_mut_ptr(), store.len(), output.as_mut_ptr(), output.len(), flags.as_mut_ptr(), flags.len(),
        )
    }
}

fn archive_frame(number: u32, output: &mut Lanes) -> u32 {
    unsafe { lr800_traffic_frame(number, output.as_mut_ptr(), output.len()) }
}

fn archive_next(state: &mut u32, output: &mut Lanes) -> u32 {
    unsafe { lr800_traffic_next(state, output.as_mut_ptr(), output.len()) }
}

fn archive_check(number: u32, lanes: &Lanes, wrong: &mut Wrong) -> u32 {
    unsafe { lr800_traffic_check(number, lanes.as_ptr(), lanes.len(), wrong.as_mut_ptr(), wrong.len()) }
}

fn archive_hunt(run: &[u8]) -> Found {
    unsafe { lr800_hunt(run.as_ptr(), run.len()) }
}

fn archive_open() -> State {
    let mut state = State { taken: 7, found: 7 };
    unsafe { lr800_hunt_open(&mut state) };
    state
}

fn archive_feed(state: &mut State, kept: &mut Frame, piece: &[u8]) -> u32 {
    unsafe { lr800_hunt_feed(state, kept.as_mut_ptr(), kept.len(), piece.as_ptr(), piece.len()) }
}

fn archive_answer(state: &State) -> Found {
    unsafe { lr800_hunt_answer(*state) }
}

const COMPARED: usize = 300;
const TIMED: usize = 1000;
const ROUNDS: usize = 15;
const HUNTED: usize = 10_000_000;
const HUNT_ROUNDS: usize = 5;
const LONG_PIECE: usize = 65_536;
const CAPTURED: usize = 100_000;
const CAPTURE_ROUNDS: usize = 3;

fn random_bytes<const LENGTH: usize>(random: &mut Xorshift) -> [u8; LENGTH] {
    let mut bytes = [0; LENGTH];
    bytes.fill_with(|| random.next_u64() as u8);
    bytes
}

/// The frames of a run, each word of each frame hit by as many flips as `flips` says.
fn frames(random: &mut Xorshift, inputs: &[Lanes], flips: impl Fn(&mut Xorshift) -> u32) -> Vec<Frame> {
    let mut store = [0; STORE_BYTES];
    let sent = |lanes: &Lanes| {
        let mut frame = [0; FRAME_SYMBOLS];
        assert_eq!(send(lanes, &mut store, &mut frame), 0);
        for word in 0..FRAME_WORDS {
            let count = flips(random);
            let mut hit = 0u128;
            while hit.count_ones() < count {
                hit |= 1 << random.below(126);
            }
            for number in (0..126).filter(|n| hit >> n & 1 == 1) {
                let (symbol, bit) = bit_place(word / 32, word % 32, number);
                frame[symbol] ^= bit;
            }
        }
        frame
    };
    inputs.iter().map(sent).collect()
}

/// Both send a run from any store; buffers hold different bytes before each call, so that one left unwritten shows.
fn compare_send(random: &mut Xorshift, inputs: &[Lanes]) {
    let mut ours: Store = random_bytes(random);
    let mut theirs = ours;
    for input in inputs {
        let (mut a, mut b) = ([0x55; FRAME_SYMBOLS], [0xAA; FRAME_SYMBOLS]);
        assert_eq!((send(input, &mut ours, &mut a), archive_send(input, &mut theirs, &mut b)), (0, 0), "sending is refused");
        assert!(a == b && ours == theirs, "sent frames or stores differ");
    }
}

/// The same for receiving; where all words have as many flips, `flag` is what each must get.
fn compare_receive(random: &mut Xorshift, decoder: &Decoder, frames: &[Frame], flag: Option<u8>) {
    let mut ours: Store = random_bytes(random);
    let mut theirs = ours;
    for frame in frames {
        let (mut a, mut b) = ([0x55; LANES_BYTES], [0xAA; LANES_BYTES]);
        let (mut f, mut g) = ([0x55; FRAME_WORDS], [0xAA; FRAME_WORDS]);
        let answers = (receive_with(decoder, frame, &mut ours, &mut a, &mut f), archive_receive(frame, &mut theirs, &mut b, &mut g));
        assert_eq!(answers, (0, 0), "receiving is refused");
        assert!(a == b && f == g && ours == theirs, "received lanes, flags or stores differ");
        assert!(flag.map_or(true, |flag| f == [flag; FRAME_WORDS]), "flags are not what the flips ask for");
    }
}

/// Both go on from any state, make a frame by any number, and check each recovered frame by its own number and by any.
fn compare_traffic(random: &mut Xorshift, recovered: &[(u32, Lanes)]) {
    let mut ours = random.next_u64() as u32;
    let mut theirs = ours;
    for (number, lanes) in recovered {
        let (mut a, mut b) = ([0x55; LANES_BYTES], [0xAA; LANES_BYTES]);
        assert_eq!((traffic::next(&mut ours, &mut a), archive_next(&mut theirs, &mut b)), (0, 0), "test traffic is refused");
        assert!(a == b && ours == theirs, "lanes or states differ");
        let any = random.next_u64() as u32 >> random.below(32);
        (a, b) = ([0x55; LANES_BYTES], [0xAA; LANES_BYTES]);
        assert_eq!((traffic::frame(any, &mut a), archive_frame(any, &mut b)), (0, 0), "frame {any} is refused");
        assert!(a == b, "frame {any} differs");
        for number in [*number, any] {
            let (mut w, mut x) = ([0x55; LANES], [0xAA; LANES]);
            assert_eq!((traffic::check(number, lanes, &mut w), archive_check(number, lanes, &mut x)), (0, 0), "checking is refused");
            assert!(w == x, "wrong bits of frame {number} are counted otherwise");
        }
    }
}

/// Both search a run for each frame, which is among random symbols, has about as many wrong pilots as may be and is cut now and then: the whole run, and then
/// pieces of it. Returns how many were found.
fn compare_hunt(random: &mut Xorshift, frames: &[Frame]) -> usize {
    let mut found = 0;
    for frame in frames {
        let mut frame = *frame;
        let wrong = NO_LOCK - 2 + random.below(4) as usize;
        for (n, number) in random.choose(PILOT_COUNT, wrong).into_iter().enumerate() {
            // in turn in the X half alone and in the Y half alone
            frame[ROW_SYMBOLS * number] ^= [0x10, 0x01][n % 2];
        }
        let [before, behind, cut] = [2 * FRAME_SYMBOLS, FRAME_SYMBOLS, 3].map(|most| random.below(most as u64) as usize);
        let mut run = [&random.bytes(before)[..], &frame, &random.bytes(behind)].concat();
        run.truncate(run.len() - cut);
        let said = hunt::hunt(&run);
        assert_eq!(archive_hunt(&run), said, "another start is found");
        found += said.found as usize;

        let (mut ours, mut theirs) = (hunt::open(), archive_open());
        let mut a: Frame = random_bytes(random);
        let (mut b, mut rest) = (a, &run[..]);
        while !rest.is_empty() {
            let most = random.pick(&[1, 100, 1_000, 10_000]);
            let (piece, behind) = rest.split_at((random.below(most + 1) as usize).min(rest.len()));
            assert_eq!((hunt::feed_fast(&mut ours, &mut a, piece), archive_feed(&mut theirs, &mut b, piece)), (0, 0), "a piece is refused");
            assert!(a == b && ours == theirs, "kept symbols or states differ");
            assert_eq!(hunt::answer(&ours), archive_answer(&theirs), "another answer is given");
            rest = behind;
        }
        assert_eq!(hunt::answer(&ours), said, "another start is found in pieces");
    }
    found
}

/// Rust and archive in turn, round by round, each over all items in their order and with a store that is fresh at the first; then the best round of each,
/// the slowest, and the ratio of the best, in microseconds an item. Returns the best.
fn row<I>(name: &str, items: &[I], mut rust: impl FnMut(&I, &mut Store), mut archive: impl FnMut(&I, &mut Store)) -> [f64; 2] {
    let (mut ours, mut theirs) = ((f64::MAX, 0f64), (f64::MAX, 0f64));
    fn round<I>(items: &[I], best: &mut (f64, f64), call: &mut impl FnMut(&I, &mut Store)) -> Store {
        let mut store = [0; STORE_BYTES];
        let start = Instant::now();
        items.iter().for_each(|item| call(item, &mut store));
        let time = start.elapsed().as_secs_f64() * 1e6 / items.len() as f64;
        *best = (best.0.min(time), best.1.max(time));
        store
    }
    for _ in 0..ROUNDS {
        let store = round(items, &mut ours, &mut rust);
        assert!(store == round(items, &mut theirs, &mut archive), "stores differ after a timed round");
    }
    print_row(name, ours, theirs);
    [ours.0, theirs.0]
}

/// A stage from items to results: compared over all items, then timed.
fn stage<I, O: PartialEq + Copy>(
    name: &str, items: &[I], blank: O, mut rust: impl FnMut(&I, &mut Store, &mut O), mut archive: impl FnMut(&I, &mut Store, &mut O),
) -> [f64; 2] {
    let (mut ours, mut theirs) = ([0; STORE_BYTES], [0; STORE_BYTES]);
    let (mut a, mut b) = (blank, blank);
    for item in items {
        rust(item, &mut ours, &mut a);
        archive(item, &mut theirs, &mut b);
        assert!(a == b && ours == theirs, "{name}: results or stores differ");
    }
    row(name, items, |item, store| rust(item, store, black_box(&mut a)), |item, store| archive(item, store, black_box(&mut b)))
}

/// A capture: an order for so many frames, no flagged word allowed, and these frames in their turn, again and again, their numbers rising.
fn capture(frames: &[Frame], count: usize, out: &mut impl Write) -> io::Result<()> {
    out.write_all(&[0, 0, 0, 14, 1, 0])?;
    for number in [0, count as u32, 0] {
        out.write_all(&number.to_be_bytes())?;
    }
    for (number, frame) in frames.iter().cycle().take(count).enumerate() {
        out.write_all(&[0, 0, 0x18, 0x06, 1, 1])?;
        out.write_all(&(number as u32).to_be_bytes())?;
        out.write_all(frame)?;
    }
    Ok(())
}

/// The verdict as `examine_verdict` gives it, of a run that makes no lanes: no verdict needs them, and the archive's run makes none.
fn verdict_without_lanes(decoder: &Decoder, capture: &[u8]) -> u32 {
    let (mut run, mut reader) = (Run::new(), Reader::new(capture));
    while take_without_lanes(decoder, &mut run, reader.next_record()) {}
    run.verdict()
}

/// A frame of a run that goes on is entered by its flags alone; whatever else comes is the run's own to take.
fn take_without_lanes(decoder: &Decoder, run: &mut Run, answer: Answer) -> bool {
    if let (Answer::Frame { number, symbols }, Some(_), None) = (answer, run.order, run.stop) {
        if locks(symbols) {
            let (mut words, mut flags) = (frame_words(symbols), [0; FRAME_WORDS]);
            decoder.decode_frame(&mut words, &mut flags);
            let (refusal, account) = enter_flags(run.account, number, &flags);
            if refusal == 0 {
                run.account = account;
                return true;
            }
        }
    }
    run.take(answer)
}

/// Whole captures in memory, which all must say PASS of: a row for the Rust as it is, and one for the Rust without lanes.
fn rows_examined(decoder: &Decoder, name: &str, frames: &[Frame]) {
    let mut bytes = Vec::new();
    capture(frames, frames.len(), &mut bytes).unwrap();
    let mut best = [(f64::MAX, 0f64); 3];
    let timed = |best: &mut (f64, f64), verdict: &dyn Fn() -> u32| {
        let start = Instant::now();
        assert_eq!(verdict(), 1, "a capture that was measured does not pass");
        let time = start.elapsed().as_secs_f64() * 1e6 / frames.len() as f64;
        *best = (best.0.min(time), best.1.max(time));
    };
    for _ in 0..ROUNDS {
        timed(&mut best[0], &|| examine_verdict(black_box(&bytes)));
        timed(&mut best[1], &|| verdict_without_lanes(decoder, black_box(&bytes)));
        timed(&mut best[2], &|| unsafe { lr800_examine_verdict(black_box(bytes.as_ptr()), bytes.len()) });
    }
    print_row(name, best[0], best[2]);
    print_row("  the Rust without its lanes", best[1], best[2]);
}

/// The Rust's examiner as a program, with the same reads and without lanes.
fn examine_without_lanes() {
    let (mut run, decoder) = (Run::new(), Decoder::new());
    let (mut input, mut record) = (io::stdin().lock(), Vec::with_capacity(FRAME_RECORD));
    let mut going = true;
    while going {
        record.clear();
        input.by_ref().take(LENGTH_BYTES as u64).read_to_end(&mut record).unwrap();
        if let Ok(length) = length(&record) {
            input.by_ref().take(length as u64).read_to_end(&mut record).unwrap();
        }
        going = take_without_lanes(&decoder, &mut run, Reader::new(&record).next_record());
    }
    print!("{}", run.report());
}

/// A program of the folder run on a capture file as its standard input: its report, its seconds and the most memory it held, in kB. It is run by a launcher
/// of its own, since a process is said to have held at least as much as the one that launched it.
fn examined(folder: &Path, program: &[&str]) -> (String, f64, u64) {
    let input = File::open(folder.join("capture")).unwrap();
    let output = Command::new(folder.join("launch")).args(program).current_dir(folder).stdin(input).output().unwrap();
    let said = String::from_utf8(output.stderr).unwrap();
    assert!(output.status.success(), "{program:?} ended with {}: {said}", output.status);
    let (seconds, memory) = said.trim_end().split_once(' ').expect("seconds and kB");
    (String::from_utf8(output.stdout).unwrap(), seconds.parse().unwrap(), memory.parse().unwrap())
}

/// Each program on a capture file of frames with so many flips in every word, up to two: once for its report, so that the file was read before any is timed,
/// then in turn.
fn rows_captured(folder: &Path, name: &str, frames: &[Frame], flips: usize) {
    let mut file = BufWriter::new(File::create(folder.join("capture")).unwrap());
    capture(frames, CAPTURED, &mut file).and_then(|()| file.flush()).expect("the capture cannot be written");
    let bytes = file.get_ref().metadata().unwrap().len();
    let mut tallies = [0; 3];
    tallies[flips] = FRAME_WORDS * CAPTURED - FILL_WORDS;
    let [clean, one, two] = tallies;
    let report = format!(
        "asked {CAPTURED}\naccepted {CAPTURED}\nmissing 0\nclean {clean}\none {one}\ntwo {two}\nflagged 0\nverdict PASS\n"
    );
    let programs: [(&str, &[&str]); 3] =
        [("Rust", &["./second"]), ("Rust without its lanes", &["./speed", "without-lanes"]), ("archive", &["./examine"])];
    for (_, program) in programs {
        assert_eq!(examined(folder, program).0, report, "{program:?} says another thing of a capture, {name}");
    }
    let mut best = [(f64::MAX, 0); 3];
    for _ in 0..CAPTURE_ROUNDS {
        for ((_, program), best) in programs.iter().zip(&mut best) {
            let (_, seconds, memory) = examined(folder, program);
            *best = (best.0.min(seconds), best.1.max(memory));
        }
    }
    for ((side, _), (seconds, memory)) in programs.iter().zip(best) {
        println!("{:36} {seconds:7.3} {:9.0} {memory:9} {:8.2}", format!("{name}, {side}"), bytes as f64 / 1e6 / seconds, seconds / best[0].0);
    }
}

fn print_row(name: &str, ours: (f64, f64), theirs: (f64, f64)) {
    let ratio = theirs.0 / ours.0;
    println!("{name:36} {:7.2} to {:6.2} {:9.2} to {:6.2} {ratio:8.2}", ours.0, ours.1, theirs.0, theirs.1);
}

/// Each item made into another by the plain Rust, in order, with a store that is fresh at the first.
fn made<I, O>(items: &[I], mut make: impl FnMut(&I, &mut Store) -> O) -> Vec<O> {
    let mut store = [0; STORE_BYTES];
    items.iter().map(|item| make(item, &mut store)).collect()
}

fn interleaved(lanes: &Lanes, store: &mut Store, out: &mut Lanes) {
    let mut lanes = *lanes;
    permute(&mut lanes, EXCHANGED);
    interleave(&lanes, store, out);
}

fn deinterleaved(lanes: &Lanes, store: &mut Store, out: &mut Lanes) {
    deinterleave(lanes, store, out);
    permute(out, EXCHANGED);
}

fn sending_stages(inputs: &[Lanes]) {
    let lanes = made(inputs, |input, store| {
        let mut out = [0; LANES_BYTES];
        interleaved(input, store, &mut out);
        out
    });
    let plain = made(&lanes, |lanes, _| words(lanes));
    let coded = made(&plain, |plain, _| {
        let mut words = *plain;
        encode_frame(&mut words);
        words
    });
    stage("  permuted and interleaved", inputs, [0; LANES_BYTES], interleaved, |i, s, o| unsafe { stage_interleave(i, s, o) });
    stage("  lanes to words", &lanes, [0; 2 * FRAME_WORDS], |i, _, o| *o = words(i), |i, _, o| unsafe { stage_to_words(i, o) });
    // the words are copied first on both sides: parity is worked out in place
    stage(
        "  parity, with a copy of the words",
        &plain,
        [0; 2 * FRAME_WORDS],
        |i, _, o| {
            *o = *i;
            encode_frame(o);
        },
        |i, _, o| {
            *o = *i;
            unsafe { stage_encode_frame(o) };
        },
    );
    stage("  words to frame", &coded, [0; FRAME_SYMBOLS], |i, _, o| frame(i, o), |i, _, o| unsafe { stage_frame_from_words(i, o) });
}

fn receiving_stages(decoder: &Decoder, kind: &str, frames: &[Frame]) {
    let received = made(frames, |frame, _| frame_words(frame));
    let mended = made(&received, |received, _| {
        let (mut words, mut flags) = (*received, [0; FRAME_WORDS]);
        decoder.decode_frame(&mut words, &mut flags);
        words
    });
    let lanes = made(&mended, |mended, _| lanes_of_words(mended));
    if kind == "clean" {
        stage("  lock", frames, 0, |i, _, o| *o = u32::from(locks(i)), |i, _, o| *o = unsafe { stage_locks(i.as_ptr(), i.len()) });
        stage("  frame to words", frames, [0; 2 * FRAME_WORDS], |i, _, o| *o = frame_words(i), |i, _, o| unsafe { stage_words_from_frame(i, o) });
    }
    stage(
        &format!("  decoded, {kind}, with a copy"),
        &received,
        ([0; 2 * FRAME_WORDS], [0; FRAME_WORDS]),
        |i, _, o| {
            o.0 = *i;
            decoder.decode_frame(&mut o.0, &mut o.1);
        },
        |i, _, o| {
            o.0 = *i;
            unsafe { stage_decode_frame(&mut o.0, &mut o.1) };
        },
    );
    if kind == "clean" {
        stage("  words to lanes", &mended, [0; LANES_BYTES], |i, _, o| *o = lanes_of_words(i), |i, _, o| unsafe { stage_to_lanes(i, o) });
        stage("  deinterleaved and permuted", &lanes, [0; LANES_BYTES], deinterleaved, |i, s, o| unsafe { stage_deinterleave(i, s, o) });
    }
}

/// Test traffic as it comes back from the line, with 0 to 6 flips in every word, each frame with its number.
fn recovered(random: &mut Xorshift, decoder: &Decoder) -> Vec<(u32, Lanes)> {
    let mut state = traffic::SEED;
    let sent = made(&[(); TIMED], |(), _| {
        let mut lanes = [0; LANES_BYTES];
        assert_eq!(traffic::next(&mut state, &mut lanes), 0);
        lanes
    });
    let received = made(&frames(random, &sent, |r| r.below(7) as u32), |frame, store| {
        let mut lanes = [0; LANES_BYTES];
        assert_eq!(receive_with(decoder, frame, store, &mut lanes, &mut [0; FRAME_WORDS]), 0);
        lanes
    });
    (0..).zip(received).collect()
}

fn rows_traffic(recovered: &[(u32, Lanes)]) {
    stage(
        "a frame of test traffic, going on",
        &[(); TIMED],
        (traffic::SEED, [0; LANES_BYTES]),
        |(), _, o| assert_eq!(traffic::next(&mut o.0, &mut o.1), 0),
        |(), _, o| assert_eq!(archive_next(&mut o.0, &mut o.1), 0),
    );
    let [first, last] = [("frame 0 directly", 0), ("frame 4,294,967,295 directly", u32::MAX)].map(|(name, number)| {
        stage(
            name,
            &[number; TIMED],
            [0; LANES_BYTES],
            |i, _, o| assert_eq!(traffic::frame(*i, o), 0),
            |i, _, o| assert_eq!(archive_frame(*i, o), 0),
        )
    });
    stage(
        "a recovered frame checked",
        recovered,
        [0; LANES],
        |(number, lanes), _, o| assert_eq!(traffic::check(*number, lanes, o), 0),
        |(number, lanes), _, o| assert_eq!(archive_check(*number, lanes, o), 0),
    );
    let [rust, archive] = [0, 1].map(|side| last[side] / first[side]);
    println!("frame 4,294,967,295 directly takes {archive:.2} times as long as frame 0 in the archive, {rust:.2} times in the Rust");
}

/// Rust and archive in turn, round by round, over symbols in which no frame starts; then as `row` does, in nanoseconds a symbol.
fn row_hunt(name: &str, rust: impl Fn() -> Found, archive: impl Fn() -> Found) -> [f64; 2] {
    let mut best = [(f64::MAX, 0f64); 2];
    for _ in 0..HUNT_ROUNDS {
        for (best, search) in best.iter_mut().zip([&rust as &dyn Fn() -> Found, &archive]) {
            let start = Instant::now();
            assert_eq!(search(), hunt::NONE, "{name}: a start is found where there is none");
            let time = start.elapsed().as_secs_f64() * 1e9 / HUNTED as f64;
            *best = (best.0.min(time), best.1.max(time));
        }
    }
    print_row(name, best[0], best[1]);
    best.map(|(best, _)| best)
}

/// A whole run in pieces of so many symbols from an opened search on, with what is kept at the end: the last symbols, each at its place.
fn fed(run: &[u8], size: usize, mut state: State, feed: impl Fn(&mut State, &mut Frame, &[u8]) -> u32) -> State {
    let mut kept = [0x55; FRAME_SYMBOLS];
    for piece in run.chunks(size) {
        assert_eq!(feed(&mut state, &mut kept, black_box(piece)), 0, "a piece is refused");
    }
    let last = (run.len() - FRAME_SYMBOLS..run.len()).all(|n| kept[hunt::place(n as u64)] == run[n]);
    assert!(last, "other symbols are kept than the last");
    state
}

fn rows_hunt(random: &mut Xorshift) {
    println!("nanoseconds a symbol: the best and the slowest of {HUNT_ROUNDS} rounds of {HUNTED} symbols in which no frame starts; the ratio of the best");
    println!("{:36} {:>17} {:>19} {:>8}", "", "Rust", "archive", "ratio");
    let (any, zeros) = (random.bytes(HUNTED), vec![0; HUNTED]);
    let outer: Vec<u8> = any.iter().map(|symbol| symbol & 0xAA).collect();
    let [whole, ..] = [("random symbols", &any), ("zeros", &zeros), ("random symbols of outer levels", &outer)].map(|(name, run)| {
        let archive = || archive_hunt(black_box(run));
        let best = row_hunt(name, || hunt::hunt(black_box(run)), archive);
        row_hunt("  the Rust offset by offset", || hunt::hunt_by_offset(black_box(run)), archive);
        best
    });
    let pieces = [("random symbols one by one", 1), ("random symbols, 65,536 at a time", LONG_PIECE)].map(|(name, size)| {
        row_hunt(
            name,
            || hunt::answer(&fed(&any, size, hunt::open(), |state, kept, piece| hunt::feed_fast(state, kept, piece))),
            || archive_answer(&fed(&any, size, archive_open(), archive_feed)),
        )
    });
    let [rust, archive] = [0, 1].map(|side| pieces.map(|best| best[side] / whole[side]));
    println!("a symbol fed alone takes {:.2} times as long as one of a whole run in the archive, {:.2} times in the Rust;", archive[0], rust[0]);
    println!("one fed with 65,535 others {:.2} times in the archive, {:.2} times in the Rust", archive[1], rust[1]);
}

fn main() {
    let word = std::env::args().nth(1).expect("the folder of the programs");
    if word == "without-lanes" {
        return examine_without_lanes();
    }
    let folder = Path::new(&word);
    let mut random = Xorshift::new(800);
    let decoder = Decoder::new();
    let inputs: Vec<Lanes> = (0..TIMED).map(|_| random_bytes(&mut random)).collect();
    let clean = frames(&mut random, &inputs, |_| 0);
    let two = frames(&mut random, &inputs, |_| 2);
    let mixed = frames(&mut random, &inputs, |r| r.below(3) as u32);
    let any = frames(&mut random, &inputs[..COMPARED], |r| r.below(7) as u32);
    let recovered = recovered(&mut random, &decoder);

    compare_send(&mut random, &inputs[..COMPARED]);
    compare_receive(&mut random, &decoder, &clean[..COMPARED], Some(0));
    compare_receive(&mut random, &decoder, &two[..COMPARED], Some(2));
    compare_receive(&mut random, &decoder, &mixed[..COMPARED], None);
    compare_receive(&mut random, &decoder, &any, None);
    compare_traffic(&mut random, &recovered[..COMPARED]);
    let found = compare_hunt(&mut random, &clean[..COMPARED]);
    println!("{COMPARED} frames sent, and received clean, with two flips in every word, with 0 to 2 at random and with 0 to 6 at random:");
    println!("the same frames, lanes, flags and stores");
    println!("{COMPARED} frames of test traffic on from any state, by any number and checked as they come back: the same lanes, states and counts");
    println!("{COMPARED} runs searched for a frame's start, {found} with one, whole and in pieces: the same answers, states and kept symbols");

    println!("microseconds a frame: the best and the slowest of {ROUNDS} rounds of {TIMED} frames; the ratio of the best");
    println!("{:36} {:>17} {:>19} {:>8}", "", "Rust", "archive", "ratio");
    let (mut frame, mut other_frame) = ([0; FRAME_SYMBOLS], [0; FRAME_SYMBOLS]);
    row(
        "sent",
        &inputs,
        |input, store| assert_eq!(send(input, store, black_box(&mut frame)), 0),
        |input, store| assert_eq!(archive_send(input, store, black_box(&mut other_frame)), 0),
    );
    sending_stages(&inputs);
    let (mut lanes, mut other_lanes) = ([0; LANES_BYTES], [0; LANES_BYTES]);
    let (mut flags, mut other_flags) = ([0; FRAME_WORDS], [0; FRAME_WORDS]);
    for (name, kind, frames) in [
        ("received clean", "clean", &clean),
        ("received, two flips in every word", "two flips", &two),
        ("received, 0 to 2 flips at random", "0 to 2 flips", &mixed),
    ] {
        row(
            name,
            frames,
            |frame, store| assert_eq!(receive_with(&decoder, frame, store, black_box(&mut lanes), black_box(&mut flags)), 0),
            |frame, store| assert_eq!(archive_receive(frame, store, black_box(&mut other_lanes), black_box(&mut other_flags)), 0),
        );
        receiving_stages(&decoder, kind, frames);
    }
    rows_examined(&decoder, "examined clean", &clean);
    rows_examined(&decoder, "examined, two flips in every word", &two);
    rows_examined(&decoder, "examined, 0 to 2 flips at random", &mixed);
    rows_traffic(&recovered);
    rows_hunt(&mut random);

    println!("a capture file of {CAPTURED} frames as standard input of each side's program, all with the same report, PASS:");
    println!("the best of {CAPTURE_ROUNDS} rounds, its ratio to the Rust's, and the most resident memory");
    println!("{:36} {:>7} {:>9} {:>9} {:>8}", "", "seconds", "MB/s", "kB", "ratio");
    rows_captured(folder, "clean", &clean, 0);
    rows_captured(folder, "two flips", &two, 2);
}
