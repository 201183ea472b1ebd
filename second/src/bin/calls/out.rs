//! Makes each call by the second program's own code, and writes down what it was given, what it
//! answered and what it left.

use second::account::{enter_flags, lose, numbers, opened, verdict, Account};
use second::capture::{read, wanted, Record};
use second::hunt::{answer, by_rule, feed, open, Found, State};
use second::kept::Kept;
use second::receive::receive;
use second::run::{examine, examine_verdict};
use second::send::send;
use second::traffic::{check_by_rule, frame_by_rule, next_by_rule, state_after_by_rule};
use std::io::{self, IsTerminal, Write};
use std::time::{Duration, Instant};

/// The functions in the order of the header: a record begins with the number of its function.
const SEND: u8 = 0;
const RECEIVE: u8 = 1;
const ACCOUNT_OPEN: u8 = 2;
const ACCOUNT_ENTER: u8 = 3;
const ACCOUNT_LOSE: u8 = 4;
const VERDICT: u8 = 5;
const READ: u8 = 6;
const WANTED: u8 = 7;
const RUN_OPEN: u8 = 8;
const RUN_STEP: u8 = 9;
const RUN_STOP: u8 = 10;
const RUN_VERDICT: u8 = 11;
const RUN_REPORT: u8 = 12;
const EXAMINE: u8 = 13;
const EXAMINE_VERDICT: u8 = 14;
const TRAFFIC_STATE: u8 = 15;
const TRAFFIC_FRAME: u8 = 16;
const TRAFFIC_NEXT: u8 = 17;
const TRAFFIC_CHECK: u8 = 18;
const HUNT: u8 = 19;
const HUNT_OPEN: u8 = 20;
const HUNT_FEED: u8 = 21;
const HUNT_ANSWER: u8 = 22;

pub struct Calls<W: Write> {
    out: W,
    count: u64,
    frames: u64,
    told: Instant,
}

impl<W: Write> Calls<W> {
    pub fn new(out: W) -> Self {
        Calls {
            out,
            count: 0,
            frames: 0,
            told: Instant::now(),
        }
    }

    fn begin(&mut self, function: u8) -> io::Result<()> {
        self.count += 1;
        self.tell();
        self.out.write_all(&[function])
    }

    /// In place on a terminal, else a line now and then.
    fn tell(&mut self) {
        if self.count % 64 != 0 {
            return;
        }
        let (pause, end) = match io::stderr().is_terminal() {
            true => (Duration::from_millis(200), '\r'),
            false => (Duration::from_secs(5), '\n'),
        };
        if self.told.elapsed() >= pause {
            self.told = Instant::now();
            eprint!("calls: {} calls, {} frames{end}", self.count, self.frames);
        }
    }

    pub fn end(&mut self) -> io::Result<()> {
        self.out.flush()?;
        let (count, frames) = (self.count, self.frames);
        eprintln!("calls: {count} calls written, {frames} frames sent or received");
        Ok(())
    }

    fn u32(&mut self, number: u32) -> io::Result<()> {
        self.out.write_all(&number.to_be_bytes())
    }

    fn u64(&mut self, number: u64) -> io::Result<()> {
        self.out.write_all(&number.to_be_bytes())
    }

    fn buffer(&mut self, bytes: &[u8]) -> io::Result<()> {
        self.u32(bytes.len() as u32)?;
        self.out.write_all(bytes)
    }

    fn account(&mut self, account: &Account) -> io::Result<()> {
        self.u32(account.expected)?;
        self.u32(account.start)?;
        for number in numbers(*account) {
            self.u64(number)?;
        }
        Ok(())
    }

    fn run(&mut self, run: &Kept) -> io::Result<()> {
        for number in [run.phase, run.asked, run.allowed] {
            self.u32(number)?;
        }
        self.account(&run.account)
    }

    fn found(&mut self, found: &Found) -> io::Result<()> {
        self.u32(found.refusal)?;
        self.u32(found.found)?;
        self.u64(found.offset)
    }

    fn search(&mut self, state: &State) -> io::Result<()> {
        self.u64(state.taken)?;
        self.u64(state.found)
    }

    pub fn send(&mut self, input: &[u8], store: &mut [u8], output: &mut [u8]) -> io::Result<u32> {
        self.begin(SEND)?;
        for bytes in [input, store, output] {
            self.buffer(bytes)?;
        }
        let number = send(input, store, output);
        self.frames += u64::from(number == 0);
        self.u32(number)?;
        self.out.write_all(store)?;
        self.out.write_all(output)?;
        Ok(number)
    }

    pub fn receive(
        &mut self,
        input: &[u8],
        store: &mut [u8],
        output: &mut [u8],
        flags: &mut [u8],
    ) -> io::Result<u32> {
        self.begin(RECEIVE)?;
        for bytes in [input, store, output, flags] {
            self.buffer(bytes)?;
        }
        let number = receive(input, store, output, flags);
        self.frames += u64::from(number == 0);
        self.u32(number)?;
        for bytes in [store, output, flags] {
            self.out.write_all(bytes)?;
        }
        Ok(number)
    }

    pub fn account_open(&mut self, account: &mut Account, start: u32) -> io::Result<()> {
        self.begin(ACCOUNT_OPEN)?;
        self.account(account)?;
        self.u32(start)?;
        *account = opened(start);
        self.account(account)
    }

    pub fn account_enter(
        &mut self,
        account: &mut Account,
        number: u32,
        flags: &[u8],
    ) -> io::Result<u32> {
        self.begin(ACCOUNT_ENTER)?;
        self.account(account)?;
        self.u32(number)?;
        self.buffer(flags)?;
        let (refusal, after) = enter_flags(*account, number, flags);
        *account = after;
        self.u32(refusal)?;
        self.account(account)?;
        Ok(refusal)
    }

    pub fn account_lose(&mut self, account: &mut Account, number: u32) -> io::Result<u32> {
        self.begin(ACCOUNT_LOSE)?;
        self.account(account)?;
        self.u32(number)?;
        let (refusal, after) = lose(*account, number);
        *account = after;
        self.u32(refusal)?;
        self.account(account)?;
        Ok(refusal)
    }

    /// Asked, allowed and stopped; accepted, missing and the tallies.
    pub fn verdict(
        &mut self,
        [asked, allowed, stopped]: [u32; 3],
        numbers: [u64; 6],
    ) -> io::Result<u32> {
        self.begin(VERDICT)?;
        self.u32(asked)?;
        self.u32(allowed)?;
        for number in numbers {
            self.u64(number)?;
        }
        self.u32(stopped)?;
        let [accepted, missing, tallies @ ..] = numbers;
        let number = verdict(asked, allowed, accepted, missing, tallies, stopped != 0);
        self.u32(number)?;
        Ok(number)
    }

    pub fn read(&mut self, capture: &[u8], place: usize) -> io::Result<Record> {
        self.begin(READ)?;
        self.buffer(capture)?;
        self.u64(place as u64)?;
        let record = read(capture, place);
        let Record {
            refusal,
            kind,
            number,
            asked,
            allowed,
            symbols,
            next,
        } = record;
        for number in [refusal, kind, number, asked, allowed] {
            self.u32(number)?;
        }
        self.u64(symbols as u64)?;
        self.u64(next as u64)?;
        Ok(record)
    }

    pub fn wanted(&mut self, piece: &[u8]) -> io::Result<usize> {
        self.begin(WANTED)?;
        self.buffer(piece)?;
        let count = wanted(piece);
        self.u64(count as u64)?;
        Ok(count)
    }

    pub fn run_open(&mut self, run: &mut Kept) -> io::Result<()> {
        self.begin(RUN_OPEN)?;
        self.run(run)?;
        *run = Kept::new();
        self.run(run)
    }

    pub fn run_step(&mut self, run: &mut Kept, piece: &[u8]) -> io::Result<u32> {
        self.begin(RUN_STEP)?;
        self.run(run)?;
        self.buffer(piece)?;
        let accepted = run.account.accepted;
        let number = run.step(piece);
        self.frames += u64::from(run.account.accepted > accepted);
        self.u32(number)?;
        self.run(run)?;
        Ok(number)
    }

    pub fn run_stop(&mut self, run: &mut Kept) -> io::Result<()> {
        self.begin(RUN_STOP)?;
        self.run(run)?;
        run.stop();
        self.run(run)
    }

    pub fn run_verdict(&mut self, run: &Kept) -> io::Result<u32> {
        self.begin(RUN_VERDICT)?;
        self.run(run)?;
        let number = run.verdict();
        self.u32(number)?;
        Ok(number)
    }

    pub fn run_report(&mut self, run: &Kept, text: &mut [u8]) -> io::Result<usize> {
        self.begin(RUN_REPORT)?;
        self.run(run)?;
        self.buffer(text)?;
        let length = run.report_into(text);
        self.u64(length as u64)?;
        self.out.write_all(text)?;
        Ok(length)
    }

    pub fn examine(&mut self, capture: &[u8], text: &mut [u8]) -> io::Result<usize> {
        self.begin(EXAMINE)?;
        self.buffer(capture)?;
        self.buffer(text)?;
        let length = examine(capture, text);
        self.u64(length as u64)?;
        self.out.write_all(text)?;
        Ok(length)
    }

    pub fn examine_verdict(&mut self, capture: &[u8]) -> io::Result<u32> {
        self.begin(EXAMINE_VERDICT)?;
        self.buffer(capture)?;
        let number = examine_verdict(capture);
        self.u32(number)?;
        Ok(number)
    }

    pub fn traffic_state(&mut self, bits: u64) -> io::Result<u32> {
        self.begin(TRAFFIC_STATE)?;
        self.u64(bits)?;
        let state = state_after_by_rule(bits);
        self.u32(state)?;
        Ok(state)
    }

    pub fn traffic_frame(&mut self, number: u32, output: &mut [u8]) -> io::Result<u32> {
        self.begin(TRAFFIC_FRAME)?;
        self.u32(number)?;
        self.buffer(output)?;
        let refusal = frame_by_rule(number, output);
        self.u32(refusal)?;
        self.out.write_all(output)?;
        Ok(refusal)
    }

    pub fn traffic_next(&mut self, state: &mut u32, output: &mut [u8]) -> io::Result<u32> {
        self.begin(TRAFFIC_NEXT)?;
        self.u32(*state)?;
        self.buffer(output)?;
        let refusal = next_by_rule(state, output);
        self.u32(refusal)?;
        self.u32(*state)?;
        self.out.write_all(output)?;
        Ok(refusal)
    }

    pub fn traffic_check(
        &mut self,
        number: u32,
        lanes: &[u8],
        wrong: &mut [u32],
    ) -> io::Result<u32> {
        self.begin(TRAFFIC_CHECK)?;
        self.u32(number)?;
        self.buffer(lanes)?;
        self.u32(wrong.len() as u32)?;
        for &count in &*wrong {
            self.u32(count)?;
        }
        let refusal = check_by_rule(number, lanes, wrong);
        self.u32(refusal)?;
        for &count in &*wrong {
            self.u32(count)?;
        }
        Ok(refusal)
    }

    pub fn hunt(&mut self, run: &[u8]) -> io::Result<Found> {
        self.begin(HUNT)?;
        self.buffer(run)?;
        let found = by_rule(run);
        self.found(&found)?;
        Ok(found)
    }

    pub fn hunt_open(&mut self, state: &mut State) -> io::Result<()> {
        self.begin(HUNT_OPEN)?;
        self.search(state)?;
        *state = open();
        self.search(state)
    }

    pub fn hunt_feed(
        &mut self,
        state: &mut State,
        kept: &mut [u8],
        piece: &[u8],
    ) -> io::Result<u32> {
        self.begin(HUNT_FEED)?;
        self.search(state)?;
        self.buffer(kept)?;
        self.buffer(piece)?;
        let refusal = feed(state, kept, piece);
        self.u32(refusal)?;
        self.search(state)?;
        self.out.write_all(kept)?;
        Ok(refusal)
    }

    pub fn hunt_answer(&mut self, state: &State) -> io::Result<Found> {
        self.begin(HUNT_ANSWER)?;
        self.search(state)?;
        let found = answer(state);
        self.found(&found)?;
        Ok(found)
    }
}
