//! A run as a host keeps it between calls: all of it numbers, any of which are lawful.

use crate::account::{opened, Account};
use crate::capture::{lone, Order};
use crate::run::{report, write_report, Run, Stop};

/// Where a run stands; any other phase is taken for stopped.
pub const UNORDERED: u32 = 0;
pub const GOING: u32 = 1;
pub const STOPPED: u32 = 2;

#[derive(Clone, Copy, Debug, PartialEq, Eq)]
pub struct Kept {
    pub phase: u32,
    pub asked: u32,
    pub allowed: u32,
    pub account: Account,
}

impl Kept {
    /// A run before its first record.
    pub fn new() -> Self {
        Kept {
            phase: UNORDERED,
            asked: 0,
            allowed: 0,
            account: opened(0),
        }
    }

    /// Where an order began is kept in the account that it opened.
    fn run(&self) -> Run {
        let order = Order {
            start: self.account.start,
            asked: self.asked,
            allowed: self.allowed,
        };
        Run {
            order: (self.phase != UNORDERED).then_some(order),
            account: self.account,
            // Why it stopped is not kept; this has no number, so that none is told again.
            stop: (self.phase > GOING).then_some(Stop::ReadFailed),
        }
    }

    /// Takes a piece that must be one record and no more. Returns 0, or the number by which the
    /// record or its entry is refused, or 22 for more bytes, where that stops the run.
    pub fn step(&mut self, piece: &[u8]) -> u32 {
        let mut run = self.run();
        run.take(lone(piece));
        self.phase = match (run.stop, run.order) {
            (Some(_), _) => STOPPED,
            (None, Some(_)) => GOING,
            (None, None) => UNORDERED,
        };
        // A run that met no order keeps whatever figures it had.
        if let Some(order) = run.order {
            (self.asked, self.allowed) = (order.asked, order.allowed);
        }
        self.account = run.account;
        run.stop.map_or(0, Stop::number)
    }

    pub fn stop(&mut self) {
        self.phase = STOPPED;
    }

    pub fn verdict(&self) -> u32 {
        self.run().verdict()
    }

    /// The figures as they stand, also where no order set them.
    pub fn report(&self) -> String {
        report(self.asked, self.account, self.verdict())
    }

    pub fn report_into(&self, text: &mut [u8]) -> usize {
        write_report(&self.report(), text)
    }
}

impl Default for Kept {
    fn default() -> Self {
        Self::new()
    }
}

#[cfg(test)]
mod tests {
    use super::*;
    use crate::account::{FAIL, NOT_MEASURED, PASS};
    use crate::capture::{frame_record, order_record, Reader};
    use crate::send::send;
    use crate::xorshift::Xorshift;

    /// A frame, and the same without lock.
    fn frames(random: &mut Xorshift) -> [[u8; 6_144]; 2] {
        let mut frame = [0; 6_144];
        assert_eq!(send(&random.bytes(5_280), &mut [0; 2_880], &mut frame), 0);
        let mut lost = frame;
        for row in 0..25 {
            lost[64 * row] ^= 1;
        }
        [frame, lost]
    }

    fn order(start: u32, asked: u32, allowed: u32) -> Vec<u8> {
        order_record(Order {
            start,
            asked,
            allowed,
        })
    }

    fn odd(phase: u32) -> Kept {
        Kept {
            phase,
            asked: 7,
            allowed: 9,
            account: Account {
                expected: 5,
                start: 77,
                accepted: u64::MAX,
                missing: 0,
                clean: 1,
                one: 2,
                two: 3,
                flagged: 4,
            },
        }
    }

    /// The answer of a step, and the run after it.
    fn answered(mut run: Kept, piece: &[u8]) -> (u32, Kept) {
        let number = run.step(piece);
        (number, run)
    }

    /// The run after a step, which must answer 0.
    fn stepped(run: Kept, piece: &[u8]) -> Kept {
        let (number, run) = answered(run, piece);
        assert_eq!(number, 0);
        run
    }

    #[test]
    fn a_run_kept_in_numbers_is_the_run() {
        let mut random = Xorshift::new(90);
        let [frame, lost] = frames(&mut random);
        let late = frame_record(2, &frame);
        let records = [
            (order(u32::MAX, 2, 0), 0),
            (frame_record(u32::MAX, &frame), 0),
            (frame_record(0, &frame), 0),
            (frame_record(1, &lost), 0),
            (frame_record(4, &frame), 0),
            (late, 10),
            (order(0, 1, 1), 0),
        ];
        let mut whole = Run::new();
        let mut kept = Kept::new();
        let mut verdicts = vec![];
        for (n, (record, right)) in records.iter().enumerate() {
            whole.take(Reader::new(record).next_record());
            let number;
            (number, kept) = answered(kept, record);
            assert_eq!(number, *right);
            assert_eq!(kept.phase, if n < 5 { GOING } else { STOPPED });
            assert_eq!(kept.account, whole.account);
            assert_eq!(kept.report(), whole.report());
            verdicts.push(kept.verdict());
        }
        let none = NOT_MEASURED;
        assert_eq!(verdicts, [none, none, PASS, none, none, none, none]);
    }

    #[test]
    fn the_first_order_opens_whatever_the_run_held() {
        let run = stepped(odd(UNORDERED), &order(3, 4, 5));
        let right = Kept {
            phase: GOING,
            asked: 4,
            allowed: 5,
            account: opened(3),
        };
        assert_eq!(run, right);
    }

    /// The start is kept from step to step, and decides what is tallied of a frame.
    #[test]
    fn the_start_of_a_run_stays() {
        let [frame, lost] = frames(&mut Xorshift::new(97));
        for start in [0, 6, u32::MAX - 1, u32::MAX] {
            let mut run = stepped(odd(UNORDERED), &order(start, 9, 0));
            for (n, symbols, clean) in [
                (0, &frame, 0),
                (1, &frame, 320),
                (2, &lost, 320),
                (3, &frame, 704),
                (9, &frame, 1_088),
            ] {
                run = stepped(run, &frame_record(start.wrapping_add(n), symbols));
                assert_eq!((run.account.start, run.account.clean), (start, clean));
            }
        }
        assert_eq!(Kept::new().account, opened(0));
    }

    #[test]
    fn what_stops_a_run_changes_nothing_else() {
        let mut random = Xorshift::new(92);
        let [frame, lost] = frames(&mut random);
        let (in_order, lost) = (frame_record(5, &frame), frame_record(5, &lost));
        let late = frame_record(4, &frame);
        let (mut version, mut kind) = (order(5, 1, 1), order(5, 1, 1));
        (version[4], kind[5]) = (2, 1);
        let stops = |phase, piece: &[u8], number| {
            assert_eq!(answered(odd(phase), piece), (number, odd(STOPPED)));
        };
        // Before any order, in a run above its limits, and in one that was stopped.
        for (piece, unordered, going) in [
            (&in_order[..], 0, 11),
            (&lost, 0, 11),
            (&late, 0, 10),
            (&[0], 6, 6),
            (&[0; 4], 7, 7),
            (&order(5, 1, 1)[..17], 6, 6),
            (&version, 8, 8),
            (&kind, 9, 9),
        ] {
            stops(UNORDERED, piece, unordered);
            stops(GOING, piece, going);
            for phase in [STOPPED, 3, 256, 257, u32::MAX] {
                stops(phase, piece, 0);
            }
        }
        for phase in [GOING, STOPPED, 3, 256, u32::MAX] {
            stops(phase, &order(5, 1, 1), 0);
        }
        // No bytes stop no run; one with another phase is then told to be stopped.
        for (phase, after) in [(0, 0), (1, 1), (2, 2), (3, 2), (u32::MAX, 2)] {
            assert_eq!(stepped(odd(phase), &[]), odd(after));
            let mut run = odd(phase);
            run.stop();
            assert_eq!(run, odd(STOPPED));
        }
    }

    /// Which entry is told: of a frame that locks its own, of one without lock its loss.
    #[test]
    fn the_number_of_an_entry_is_told() {
        let mut random = Xorshift::new(94);
        let [frame, lost] = frames(&mut random);
        let (frames, words) = (1_000_000, 384_000_000);
        // Accepted, missing and clean before it; how far ahead; the answers with lock and without;
        // in a run that began long ago.
        let far = 1 << 30;
        let long_ago = [
            (0, 0, 0, 0, 0, 0),
            (frames - 1, 0, 0, 0, 0, 0),
            (frames, 0, 0, 0, 11, 0),
            (frames + 1, 0, 0, 0, 11, 11),
            (0, frames - 1, 0, 0, 0, 0),
            (0, frames, 0, 0, 0, 11),
            (0, frames - 1, 0, 1, 0, 11),
            (0, frames, 0, 1, 11, 11),
            (0, 0, words - 384, 0, 0, 0),
            (0, 0, words - 383, 0, 11, 0),
            (0, 0, words, 0, 11, 0),
            (0, 0, words + 1, 0, 11, 11),
            (0, 0, 0, (1 << 31) - 1, 11, 11),
            (0, 0, 0, 1 << 31, 10, 10),
            (frames + 1, frames + 1, words + 1, u32::MAX, 10, 10),
        ];
        // With the start before the expected number: the next frame may tally 320 words, or none.
        let just_begun = [
            (0, (0, 0, words, 0, 0, 0)),
            (0, (0, 0, words + 1, 0, 11, 11)),
            (0, (frames, 0, words, 0, 11, 0)),
            (1, (0, 0, words - 320, 0, 0, 0)),
            (1, (0, 0, words - 319, 0, 11, 0)),
            (0, (0, 0, words - 320, 1, 0, 0)),
            (0, (0, 0, words - 319, 1, 11, 0)),
            (1, (0, 0, words - 384, 1, 0, 0)),
            (1, (0, 0, words - 383, 1, 11, 0)),
        ];
        let cases = long_ago.map(|case| (far, case)).into_iter();
        for (before, case) in cases.chain(just_begun) {
            let (accepted, missing, clean, d, with_lock, without) = case;
            let run = Kept {
                phase: GOING,
                asked: 1,
                allowed: 0,
                account: Account {
                    start: u32::MAX - before,
                    accepted,
                    missing,
                    clean,
                    ..opened(u32::MAX)
                },
            };
            for (symbols, right) in [(&frame, with_lock), (&lost, without)] {
                let record = frame_record(u32::MAX.wrapping_add(d), symbols);
                let (number, after) = answered(run, &record);
                assert_eq!(number, right);
                if right == 0 {
                    assert_eq!((after.phase, after.account.expected), (GOING, d));
                } else {
                    let phase = STOPPED;
                    assert_eq!(after, Kept { phase, ..run });
                }
                // Told once: the same record finds the run stopped, or late.
                let (again, _) = answered(after, &record);
                assert_eq!(again, if right == 0 { 10 } else { 0 });
            }
        }
    }

    /// Whatever the record would have done, and whatever stands behind it.
    #[test]
    fn more_bytes_than_one_record_stop_a_run_by_22() {
        let mut random = Xorshift::new(93);
        let [frame, lost] = frames(&mut random);
        let going = Kept {
            phase: GOING,
            asked: 1,
            allowed: 0,
            account: opened(8),
        };
        let first = order(8, 1, 0);
        // In order, behind a gap, too far ahead, late, without lock; before any order, the first
        // order and a frame; a second order.
        let records: Vec<_> = [8, 9, 2_000_000, 7]
            .into_iter()
            .flat_map(|number| [&frame, &lost].map(|symbols| frame_record(number, symbols)))
            .chain([first.clone()])
            .collect();
        for record in &records {
            let others = [&[0][..], &[1], &[0xFF; 4], &first, &first[..5], &records[0]];
            for run in [going, odd(GOING), Kept::new(), odd(UNORDERED)] {
                for more in others {
                    let piece = [&record[..], more].concat();
                    let phase = STOPPED;
                    let stopped = Kept { phase, ..run };
                    assert_eq!(answered(run, &piece), (22, stopped));
                    // Told once, and not by a run that had stopped before.
                    assert_eq!(answered(stopped, &piece), (0, stopped));
                    let other = Kept { phase: 77, ..run };
                    assert_eq!(answered(other, &piece), (0, stopped));
                    assert_eq!(stopped.verdict(), NOT_MEASURED);
                }
            }
        }
        // The same records alone are no more than one.
        let alone = records.iter().map(|record| answered(going, record).0);
        assert_eq!(alone.collect::<Vec<_>>(), [0, 0, 0, 0, 11, 11, 10, 10, 0]);
    }

    /// What refuses the record at the beginning has a lower number than 22.
    #[test]
    fn refusals_of_a_record_come_before_22() {
        let frame = frame_record(5, &frames(&mut Xorshift::new(95))[0]);
        for record in [&order(5, 1, 1), &frame] {
            for (place, byte, number) in [(0, 1, 7), (3, 0, 7), (4, 2, 8), (4, 0, 8), (5, 2, 9)] {
                let mut spoilt = record.clone();
                spoilt[place] = byte;
                for more in [&[][..], &[0], &[0xFF; 30], record] {
                    let piece = [&spoilt[..], more].concat();
                    for phase in [UNORDERED, GOING] {
                        assert_eq!(answered(odd(phase), &piece), (number, odd(STOPPED)));
                    }
                }
            }
            // One byte fewer than a record, the record, and one byte more.
            for (length, unordered) in [(record.len() - 1, 6), (record.len(), 0)] {
                assert_eq!(answered(odd(UNORDERED), &record[..length]).0, unordered);
            }
            let longer = [&record[..], &[0]].concat();
            assert_eq!(answered(odd(UNORDERED), &longer).0, 22);
        }
    }

    /// Two records given as one cannot pass, though each alone would.
    #[test]
    fn glued_records_do_not_pass() {
        let [frame, _] = frames(&mut Xorshift::new(96));
        let records = [
            order(8, 2, 0),
            frame_record(8, &frame),
            frame_record(9, &frame),
        ];
        let run = records.iter().fold(Kept::new(), |run, r| stepped(run, r));
        assert_eq!(run.verdict(), PASS);
        let (number, glued) = answered(Kept::new(), &records.concat());
        assert_eq!((number, glued.verdict()), (22, NOT_MEASURED));
        // Both frames, or the first twice: not even that is entered.
        for second in [&records[2], &records[1]] {
            let (number, glued) = answered(
                stepped(Kept::new(), &records[0]),
                &[&records[1][..], second].concat(),
            );
            assert_eq!((number, glued.account), (22, opened(8)));
        }
    }

    #[test]
    fn only_a_run_that_goes_on_is_measured() {
        let account = Account {
            accepted: 2,
            clean: 312,
            flagged: 8,
            ..opened(2)
        };
        for phase in [UNORDERED, GOING, STOPPED, 3, 257, u32::MAX] {
            for (allowed, measured) in [(8, PASS), (7, FAIL)] {
                let run = Kept {
                    phase,
                    asked: 2,
                    allowed,
                    account,
                };
                let right = if phase == GOING {
                    measured
                } else {
                    NOT_MEASURED
                };
                assert_eq!(run.verdict(), right);
            }
        }
    }

    #[test]
    fn a_report_where_there_is_room() {
        let most = Kept {
            phase: GOING,
            asked: u32::MAX,
            allowed: 0,
            account: Account {
                expected: 0,
                start: 0,
                accepted: u64::MAX,
                missing: u64::MAX,
                clean: u64::MAX,
                one: u64::MAX,
                two: u64::MAX,
                flagged: u64::MAX,
            },
        };
        let least = Kept {
            asked: 2,
            account: Account {
                accepted: 2,
                clean: 320,
                ..opened(0)
            },
            ..most
        };
        for (run, length) in [(most, 203), (least, 74), (Kept::new(), 80), (odd(0), 99)] {
            let report = run.report();
            assert_eq!(report.len(), length);
            for room in 0..=220 {
                let mut text = vec![0xA5; room];
                let fits = room >= length;
                assert_eq!(run.report_into(&mut text), if fits { length } else { 0 });
                let (written, rest) = text.split_at(if fits { length } else { 0 });
                assert!(written == &report.as_bytes()[..written.len()]);
                assert!(rest.iter().all(|&byte| byte == 0xA5));
            }
        }
        // The figures stand as they are, also where no order set them.
        assert!(odd(UNORDERED)
            .report()
            .starts_with("asked 7\naccepted 18446744073709551615\n"));
    }
}
