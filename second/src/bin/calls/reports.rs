//! Reports into texts of every length, and of numbers of every length.

use crate::accounts::odd_account;
use crate::out::Calls;
use crate::runs::PHASES;
use crate::verdicts::any;
use second::account::{account, opened, Account};
use second::kept::{Kept, GOING};
use second::xorshift::Xorshift;
use std::io::{self, Write};

/// Room for every report.
pub const ROOM: usize = 213;

/// The longest report and the shortest.
const LONGEST: usize = 203;
const SHORTEST: usize = 74;

fn run(phase: u32, asked: u32, account: Account) -> Kept {
    Kept {
        phase,
        asked,
        allowed: 3,
        account,
    }
}

pub fn write<W: Write>(calls: &mut Calls<W>, random: &mut Xorshift) -> io::Result<()> {
    let runs = [
        Kept::new(),
        run(GOING, u32::MAX, account(u32::MAX, 1, [u64::MAX; 6])),
        run(2, u32::MAX, account(0, u32::MAX, [u64::MAX; 6])),
        run(GOING, 2, account(8, 6, [2, 0, 320, 0, 0, 0])),
        run(GOING, 2, account(8, 6, [2, 0, 0, 0, 316, 4])),
        run(GOING, 1, account(8, 7, [1, 0, 0, 0, 0, 0])),
        run(77, 2, account(8, 6, [2, 0, 320, 0, 0, 0])),
        run(0, 2, account(8, 6, [2, 0, 320, 0, 0, 0])),
        run(
            GOING,
            1_000_000,
            account(8, 6, [1_000_000, 0, 383_999_552, 0, 0, 0]),
        ),
    ];
    let mut lengths = vec![];
    for run in runs {
        for room in 0..=220 {
            lengths.push(calls.run_report(&run, &mut random.bytes(room))?);
        }
    }
    lengths.retain(|&length| length > 0);
    assert_eq!(lengths.iter().max(), Some(&LONGEST));
    assert_eq!(lengths.iter().min(), Some(&SHORTEST));

    // Every number one digit longer than the others, or one shorter.
    for which in 0..7 {
        for power in 0..20 {
            for number in [
                10u64.pow(power) - 1,
                10u64.pow(power),
                9 * 10u64.pow(power.min(18)),
            ] {
                let mut numbers = [0; 6];
                let mut asked = 0;
                match which {
                    6 => asked = number as u32,
                    _ => numbers[which] = number,
                }
                let run = run(GOING, asked, account(1, any(random) as u32, numbers));
                calls.run_report(&run, &mut random.bytes(ROOM))?;
            }
        }
    }
    for _ in 0..500 {
        let account = match random.below(3) {
            0 => odd_account(random),
            1 => opened(any(random) as u32),
            _ => account(1, any(random) as u32, [0; 6].map(|_| any(random))),
        };
        let run = run(random.pick(&PHASES), any(random) as u32, account);
        let room = SHORTEST + random.below(150) as usize;
        calls.run_report(&run, &mut random.bytes(room))?;
    }
    Ok(())
}
