//! The tables of the proved code, worked out from their rules: as code, and as lists for the proofs.
//! Beside them the figures of test traffic that the proofs are held to.
//!
//! `files` gives each file whole, with its comments, as it stands below crates/.

use crate::lanes::{BLOCK_BYTES, SYMBOL_BITS};
use crate::symbols::{PILOTS, PILOT_COUNT};
use crate::traffic::{sent, state_by_steps, step, SEED};
use crate::word::{only_bit, parity, remainder, split, PARITY_BITS, WORD_BITS};

/// A table: its names as code and as list, and the rule of its entries.
struct Table {
    comment: &'static str,
    name: &'static str,
    element: &'static str,
    length: usize,
    entry: fn(usize) -> u64,
    list: &'static str,
    /// Entries a line of the list.
    line: usize,
}

/// The two files of a crate: src/tables.rt, and the same as lists.
struct Pair {
    folder: &'static str,
    comment: &'static str,
    lists: Lists,
    tables: &'static [Table],
}

/// A file of lists. A list without a comment of its own has its table's name for one.
struct Lists {
    file: &'static str,
    comment: &'static str,
    imports: &'static str,
    declared: &'static str,
    of_list: Option<&'static str>,
}

/// What lists are made of: in proofs from the library of lists itself, in definitions from the prelude.
const FOR_PROOFS: &str = "use mathlib.Core.List.{List, [], ◌∷◌}\nuse Prim.Native.Nat.{ℕ}\n";
const FOR_DEFINITIONS: &str = "use Rattle.std.specs.Prelude.{List, [], ◌∷◌, ℕ}\n";

const OF_PROOFS: Lists = Lists {
    file: "proofs/Lists.antt",
    comment: "The tables of src/tables.rt as lists. Written by the program `tables` of second/.",
    imports: FOR_PROOFS,
    declared: "abbrev pub",
    of_list: None,
};

static PAIRS: [Pair; 4] = [
    Pair {
        folder: "bch",
        comment: "The table of the parity. Written by the program `tables` of second/; \
            proofs/Entries has its rule, by a test over the whole table.",
        lists: OF_PROOFS,
        tables: &[Table {
            comment: "The remainder of byte b times x^16, at b.",
            name: "BYTE_REMAINDERS",
            element: "u16",
            length: 256,
            entry: |b| parity(b as u128).into(),
            list: "byte_remainders",
            line: 16,
        }],
    },
    Pair {
        folder: "decoder_tables",
        comment: "The tables of the decoder. Written by the program `tables` of second/; \
            proofs/Entries has their rules: of COLUMNS and SINGLE_BITS by a test over the table,\n\
            of the others together by a test over all 8,002 patterns of at most two bits.",
        lists: OF_PROOFS,
        tables: &[
            Table {
                comment: "For byte b of place k of a remainder, at 256 k + b: its values at a and \
                    at a^3 in the field of 128, a^7 = a^3 + 1, in seven bits\neach, that at a^3 on top.",
                name: "FIELD",
                element: "u16",
                length: 256 * PARITY_BITS as usize / 8,
                entry: values,
                list: "field",
                line: 16,
            },
            Table {
                comment: "For a^e of the field, 125 - e round 127: the place of the bit whose value at a it is, or 126, of which there is none. \
                    0 for 0.",
                name: "LOG",
                element: "u8",
                length: ROUND + 1,
                entry: |value| place_of(value) as u64,
                list: "log",
                line: 16,
            },
            Table {
                comment: "Three times that place, round 127.",
                name: "CUBE",
                element: "u8",
                length: ROUND + 1,
                entry: |value| (3 * place_of(value) % ROUND) as u64,
                list: "cube",
                line: 16,
            },
            Table {
                comment: "By how much one of at most two places lies behind the place of the sum of their \
                    values at a, at three times the place of that sum less the place of\n\
                    the sum at a^3, and 127 more; so it goes twice round 127. \
                    254 where there is none, and so it is\nat 127, where the values 0 and 0 of no bit lead.",
                name: "ONE",
                element: "u8",
                length: 2 * ROUND + 1,
                entry: |at| behind(at)[0],
                list: "one",
                line: 16,
            },
            Table {
                comment: "And by how much the other.",
                name: "OTHER",
                element: "u8",
                length: 2 * ROUND + 1,
                entry: |at| behind(at)[1],
                list: "other",
                line: 16,
            },
            Table {
                comment: "A number round 127; from 254 on it is 127, no place. The number is a place and the way behind it.",
                name: "PLACE",
                element: "u8",
                length: ROUND + 255,
                entry: |at| if at < NONE { at % ROUND } else { ROUND } as u64,
                list: "place",
                line: 16,
            },
            Table {
                comment: "The remainder of the word whose only bit is bit i; 0 at 126 and 127, which no bit has.",
                name: "COLUMNS",
                element: "u16",
                length: ROUND + 1,
                entry: |i| remainder(bit_at(i)).into(),
                list: "columns",
                line: 16,
            },
            Table {
                comment: "The two numbers of the word whose only bit is bit i, at 2 i, the upper first; \
                    0 for the places 126 and 127.",
                name: "SINGLE_BITS",
                element: "u64",
                length: 2 * (ROUND + 1),
                entry: |at| <[u64; 2]>::from(split(bit_at(at / 2)))[at % 2],
                list: "single_bits",
                line: 4,
            },
        ],
    },
    Pair {
        folder: "lanes",
        comment: "The table of the masks. Written by the program `tables` of second/; \
            proofs/Entries has its rule, by a test over the whole table.",
        lists: OF_PROOFS,
        tables: &[Table {
            comment: "Which bits of byte c of a block are exchanged with the partner lane, \
                at 5 e + c for the set of places named e, which has 2^s for place s.",
            name: "MASKS",
            element: "u8",
            length: 16 * BLOCK_BYTES,
            entry: bits_of_places,
            list: "masks",
            line: 17,
        }],
    },
    Pair {
        folder: "pilots",
        comment: "The table of the pilots. Written by the program `tables` of second/; \
            specs/definitions/Table5 has it as a list.",
        lists: Lists {
            file: "specs/definitions/Table5.antt",
            comment: "The pilots as 000 prints them (7.1, table 5), a byte each: \
                XI, XQ, YI, YQ, two bits each, XI on top.",
            imports: FOR_DEFINITIONS,
            declared: "unfoldable pub",
            of_list: Some("the 96 pilot bytes, copied from table 5, which decides"),
        },
        tables: &[Table {
            comment: "The pilots, copied from table 5 of 000.",
            name: "PILOTS",
            element: "u8",
            length: PILOT_COUNT,
            entry: |row| PILOTS[row].into(),
            list: "pilots",
            line: 16,
        }],
    },
];

/// Every file: its path below crates/, and its text.
pub fn files() -> impl Iterator<Item = (String, String)> {
    let of_tables = PAIRS.iter().flat_map(|pair| {
        let path = |file: &str| format!("{}/{file}", pair.folder);
        [
            (path("src/tables.rt"), as_code(pair)),
            (path(pair.lists.file), as_lists(pair)),
        ]
    });
    of_tables.chain([(TRAFFIC_FILE.to_string(), traffic_figures())])
}

fn as_code(pair: &Pair) -> String {
    let mut text = commented("//", pair.comment);
    for table in pair.tables {
        let (name, element, length) = (table.name, table.element, table.length);
        text += "\n";
        text += &commented("//", table.comment);
        text += &format!("pub const {name}: [{element}; {length}] = [\n");
        text += &laid_out(&table.entries());
        text += "];\n";
    }
    text
}

/// The widest line of code, and the longest entry of which a line has more than one, as `rt fmt` lays out a table.
const LINE_WIDTH: usize = 99;
const SHORT_ENTRY: usize = 10;

/// The lines between a table's brackets: filled where every entry is short, else an entry each.
fn laid_out(entries: &[String]) -> String {
    let are_short = entries.iter().all(|entry| entry.len() <= SHORT_ENTRY);
    let mut lines: Vec<String> = Vec::new();
    for entry in entries {
        match lines.last_mut() {
            Some(line) if are_short && line.len() + entry.len() + 2 <= LINE_WIDTH => {
                *line += &format!(" {entry},");
            }
            _ => lines.push(format!("    {entry},")),
        }
    }
    lines.iter().map(|line| format!("{line}\n")).collect()
}

fn as_lists(pair: &Pair) -> String {
    let lists = &pair.lists;
    let mut text = opened(lists.comment, lists.imports);
    for table in pair.tables {
        let (name, declared) = (table.list, lists.declared);
        let own_name = format!("`{}`", table.name);
        text += "\n";
        text += &commented("--", lists.of_list.unwrap_or(&own_name));
        text += &format!("{declared} {name} : List ℕ\n{name} =\n");
        for line in table.entries().chunks(table.line) {
            text += &format!("    {} ∷\n", line.join(" ∷ "));
        }
        text.pop();
        text += " []\n";
    }
    text
}

/// How a file of lists begins.
fn opened(comment: &str, imports: &str) -> String {
    commented("--", comment) + "-- Assumes nothing.\n" + imports
}

fn commented(mark: &str, comment: &str) -> String {
    let lines = comment.lines().map(|line| format!("{mark} {line}\n"));
    lines.collect()
}

impl Table {
    fn entries(&self) -> Vec<String> {
        let entries = (0..self.length).map(self.entry);
        entries.map(|entry| entry.to_string()).collect()
    }
}

const TRAFFIC_FILE: &str = "traffic/specs/definitions/Figures.antt";

/// The bits and the states of test traffic, from no more than what one step is.
fn traffic_figures() -> String {
    let mut text = opened(
        "Written by the program `tables` of second/: the first 64 bits of test traffic, and the \
        state after 31, 1,000 and 42,240 bits, each found bit by bit.",
        FOR_DEFINITIONS,
    );
    text += "\n-- the first 64 bits as a number, the first on top\n";
    text += "abbrev pub first_bits : ℕ\n";
    text += &format!("first_bits = 0x{:016X}\n", first_bits());
    text += "\n-- a number of bits, and the state after them\n";
    text += "pub record StateFigure : Type 0 where\n  pub bits : ℕ\n  pub state : ℕ\n";
    text += "\n-- after 31, 1,000 and 42,240 bits\n";
    text += "unfoldable pub state_figures : List StateFigure\nstate_figures =\n    ";
    for bits in [31, 1_000, 42_240] {
        let state = state_by_steps(bits);
        text += &format!("record {{ bits = {bits}; state = 0x{state:08X} }}\n    ∷ ");
    }
    text += "[]\n";
    text
}

fn first_bits() -> u64 {
    let mut state = SEED;
    (0..64).fold(0, |bits, _| {
        state = step(state);
        bits << 1 | u64::from(sent(state))
    })
}

/// The word whose only bit is bit i; 0 where there is no bit i.
fn bit_at(i: usize) -> u128 {
    if i < WORD_BITS as usize {
        only_bit(i as u8)
    } else {
        0
    }
}

/// How many powers the a of the field of 128 has.
const ROUND: usize = 127;

/// a^n in seven bits, the lowest for a^0, where a^7 = a^3 + 1.
fn power(n: usize) -> u64 {
    (0..n % ROUND).fold(1, |value, _| match value >> 6 {
        0 => value << 1,
        _ => value << 1 ^ 0b1000_1001,
    })
}

/// The e of a^e; none for 0.
fn logarithm(value: u64) -> Option<usize> {
    (0..ROUND).find(|&e| power(e) == value)
}

fn values(at: usize) -> u64 {
    let (place, byte) = (at / 256, at as u8);
    let bits = (0..8).filter(|bit| byte >> bit & 1 == 1);
    bits.map(|bit| 8 * place + bit)
        .fold(0, |sum, n| sum ^ power(3 * n) << 7 ^ power(n))
}

/// What is added to a place to get none: twice round 127.
const NONE: usize = 2 * ROUND;

/// The place of the bit whose value at a is the value, 126 where no bit of a word has it; 0 for 0.
fn place_of(value: usize) -> usize {
    // Bit i has the value a^(125 - i), and 252 is 125 round 127.
    logarithm(value as u64).map_or(0, |e| (252 - e) % ROUND)
}

/// Of two bits with the values X and Y at a, and S = X + Y: x = X/S and y = Y/S have the sum 1, so
/// X^3 + Y^3 is 1 + x + x^2 times S^3. Where x is a^u, the place of X is 127 - u behind that of S.
/// One bit alone has the place of S, and its cube is S^3.
fn behind(at: usize) -> [u64; 2] {
    // Three times the place of S less that of X^3 + Y^3 is 250 more than the quotient's logarithm.
    let quotient = power(at + 2 * ROUND - 250);
    if quotient == 1 {
        return [0, NONE as u64];
    }
    let leads = |n: &usize| 1 ^ power(ROUND - n) ^ power(2 * (ROUND - n)) == quotient;
    let mut found = (1..ROUND).filter(leads).map(|n| n as u64);
    [(); 2].map(|()| found.next().unwrap_or(NONE as u64))
}

fn bits_of_places(at: usize) -> u64 {
    let (places, byte) = (at / BLOCK_BYTES, at % BLOCK_BYTES);
    (8 * byte..8 * byte + 8).fold(0, |mask, bit| {
        mask << 1 | (places >> (bit / SYMBOL_BITS) & 1) as u64
    })
}

#[cfg(test)]
mod tests {
    use super::*;
    use crate::lanes::{permute, LANES_BYTES};
    use crate::traffic::{frame, state_after};

    fn entries(name: &str) -> Vec<u64> {
        let mut tables = PAIRS.iter().flat_map(|pair| pair.tables);
        let table = tables.find(|table| table.name == name);
        let table = table.expect("a table of that name");
        (0..table.length).map(table.entry).collect()
    }

    fn by_long_division(mut rest: u128) -> u128 {
        for power in (16..128).rev() {
            if rest >> power & 1 == 1 {
                rest ^= 0x14EAB << (power - 16);
            }
        }
        rest
    }

    #[test]
    fn byte_remainders_by_long_division() {
        for (b, entry) in entries("BYTE_REMAINDERS").into_iter().enumerate() {
            let product = (b as u128) << 16;
            assert_eq!(u128::from(entry), by_long_division(product), "{b}");
        }
    }

    #[test]
    fn columns_are_the_remainders_of_the_bits() {
        let bit = entries("SINGLE_BITS");
        for (i, column) in entries("COLUMNS").into_iter().enumerate() {
            let word = u128::from(bit[2 * i]) << 64 | u128::from(bit[2 * i + 1]);
            assert_eq!(word, if i < 126 { 1 << (125 - i) } else { 0 });
            assert_eq!(u128::from(column), by_long_division(word));
        }
    }

    #[test]
    fn flips_and_pairs_lead_back_to_their_places() {
        let [field, log, cube] = ["FIELD", "LOG", "CUBE"].map(entries);
        let [one, other, place, column] = ["ONE", "OTHER", "PLACE", "COLUMNS"].map(entries);
        // From a remainder to two places, 127 where there is none.
        let places = |rest: u64| {
            let values = field[rest as usize % 256] ^ field[256 + rest as usize / 256];
            let (of_sum, of_cubes) = (values as usize % 128, values as usize / 128);
            let by = (cube[of_sum] + 127 - log[of_cubes]) as usize;
            let mut two = [one[by], other[by]].map(|n| place[(log[of_sum] + n) as usize]);
            two.sort();
            two
        };
        assert_eq!(places(0), [127; 2]);
        let mut patterns = 1;
        for i in 0..126 {
            assert_eq!(places(column[i]), [i as u64, 127]);
            for j in i + 1..126 {
                assert_eq!(places(column[i] ^ column[j]), [i as u64, j as u64]);
                patterns += 1;
            }
            patterns += 1;
        }
        assert_eq!(patterns, 8_002);
        // No other remainder leads beyond a table.
        assert!((0..65_536).all(|rest| places(rest)[1] <= 127));
    }

    #[test]
    fn masks_are_what_the_permutation_exchanges() {
        for (places, mask) in entries("MASKS").chunks(BLOCK_BYTES).enumerate() {
            let mut lanes = [0; LANES_BYTES];
            lanes[LANES_BYTES / 2..].fill(0xFF);
            permute(&mut lanes, places as u8);
            for block in lanes[..LANES_BYTES / 2].chunks(BLOCK_BYTES) {
                assert!(block.iter().map(|&byte| u64::from(byte)).eq(mask.to_vec()));
            }
        }
    }

    #[test]
    fn figures_of_traffic_are_its_frames_and_states() {
        let found: Vec<_> = files().filter(|(path, _)| path == TRAFFIC_FILE).collect();
        assert_eq!(found.len(), 1);
        let text = &found[0].1;
        let after = |mark: &str| -> Vec<u64> {
            let parts = text.split(mark).skip(1);
            let digits = parts.map(|part| part.split([' ', ';', '\n']).next().expect("digits"));
            digits
                .map(|digits| match digits.strip_prefix("0x") {
                    Some(hex) => u64::from_str_radix(hex, 16).expect("hex"),
                    None => digits.parse().expect("a number"),
                })
                .collect()
        };
        // The first ten bits of lanes 0 to 6, without the last six.
        let mut lanes = [0; LANES_BYTES];
        assert_eq!(frame(0, &mut lanes), 0);
        let symbols = (0..7).map(|p| u16::from_be_bytes([lanes[165 * p], lanes[165 * p + 1]]) >> 6);
        let bits = symbols.fold(0, |bits, symbol| bits << 10 | u128::from(symbol));
        assert_eq!(after("first_bits = "), [(bits >> 6) as u64]);
        let (bits, states) = (after("{ bits = "), after("state = "));
        assert_eq!(bits, [31, 1_000, 42_240]);
        for (bits, state) in bits.into_iter().zip(states) {
            assert_eq!(u64::from(state_after(bits)), state);
        }
        assert!(text.lines().all(|line| line.chars().count() <= 160));
    }
}
