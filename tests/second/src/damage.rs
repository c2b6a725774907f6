//! Damage to a pair that was accepted, each kind for one refusal number, with the number and line
//! that it must give; and damage of which nothing is said beforehand.

mod bytes;
mod library;
mod netlist;
mod ranges;

use crate::generate::{fresh_name, Fields, Pair, ENTRY};
use crate::random::Random;
use crate::refusal::*;
use crate::Refusal;
pub use bytes::{babble, overlong, scramble};
use library::{
    bad_pins, bad_rows, entry_33, has_place, library_form, one_name_line, one_rows_line,
    rows_place, used_name,
};
use netlist::{
    bad_line_number, driven_twice, gate_place, marked_twice, netlist_form, one_gate_line,
    one_mark_line, undeclared, wrong_count,
};
use ranges::{bad_range, one_range_line, unmarked_range};

const WORDS: [&str; 6] = ["Name", "CC", "CO", "SC", "SO", "End"];

/// The numbers that a damage of one place can be made for.
const NUMBERS: [u32; 16] = [
    LIBRARY_FORM,
    NAME_USED,
    PINS_BAD,
    GROUPS_BAD,
    BIT_ABOVE,
    ROW_IDLE,
    CELLS_MANY,
    NETLIST_FORM,
    LINE_BAD,
    CELL_UNKNOWN,
    PINS_DIFFER,
    DRIVEN_BEFORE,
    MARKED_BEFORE,
    UNDECLARED,
    NOT_INPUT,
    RANGE_BAD,
];

/// Damages the pair for the number, if it has a place for that.
fn damage(rng: &mut Random, pair: &mut Pair, number: u32) -> Option<Refusal> {
    let line = match number {
        LIBRARY_FORM => library_form(rng, pair),
        NAME_USED => used_name(rng, pair),
        PINS_BAD => {
            let entry = rng.below(non_zero(pair.cells.len())?) * ENTRY;
            bad_pins(rng, &mut pair.lib.lines[entry]);
            Some(entry)
        }
        GROUPS_BAD | BIT_ABOVE | ROW_IDLE => {
            let at = rows_place(rng, pair)?;
            let cell = &pair.cells[at / ENTRY];
            if !has_place(at % ENTRY, cell.pins, number) {
                return None;
            }
            bad_rows(rng, &mut pair.lib.lines[at], at % ENTRY, cell, number);
            Some(at)
        }
        CELLS_MANY => entry_33(rng, pair),
        NETLIST_FORM => netlist_form(rng, pair),
        LINE_BAD => {
            let at = rng.below(non_zero(pair.net.lines.len())?);
            bad_line_number(rng, &mut pair.net.lines[at]);
            Some(at)
        }
        CELL_UNKNOWN => {
            let at = gate_place(rng, pair)?;
            pair.net.lines[at][1] = fresh_name(rng, &pair.cells);
            Some(at)
        }
        PINS_DIFFER => {
            let at = gate_place(rng, pair)?;
            wrong_count(rng, &mut pair.net.lines[at]);
            Some(at)
        }
        DRIVEN_BEFORE => driven_twice(rng, pair),
        MARKED_BEFORE => marked_twice(rng, pair),
        NOT_INPUT => unmarked_range(rng, pair),
        RANGE_BAD => bad_range(rng, pair),
        UNDECLARED => {
            undeclared(rng, pair)?;
            return Some(Refusal { number, line: 0 });
        }
        _ => None,
    }?;
    Some(Refusal {
        number,
        line: line as u32 + 1,
    })
}

/// Damages the pair for any number that it has a place for.
pub fn any_damage(rng: &mut Random, pair: &mut Pair) -> Refusal {
    loop {
        let number = *rng.pick(&NUMBERS);
        // Both kinds of bad form and a 33rd entry find a place in every pair.
        if let Some(refusal) = damage(rng, pair, number) {
            return refusal;
        }
    }
}

fn non_zero(count: usize) -> Option<usize> {
    (count > 0).then_some(count)
}

/// A field of bad form where `field` stood: `kind` 0 a word, 1 a name, 2 a decimal, 3 a row, 4 a row
/// under `Name3`.
fn bad_field(rng: &mut Random, field: &[u8], kind: usize) -> Vec<u8> {
    let mut bad = field.to_vec();
    // A byte that stands in no field of any kind.
    let stray = *rng.pick(&[
        b' ', b'\r', b'\t', 0, 255, b'_', b'-', b'+', b'.', b';', 0x80, b'/', b':', b'@', b'[',
        b'`',
    ]);
    if rng.once_in(4) {
        bad.insert(rng.within(0, bad.len()), stray);
        return bad;
    }
    if rng.once_in(6) {
        return Vec::new();
    }
    match kind {
        0 => match rng.below(4) {
            // Name3 without its digit is a word, too.
            0 if field == b"Name3" => bad.push(b'3'),
            0 => {
                bad.pop();
            }
            1 => bad.push(*rng.pick(b"XxeE01")),
            2 => {
                let at = rng.below(bad.len());
                bad[at] ^= 0x20;
            }
            _ => {
                let head = field.starts_with(b"Name");
                let others: Vec<&str> = WORDS
                    .into_iter()
                    .chain([
                        "input", "output", "gate", "range", "M", "0", "NAME", "Name3",
                    ])
                    .filter(|word| word.as_bytes() != field)
                    .filter(|word| !(head && word.starts_with("Name")))
                    .collect();
                bad = rng.pick(&others).as_bytes().to_vec();
                // An input and an output line have the same form otherwise; a range may have a gate's.
                if [&b"input"[..], b"output", b"gate", b"range"].contains(&&bad[..]) {
                    bad.push(b's');
                }
            }
        },
        1 => match rng.below(2) {
            0 => {
                while bad.len() < 9 {
                    bad.push(*rng.pick(b"AZ09"));
                }
            }
            _ => {
                let at = rng.below(bad.len());
                bad[at] = *rng.pick(b"abz_@[/:`{");
            }
        },
        2..=4 => match rng.below(4) {
            0 => bad.insert(0, b'0'),
            1 => {
                let most = [5, 7, 8][kind - 2];
                bad[0] = b'1';
                while bad.len() <= most {
                    bad.push(*rng.pick(b"0123"));
                }
                if rng.once_in(3) {
                    // Far longer than any number that a machine holds.
                    bad.extend_from_slice(&[b'7'; 30]);
                }
            }
            2 => {
                let at = rng.below(bad.len());
                bad[at] = *rng.pick(b"aAoOlx/:");
            }
            _ if kind > 2 => {
                let at = rng.below(bad.len());
                bad[at] = *rng.pick(b"89");
            }
            _ => bad = b"M".to_vec(),
        },
        _ => unreachable!(),
    }
    bad
}

fn place_of(rng: &mut Random, pair: &Pair, wanted: impl Fn(&Fields) -> bool) -> Option<usize> {
    let lines = &pair.net.lines;
    let count = lines.iter().filter(|line| wanted(line)).count();
    let chosen = rng.below(non_zero(count)?);
    lines
        .iter()
        .enumerate()
        .filter(|(_, line)| wanted(line))
        .nth(chosen)
        .map(|(at, _)| at)
}

/// Whether a cause is taken; the last one is where none was before.
fn take(rng: &mut Random, lowest: &mut u32, number: u32, last: bool) -> bool {
    let taken = rng.once_in(2) || (last && *lowest == 0);
    if taken {
        *lowest = number;
    }
    taken
}

/// Several causes in one line: the lowest number counts, wherever it stands in the line. Higher
/// numbers come first here, as bad form can hide the places of the others.
pub fn one_line(rng: &mut Random, pair: &mut Pair) -> Option<Refusal> {
    let mut lowest = 0;
    let at = match rng.below(5) {
        0 => one_name_line(rng, pair, &mut lowest),
        1 => one_rows_line(rng, pair, &mut lowest),
        2 => one_gate_line(rng, pair, &mut lowest),
        3 => one_range_line(rng, pair, &mut lowest),
        _ => one_mark_line(rng, pair, &mut lowest),
    }?;
    Some(Refusal {
        number: lowest,
        line: at as u32 + 1,
    })
}
