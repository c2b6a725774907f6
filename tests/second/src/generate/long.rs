//! Texts of just so many bytes.

use super::cells::{add_cell, random_name, Style};
use super::netlists::{add_netlist, Order, Shape, Wiring};
use super::{groups_of, rows_line, Pair, ENTRY};
use crate::library::{MOST_CELLS, MOST_PINS};
use crate::netlist::MOST_LINES;
use crate::random::Random;

/// A library of just so many bytes, or of as many as full entries have, where these are fewer: full groups, cut down row by row.
pub fn library_of(rng: &mut Random, bytes: usize) -> Pair {
    let mut pair = Pair::default();
    while pair.lib.bytes().len() < bytes + 64 && pair.cells.len() < MOST_CELLS {
        add_cell(rng, &mut pair, MOST_PINS, Style::Largest);
    }
    let mut length = pair.lib.bytes().len();
    let bytes = bytes.min(length);
    // Lines CC and SC of an entry; a row may be as short as one digit.
    for at in (0..pair.lib.lines.len()).rev() {
        if length == bytes {
            break;
        }
        if at % ENTRY != 1 && at % ENTRY != 3 {
            continue;
        }
        let word = if at % ENTRY == 1 { "CC" } else { "SC" };
        let mut groups = groups_of(&pair.lib.lines[at]);
        for row in groups.iter_mut().flatten() {
            while length > bytes && *row >= 0o20 {
                *row >>= 3;
                length -= 1;
            }
        }
        pair.lib.lines[at] = rows_line(word, &groups);
    }
    assert_eq!(pair.lib.bytes().len(), bytes);
    pair
}

/// A netlist of just so many bytes, which is accepted.
pub fn netlist_of(rng: &mut Random, bytes: usize) -> Pair {
    let mut pair = Pair::default();
    for _ in 0..4 {
        add_cell(rng, &mut pair, MOST_PINS, Style::Common);
        let name = random_name(rng, 8);
        let at = pair.lib.lines.len() - ENTRY;
        pair.lib.lines[at][1] = name.clone();
        pair.cells.last_mut().unwrap().name = name;
    }
    let shape = Shape {
        inputs: 20,
        gates: MOST_LINES - 20,
        undriven: 0,
        outputs: MOST_LINES,
        wiring: Wiring::Forward,
        order: Order::Forward,
        scattered: false,
    };
    add_netlist(rng, &mut pair, &shape);
    // Only pins on the last line make a text so long; it changes places with line 1, an input.
    for field in pair.net.lines.iter_mut().flatten() {
        if field == b"1" {
            *field = MOST_LINES.to_string().into_bytes();
        } else if *field == MOST_LINES.to_string().into_bytes() {
            *field = b"1".to_vec();
        }
    }
    let mut length = pair.net.bytes().len();
    for pin in pair
        .net
        .lines
        .iter_mut()
        .filter(|line| line[0] == b"gate")
        .flat_map(|line| &mut line[3..])
    {
        if length <= bytes {
            length += 4 - pin.len();
            *pin = MOST_LINES.to_string().into_bytes();
        }
    }
    // Whole output marks first, then single digits of pins.
    while length > bytes + 16 {
        let last = pair.net.lines.last().unwrap();
        if last[0] != b"output" {
            break;
        }
        length -= 8 + last[1].len();
        pair.net.lines.pop();
    }
    for line in pair.net.lines.iter_mut().filter(|line| line[0] == b"gate") {
        for pin in &mut line[3..] {
            while length > bytes && pin.len() > 1 {
                pin.pop();
                length -= 1;
            }
        }
    }
    assert_eq!(pair.net.bytes().len(), bytes);
    pair
}
