//! Random cells.

use super::{fields, rows_line, CellForm, Pair};
use crate::library::{MOST_CELLS, MOST_PINS, MOST_ROWS};
use crate::random::Random;

pub fn random_name(rng: &mut Random, length: usize) -> Vec<u8> {
    let letters = b"ABCDEFGHIJKLMNOPQRSTUVWXYZ0123456789";
    (0..length).map(|_| *rng.pick(letters)).collect()
}

/// A name that no cell has.
pub fn fresh_name(rng: &mut Random, cells: &[CellForm]) -> Vec<u8> {
    loop {
        let length = rng.within(1, 8);
        let name = if rng.once_in(8) {
            rng.pick(&[
                &b"M"[..],
                b"Z",
                b"END",
                b"CC",
                b"007",
                b"0",
                b"NAME",
                b"GATE",
                b"1000",
            ])
            .to_vec()
        } else {
            random_name(rng, length)
        };
        if cells.iter().all(|cell| cell.name != name) {
            return name;
        }
    }
}

/// How rows of a library are drawn.
#[derive(Clone, Copy, PartialEq)]
pub enum Style {
    /// AND, OR, their complements and a flip-flop, as a designer writes them.
    Common,
    /// Any row that the table of refusals lets pass.
    Any,
    /// Such rows, none of which names both values of one pin: pins that share a line are one wire.
    Wired,
    /// Groups of sixteen rows over eight pins.
    Largest,
    /// Any rows, with one in each group that asks for little: a change goes on from gate to gate.
    Carrying,
}

fn row(rng: &mut Random, columns: usize, style: Style) -> u32 {
    let all = (1u32 << columns) - 1;
    let few = if style == Style::Largest { 5 } else { 3 };
    let named = match rng.below(8) {
        0 => rng.next() as u32 & all,
        1 if columns < 6 || rng.once_in(4) => all,
        _ => (0..rng.within(1, few)).fold(0, |row, _| row | 1 << rng.below(columns)),
    };
    // Some column must be named where pins are set.
    let named = if named == 0 {
        1 << rng.below(columns)
    } else {
        named
    };
    named << 1 | rng.below(2) as u32
}

fn group(rng: &mut Random, style: Style, mut draw: impl FnMut(&mut Random) -> u32) -> Vec<u32> {
    let rows = match style {
        Style::Largest => MOST_ROWS,
        _ => match rng.below(12) {
            0 => rng.within(3, MOST_ROWS),
            1..=4 => 2,
            _ => 1,
        },
    };
    (0..rows).map(|_| draw(rng)).collect()
}

/// Puts a row into each group that asks for the first pin alone, or for nothing but the observed
/// output. Some ask for both of the pin's values, so that costs grow fast; some zeros ask for the
/// last pin at 1, often the gate's own output, so that 0 and 1 are found in different sweeps.
fn carry(rng: &mut Random, pins: usize, lines: &mut [Vec<Vec<u32>>; 4]) {
    for (line, groups) in lines.iter_mut().enumerate() {
        for (place, rows) in groups.iter_mut().enumerate() {
            let named = match rng.below(8) {
                0 if line % 2 == 1 => (rng.within(1, 3) as u32) << (2 * pins + 1),
                _ if line % 2 == 1 => 0,
                0 => 3 << (2 * pins - 1),
                1 | 2 if place == 0 => 1 << 1,
                _ => 1 << (2 * pins - rng.below(2)),
            };
            let observed = (line % 2 == 1) as u32;
            let at = rng.below(rows.len());
            rows[at] = observed << (2 * pins + 3) | named | rng.below(2) as u32;
        }
    }
}

/// One or both groups of a CC or SC line made Z; the rows of the other may then name no pin.
fn tie(rng: &mut Random, groups: &mut [Vec<u32>]) {
    let at = rng.below(2);
    groups[at].clear();
    if rng.once_in(4) {
        groups[1 - at].clear();
    }
    for row in &mut groups[1 - at] {
        if rng.once_in(2) {
            *row &= 1;
        }
    }
}

/// Leaves one value of each pin that a row names at both.
fn part(rng: &mut Random, pins: usize, lines: &mut [Vec<Vec<u32>>; 4]) {
    for row in lines.iter_mut().flatten().flatten() {
        for pin in 0..pins {
            if *row >> (2 * pin + 1) & 3 == 3 {
                *row &= !(1 << (2 * pin + 1 + rng.below(2)));
            }
        }
    }
}

/// A CC or SC line of a cell without pins.
fn tied(rng: &mut Random) -> Vec<Vec<u32>> {
    let mut groups: Vec<Vec<u32>> = (0..2)
        .map(|_| group(rng, Style::Any, |rng| rng.below(2) as u32))
        .collect();
    tie(rng, &mut groups);
    groups
}

/// The four lines of rows of a cell.
fn ways(rng: &mut Random, pins: usize, style: Style) -> [Vec<Vec<u32>>; 4] {
    if pins == 0 {
        return [tied(rng), Vec::new(), tied(rng), Vec::new()];
    }
    if style != Style::Common {
        let set = |rng: &mut Random| -> Vec<Vec<u32>> {
            (0..2)
                .map(|_| group(rng, style, |rng| row(rng, 2 * pins, style)))
                .collect()
        };
        let observe = |rng: &mut Random| -> Vec<Vec<u32>> {
            let seen = 1 << (2 * pins + 3);
            let draw = |rng: &mut Random| {
                if rng.once_in(6) {
                    seen | rng.below(2) as u32
                } else {
                    seen | row(rng, 2 * pins + 2, style)
                }
            };
            (0..pins).map(|_| group(rng, style, draw)).collect()
        };
        let mut lines = [set(rng), observe(rng), set(rng), observe(rng)];
        if style == Style::Carrying {
            carry(rng, pins, &mut lines);
        }
        if matches!(style, Style::Any | Style::Wired) {
            for (line, groups) in lines.iter_mut().enumerate() {
                if line % 2 == 0 && rng.once_in(6) {
                    tie(rng, groups);
                }
                if line % 2 == 1 && rng.once_in(6) {
                    groups[rng.below(pins)].clear();
                }
            }
        }
        if style == Style::Wired {
            part(rng, pins, &mut lines);
        }
        return lines;
    }
    // A gate whose output is fixed by one pin at `value`, and needs all pins at the other for the
    // opposite; `inverted` says which output that is.
    let value = rng.below(2);
    let inverted = rng.below(2);
    let depth = rng.below(4) as u32 / 3;
    let column = |pin: usize, value: usize| 1u32 << (2 * (pins - 1 - pin) + 2 - value);
    let one: Vec<u32> = (0..pins).map(|pin| column(pin, value)).collect();
    let all = (0..pins).fold(0, |row, pin| row | column(pin, 1 - value));
    let seen = 1u32 << (2 * pins + 3);
    let observe: Vec<Vec<u32>> = (0..pins)
        .map(|pin| vec![seen | all & !column(pin, 1 - value)])
        .collect();
    let with = |groups: &[Vec<u32>], depth: u32| -> Vec<Vec<u32>> {
        groups
            .iter()
            .map(|rows| rows.iter().map(|row| row | depth).collect())
            .collect()
    };
    let mut set = [one, vec![all]];
    if inverted == 1 {
        set.swap(0, 1);
    }
    [
        with(&set, 1),
        with(&observe, 1),
        with(&set, depth),
        with(&observe, depth),
    ]
}

/// A row under `Name` as `Name3` writes it, often deeper.
fn deepened(rng: &mut Random, row: u32) -> u32 {
    let depth = if rng.once_in(2) {
        row & 1
    } else {
        rng.below(8) as u32
    };
    row >> 1 << 3 | depth
}

pub fn add_cell(rng: &mut Random, pair: &mut Pair, pins: usize, style: Style) {
    let name = fresh_name(rng, &pair.cells);
    let mut lines = ways(rng, pins, style);
    let deep = style != Style::Largest && rng.once_in(3);
    if deep {
        for row in lines.iter_mut().flatten().flatten() {
            *row = deepened(rng, *row);
        }
    }
    let [cc, co, sc, so] = lines;
    let word = if deep { "Name3" } else { "Name" };
    let head = vec![
        word.as_bytes().to_vec(),
        name.clone(),
        pins.to_string().into_bytes(),
    ];
    pair.lib.lines.push(head);
    for (word, groups) in [("CC", cc), ("CO", co), ("SC", sc), ("SO", so)] {
        pair.lib.lines.push(rows_line(word, &groups));
    }
    pair.lib.lines.push(fields("End"));
    pair.cells.push(CellForm { name, pins, deep });
}

pub fn add_cells(rng: &mut Random, pair: &mut Pair, count: usize, style: Style) {
    for _ in 0..count.min(MOST_CELLS) {
        let pins = match (style, rng.below(8)) {
            (Style::Largest, _) | (_, 0) => MOST_PINS,
            (_, 1..=3) => 2,
            _ => rng.within(0, MOST_PINS),
        };
        add_cell(rng, pair, pins, style);
    }
}
