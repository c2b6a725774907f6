//! Damage to a library.

use super::{bad_field, non_zero, take, WORDS};
use crate::generate::{
    add_cell, fields, groups_of, rows_line, CellForm, Fields, Pair, Style, ENTRY,
};
use crate::library::{MOST_CELLS, MOST_ROWS};
use crate::random::Random;
use crate::refusal::*;

/// Bad form of one line of an entry.
pub(super) fn bad_entry_line(rng: &mut Random, line: &mut Fields, place: usize, deep: bool) {
    let rows = (1..=4).contains(&place);
    if rows && rng.once_in(2) {
        let mark = b"M".to_vec();
        match rng.below(8) {
            0 => line.insert(1, mark),
            1 => line.push(mark),
            // A Z joined to what stands behind it, or before it.
            5 => {
                line.insert(1, mark);
                line.insert(1, b"Z".to_vec());
            }
            6 => {
                line.push(mark);
                line.push(b"Z".to_vec());
            }
            7 => {
                let bad = rng.pick(&["ZZ", "z", "Z0", "0Z", "ZM"]).as_bytes().to_vec();
                line.insert(rng.within(1, line.len()), bad);
            }
            2 => {
                // Two after another, between rows or where they part.
                let at = rng.within(1, line.len());
                line.insert(at, mark.clone());
                line.insert(at, mark);
            }
            3 => {
                line.truncate(1);
                line.push(mark);
            }
            _ => {
                let at = rng.within(1, line.len());
                line.insert(at, Vec::new());
            }
        }
        return;
    }
    if !rows && rng.once_in(4) {
        match (place, rng.below(2)) {
            (0, 0) => {
                line.pop();
            }
            _ => line.push(rng.pick(&[&b""[..], b"1", b"A"]).to_vec()),
        }
        return;
    }
    let at = rng.below(line.len());
    let kind = match (place, at) {
        (_, 0) => 0,
        (0, 1) => 1,
        (0, _) => 2,
        // An M beside a number of bad form changes nothing: the line is bad form either way.
        _ => 3 + usize::from(deep),
    };
    line[at] = bad_field(rng, &line[at].clone(), kind);
}

pub(super) fn library_form(rng: &mut Random, pair: &mut Pair) -> Option<usize> {
    let lines = &mut pair.lib.lines;
    let count = lines.len();
    if count == 0 || rng.once_in(12) {
        // Something that is no Name line between entries or past the last.
        let at = rng.within(0, pair.cells.len()) * ENTRY;
        lines.insert(
            at,
            fields(rng.pick::<&str>(&["", "End", "CC", "Name", ","])),
        );
        return Some(at);
    }
    let at = rng.below(count);
    match rng.below(12) {
        0 => {
            lines.remove(at);
            Some(at)
        }
        1 => {
            lines.insert(at, lines[at].clone());
            Some(at + 1)
        }
        2 => {
            lines.insert(at, fields(""));
            Some(at)
        }
        3 => {
            pair.lib.unended = true;
            Some(count - 1)
        }
        4 => {
            // Broken off inside an entry: 3 at the line after the last.
            let at = if at % ENTRY == 0 { at + 1 } else { at };
            lines.truncate(at);
            Some(at)
        }
        5 if at + 1 < count => {
            lines.swap(at, at + 1);
            Some(at)
        }
        _ => {
            let deep = pair.cells[at / ENTRY].deep;
            bad_entry_line(rng, &mut lines[at], at % ENTRY, deep);
            Some(at)
        }
    }
}

pub(super) fn used_name(rng: &mut Random, pair: &mut Pair) -> Option<usize> {
    let cells = non_zero(pair.cells.len())?;
    if cells == 1 || rng.once_in(4) {
        // The whole entry once more at the end, a 33rd one, too.
        let from = rng.below(cells) * ENTRY;
        let entry = pair.lib.lines[from..from + ENTRY].to_vec();
        pair.lib.lines.extend(entry);
        return Some(cells * ENTRY);
    }
    let later = rng.within(1, cells - 1);
    let earlier = rng.below(later);
    pair.lib.lines[later * ENTRY][1] = pair.cells[earlier].name.clone();
    Some(later * ENTRY)
}

pub(super) fn bad_pins(rng: &mut Random, line: &mut Fields) {
    line[2] = match rng.below(6) {
        0..=2 => b"9".to_vec(),
        3 => b"10".to_vec(),
        4 => b"99999".to_vec(),
        _ => rng.within(9, 99_999).to_string().into_bytes(),
    };
}

/// A random line of rows.
pub(super) fn rows_place(rng: &mut Random, pair: &Pair) -> Option<usize> {
    let cells = non_zero(pair.cells.len())?;
    Some(rng.below(cells) * ENTRY + rng.within(1, 4))
}

/// CO and SO of a cell without pins have no row to damage.
pub(super) fn has_place(place: usize, pins: usize, number: u32) -> bool {
    pins > 0 || place % 2 == 1 || number == GROUPS_BAD
}

/// Damages a line of rows for the groups, a bit above the columns, or a row that names too little.
pub(super) fn bad_rows(
    rng: &mut Random,
    line: &mut Fields,
    place: usize,
    cell: &CellForm,
    number: u32,
) {
    let mut groups = groups_of(line);
    let observe = place % 2 == 0;
    let columns = if observe {
        2 * cell.pins + 3
    } else {
        2 * cell.pins
    };
    // The highest bit that may be set, and how many depths there are.
    let top = columns + cell.higher();
    let depths = 2 << cell.higher();
    match number {
        GROUPS_BAD if groups.is_empty() => groups.push(if rng.once_in(2) {
            Vec::new()
        } else {
            vec![rng.below(32) as u32]
        }),
        GROUPS_BAD => match rng.below(4) {
            0 => groups.clear(),
            1 => {
                groups.remove(rng.below(groups.len()));
            }
            2 => {
                let more = rng.pick(&groups).clone();
                groups.insert(rng.within(0, groups.len()), more);
            }
            _ => {
                let at = rng.below(groups.len());
                let row = groups[at].first().copied().unwrap_or(0);
                let rows = if rng.once_in(3) {
                    rng.within(17, 300)
                } else {
                    MOST_ROWS + 1
                };
                groups[at].resize(rows, row);
            }
        },
        BIT_ABOVE => {
            let at = rng.below(groups.len());
            if groups[at].is_empty() {
                groups[at].push(0);
            }
            let row = rng.below(groups[at].len());
            // The lowest bit above the columns, or any that the digits hold.
            let bit = if rng.once_in(2) {
                top + 1
            } else {
                rng.within(top + 1, if cell.deep { 23 } else { 20 })
            };
            let kept = if rng.once_in(3) { 0 } else { groups[at][row] };
            groups[at][row] = kept | 1 << bit;
        }
        _ => {
            // A row where there was a Z, which would except the rows of the other group.
            for group in &mut groups {
                if group.is_empty() {
                    group.push(rng.below(depths) as u32);
                }
            }
            let at = rng.below(groups.len());
            let row = rng.below(groups[at].len());
            groups[at][row] = match (observe, rng.below(3)) {
                (true, 0) => rng.below(depths) as u32,
                (true, _) => groups[at][row] & !(1 << top),
                (false, _) => rng.below(depths) as u32,
            };
        }
    }
    *line = rows_line(WORDS[place], &groups);
}

pub(super) fn entry_33(rng: &mut Random, pair: &mut Pair) -> Option<usize> {
    while pair.cells.len() < MOST_CELLS + 1 {
        let pins = rng.within(1, 3);
        add_cell(rng, pair, pins, Style::Common);
    }
    // Nothing after the 33rd Name line is read.
    if rng.once_in(3) {
        let kept = MOST_CELLS * ENTRY + rng.within(1, ENTRY - 1);
        pair.lib.lines.truncate(kept);
    }
    if rng.once_in(3) {
        pair.lib.lines.push(fields("junk"));
    }
    Some(MOST_CELLS * ENTRY)
}

pub(super) fn one_name_line(rng: &mut Random, pair: &mut Pair, lowest: &mut u32) -> Option<usize> {
    let mut at = (non_zero(pair.cells.len())? - 1) * ENTRY;
    if take(rng, lowest, CELLS_MANY, false) {
        at = entry_33(rng, pair)?;
    }
    let line = &mut pair.lib.lines[at];
    if take(rng, lowest, PINS_BAD, false) {
        bad_pins(rng, line);
    }
    if at > 0 && take(rng, lowest, NAME_USED, false) {
        line[1] = pair.cells[rng.below(at / ENTRY)].name.clone();
    }
    if take(rng, lowest, LIBRARY_FORM, true) {
        bad_entry_line(rng, line, 0, false);
    }
    Some(at)
}

pub(super) fn one_rows_line(rng: &mut Random, pair: &mut Pair, lowest: &mut u32) -> Option<usize> {
    let at = rows_place(rng, pair)?;
    let place = at % ENTRY;
    let cell = &pair.cells[at / ENTRY];
    let line = &mut pair.lib.lines[at];
    // Where 8 and 7 fall on one row, only 7 is left of them.
    for number in [ROW_IDLE, BIT_ABOVE, GROUPS_BAD] {
        if has_place(place, cell.pins, number) && take(rng, lowest, number, false) {
            bad_rows(rng, line, place, cell, number);
        }
    }
    if take(rng, lowest, LIBRARY_FORM, true) {
        bad_entry_line(rng, line, place, cell.deep);
    }
    Some(at)
}
