//! Libraries that a pair's library is changed to: with rows added to its groups, or in another way, with what
//! the change must answer.

use crate::damage::{any_damage, overlong};
use crate::generate::{add_cell, fresh_name, groups_of, rows_line, Pair, Style, ENTRY};
use crate::library::{MOST_CELLS, MOST_PINS, MOST_ROWS};
use crate::random::Random;
use crate::refusal::{CELLS_MANY, CELL_UNKNOWN, PINS_DIFFER, TEXT_LONG};
use crate::{Refusal, MOST_BYTES};

/// The lines of rows of an entry, by their places in it.
pub const WORDS: [(usize, &str); 4] = [(1, "CC"), (2, "CO"), (3, "SC"), (4, "SO")];

/// What becomes of a library.
#[derive(Clone, Copy, Debug, PartialEq, Eq)]
pub enum Kind {
    /// Nothing.
    Same,
    /// Rows are added, and no cell loses the one-wire reading.
    RowsAdded,
    /// Some cell loses it, by a row of the line at this place of `WORDS`.
    WireLost(usize),
    /// Two entries change places.
    Moved,
    /// Two cells change names.
    NamesExchanged,
    /// `Name` and `Name3` change places, with the same depths and columns.
    Headed,
    RowDropped,
    /// A row gets another depth; perhaps one more of these is added.
    RowReplaced,
    /// Two rows of a group change places.
    RowsExchanged,
    EntryAdded,
    /// A cell that no gate uses goes, gets another name, or another count of pins.
    UnusedGone,
    UnusedRenamed,
    UnusedPins,
    /// The same of one that a gate uses.
    UsedGone,
    UsedRenamed,
    UsedPins,
    /// It is refused at a line, or for its length.
    Damaged,
    Overlong,
}

pub const KINDS: [Kind; 21] = [
    Kind::Same,
    Kind::RowsAdded,
    Kind::WireLost(0),
    Kind::WireLost(1),
    Kind::WireLost(2),
    Kind::WireLost(3),
    Kind::Moved,
    Kind::NamesExchanged,
    Kind::Headed,
    Kind::RowDropped,
    Kind::RowReplaced,
    Kind::RowsExchanged,
    Kind::EntryAdded,
    Kind::UnusedGone,
    Kind::UnusedRenamed,
    Kind::UnusedPins,
    Kind::UsedGone,
    Kind::UsedRenamed,
    Kind::UsedPins,
    Kind::Damaged,
    Kind::Overlong,
];

/// Those that few pairs have a place for.
const RARE: [Kind; 4] = [
    Kind::NamesExchanged,
    Kind::UnusedGone,
    Kind::UnusedRenamed,
    Kind::UnusedPins,
];

/// A pair under its new library. The netlist is as it was.
pub struct Changed {
    pub pair: Pair,
    pub lib: Vec<u8>,
    pub kind: Kind,
    /// Whether the sweeps go on, or where it is refused.
    pub wanted: Result<bool, Refusal>,
    /// Of a cell that lost the one-wire reading: no gate uses it.
    pub unused: bool,
}

/// Changes a pair's library so, if it has a place for that.
pub fn changed(rng: &mut Random, pair: &Pair, kind: Kind) -> Option<Changed> {
    let mut pair = pair.clone();
    let mut unused = false;
    let mut wanted = Ok(matches!(kind, Kind::Same | Kind::RowsAdded));
    match kind {
        Kind::Same => {}
        Kind::RowsAdded => {
            let most = *rng.pick(&[1, 1, 3, 12]);
            let tried = 1 + rng.below(most);
            let added = (0..tried).filter(|_| add_any_row(rng, &mut pair)).count();
            if added == 0 {
                return None;
            }
        }
        Kind::WireLost(word) => {
            let cell = lose_wire(rng, &mut pair, word)?;
            unused = first_use(&pair, cell).is_none();
        }
        Kind::Moved => {
            let [one, other] = two(rng, pair.cells.len())?;
            pair.cells.swap(one, other);
            for line in 0..ENTRY {
                pair.lib
                    .lines
                    .swap(one * ENTRY + line, other * ENTRY + line);
            }
        }
        Kind::NamesExchanged => {
            // Of as many pins, so that the netlist is accepted.
            let alike: Vec<[usize; 2]> = (0..pair.cells.len())
                .flat_map(|one| (0..one).map(move |other| [one, other]))
                .filter(|cells| {
                    let [one, other] = cells.map(|cell| pair.cells[cell].pins);
                    one == other
                })
                .collect();
            if alike.is_empty() {
                return None;
            }
            let [one, other] = *rng.pick(&alike);
            let names = [one, other].map(|cell| pair.cells[cell].name.clone());
            rename(&mut pair, one, names[1].clone());
            rename(&mut pair, other, names[0].clone());
        }
        Kind::Headed => head_anew(rng, &mut pair)?,
        Kind::RowDropped => {
            any_group(rng, &mut pair, |rng, rows| {
                rows.remove(rng.below(rows.len()));
                true
            })?;
        }
        Kind::RowReplaced => {
            any_group(rng, &mut pair, |rng, rows| {
                let at = rng.below(rows.len());
                rows[at] ^= 1;
                // One more, so that the group is longer, and no row takes the lost one's place.
                if rows.len() < MOST_ROWS && rng.once_in(2) {
                    let row = rows[at];
                    rows.insert(rng.within(0, rows.len()), row);
                }
                true
            })?;
        }
        Kind::RowsExchanged => {
            any_group(rng, &mut pair, |rng, rows| {
                let Some([one, other]) = two(rng, rows.len()) else {
                    return false;
                };
                rows.swap(one, other);
                rows[one] != rows[other]
            })?;
        }
        Kind::EntryAdded => add_entry(rng, &mut pair)?,
        Kind::UnusedGone | Kind::UsedGone => {
            let cell = any_cell(rng, &pair, kind == Kind::UsedGone)?;
            wanted = refusal_of(&pair, cell, CELL_UNKNOWN);
            pair.cells.remove(cell);
            pair.lib.lines.drain(cell * ENTRY..(cell + 1) * ENTRY);
        }
        Kind::UnusedRenamed | Kind::UsedRenamed => {
            let cell = any_cell(rng, &pair, kind == Kind::UsedRenamed)?;
            wanted = refusal_of(&pair, cell, CELL_UNKNOWN);
            let name = fresh_name(rng, &pair.cells);
            rename(&mut pair, cell, name);
        }
        Kind::UnusedPins | Kind::UsedPins => {
            let cell = any_cell(rng, &pair, kind == Kind::UsedPins)?;
            wanted = refusal_of(&pair, cell, PINS_DIFFER);
            other_pins(rng, &mut pair, cell);
        }
        Kind::Damaged => wanted = Err(damage_library(rng, &mut pair)),
        Kind::Overlong => {}
    }
    // Rows may be added besides, but for where one might undo the change.
    let of_rows = matches!(
        kind,
        Kind::RowDropped | Kind::RowReplaced | Kind::RowsExchanged
    );
    if wanted == Ok(false) && !of_rows && rng.once_in(2) {
        add_any_row(rng, &mut pair);
    }
    let mut lib = pair.lib.bytes();
    if kind == Kind::Overlong {
        overlong(rng, &mut lib);
    }
    if lib.len() > MOST_BYTES {
        wanted = Err(Refusal::whole(TEXT_LONG));
    }
    Some(Changed {
        pair,
        lib,
        kind,
        wanted,
        unused,
    })
}

/// A change of any kind that the pair has a place for.
pub fn any_change(rng: &mut Random, pair: &Pair) -> Changed {
    loop {
        let kind = match rng.below(12) {
            0 => Kind::Same,
            1..=3 => Kind::RowsAdded,
            4 => *rng.pick(&RARE),
            _ => *rng.pick(&KINDS),
        };
        // A library that stays the same always finds a place.
        if let Some(changed) = changed(rng, pair, kind) {
            return changed;
        }
    }
}

/// Two different places below a count.
fn two(rng: &mut Random, count: usize) -> Option<[usize; 2]> {
    if count < 2 {
        return None;
    }
    let one = rng.below(count);
    let other = (one + rng.within(1, count - 1)) % count;
    Some([one, other])
}

/// The netlist's first line, from 0, with a gate of a cell.
fn first_use(pair: &Pair, cell: usize) -> Option<usize> {
    let name = &pair.cells[cell].name;
    pair.net
        .lines
        .iter()
        .position(|line| line[0] == b"gate" && line[1] == *name)
}

/// Where a netlist is refused under a library that lacks a cell, or has it otherwise.
fn refusal_of(pair: &Pair, cell: usize, number: u32) -> Result<bool, Refusal> {
    match first_use(pair, cell) {
        None => Ok(false),
        Some(at) => Err(Refusal {
            number,
            line: at as u32 + 1,
        }),
    }
}

/// A cell that some gate uses, or that none does.
fn any_cell(rng: &mut Random, pair: &Pair, used: bool) -> Option<usize> {
    let cells: Vec<usize> = (0..pair.cells.len())
        .filter(|&cell| first_use(pair, cell).is_some() == used)
        .collect();
    (!cells.is_empty()).then(|| *rng.pick(&cells))
}

fn rename(pair: &mut Pair, cell: usize, name: Vec<u8>) {
    pair.lib.lines[cell * ENTRY][1] = name.clone();
    pair.cells[cell].name = name;
}

/// An entry with other rows and another count of pins under the same name.
fn other_pins(rng: &mut Random, pair: &mut Pair, cell: usize) {
    let pins = (pair.cells[cell].pins + rng.within(1, MOST_PINS)) % (MOST_PINS + 1);
    let mut other = Pair::default();
    add_cell(rng, &mut other, pins, Style::Common);
    let mut form = other.cells.remove(0);
    form.name = pair.cells[cell].name.clone();
    other.lib.lines[0][1] = form.name.clone();
    pair.cells[cell] = form;
    pair.lib
        .lines
        .splice(cell * ENTRY..(cell + 1) * ENTRY, other.lib.lines);
}

/// An entry more, somewhere among the others.
fn add_entry(rng: &mut Random, pair: &mut Pair) -> Option<()> {
    if pair.cells.len() == MOST_CELLS {
        return None;
    }
    let pins = rng.within(0, MOST_PINS);
    add_cell(rng, pair, pins, Style::Common);
    let at = rng.below(pair.cells.len());
    pair.cells[at..].rotate_right(1);
    pair.lib.lines[at * ENTRY..].rotate_right(ENTRY);
    Some(())
}

/// Damage to the library alone.
fn damage_library(rng: &mut Random, pair: &mut Pair) -> Refusal {
    loop {
        let mut damaged = pair.clone();
        let refusal = any_damage(rng, &mut damaged);
        if refusal.number <= CELLS_MANY {
            pair.lib = damaged.lib;
            return refusal;
        }
    }
}

/// The other heading, where the depths of all rows can be written under it.
fn head_anew(rng: &mut Random, pair: &mut Pair) -> Option<()> {
    if pair.cells.is_empty() {
        return None;
    }
    let cell = rng.below(pair.cells.len());
    let deep = pair.cells[cell].deep;
    for (line, word) in WORDS {
        let line = &mut pair.lib.lines[cell * ENTRY + line];
        let mut groups = groups_of(line);
        for row in groups.iter_mut().flatten() {
            if deep && *row & 7 > 1 {
                return None;
            }
            *row = if deep {
                *row >> 3 << 1 | *row & 1
            } else {
                *row >> 1 << 3 | *row & 1
            };
        }
        *line = rows_line(word, &groups);
    }
    let word = if deep { "Name" } else { "Name3" };
    pair.lib.lines[cell * ENTRY][0] = word.as_bytes().to_vec();
    pair.cells[cell].deep = !deep;
    Some(())
}

/// Does something to a group that has rows, if it does anything; some tries have to do.
fn any_group(
    rng: &mut Random,
    pair: &mut Pair,
    edit: impl Fn(&mut Random, &mut Vec<u32>) -> bool,
) -> Option<()> {
    for _ in 0..8 * pair.cells.len() {
        let at = rng.below(pair.cells.len()) * ENTRY;
        let (line, word) = *rng.pick(&WORDS);
        let line = &mut pair.lib.lines[at + line];
        let mut groups = groups_of(line);
        if groups.is_empty() {
            continue;
        }
        let group = rng.below(groups.len());
        if !groups[group].is_empty() && edit(rng, &mut groups[group]) {
            *line = rows_line(word, &groups);
            return Some(());
        }
    }
    None
}

/// How many bits of a row, as its entry writes it, are its depth.
fn depth_bits(deep: bool) -> u32 {
    if deep {
        3
    } else {
        1
    }
}

/// Whether the line at this place of `WORDS` has the rows that set the output.
fn sets(word: usize) -> bool {
    word % 2 == 0
}

/// Whether a row's columns name both values of a pin.
fn both_values(columns: u32, pins: usize) -> bool {
    (0..pins).any(|pin| columns >> (2 * pin) & 3 == 3)
}

/// Whether pins of a cell that share a line are one wire.
pub fn one_wire(pair: &Pair, cell: usize) -> bool {
    let form = &pair.cells[cell];
    let bits = depth_bits(form.deep);
    WORDS.iter().all(|(line, _)| {
        groups_of(&pair.lib.lines[cell * ENTRY + line])
            .iter()
            .flatten()
            .all(|row| !both_values(row >> bits, form.pins))
    })
}

/// Puts a row of these columns, those of the output but for "observe the output" among them, somewhere into a
/// group of a line, if the library is accepted with it.
fn put_row(
    rng: &mut Random,
    pair: &mut Pair,
    cell: usize,
    word: usize,
    group: usize,
    columns: u32,
) -> bool {
    let form = pair.cells[cell].clone();
    let (line, name) = WORDS[word];
    let line = &mut pair.lib.lines[cell * ENTRY + line];
    let mut groups = groups_of(line);
    let Some(rows) = groups.get(group) else {
        return false;
    };
    if rows.len() == MOST_ROWS {
        return false;
    }
    let bits = depth_bits(form.deep);
    let sets = sets(word);
    let seen = if sets { 0 } else { 1 << (2 * form.pins + 2) };
    let depth = match rng.below(3) {
        0 => rng.below(1 << bits) as u32,
        _ => 0,
    };
    let row = (columns | seen) << bits | depth;
    let at = rng.within(0, rows.len());
    groups[group].insert(at, row);
    // A row that names no pin stands only beside a Z.
    let unnamed = groups.iter().flatten().any(|row| row >> bits == 0);
    if sets && unnamed && groups.iter().all(|rows| !rows.is_empty()) {
        return false;
    }
    *line = rows_line(name, &groups);
    true
}

/// The columns of a new row: mostly few, so that it is cheap.
fn any_columns(rng: &mut Random, pins: usize, sets: bool) -> u32 {
    let width = 2 * pins + if sets { 0 } else { 2 };
    if width == 0 || (!sets && rng.once_in(3)) {
        return 0;
    }
    match rng.below(8) {
        0 => rng.next() as u32 & ((1 << width) - 1),
        1 | 2 => 1 << rng.below(width) | 1 << rng.below(width),
        _ => 1 << rng.below(width),
    }
}

/// Adds a row to any group, sometimes one that the group has; no cell loses the one-wire reading.
fn add_row_to(rng: &mut Random, pair: &mut Pair, cell: usize, word: usize) -> bool {
    let form = &pair.cells[cell];
    let pins = form.pins;
    let bits = depth_bits(form.deep);
    let sets = sets(word);
    let groups = groups_of(&pair.lib.lines[cell * ENTRY + WORDS[word].0]);
    if groups.is_empty() {
        return false;
    }
    let group = rng.below(groups.len());
    let mut columns = any_columns(rng, pins, sets);
    if rng.once_in(4) && !groups[group].is_empty() {
        let seen = 1 << (2 * pins + 2);
        columns = (*rng.pick(&groups[group]) >> bits) & !seen;
    }
    if one_wire(pair, cell) {
        // Of both values of a pin one stays.
        for pin in 0..pins {
            if columns >> (2 * pin) & 3 == 3 {
                columns &= !(1 << (2 * pin + rng.below(2)));
            }
        }
    }
    put_row(rng, pair, cell, word, group, columns)
}

/// Adds a row somewhere; some tries have to do.
fn add_any_row(rng: &mut Random, pair: &mut Pair) -> bool {
    (0..4).any(|_| {
        let count = pair.cells.len();
        if count == 0 {
            return false;
        }
        let cell = rng.below(count);
        let word = rng.below(WORDS.len());
        add_row_to(rng, pair, cell, word)
    })
}

/// Adds a row that names both values of a pin to a one-wire cell, and answers the cell.
fn lose_wire(rng: &mut Random, pair: &mut Pair, word: usize) -> Option<usize> {
    let cells: Vec<usize> = (0..pair.cells.len())
        .filter(|&cell| pair.cells[cell].pins > 0 && one_wire(pair, cell))
        .collect();
    if cells.is_empty() {
        return None;
    }
    let cell = *rng.pick(&cells);
    let pins = pair.cells[cell].pins;
    let sets = sets(word);
    let group = rng.below(if sets { 2 } else { pins });
    let columns = 3 << (2 * rng.below(pins));
    put_row(rng, pair, cell, word, group, columns).then_some(cell)
}

/// Adds one row to a group of a pair's library, which is cheap, and is accepted: the library as text.
pub fn one_row(rng: &mut Random, pair: &Pair, cell: usize, word: usize) -> Option<Vec<u8>> {
    let mut pair = pair.clone();
    add_row_to(rng, &mut pair, cell, word).then(|| pair.lib.bytes())
}
