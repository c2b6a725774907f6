//! A new library under a standing analysis. Where it has the same entries in the same order and differs only by
//! rows added to groups, the sweeps go on from the standing numbers, CC and SC first, CO and SO after them; any
//! other that is accepted is analysed from the beginning, with the pads kept.

use crate::library::{Cell, Library, Row, Ways};
use crate::netlist::Netlist;
use crate::refusal::{TEXT_LONG, UNPADDABLE};
use crate::standing::{code, long_enough, mark, open, Standing, STANDING};
use crate::sweep::{self, Rule};
use crate::{both_read, low, Refusal, MOST_BYTES};

/// The two answers that are no refusal.
pub const BEGUN_AGAIN: u64 = 0;
pub const WENT_ON: u64 = 1;

/// Whether the old rows are among the new ones, in their order.
fn keeps(old: &[Row], new: &[Row]) -> bool {
    let mut rest = new.iter();
    old.iter().all(|row| rest.any(|other| other == row))
}

/// The groups of one kind.
fn groups<'a>(library: &'a Library, ways: &'a Ways) -> impl Iterator<Item = &'a [Row]> {
    ways.set
        .iter()
        .chain(&ways.observe)
        .map(|&group| library.rows(group))
}

/// Whether a cell is another with rows added, perhaps none: name, pins and heading are alike, and the one-wire
/// reading is not lost.
fn grown_cell(libraries: [&Library; 2], was: &Cell, is: &Cell) -> bool {
    let kept = |was: &Ways, is: &Ways| {
        groups(libraries[0], was)
            .zip(groups(libraries[1], is))
            .all(|(old, new)| keeps(old, new))
    };
    was.name == is.name
        && was.pins == is.pins
        && was.depth_bits == is.depth_bits
        && kept(&was.combinational, &is.combinational)
        && kept(&was.sequential, &is.sequential)
        && (is.one_wire || !was.one_wire)
}

/// Whether a library has the entries of another in their order, cells that no gate uses among them.
fn grown(old: &Library, new: &Library) -> bool {
    old.cells.len() == new.cells.len()
        && old
            .cells
            .iter()
            .zip(&new.cells)
            .all(|(was, is)| grown_cell([old, new], was, is))
}

/// Makes a new library's numbers stand, in the form of the C entry: `WENT_ON`, `BEGUN_AGAIN` or a refusal, which
/// touches nothing.
pub fn change_into(lib: &[u8], new_lib: &[u8], net: &[u8], table: &mut [u32]) -> u64 {
    code(change(lib, new_lib, net, table))
}

fn change(lib: &[u8], new_lib: &[u8], net: &[u8], table: &mut [u32]) -> Result<u64, Refusal> {
    long_enough(table.len(), STANDING)?;
    if [lib, new_lib, net]
        .iter()
        .any(|text| text.len() > MOST_BYTES)
    {
        return Err(Refusal::whole(TEXT_LONG));
    }
    // First whether it is a standing analysis of the texts at all.
    let opened = open(lib, net, table)?;
    let (more, netlist) = under(new_lib, net, &opened.standing.pads)?;
    let mut standing = opened.standing;
    let answer = if grown(&opened.library, &more) {
        // Numbers that no analysis left might rise for very long; of those that one left, none does.
        standing.counts = sweep::go_on(&more, &netlist, Rule::Keeps, &mut standing.numbers);
        WENT_ON
    } else {
        (standing.numbers, standing.counts) = low(&more, &netlist);
        BEGUN_AGAIN
    };
    table[..STANDING].copy_from_slice(&standing.words());
    Ok(answer)
}

/// The netlist read by name under a library, with the pads marked.
fn under(lib: &[u8], net: &[u8], pads: &[u32]) -> Result<(Library, Netlist), Refusal> {
    let (library, mut netlist) = both_read(lib, net)?;
    mark(&mut netlist, pads)?;
    Ok((library, netlist))
}

/// The table that the continued run leaves by the scope paper's own rule, by which each number of setting becomes
/// the least row sum. Only of what an analysis left: other numbers may rise for very long.
pub fn continued(new_lib: &[u8], net: &[u8], table: &[u32]) -> Result<Vec<u32>, Refusal> {
    let mut standing = Standing::held(table).ok_or(Refusal::whole(UNPADDABLE))?;
    let (library, netlist) = under(new_lib, net, &standing.pads)?;
    standing.counts = sweep::go_on(&library, &netlist, Rule::Becomes, &mut standing.numbers);
    Ok(standing.words())
}

#[cfg(test)]
mod tests;
