//! Which netlists document 02, K8, speaks of: without loops and open lines, built only of cells that a
//! truth table makes; and whether each line is read by at most one pin.

use crate::cell;
use crate::library::{self, Cell, Group, Library};
use crate::netlist::Netlist;
use crate::MOST_LINES;

/// 0 where K8 says nothing of the netlist, 1 where its first sentence holds of it, 2 where both do.
pub fn qualifies(library: &Library, netlist: &Netlist) -> u64 {
    let built = netlist
        .gates
        .iter()
        .all(|gate| generated(library, &library.cells[gate.cell]));
    match built && acyclic(netlist) && !open(netlist) {
        false => 0,
        true => 1 + u64::from(read_once(netlist)),
    }
}

/// The rows of a group, depth and columns.
fn rows(library: &Library, group: Group) -> Vec<(u32, u32)> {
    let rows = library.rows(group).iter();
    rows.map(|row| (row.depth, row.columns)).collect()
}

/// All groups of a cell.
fn groups(library: &Library, cell: &Cell) -> Vec<Vec<(u32, u32)>> {
    [&cell.combinational, &cell.sequential]
        .into_iter()
        .flat_map(|ways| ways.set.iter().chain(&ways.observe[..cell.pins]))
        .map(|&group| rows(library, group))
        .collect()
}

/// Whether the groups of a cell are those of some truth table: the outputs are read off the rows that
/// set the output to 1, and the entry is made anew.
fn generated(library: &Library, own: &Cell) -> bool {
    if own.pins > 4 {
        return false;
    }
    let ones = rows(library, own.combinational.set[1]);
    let bits: String = (0..1u32 << own.pins)
        .map(|setting| {
            // Column 2i of a row is the last pin but i at 1, column 2i + 1 the same at 0.
            let against = |columns: u32| {
                (0..own.pins).any(|at| columns >> (2 * at + (setting >> at & 1) as usize) & 1 == 1)
            };
            let met = ones.iter().any(|&(_, columns)| !against(columns));
            if met {
                '1'
            } else {
                '0'
            }
        })
        .collect();
    let line = format!("A,{},{bits}\n", own.pins);
    let Ok(entry) = cell::cell(line.as_bytes()) else {
        return false;
    };
    let Ok(made) = library::read(entry.as_bytes()) else {
        return false;
    };
    groups(&made, &made.cells[0]) == groups(library, own)
}

/// The gate that drives each line.
fn drivers(netlist: &Netlist) -> Vec<Option<usize>> {
    let mut drivers = vec![None; MOST_LINES + 1];
    for (at, gate) in netlist.gates.iter().enumerate() {
        drivers[gate.output()] = Some(at);
    }
    drivers
}

/// Depth first, from each gate against the way of the values: a gate met again before it is left is on
/// a loop.
fn acyclic(netlist: &Netlist) -> bool {
    let drivers = drivers(netlist);
    let mut entered = vec![false; netlist.gates.len()];
    let mut left = entered.clone();
    for start in 0..netlist.gates.len() {
        // A gate, and the next of its pins to go on by.
        let mut way = vec![(start, 0)];
        while let Some((at, pin)) = way.pop() {
            let gate = &netlist.gates[at];
            if pin == 0 {
                if left[at] {
                    continue;
                }
                entered[at] = true;
            }
            if pin == gate.pins {
                left[at] = true;
                continue;
            }
            way.push((at, pin + 1));
            if let Some(next) = drivers[gate.pin(pin)] {
                if entered[next] && !left[next] {
                    return false;
                }
                way.push((next, 0));
            }
        }
    }
    true
}

/// Whether a line that is mentioned has no driver.
fn open(netlist: &Netlist) -> bool {
    let drivers = drivers(netlist);
    (1..=MOST_LINES).any(|line| {
        let marks = netlist.marks[line];
        marks.mentioned && !marks.input && drivers[line].is_none()
    })
}

fn read_once(netlist: &Netlist) -> bool {
    let mut read = vec![false; MOST_LINES + 1];
    netlist
        .gates
        .iter()
        .all(|gate| (0..gate.pins).all(|pin| !std::mem::replace(&mut read[gate.pin(pin)], true)))
}
