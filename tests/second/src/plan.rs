//! The cheapest way to set a line, written out: the sweeps of one kind once more, with the row by which
//! each number was last lowered.

use crate::cost::{LARGEST, NEVER};
use crate::library::{Library, Row};
use crate::netlist::{Netlist, MOST_LINES};
use crate::sweep::{is_wired, row_sum, wired_sum};

/// The gate and the row, by its place in the group, that last lowered a number.
#[derive(Clone, Copy)]
struct Mark {
    gate: usize,
    row: usize,
}

/// The text, if the number is a figure. It ends early once it has more than `room` bytes.
pub fn write(
    library: &Library,
    netlist: &Netlist,
    line: u64,
    value: u64,
    kind: u64,
    room: usize,
) -> Option<Vec<u8>> {
    if line < 1 || line > MOST_LINES as u64 || value > 1 || kind > 1 {
        return None;
    }
    let mut costs = [[NEVER; 2]; MOST_LINES + 1];
    for (line, marks) in netlist.marks.iter().enumerate() {
        if marks.input {
            costs[line] = [if kind == 0 { netlist.price(line, 0) } else { 0 }; 2];
        }
    }
    let rows = |gate: usize, value: usize| -> &[Row] {
        let cell = &library.cells[netlist.gates[gate].cell];
        let ways = if kind == 0 {
            &cell.combinational
        } else {
            &cell.sequential
        };
        library.rows(ways.set[value])
    };
    let mut marks: Vec<[Option<Mark>; 2]> = vec![[None; 2]; MOST_LINES + 1];
    loop {
        let mut changed = false;
        for (gate, reads) in netlist.gates.iter().enumerate() {
            let wired = is_wired(library, reads);
            for value in [0, 1] {
                let output = reads.output();
                // The first of the rows of the least sum.
                let mut best = None;
                for (row, &each) in rows(gate, value).iter().enumerate() {
                    let sum = if wired {
                        wired_sum(each, reads, &costs)
                    } else {
                        row_sum(each, reads, &costs)
                    };
                    if best.is_none_or(|(least, _)| sum < least) {
                        best = Some((sum, row));
                    }
                }
                let least = best.map_or(NEVER, |(sum, _)| sum);
                if least < costs[output][value] {
                    marks[output][value] = best.map(|(_, row)| Mark { gate, row });
                }
                changed |= least != costs[output][value];
                costs[output][value] = least;
            }
        }
        if !changed {
            break;
        }
    }
    if costs[line as usize][value as usize] > LARGEST {
        return None;
    }
    let mut text = Vec::new();
    let mut stack = vec![(0, line as usize, value as usize)];
    while let Some((depth, line, value)) = stack.pop() {
        if text.len() > room {
            break;
        }
        let row = match marks[line][value] {
            None => "input".to_string(),
            Some(mark) => {
                let gate = &netlist.gates[mark.gate];
                let row = rows(mark.gate, value)[mark.row];
                // On one wire each line once, at its lowest column.
                let wired = is_wired(library, gate);
                let mut asked: Vec<(usize, usize)> = Vec::new();
                for column in 0..2 * gate.pins {
                    if row.columns >> column & 1 == 1 {
                        let ask = (usize::from(gate.lines[column / 2]), 1 - column % 2);
                        if !(wired && asked.contains(&ask)) {
                            asked.push(ask);
                        }
                    }
                }
                // The lowest column comes off the stack first.
                for (read, value) in asked.into_iter().rev() {
                    stack.push((depth + 1, read, value));
                }
                let bits = library.cells[gate.cell].depth_bits;
                format!("{:o}", row.columns << bits | row.depth)
            }
        };
        text.extend_from_slice(format!("{depth},{line},{value},{row}\n").as_bytes());
    }
    Some(text)
}
