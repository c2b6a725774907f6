//! Best numbers within a budget: the combinational costs of setting, settled one value at a time, always the
//! cheapest on offer. What they come to stands in a lent table:
//!
//! | place | number |
//! |---|---|
//! | 0 | the last settled cost, 0 before any |
//! | 1 + 4 (l - 1) + 2 v | value v of line l: 1 where it is settled, else 0 |
//! | 2 + 4 (l - 1) + 2 v | its number, or the present offer, never where there is none |

use crate::cost::{add, Cost, NEVER};
use crate::library::{Library, Row};
use crate::netlist::{Gate, Netlist, MOST_LINES};
use crate::standing::long_enough;
use crate::sweep::is_wired;
use crate::{answered, both_read, Refusal};

/// The size of the table, and the numbers of a line in it.
pub const BEST: usize = 4_001;
pub const BEST_LINE: usize = 4;

/// A line and what it is set to, 0 or 1.
pub type Value = (usize, usize);

/// Of both values of each line; place 0 stays unused.
type Costs = [[Option<Cost>; 2]; MOST_LINES + 1];

/// A row at a gate: its depth and the values that it asks for.
struct Way {
    depth: Cost,
    asks: Vec<Value>,
}

/// The ways to a gate's output at 0 and at 1.
struct Ways {
    output: usize,
    reads: Vec<usize>,
    to: [Vec<Way>; 2],
}

/// The values that a row asks for, as often as they are paid. None where the row is no way: on one wire each value
/// is paid once, and both values of it cannot be had.
fn asks(row: Row, gate: &Gate, wired: bool) -> Option<Vec<Value>> {
    let mut asked = Vec::new();
    for column in (0..2 * gate.pins).filter(|column| row.columns >> column & 1 == 1) {
        let (line, value) = (usize::from(gate.lines[column / 2]), 1 - column % 2);
        if wired && asked.contains(&(line, 1 - value)) {
            return None;
        }
        if !wired || !asked.contains(&(line, value)) {
            asked.push((line, value));
        }
    }
    Some(asked)
}

fn ways(library: &Library, gate: &Gate) -> Ways {
    let wired = is_wired(library, gate);
    let groups = library.cells[gate.cell].combinational.set;
    let to = groups.map(|group| {
        let way = |&row: &Row| {
            Some(Way {
                depth: row.depth,
                asks: asks(row, gate, wired)?,
            })
        };
        library.rows(group).iter().filter_map(way).collect()
    });
    Ways {
        output: gate.output(),
        reads: (0..gate.pins).map(|pin| gate.pin(pin)).collect(),
        to,
    }
}

/// How far a run has come.
struct Run {
    gates: Vec<Ways>,
    settled: Costs,
    offers: Costs,
    steps: u64,
    last: Cost,
}

impl Run {
    /// Before the first step: inputs are on offer at their price, and what a row offers that asks for nothing.
    fn of(library: &Library, netlist: &Netlist) -> Self {
        let mut run = Run {
            gates: netlist
                .gates
                .iter()
                .map(|gate| ways(library, gate))
                .collect(),
            settled: [[None; 2]; MOST_LINES + 1],
            offers: [[None; 2]; MOST_LINES + 1],
            steps: 0,
            last: 0,
        };
        for (line, marks) in netlist.marks.iter().enumerate() {
            if marks.input {
                run.offers[line] = [Some(netlist.price(line, 0)); 2];
            }
        }
        for gate in 0..run.gates.len() {
            run.renew(gate);
        }
        run
    }

    /// The cost of a way whose values are all settled.
    fn cost(&self, way: &Way) -> Option<Cost> {
        way.asks.iter().try_fold(way.depth, |sum, &(line, value)| {
            Some(add(sum, self.settled[line][value]?))
        })
    }

    /// What a gate offers now.
    fn renew(&mut self, gate: usize) {
        let Ways { output, to, .. } = &self.gates[gate];
        let least = |ways: &Vec<Way>| ways.iter().filter_map(|way| self.cost(way)).min();
        self.offers[*output] = [least(&to[0]), least(&to[1])];
    }

    /// The cheapest unsettled value on offer: the lowest line first, 0 before 1.
    fn cheapest(&self) -> Option<(Cost, Value)> {
        let mut best: Option<(Cost, Value)> = None;
        for line in 1..=MOST_LINES {
            for value in [0, 1] {
                if self.settled[line][value].is_some() {
                    continue;
                }
                if let Some(offer) = self.offers[line][value] {
                    if best.is_none_or(|(least, _)| offer < least) {
                        best = Some((offer, (line, value)));
                    }
                }
            }
        }
        best
    }

    /// Settles a value, unless nothing is on offer.
    fn step(&mut self) -> Option<(Cost, Value)> {
        let (cost, (line, value)) = self.cheapest()?;
        self.settled[line][value] = Some(cost);
        self.steps += 1;
        self.last = cost;
        for gate in 0..self.gates.len() {
            if self.gates[gate].reads.contains(&line) {
                self.renew(gate);
            }
        }
        Some((cost, (line, value)))
    }

    /// All numbers of the table.
    fn words(&self) -> Vec<u32> {
        let mut words = vec![self.last];
        for line in 1..=MOST_LINES {
            for value in [0, 1] {
                let settled = self.settled[line][value];
                let offer = self.offers[line][value];
                words.extend([
                    u32::from(settled.is_some()),
                    settled.or(offer).unwrap_or(NEVER),
                ]);
            }
        }
        words
    }
}

/// The best numbers within a budget, in the form of the C entry: the number of steps, or a refusal.
pub fn best_into(lib: &[u8], net: &[u8], budget: u64, table: &mut [u32]) -> u64 {
    let answer = best(lib, net, budget, table);
    answered(answer, table)
}

fn best(lib: &[u8], net: &[u8], budget: u64, table: &mut [u32]) -> Result<u64, Refusal> {
    long_enough(table.len(), BEST)?;
    let (library, netlist) = both_read(lib, net)?;
    let mut run = Run::of(&library, &netlist);
    while run.steps < budget && run.step().is_some() {}
    table[..BEST].copy_from_slice(&run.words());
    Ok(run.steps)
}

/// What an unlimited budget settles, in the order of the steps.
pub fn order(lib: &[u8], net: &[u8]) -> Result<Vec<(Cost, Value)>, Refusal> {
    let (library, netlist) = both_read(lib, net)?;
    let mut run = Run::of(&library, &netlist);
    Ok(std::iter::from_fn(|| run.step()).collect())
}

#[cfg(test)]
mod tests;
