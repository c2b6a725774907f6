//! The sweeps: costs of setting and of observing every line, and how many sweeps it took.

use crate::cost::{add, Cost, NEVER};
use crate::library::{Cell, Library, Row, Ways};
use crate::netlist::{Gate, Netlist, MOST_LINES};

/// Sweeps for CC, SC, CO and SO, the one that changes nothing included.
pub type Counts = [u32; 4];

/// By line number; place 0 stays unused.
pub type Setting = [[Cost; 2]; MOST_LINES + 1];
pub type Observing = [Cost; MOST_LINES + 1];

pub struct Numbers {
    pub cc: Setting,
    pub sc: Setting,
    pub co: Observing,
    pub so: Observing,
}

/// What a visit makes of a number of setting.
#[derive(Clone, Copy, PartialEq)]
pub enum Rule {
    /// The least row sum, as the scope paper has it.
    Becomes,
    /// The lesser of the number and the row sums: from whatever costs, no number rises.
    Keeps,
}

/// All numbers, with each input at its price.
pub fn run(
    library: &Library,
    netlist: &Netlist,
    price: impl Fn(usize) -> Cost,
) -> (Numbers, Counts) {
    let mut numbers = Numbers {
        cc: [[NEVER; 2]; MOST_LINES + 1],
        sc: [[NEVER; 2]; MOST_LINES + 1],
        co: [NEVER; MOST_LINES + 1],
        so: [NEVER; MOST_LINES + 1],
    };
    for (line, marks) in netlist.marks.iter().enumerate() {
        if marks.input {
            numbers.cc[line] = [price(line); 2];
            numbers.sc[line] = [0, 0];
        }
    }
    start_observing(netlist, &mut numbers);
    let counts = go_on(library, netlist, Rule::Becomes, &mut numbers);
    (numbers, counts)
}

/// CO and SO from their start, over the costs of setting that the numbers hold, and their sweeps.
pub fn observe_both(library: &Library, netlist: &Netlist, numbers: &mut Numbers) -> [u32; 2] {
    start_observing(netlist, numbers);
    observe_on(library, netlist, numbers)
}

/// All four runs from the costs that the numbers hold, and their sweeps.
pub fn go_on(library: &Library, netlist: &Netlist, rule: Rule, numbers: &mut Numbers) -> Counts {
    let cc = set(library, netlist, combinational, rule, &mut numbers.cc);
    let sc = set(library, netlist, sequential, rule, &mut numbers.sc);
    let [co, so] = observe_on(library, netlist, numbers);
    [cc, sc, co, so]
}

fn start_observing(netlist: &Netlist, numbers: &mut Numbers) {
    for (line, marks) in netlist.marks.iter().enumerate() {
        let start = if marks.output { 0 } else { NEVER };
        numbers.co[line] = start;
        numbers.so[line] = start;
    }
}

/// CO and SO from the costs that the numbers hold, and their sweeps.
fn observe_on(library: &Library, netlist: &Netlist, numbers: &mut Numbers) -> [u32; 2] {
    let co = observe(
        library,
        netlist,
        combinational,
        &numbers.cc,
        &mut numbers.co,
    );
    let so = observe(library, netlist, sequential, &numbers.sc, &mut numbers.so);
    [co, so]
}

fn combinational(cell: &Cell) -> &Ways {
    &cell.combinational
}

fn sequential(cell: &Cell) -> &Ways {
    &cell.sequential
}

fn set(
    library: &Library,
    netlist: &Netlist,
    ways: impl Fn(&Cell) -> &Ways,
    rule: Rule,
    costs: &mut Setting,
) -> u32 {
    // Gates with pins on one wire, where the cell lets that count.
    let wired: Vec<bool> = netlist
        .gates
        .iter()
        .map(|gate| is_wired(library, gate))
        .collect();
    let mut sweeps = 0;
    loop {
        let mut changed = false;
        for (gate, &wired) in netlist.gates.iter().zip(&wired) {
            let groups = &ways(&library.cells[gate.cell]).set;
            // The 1 sees the 0 just renewed, where a gate reads its own output.
            for value in [0, 1] {
                let mut least = match rule {
                    Rule::Becomes => NEVER,
                    Rule::Keeps => costs[gate.output()][value],
                };
                for &row in library.rows(groups[value]) {
                    let sum = if wired {
                        wired_sum(row, gate, costs)
                    } else {
                        row_sum(row, gate, costs)
                    };
                    least = least.min(sum);
                }
                let number = &mut costs[gate.output()][value];
                changed |= *number != least;
                *number = least;
            }
        }
        sweeps += 1;
        if !changed {
            return sweeps;
        }
    }
}

fn observe(
    library: &Library,
    netlist: &Netlist,
    ways: impl Fn(&Cell) -> &Ways,
    setting: &Setting,
    costs: &mut Observing,
) -> u32 {
    let mut sweeps = 0;
    loop {
        let mut changed = false;
        for gate in netlist.gates.iter().rev() {
            let groups = &ways(&library.cells[gate.cell]).observe;
            // Every row of the group has this column.
            let observed = 1 << (2 * gate.pins + 2);
            for pin in 0..gate.pins {
                let line = gate.pin(pin);
                let mut least = costs[line];
                for &row in library.rows(groups[pin]) {
                    let named = Row {
                        columns: row.columns & !observed,
                        ..row
                    };
                    let values = row_sum(named, gate, setting);
                    least = least.min(add(values, costs[gate.output()]));
                }
                changed |= costs[line] != least;
                costs[line] = least;
            }
        }
        sweeps += 1;
        if !changed {
            return sweeps;
        }
    }
}

/// The depth and the costs of the values that a row names, of pins and of the output.
#[inline]
pub fn row_sum(row: Row, gate: &Gate, costs: &Setting) -> Cost {
    let mut sum = row.depth;
    let mut columns = row.columns;
    while columns != 0 {
        let column = columns.trailing_zeros() as usize;
        // Two columns to a line: "at 1" below "at 0".
        let line = usize::from(gate.lines[column / 2]);
        sum = add(sum, costs[line][1 - column % 2]);
        columns &= columns - 1;
    }
    sum
}

/// Whether the rows that set a gate's output are read as those of one wire.
pub fn is_wired(library: &Library, gate: &Gate) -> bool {
    library.cells[gate.cell].one_wire && shares_line(gate)
}

/// Whether two pins read one line.
fn shares_line(gate: &Gate) -> bool {
    let pins = &gate.lines[..gate.pins];
    (1..pins.len()).any(|pin| pins[..pin].contains(&pins[pin]))
}

/// The same of a row of a one-wire cell that sets the output: a line's value is paid once, and a row
/// that needs both values of a line is no way.
pub fn wired_sum(row: Row, gate: &Gate, costs: &Setting) -> Cost {
    let mut sum = row.depth;
    let mut asked: [Vec<usize>; 2] = Default::default();
    for column in 0..2 * gate.pins {
        if row.columns >> column & 1 == 1 {
            let line = usize::from(gate.lines[column / 2]);
            let value = 1 - column % 2;
            if asked[1 - value].contains(&line) {
                return NEVER;
            }
            if !asked[value].contains(&line) {
                asked[value].push(line);
                sum = add(sum, costs[line][value]);
            }
        }
    }
    sum
}
