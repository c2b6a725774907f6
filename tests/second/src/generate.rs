//! Random libraries and netlists of good form. They are kept as lines of fields, so that a chosen
//! place can be damaged afterwards.

mod cells;
mod long;
mod netlists;

use crate::library::{MOST_CELLS, MOST_PINS};
use crate::netlist::MOST_LINES;
use crate::random::Random;
pub use cells::{add_cell, add_cells, fresh_name, random_name, Style};
pub use long::{library_of, netlist_of};
pub use netlists::{add_netlist, add_ranges, bounds, range_line, Order, Shape, Wiring};

pub type Fields = Vec<Vec<u8>>;

/// Lines from 0, each without its byte 10.
#[derive(Clone, Default)]
pub struct Text {
    pub lines: Vec<Fields>,
    /// The last line lacks its byte 10.
    pub unended: bool,
}

impl Text {
    pub fn bytes(&self) -> Vec<u8> {
        let mut bytes = Vec::new();
        for line in &self.lines {
            for (place, field) in line.iter().enumerate() {
                if place > 0 {
                    bytes.push(b',');
                }
                bytes.extend_from_slice(field);
            }
            bytes.push(b'\n');
        }
        if self.unended {
            bytes.pop();
        }
        bytes
    }
}

#[derive(Clone)]
pub struct CellForm {
    pub name: Vec<u8>,
    pub pins: usize,
    /// An entry that begins with `Name3`.
    pub deep: bool,
}

impl CellForm {
    /// How many bits higher its columns stand than under `Name`.
    pub fn higher(&self) -> usize {
        2 * usize::from(self.deep)
    }
}

#[derive(Clone, Default)]
pub struct Pair {
    pub lib: Text,
    pub net: Text,
    pub cells: Vec<CellForm>,
}

impl Pair {
    /// The lines that the netlist mentions, each as often as it does.
    pub fn mentioned(&self) -> Vec<u64> {
        let number =
            |field: &Vec<u8>| -> u64 { std::str::from_utf8(field).unwrap().parse().unwrap() };
        let mut lines = Vec::new();
        for line in &self.net.lines {
            let numbers = if line[0] == b"gate" {
                &line[2..]
            } else {
                &line[1..2]
            };
            lines.extend(numbers.iter().map(number));
        }
        lines
    }
}

pub fn fields(line: &str) -> Fields {
    line.split(',')
        .map(|field| field.as_bytes().to_vec())
        .collect()
}

/// How many lines an entry has.
pub const ENTRY: usize = 6;

/// A line of rows from its groups.
pub fn rows_line(word: &str, groups: &[Vec<u32>]) -> Fields {
    let mut line = vec![word.as_bytes().to_vec()];
    for group in groups {
        if group.is_empty() {
            line.push(b"Z".to_vec());
        }
        for (place, row) in group.iter().enumerate() {
            if place > 0 {
                line.push(b"M".to_vec());
            }
            line.push(format!("{row:o}").into_bytes());
        }
    }
    line
}

/// The groups of a line of rows of good form.
pub fn groups_of(line: &Fields) -> Vec<Vec<u32>> {
    let mut groups: Vec<Vec<u32>> = Vec::new();
    let mut joined = false;
    for field in &line[1..] {
        if field == b"M" {
            joined = true;
            continue;
        }
        if field == b"Z" {
            groups.push(Vec::new());
            continue;
        }
        let row = u32::from_str_radix(std::str::from_utf8(field).unwrap(), 8).unwrap();
        if joined {
            groups.last_mut().unwrap().push(row);
        } else {
            groups.push(vec![row]);
        }
        joined = false;
    }
    groups
}

/// A pair that is accepted, of any kind and about the given size.
pub fn pair(rng: &mut Random, gates: usize) -> Pair {
    let mut pair = Pair::default();
    let cells = match rng.below(20) {
        0 => 0,
        1 => MOST_CELLS,
        2..=4 => rng.within(1, MOST_CELLS),
        _ => rng.within(1, 5),
    };
    for _ in 0..cells {
        let style = *rng.pick(&[Style::Common, Style::Common, Style::Any, Style::Wired]);
        add_cells(rng, &mut pair, 1, style);
    }
    let shape = Shape {
        inputs: rng.within(0, 2 + gates / 2),
        gates: rng.within(0, gates),
        undriven: if rng.once_in(2) {
            0
        } else {
            rng.below(4 + gates / 8)
        },
        outputs: rng.within(0, 2 + gates / 3),
        wiring: *rng.pick(&[Wiring::Forward, Wiring::Deep, Wiring::Any]),
        order: *rng.pick(&[
            Order::Forward,
            Order::Backward,
            Order::Shuffled,
            Order::Shuffled,
        ]),
        scattered: rng.once_in(3),
    };
    add_netlist(rng, &mut pair, &shape);
    pair
}

/// A pair that is accepted and often takes many sweeps, most of which change few numbers: `gates`
/// gates along a ladder, mostly listed against its direction.
pub fn ladder(rng: &mut Random, gates: usize) -> Pair {
    let mut pair = Pair::default();
    for _ in 0..rng.within(1, 6) {
        let pins = match rng.below(8) {
            0 => MOST_PINS,
            _ => rng.within(1, 4),
        };
        add_cell(rng, &mut pair, pins, Style::Carrying);
    }
    let inputs = rng.within(1, 3).min(MOST_LINES - gates);
    let shape = Shape {
        inputs,
        gates,
        undriven: rng.below(3),
        outputs: rng.within(1, 3),
        wiring: Wiring::Ladder,
        order: *rng.pick(&[
            Order::Backward,
            Order::Backward,
            Order::Shuffled,
            Order::Forward,
        ]),
        scattered: rng.once_in(2),
    };
    add_netlist(rng, &mut pair, &shape);
    pair
}

/// A pair that is accepted: gates one after another, each asking for the 1 of the line before as often as both its
/// pins do, so that costs double from gate to gate.
pub fn doubled(rng: &mut Random, gates: usize) -> Pair {
    let mut pair = Pair::default();
    // The row that names both values of a pin keeps its pins from being one wire.
    let entry = "Name,TWICE,2\nCC,21,M,7,13\nCO,203,211\nSC,20,12\nSO,202,210\nEnd";
    pair.lib.lines = entry.lines().map(fields).collect();
    pair.cells.push(CellForm {
        name: b"TWICE".to_vec(),
        pins: 2,
        deep: false,
    });
    let net = &mut pair.net.lines;
    net.push(fields("input,1"));
    net.extend((1..=gates).map(|line| fields(&format!("gate,TWICE,{},{line},{line}", line + 1))));
    net.push(fields(&format!("output,{}", gates + 1)));
    rng.shuffle(net);
    pair
}
