//! What a netlist of truth tables does: each setting of its inputs is tried, and the values that each
//! line takes are kept. Without loops and open lines, so that a setting gives each line one value.

use crate::cell::cell_into;
use crate::random::Random;

/// The largest entry of four pins has fewer bytes.
const ENTRY: usize = 8_192;

/// The output values of a cell, one bit for each setting of its pins, pin 1 heaviest.
struct Table {
    pins: usize,
    outputs: u32,
    /// Whether its entry begins with `Name3`.
    deep: bool,
}

/// The entry with three-bit depths: the same rows, every column two places higher.
fn deepened(entry: &str) -> String {
    let field = |field: &str| match u32::from_str_radix(field, 8) {
        Ok(row) => format!("{:o}", row >> 1 << 3 | row & 1),
        Err(_) => field.to_string(),
    };
    let mut lines = entry.lines();
    let head = lines.next().unwrap_or_default();
    let mut text = format!("{}\n", head.replacen("Name,", "Name3,", 1));
    for line in lines {
        let fields: Vec<String> = line.split(',').map(field).collect();
        text += &format!("{}\n", fields.join(","));
    }
    text
}

/// Lines are counted from 0 here: the inputs, then each gate's own.
pub struct Chip {
    inputs: usize,
    tables: Vec<Table>,
    /// A cell, and the lines that its pins read.
    gates: Vec<(usize, Vec<usize>)>,
    /// The order of the gates' statements.
    order: Vec<usize>,
}

impl Chip {
    /// Up to six inputs and twelve gates of five cells. Each line is read by at most one pin where
    /// `once` says so.
    pub fn random(rng: &mut Random, once: bool) -> Self {
        let inputs = rng.within(1, 6);
        let tables: Vec<Table> = (0..5)
            .map(|_| {
                let pins = rng.below(5);
                let settings = 1u32 << pins;
                let outputs = (rng.next() & ((1 << settings) - 1)) as u32;
                let deep = rng.once_in(4);
                Table {
                    pins,
                    outputs,
                    deep,
                }
            })
            .collect();
        let mut gates: Vec<(usize, Vec<usize>)> = Vec::new();
        let mut unread: Vec<usize> = (0..inputs).collect();
        for _ in 0..rng.within(1, 12) {
            let cell = rng.below(tables.len());
            let pins = tables[cell].pins;
            let lines = inputs + gates.len();
            if once && pins > unread.len() {
                continue;
            }
            let reads = (0..pins)
                .map(|_| match once {
                    true => unread.swap_remove(rng.below(unread.len())),
                    false => rng.below(lines),
                })
                .collect();
            unread.push(lines);
            gates.push((cell, reads));
        }
        let mut order: Vec<usize> = (0..gates.len()).collect();
        rng.shuffle(&mut order);
        Chip {
            inputs,
            tables,
            gates,
            order,
        }
    }

    pub fn library(&self) -> Vec<u8> {
        let mut text = Vec::new();
        for (cell, table) in self.tables.iter().enumerate() {
            let bits: String = (0..1 << table.pins)
                .map(|at| {
                    if table.outputs >> at & 1 == 1 {
                        '1'
                    } else {
                        '0'
                    }
                })
                .collect();
            let line = format!("T{cell},{},{bits}\n", table.pins);
            let mut entry = vec![0; ENTRY];
            let length = cell_into(line.as_bytes(), &mut entry) as usize;
            if table.deep {
                let entry = String::from_utf8_lossy(&entry[..length]);
                text.extend(deepened(&entry).into_bytes());
            } else {
                text.extend(&entry[..length]);
            }
        }
        text
    }

    pub fn netlist(&self) -> Vec<u8> {
        let mut text = String::new();
        for input in 0..self.inputs {
            text += &format!("input,{}\n", input + 1);
        }
        for &gate in &self.order {
            let (cell, reads) = &self.gates[gate];
            text += &format!("gate,T{cell},{}", self.inputs + gate + 1);
            for line in reads {
                text += &format!(",{}", line + 1);
            }
            text.push('\n');
        }
        text.into_bytes()
    }

    /// Whether a gate's cell is one whose entry begins with `Name3`.
    pub fn deep(&self) -> bool {
        self.gates.iter().any(|gate| self.tables[gate.0].deep)
    }

    /// Whether each line is read by at most one pin.
    pub fn read_once(&self) -> bool {
        let mut reads: Vec<usize> = self.gates.iter().flat_map(|gate| gate.1.clone()).collect();
        reads.sort_unstable();
        reads.windows(2).all(|pair| pair[0] != pair[1])
    }

    /// For each line, whether some setting of the inputs gives it 0, and 1.
    pub fn given(&self) -> Vec<[bool; 2]> {
        let mut given = vec![[false; 2]; self.inputs + self.gates.len()];
        for setting in 0..1u32 << self.inputs {
            let mut values: Vec<usize> = (0..self.inputs)
                .map(|input| (setting >> input & 1) as usize)
                .collect();
            for (cell, reads) in &self.gates {
                let at = reads.iter().fold(0, |at, &line| 2 * at + values[line]);
                values.push((self.tables[*cell].outputs >> at & 1) as usize);
            }
            for (given, value) in given.iter_mut().zip(values) {
                given[value] = true;
            }
        }
        given
    }
}
