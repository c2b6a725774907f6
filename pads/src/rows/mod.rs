//! Library entries: rows as document 01 packs them, groups of rows, and the entry's text.

pub mod cells;
pub mod fewer;
pub mod primes;
pub mod registers;
pub mod types;
pub mod writer;

use crate::ask::archive;
use crate::rows::primes::{primes, Cube};

/// What a row names: pins (pin i is variable i, the first pin 0), the cell's output, observing it.
#[derive(Clone, Copy, Debug, Default, PartialEq, Eq)]
pub struct Named {
    pub pins: Cube,
    /// Pins that are named at both values, besides.
    pub both: u32,
    pub output: Option<bool>,
    pub observe: bool,
}

impl Named {
    pub fn of(pins: Cube) -> Self {
        Named { pins, ..Named::default() }
    }

    pub fn seen(pins: Cube) -> Self {
        Named { pins, observe: true, ..Named::default() }
    }

    /// The row of a cell with `n` pins, its depth bit 0.
    pub fn packed(self, n: usize, depth: u32) -> u32 {
        let mut row = depth;
        for pin in 0..n {
            let place = 2 * (n - 1 - pin);
            let both = self.both >> pin & 1 == 1;
            row |= u32::from(both || self.pins.zeros >> pin & 1 == 1) << (place + 2);
            row |= u32::from(both || self.pins.ones >> pin & 1 == 1) << (place + 1);
        }
        if let Some(value) = self.output {
            row |= 1 << (2 * n + if value { 1 } else { 2 });
        }
        row | u32::from(self.observe) << (2 * n + 3)
    }
}

pub type Group = Vec<u32>;

/// An entry without its name. The groups are those of CC and CO; SC and SO differ by the depth alone.
#[derive(Clone, Debug, PartialEq, Eq, Hash)]
pub struct Entry {
    pub pins: usize,
    /// The depths of CC and CO, and of SC and SO.
    pub depths: [u32; 2],
    /// For the output at 0 and at 1, with depth 0.
    pub control: [Group; 2],
    /// For each pin, with depth 0.
    pub observe: Vec<Group>,
}

/// Depths of a combinational cell, of a register and of a part inside a split gate (000, section IV.B).
pub const COMBINATIONAL: [u32; 2] = [1, 0];
pub const SEQUENTIAL: [u32; 2] = [0, 1];
pub const PART: [u32; 2] = [0, 0];

impl Entry {
    /// The longest group, in rows.
    pub fn most_rows(&self) -> usize {
        let groups = self.control.iter().chain(&self.observe);
        groups.map(Vec::len).max().unwrap_or(0)
    }

    pub fn text(&self, name: &str) -> String {
        let mut text = format!("Name,{name},{}\n", self.pins);
        for (at, words) in [["CC", "CO"], ["SC", "SO"]].into_iter().enumerate() {
            for (word, groups) in words.into_iter().zip([&self.control[..], &self.observe[..]]) {
                text.push_str(word);
                for group in groups {
                    text.push(',');
                    text.push_str(&group_text(group, self.depths[at]));
                }
                text.push('\n');
            }
        }
        text + "End\n"
    }
}

fn group_text(group: &[u32], depth: u32) -> String {
    if group.is_empty() {
        return "Z".to_string();
    }
    let rows: Vec<String> = group.iter().map(|row| format!("{:o}", row | depth)).collect();
    rows.join(",M,")
}

/// Rows by descending value, as K6 has them; none twice.
pub fn descending(named: impl IntoIterator<Item = Named>, n: usize) -> Group {
    let mut rows: Vec<u32> = named.into_iter().map(|named| named.packed(n, 0)).collect();
    rows.sort_unstable_by(|a, b| b.cmp(a));
    rows.dedup();
    rows
}

/// A truth table: the output by setting, pin 1 heaviest, as K6 has it.
#[derive(Clone, Debug, PartialEq, Eq, Hash)]
pub struct Table {
    pub pins: usize,
    pub bits: Vec<bool>,
}

impl Table {
    /// Of a function of a setting in which pin i is bit i.
    pub fn of(pins: usize, f: impl Fn(u32) -> bool) -> Table {
        assert!(pins <= archive::MOST_PINS);
        let bits = (0..1u32 << pins).map(|at| f(swapped(at, pins))).collect();
        Table { pins, bits }
    }

    /// The output where pin i has bit i of the setting.
    pub fn at(&self, setting: u32) -> bool {
        self.bits[swapped(setting, self.pins) as usize]
    }

    pub fn digits(&self) -> String {
        self.bits.iter().map(|&bit| if bit { '1' } else { '0' }).collect()
    }

    /// Whether the output ever changes with the pin.
    pub fn depends(&self, pin: usize) -> bool {
        (0..1u32 << self.pins).any(|s| self.at(s) != self.at(s ^ 1 << pin))
    }

    /// The entry: by the proved generator up to four pins, above by the same definition.
    pub fn entry(&self, depths: [u32; 2]) -> Entry {
        if self.pins <= 4 {
            Entry { depths, ..generated(self) }
        } else {
            Entry { depths, ..by_definition(self) }
        }
    }
}

/// Pin 1 is the heaviest bit of a place in the table and bit 0 of a setting.
fn swapped(bits: u32, n: usize) -> u32 {
    (0..n).fold(0, |turned, at| turned | (bits >> at & 1) << (n - 1 - at))
}

/// What `scoap_cell` writes of the table.
fn generated(table: &Table) -> Entry {
    let text = archive::cell("T", table.pins, &table.digits()).expect("a table of at most 4 pins");
    let groups = |line: &str, count: usize| -> Vec<Group> {
        let mut groups: Vec<Group> = Vec::new();
        let mut joined = false;
        for field in line.split(',').skip(1) {
            if field == "M" {
                joined = true;
                continue;
            }
            if !joined {
                groups.push(Vec::new());
            }
            joined = false;
            if field != "Z" {
                let row = u32::from_str_radix(field, 8).expect("an octal row");
                groups.last_mut().unwrap().push(row & !1);
            }
        }
        assert_eq!(groups.len(), count, "groups of {line}");
        groups
    };
    let lines: Vec<&str> = text.lines().collect();
    let control = groups(lines[1], 2);
    Entry {
        pins: table.pins,
        depths: COMBINATIONAL,
        control: [control[0].clone(), control[1].clone()],
        observe: groups(lines[2], table.pins),
    }
}

/// K6's definition: a value's group has its prime implicants, a pin's those of "the output changes when the pin does"
/// over the other pins.
pub fn by_definition(table: &Table) -> Entry {
    let n = table.pins;
    let all: Vec<usize> = (0..n).collect();
    let value = |e: bool| descending(primes(&all, |s| table.at(s) == e).into_iter().map(Named::of), n);
    let observe = (0..n).map(|pin| {
        let others: Vec<usize> = (0..n).filter(|&other| other != pin).collect();
        let changes = primes(&others, |s| table.at(s) != table.at(s | 1 << pin));
        descending(changes.into_iter().map(Named::seen), n)
    });
    Entry { pins: n, depths: COMBINATIONAL, control: [value(false), value(true)], observe: observe.collect() }
}

#[cfg(test)]
mod tests {
    use super::*;

    /// Every table of at most four pins: the own method gives what the proved generator gives.
    #[test]
    fn the_own_method_is_the_generator_on_all_tables() {
        let mut tables = 0;
        for pins in 0..=4usize {
            for outputs in 0..1u32 << (1 << pins) {
                let bits = (0..1 << pins).map(|at| outputs >> at & 1 == 1).collect();
                let table = Table { pins, bits };
                assert_eq!(by_definition(&table), generated(&table), "{}", table.digits());
                tables += 1;
            }
        }
        assert_eq!(tables, 65_814);
    }

    /// Above four pins: a setting gives e exactly when it meets a row of group e, and a pin is seen exactly by a row of
    /// its group.
    fn holds(table: &Table, entry: &Entry) -> bool {
        let n = table.pins;
        let meets = |row: u32, s: u32| {
            (0..n).all(|pin| {
                let place = 2 * (n - 1 - pin);
                let value = s >> pin & 1 == 1;
                (row >> (place + 2) & 1 == 0 || !value) && (row >> (place + 1) & 1 == 0 || value)
            })
        };
        (0..1u32 << n).all(|s| {
            (0..2).all(|e| entry.control[e].iter().any(|&row| meets(row, s)) == (table.at(s) == (e == 1)))
                && (0..n).all(|pin| {
                    entry.observe[pin].iter().any(|&row| meets(row, s)) == (table.at(s) != table.at(s ^ 1 << pin))
                })
        })
    }

    #[test]
    fn tables_of_five_to_eight_pins() {
        let mut state = 7u64;
        for pins in 5..=8usize {
            for turn in 0..12 {
                let table = Table::of(pins, |s| state_at(&mut state.clone(), s, turn));
                state = state.wrapping_mul(6_364_136_223_846_793_005).wrapping_add(99);
                let entry = table.entry(COMBINATIONAL);
                assert!(holds(&table, &entry));
                // A wrong row is found.
                let mut wrong = entry.clone();
                if let Some(group) = wrong.control.iter_mut().find(|group| !group.is_empty()) {
                    group.pop();
                    assert!(!holds(&table, &wrong) || entry.most_rows() > 1);
                }
            }
        }
    }

    fn state_at(state: &mut u64, s: u32, turn: u32) -> bool {
        let mixed = (*state ^ u64::from(s).wrapping_mul(0x9e37_79b9_7f4a_7c15)).wrapping_mul(0xbf58_476d_1ce4_e5b9);
        mixed >> 40 & 3 >= u64::from(turn % 3)
    }

    #[test]
    fn rows_of_document_01() {
        let nor = Table::of(3, |s| s == 0);
        let text = nor.entry(COMBINATIONAL).text("C1130");
        assert_eq!(
            text,
            "Name,C1130,3\nCC,41,M,11,M,3,125\nCO,1025,1105,1121\nSC,40,M,10,M,2,124\nSO,1024,1104,1120\nEnd\n"
        );
        let one = Table::of(0, |_| true);
        assert_eq!(one.entry(COMBINATIONAL).text("TIE1"), "Name,TIE1,0\nCC,Z,1\nCO\nSC,Z,0\nSO\nEnd\n");
        // The exclusive or of five pins just fits a group.
        let xor = Table::of(5, |s| s.count_ones() % 2 == 1);
        assert_eq!(xor.entry(COMBINATIONAL).most_rows(), archive::MOST_ROWS);
    }
}
