//! The netlist: inputs, outputs, open lines, gates and ranges; but for a range, which stands below its
//! input, in any order.

use crate::cost::Cost;
use crate::library::{Library, MOST_PINS};
use crate::refusal::{
    CELL_UNKNOWN, DRIVEN_BEFORE, LINE_BAD, MARKED_BEFORE, NETLIST_FORM, NOT_INPUT, PINS_DIFFER,
    RANGE_BAD, UNDECLARED, UNPADDABLE,
};
use crate::text::{self, Line, Lines};
use crate::Refusal;

/// Line numbers run from 1 to this one.
pub const MOST_LINES: usize = 1_000;

/// Prices run from 1 to this one.
pub const MOST_PRICE: u32 = 999;

pub struct Gate {
    pub cell: usize,
    pub pins: usize,
    /// The lines in the order of a row's columns from the lowest: the last pin first, and the
    /// output after pin 1.
    pub lines: [u16; MOST_PINS + 1],
}

impl Gate {
    pub fn output(&self) -> usize {
        usize::from(self.lines[self.pins])
    }

    /// The line read by a pin, counted from 0.
    pub fn pin(&self, pin: usize) -> usize {
        usize::from(self.lines[self.pins - 1 - pin])
    }
}

#[derive(Clone, Copy, Default)]
pub struct Marks {
    pub input: bool,
    /// By an input or a gate, or declared open.
    pub claimed: bool,
    pub output: bool,
    pub mentioned: bool,
    /// An input's lowest and highest price.
    pub range: Option<[u32; 2]>,
}

pub struct Netlist {
    pub gates: Vec<Gate>,
    /// By line number; place 0 stays unused.
    pub marks: [Marks; MOST_LINES + 1],
}

/// Which rules are in force: the old ones, or those by which open lines must be declared.
#[derive(Clone, Copy, PartialEq)]
pub enum Rules {
    Old,
    New,
}

pub fn read(text: &[u8], library: &Library, rules: Rules) -> Result<Netlist, Refusal> {
    let mut netlist = Netlist {
        gates: Vec::new(),
        marks: [Marks::default(); MOST_LINES + 1],
    };
    for line in Lines::of(text) {
        netlist
            .read_line(&line, library, rules)
            .map_err(|number| Refusal {
                number,
                line: line.number,
            })?;
    }
    if rules == Rules::New && netlist.undeclared().next().is_some() {
        return Err(Refusal {
            number: UNDECLARED,
            line: 0,
        });
    }
    Ok(netlist)
}

impl Netlist {
    /// The lines that are read or marked, and that nothing drives or declares open, ascending.
    pub fn undeclared(&self) -> impl Iterator<Item = usize> + '_ {
        (1..=MOST_LINES).filter(|&line| self.marks[line].mentioned && !self.marks[line].claimed)
    }

    /// Whether some input has a range.
    pub fn ranged(&self) -> bool {
        self.marks.iter().any(|marks| marks.range.is_some())
    }

    /// What a line costs to set where it is an input: at the low end of its range, which is 0 here, or at the
    /// high one, which is 1.
    pub fn price(&self, line: usize, end: usize) -> Cost {
        self.marks[line].range.map_or(1, |range| range[end])
    }

    /// Marks a line output that the netlist mentions and that is none yet, or answers the number that refuses it.
    pub fn pad(&mut self, line: u64) -> Result<(), u32> {
        let place = usize::try_from(line).unwrap_or(usize::MAX);
        match self.marks.get_mut(place) {
            // Nothing mentions place 0.
            Some(marks) if marks.mentioned && !marks.output => {
                marks.output = true;
                Ok(())
            }
            _ => Err(UNPADDABLE),
        }
    }

    /// Takes a line in, or answers the lowest number that holds of it.
    fn read_line(&mut self, line: &Line, library: &Library, rules: Rules) -> Result<(), u32> {
        if !line.ended {
            return Err(NETLIST_FORM);
        }
        let mut fields = text::fields(line.bytes);
        match fields.next() {
            Some(b"input") => {
                let marks = self.mark(only_number(fields)?)?;
                if marks.claimed {
                    return Err(DRIVEN_BEFORE);
                }
                marks.claimed = true;
                marks.input = true;
                Ok(())
            }
            Some(b"open") if rules == Rules::New => {
                let marks = self.mark(only_number(fields)?)?;
                if marks.claimed {
                    return Err(DRIVEN_BEFORE);
                }
                marks.claimed = true;
                Ok(())
            }
            Some(b"output") => {
                let marks = self.mark(only_number(fields)?)?;
                if marks.output {
                    return Err(MARKED_BEFORE);
                }
                marks.output = true;
                Ok(())
            }
            Some(b"gate") => self.gate(fields, library),
            Some(b"range") if rules == Rules::New => self.range(fields),
            _ => Err(NETLIST_FORM),
        }
    }

    fn gate<'a>(
        &mut self,
        mut fields: impl Iterator<Item = &'a [u8]>,
        library: &Library,
    ) -> Result<(), u32> {
        let name = fields.next().and_then(text::name).ok_or(NETLIST_FORM)?;
        let output = fields.next().and_then(text::decimal).ok_or(NETLIST_FORM)?;
        // Every field is read before anything is judged: form comes first, then all line numbers.
        let mut in_range = on_range(output);
        let mut read = [0u16; MOST_PINS];
        let mut pins = 0;
        for field in fields {
            let pin = text::decimal(field).ok_or(NETLIST_FORM)?;
            in_range &= on_range(pin);
            if pins < MOST_PINS && on_range(pin) {
                read[pins] = pin as u16;
            }
            pins += 1;
        }
        if !in_range {
            return Err(LINE_BAD);
        }
        let cell = library.find(&name).ok_or(CELL_UNKNOWN)?;
        if pins != library.cells[cell].pins {
            return Err(PINS_DIFFER);
        }
        let marks = self.mark(output)?;
        if marks.claimed {
            return Err(DRIVEN_BEFORE);
        }
        marks.claimed = true;
        let mut lines = [0; MOST_PINS + 1];
        for pin in 0..pins {
            lines[pins - 1 - pin] = read[pin];
            self.marks[usize::from(read[pin])].mentioned = true;
        }
        lines[pins] = output as u16;
        self.gates.push(Gate { cell, pins, lines });
        Ok(())
    }

    fn range<'a>(&mut self, fields: impl Iterator<Item = &'a [u8]>) -> Result<(), u32> {
        let numbers: Option<Vec<u32>> = fields.map(text::decimal).collect();
        let Some([line, low, high]) = numbers.as_deref() else {
            return Err(NETLIST_FORM);
        };
        let marks = self.mark(*line)?;
        if !marks.input {
            return Err(NOT_INPUT);
        }
        let priced = |bound: &u32| (1..=MOST_PRICE).contains(bound);
        if !priced(low) || !priced(high) || low > high || marks.range.is_some() {
            return Err(RANGE_BAD);
        }
        marks.range = Some([*low, *high]);
        Ok(())
    }

    /// The marks of a line that the text mentions.
    fn mark(&mut self, number: u32) -> Result<&mut Marks, u32> {
        if !on_range(number) {
            return Err(LINE_BAD);
        }
        let marks = &mut self.marks[number as usize];
        marks.mentioned = true;
        Ok(marks)
    }
}

fn on_range(number: u32) -> bool {
    (1..=MOST_LINES as u32).contains(&number)
}

/// `input` and `output` have one field.
fn only_number<'a>(mut fields: impl Iterator<Item = &'a [u8]>) -> Result<u32, u32> {
    match (fields.next().and_then(text::decimal), fields.next()) {
        (Some(number), None) => Ok(number),
        _ => Err(NETLIST_FORM),
    }
}
