//! Goldstein's six numbers for every line of a netlist: the second implementation.
//!
//! It is written from the scope paper alone and shares nothing with the proved program, which it is
//! held against. Texts go in; a report or a refusal comes out.

pub mod advice;
pub mod between;
pub mod budget;
pub mod cell;
pub mod change;
pub mod chip;
mod cost;
pub mod damage;
pub mod figures;
pub mod generate;
pub mod grow;
pub mod kept;
mod library;
mod netlist;
mod plan;
mod qualifies;
pub mod random;
pub mod record;
pub mod refusal;
mod report;
pub mod shapes;
pub mod standing;
mod sweep;
mod text;

#[cfg(test)]
mod tests;

pub use cost::{Cost, LARGEST, NEVER, OVER};
pub use library::{MOST_CELLS, MOST_PINS, MOST_ROWS};
pub use netlist::{Rules, MOST_LINES, MOST_PRICE};
use refusal::{NO_FIGURE, PLAN_LONG, REPORT_LONG, TEXT_LONG};
pub use report::HIGH;
pub use sweep::Counts;

/// A text above this many bytes is refused at entry.
pub const MOST_BYTES: usize = 65_535;

/// Where a pair of texts stops.
#[derive(Clone, Copy, Debug, PartialEq, Eq)]
pub struct Refusal {
    pub number: u32,
    pub line: u32,
}

impl Refusal {
    /// One that belongs to no line of a text.
    fn whole(number: u32) -> Self {
        Refusal { number, line: 0 }
    }

    /// In the form of the C entries.
    pub fn code(self) -> u64 {
        u64::from(self.number) * REFUSED + u64::from(self.line)
    }

    /// Whether it was found before anything was read; then nothing that was lent is touched.
    fn at_entry(self) -> bool {
        self.number <= TEXT_LONG
    }
}

#[derive(Clone, Debug, PartialEq, Eq)]
pub enum Answer {
    /// The counts are those at low prices.
    Accepted {
        report: Vec<u8>,
        counts: Counts,
    },
    Refused {
        number: u32,
        line: u32,
    },
}

/// The answer for a library, a netlist and a report buffer of `room` bytes.
pub fn analyse(lib: &[u8], net: &[u8], room: usize) -> Answer {
    match accepted(lib, net, room) {
        Ok((report, counts)) => Answer::Accepted { report, counts },
        Err(Refusal { number, line }) => Answer::Refused { number, line },
    }
}

/// A call's answer in the form of the C entries: a refusal after the entry clears what was lent.
fn answered<T: Clone + Default>(answer: Result<u64, Refusal>, lent: &mut [T]) -> u64 {
    answer.unwrap_or_else(|refusal| {
        if !refusal.at_entry() {
            lent.fill(T::default());
        }
        refusal.code()
    })
}

fn both_read(lib: &[u8], net: &[u8]) -> Result<(library::Library, netlist::Netlist), Refusal> {
    if lib.len() > MOST_BYTES || net.len() > MOST_BYTES {
        return Err(Refusal::whole(TEXT_LONG));
    }
    let library = library::read(lib)?;
    let netlist = netlist::read(net, &library, Rules::New)?;
    Ok((library, netlist))
}

/// The analysis at low prices.
fn low(library: &library::Library, netlist: &netlist::Netlist) -> (sweep::Numbers, Counts) {
    sweep::run(library, netlist, |line| netlist.price(line, 0))
}

fn accepted(lib: &[u8], net: &[u8], room: usize) -> Result<(Vec<u8>, Counts), Refusal> {
    let (library, netlist) = both_read(lib, net)?;
    let (numbers, counts) = low(&library, &netlist);
    let mut report = report::write(&netlist, &numbers, &counts);
    if netlist.ranged() {
        let (numbers, counts) = sweep::run(&library, &netlist, |line| netlist.price(line, 1));
        report.extend_from_slice(report::HIGH);
        report.extend(report::write(&netlist, &numbers, &counts));
    }
    if report.len() > room {
        return Err(Refusal::whole(REPORT_LONG));
    }
    Ok((report, counts))
}

/// The same with the effect on a lent buffer, in the form of the C entry: the report's length, or
/// the refusal's number times 1,000,000 plus its line.
pub fn report_into(lib: &[u8], net: &[u8], buffer: &mut [u8]) -> u64 {
    let answer = accepted(lib, net, buffer.len()).map(|(report, _)| {
        buffer[..report.len()].copy_from_slice(&report);
        report.len() as u64
    });
    answered(answer, buffer)
}

/// What K8 says of a netlist, in the form of the C entry.
pub fn qualifies_code(lib: &[u8], net: &[u8]) -> u64 {
    match both_read(lib, net) {
        Ok((library, netlist)) => qualifies::qualifies(&library, &netlist),
        Err(refusal) => refusal.code(),
    }
}

/// Below it a number for C tells what was accepted; from it on a refusal, whose number it stands before.
pub const REFUSED: u64 = 1_000_000;

/// The longest text of a plan whose length the C entry's number tells; a longer one counts as longer than
/// its buffer.
pub const MOST_TOLD: usize = REFUSED as usize - 1;

/// The cheapest way to set a line to a value, written out, in the form of the C entry.
pub fn plan_into(
    lib: &[u8],
    net: &[u8],
    line: u64,
    value: u64,
    kind: u64,
    buffer: &mut [u8],
) -> u64 {
    let answer = both_read(lib, net).and_then(|(library, netlist)| {
        let room = buffer.len().min(MOST_TOLD);
        let text = plan::write(&library, &netlist, line, value, kind, room)
            .ok_or(Refusal::whole(NO_FIGURE))?;
        if text.len() > room {
            return Err(Refusal::whole(PLAN_LONG));
        }
        buffer[..text.len()].copy_from_slice(&text);
        Ok(text.len() as u64)
    });
    answered(answer, buffer)
}
