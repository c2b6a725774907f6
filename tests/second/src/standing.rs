//! Pads asked for and placed. The caller keeps the standing analysis as one table of numbers, and lends the two
//! texts again with each call:
//!
//! | place | number |
//! |---|---|
//! | 0 | the count of pads |
//! | 1 to 4 | the sweeps of CC, SC, CO and SO |
//! | 5 to 1,004 | the pads in the order of their commits, 0 after the last |
//! | 1,005 to 7,004 | the numbers table: six costs for each line |

use crate::cost::{Cost, NEVER};
use crate::library::Library;
use crate::netlist::{Netlist, MOST_LINES};
use crate::refusal::{TABLE_SHORT, TICKET_STALE, UNPADDABLE};
use crate::sweep::{self, Counts, Numbers};
use crate::{accepted, both_read, low, Refusal};

/// The sizes of the standing table and of an ask's answer, CO and SO of each line.
pub const STANDING: usize = 7_005;
pub const OBSERVED: usize = 2_000;
/// Where the pads and the numbers stand.
pub const PADS_AT: usize = 5;
pub const STANDING_NUMBERS: usize = 1_005;
/// The numbers of a line, and where those of observing stand among them.
pub const COSTS: usize = 6;
pub const OBSERVED_AT: usize = 4;

/// An analysis that the pads have been placed on.
pub(crate) struct Standing {
    pub(crate) pads: Vec<u32>,
    pub(crate) counts: Counts,
    pub(crate) numbers: Numbers,
}

impl Standing {
    /// What a table holds, whoever wrote it: a number above never is read as never. None where the count is above
    /// 1,000.
    pub(crate) fn held(table: &[u32]) -> Option<Self> {
        let count = table[0] as usize;
        if count > MOST_LINES {
            return None;
        }
        let mut numbers = Numbers {
            cc: [[NEVER; 2]; MOST_LINES + 1],
            sc: [[NEVER; 2]; MOST_LINES + 1],
            co: [NEVER; MOST_LINES + 1],
            so: [NEVER; MOST_LINES + 1],
        };
        for (at, costs) in table[STANDING_NUMBERS..STANDING].chunks(COSTS).enumerate() {
            let cost = |place: usize| costs[place].min(NEVER);
            numbers.cc[at + 1] = [cost(0), cost(1)];
            numbers.sc[at + 1] = [cost(2), cost(3)];
            numbers.co[at + 1] = cost(OBSERVED_AT);
            numbers.so[at + 1] = cost(OBSERVED_AT + 1);
        }
        Some(Standing {
            pads: table[PADS_AT..PADS_AT + count].to_vec(),
            counts: [table[1], table[2], table[3], table[4]],
            numbers,
        })
    }

    /// All numbers of the table.
    pub(crate) fn words(&self) -> Vec<u32> {
        let mut words = vec![self.pads.len() as u32];
        words.extend(self.counts);
        words.extend(&self.pads);
        words.resize(STANDING_NUMBERS, 0);
        for line in 1..=MOST_LINES {
            words.extend(self.numbers.cc[line]);
            words.extend(self.numbers.sc[line]);
            words.extend([self.numbers.co[line], self.numbers.so[line]]);
        }
        words
    }

    /// Whether a ticket's count is not the present one.
    fn stale(&self, count: u64) -> bool {
        count != self.pads.len() as u64
    }
}

/// CO and SO of each line, out of a table.
pub fn observed(table: &[u32]) -> Vec<Cost> {
    table[STANDING_NUMBERS..STANDING]
        .chunks(COSTS)
        .flat_map(|line| line[OBSERVED_AT..].to_vec())
        .collect()
}

/// A standing analysis, and the two texts read, with its pads marked.
pub(crate) struct Opened {
    pub(crate) library: Library,
    netlist: Netlist,
    pub(crate) standing: Standing,
}

pub(crate) fn open(lib: &[u8], net: &[u8], table: &[u32]) -> Result<Opened, Refusal> {
    let (library, mut netlist) = both_read(lib, net)?;
    let standing = Standing::held(table).ok_or(Refusal::whole(UNPADDABLE))?;
    mark(&mut netlist, &standing.pads)?;
    Ok(Opened {
        library,
        netlist,
        standing,
    })
}

/// Marks the pads one after another.
pub(crate) fn mark(netlist: &mut Netlist, pads: &[u32]) -> Result<(), Refusal> {
    for &pad in pads {
        netlist.pad(u64::from(pad)).map_err(Refusal::whole)?;
    }
    Ok(())
}

impl Opened {
    /// Marks one line more, and finds CO and SO with it.
    fn place(&mut self, line: u64) -> Result<(), Refusal> {
        self.netlist.pad(line).map_err(Refusal::whole)?;
        self.standing.pads.push(line as u32);
        let [co, so] =
            sweep::observe_both(&self.library, &self.netlist, &mut self.standing.numbers);
        self.standing.counts[2] = co;
        self.standing.counts[3] = so;
        Ok(())
    }
}

pub(crate) fn long_enough(length: usize, size: usize) -> Result<(), Refusal> {
    if length < size {
        return Err(Refusal::whole(TABLE_SHORT));
    }
    Ok(())
}

pub(crate) fn code(answer: Result<u64, Refusal>) -> u64 {
    answer.unwrap_or_else(Refusal::code)
}

/// The analysis and its report, in the form of the C entry: the report's length or a refusal.
pub fn stand_into(lib: &[u8], net: &[u8], table: &mut [u32], report: &mut [u8]) -> u64 {
    match stand(lib, net, table, report) {
        Err(refusal) if !refusal.at_entry() => {
            table.fill(0);
            report.fill(0);
            refusal.code()
        }
        answer => code(answer),
    }
}

fn stand(lib: &[u8], net: &[u8], table: &mut [u32], report: &mut [u8]) -> Result<u64, Refusal> {
    long_enough(table.len(), STANDING)?;
    let (text, _) = accepted(lib, net, report.len())?;
    report[..text.len()].copy_from_slice(&text);
    table[..STANDING].copy_from_slice(&analysed(lib, net, &[])?);
    Ok(text.len() as u64)
}

/// CO and SO of all lines as if a line were marked output: the number of pads placed so far, or a refusal.
pub fn ask_into(lib: &[u8], net: &[u8], table: &[u32], line: u64, answer: &mut [u32]) -> u64 {
    code(ask(lib, net, table, line, answer))
}

fn ask(
    lib: &[u8],
    net: &[u8],
    table: &[u32],
    line: u64,
    answer: &mut [u32],
) -> Result<u64, Refusal> {
    long_enough(table.len(), STANDING)?;
    long_enough(answer.len(), OBSERVED)?;
    let mut opened = open(lib, net, table)?;
    let count = opened.standing.pads.len() as u64;
    opened.place(line)?;
    answer[..OBSERVED].copy_from_slice(&observed(&opened.standing.words()));
    Ok(count)
}

/// Places a pad by its ticket, the line and the count of pads when it was asked for: the number of pads placed
/// now, or a refusal.
pub fn commit_into(lib: &[u8], net: &[u8], table: &mut [u32], line: u64, count: u64) -> u64 {
    code(commit(lib, net, table, line, count))
}

fn commit(
    lib: &[u8],
    net: &[u8],
    table: &mut [u32],
    line: u64,
    count: u64,
) -> Result<u64, Refusal> {
    long_enough(table.len(), STANDING)?;
    let mut opened = open(lib, net, table)?;
    let stale = opened.standing.stale(count);
    opened.place(line)?;
    if stale {
        return Err(Refusal::whole(TICKET_STALE));
    }
    table[..STANDING].copy_from_slice(&opened.standing.words());
    Ok(opened.standing.pads.len() as u64)
}

/// The table of a new analysis, from the beginning, with the pads as outputs: what every list of asks and commits
/// comes to.
pub fn analysed(lib: &[u8], net: &[u8], pads: &[u32]) -> Result<Vec<u32>, Refusal> {
    let (library, mut netlist) = both_read(lib, net)?;
    mark(&mut netlist, pads)?;
    let (numbers, counts) = low(&library, &netlist);
    let standing = Standing {
        pads: pads.to_vec(),
        counts,
        numbers,
    };
    Ok(standing.words())
}

#[cfg(test)]
mod tests;
