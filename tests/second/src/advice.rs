//! Which line to pad, and what a pad on each line would leave: for every allowed line a new analysis with that line as
//! an output besides. Allowed is a line that the netlist mentions, that is not forbidden and no output yet.

use crate::cost::{add, Cost, LARGEST, NEVER, OVER};
use crate::library::Library;
use crate::netlist::{Netlist, MOST_LINES};
use crate::standing::long_enough;
use crate::{answered, both_read, low, Refusal};

/// The size of the advice, and of the table of ranks with the numbers of a line in it: how many lines cost never to
/// observe, how many cost over, the largest of the others, and their sum.
pub const ADVICE: usize = 1;
pub const RANKS: usize = 4_000;
pub const RANK_WORDS: usize = 4;

/// CO of the lines that the netlist mentions, with a pad on one of them.
fn left(library: &Library, netlist: &mut Netlist, pad: usize) -> Vec<Cost> {
    netlist.marks[pad].output = true;
    let (numbers, _) = low(library, netlist);
    netlist.marks[pad].output = false;
    (1..=MOST_LINES)
        .filter(|&line| netlist.marks[line].mentioned)
        .map(|line| numbers.co[line])
        .collect()
}

/// What a pad on each allowed line leaves, the lines ascending.
fn trials(lib: &[u8], net: &[u8], forbidden: &[u32]) -> Result<Vec<(usize, Vec<Cost>)>, Refusal> {
    let (library, mut netlist) = both_read(lib, net)?;
    let allowed: Vec<usize> = (1..=MOST_LINES)
        .filter(|&line| {
            let marks = netlist.marks[line];
            marks.mentioned && !marks.output && !forbidden.contains(&(line as u32))
        })
        .collect();
    Ok(allowed
        .into_iter()
        .map(|line| (line, left(&library, &mut netlist, line)))
        .collect())
}

/// The allowed line whose pad leaves the lowest largest CO, in the form of the C entry: the line, 0 where none is
/// allowed, or a refusal.
pub fn advise_into(lib: &[u8], net: &[u8], forbidden: &[u32], answer: &mut [u32]) -> u64 {
    let said = advise(lib, net, forbidden, answer);
    answered(said, answer)
}

fn advise(lib: &[u8], net: &[u8], forbidden: &[u32], answer: &mut [u32]) -> Result<u64, Refusal> {
    long_enough(answer.len(), ADVICE)?;
    let largest = trials(lib, net, forbidden)?
        .into_iter()
        .map(|(line, left)| (left.into_iter().max(), line));
    // The lowest line among equals.
    let Some((Some(cost), line)) = largest.min() else {
        return Ok(0);
    };
    answer[0] = cost;
    Ok(line as u64)
}

/// Never, over, and of the figures the largest and the sum.
fn rank(left: &[Cost]) -> [u32; RANK_WORDS] {
    let count = |cost: Cost| left.iter().filter(|&&each| each == cost).count() as u32;
    let figures = || left.iter().copied().filter(|&cost| cost <= LARGEST);
    [
        count(NEVER),
        count(OVER),
        figures().max().unwrap_or(0),
        figures().fold(0, add),
    ]
}

/// What a pad on each allowed line leaves, and never four times for the others, in the form of the C entry: the count
/// of allowed lines, or a refusal.
pub fn rank_into(lib: &[u8], net: &[u8], forbidden: &[u32], ranks: &mut [u32]) -> u64 {
    let said = rank_all(lib, net, forbidden, ranks);
    answered(said, ranks)
}

fn rank_all(lib: &[u8], net: &[u8], forbidden: &[u32], ranks: &mut [u32]) -> Result<u64, Refusal> {
    long_enough(ranks.len(), RANKS)?;
    let trials = trials(lib, net, forbidden)?;
    ranks[..RANKS].fill(NEVER);
    for (line, left) in &trials {
        let place = RANK_WORDS * (line - 1);
        ranks[place..place + RANK_WORDS].copy_from_slice(&rank(left));
    }
    Ok(trials.len() as u64)
}

#[cfg(test)]
mod tests;
