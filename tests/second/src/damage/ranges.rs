//! Damage to the ranges of a netlist.

use super::netlist::{bad_line_number, bad_net_line};
use super::{place_of, take};
use crate::generate::{bounds, range_line, Pair};
use crate::random::Random;
use crate::refusal::*;
use crate::MOST_LINES;

/// A line that no input marks above a place, in range: another line, or one whose input comes later.
fn unmarked(rng: &mut Random, pair: &Pair, at: usize) -> Option<Vec<u8>> {
    let marked = |number: &Vec<u8>| {
        pair.net.lines[..at]
            .iter()
            .any(|line| line[0] == b"input" && line.get(1) == Some(number))
    };
    let below = place_of(rng, pair, |line| line.len() > 2 || line[0] != b"input");
    let near = below.and_then(|at| pair.net.lines[at].get(2).cloned());
    let later = pair.net.lines[at..]
        .iter()
        .filter(|line| line[0] == b"input")
        .map(|line| line[1].clone());
    let number = |rng: &mut Random| rng.within(1, MOST_LINES).to_string().into_bytes();
    let any: Vec<Vec<u8>> = (0..20).map(|_| number(rng)).collect();
    let mut found = Vec::new();
    found.extend(near.filter(|_| rng.once_in(2)));
    found.extend(later.filter(|_| rng.once_in(2)));
    found.extend(any);
    found.into_iter().find(|number| {
        let digits = std::str::from_utf8(number)
            .ok()
            .and_then(|text| text.parse().ok());
        digits.is_some_and(|line: u32| (1..=MOST_LINES as u32).contains(&line)) && !marked(number)
    })
}

/// Bounds for which a range is refused.
fn bad_bounds(rng: &mut Random) -> [u32; 2] {
    let [low, high] = bounds(rng);
    match rng.below(5) {
        0 => [0, high],
        1 => [low, *rng.pick(&[0, 1_000, 99_999])],
        2 => [*rng.pick(&[1_000, 1_001, 99_999]); 2],
        3 if low < high => [high, low],
        _ => [rng.within(2, 999) as u32, 1],
    }
}

/// A range on a line that is not marked input above it, its bounds good or bad.
pub(super) fn unmarked_range(rng: &mut Random, pair: &mut Pair) -> Option<usize> {
    let at = rng.within(0, pair.net.lines.len());
    let number = unmarked(rng, pair, at)?;
    let bounds = if rng.once_in(3) {
        bad_bounds(rng)
    } else {
        bounds(rng)
    };
    pair.net.lines.insert(at, range_line(&number, bounds));
    Some(at)
}

/// A range of an input with bad bounds, or one more where it has one already.
pub(super) fn bad_range(rng: &mut Random, pair: &mut Pair) -> Option<usize> {
    let first = place_of(rng, pair, |line| line[0] == b"range");
    if let Some(first) = first.filter(|_| rng.once_in(2)) {
        let mut again = pair.net.lines[first].clone();
        if rng.once_in(2) {
            again = range_line(&again[1], bounds(rng));
        }
        let at = rng.within(first + 1, pair.net.lines.len());
        pair.net.lines.insert(at, again);
        return Some(at);
    }
    let input = place_of(rng, pair, |line| line[0] == b"input")?;
    let number = pair.net.lines[input][1].clone();
    let at = rng.within(input + 1, pair.net.lines.len());
    let bounds = bad_bounds(rng);
    pair.net.lines.insert(at, range_line(&number, bounds));
    Some(at)
}

/// A range past the end, of an input or of another line.
pub(super) fn one_range_line(rng: &mut Random, pair: &mut Pair, lowest: &mut u32) -> Option<usize> {
    let input = place_of(rng, pair, |line| line[0] == b"input")?;
    let mut number = pair.net.lines[input][1].clone();
    *lowest = RANGE_BAD;
    let bounds = bad_bounds(rng);
    if take(rng, lowest, NOT_INPUT, false) {
        number = unmarked(rng, pair, pair.net.lines.len())?;
    }
    let mut line = range_line(&number, bounds);
    if take(rng, lowest, LINE_BAD, false) {
        bad_line_number(rng, &mut line);
    }
    if take(rng, lowest, NETLIST_FORM, false) {
        bad_net_line(rng, &mut line);
    }
    pair.net.lines.push(line);
    Some(pair.net.lines.len() - 1)
}
