//! Damage to a netlist.

use super::{bad_field, non_zero, place_of, take};
use crate::generate::{fields, fresh_name, Fields, Pair};
use crate::random::Random;
use crate::refusal::*;
use crate::MOST_LINES;

/// Bad form of one line of a netlist.
pub(super) fn bad_net_line(rng: &mut Random, line: &mut Fields) {
    let gate = line[0] == b"gate";
    if rng.once_in(4) {
        if gate {
            match rng.below(2) {
                0 => line.truncate(rng.within(1, 2)),
                _ => {
                    let at = rng.within(1, line.len());
                    line.insert(at, Vec::new());
                }
            }
        } else if rng.once_in(3) {
            line.pop();
        } else {
            line.push(rng.pick(&[&b""[..], b"1", b"A"]).to_vec());
        }
        return;
    }
    let at = rng.below(line.len());
    let kind = match (at, gate) {
        (0, _) => 0,
        (1, true) => 1,
        _ => 2,
    };
    line[at] = bad_field(rng, &line[at].clone(), kind);
}

pub(super) fn netlist_form(rng: &mut Random, pair: &mut Pair) -> Option<usize> {
    let lines = &mut pair.net.lines;
    let count = lines.len();
    if count == 0 || rng.once_in(8) {
        let at = rng.within(0, count);
        lines.insert(
            at,
            fields(rng.pick::<&str>(&["", ",", "input", "gate,A", "End", "wire,1", "1"])),
        );
        return Some(at);
    }
    if rng.once_in(8) {
        pair.net.unended = true;
        return Some(count - 1);
    }
    let at = rng.below(count);
    bad_net_line(rng, &mut lines[at]);
    Some(at)
}

/// Any of a line's numbers, the marked, driven or priced line or a pin.
pub(super) fn bad_line_number(rng: &mut Random, line: &mut Fields) {
    let at = if line[0] == b"gate" {
        rng.within(2, line.len() - 1)
    } else {
        1
    };
    line[at] = match rng.below(6) {
        0 | 1 => b"0".to_vec(),
        2 | 3 => (MOST_LINES + 1).to_string().into_bytes(),
        4 => b"99999".to_vec(),
        _ => rng.within(MOST_LINES + 1, 99_999).to_string().into_bytes(),
    };
}

pub(super) fn gate_place(rng: &mut Random, pair: &Pair) -> Option<usize> {
    place_of(rng, pair, |line| line[0] == b"gate")
}

pub(super) fn wrong_count(rng: &mut Random, line: &mut Fields) {
    let pins = line.len() - 3;
    let wanted = match rng.below(4) {
        0 if pins > 0 => 0,
        1 if pins > 0 => pins - 1,
        2 => pins + 1,
        _ => pins + rng.within(1, 300),
    };
    let read = line[2].clone();
    line.resize(3 + wanted, read);
}

fn driven_line(line: &Fields) -> Option<&Vec<u8>> {
    match &line[0][..] {
        b"input" | b"open" => line.get(1),
        b"gate" => line.get(2),
        _ => None,
    }
}

/// A second driver somewhere past the first; the later one is the bad line.
pub(super) fn driven_twice(rng: &mut Random, pair: &mut Pair) -> Option<usize> {
    let first = place_of(rng, pair, |line| driven_line(line).is_some())?;
    let driven = driven_line(&pair.net.lines[first])?.clone();
    let second = if pair.cells.is_empty() || rng.once_in(2) {
        let word: &[u8] = if rng.once_in(2) { b"input" } else { b"open" };
        vec![word.to_vec(), driven]
    } else {
        let cell = rng.pick(&pair.cells);
        let mut gate = vec![b"gate".to_vec(), cell.name.clone(), driven.clone()];
        gate.resize(3 + cell.pins, driven);
        gate
    };
    let at = rng.within(first + 1, pair.net.lines.len());
    pair.net.lines.insert(at, second);
    Some(at)
}

/// An output mark on a line that nothing claims, somewhere; 20 has no line.
pub(super) fn undeclared(rng: &mut Random, pair: &mut Pair) -> Option<()> {
    let lines = &pair.net.lines;
    let free = |number: &Vec<u8>| {
        !lines.iter().any(|line| driven_line(line) == Some(number))
            && !lines
                .iter()
                .any(|line| line[0] == b"output" && line.get(1) == Some(number))
    };
    let number = (0..20)
        .map(|_| rng.within(1, MOST_LINES).to_string().into_bytes())
        .find(free)?;
    let at = rng.within(0, lines.len());
    pair.net.lines.insert(at, vec![b"output".to_vec(), number]);
    Some(())
}

pub(super) fn marked_twice(rng: &mut Random, pair: &mut Pair) -> Option<usize> {
    let first = place_of(rng, pair, |line| line[0] == b"output")?;
    let again = pair.net.lines[first].clone();
    let at = rng.within(first + 1, pair.net.lines.len());
    pair.net.lines.insert(at, again);
    Some(at)
}

/// A new gate past the end, whose line is free or driven before.
pub(super) fn one_gate_line(rng: &mut Random, pair: &mut Pair, lowest: &mut u32) -> Option<usize> {
    non_zero(pair.cells.len())?;
    let cell = rng.pick(&pair.cells).clone();
    let again = take(rng, lowest, DRIVEN_BEFORE, false);
    let driven: Vec<&Vec<u8>> = pair.net.lines.iter().filter_map(driven_line).collect();
    let number = (1..=MOST_LINES)
        .map(|number| number.to_string().into_bytes())
        .find(|number| driven.contains(&number) == again)?;
    let mut line = vec![b"gate".to_vec(), cell.name, number.clone()];
    line.resize(3 + cell.pins, number);
    if take(rng, lowest, PINS_DIFFER, false) {
        wrong_count(rng, &mut line);
    }
    if take(rng, lowest, CELL_UNKNOWN, false) {
        line[1] = fresh_name(rng, &pair.cells);
    }
    if take(rng, lowest, LINE_BAD, false) {
        bad_line_number(rng, &mut line);
    }
    if take(rng, lowest, NETLIST_FORM, true) {
        bad_net_line(rng, &mut line);
    }
    pair.net.lines.push(line);
    Some(pair.net.lines.len() - 1)
}

/// An input or output once more past the end.
pub(super) fn one_mark_line(rng: &mut Random, pair: &mut Pair, lowest: &mut u32) -> Option<usize> {
    let (mark, number) = if rng.once_in(2) {
        ("output", MARKED_BEFORE)
    } else {
        ("input", DRIVEN_BEFORE)
    };
    let first = place_of(rng, pair, |line| line[0] == mark.as_bytes())?;
    let mut line = pair.net.lines[first].clone();
    *lowest = number;
    if take(rng, lowest, LINE_BAD, false) {
        bad_line_number(rng, &mut line);
    }
    if take(rng, lowest, NETLIST_FORM, false) {
        bad_net_line(rng, &mut line);
    }
    pair.net.lines.push(line);
    Some(pair.net.lines.len() - 1)
}
