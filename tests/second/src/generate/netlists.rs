//! Random netlists over given cells, and ranges for their inputs.

use super::{Fields, Pair};
use crate::netlist::{MOST_LINES, MOST_PRICE};
use crate::random::Random;

/// Which lines a gate's pins read.
#[derive(Clone, Copy, PartialEq)]
pub enum Wiring {
    /// Lines driven before it only.
    Forward,
    /// The lines driven just before it: deep netlists.
    Deep,
    /// Mostly one of the hundred lines driven before it, once in 32 any line: few loops.
    Near,
    /// Any line, its own output and undriven ones included: loops.
    Any,
    /// The first pin reads the line driven just before it; the others lines near it on both sides,
    /// its own output, a line that another of its pins reads, or any: loops that values go along.
    Ladder,
}

/// In which order the gates stand.
#[derive(Clone, Copy, PartialEq)]
pub enum Order {
    Forward,
    Backward,
    Shuffled,
}

pub struct Shape {
    pub inputs: usize,
    pub gates: usize,
    /// Lines that may be read and that nothing drives: each is declared open.
    pub undriven: usize,
    pub outputs: usize,
    pub wiring: Wiring,
    pub order: Order,
    /// Line numbers from all of 1 to 1,000 rather than from 1 on.
    pub scattered: bool,
}

/// A netlist over the pair's cells; without cells it has no gates.
pub fn add_netlist(rng: &mut Random, pair: &mut Pair, shape: &Shape) {
    let inputs = shape.inputs.min(MOST_LINES);
    let gates = if pair.cells.is_empty() {
        0
    } else {
        shape.gates.min(MOST_LINES - inputs)
    };
    let undriven = shape.undriven.min(MOST_LINES - inputs - gates);
    let total = inputs + gates + undriven;
    let mut numbers: Vec<usize> = if shape.scattered {
        (1..=MOST_LINES).collect()
    } else {
        (1..=total).collect()
    };
    if shape.scattered || shape.order == Order::Shuffled {
        rng.shuffle(&mut numbers);
    }
    numbers.truncate(total);

    let text = |number: usize| number.to_string().into_bytes();
    let mut inputs_text: Vec<Fields> = Vec::new();
    for &line in &numbers[..inputs] {
        inputs_text.push(vec![b"input".to_vec(), text(line)]);
    }
    let mut gates_text: Vec<Fields> = Vec::new();
    for place in inputs..inputs + gates {
        let cell = rng.pick(&pair.cells).clone();
        let mut gate = vec![b"gate".to_vec(), cell.name, text(numbers[place])];
        let mut reads: Vec<usize> = Vec::new();
        for pin in 0..cell.pins {
            let read = match shape.wiring {
                Wiring::Forward if place > 0 => rng.below(place),
                Wiring::Deep if place > 0 => place - 1 - rng.below(place.min(3)),
                Wiring::Near if place > 0 && !rng.once_in(32) => {
                    place - 1 - rng.below(place.min(100))
                }
                Wiring::Any if rng.once_in(10) => place,
                Wiring::Ladder if place > 0 && pin == 0 => place - 1,
                Wiring::Ladder if pin + 1 == cell.pins && rng.once_in(2) => place,
                Wiring::Ladder => match rng.below(8) {
                    // The last line: without a driver, or the ladder's end.
                    0 if rng.once_in(4) => total - 1,
                    0 => rng.below(total),
                    1 => place,
                    2 if pin > 0 => *rng.pick(&reads),
                    _ => rng.within(place.saturating_sub(4), (place + 4).min(total - 1)),
                },
                _ => rng.below(total),
            };
            reads.push(read);
            gate.push(text(numbers[read]));
        }
        gates_text.push(gate);
    }
    match shape.order {
        Order::Forward => {}
        Order::Backward => gates_text.reverse(),
        Order::Shuffled => rng.shuffle(&mut gates_text),
    }
    let mut outputs_text: Vec<Fields> = Vec::new();
    let mut marked = numbers.clone();
    if rng.once_in(3) {
        // The lines driven last, as a designer marks them.
        marked.reverse();
    } else {
        rng.shuffle(&mut marked);
    }
    if shape.wiring == Wiring::Ladder && inputs + gates > 0 {
        // The ladder's end, so that observing goes all the way back.
        marked.retain(|&line| line != numbers[inputs + gates - 1]);
        marked.insert(0, numbers[inputs + gates - 1]);
    }
    for &line in marked.iter().take(shape.outputs) {
        outputs_text.push(vec![b"output".to_vec(), text(line)]);
    }
    let mut opens_text: Vec<Fields> = Vec::new();
    for &line in &numbers[inputs + gates..] {
        opens_text.push(vec![b"open".to_vec(), text(line)]);
    }
    let lines = &mut pair.net.lines;
    lines.clear();
    lines.append(&mut inputs_text);
    lines.append(&mut gates_text);
    lines.append(&mut outputs_text);
    lines.append(&mut opens_text);
    if shape.order == Order::Shuffled {
        rng.shuffle(lines);
    }
}

/// A range's bounds, LOW first; often the ends of what is allowed, and often the same.
pub fn bounds(rng: &mut Random) -> [u32; 2] {
    let mut one = || match rng.below(8) {
        0 => 1,
        1 => MOST_PRICE,
        2..=4 => rng.within(1, 9) as u32,
        _ => rng.within(1, MOST_PRICE as usize) as u32,
    };
    let [a, b] = [one(), one()];
    if rng.once_in(8) {
        [a, a]
    } else {
        [a.min(b), a.max(b)]
    }
}

pub fn range_line(line: &[u8], [low, high]: [u32; 2]) -> Fields {
    vec![
        b"range".to_vec(),
        line.to_vec(),
        low.to_string().into_bytes(),
        high.to_string().into_bytes(),
    ]
}

/// A range for some of the inputs, somewhere below each: the pair is accepted as before.
pub fn add_ranges(rng: &mut Random, pair: &mut Pair) {
    let lines = &mut pair.net.lines;
    let inputs: Vec<Fields> = lines
        .iter()
        .filter(|line| line[0] == b"input")
        .cloned()
        .collect();
    let share = rng.within(1, 4);
    for input in inputs {
        if rng.once_in(share) {
            let above = lines.iter().position(|line| *line == input).unwrap();
            let at = rng.within(above + 1, lines.len());
            lines.insert(at, range_line(&input[1], bounds(rng)));
        }
    }
}
