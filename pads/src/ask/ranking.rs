//! The order of lines: never, over, then the hardest fault, the larger of CC1 + CO and CC0 + CO. These sums are this
//! program's own.

use crate::ask::archive::Six;
use crate::ask::model::{Model, Number};
use crate::ask::pads::Effect;
use crate::show::cost::Cost;
use std::cmp::Reverse;
use std::collections::HashMap;

/// What testing a line for a stuck value costs: set the other value and see it.
pub fn hardest(six: &Six) -> Cost {
    six[0].and(six[4]).max(six[1].and(six[4]))
}

/// The dearer part of the hardest fault.
pub fn dearer(six: &Six) -> Number {
    let (value, number) = if six[1] >= six[0] { (six[1], Number::Cc1) } else { (six[0], Number::Cc0) };
    if six[4] >= value {
        Number::Co
    } else {
        number
    }
}

#[derive(Clone, Copy, Debug, PartialEq, Eq)]
pub enum Key {
    Fault,
    Of(Number),
    Gain,
}

impl Key {
    pub fn read(word: &str) -> Option<Key> {
        match word {
            "fault" => Some(Key::Fault),
            "gain" => Some(Key::Gain),
            _ => Number::read(word).map(Key::Of),
        }
    }
}

/// The ranked lines, hardest first by the key; the hardest fault, then the lower line, decides among equals.
pub fn ranked(model: &Model, key: Key, effects: &HashMap<usize, Effect>) -> Vec<usize> {
    let mut lines: Vec<usize> = model.lines().filter(|&line| model.is_ranked(line)).collect();
    let gain = |line: usize| effects.get(&line).map_or((0, 0), Effect::rank);
    lines.sort_by_key(|&line| {
        let six = model.numbers.of(line);
        let first = match key {
            Key::Fault => (Cost::Figure(0), (0, 0)),
            Key::Of(number) => (number.of(six), (0, 0)),
            Key::Gain => (Cost::Figure(0), gain(line)),
        };
        (Reverse(first), Reverse(hardest(six)), line)
    });
    lines
}

#[cfg(test)]
mod tests {
    use super::*;

    fn six(cc0: Cost, cc1: Cost, co: Cost) -> Six {
        let none = Cost::Figure(0);
        [cc0, cc1, none, none, co, none]
    }

    #[test]
    fn the_hardest_fault() {
        let figure = Cost::Figure;
        assert_eq!(hardest(&six(figure(3), figure(24_178), figure(126))), figure(24_304));
        assert_eq!(hardest(&six(figure(3), Cost::Never, figure(1))), Cost::Never);
        assert_eq!(hardest(&six(figure(3), figure(4), Cost::Over)), Cost::Over);
        assert_eq!(dearer(&six(figure(3), figure(4), figure(9))), Number::Co);
        assert_eq!(dearer(&six(figure(30), figure(4), figure(9))), Number::Cc0);
        assert_eq!(dearer(&six(figure(3), Cost::Never, Cost::Over)), Number::Cc1);
    }

    #[test]
    fn keys() {
        assert_eq!(Key::read("co"), Some(Key::Of(Number::Co)));
        assert_eq!(Key::read("gain"), Some(Key::Gain));
        assert_eq!(Key::read("size"), None);
    }
}
