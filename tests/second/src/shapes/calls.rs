//! Calls other than `scoap_report` that the benchmark times, each on a shape and with what its label says of it.

use super::{c17, forward, inverters_backwards, random, random_any_order, Case};
use crate::advice::{advise_into, ADVICE};
use crate::budget::{best_into, BEST};
use crate::plan_into;
use crate::standing::{ask_into, observed, stand_into, OBSERVED, STANDING};
use std::ops::RangeInclusive;

/// A call, and what it is lent besides the texts: its table or its text is as long as the longest answer.
#[derive(Clone, Copy)]
pub enum Call {
    /// For a pad on a line, over a table that scoap_stand has left.
    Ask(u64),
    /// Within so many steps.
    Best(u64),
    Advise,
    /// A line, a value and a kind.
    Plan(u64, u64, u64),
}

/// A call on a shape, and the answers that its label allows.
pub struct Called {
    pub label: String,
    pub case: Case,
    pub call: Call,
    told: RangeInclusive<u64>,
}

/// How long a plan that is called small may be.
const SMALL: u64 = 200;
const ROOM: usize = 65_536;

/// What a call leaves: its answer, and the numbers or the text in what it was lent.
#[derive(PartialEq)]
pub struct Left {
    pub answer: u64,
    pub numbers: Vec<u32>,
    pub text: Vec<u8>,
}

impl Called {
    fn of(label: &str, case: Case, call: Call, told: RangeInclusive<u64>) -> Self {
        Called {
            label: label.to_string(),
            case,
            call,
            told,
        }
    }

    /// What the call is lent, before the first.
    pub fn lent(&self) -> Left {
        let (numbers, text) = match self.call {
            Call::Ask(_) => (OBSERVED, 0),
            Call::Best(_) => (BEST, 0),
            Call::Advise => (ADVICE, 0),
            Call::Plan(..) => (0, ROOM),
        };
        Left {
            answer: 0,
            numbers: vec![0; numbers],
            text: vec![0; text],
        }
    }

    /// The table that an ask goes on from.
    pub fn stood(&self) -> Vec<u32> {
        let mut table = vec![0; STANDING];
        stand_into(&self.case.lib, &self.case.net, &mut table, &mut [0; ROOM]);
        table
    }

    /// The call by this implementation.
    pub fn run(&self, table: &[u32], left: &mut Left) -> u64 {
        let Case { lib, net, .. } = &self.case;
        left.answer = match self.call {
            Call::Ask(line) => ask_into(lib, net, table, line, &mut left.numbers),
            Call::Best(budget) => best_into(lib, net, budget, &mut left.numbers),
            Call::Advise => advise_into(lib, net, &[], &mut left.numbers),
            Call::Plan(line, value, kind) => plan_into(lib, net, line, value, kind, &mut left.text),
        };
        left.answer
    }

    /// Why the call is not what its label says.
    pub fn untrue(&self, table: &[u32], left: &Left) -> Option<String> {
        if !self.told.contains(&left.answer) {
            return Some(format!("the answer is {}", left.answer));
        }
        let idle = matches!(self.call, Call::Ask(_)) && left.numbers == observed(table);
        idle.then(|| "the pad changes nothing".to_string())
    }
}

/// All of them.
pub fn called() -> Vec<Called> {
    let line = 1..=1_000;
    let small = 1..=SMALL;
    vec![
        Called::of("an ask, C17", c17(), Call::Ask(11), 0..=0),
        Called::of("an ask, random", random(950), Call::Ask(500), 0..=0),
        Called::of("100 steps, random", random(950), Call::Best(100), 100..=100),
        Called::of(
            "all steps, random",
            random(950),
            Call::Best(u64::MAX),
            1_001..=2_000,
        ),
        Called::of(
            "a small plan, C17",
            c17(),
            Call::Plan(22, 0, 0),
            small.clone(),
        ),
        Called::of(
            "a small plan, random",
            random(950),
            Call::Plan(120, 0, 0),
            small.clone(),
        ),
        Called::of(
            "the same, any order",
            random_any_order(950),
            Call::Plan(120, 0, 0),
            small.clone(),
        ),
        Called::of(
            "a small plan, backwards",
            inverters_backwards(999),
            Call::Plan(8, 0, 0),
            small,
        ),
        Called::of("advice, C17", c17(), Call::Advise, line.clone()),
        Called::of("advice, forward", forward(100), Call::Advise, line.clone()),
        Called::of("advice, random", random(950), Call::Advise, line),
    ]
}
