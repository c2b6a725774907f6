//! The calls of a standing analysis on both sides, and the memory that is lent to them.

use crate::archive;
use crate::lent::{canary, differ, Lent};
use second::change::change_into;
use second::kept::Case;
use second::standing::{ask_into, commit_into, stand_into};

/// Answers from here on are refusals.
pub use second::REFUSED;

/// All that a call may read or write.
#[derive(Clone)]
pub struct Memory {
    lib: Lent<u8>,
    new_lib: Lent<u8>,
    net: Lent<u8>,
    standing: Lent<u32>,
    answer: Lent<u32>,
    report: Lent<u8>,
}

impl Memory {
    /// What a call is lent, with canaries that tell one turn from another. What the call does not take is empty.
    pub fn of(lending: &Lending, call: Call, turn: usize) -> Self {
        let salt = turn as u8;
        let filled = |length: usize| (0..length).map(move |at| canary(at, salt ^ 0x55));
        let (answer, report) = match call {
            Call::Stand => (0, lending.report),
            Call::Ask { .. } => (lending.answer, 0),
            Call::Commit { .. } | Call::Change => (0, 0),
        };
        let new_lib = match call {
            Call::Change => &lending.new_lib[..],
            _ => &[],
        };
        Memory {
            lib: Lent::of(lending.lib.iter().copied(), turn % 8, salt),
            new_lib: Lent::of(new_lib.iter().copied(), turn / 16 % 8, salt),
            net: Lent::of(lending.net.iter().copied(), turn / 8 % 8, salt),
            standing: Lent::of(lending.table.iter().copied(), turn % 4, salt),
            answer: Lent::of(filled(answer).map(u32::from), turn / 4 % 4, salt),
            report: Lent::of(filled(report), turn / 64 % 8, salt),
        }
    }

    /// What an accepted or refused call left.
    pub fn said(&self, answer: u64) -> Said {
        Said {
            answer,
            table: self.standing.inner().to_vec(),
            observed: self.answer.inner().to_vec(),
        }
    }

    pub fn differs(&self, wanted: &Memory) -> Option<String> {
        differ("library", &self.lib, &wanted.lib)
            .or_else(|| differ("new library", &self.new_lib, &wanted.new_lib))
            .or_else(|| differ("netlist", &self.net, &wanted.net))
            .or_else(|| differ("standing table", &self.standing, &wanted.standing))
            .or_else(|| differ("answer", &self.answer, &wanted.answer))
            .or_else(|| differ("report", &self.report, &wanted.report))
    }
}

#[derive(Clone, Copy, Debug)]
pub enum Call {
    Stand,
    Ask { line: u64 },
    Commit { line: u64, count: u64 },
    Change,
}

pub const CALLS: [&str; 4] = ["stand", "ask", "commit", "change"];

impl Call {
    pub fn index(self) -> usize {
        match self {
            Call::Stand => 0,
            Call::Ask { .. } => 1,
            Call::Commit { .. } => 2,
            Call::Change => 3,
        }
    }

    /// As it is kept.
    pub fn case(self, lending: &Lending) -> Case {
        let (words, room) = match self {
            Call::Stand => (Vec::new(), lending.report),
            Call::Ask { line } => (vec![line], lending.answer),
            Call::Commit { line, count } => (vec![line, count], 0),
            Call::Change => (Vec::new(), 0),
        };
        Case {
            words,
            new_lib: lending.new_lib.clone(),
            numbers: lending.table.clone(),
            ..Case::of(CALLS[self.index()], [&lending.lib, &lending.net], room)
        }
    }

    pub fn proved(self, memory: &mut Memory) -> u64 {
        let (lib, net) = (memory.lib.inner(), memory.net.inner());
        match self {
            Call::Stand => archive::scoap_stand(
                lib,
                net,
                memory.standing.inner_mut(),
                memory.report.inner_mut(),
            ),
            Call::Ask { line } => archive::scoap_ask(
                lib,
                net,
                memory.standing.inner(),
                line,
                memory.answer.inner_mut(),
            ),
            Call::Commit { line, count } => {
                archive::scoap_commit(lib, net, memory.standing.inner_mut(), line, count)
            }
            Call::Change => archive::scoap_change(
                lib,
                memory.new_lib.inner(),
                net,
                memory.standing.inner_mut(),
            ),
        }
    }

    pub fn second(self, memory: &mut Memory) -> u64 {
        let (lib, net) = (memory.lib.inner(), memory.net.inner());
        match self {
            Call::Stand => stand_into(
                lib,
                net,
                memory.standing.inner_mut(),
                memory.report.inner_mut(),
            ),
            Call::Ask { line } => ask_into(
                lib,
                net,
                memory.standing.inner(),
                line,
                memory.answer.inner_mut(),
            ),
            Call::Commit { line, count } => {
                commit_into(lib, net, memory.standing.inner_mut(), line, count)
            }
            Call::Change => change_into(
                lib,
                memory.new_lib.inner(),
                net,
                memory.standing.inner_mut(),
            ),
        }
    }
}

/// The slices of a call: texts, the standing table as it is, and the lengths of the others.
#[derive(Clone)]
pub struct Lending {
    pub lib: Vec<u8>,
    /// For a change alone.
    pub new_lib: Vec<u8>,
    pub net: Vec<u8>,
    pub table: Vec<u32>,
    pub answer: usize,
    pub report: usize,
}

/// What the archive said, and the lent numbers after it.
pub struct Said {
    pub answer: u64,
    pub table: Vec<u32>,
    pub observed: Vec<u32>,
}

impl Said {
    pub fn accepted(&self) -> bool {
        self.answer < REFUSED
    }
}
