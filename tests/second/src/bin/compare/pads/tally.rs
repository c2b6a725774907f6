//! What came of the calls, and how often each answer came up.

use super::calls::{Call, Lending, Memory, Said, CALLS, REFUSED};
use crate::comparison::{answer_of, Comparison};
use second::refusal::{REPORT_LONG, TABLE_SHORT, TEXT_LONG, TICKET_STALE, UNPADDABLE};
use std::ops::Range;

/// What must have come up, and how often it did.
#[derive(Default)]
pub struct Seen {
    pub lowered: u64,
    pub asked_then_committed: u64,
    pub three_pads: u64,
    pub stale: u64,
    pub foreign: [u64; 2],
    /// A ticket that was asked for under another library.
    pub across: u64,
}

pub struct Lists<'a> {
    pub all: &'a mut Comparison,
    /// By call and by the kind of answer.
    answers: [[u64; ANSWERS.len()]; CALLS.len()],
    pub seen: Seen,
}

/// Kinds of answer; those of the texts are one.
const ANSWERS: [(&str, u32); 7] = [
    ("accepted", 0),
    ("refused 1", TABLE_SHORT),
    ("refused 2", TEXT_LONG),
    ("refused 23", UNPADDABLE),
    ("refused 24", TICKET_STALE),
    ("refused 17", REPORT_LONG),
    ("refused for a text", 3),
];

fn kind(answer: u64) -> usize {
    let number = (answer / REFUSED) as u32;
    ANSWERS
        .iter()
        .position(|&(_, known)| known == number)
        .unwrap_or(ANSWERS.len() - 1)
}

impl<'a> Lists<'a> {
    pub fn of(all: &'a mut Comparison) -> Self {
        Lists {
            all,
            answers: [[0; ANSWERS.len()]; CALLS.len()],
            seen: Seen::default(),
        }
    }

    /// From here on it is counted anew what comes up.
    pub fn count_anew(&mut self) {
        self.answers = [[0; ANSWERS.len()]; CALLS.len()];
        self.seen = Seen::default();
    }

    /// Tells how often each answer that these calls can give came up.
    pub fn tell_answers(&mut self, calls: Range<usize>) {
        for call in calls {
            let name = CALLS[call];
            for (at, (title, number)) in ANSWERS.into_iter().enumerate() {
                let given = match number {
                    UNPADDABLE => name != "stand",
                    TICKET_STALE => name == "commit",
                    REPORT_LONG => name == "stand",
                    _ => true,
                };
                if given {
                    let count = self.answers[call][at];
                    self.all.met(&format!("{name}, {title}"), count);
                }
            }
        }
    }

    /// The same of asks and commits, and the rest that must have.
    pub fn tell_met(&mut self) {
        self.tell_answers(0..3);
        for (title, count) in [
            ("a pad that lowers other lines", self.seen.lowered),
            ("an ask whose commit stands", self.seen.asked_then_committed),
            ("a list of three pads", self.seen.three_pads),
            ("a stale ticket", self.seen.stale),
            ("a foreign table refused", self.seen.foreign[0]),
            ("a foreign table accepted", self.seen.foreign[1]),
        ] {
            self.all.met(title, count);
        }
    }

    /// One call on both sides.
    pub fn check(&mut self, label: &str, lending: &Lending, call: Call) -> Said {
        let answers = &mut self.answers;
        self.all.keeping(
            || call.case(lending),
            |all| {
                let said = all.check_call(label, lending, call);
                answers[call.index()][kind(said.answer)] += 1;
                said
            },
        )
    }

    /// A verdict with the texts behind it.
    pub fn tell(&mut self, label: &str, lending: &Lending, problem: Option<String>) {
        self.all.verdict_standing(label, lending, problem);
    }

    /// An answer that the case was made for.
    pub fn meant(&mut self, label: &str, said: &Said, wanted: u64) {
        let problem = (said.answer != wanted).then(|| {
            let (is, should) = (answer_of(said.answer), answer_of(wanted));
            format!("{is} where {should} was meant")
        });
        self.all.verdict(label, problem);
    }
}

impl Comparison {
    /// One call on both sides.
    fn check_call(&mut self, label: &str, lending: &Lending, call: Call) -> Said {
        self.turn += 1;
        let mut got = Memory::of(lending, call, self.turn);
        let mut wanted = got.clone();
        let expected = call.second(&mut wanted);
        let answer = call.proved(&mut got);
        self.answered(answer);
        let accepted = answer < REFUSED;
        let placed = accepted && matches!(call, Call::Commit { .. });
        let changed = accepted && matches!(call, Call::Change);
        self.watch(&lending.lib, &lending.net, false, placed, changed);
        let problem = if answer != expected {
            let (is, should) = (answer_of(answer), answer_of(expected));
            Some(format!("{call:?}: {is} instead of {should}"))
        } else {
            got.differs(&wanted)
                .map(|place| format!("{call:?}, {}: {place}", answer_of(answer)))
        };
        self.verdict_standing(label, lending, problem);
        got.said(answer)
    }

    /// A verdict with the texts behind it.
    fn verdict_standing(&mut self, label: &str, lending: &Lending, problem: Option<String>) {
        let problem = problem.map(|problem| {
            let cut =
                |text: &[u8]| String::from_utf8_lossy(&text[..text.len().min(1_000)]).into_owned();
            let head: Vec<u32> = lending.table.iter().copied().take(12).collect();
            let (lib, net) = (cut(&lending.lib), cut(&lending.net));
            let new_lib = cut(&lending.new_lib);
            format!("{problem}\n  table {head:?}..\n  {lib:?}\n  {net:?}\n  {new_lib:?}")
        });
        self.verdict(label, problem);
    }
}

pub fn refused(number: u32) -> u64 {
    u64::from(number) * REFUSED
}
