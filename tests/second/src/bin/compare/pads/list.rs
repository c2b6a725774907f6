//! A standing analysis under asks and commits, and what is done beside it with short slices, bad texts and foreign
//! tables.

use super::calls::{Call, Lending, Said};
use super::foreign::foreign_table;
use super::tally::{refused, Lists};
use second::damage::{any_damage, overlong, scramble};
use second::generate::Pair;
use second::random::Random;
use second::refusal::{TABLE_SHORT, TICKET_STALE};
use second::standing::{analysed, observed, OBSERVED, PADS_AT, STANDING, STANDING_NUMBERS};
use second::{Counts, MOST_LINES};

/// A ticket handed out, with the numbers that were answered.
pub struct Ticket {
    line: u64,
    count: u64,
    pub answer: Vec<u32>,
    /// After so many changes of library.
    changes: usize,
}

/// A standing analysis that grows by commits.
pub struct List {
    pub lending: Lending,
    pub pads: Vec<u32>,
    /// The sweeps that must stand.
    pub counts: Counts,
    pub tickets: Vec<Ticket>,
    /// How often the library was changed.
    pub changes: usize,
    /// The lines that the netlist mentions.
    pub lines: Vec<u64>,
}

impl List {
    pub fn begin(
        lists: &mut Lists,
        label: &str,
        lending: Lending,
        lines: Vec<u64>,
    ) -> Option<List> {
        let said = lists.check(label, &lending, Call::Stand);
        let mut list = List {
            lending,
            pads: Vec::new(),
            counts: [0; 4],
            tickets: Vec::new(),
            changes: 0,
            lines,
        };
        if !said.accepted() {
            return None;
        }
        list.lending.table = said.table;
        list.as_new(lists, label, 0);
        Some(list)
    }

    pub fn count(&self) -> u64 {
        self.pads.len() as u64
    }

    /// The table of a new analysis with one pad more, if one is given.
    fn new_analysis(&self, more: Option<u64>) -> Option<Vec<u32>> {
        let mut pads = self.pads.clone();
        pads.extend(more.map(|line| line as u32));
        analysed(&self.lending.lib, &self.lending.net, &pads).ok()
    }

    /// What stands is the new analysis; only of its sweeps the first so many are those that stood.
    pub fn as_new(&mut self, lists: &mut Lists, label: &str, stood: usize) {
        let mut wanted = self.new_analysis(None).unwrap_or(vec![0; STANDING]);
        let counts = &mut wanted[1..PADS_AT];
        counts[..stood].copy_from_slice(&self.counts[..stood]);
        self.counts.copy_from_slice(counts);
        let same = wanted == self.lending.table[..STANDING];
        let problem = (!same).then(|| format!("pads {:?}: no new analysis", self.pads));
        lists.tell(label, &self.lending, problem);
    }

    pub fn ask(&mut self, lists: &mut Lists, label: &str, line: u64) -> u64 {
        let said = lists.check(label, &self.lending, Call::Ask { line });
        if said.accepted() {
            let answer = said.observed[..OBSERVED].to_vec();
            let anew = self.new_analysis(Some(line)).map(|table| observed(&table));
            let problem = (anew.as_ref() != Some(&answer))
                .then(|| format!("line {line}: the answer is that of no new analysis"));
            lists.tell(label, &self.lending, problem);
            lists.meant(label, &said, self.count());
            self.tickets.push(Ticket {
                line,
                count: said.answer,
                answer,
                changes: self.changes,
            });
        }
        said.answer
    }

    pub fn commit(&mut self, lists: &mut Lists, label: &str, line: u64, count: u64) -> u64 {
        let before = observed(&self.lending.table);
        let said = lists.check(label, &self.lending, Call::Commit { line, count });
        lists.seen.stale += u64::from(said.answer == refused(TICKET_STALE));
        if said.accepted() {
            self.lending.table = said.table;
            self.pads.push(line as u32);
            // After a change of library the sweeps of CC and SC are those that stood.
            self.as_new(lists, label, if self.changes == 0 { 0 } else { 2 });
            let now = observed(&self.lending.table);
            // Every ticket with this line and count was answered with what stands now, but for one from before a
            // change of library.
            for ticket in self
                .tickets
                .iter()
                .filter(|ticket| (ticket.line, ticket.count) == (line, count))
            {
                if ticket.changes < self.changes {
                    lists.seen.across += 1;
                    continue;
                }
                let problem =
                    (ticket.answer != now).then(|| format!("line {line}: another answer stands"));
                lists.all.verdict(label, problem);
                lists.seen.asked_then_committed += 1;
            }
            let raised = now.iter().zip(&before).any(|(now, then)| now > then);
            let problem = raised.then(|| format!("the pad on {line} raises a number"));
            lists.tell(label, &self.lending, problem);
            // One number is the pad's own.
            let lowered = now.iter().zip(&before).filter(|(now, then)| now < then);
            lists.seen.lowered += u64::from(lowered.count() > 2);
            lists.seen.three_pads += u64::from(self.pads.len() == 3);
        }
        said.answer
    }

    /// Often one that can be padded; else one that is refused.
    pub fn any_line(&self, rng: &mut Random) -> u64 {
        let mentioned = |rng: &mut Random| match self.lines.len() {
            0 => rng.within(1, MOST_LINES) as u64,
            _ => *rng.pick(&self.lines),
        };
        match rng.below(16) {
            0 => 0,
            1 => MOST_LINES as u64 + 1,
            2 => (1 << 32) + mentioned(rng),
            3 => *rng.pick(&[u64::MAX, 1 << 32, 1 << 63, 65_537]),
            4 => rng.within(1, MOST_LINES) as u64,
            5 if !self.pads.is_empty() => u64::from(*rng.pick(&self.pads)),
            _ => mentioned(rng),
        }
    }

    /// A ticket: the present count, one handed out before, or one that nobody handed out.
    pub fn any_ticket(&self, rng: &mut Random) -> (u64, u64) {
        match rng.below(8) {
            0..=2 => (self.any_line(rng), self.count()),
            3..=5 if !self.tickets.is_empty() => {
                let ticket = rng.pick(&self.tickets);
                (ticket.line, ticket.count)
            }
            6 => (
                self.any_line(rng),
                *rng.pick(&[
                    self.count() + 1,
                    self.count() + (1 << 32),
                    u64::MAX,
                    MOST_LINES as u64,
                ]),
            ),
            _ => (self.any_line(rng), self.count().saturating_sub(1)),
        }
    }

    /// An ask or a commit that changes nothing, of a lending that is none of the list's own.
    fn aside(&self, lists: &mut Lists, rng: &mut Random, label: &str, lending: &Lending) -> Said {
        let (line, count) = self.any_ticket(rng);
        let call = if rng.once_in(2) {
            Call::Ask { line }
        } else {
            Call::Commit { line, count }
        };
        lists.check(label, lending, call)
    }

    /// Slices too short, with good texts or long ones.
    pub fn short(&self, lists: &mut Lists, rng: &mut Random) {
        let mut lending = self.lending.clone();
        if rng.once_in(2) {
            let shorter = *rng.pick(&[0, 1, PADS_AT, STANDING_NUMBERS, STANDING - 1]);
            lending.table.truncate(shorter);
        } else {
            lending.answer = *rng.pick(&[0, 1, OBSERVED / 2, OBSERVED - 1]);
        }
        if rng.once_in(3) {
            overlong(rng, &mut lending.lib);
        }
        let said = self.aside(lists, rng, "short slices", &lending);
        if lending.table.len() < STANDING {
            lists.meant("short slices", &said, refused(TABLE_SHORT));
            lists.check("short slices", &lending, Call::Stand);
        }
    }

    /// Texts that are too long, or damaged.
    pub fn bad_texts(&self, lists: &mut Lists, rng: &mut Random, made: &Pair) {
        let mut lending = self.lending.clone();
        match rng.below(4) {
            0 => overlong(rng, &mut lending.lib),
            1 => overlong(rng, &mut lending.net),
            2 => scramble(rng, &mut lending.net),
            _ => {
                let mut made = made.clone();
                any_damage(rng, &mut made);
                lending.lib = made.lib.bytes();
                lending.net = made.net.bytes();
            }
        }
        self.aside(lists, rng, "bad texts", &lending);
        if rng.once_in(2) {
            lists.check("bad texts", &lending, Call::Stand);
        }
    }

    /// A few calls over a table that is no standing analysis of the texts.
    pub fn foreign(&self, lists: &mut Lists, rng: &mut Random, other: &[u32]) {
        let mut lending = self.lending.clone();
        foreign_table(rng, &mut lending.table, &self.lines, other);
        for _ in 0..3 {
            let line = self.any_line(rng);
            let said = lists.check("foreign table", &lending, Call::Ask { line });
            lists.seen.foreign[usize::from(said.accepted())] += 1;
            let ticket = if said.accepted() {
                said.answer
            } else {
                rng.below(3) as u64
            };
            let said = lists.check(
                "foreign table",
                &lending,
                Call::Commit {
                    line,
                    count: ticket,
                },
            );
            if !said.accepted() {
                break;
            }
            // An accepted answer is never taken for a refusal, and the next call goes on from it.
            lists.all.verdict(
                "foreign table",
                (said.answer > MOST_LINES as u64).then(|| format!("{} pads", said.answer)),
            );
            lending.table = said.table;
        }
    }
}
