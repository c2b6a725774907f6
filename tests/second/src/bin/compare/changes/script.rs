//! A standing analysis under asks, commits and changes of library, and what is done beside it with short slices,
//! bad texts, foreign tables and libraries that it does not stand under.

use super::tally::Changes;
use crate::pads::calls::{Call, Lending, Said};
use crate::pads::foreign::foreign_table;
use crate::pads::list::List;
use crate::pads::tally::refused;
use second::change::{continued, WENT_ON};
use second::damage::{overlong, scramble};
use second::generate::Pair;
use second::grow::{any_change, Kind};
use second::random::Random;
use second::refusal::{TABLE_SHORT, TEXT_LONG, UNPADDABLE};
use second::standing::{analysed, COSTS, OBSERVED_AT, PADS_AT, STANDING, STANDING_NUMBERS};
use second::{Refusal, MOST_LINES, NEVER};

pub struct Script {
    pub list: List,
    /// The texts as they stand, for further changes.
    made: Pair,
    /// Libraries that the analysis stood under before.
    before: Vec<Vec<u8>>,
}

/// Changes a standing analysis to a library, and holds what then stands to a new analysis. `wanted` is the answer
/// that the change was made for.
pub fn change_to(
    list: &mut List,
    changes: &mut Changes,
    label: &str,
    lib: &[u8],
    wanted: u64,
) -> u64 {
    let failed = changes.lists.all.failed;
    list.lending.new_lib = lib.to_vec();
    let said = changes.lists.check(label, &list.lending, Call::Change);
    changes.lists.meant(label, &said, wanted);
    // From numbers that do not stand a run by the paper's rule may take very long.
    if !said.accepted() || changes.lists.all.failed > failed {
        return said.answer;
    }
    let before = std::mem::replace(&mut list.lending.table, said.table);
    list.lending.lib = lib.to_vec();
    list.changes += 1;
    let on = said.answer == WENT_ON;
    if on {
        went_on(list, changes, label, &before);
    } else {
        list.as_new(&mut changes.lists, label, 0);
    }
    let pads = !list.pads.is_empty();
    changes.seen.with_pads[usize::from(on)] += u64::from(pads);
    changes.seen.one_after_another += u64::from(list.changes > 1);
    said.answer
}

/// What holds where the sweeps went on: the run is that of the paper's rule, within its bounds, no number rises,
/// and the numbers are those of a new analysis.
fn went_on(list: &mut List, changes: &mut Changes, label: &str, before: &[u32]) {
    let Lending {
        lib, net, table, ..
    } = &list.lending;
    let now = &table[..STANDING];
    let by_rule = continued(lib, net, before).unwrap_or(vec![0; STANDING]);
    let problem = if now != by_rule {
        Some("not the run by the paper's rule".to_string())
    } else {
        risen(before, now).or(many_sweeps(net, now))
    };
    changes.lists.tell(label, &list.lending, problem);
    let fell: Vec<usize> = (STANDING_NUMBERS..STANDING)
        .filter(|&at| now[at] < before[at])
        .collect();
    let observed = |at: &usize| (at - STANDING_NUMBERS) % COSTS >= OBSERVED_AT;
    changes.seen.lowered += u64::from(!fell.is_empty());
    changes.seen.observed_on += u64::from(fell.iter().any(observed));
    list.counts = counts_of(&by_rule);
    let counts = list.counts;
    list.as_new(&mut changes.lists, label, 4);
    let anew = analysed(&list.lending.lib, &list.lending.net, &list.pads);
    changes.seen.other_sweeps += u64::from(anew.is_ok_and(|table| counts_of(&table) != counts));
}

fn counts_of(table: &[u32]) -> [u32; 4] {
    [table[1], table[2], table[3], table[4]]
}

/// A number that is above what stood in its place, or above never.
fn risen(before: &[u32], now: &[u32]) -> Option<String> {
    (STANDING_NUMBERS..STANDING)
        .find(|&at| now[at] > before[at].min(NEVER))
        .map(|at| {
            format!(
                "the number at {at} rises from {} to {}",
                before[at], now[at]
            )
        })
}

/// More sweeps than the scope paper has.
fn many_sweeps(net: &[u8], table: &[u32]) -> Option<String> {
    let gates = net
        .split(|&b| b == b'\n')
        .filter(|line| line.starts_with(b"gate,"))
        .count() as u32;
    let most = [2 * gates + 1, 2 * gates + 1, gates + 1, gates + 1];
    let counts = counts_of(table);
    let many = counts.iter().zip(most).any(|(&count, most)| count > most);
    many.then(|| format!("sweeps {counts:?} over {gates} gates"))
}

impl Script {
    pub fn of(list: List, made: Pair) -> Self {
        Script {
            list,
            made,
            before: Vec::new(),
        }
    }

    pub fn ask(&mut self, changes: &mut Changes, rng: &mut Random) {
        let line = self.list.any_line(rng);
        self.list.ask(&mut changes.lists, "ask", line);
    }

    pub fn commit(&mut self, changes: &mut Changes, rng: &mut Random) {
        let (line, count) = self.list.any_ticket(rng);
        self.list.commit(&mut changes.lists, "commit", line, count);
    }

    /// A change of any kind.
    pub fn change(&mut self, changes: &mut Changes, rng: &mut Random) {
        let change = any_change(rng, &self.made);
        let label = format!("change, {:?}", change.kind);
        let wanted = change.wanted.map_or_else(Refusal::code, u64::from);
        let stood = self.list.lending.lib.clone();
        let said = change_to(&mut self.list, changes, &label, &change.lib, wanted);
        changes.note(change.kind, change.unused);
        if change.wanted.is_ok() && said == wanted {
            self.made = change.pair;
            self.before.push(stood);
        }
        if change.kind == Kind::Same {
            let counts = self.list.counts;
            let problem = (counts != [1; 4]).then(|| format!("sweeps {counts:?}"));
            changes.lists.all.verdict(&label, problem);
        }
    }

    /// Slices too short, or texts too long.
    pub fn entry(&self, changes: &mut Changes, rng: &mut Random) {
        let mut lending = self.list.lending.clone();
        lending.new_lib = any_change(rng, &self.made).lib;
        let short = rng.once_in(2);
        if short {
            let shorter = *rng.pick(&[0, 1, PADS_AT, STANDING_NUMBERS, STANDING - 1]);
            lending.table.truncate(shorter);
        }
        if !short || rng.once_in(2) {
            match rng.below(3) {
                0 => overlong(rng, &mut lending.lib),
                1 => overlong(rng, &mut lending.new_lib),
                _ => overlong(rng, &mut lending.net),
            }
        }
        let said = changes.lists.check("entry", &lending, Call::Change);
        let wanted = if short { TABLE_SHORT } else { TEXT_LONG };
        changes.lists.meant("entry", &said, refused(wanted));
    }

    /// Several things wrong at once: which of them is told, both sides must agree on.
    pub fn disorder(&self, changes: &mut Changes, rng: &mut Random, other: &[u32]) {
        let mut lending = self.list.lending.clone();
        lending.new_lib = any_change(rng, &self.made).lib;
        if rng.once_in(2) {
            scramble(rng, &mut lending.new_lib);
        }
        if rng.once_in(3) {
            scramble(rng, &mut lending.lib);
        }
        if rng.once_in(3) {
            scramble(rng, &mut lending.net);
        }
        if rng.once_in(2) {
            foreign_table(rng, &mut lending.table, &self.list.lines, other);
        }
        changes
            .lists
            .check("several things wrong", &lending, Call::Change);
    }

    /// A few changes over a table that is no standing analysis of the texts; an ask and a commit after each.
    pub fn foreign(&self, changes: &mut Changes, rng: &mut Random, other: &[u32]) {
        let label = "foreign table";
        let mut lending = self.list.lending.clone();
        let mut made = self.made.clone();
        if !self.before.is_empty() && rng.once_in(4) {
            // It stands under another library.
            lending.lib = rng.pick(&self.before).clone();
        } else {
            foreign_table(rng, &mut lending.table, &self.list.lines, other);
        }
        for _ in 0..2 {
            let change = any_change(rng, &made);
            lending.new_lib = change.lib;
            let said = changes.lists.check(label, &lending, Call::Change);
            if !said.accepted() {
                changes.seen.foreign[0] += u64::from(said.answer == refused(UNPADDABLE));
                break;
            }
            let on = said.answer == WENT_ON;
            changes.seen.foreign[if on { 1 } else { 2 }] += 1;
            let problem = left_foreign(&lending, &said, on);
            changes.lists.tell(label, &lending, problem);
            made = change.pair;
            lending.lib = std::mem::take(&mut lending.new_lib);
            lending.table = said.table;
            let line = self.list.any_line(rng);
            changes.lists.check(label, &lending, Call::Ask { line });
            let count = u64::from(lending.table[0]);
            let commit = Call::Commit { line, count };
            let said = changes.lists.check(label, &lending, commit);
            if said.accepted() {
                lending.table = said.table;
            }
        }
    }
}

/// What holds of a change over a table that no analysis left: the pads stay, with 0 behind the last. Begun again, all
/// is that of a new analysis; where the sweeps go on, no number rises, and they stay within the paper's bounds.
fn left_foreign(lending: &Lending, said: &Said, on: bool) -> Option<String> {
    let (before, now) = (&lending.table[..STANDING], &said.table[..STANDING]);
    let end = PADS_AT + (before[0] as usize).min(MOST_LINES);
    let pads = &before[PADS_AT..end];
    if said.answer > WENT_ON {
        Some("an answer that is none".to_string())
    } else if now[0] != before[0] || now[PADS_AT..end] != *pads {
        Some("other pads".to_string())
    } else if now[end..STANDING_NUMBERS].iter().any(|&pad| pad != 0) {
        Some("something behind the last pad".to_string())
    } else if on {
        risen(before, now).or(many_sweeps(&lending.net, now))
    } else {
        let anew = analysed(&lending.new_lib, &lending.net, pads);
        (anew.as_deref() != Ok(now)).then(|| "no new analysis".to_string())
    }
}
