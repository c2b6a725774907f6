//! How often each kind of change came up, and what it did.

use crate::comparison::Comparison;
use crate::pads::tally::Lists;
use second::grow::{Kind, KINDS, WORDS};

/// Rarer kinds must come up at least so often.
const SOME: u64 = 50;

/// What must have come up, and how often it did.
#[derive(Default)]
pub struct Seen {
    kinds: [u64; KINDS.len()],
    /// By `WORDS`.
    unused_wire: [u64; WORDS.len()],
    pub lowered: u64,
    pub observed_on: u64,
    pub other_sweeps: u64,
    /// Begun again, went on.
    pub with_pads: [u64; 2],
    /// Refused by 23, went on, begun again.
    pub foreign: [u64; 3],
    pub one_after_another: u64,
}

pub struct Changes<'a> {
    pub lists: Lists<'a>,
    pub seen: Seen,
}

impl<'a> Changes<'a> {
    pub fn of(all: &'a mut Comparison) -> Self {
        Changes {
            lists: Lists::of(all),
            seen: Seen::default(),
        }
    }

    pub fn count_anew(&mut self) {
        self.lists.count_anew();
        self.seen = Seen::default();
    }

    /// A change of this kind; `unused` where the cell that lost the one-wire reading is used by no gate.
    pub fn note(&mut self, kind: Kind, unused: bool) {
        let at = KINDS.iter().position(|&other| other == kind).unwrap();
        self.seen.kinds[at] += 1;
        if let (Kind::WireLost(word), true) = (kind, unused) {
            self.seen.unused_wire[word] += 1;
        }
    }

    pub fn tell_met(&mut self) {
        self.lists.tell_answers(3..4);
        let seen = &self.seen;
        let all = &mut self.lists.all;
        for (kind, count) in KINDS.iter().zip(seen.kinds) {
            all.met_at_least(SOME, &title(*kind), count);
        }
        for ((_, word), count) in WORDS.iter().zip(seen.unused_wire) {
            all.met_at_least(SOME, &format!("the same by {word}, cell unused"), count);
        }
        for (title, count) in [
            ("went on, a number fell", seen.lowered),
            ("went on, a CO or SO fell", seen.observed_on),
            ("went on, other sweeps than anew", seen.other_sweeps),
            ("went on with pads", seen.with_pads[1]),
            ("begun again with pads", seen.with_pads[0]),
            ("a change after another", seen.one_after_another),
            ("a ticket from before a change", self.lists.seen.across),
            ("a foreign table refused", seen.foreign[0]),
            ("a foreign table, went on", seen.foreign[1]),
            ("a foreign table, begun again", seen.foreign[2]),
        ] {
            all.met(title, count);
        }
    }
}

fn title(kind: Kind) -> String {
    match kind {
        Kind::Same => "an identical library".to_string(),
        Kind::RowsAdded => "rows added".to_string(),
        Kind::WireLost(word) => format!("one-wire reading lost by {}", WORDS[word].1),
        Kind::Moved => "entries moved".to_string(),
        Kind::NamesExchanged => "names exchanged".to_string(),
        Kind::Headed => "another heading".to_string(),
        Kind::RowDropped => "a row dropped".to_string(),
        Kind::RowReplaced => "a row replaced".to_string(),
        Kind::RowsExchanged => "rows exchanged".to_string(),
        Kind::EntryAdded => "an entry added".to_string(),
        Kind::UnusedGone => "an unused cell gone".to_string(),
        Kind::UnusedRenamed => "an unused cell renamed".to_string(),
        Kind::UnusedPins => "an unused cell, other pins".to_string(),
        Kind::UsedGone => "a used cell gone".to_string(),
        Kind::UsedRenamed => "a used cell renamed".to_string(),
        Kind::UsedPins => "a used cell, other pins".to_string(),
        Kind::Damaged => "a damaged library".to_string(),
        Kind::Overlong => "a library too long".to_string(),
    }
}
