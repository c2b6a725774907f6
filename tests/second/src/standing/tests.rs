//! Asks and commits: the latch by hand, every refusal, tables that no analysis left, and lists of asks and commits
//! against new analyses of texts with the pads' output lines added.

use super::*;
use crate::figures::*;
use crate::generate::{add_ranges, ladder, pair, Pair};
use crate::random::Random;
use crate::refusal::{LIBRARY_FORM, NETLIST_FORM, REPORT_LONG, TEXT_LONG};
use crate::MOST_BYTES;
use crate::REFUSED;

const ROOM: usize = 2 * (MOST_BYTES + 1);
/// What an entry holds that nobody should have touched.
const KEPT: u32 = 77;

/// The number of a refusal that belongs to no line.
fn refused(number: u32) -> u64 {
    Refusal::whole(number).code()
}

/// A standing analysis with its texts.
struct Held {
    lib: Vec<u8>,
    net: Vec<u8>,
    table: Vec<u32>,
}

impl Held {
    fn of(lib: &[u8], net: &[u8]) -> Self {
        let mut table = vec![KEPT; STANDING];
        let answer = stand_into(lib, net, &mut table, &mut vec![0; ROOM]);
        assert!(answer < REFUSED, "{answer}");
        Held {
            lib: lib.to_vec(),
            net: net.to_vec(),
            table,
        }
    }

    fn latch() -> Self {
        Held::of(NAND2.as_bytes(), LATCH_NET.as_bytes())
    }

    /// The answer, and the lent numbers where it is no refusal; else they are untouched.
    fn ask(&self, line: u64) -> (u64, Vec<u32>) {
        let mut answer = vec![KEPT; OBSERVED + 3];
        let said = ask_into(&self.lib, &self.net, &self.table, line, &mut answer);
        let kept = if said < REFUSED { OBSERVED } else { 0 };
        assert!(answer[kept..].iter().all(|&number| number == KEPT));
        answer.truncate(kept);
        (said, answer)
    }

    /// A refusal leaves the table as it was.
    fn commit(&mut self, line: u64, count: u64) -> u64 {
        let before = self.table.clone();
        let said = commit_into(&self.lib, &self.net, &mut self.table, line, count);
        assert_eq!(said < REFUSED, self.table != before);
        said
    }

    /// CO and SO of all lines, as they stand.
    fn observed(&self) -> Vec<u32> {
        observed(&self.table)
    }
}

#[test]
fn latch() {
    let mut held = Held::latch();
    assert_eq!(held.table[..5], [0, 3, 3, 3, 3]);
    assert!(held.table[5..STANDING_NUMBERS].iter().all(|&pad| pad == 0));
    assert_eq!(
        held.table[STANDING_NUMBERS..STANDING_NUMBERS + 6],
        [1, 1, 0, 0, 3, 0]
    );
    let before = held.table.clone();
    let (said, answer) = held.ask(4);
    assert_eq!(said, 0);
    assert_eq!(answer[..8], LATCH_ASKED);
    assert!(answer[8..].iter().all(|&number| number == NEVER));
    assert_eq!(held.table, before);
    assert_eq!(held.commit(4, 0), 1);
    assert_eq!(held.table[..7], [1, 3, 3, 2, 2, 4, 0]);
    assert_eq!(held.observed(), answer);
    // The values stand, and so do their sweeps.
    assert_eq!(
        held.table[STANDING_NUMBERS + 18..STANDING_NUMBERS + 24],
        [4, 2, 0, 0, 0, 0]
    );
}

#[test]
fn refusals_of_a_pad() {
    let mut held = Held::latch();
    // An output; unmentioned; outside 1 to 1,000, above 32 bits too.
    for line in [3, 5, 1_000, 0, 1_001, (1 << 32) + 4, u64::MAX] {
        assert_eq!(held.ask(line).0, refused(UNPADDABLE), "{line}");
        // 23 before 24.
        for count in [0, 1] {
            assert_eq!(held.commit(line, count), refused(UNPADDABLE), "{line}");
        }
    }
    for count in [1, 1 << 32, u64::MAX] {
        assert_eq!(held.commit(4, count), refused(TICKET_STALE), "{count}");
    }
    assert_eq!(held.ask(1).0, 0);
    assert_eq!(held.commit(4, 0), 1);
    // A stale ticket, and a line padded before.
    assert_eq!(held.commit(1, 0), refused(TICKET_STALE));
    assert_eq!(held.ask(4).0, refused(UNPADDABLE));
    assert_eq!(held.commit(4, 0), refused(UNPADDABLE));
    assert_eq!(held.ask(1).0, 1);
    assert_eq!(held.commit(1, 1), 2);
    assert_eq!(held.table[PADS_AT..PADS_AT + 3], [4, 1, 0]);
}

/// A pad on an open line is a pad: it is mentioned, and seen at cost 0.
#[test]
fn pad_on_an_open_line() {
    let mut held = Held::of(INV.as_bytes(), b"open,1\ngate,INV,2,1\n");
    let (said, answer) = held.ask(1);
    assert_eq!(said, 0);
    assert_eq!(answer[..4], [0, 0, NEVER, NEVER]);
    assert_eq!(held.commit(1, 0), 1);
}

#[test]
fn refusals_at_entry() {
    let held = Held::latch();
    let [lib, net] = [&held.lib, &held.net];
    let long = vec![b'\n'; MOST_BYTES + 1];
    let mut report = vec![7; ROOM];
    for text in [&lib[..], &long] {
        // 1 before 2.
        for length in [0, STANDING - 1] {
            let mut table = held.table[..length].to_vec();
            let said = stand_into(text, net, &mut table, &mut report);
            assert_eq!(said, refused(TABLE_SHORT));
            let mut answer = vec![KEPT; OBSERVED];
            let said = ask_into(text, net, &table, 4, &mut answer);
            assert_eq!(said, refused(TABLE_SHORT));
            assert_eq!(answer, [KEPT; OBSERVED]);
            assert_eq!(
                commit_into(text, net, &mut table, 4, 0),
                refused(TABLE_SHORT)
            );
            assert_eq!(table, held.table[..length]);
        }
        for length in [0, OBSERVED - 1] {
            let mut answer = vec![KEPT; length];
            let said = ask_into(text, net, &held.table, 4, &mut answer);
            assert_eq!(said, refused(TABLE_SHORT));
            assert_eq!(answer, vec![KEPT; length]);
        }
    }
    let mut table = held.table.clone();
    assert_eq!(
        stand_into(&long, net, &mut table, &mut report),
        refused(TEXT_LONG)
    );
    let mut answer = vec![KEPT; OBSERVED];
    assert_eq!(
        ask_into(lib, &long, &table, 4, &mut answer),
        refused(TEXT_LONG)
    );
    assert_eq!(
        commit_into(&long, net, &mut table, 4, 0),
        refused(TEXT_LONG)
    );
    assert_eq!(table, held.table);
    assert!(report.iter().all(|&byte| byte == 7));
    assert!(answer.iter().all(|&number| number == KEPT));
}

/// Standing clears what it was lent, past the table's size too; asking and committing touch nothing.
#[test]
fn refusals_of_the_texts() {
    let held = Held::latch();
    let [lib, net] = [&held.lib[..], &held.net[..]];
    for (lib, net, number) in [
        (&b"x\n"[..], net, LIBRARY_FORM),
        (lib, &b"x\n"[..], NETLIST_FORM),
    ] {
        let code = u64::from(number) * REFUSED + 1;
        let mut longer = held.table.clone();
        longer.extend([KEPT; 3]);
        let kept = longer.clone();
        assert_eq!(commit_into(lib, net, &mut longer, 0, 9), code);
        assert_eq!(longer, kept);
        let mut answer = vec![KEPT; OBSERVED];
        assert_eq!(ask_into(lib, net, &longer, 0, &mut answer), code);
        assert!(answer.iter().all(|&number| number == KEPT));
        let mut report = vec![7; 100];
        assert_eq!(stand_into(lib, net, &mut longer, &mut report), code);
        assert!(longer.iter().all(|&number| number == 0));
        assert!(report.iter().all(|&byte| byte == 0));
    }
    // The report's own refusal is the last.
    let mut longer = [&held.table[..], &[KEPT; 3]].concat();
    let mut report = vec![7; LATCH_REPORT.len() - 1];
    assert_eq!(
        stand_into(lib, net, &mut longer, &mut report),
        refused(REPORT_LONG)
    );
    assert!(longer.iter().all(|&number| number == 0));
    let mut longer = [&held.table[..], &[KEPT; 3]].concat();
    let mut report = vec![7; LATCH_REPORT.len() + 1];
    let said = stand_into(lib, net, &mut longer, &mut report);
    assert_eq!(said, LATCH_REPORT.len() as u64);
    assert_eq!(report, [LATCH_REPORT.as_bytes(), &[7]].concat());
    assert_eq!(longer, [&held.table[..], &[KEPT; 3]].concat());
}

/// Tables that no analysis of these texts left.
#[test]
fn foreign_tables() {
    let fresh = Held::latch();
    let with = |changes: &[(usize, u32)]| {
        let mut held = Held::latch();
        for &(place, number) in changes {
            held.table[place] = number;
        }
        held
    };
    for changes in [
        &[(0, 1_001)][..],
        &[(0, u32::MAX)],
        // A pad that is none, is outside, unmentioned, an output, there twice.
        &[(0, 1)],
        &[(0, 1), (PADS_AT, 1_001)],
        &[(0, 1), (PADS_AT, 5)],
        &[(0, 1), (PADS_AT, 3)],
        &[(0, 2), (PADS_AT, 4), (PADS_AT + 1, 4)],
        &[(0, 1_000), (PADS_AT, 4)],
    ] {
        let mut held = with(changes);
        assert_eq!(held.ask(1).0, refused(UNPADDABLE), "{changes:?}");
        assert_eq!(held.commit(1, 7), refused(UNPADDABLE), "{changes:?}");
    }
    // A number above never is never; what is not read does not count; sweeps stay as they are.
    let mut held = with(&[
        (1, 91),
        (3, 93),
        (PADS_AT, 9),
        (STANDING_NUMBERS + 4, 5),
        (STANDING_NUMBERS + 6 * 2 + 1, u32::MAX),
    ]);
    let (said, answer) = held.ask(4);
    assert_eq!(said, 0);
    // Line 2 is seen at 4 only by line 3 at 1, which is never now.
    assert_eq!(answer[..8], [3, 0, NEVER, 0, 0, 0, 0, 0]);
    assert_eq!(held.commit(4, 0), 1);
    assert_eq!(held.table[..7], [1, 91, 3, 2, 2, 4, 0]);
    assert_eq!(held.table[STANDING_NUMBERS + 6 * 2 + 1], NEVER);
    assert_eq!(held.observed(), answer);
    assert_eq!(fresh.table[..7], [0, 3, 3, 3, 3, 0, 0]);
}

/// Random asks and commits, and after each what a new analysis of the text with the pads' lines added has.
#[test]
fn lists_of_asks_and_commits() {
    let mut rng = Random::from(11);
    let mut placed = 0;
    for turn in 0..60 {
        let mut made = if turn % 3 == 0 {
            ladder(&mut rng, 1 + turn % 30)
        } else {
            pair(&mut rng, 1 + turn % 30)
        };
        if turn % 4 == 0 {
            add_ranges(&mut rng, &mut made);
        }
        placed += list(&mut rng, &made);
    }
    assert!(placed > 150, "{placed}");
}

fn list(rng: &mut Random, made: &Pair) -> usize {
    let (lib, mut net) = (made.lib.bytes(), made.net.bytes());
    let mut held = Held::of(&lib, &net);
    let mut pads = Vec::new();
    let mut lines = made.mentioned();
    lines.push(1_001);
    for _ in 0..12 {
        let line = *rng.pick(&lines);
        let (count, answer) = held.ask(line);
        if count >= REFUSED {
            assert_eq!(count, refused(UNPADDABLE));
            assert_eq!(held.commit(line, pads.len() as u64), count);
            continue;
        }
        assert_eq!(count, pads.len() as u64);
        if rng.once_in(3) {
            continue;
        }
        let before = held.observed();
        assert_eq!(held.commit(line, count), count + 1);
        pads.push(line as u32);
        net.extend(format!("output,{line}\n").bytes());
        assert_eq!(held.observed(), answer);
        assert!(answer.iter().zip(&before).all(|(now, then)| now <= then));
        // Of the text with the lines added no pad is told apart: its table has none.
        let anew = Held::of(&lib, &net).table;
        assert_eq!(held.table[1..PADS_AT], anew[1..PADS_AT]);
        assert_eq!(held.table[STANDING_NUMBERS..], anew[STANDING_NUMBERS..]);
        assert_eq!(
            Ok(&held.table),
            analysed(&held.lib, &held.net, &pads).as_ref()
        );
    }
    pads.len()
}
