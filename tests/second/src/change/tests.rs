//! Changes of library: what goes on and what begins again, one cause at a time, every refusal and their order,
//! tables that no analysis left, and random lists of asks, commits and changes against new analyses.

use super::*;
use crate::figures::*;
use crate::generate::{add_ranges, ladder, pair, Pair};
use crate::grow::{any_change, Kind, KINDS};
use crate::random::Random;
use crate::refusal::{
    CELL_UNKNOWN, GROUPS_BAD, LIBRARY_FORM, NETLIST_FORM, PINS_DIFFER, ROW_IDLE, TABLE_SHORT,
};
use crate::standing::{
    analysed, ask_into, commit_into, observed, stand_into, OBSERVED, PADS_AT, STANDING_NUMBERS,
};
use crate::NEVER;
use crate::REFUSED;

const ROOM: usize = 2 * (MOST_BYTES + 1);
/// What stands past the table, and must not be touched.
const PAST: [u32; 3] = [77, 78, 79];

fn refused(number: u32) -> u64 {
    Refusal::whole(number).code()
}

fn at(number: u32, line: u32) -> u64 {
    Refusal { number, line }.code()
}

/// A standing analysis with its texts.
struct Held {
    lib: Vec<u8>,
    net: Vec<u8>,
    table: Vec<u32>,
}

impl Held {
    fn of(lib: &str, net: &str) -> Self {
        Held::of_bytes(lib.as_bytes(), net.as_bytes())
    }

    fn of_bytes(lib: &[u8], net: &[u8]) -> Self {
        let mut table = vec![0; STANDING];
        table.extend(PAST);
        let answer = stand_into(lib, net, &mut table, &mut vec![0; ROOM]);
        assert!(answer < REFUSED, "{answer}");
        Held {
            lib: lib.to_vec(),
            net: net.to_vec(),
            table,
        }
    }

    fn pad(&mut self, line: u64) {
        let count = u64::from(self.table[0]);
        let said = commit_into(&self.lib, &self.net, &mut self.table, line, count);
        assert_eq!(said, count + 1);
    }

    fn pads(&self) -> &[u32] {
        &self.table[PADS_AT..PADS_AT + self.table[0] as usize]
    }

    fn counts(&self) -> &[u32] {
        &self.table[1..PADS_AT]
    }

    /// The six costs of a line.
    fn line(&self, line: usize) -> &[u32] {
        &self.table[STANDING_NUMBERS + 6 * (line - 1)..STANDING_NUMBERS + 6 * line]
    }

    /// The answer to a change. A refused one touches nothing; after an accepted one the six numbers are those of a
    /// new analysis with the same pads, and the library is the present one.
    fn change(&mut self, lib: &[u8]) -> u64 {
        let before = self.table.clone();
        let said = change_into(&self.lib, lib, &self.net, &mut self.table);
        assert_eq!(self.table[STANDING..], PAST);
        if said >= REFUSED {
            assert_eq!(self.table, before);
            return said;
        }
        assert_eq!(self.table[0], before[0]);
        assert_eq!(self.pads(), &before[PADS_AT..PADS_AT + before[0] as usize]);
        let anew = analysed(lib, &self.net, self.pads()).unwrap();
        assert_eq!(
            self.table[PADS_AT..STANDING],
            anew[PADS_AT..],
            "pads and numbers"
        );
        if said == BEGUN_AGAIN {
            assert_eq!(self.counts(), &anew[1..PADS_AT]);
        } else {
            assert_eq!(said, WENT_ON);
            // By the scope paper's own rule it is the same run.
            let becomes = continued(lib, &self.net, &before).unwrap();
            assert_eq!(self.table[..STANDING], becomes);
            let raised = (STANDING_NUMBERS..STANDING).any(|at| self.table[at] > before[at]);
            assert!(!raised, "a number rises");
        }
        self.lib = lib.to_vec();
        said
    }
}

/// The latch, changed to a library of NAND2 made so.
fn latch_to(lib: &str) -> u64 {
    Held::of(NAND2, LATCH_NET).change(lib.as_bytes())
}

/// A change of one text to another under the latch.
fn from_to(old: &str, new: &str) -> u64 {
    let extra = "Name,SPARE,2\nCC,13,21,M,5\nCO,203,211\nSC,12,20,M,4\nSO,202,210\nEnd\n";
    // The same whether a gate uses the cell or none does.
    let used = Held::of(old, LATCH_NET).change(new.as_bytes());
    let [old, new] = [old, new].map(|lib| lib.replace("NAND2", "OTHER"));
    let [old, new] = [old, new].map(|lib| format!("{NAND2}{lib}{extra}"));
    let unused = Held::of(&old, LATCH_NET).change(new.as_bytes());
    assert_eq!(used, unused, "{new}");
    used
}

#[test]
fn an_identical_library() {
    for (lib, net) in [
        (NAND2, LATCH_NET),
        (NAND2, C17_NET),
        (C1490, C1490_NET),
        (DELAY, DELAY_NET),
        (TIES, TIES_NET),
        (C1130, C1130_RANGE_NET),
        (SLOW, &slow_chain(40)),
        ("", UNDRIVEN_NET),
        ("", ""),
    ] {
        let mut held = Held::of(lib, net);
        let before = held.table.clone();
        assert_eq!(held.change(lib.as_bytes()), WENT_ON);
        assert_eq!(held.counts(), [1, 1, 1, 1]);
        assert_eq!(held.table[PADS_AT..], before[PADS_AT..]);
    }
}

#[test]
fn latch_with_a_row_added() {
    let mut held = Held::of(NAND2, LATCH_NET);
    assert_eq!(held.counts(), [3, 3, 3, 3]);
    assert_eq!(held.change(NAND2_MORE.as_bytes()), WENT_ON);
    assert_eq!(held.counts(), LATCH_CHANGED);
    assert_eq!(held.line(1), [1, 1, 0, 0, 3, 0]);
    assert_eq!(held.line(2), [1, 1, 0, 0, 5, 0]);
    assert_eq!(held.line(3), [2, 2, 0, 0, 0, 0]);
    assert_eq!(held.line(4), [2, 2, 0, 0, 2, 0]);
    // A commit after it: CO and SO are those of a new analysis, CC and SC and their counts stand.
    held.pad(4);
    let anew = analysed(NAND2_MORE.as_bytes(), LATCH_NET.as_bytes(), &[4]).unwrap();
    assert_eq!(held.counts(), [2, 1, anew[3], anew[4]]);
    assert_eq!(held.table[PADS_AT..STANDING], anew[PADS_AT..]);
}

/// With the pad kept, and back again, which is no library with rows added.
#[test]
fn flip_flop_with_a_row_added() {
    let mut held = Held::of(C1490, C1490_NET);
    held.pad(2);
    assert_eq!(held.line(4), [2, 4, 1, 1, 0, 0]);
    assert_eq!(held.change(C1490_MORE.as_bytes()), WENT_ON);
    assert_eq!(held.line(4), [1, 4, 1, 1, 0, 0]);
    assert_eq!(held.pads(), [2]);
    assert_eq!(held.change(C1490.as_bytes()), BEGUN_AGAIN);
    assert_eq!(held.line(4), [2, 4, 1, 1, 0, 0]);
    assert_eq!(held.pads(), [2]);
    let mut held = Held::of(C1490, C1490_NET);
    assert_eq!(held.line(2), [1, 1, 0, 0, 6, 2]);
    assert_eq!(held.change(C1490_MORE.as_bytes()), WENT_ON);
    assert_eq!(held.line(2), [1, 1, 0, 0, 5, 2]);
    assert_eq!(held.counts(), [2, 1, 2, 1]);
}

/// Every place of a group, and each of the four lines.
#[test]
fn rows_added_anywhere() {
    for (was, is) in [
        ("CC,13,21,M,5", "CC,11,M,13,21,M,5"),
        ("CC,13,21,M,5", "CC,13,11,M,21,M,5"),
        ("CC,13,21,M,5", "CC,13,21,M,11,M,5"),
        ("CC,13,21,M,5", "CC,13,21,M,5,M,11"),
        ("CC,13,21,M,5", "CC,13,M,3,21,M,5,M,21"),
        ("CO,203,211", "CO,201,M,203,211"),
        ("CO,203,211", "CO,203,211,M,200"),
        ("SC,12,20,M,4", "SC,12,20,M,4,M,2"),
        ("SO,202,210", "SO,202,M,200,210"),
        // The same rows once more, in whatever order, beside the old ones.
        ("CC,13,21,M,5", "CC,13,5,M,21,M,5,M,21"),
    ] {
        assert_eq!(
            from_to(NAND2, &NAND2.replace(was, is)),
            WENT_ON,
            "{was}: {is}"
        );
    }
    // Up to sixteen rows; a group that is full gains none.
    let full = NAND2.replace("CC,13,", &format!("CC{},", ",M,13".repeat(16)));
    let full = full.replace("CC,M", "CC");
    assert_eq!(from_to(NAND2, &full), WENT_ON);
    let more = full.replace("CC,13", "CC,13,M,13");
    assert_eq!(latch_to(&more), at(GROUPS_BAD, 2));
}

#[test]
fn not_only_rows_added() {
    for (was, is) in [
        // A row is gone, another, of another depth, or in another place.
        ("CC,13,21,M,5", "CC,13,21"),
        ("CC,13,21,M,5", "CC,13,5"),
        ("CC,13,21,M,5", "CC,Z,21,M,5"),
        ("CC,13,21,M,5", "CC,11,21,M,5"),
        ("CC,13,21,M,5", "CC,12,21,M,5"),
        ("CC,13,21,M,5", "CC,12,M,11,21,M,5"),
        ("CC,13,21,M,5", "CC,13,5,M,21"),
        ("CC,13,21,M,5", "CC,21,M,5,13"),
        ("CC,13,21,M,5", "CC,13,5,M,5,M,21,M,3"),
        ("CO,203,211", "CO,Z,211"),
        ("CO,203,211", "CO,211,203"),
        ("SC,12,20,M,4", "SC,12,4"),
        ("SO,202,210", "SO,202,211"),
        // Another name or count of pins has its own tests.
    ] {
        assert_eq!(
            from_to(NAND2, &NAND2.replace(was, is)),
            BEGUN_AGAIN,
            "{was}: {is}"
        );
    }
}

/// Z may gain rows; where the other group then has a row that names no pin, the library is refused.
#[test]
fn z_gains_rows() {
    let open = NAND2.replace("CC,13,21,M,5", "CC,Z,21,M,5");
    let more = NAND2.replace("CC,13,21,M,5", "CC,13,M,11,21,M,5");
    assert_eq!(from_to(&open, NAND2), WENT_ON);
    assert_eq!(from_to(&open, &more), WENT_ON);
    let mut held = Held::of(&open, LATCH_NET);
    assert_eq!(held.line(3), [NEVER, 2, 0, 0, 0, 0]);
    assert_eq!(held.change(NAND2.as_bytes()), WENT_ON);
    assert_eq!(held.line(3), [4, 2, 0, 0, 0, 0]);
    let blind = NAND2.replace("CO,203,211", "CO,Z,211");
    assert_eq!(from_to(&blind, NAND2), WENT_ON);
    // Both groups Z, then one of them; then no more.
    let none = TIES.replace("CC,1,Z", "CC,Z,Z");
    let mut held = Held::of(&none, TIES_NET);
    assert_eq!(held.line(1)[..2], [NEVER, NEVER]);
    assert_eq!(held.change(TIES.as_bytes()), WENT_ON);
    assert_eq!(held.line(1)[..2], [1, NEVER]);
    let both = TIES.replace("CC,1,Z", "CC,1,1");
    assert_eq!(held.change(both.as_bytes()), at(ROW_IDLE, 2));
    let named = "Name,ONE,1\nCC,1,Z\nCO,41\nSC,0,Z\nSO,40\nEnd\n";
    let net = "input,1\ngate,ONE,2,1\noutput,2\n";
    let gains = named.replace("CC,1,Z", "CC,1,3");
    assert_eq!(
        Held::of(named, net).change(gains.as_bytes()),
        at(ROW_IDLE, 2)
    );
    let gains = named.replace("CC,1,Z", "CC,1,M,3,Z");
    assert_eq!(Held::of(named, net).change(gains.as_bytes()), WENT_ON);
}

/// By a row of each of the four lines, of a cell that a gate uses and of one that none does.
#[test]
fn one_wire_reading_lost() {
    for (was, is) in [
        ("CC,13,21,M,5", "CC,13,M,7,21,M,5"),
        ("CC,13,21,M,5", "CC,13,21,M,5,M,37"),
        ("SC,12,20,M,4", "SC,12,20,M,4,M,6"),
        ("CO,203,211", "CO,203,211,M,231"),
        ("CO,203,211", "CO,203,M,207,211"),
        ("SO,202,210", "SO,202,M,236,210"),
    ] {
        let lost = NAND2.replace(was, is);
        assert_eq!(from_to(NAND2, &lost), BEGUN_AGAIN, "{is}");
        // One that has not got the reading may gain whatever rows.
        let more = lost.replace("CC,13,", "CC,13,M,17,");
        assert_eq!(from_to(&lost, &more), WENT_ON, "{is}");
        // And it is not had back by anything that keeps its rows.
        assert_eq!(from_to(&lost, NAND2), BEGUN_AGAIN, "{is}");
    }
    // Both values of the output are no pin's.
    let output = NAND2.replace("CO,203,211", "CO,203,211,M,341");
    assert_eq!(from_to(NAND2, &output), WENT_ON);
    // A cell with one pin is no exception.
    let both = INV.replace("CC,3,5", "CC,3,M,7,5");
    assert_eq!(
        Held::of(INV, &chain("INV", 3, false)).change(both.as_bytes()),
        BEGUN_AGAIN
    );
    // The numbers are those of the new reading: both pins are paid now.
    let mut held = Held::of(AND2, &doubling("AND2", 4));
    assert_eq!(held.line(5)[..2], [5, 5]);
    let lost = AND2.replace("CC,21,M,5,13", "CC,21,M,5,M,7,13");
    assert_eq!(held.change(lost.as_bytes()), BEGUN_AGAIN);
    assert_eq!(held.line(5)[..2], [5, 31]);
}

/// The heading counts, though depths and columns are the same.
#[test]
fn heading_changed() {
    let mut held = Held::of(C1130, C1130_NET);
    let before = held.table.clone();
    assert_eq!(held.change(C1130_DEEP.as_bytes()), BEGUN_AGAIN);
    assert_eq!(held.table, before);
    assert_eq!(held.change(C1130_DEEP.as_bytes()), WENT_ON);
    assert_eq!(held.change(C1130.as_bytes()), BEGUN_AGAIN);
    // A row under Name3, with its depth of three bits.
    let deeper = C1130_DEEP.replace("CC,201", "CC,207,M,201");
    held.change(C1130_DEEP.as_bytes());
    assert_eq!(held.change(deeper.as_bytes()), WENT_ON);
    let other = deeper.replace("CC,207", "CC,206");
    assert_eq!(held.change(other.as_bytes()), BEGUN_AGAIN);
}

#[test]
fn entries_moved_added_and_gone() {
    let both = format!("{NAND2}{INV}");
    let moved = format!("{INV}{NAND2}");
    let renamed = both.replace("INV", "INVERT");
    for new in [&moved, &renamed, &format!("{both}{AND2}"), NAND2] {
        assert_eq!(
            Held::of(&both, LATCH_NET).change(new.as_bytes()),
            BEGUN_AGAIN,
            "{new}"
        );
    }
    let pins = both.replace(INV, "Name,INV,0\nCC,1,Z\nCO\nSC,0,Z\nSO\nEnd\n");
    assert_eq!(
        Held::of(&both, LATCH_NET).change(pins.as_bytes()),
        BEGUN_AGAIN
    );
    // The names of two cells exchanged: every gate is another one.
    let two = format!("{NAND2}{AND2}");
    let other = two
        .replace("NAND2", "X")
        .replace("AND2", "NAND2")
        .replace('X', "AND2");
    let mut held = Held::of(&two, LATCH_NET);
    assert_eq!(held.change(other.as_bytes()), BEGUN_AGAIN);
    assert_eq!(held.line(3)[..2], [2, NEVER]);
    assert_eq!(held.change(two.as_bytes()), BEGUN_AGAIN);
    assert_eq!(held.table, Held::of(&two, LATCH_NET).table);
}

/// Nothing is touched by a library that is refused, or under which the netlist is.
#[test]
fn refused_libraries() {
    let mut held = Held::of(NAND2, LATCH_NET);
    held.pad(4);
    assert_eq!(held.change(b"x\n"), at(LIBRARY_FORM, 1));
    assert_eq!(held.change(b"Name,NAND2,2\n"), at(LIBRARY_FORM, 2));
    let doubled = format!("{NAND2}{NAND2}");
    assert_eq!(held.change(doubled.as_bytes()), at(4, 7));
    assert_eq!(held.change(b""), at(CELL_UNKNOWN, 3));
    assert_eq!(
        held.change(NAND2.replace("NAND2", "NAND").as_bytes()),
        at(CELL_UNKNOWN, 3)
    );
    let three = C1130.replace("C1130", "NAND2");
    assert_eq!(held.change(three.as_bytes()), at(PINS_DIFFER, 3));
    assert_eq!(held.change(NAND2_MORE.as_bytes()), WENT_ON);
    assert_eq!(held.pads(), [4]);
}

/// 1 and 2 before all, 2 of any of the three texts.
#[test]
fn refusals_at_entry() {
    let held = Held::of(NAND2, LATCH_NET);
    let good = [NAND2, NAND2_MORE, LATCH_NET].map(|text| text.as_bytes().to_vec());
    let long = vec![b'\n'; MOST_BYTES + 1];
    let said = |texts: &[Vec<u8>; 3], table: &mut [u32]| {
        let [lib, new_lib, net] = texts;
        change_into(lib, new_lib, net, table)
    };
    for which in 0..3 {
        let mut texts = good.clone();
        texts[which] = long.clone();
        let mut table = held.table.clone();
        assert_eq!(said(&texts, &mut table), refused(TEXT_LONG));
        // Before what is wrong with the others.
        texts[(which + 1) % 3] = b"x".to_vec();
        table[0] = 1_001;
        let before = table.clone();
        assert_eq!(said(&texts, &mut table), refused(TEXT_LONG));
        assert_eq!(table, before);
        for length in [0, 1, STANDING - 1] {
            let mut table = held.table[..length].to_vec();
            assert_eq!(said(&texts, &mut table), refused(TABLE_SHORT));
            assert_eq!(table, held.table[..length]);
        }
        // As long as it may be.
        let mut texts = good.clone();
        texts[which] = long[1..].to_vec();
        let number = if which == 2 {
            NETLIST_FORM
        } else {
            LIBRARY_FORM
        };
        assert_eq!(said(&texts, &mut held.table.clone()), at(number, 1));
    }
    let mut table = held.table[..STANDING - 1].to_vec();
    assert_eq!(said(&good, &mut table), refused(TABLE_SHORT));
}

/// Those of lib and net first, then 23, then those of the new library, then of net under it.
#[test]
fn order_of_refusals() {
    let held = Held::of(NAND2, LATCH_NET);
    let mut table = held.table.clone();
    // Everything is wrong; then one thing less at a time.
    table[0] = 1_001;
    let [lib, net] = [NAND2.as_bytes(), LATCH_NET.as_bytes()];
    let mut said =
        |lib: &[u8], new_lib: &[u8], net: &[u8]| change_into(lib, new_lib, net, &mut table);
    assert_eq!(said(b"y\ny\n", b"x\n", b"z\n"), at(LIBRARY_FORM, 1));
    assert_eq!(
        said(b"Name,A,1\n", b"x\n", b"z\n"),
        at(LIBRARY_FORM, 2),
        "of the old library"
    );
    assert_eq!(said(lib, b"x\n", b"z\n"), at(NETLIST_FORM, 1));
    assert_eq!(said(lib, b"x\n", net), refused(UNPADDABLE));
    assert_eq!(said(lib, b"", net), refused(UNPADDABLE));
    assert_eq!(said(lib, lib, net), refused(UNPADDABLE));
    table[0] = 0;
    let mut said = |new_lib: &[u8]| change_into(lib, new_lib, net, &mut table);
    assert_eq!(said(b"x\n"), at(LIBRARY_FORM, 1));
    assert_eq!(said(b""), at(CELL_UNKNOWN, 3));
    assert_eq!(table, held.table);
    // A netlist that is refused under the old library is, whatever it is under the new one.
    let inv = chain("INV", 1, false);
    assert_eq!(
        change_into(lib, INV.as_bytes(), inv.as_bytes(), &mut table),
        at(CELL_UNKNOWN, 2)
    );
}

/// Tables that no analysis of these texts left.
#[test]
fn foreign_tables() {
    let fresh = Held::of(NAND2, LATCH_NET);
    let change = |lib: &str, changes: &[(usize, u32)]| {
        let mut table = fresh.table.clone();
        for &(place, number) in changes {
            table[place] = number;
        }
        let before = table.clone();
        let said = change_into(&fresh.lib, lib.as_bytes(), &fresh.net, &mut table);
        if said >= REFUSED {
            assert_eq!(table, before);
        }
        (said, table)
    };
    for changes in [
        &[(0, 1_001)][..],
        &[(0, u32::MAX)],
        // A pad that is none, is outside, unmentioned, an output, there twice.
        &[(0, 1)],
        &[(0, 1), (PADS_AT, 1_001)],
        &[(0, 1), (PADS_AT, 5)],
        &[(0, 1), (PADS_AT, 3)],
        &[(0, 2), (PADS_AT, 4), (PADS_AT + 1, 4)],
        &[(0, 1_000), (PADS_AT, 4)],
    ] {
        for lib in [NAND2, NAND2_MORE, C1130, "x"] {
            assert_eq!(change(lib, changes).0, refused(UNPADDABLE), "{changes:?}");
        }
    }
    // Numbers below those of the analysis stay: each visit keeps the lesser. One above never counts as never.
    let cost = |line: usize, at: usize| STANDING_NUMBERS + 6 * (line - 1) + at;
    let (said, table) = change(
        NAND2,
        &[
            (1, 91),
            (PADS_AT, 9),
            (cost(3, 0), 1),
            (cost(4, 1), u32::MAX),
            (cost(2, 4), 4),
            (cost(1, 4), u32::MAX),
            (cost(999, 5), u32::MAX),
            (cost(1_000, 2), 8),
        ],
    );
    assert_eq!(said, WENT_ON);
    // CC1 of line 4 is found again, and through CC0 of line 3 at 1; CO of line 1 too, in a sweep and the last.
    assert_eq!(table[..PADS_AT + 1], [0, 2, 1, 2, 1, 0]);
    assert_eq!(
        table[cost(1, 0)..cost(5, 0)],
        [
            1, 1, 0, 0, 3, 0, //
            1, 1, 0, 0, 4, 0, //
            1, 2, 0, 0, 0, 0, //
            4, 2, 0, 0, 2, 0,
        ]
    );
    assert_eq!(table[cost(999, 5)], NEVER);
    assert_eq!(table[cost(1_000, 2)], 8);
    // Begun again, nothing of it is left but the pads.
    let (said, table) = change(
        &NAND2.replace("CC,13", "CC,11"),
        &[
            (0, 1),
            (PADS_AT, 4),
            (PADS_AT + 1, 9),
            (1, 91),
            (cost(3, 0), 1),
        ],
    );
    assert_eq!(said, BEGUN_AGAIN);
    let anew = analysed(NAND2.replace("CC,13", "CC,11").as_bytes(), &fresh.net, &[4]);
    assert_eq!(Ok(&table[..STANDING]), anew.as_deref());
    assert_eq!(table[STANDING..], PAST);
}

/// A ticket asked before the change and committed after it makes the new library's numbers stand.
#[test]
fn ticket_across_a_change() {
    let mut held = Held::of(C1490, C1490_NET);
    let mut answer = vec![0; OBSERVED];
    let count = ask_into(&held.lib, &held.net, &held.table, 3, &mut answer);
    assert_eq!((count, answer[2]), (0, 6));
    assert_eq!(held.change(C1490_MORE.as_bytes()), WENT_ON);
    let said = commit_into(&held.lib, &held.net, &mut held.table, 3, count);
    assert_eq!(said, 1);
    assert_eq!(observed(&held.table)[2], 5);
    let anew = analysed(C1490_MORE.as_bytes(), &held.net, &[3]).unwrap();
    assert_eq!(held.table[PADS_AT..STANDING], anew[PADS_AT..]);
}

/// A row is among others in order: by trying all ways to leave rows out.
#[test]
fn rows_kept() {
    let rows = |digits: usize, count: u32| -> Vec<Row> {
        (0..count)
            .map(|place| Row {
                depth: 0,
                columns: (digits / 3usize.pow(place) % 3) as u32,
            })
            .collect()
    };
    let mut kept = 0;
    for new in 0..3usize.pow(5) {
        let new = rows(new, 5);
        for count in 0..=4 {
            for old in 0..3usize.pow(count) {
                let old = rows(old, count);
                let some = (0u32..1 << 5).any(|mask| {
                    let left: Vec<Row> = (0..5)
                        .filter(|place| mask >> place & 1 == 1)
                        .map(|place| new[place])
                        .collect();
                    left == old
                });
                assert_eq!(keeps(&old, &new), some);
                kept += usize::from(some);
            }
        }
    }
    assert!(kept > 1_000);
}

/// Random asks, commits and changes; after each what a new analysis has, in `Held::change`, and here.
#[test]
fn lists_of_asks_commits_and_changes() {
    let mut rng = Random::from(14);
    let mut met = Vec::new();
    let (mut fell, mut few, mut across) = (0, 0, 0);
    for turn in 0..150 {
        let mut made = if turn % 3 == 0 {
            ladder(&mut rng, 1 + turn % 30)
        } else {
            pair(&mut rng, 1 + turn % 30)
        };
        if turn % 4 == 0 {
            add_ranges(&mut rng, &mut made);
        }
        let mut held = Held::of_bytes(&made.lib.bytes(), &made.net.bytes());
        let lines = made.mentioned();
        for _ in 0..12 {
            let ticket = (!lines.is_empty()).then(|| *rng.pick(&lines));
            let (kind, went_on) = step(&mut rng, &mut held, &mut made, &mut fell, &mut few);
            met.push((kind, went_on));
            let Some(line) = ticket else { continue };
            let standing = held.counts()[..2].to_vec();
            let count = u64::from(held.table[0]);
            let said = commit_into(&held.lib, &held.net, &mut held.table, line, count);
            if said < REFUSED {
                across += 1;
                let anew = analysed(&held.lib, &held.net, held.pads()).unwrap();
                assert_eq!(held.table[PADS_AT..STANDING], anew[PADS_AT..]);
                assert_eq!(held.counts(), [&standing[..], &anew[3..PADS_AT]].concat());
            }
        }
    }
    for kind in KINDS {
        assert!(met.iter().any(|&(other, _)| other == kind), "{kind:?}");
    }
    assert!(fell > 100 && few > 100 && across > 100);
}

/// One change of any kind: what it must answer, and the bounds of its sweeps.
fn step(
    rng: &mut Random,
    held: &mut Held,
    made: &mut Pair,
    fell: &mut u32,
    few: &mut u32,
) -> (Kind, bool) {
    let change = any_change(rng, made);
    let before = held.table.clone();
    let said = held.change(&change.lib);
    let wanted = match change.wanted {
        Ok(went_on) => u64::from(went_on),
        Err(refusal) => refusal.code(),
    };
    let lib = String::from_utf8_lossy(&change.lib);
    assert_eq!(said, wanted, "{:?}: {lib}", change.kind);
    if said < REFUSED {
        *made = change.pair;
        let gates = made.net.lines.iter().filter(|line| line[0] == b"gate");
        let gates = gates.count() as u32;
        for (at, &count) in held.counts().iter().enumerate() {
            let most = if at < 2 { 2 * gates + 1 } else { gates + 1 };
            assert!(count <= most, "{count} sweeps");
        }
        let anew = analysed(&held.lib, &held.net, held.pads()).unwrap();
        if said == WENT_ON {
            *fell += u32::from(held.table[STANDING_NUMBERS..] != before[STANDING_NUMBERS..]);
            *few += u32::from(held.counts() != &anew[1..PADS_AT]);
        }
    }
    (change.kind, said == WENT_ON)
}
