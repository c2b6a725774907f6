//! Standing analyses under changes of library, on both sides: random lists of asks, commits and changes, with
//! libraries that rows were added to, others that are accepted, refused ones, libraries under which the netlist is
//! refused, tickets from before a change, slices too short, texts too long or bad, and tables that no analysis of
//! the texts left.
//!
//! What an accepted change leaves is besides held against a new analysis, from the beginning, under the new library
//! with the pads as outputs; its sweeps, where they went on, against a run by the scope paper's own rule.

mod script;
pub mod tally;

use crate::comparison::{answer_of, Comparison, ROOM};
use crate::pads::calls::Lending;
use crate::pads::list::List;
use script::Script;
use second::figures::*;
use second::generate::{add_ranges, groups_of, ladder, library_of, pair, rows_line, Pair, ENTRY};
use second::grow::WORDS;
use second::random::Random;
use second::standing::{analysed, OBSERVED, STANDING};
use second::{MOST_BYTES, MOST_LINES};
use tally::Changes;

/// Random lists, and the steps of each.
const SCRIPTS: usize = 2_400;
const STEPS: usize = 12;

fn lending(lib: &[u8], net: &[u8], table: Vec<u32>) -> Lending {
    Lending {
        lib: lib.to_vec(),
        new_lib: Vec::new(),
        net: net.to_vec(),
        table,
        answer: OBSERVED,
        report: 2 * ROOM,
    }
}

fn random_pair(rng: &mut Random) -> Pair {
    let gates = match rng.below(200) {
        0..=139 => 8,
        140..=189 => 40,
        190..=198 => 200,
        _ => 900,
    };
    let mut made = if rng.once_in(3) {
        ladder(rng, gates)
    } else {
        pair(rng, gates)
    };
    if rng.once_in(4) {
        add_ranges(rng, &mut made);
    }
    made
}

/// One random list.
pub fn random_script(changes: &mut Changes, rng: &mut Random, other: &mut Vec<u32>) {
    let made = random_pair(rng);
    let past = *rng.pick(&[0, 1, 40]);
    let table = (0..STANDING + past).map(|_| rng.next() as u32).collect();
    let lending = lending(&made.lib.bytes(), &made.net.bytes(), table);
    let lines = made.mentioned();
    let Some(list) = List::begin(&mut changes.lists, "list", lending, lines) else {
        return;
    };
    let mut script = Script::of(list, made);
    let failed = changes.lists.all.failed;
    for _ in 0..STEPS {
        // What stands after a failure is nothing to go on from.
        if changes.lists.all.failed > failed {
            break;
        }
        match rng.below(16) {
            0 | 1 => script.ask(changes, rng),
            2..=4 => script.commit(changes, rng),
            5..=11 => script.change(changes, rng),
            12 => script.entry(changes, rng),
            13 => script.disorder(changes, rng, other),
            _ => script.foreign(changes, rng, other),
        }
    }
    *other = script.list.lending.table;
}

/// A library and a netlist, libraries that it is changed to one after another, and for each the answer and the
/// sweeps that then stand.
type Case<'a> = (&'a str, [&'a str; 2], &'a [(&'a str, u64, [u32; 4])]);

/// By hand: the latch and the flip-flop with a row added, and identical libraries.
fn fixed(changes: &mut Changes) {
    let cases: [Case; 4] = [
        (
            "latch, a row added",
            [NAND2, LATCH_NET],
            &[
                (NAND2, 1, [1; 4]),
                (NAND2_MORE, 1, LATCH_CHANGED),
                (NAND2_MORE, 1, [1; 4]),
                (NAND2, 0, [3; 4]),
            ],
        ),
        (
            "C1490, a row added",
            [C1490, C1490_NET],
            &[(C1490_MORE, 1, [2, 1, 2, 1]), (C1490, 0, [2; 4])],
        ),
        (
            "C1130, another heading",
            [C1130, C1130_NET],
            &[(C1130_DEEP, 0, [2; 4]), (C1130, 0, [2; 4])],
        ),
        (
            "empty netlist",
            [NAND2, ""],
            &[("", 0, [1; 4]), ("", 1, [1; 4])],
        ),
    ];
    for (label, [lib, net], to) in cases {
        let lending = lending(lib.as_bytes(), net.as_bytes(), vec![5; STANDING]);
        let lists = &mut changes.lists;
        let Some(mut list) = List::begin(lists, label, lending, Vec::new()) else {
            continue;
        };
        for &(new_lib, answer, counts) in to {
            let said = script::change_to(&mut list, changes, label, new_lib.as_bytes(), answer);
            let is = list.counts;
            let problem = (said != answer || is != counts)
                .then(|| format!("{}, sweeps {is:?}", answer_of(said)));
            changes.lists.all.verdict(label, problem);
        }
    }
}

/// The largest library, at its first and last cell, group and row: another depth there, the row gone, and put back,
/// where the sweeps go on.
fn largest(changes: &mut Changes, rng: &mut Random) {
    let label = "the largest library";
    let full = library_of(rng, MOST_BYTES);
    let lib = full.lib.bytes();
    let lending = lending(&lib, b"", vec![5; STANDING]);
    let Some(mut list) = List::begin(&mut changes.lists, label, lending, Vec::new()) else {
        return;
    };
    let ends = |count: usize| [0, count - 1];
    for cell in ends(full.cells.len()) {
        for (line, word) in WORDS {
            let at = cell * ENTRY + line;
            let groups = groups_of(&full.lib.lines[at]);
            for group in ends(groups.len()) {
                for row in ends(groups[group].len()) {
                    let with = |edit: &dyn Fn(&mut Vec<u32>)| {
                        let mut groups = groups.clone();
                        edit(&mut groups[group]);
                        let mut text = full.lib.clone();
                        text.lines[at] = rows_line(word, &groups);
                        text.bytes()
                    };
                    let deeper = with(&|rows| rows[row] ^= 1);
                    let without = with(&|rows| {
                        rows.remove(row);
                    });
                    for (lib, answer) in [(&deeper, 0), (&without, 0), (&lib, 1)] {
                        script::change_to(&mut list, changes, label, lib, answer);
                    }
                }
            }
        }
    }
}

/// As many pads as there may be, and one fewer: a chain of inverters on which every line has one. Rows added, the library
/// as it was, and another one.
fn most_pads(changes: &mut Changes) {
    let label = "the most pads";
    let net = chain("INV", MOST_LINES - 1, false);
    let net = net.replace(&format!("output,{MOST_LINES}\n"), "");
    let more = INV.replace("CC,3,", "CC,3,M,2,");
    for count in [MOST_LINES - 1, MOST_LINES] {
        let pads: Vec<u32> = (1..=count as u32).rev().collect();
        let Ok(table) = analysed(INV.as_bytes(), net.as_bytes(), &pads) else {
            let problem = Some("there is no such analysis".to_string());
            changes.lists.all.verdict(label, problem);
            continue;
        };
        let mut list = List {
            counts: [table[1], table[2], table[3], table[4]],
            lending: lending(INV.as_bytes(), net.as_bytes(), table),
            pads,
            tickets: Vec::new(),
            changes: 0,
            lines: Vec::new(),
        };
        for (lib, answer) in [(INV, 1), (&more, 1), (INV, 0)] {
            script::change_to(&mut list, changes, label, lib.as_bytes(), answer);
        }
    }
}

/// All of it, and what must have come up in the random lists.
pub fn changes(all: &mut Comparison, rng: &mut Random) {
    let mut changes = Changes::of(all);
    fixed(&mut changes);
    most_pads(&mut changes);
    largest(&mut changes, rng);
    changes.count_anew();
    let mut other = vec![0; STANDING];
    let count = changes.lists.all.extent.count(SCRIPTS);
    for _ in 0..count {
        random_script(&mut changes, rng, &mut other);
    }
    println!("{count} lists of asks, commits and changes of library, of {STEPS} steps; answers:");
    changes.tell_met();
}
