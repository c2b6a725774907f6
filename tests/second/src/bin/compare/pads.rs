//! Standing analyses on both sides: random lists of asks and commits over random netlists, with tickets that went
//! stale, lines that are refused, slices too short, texts too long or bad, and tables that no analysis of the
//! texts left.
//!
//! Every entry of every lent slice is compared, with the canaries around it. What an accepted call leaves of a
//! standing analysis is besides held against a new analysis, from the beginning, with the pads as outputs.

pub mod calls;
pub mod foreign;
pub mod list;
pub mod tally;

use crate::comparison::{answer_of, Comparison, ROOM};
use calls::Lending;
use list::List;
use second::figures::*;
use second::generate::{add_ranges, ladder, pair};
use second::random::Random;
use second::refusal::UNPADDABLE;
use second::standing::{OBSERVED, STANDING};
use second::MOST_LINES;
use tally::{refused, Lists};

/// Random lists, and the steps of each.
const LISTS: usize = 1_600;
const STEPS: usize = 14;

/// One random list.
pub fn random_list(lists: &mut Lists, rng: &mut Random, other: &mut Vec<u32>) {
    let gates = match rng.below(200) {
        0..=119 => 8,
        120..=179 => 40,
        180..=197 => 200,
        _ => 900,
    };
    let mut made = if rng.once_in(3) {
        ladder(rng, gates)
    } else {
        pair(rng, gates)
    };
    if rng.once_in(3) {
        add_ranges(rng, &mut made);
    }
    let past = *rng.pick(&[0, 1, 40]);
    let lending = Lending {
        lib: made.lib.bytes(),
        new_lib: Vec::new(),
        net: made.net.bytes(),
        table: (0..STANDING + past)
            .map(|_| rng.next() as u32 | 1)
            .collect(),
        answer: OBSERVED + *rng.pick(&[0, 1, 40]),
        report: if rng.once_in(8) {
            rng.below(200)
        } else {
            2 * ROOM
        },
    };
    let Some(mut list) = List::begin(lists, "list", lending, made.mentioned()) else {
        return;
    };
    for _ in 0..STEPS {
        match rng.below(16) {
            0..=5 => {
                let line = list.any_line(rng);
                list.ask(lists, "ask", line);
            }
            6..=11 => {
                let (line, count) = list.any_ticket(rng);
                list.commit(lists, "commit", line, count);
            }
            12 => list.short(lists, rng),
            13 => list.bad_texts(lists, rng, &made),
            _ => list.foreign(lists, rng, other),
        }
    }
    *other = list.lending.table;
}

/// The latch by hand, every line of the figures, and a pad on each of a thousand lines.
fn fixed(lists: &mut Lists) {
    let lending = |lib: &str, net: &str| Lending {
        lib: lib.as_bytes().to_vec(),
        new_lib: Vec::new(),
        net: net.as_bytes().to_vec(),
        table: vec![5; STANDING],
        answer: OBSERVED,
        report: ROOM,
    };
    let lines = |net: &str| -> Vec<u64> {
        net.split(|byte: char| !byte.is_ascii_digit())
            .filter_map(|part| part.parse().ok())
            .collect()
    };
    let latch = lending(NAND2, LATCH_NET);
    if let Some(mut list) = List::begin(lists, "latch", latch, lines(LATCH_NET)) {
        list.ask(lists, "latch", 4);
        let answer = list
            .tickets
            .last()
            .map(|ticket| ticket.answer[..8].to_vec());
        let problem = (answer.as_deref() != Some(&LATCH_ASKED[..]))
            .then(|| format!("latch, ask 4: {answer:?}"));
        lists.all.verdict("latch", problem);
        list.commit(lists, "latch", 4, 0);
        let head = list.lending.table[..7].to_vec();
        let problem = (head != [1, 3, 3, 2, 2, 4, 0]).then(|| format!("latch, commit 4: {head:?}"));
        lists.all.verdict("latch", problem);
    }
    for (label, lib, net) in [
        ("C1130", C1130, C1130_NET),
        ("C1130 with a range", C1130, C1130_RANGE_NET),
        ("C1490", C1490, C1490_NET),
        ("latch", NAND2, LATCH_NET),
        ("C17", NAND2, C17_NET),
        ("depth 7", DELAY, DELAY_NET),
        ("tie cells", TIES, TIES_NET),
        ("undriven line", "", UNDRIVEN_NET),
        ("empty netlist", NAND2, ""),
    ] {
        let Some(mut list) = List::begin(lists, label, lending(lib, net), lines(net)) else {
            continue;
        };
        // Every line is asked for, then placed, the last first.
        for line in (0..=40).rev() {
            list.ask(lists, label, line);
        }
        for line in (0..=40).rev() {
            let count = list.count();
            list.commit(lists, label, line, count);
        }
    }
    let net: String = (1..=MOST_LINES)
        .map(|line| format!("input,{line}\n"))
        .collect();
    let inputs = lending("", &net);
    if let Some(mut list) = List::begin(lists, "a thousand pads", inputs, Vec::new()) {
        for line in (1..=MOST_LINES as u64).rev() {
            let count = list.count();
            list.commit(lists, "a thousand pads", line, count);
        }
        let said = list.ask(lists, "a thousand pads", 1);
        let problem = (said != refused(UNPADDABLE)).then(|| answer_of(said));
        lists.all.verdict("a thousand pads", problem);
        list.commit(lists, "a thousand pads", 1, MOST_LINES as u64);
    }
}

/// All of it, and what must have come up in the random lists.
pub fn pads(all: &mut Comparison, rng: &mut Random) {
    let mut lists = Lists::of(all);
    fixed(&mut lists);
    lists.count_anew();
    let mut other = vec![0; STANDING];
    let count = lists.all.extent.count(LISTS);
    for _ in 0..count {
        random_list(&mut lists, rng, &mut other);
    }
    println!("{count} lists of asks and commits, of {STEPS} steps; answers:");
    lists.tell_met();
}
