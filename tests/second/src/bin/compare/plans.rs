//! Plans written out.

use crate::comparison::Comparison;
use second::figures::*;
use second::generate::{add_ranges, ladder, pair};
use second::random::Random;
use second::{MOST_LINES, MOST_TOLD, REFUSED};

/// Random ladders whose plans are written out.
const PLAN_PAIRS: usize = 300;

/// The largest line number of a netlist, at most 40.
pub fn most_line(net: &[u8]) -> u64 {
    net.split(|b| !b.is_ascii_digit())
        .filter_map(|part| std::str::from_utf8(part).ok()?.parse().ok())
        .filter(|&line: &u64| line <= 40)
        .max()
        .unwrap_or(0)
}

/// Plans written out: the figures, and random pairs with loops.
pub fn plans(all: &mut Comparison, rng: &mut Random) {
    for (label, lib, net) in [
        ("C1130", C1130, C1130_NET),
        ("C1130 with a range", C1130, C1130_RANGE_NET),
        ("C1490", C1490, C1490_NET),
        ("latch", NAND2, LATCH_NET),
        ("C1130 under Name3", C1130_DEEP, C1130_NET),
        ("depth 7", DELAY, DELAY_NET),
        ("tie cells", TIES, TIES_NET),
        ("undriven line", "", UNDRIVEN_NET),
    ] {
        all.check_plans(
            label,
            lib.as_bytes(),
            net.as_bytes(),
            most_line(net.as_bytes()),
        );
    }
    // Each line of one wire is written once.
    let tied = doubling("AND2", 12);
    all.check_plans("plan of tied pins", AND2.as_bytes(), tied.as_bytes(), 13);
    let mut own = all.extent.random();
    for turn in 0..all.extent.count(PLAN_PAIRS) {
        let made = ladder(rng, rng_gates(all.turn));
        let (lib, net) = (made.lib.bytes(), made.net.bytes());
        all.check_plans("plan of a ladder", &lib, &net, most_line(&net));
        // Half as many of any cells, those of one wire among them.
        if turn % 2 == 0 {
            let mut made = pair(&mut own, rng_gates(all.turn));
            if turn % 4 == 0 {
                add_ranges(&mut own, &mut made);
            }
            let (lib, net) = (made.lib.bytes(), made.net.bytes());
            all.check_plans("plan of a pair", &lib, &net, most_line(&net));
        }
    }
    long_plans(all);
    deep_plans(all);
    let [written, refused] = all.plans;
    println!("plans:");
    all.met("written out", written);
    all.met("refused", refused);
}

/// Plans of every depth that there is: of lines all along the longest chain.
fn deep_plans(all: &mut Comparison) {
    let label = "deep plan";
    let net = chain("INV", MOST_LINES - 1, false);
    let pair = [INV.as_bytes(), net.as_bytes()];
    let some = [
        1, 2, 10, 11, 18, 100, 101, 102, 200, 201, 202, 256, 257, 500,
    ];
    let last = [MOST_LINES as u64 - 1, MOST_LINES as u64];
    for line in some.into_iter().chain(last) {
        for value in [0, 1] {
            for kind in [0, 1] {
                let asked = [line, value, kind];
                let answer = all.check_plan(label, pair, asked, 20 * MOST_LINES);
                let problem = (answer >= REFUSED).then(|| format!("{asked:?} is refused"));
                all.verdict(label, problem);
            }
        }
    }
}

/// Plans as long as the number tells, and longer: 19 then, however long the buffer is, and never a length that reads as
/// a refusal.
fn long_plans(all: &mut Comparison) {
    let long = 19 * REFUSED;
    // A row of both values, so that both pins are paid and written out: the text has 3,014,134 bytes.
    let both = AND2.replace("CC,21,M,5,13", "CC,21,M,7,M,5,13");
    let net = doubling("AND2", 17);
    let doubled = if MOST_TOLD < 3_014_134 {
        long
    } else {
        3_014_134
    };
    let mut cases = vec![(both, net, 18, 4_000_000, doubled)];
    for (length, room, expected) in [
        (MOST_TOLD, 4 * MOST_TOLD, MOST_TOLD as u64),
        (MOST_TOLD, MOST_TOLD, MOST_TOLD as u64),
        (MOST_TOLD, MOST_TOLD - 1, long),
        (MOST_TOLD + 1, MOST_TOLD, long),
        (MOST_TOLD + 1, MOST_TOLD + 1, long),
        (MOST_TOLD + 1, 4 * MOST_TOLD, long),
    ] {
        // Sixteen lines make up a text of about a million bytes, which an analyser of many more lines tells anyway.
        if length > 2_000_000 {
            continue;
        }
        let (net, top) = plan_of_length(length);
        cases.push((WIDE.to_string(), net, top, room, expected));
    }
    for (lib, net, top, room, expected) in cases {
        let label = "long plan";
        let answer = all.check_plan(label, [lib.as_bytes(), net.as_bytes()], [top, 1, 0], room);
        let problem = (answer != expected)
            .then(|| format!("{answer} instead of {expected} for {room} bytes"));
        all.verdict(label, problem);
    }
}

/// To set it to 1, pins 1 and 2 at 1.
const WIDE: &str = "\
Name,WIDE,8
CC,300001,120001
CO,2000001,2000001,2000001,2000001,2000001,2000001,2000001,2000001
SC,300000,120000
SO,2000000,2000000,2000000,2000000,2000000,2000000,2000000,2000000
End
";

/// A netlist of 15 such gates, each with all pins on the line before, and the last line, whose plan at 1 has a text of
/// just so many bytes: the lines of some depths have three digits, of the others two.
fn plan_of_length(length: usize) -> (String, u64) {
    const GATES: usize = 15;
    let row = |depth| if depth < GATES { "120001" } else { "input" };
    let least: usize = (0..=GATES)
        .map(|depth| format!("{depth},10,1,{}\n", row(depth)).len() << depth)
        .sum();
    let more = length - least;
    assert!(
        more < 2 << GATES,
        "the digits of 16 lines make up the length"
    );
    let line = |depth: usize| {
        if more >> depth & 1 == 1 {
            100 + depth
        } else {
            10 + depth
        }
    };
    let mut net = format!("input,{}\n", line(GATES));
    for depth in 0..GATES {
        let pins = format!(",{}", line(depth + 1)).repeat(8);
        net += &format!("gate,WIDE,{}{pins}\n", line(depth));
    }
    (net, line(0) as u64)
}

/// A few gates, by turn.
fn rng_gates(turn: usize) -> usize {
    1 + turn % 12
}
