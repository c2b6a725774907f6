//! Advice and ranks: C17 and the latch by hand, ties, lists of forbidden lines, every refusal; and random netlists
//! against reports of texts with the pad's output line added.

use super::*;
use crate::figures::*;
use crate::generate::{add_ranges, doubled, ladder, pair};
use crate::random::Random;
use crate::refusal::{LIBRARY_FORM, NETLIST_FORM, TABLE_SHORT, TEXT_LONG, UNDECLARED};
use crate::{analyse, Answer, MOST_BYTES};

/// What an entry holds that nobody should have touched.
const KEPT: u32 = 77;

fn refused(number: u32, line: u32) -> u64 {
    Refusal { number, line }.code()
}

/// The line and its largest CO; nothing past these is touched, and without a line nothing at all.
fn advised(lib: &str, net: &str, forbidden: &[u32]) -> (u64, Option<Cost>) {
    let mut answer = [KEPT; 4];
    let line = advise_into(lib.as_bytes(), net.as_bytes(), forbidden, &mut answer);
    assert!(line <= 1_000, "{line}");
    assert_eq!(answer[1..], [KEPT; 3]);
    if line == 0 {
        assert_eq!(answer[0], KEPT);
    }
    (line, (line > 0).then_some(answer[0]))
}

/// The count of allowed lines and all ranks.
fn ranked(lib: &str, net: &str, forbidden: &[u32]) -> (u64, Vec<u32>) {
    let mut ranks = vec![KEPT; RANKS + 3];
    let count = rank_into(lib.as_bytes(), net.as_bytes(), forbidden, &mut ranks);
    assert!(count <= 1_000, "{count}");
    assert_eq!(ranks[RANKS..], [KEPT; 3]);
    ranks.truncate(RANKS);
    (count, ranks)
}

/// The latch's CO are 3, 5, 0 and 2; a pad on 4 leaves 3, 3, 0 and 0.
#[test]
fn latch() {
    let (count, ranks) = ranked(NAND2, LATCH_NET, &[]);
    assert_eq!(count, 3);
    assert_eq!(ranks[..4], [0, 0, 5, 7]);
    assert_eq!(ranks[4..8], [0, 0, 3, 5]);
    assert_eq!(ranks[8..12], [NEVER; 4]);
    assert_eq!(ranks[12..16], [0, 0, 3, 6]);
    assert!(ranks[16..].iter().all(|&number| number == NEVER));
    // Lines 2 and 4 leave 3 both.
    assert_eq!(advised(NAND2, LATCH_NET, &[]), (2, Some(3)));
    assert_eq!(advised(NAND2, LATCH_NET, &[2]), (4, Some(3)));
    assert_eq!(advised(NAND2, LATCH_NET, &[2, 4]), (1, Some(5)));
    assert_eq!(advised(NAND2, LATCH_NET, &[1, 2, 4]), (0, None));
}

/// What names no mentioned line, or an output, forbids nothing more; a line is forbidden once however often it stands
/// there, and wherever.
#[test]
fn forbidden_lines() {
    for nothing in [
        &[][..],
        &[0],
        &[1_001],
        &[u32::MAX],
        &[3],
        &[5, 1_000, 65_538],
    ] {
        assert_eq!(advised(NAND2, LATCH_NET, nothing), (2, Some(3)));
        assert_eq!(ranked(NAND2, LATCH_NET, nothing).0, 3);
    }
    for two in [&[2][..], &[2, 2, 2], &[0, 1_001, 2, u32::MAX], &[7, 2]] {
        assert_eq!(advised(NAND2, LATCH_NET, two), (4, Some(3)));
        let (count, ranks) = ranked(NAND2, LATCH_NET, two);
        assert_eq!(count, 2);
        assert_eq!(ranks[4..8], [NEVER; 4]);
    }
    let all: Vec<u32> = (0..3_000).rev().collect();
    assert_eq!(advised(NAND2, LATCH_NET, &all), (0, None));
    assert_eq!(ranked(NAND2, LATCH_NET, &all), (0, vec![NEVER; RANKS]));
}

/// Without a mentioned line, or with outputs alone, none is allowed.
#[test]
fn none_allowed() {
    for net in ["", "input,1\noutput,1\n"] {
        assert_eq!(advised(NAND2, net, &[]), (0, None));
        assert_eq!(ranked(NAND2, net, &[]), (0, vec![NEVER; RANKS]));
    }
    // An open line takes a pad.
    assert_eq!(advised("", "open,9\n", &[]), (9, Some(0)));
}

/// Two lines that nothing sees make every answer never, and the lowest line wins; the ranks still tell.
#[test]
fn never_seen() {
    let net = format!("{LATCH_NET}input,8\ninput,9\n");
    assert_eq!(advised(NAND2, &net, &[]), (1, Some(NEVER)));
    assert_eq!(advised(NAND2, &net, &[1, 2, 4]), (8, Some(NEVER)));
    let (count, ranks) = ranked(NAND2, &net, &[]);
    assert_eq!(count, 5);
    assert_eq!(ranks[4..8], [2, 0, 3, 5]);
    assert_eq!(ranks[28..32], [1, 0, 5, 10]);
    // A single one is best padded itself, however low the others are.
    let net = format!("{LATCH_NET}input,9\n");
    assert_eq!(advised(NAND2, &net, &[]), (9, Some(5)));
    assert_eq!(advised(NAND2, &net, &[9]), (1, Some(NEVER)));
}

/// Costs that are over count apart, and a sum of figures is over where it is too large.
#[test]
fn over() {
    let twice = AND2.replace("CC,21,", "CC,21,M,7,");
    // Line 100 is seen with line 33 at 1, which is over.
    let net = format!(
        "{}input,100\ngate,AND2,101,100,33\noutput,101\n",
        doubling("AND2", 32)
    );
    let (_, ranks) = ranked(&twice, &net, &[]);
    let [nevers, overs, largest, _] = ranks[..4] else {
        panic!("four numbers")
    };
    assert_eq!(nevers, 0);
    assert!(overs > 0);
    assert!(largest <= LARGEST);
    assert_eq!(
        rank(&[LARGEST, 1, OVER, NEVER, NEVER]),
        [2, 1, LARGEST, OVER]
    );
    assert_eq!(rank(&[LARGEST, 0]), [0, 0, LARGEST, LARGEST]);
    assert_eq!(rank(&[OVER]), [0, 1, 0, 0]);
}

/// C17's CO, by source 002's table, are 7 at most, on line 6: a pad there leaves 6, and so do others.
#[test]
fn c17() {
    let (line, cost) = advised(NAND2, C17_NET, &[]);
    let (_, ranks) = ranked(NAND2, C17_NET, &[]);
    let largest = |line: u64| ranks[4 * (line as usize - 1) + 2];
    assert_eq!(cost, Some(largest(line)));
    assert_eq!(largest(6), 6);
    assert!((1..line).all(|other| largest(other) > largest(line)));
}

#[test]
fn ranges_at_low() {
    // Line 1 costs 2 at the low end.
    let (_, ranks) = ranked(C1130, C1130_RANGE_NET, &[]);
    assert_eq!(ranks[..4], [0, 0, 4, 8]);
    assert_eq!(ranks[4..8], [0, 0, 4, 7]);
    assert_eq!(advised(C1130, C1130_RANGE_NET, &[]), (1, Some(4)));
}

#[test]
fn refusals() {
    let [lib, net] = [NAND2.as_bytes(), LATCH_NET.as_bytes()];
    let long = vec![b'\n'; MOST_BYTES + 1];
    type Call = fn(&[u8], &[u8], &[u32], &mut [u32]) -> u64;
    for (call, size) in [(advise_into as Call, ADVICE), (rank_into as Call, RANKS)] {
        // 1 before 2, and both before the texts are read; nothing is touched.
        for (lib, net) in [(lib, net), (&long, net), (lib, &long), (b"x", b"x")] {
            for length in [0, size / 2, size - 1] {
                let mut numbers = vec![KEPT; length];
                assert_eq!(call(lib, net, &[], &mut numbers), refused(TABLE_SHORT, 0));
                assert!(numbers.iter().all(|&number| number == KEPT));
            }
        }
        for (lib, net) in [(&long[..], net), (lib, &long[..])] {
            let mut numbers = vec![KEPT; size];
            assert_eq!(call(lib, net, &[], &mut numbers), refused(TEXT_LONG, 0));
            assert!(numbers.iter().all(|&number| number == KEPT));
        }
        for (lib, net, number, line) in [
            (&b"x\n"[..], net, LIBRARY_FORM, 1),
            (lib, &b"x\n"[..], NETLIST_FORM, 1),
            (lib, b"output,1\n", UNDECLARED, 0),
        ] {
            let mut numbers = vec![KEPT; size + 3];
            assert_eq!(call(lib, net, &[1], &mut numbers), refused(number, line));
            assert!(numbers.iter().all(|&number| number == 0));
        }
    }
}

/// CO of each line in the first report of a pair.
fn reported(lib: &[u8], net: &[u8]) -> Vec<(u32, Cost)> {
    let Answer::Accepted { report, .. } = analyse(lib, net, usize::MAX) else {
        panic!("the pair is accepted")
    };
    String::from_utf8(report)
        .unwrap()
        .lines()
        .skip(1)
        .take_while(|line| !line.starts_with("sweeps"))
        .map(|line| {
            let parts: Vec<&str> = line.split(',').collect();
            let cost = match parts[5] {
                "never" => NEVER,
                "over" => OVER,
                figure => figure.parse().unwrap(),
            };
            (parts[0].parse().unwrap(), cost)
        })
        .collect()
}

#[test]
fn random_netlists() {
    let mut rng = Random::from(13);
    let mut tried = 0;
    for turn in 0..120 {
        let mut made = match turn % 6 {
            0 | 1 => ladder(&mut rng, 1 + turn % 25),
            2 => doubled(&mut rng, 20 + turn % 13),
            _ => pair(&mut rng, 1 + turn % 25),
        };
        if turn % 4 == 0 {
            add_ranges(&mut rng, &mut made);
        }
        let (lib, net) = (made.lib.bytes(), made.net.bytes());
        let text = String::from_utf8(net.clone()).unwrap();
        let lines: Vec<u32> = reported(&lib, &net).iter().map(|(line, _)| *line).collect();
        let forbidden: Vec<u32> = lines.iter().copied().filter(|_| rng.once_in(4)).collect();
        let mut best = None;
        let mut count = 0;
        let mut ranks = vec![NEVER; RANKS];
        for &line in &lines {
            let output = text.lines().any(|each| each == format!("output,{line}"));
            if output || forbidden.contains(&line) {
                continue;
            }
            let padded = format!("{text}output,{line}\n");
            let costs: Vec<Cost> = reported(&lib, padded.as_bytes())
                .into_iter()
                .map(|(_, cost)| cost)
                .collect();
            let largest = *costs.iter().max().unwrap();
            if best.is_none_or(|(least, _)| largest < least) {
                best = Some((largest, line));
            }
            count += 1;
            let figures = costs.iter().filter(|&&cost| cost <= LARGEST);
            let sum: u64 = figures.clone().map(|&cost| u64::from(cost)).sum();
            let of = |wanted: Cost| costs.iter().filter(|&&cost| cost == wanted).count() as u32;
            let words = [
                of(NEVER),
                of(OVER),
                *figures.max().unwrap(),
                sum.min(u64::from(OVER)) as u32,
            ];
            ranks[4 * (line as usize - 1)..][..4].copy_from_slice(&words);
        }
        let lib = String::from_utf8(lib).unwrap();
        let wanted = best.map_or((0, None), |(cost, line)| (u64::from(line), Some(cost)));
        assert_eq!(advised(&lib, &text, &forbidden), wanted);
        assert_eq!(ranked(&lib, &text, &forbidden), (count, ranks));
        tried += count;
    }
    assert!(tried > 800, "{tried}");
}
