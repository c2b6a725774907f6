//! Budgets: the latch by hand, ties, one wire, over, every refusal; and random netlists against a run that asks every
//! gate at every step, and against the numbers of the analysis.

use super::*;
use crate::figures::*;
use crate::generate::{add_ranges, ladder, pair};
use crate::low;
use crate::random::Random;
use crate::refusal::{LIBRARY_FORM, NETLIST_FORM, TABLE_SHORT, TEXT_LONG, UNDECLARED};
use crate::sweep::{row_sum, wired_sum, Setting};
use crate::REFUSED;
use crate::{MOST_BYTES, OVER};

/// What an entry holds that nobody should have touched.
const KEPT: u32 = 77;

fn refused(number: u32, line: u32) -> u64 {
    Refusal { number, line }.code()
}

/// The answer and the table, of which nothing past its size is touched.
fn within(lib: &str, net: &str, budget: u64) -> (u64, Vec<u32>) {
    let mut table = vec![KEPT; BEST + 3];
    let steps = best_into(lib.as_bytes(), net.as_bytes(), budget, &mut table);
    assert!(steps < REFUSED, "{steps}");
    assert_eq!(table[BEST..], [KEPT; 3]);
    table.truncate(BEST);
    (steps, table)
}

/// Flag and number of a value.
fn said(table: &[u32], (line, value): Value) -> [u32; 2] {
    let at = 1 + BEST_LINE * (line - 1) + 2 * value;
    [table[at], table[at + 1]]
}

#[test]
fn latch() {
    const NO: u32 = NEVER;
    // Inputs first, the lowest line and its 0 before its 1; then each gate's 1 by an input at 0, and last the
    // zeros, which take an input at 1 and the other gate at 1.
    for (budget, wanted) in [
        (0, [0, 0, 1, 0, 1, 0, 1, 0, 1, 0, NO, 0, NO, 0, NO, 0, NO]),
        (1, [1, 1, 1, 0, 1, 0, 1, 0, 1, 0, NO, 0, 2, 0, NO, 0, NO]),
        (2, [1, 1, 1, 1, 1, 0, 1, 0, 1, 0, NO, 0, 2, 0, NO, 0, NO]),
        (4, [1, 1, 1, 1, 1, 1, 1, 1, 1, 0, NO, 0, 2, 0, NO, 0, 2]),
        (5, [2, 1, 1, 1, 1, 1, 1, 1, 1, 0, NO, 1, 2, 0, 4, 0, 2]),
        (6, [2, 1, 1, 1, 1, 1, 1, 1, 1, 0, 4, 1, 2, 0, 4, 1, 2]),
        (7, [4, 1, 1, 1, 1, 1, 1, 1, 1, 1, 4, 1, 2, 0, 4, 1, 2]),
        (8, [4, 1, 1, 1, 1, 1, 1, 1, 1, 1, 4, 1, 2, 1, 4, 1, 2]),
    ] {
        let (steps, table) = within(NAND2, LATCH_NET, budget);
        assert_eq!(steps, budget);
        assert_eq!(table[..17], wanted, "budget {budget}");
        for line in table[17..].chunks(BEST_LINE) {
            assert_eq!(line, [0, NEVER, 0, NEVER]);
        }
    }
    // Nothing is on offer after eight steps.
    let all = within(NAND2, LATCH_NET, 8);
    for budget in [9, 2_000, 2_001, 1 << 32, u64::MAX] {
        assert_eq!(within(NAND2, LATCH_NET, budget), all);
    }
}

#[test]
fn prices() {
    // Line 1 costs 2 at the low end of its range, and so comes last.
    let order = order(C1130.as_bytes(), C1130_RANGE_NET.as_bytes()).unwrap();
    assert_eq!(
        order,
        [
            (1, (2, 0)),
            (1, (2, 1)),
            (1, (3, 0)),
            (1, (3, 1)),
            (2, (1, 0)),
            (2, (1, 1)),
            (2, (4, 0)),
            (5, (4, 1)),
        ]
    );
}

/// Lines in the order of their numbers, not of the text; a value that comes on offer later at the same cost still
/// goes before higher lines.
#[test]
fn equal_offers() {
    let delay = "Name,WIRE,1\nCC,4,2\nCO,40\nSC,4,2\nSO,40\nEnd\n";
    let net = "input,9\ninput,5\ngate,WIRE,7,5\n";
    let values: Vec<Value> = order(delay.as_bytes(), net.as_bytes())
        .unwrap()
        .into_iter()
        .map(|(cost, value)| {
            assert_eq!(cost, 1);
            value
        })
        .collect();
    assert_eq!(values, [(5, 0), (5, 1), (7, 0), (7, 1), (9, 0), (9, 1)]);
}

/// A tie cell is on offer before any step; its other value never is. An open line offers nothing.
#[test]
fn ties_and_open_lines() {
    let (steps, table) = within(TIES, TIES_NET, 0);
    assert_eq!((steps, table[0]), (0, 0));
    let tied = (1..=MOST_LINES)
        .flat_map(|line| [(line, 0), (line, 1)])
        .any(|value| said(&table, value) == [0, 1]);
    assert!(tied);
    let (steps, table) = within("", UNDRIVEN_NET, u64::MAX);
    assert_eq!(steps, 0);
    assert_eq!(table[..5], [0, 0, NEVER, 0, NEVER]);
    assert_eq!(within(NAND2, "", 5).0, 0);
}

/// On one wire a value is paid once, and an exclusive or cannot be 1.
#[test]
fn one_wire() {
    let (_, table) = within(AND2, "input,1\ngate,AND2,2,1,1\n", u64::MAX);
    assert_eq!(table[..9], [2, 1, 1, 1, 1, 1, 2, 1, 2]);
    let xor = "Name,XOR2,2\nCC,25,M,13,23,M,15\nCO,205,M,203,221,M,211\nSC,24,M,12,22,M,14\nSO,204,220\nEnd\n";
    let (steps, table) = within(xor, "input,1\ngate,XOR2,2,1,1\n", u64::MAX);
    assert_eq!(steps, 3);
    assert_eq!(table[..9], [2, 1, 1, 1, 1, 1, 2, 0, NEVER]);
}

/// An offer that is over is settled, and counts as a step.
#[test]
fn over() {
    let both = AND2.replace("CC,21,", "CC,21,M,7,");
    let net = doubling("AND2", 31);
    let (steps, table) = within(&both, &net, u64::MAX);
    assert_eq!(steps, 64);
    assert_eq!(table[0], OVER);
    assert_eq!(said(&table, (30, 1)), [1, OVER]);
    assert_eq!(said(&table, (32, 1)), [1, OVER]);
    let (steps, table) = within(&both, &net, 62);
    assert_eq!(steps, 62);
    assert_eq!(said(&table, (31, 1)), [0, OVER]);
    assert_eq!(said(&table, (32, 1)), [0, NEVER]);
}

/// A thousand inputs have two thousand values.
#[test]
fn most_steps() {
    let net: String = (1..=MOST_LINES)
        .map(|line| format!("input,{line}\n"))
        .collect();
    for (budget, steps) in [
        (1_999, 1_999),
        (2_000, 2_000),
        (2_001, 2_000),
        (u64::MAX, 2_000),
    ] {
        let (is, table) = within("", &net, budget);
        assert_eq!(is, steps);
        assert_eq!(said(&table, (1_000, 0)), [1, 1]);
        assert_eq!(said(&table, (1_000, 1)), [u32::from(steps == 2_000), 1]);
    }
}

#[test]
fn refusals() {
    let [lib, net] = [NAND2.as_bytes(), LATCH_NET.as_bytes()];
    let long = vec![b'\n'; MOST_BYTES + 1];
    // 1 before 2, and both before the texts are read; nothing is touched.
    for length in [0, 1, BEST - 1] {
        for (lib, net) in [(lib, net), (&long, net), (lib, &long), (b"x", b"x")] {
            let mut table = vec![KEPT; length];
            assert_eq!(best_into(lib, net, 3, &mut table), refused(TABLE_SHORT, 0));
            assert!(table.iter().all(|&number| number == KEPT));
        }
    }
    for (lib, net) in [(&long[..], net), (lib, &long[..])] {
        let mut table = vec![KEPT; BEST];
        assert_eq!(best_into(lib, net, 3, &mut table), refused(TEXT_LONG, 0));
        assert!(table.iter().all(|&number| number == KEPT));
    }
    // Every other one clears all that was lent, past the table's size too; a budget of 0 reads the texts.
    for (lib, net, number, line) in [
        (&b"x\n"[..], net, LIBRARY_FORM, 1),
        (lib, &b"x\n"[..], NETLIST_FORM, 1),
        (lib, b"output,1\n", UNDECLARED, 0),
    ] {
        for budget in [0, 5, u64::MAX] {
            let mut table = vec![KEPT; BEST + 3];
            let code = refused(number, line);
            assert_eq!(best_into(lib, net, budget, &mut table), code);
            assert!(table.iter().all(|&number| number == 0));
        }
    }
}

/// The same by sums over a table that holds never where nothing is settled, every gate asked at every step.
fn asked_anew(lib: &[u8], net: &[u8]) -> Vec<(Cost, Value)> {
    let (library, netlist) = both_read(lib, net).unwrap();
    let mut settled: Setting = [[NEVER; 2]; MOST_LINES + 1];
    let mut order = Vec::new();
    loop {
        let mut offers = Vec::new();
        for (line, marks) in netlist
            .marks
            .iter()
            .enumerate()
            .filter(|(_, marks)| marks.input)
        {
            let price = marks.range.map_or(1, |[low, _]| low);
            offers.extend([(price, (line, 0)), (price, (line, 1))]);
        }
        for gate in &netlist.gates {
            for value in [0, 1] {
                let group = library.cells[gate.cell].combinational.set[value];
                for &row in library.rows(group) {
                    let sum = if is_wired(&library, gate) {
                        wired_sum(row, gate, &settled)
                    } else {
                        row_sum(row, gate, &settled)
                    };
                    offers.push((sum, (gate.output(), value)));
                }
            }
        }
        // By cost, then by line, then by value.
        let least = offers
            .into_iter()
            .filter(|&(cost, (line, value))| cost < NEVER && settled[line][value] == NEVER)
            .min();
        let Some((cost, (line, value))) = least else {
            return order;
        };
        settled[line][value] = cost;
        order.push((cost, (line, value)));
    }
}

#[test]
fn random_netlists() {
    let mut rng = Random::from(12);
    let mut steps = 0;
    for turn in 0..250 {
        let mut made = if turn % 3 == 0 {
            ladder(&mut rng, 1 + turn % 40)
        } else {
            pair(&mut rng, 1 + turn % 40)
        };
        if turn % 4 == 0 {
            add_ranges(&mut rng, &mut made);
        }
        let (lib, net) = (made.lib.bytes(), made.net.bytes());
        let all = order(&lib, &net).unwrap();
        assert_eq!(all, asked_anew(&lib, &net));
        steps += all.len();
        // What is settled is the number of the analysis, and nothing else has one.
        let (library, netlist) = both_read(&lib, &net).unwrap();
        let mut numbers = low(&library, &netlist).0.cc;
        for &(cost, (line, value)) in &all {
            assert_eq!(numbers[line][value], cost);
            numbers[line][value] = NEVER;
        }
        assert!(numbers.iter().flatten().all(|&number| number == NEVER));
    }
    assert!(steps > 5_000, "{steps}");
}
