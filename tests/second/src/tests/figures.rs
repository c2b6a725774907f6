//! The scope paper's figures, and small netlists worked out by hand.

use super::{printed, report};
use crate::figures::*;
use crate::generate::{fields, groups_of};
use crate::library::MOST_ROWS;

#[test]
fn whole_reports() {
    assert_eq!(report(C1130, C1130_NET), C1130_REPORT);
    assert_eq!(report(C1490, C1490_NET), C1490_REPORT);
    assert_eq!(report(C1130, C1130_RANGE_NET), C1130_RANGE_REPORT);
    assert_eq!(report(NAND2, LATCH_NET), LATCH_REPORT);
    assert_eq!(report(TIES, TIES_NET), TIES_REPORT);
    assert_eq!(report(C1130_DEEP, C1130_NET), C1130_REPORT);
    assert_eq!(report(DELAY, DELAY_NET), DELAY_REPORT);
    assert_eq!(report("", UNDRIVEN_NET), UNDRIVEN_REPORT);
    assert_eq!(report("", ""), EMPTY_REPORT);
    assert_eq!(report(NAND2, ""), EMPTY_REPORT);
}

#[test]
fn doubled_and_gates() {
    let low = report(AND2, &doubling("AND2", 28));
    assert_eq!(printed(&low, 29)[..2], ["29", "29"]);
    let high = report(AND2, &doubling("AND2", 29));
    assert_eq!(printed(&high, 30)[..2], ["30", "30"]);
    // A row that names both values of a pin, however dear, keeps its cell out.
    let both = AND2.replace("CC,21,", "CC,21,M,7,");
    let low = report(&both, &doubling("AND2", 28));
    assert_eq!(printed(&low, 29)[..2], ["29", "536870911"]);
    let high = report(&both, &doubling("AND2", 29));
    assert_eq!(printed(&high, 30)[..2], ["30", "over"]);
}

#[test]
fn edge_costs() {
    for cost in EDGES {
        for (sequential, columns) in [(false, [0, 1, 4]), (true, [2, 3, 5])] {
            let report = report(EXACT, &exact(cost, sequential));
            let [zero, one, observe] = columns;
            assert_eq!(printed(&report, 900)[one], shown(cost));
            assert_eq!(printed(&report, 901)[observe], shown(cost));
            assert_eq!(printed(&report, 903)[zero], shown(8 * cost));
        }
    }
}

#[test]
fn c17_table() {
    let report = report(NAND2, C17_NET);
    for [line, cc0, cc1, co] in C17_TABLE {
        let costs = printed(&report, line as usize);
        assert_eq!(
            [&costs[0], &costs[1], &costs[4]],
            [&cc0.to_string(), &cc1.to_string(), &co.to_string()]
        );
    }
    assert_eq!(report.lines().count(), 2 + C17_TABLE.len());
}

#[test]
fn trees() {
    for depth in 1..=8 {
        let report = report(AND2, &tree("AND2", depth));
        let all = (1u32 << (depth + 1)) - 1;
        assert_eq!(
            printed(&report, 1)[..2],
            [(depth + 1).to_string(), all.to_string()]
        );
    }
}

#[test]
fn most_sweeps() {
    let holds = |lib: &str, net: &str, gates: usize| {
        let (set, observe) = ((2 * gates + 1).to_string(), (gates + 1).to_string());
        assert_eq!(
            printed(&report(lib, net), 0),
            [set.clone(), set, observe.clone(), observe]
        );
    };
    for gates in [1, 2, 10, 999] {
        holds(SLOW, &slow_chain(gates), gates);
    }
    for gates in [1, 2, 10, 40] {
        holds(&full_cell(), &full_chain(gates), gates);
    }
}

/// Sixteen rows in each group, each naming every column: only three columns of either kind are left
/// out.
#[test]
fn full_rows() {
    let mut left_out = Vec::new();
    for line in full_cell().lines().skip(1).take(4) {
        let columns = if line.starts_with("CC") || line.starts_with("SC") {
            16
        } else {
            19
        };
        let groups = groups_of(&fields(line));
        assert!(groups.iter().all(|rows| rows.len() == MOST_ROWS), "{line}");
        let rows = groups.iter().flatten();
        left_out.push(rows.map(|row| columns + 1 - row.count_ones()).sum::<u32>());
    }
    assert_eq!(left_out, [3, 0, 3, 0]);
}

/// A cell that sets its 1 from its own 0: seen in the same visit, so two sweeps do.
#[test]
fn own_output() {
    let cell = "Name,A,2\nCC,11,5\nCO,201,201\nSC,11,5\nSO,201,201\nEnd\n";
    let report = report(cell, "input,1\ngate,A,2,1,2\n");
    let known = "\
line,cc0,cc1,sc0,sc1,co,so
1,1,1,0,0,never,never
2,2,3,1,2,never,never
sweeps,2,2,1,1
";
    assert_eq!(report, known);
}

#[test]
fn over_and_never() {
    // Line 31 is over, line 32 open: a sum of both is never, the lesser of both over.
    // A row of both values, so that each pin is paid.
    let lib = format!("{AND2}{NAND2}").replace("CC,21,M,5,13", "CC,21,M,7,M,5,13");
    let mut net = doubling("AND2", 30);
    net.push_str("gate,AND2,40,31,32\ngate,NAND2,41,31,32\noutput,41\nopen,32\n");
    let report = report(&lib, &net);
    assert_eq!(printed(&report, 31)[1], "over");
    assert_eq!(printed(&report, 40)[..4], ["32", "never", "0", "never"]);
    assert_eq!(printed(&report, 41)[..2], ["never", "32"]);
    assert_eq!(printed(&report, 32)[4], "over");
}
