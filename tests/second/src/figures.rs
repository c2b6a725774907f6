//! The scope paper's figures to hold, and netlists that grow with a size: texts for the unit tests,
//! the comparison and the benchmark.

use crate::cost::NEVER;
use crate::library::{MOST_PINS, MOST_ROWS};
use std::fmt::Write;

pub const C1130: &str = "\
Name,C1130,3
CC,41,M,11,M,3,125
CO,1025,1105,1121
SC,40,M,10,M,2,124
SO,1024,1104,1120
End
";

/// A flip-flop with the pins D, C and R.
pub const C1490: &str = "\
Name,C1490,3
CC,22,M,134,74
CO,1034,1334,M,1474,1222
SC,23,M,135,75
SO,1035,1335,M,1475,1223
End
";

pub const NAND2: &str = "\
Name,NAND2,2
CC,13,21,M,5
CO,203,211
SC,12,20,M,4
SO,202,210
End
";

pub const AND2: &str = "\
Name,AND2,2
CC,21,M,5,13
CO,203,211
SC,20,M,4,12
SO,202,210
End
";

pub const INV: &str = "\
Name,INV,1
CC,3,5
CO,41
SC,2,4
SO,40
End
";

pub const C1130_NET: &str = "\
input,1
input,2
input,3
gate,C1130,4,1,2,3
output,4
";

/// As the scope paper prints it.
/// C1130 with the first input's price from 2 to 5.
pub const C1130_RANGE_NET: &str = "\
input,1
input,2
input,3
range,1,2,5
gate,C1130,4,1,2,3
output,4
";

/// The output is 0 by another input at price 1, and 1 by all three; to observe an input the others are set.
pub const C1130_RANGE_REPORT: &str = "\
line,cc0,cc1,sc0,sc1,co,so
1,2,2,0,0,3,0
2,1,1,0,0,4,0
3,1,1,0,0,4,0
4,2,5,0,0,0,0
sweeps,2,2,2,2
high
line,cc0,cc1,sc0,sc1,co,so
1,5,5,0,0,3,0
2,1,1,0,0,7,0
3,1,1,0,0,7,0
4,2,8,0,0,0,0
sweeps,2,2,2,2
";

pub const C1130_REPORT: &str = "\
line,cc0,cc1,sc0,sc1,co,so
1,1,1,0,0,3,0
2,1,1,0,0,3,0
3,1,1,0,0,3,0
4,2,4,0,0,0,0
sweeps,2,2,2,2
";

pub const C1490_NET: &str = "\
input,1
input,2
input,3
gate,C1490,4,1,2,3
output,4
";

pub const C1490_REPORT: &str = "\
line,cc0,cc1,sc0,sc1,co,so
1,1,1,0,0,3,1
2,1,1,0,0,6,2
3,1,1,0,0,6,2
4,2,4,1,1,0,0
sweeps,2,2,2,2
";

pub const LATCH_NET: &str = "\
input,1
input,2
gate,NAND2,3,1,4
gate,NAND2,4,2,3
output,3
";

/// The paper gives CC, CO and the sweeps; every sequential number is 0, as no row has depth.
pub const LATCH_REPORT: &str = "\
line,cc0,cc1,sc0,sc1,co,so
1,1,1,0,0,3,0
2,1,1,0,0,5,0
3,4,2,0,0,0,0
4,4,2,0,0,2,0
sweeps,3,3,3,3
";

/// CO and SO of the latch's four lines with a pad on line 4: each input is seen at its own gate.
pub const LATCH_ASKED: [u32; 8] = [3, 0, 3, 0, 0, 0, 0, 0];

/// NAND2 with a row added, the first pin at 1 alone for the output's 0. Of the latch CC0 of lines 3 and 4 becomes 2,
/// in a sweep and one that changes nothing; SC, CO and SO stand as they were.
pub const NAND2_MORE: &str = "\
Name,NAND2,2
CC,13,M,11,21,M,5
CO,203,211
SC,12,20,M,4
SO,202,210
End
";
pub const LATCH_CHANGED: [u32; 4] = [2, 1, 1, 1];

/// C1490 with a reset that needs no clock: the row with R at 1 alone. Of the netlist below CC0 of Q becomes 1 and,
/// as a change of C is seen from Q at 0, CO of C becomes 5.
pub const C1490_MORE: &str = "\
Name,C1490,3
CC,22,M,134,M,2,74
CO,1034,1334,M,1474,1222
SC,23,M,135,M,3,75
SO,1035,1335,M,1475,1223
End
";

/// What five steps come to on the latch: the last cost, then flag and number for 0 and for 1 of each line. Line 4
/// is on offer, line 3 at 0 is not.
pub const LATCH_BEST: [u32; 17] = [2, 1, 1, 1, 1, 1, 1, 1, 1, 0, NEVER, 1, 2, 0, 4, 0, 2];

/// A line that nothing drives and nothing reads but its output mark: no value is ever set.
pub const UNDRIVEN_NET: &str = "output,1\nopen,1\n";
pub const UNDRIVEN_REPORT: &str = "\
line,cc0,cc1,sc0,sc1,co,so
1,never,never,never,never,0,0
sweeps,1,1,1,1
";

/// C1130 with three-bit depths, and the same report.
pub const C1130_DEEP: &str = "\
Name3,C1130,3
CC,201,M,41,M,11,521
CO,4121,4421,4501
SC,200,M,40,M,10,520
SO,4120,4420,4500
End
";

/// A cell that hands its pin's value on at depth 7, and a chain of three.
pub const DELAY: &str = "\
Name3,DELAY,1
CC,27,17
CO,207
SC,27,17
SO,207
End
";

pub const DELAY_NET: &str = "\
input,1
gate,DELAY,2,1
gate,DELAY,3,2
gate,DELAY,4,3
output,4
";

pub const DELAY_REPORT: &str = "\
line,cc0,cc1,sc0,sc1,co,so
1,1,1,0,0,21,21
2,8,8,7,7,14,14
3,15,15,14,14,7,7
4,22,22,21,21,0,0
sweeps,2,2,2,2
";

/// Cells that hold their output at 0 and at 1, and what an AND2 makes of both.
pub const TIES: &str = "\
Name,TIE0,0
CC,1,Z
CO
SC,0,Z
SO
End
Name,TIE1,0
CC,Z,1
CO
SC,Z,0
SO
End
Name,AND2,2
CC,21,M,5,13
CO,203,211
SC,20,M,4,12
SO,202,210
End
";

pub const TIES_NET: &str = "\
gate,TIE0,1
gate,TIE1,2
gate,AND2,3,1,2
output,3
";

pub const TIES_REPORT: &str = "\
line,cc0,cc1,sc0,sc1,co,so
1,1,never,0,never,2,0
2,never,1,never,0,never,never
3,2,never,0,never,0,0
sweeps,2,2,2,2
";

pub const EMPTY_REPORT: &str = "\
line,cc0,cc1,sc0,sc1,co,so
sweeps,1,1,1,1
";

/// C17 without its fan-out branches, which are no lines here.
pub const C17_NET: &str = "\
input,1
input,2
input,3
input,6
input,7
gate,NAND2,10,1,3
gate,NAND2,11,3,6
gate,NAND2,16,2,11
gate,NAND2,19,11,7
gate,NAND2,22,10,16
gate,NAND2,23,16,19
output,22
output,23
";

/// Line, CC0, CC1 and CO from the table of source 002.
pub const C17_TABLE: [[u32; 4]; 11] = [
    [1, 1, 1, 5],
    [2, 1, 1, 6],
    [3, 1, 1, 5],
    [6, 1, 1, 7],
    [7, 1, 1, 6],
    [10, 3, 2, 3],
    [11, 3, 2, 5],
    [16, 4, 2, 3],
    [19, 4, 2, 3],
    [22, 5, 4, 0],
    [23, 5, 5, 0],
];

/// Lines 2 to `gates` + 1, each gate with every pin on the line before.
pub fn doubling(cell: &str, gates: usize) -> String {
    let mut net = String::from("input,1\n");
    for gate in 1..=gates {
        writeln!(net, "gate,{cell},{},{gate},{gate}", gate + 1).unwrap();
    }
    writeln!(net, "output,{}", gates + 1).unwrap();
    net
}

/// A full tree of two-pin gates over 2^depth inputs; its root is line 1, which is the output, and
/// the gate of line k reads 2k and 2k + 1.
pub fn tree(cell: &str, depth: u32) -> String {
    let leaves = 1usize << depth;
    let mut net = String::new();
    for line in leaves..2 * leaves {
        writeln!(net, "input,{line}").unwrap();
    }
    for line in (1..leaves).rev() {
        writeln!(net, "gate,{cell},{line},{},{}", 2 * line, 2 * line + 1).unwrap();
    }
    net.push_str("output,1\n");
    net
}

/// One-pin gates in a row, from the input to the output or listed backwards: then every sweep
/// carries the values one gate further.
pub fn chain(cell: &str, gates: usize, backwards: bool) -> String {
    let mut net = String::from("input,1\n");
    for place in 1..=gates {
        let gate = if backwards { gates + 1 - place } else { place };
        writeln!(net, "gate,{cell},{},{gate}", gate + 1).unwrap();
    }
    writeln!(net, "output,{}", gates + 1).unwrap();
    net
}

/// A cell whose 1 is the 0 of the gate before it, and whose 0 is its own 1: over a chain listed
/// backwards each sweep renews one number, so that 2G + 1 sweeps are needed.
pub const SLOW: &str = "\
Name,SLOW,2
CC,3,21
CO,203,211
SC,2,20
SO,202,210
End
";

/// The gate of line k + 1 reads line k with pin 1 and itself with pin 2.
pub fn slow_chain(gates: usize) -> String {
    own_chain("SLOW", 2, gates)
}

/// Gates listed backwards, each with all pins on the line before but the last, which reads itself.
fn own_chain(cell: &str, pins: usize, gates: usize) -> String {
    let mut net = String::from("input,1\n");
    for gate in (1..=gates).rev() {
        let before = format!(",{gate}").repeat(pins - 1);
        let own = gate + 1;
        writeln!(net, "gate,{cell},{own}{before},{own}").unwrap();
    }
    writeln!(net, "output,{}", gates + 1).unwrap();
    net
}

/// The most work that a cell can be: sixteen rows in each of the groups for eight pins, and each row
/// names every column, but for the one that gives a 0 or a 1. These name all that is known in time
/// where `full_chain` takes 2G + 1 sweeps: for the 0 not the last pin at 0, for the 1 the last pin
/// not at all.
pub fn full_cell() -> String {
    let group = |first: u32, rest: u32| {
        let mut rows = vec![format!("{first:o}")];
        rows.resize(MOST_ROWS, format!("{rest:o}"));
        rows.join(",M,")
    };
    let set_all = (1 << (2 * MOST_PINS + 1)) - 1;
    let observe_all = (1 << (2 * MOST_PINS + 4)) - 1;
    let set = [0b100, 0b110].map(|own| group(set_all & !own, set_all));
    let observe = [(); MOST_PINS].map(|()| group(observe_all, observe_all));
    let (set, observe) = (set.join(","), observe.join(","));
    format!("Name,FULL,{MOST_PINS}\nCC,{set}\nCO,{observe}\nSC,{set}\nSO,{observe}\nEnd\n")
}

/// As `slow_chain`, over the cell above.
pub fn full_chain(gates: usize) -> String {
    own_chain("FULL", MOST_PINS, gates)
}

/// Latches of two NAND2 each, which are set together by line 1; every one has three lines: a reset,
/// an output and the output's complement.
pub fn latches(count: usize) -> String {
    let mut net = String::from("input,1\n");
    for latch in 0..count {
        let [reset, q, p] = [2, 3, 4].map(|line| 3 * latch + line);
        write!(
            net,
            "input,{reset}\ngate,NAND2,{q},1,{p}\ngate,NAND2,{p},{reset},{q}\noutput,{q}\n"
        )
        .unwrap();
    }
    net
}

/// D0 and D1 with both pins on one line double its cost at 1, and D1 adds 1. SEE shows its first pin
/// for the 1 of its second. ALL is 0 for the 1 of all eight pins. D0, D1 and ALL have a row, never the
/// cheapest, that names both values of a pin: so each pin is paid, though they share a line.
pub const EXACT: &str = "\
Name,D0,2
CC,21,M,5,M,7,12
CO,203,211
SC,20,M,4,12
SO,202,210
End
Name,D1,2
CC,21,M,5,M,7,13
CO,203,211
SC,20,M,4,13
SO,202,210
End
Name,SEE,2
CC,21,13
CO,202,210
SC,20,12
SO,202,210
End
Name,ALL,8
CC,125252,2,M,6
CO,2000000,2000000,2000000,2000000,2000000,2000000,2000000,2000000
SC,125252,2
SO,2000000,2000000,2000000,2000000,2000000,2000000,2000000,2000000
End
";

/// A netlist over the cells above that makes just this cost: combinational on line 900, or
/// sequential, where an input costs 0. Line 901 is observed at the cost and line 903 has eight times
/// the cost for its 0.
pub fn exact(cost: u64, sequential: bool) -> String {
    assert!(cost > 0);
    let mut bits: Vec<u64> = (0..64 - cost.leading_zeros())
        .rev()
        .map(|bit| cost >> bit & 1)
        .collect();
    if !sequential {
        // An input is the leading 1.
        bits.remove(0);
    }
    let mut net = String::from("input,1\ninput,901\noutput,902\n");
    let mut last = 1;
    for (place, bit) in bits.iter().enumerate() {
        let line = if place + 1 == bits.len() {
            900
        } else {
            last + 1
        };
        writeln!(net, "gate,D{bit},{line},{last},{last}").unwrap();
        last = line;
    }
    writeln!(net, "gate,SEE,902,901,{last}").unwrap();
    writeln!(net, "gate,ALL,903{}", format!(",{last}").repeat(8)).unwrap();
    net
}

/// A cost as the report shows it.
pub fn shown(cost: u64) -> String {
    if cost > 999_999_999 {
        "over".to_string()
    } else {
        cost.to_string()
    }
}

/// Costs about the largest figure, the stored values of over and never, and where 32 bits wrap.
pub const EDGES: [u64; 14] = [
    2,
    124_999_999,
    125_000_000,
    536_870_911,
    536_870_912,
    999_999_998,
    999_999_999,
    1_000_000_000,
    1_000_000_001,
    1_000_000_002,
    2_147_483_648,
    4_294_967_295,
    4_294_967_296,
    4_294_967_299,
];
