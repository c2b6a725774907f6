//! The figures of the scope paper, every one-byte change of a small pair, and the largest sizes.

use crate::comparison::{Comparison, ROOM};
use second::figures::*;
use second::generate::{
    add_cell, add_cells, add_netlist, library_of, netlist_of, Order, Pair, Shape, Style, Wiring,
};
use second::random::Random;
use second::MOST_BYTES;
use second::{MOST_LINES, REFUSED};

pub fn figures(all: &mut Comparison) {
    all.figure("C1130", C1130, C1130_NET, C1130_REPORT);
    all.figure(
        "C1130 with a range",
        C1130,
        C1130_RANGE_NET,
        C1130_RANGE_REPORT,
    );
    all.figure("C1490", C1490, C1490_NET, C1490_REPORT);
    all.figure("latch", NAND2, LATCH_NET, LATCH_REPORT);
    all.figure("C1130 under Name3", C1130_DEEP, C1130_NET, C1130_REPORT);
    all.figure("depth 7", DELAY, DELAY_NET, DELAY_REPORT);
    all.figure("tie cells", TIES, TIES_NET, TIES_REPORT);
    all.figure("undriven line", "", UNDRIVEN_NET, UNDRIVEN_REPORT);
    all.figure("empty netlist", NAND2, "", EMPTY_REPORT);
    all.figure("empty texts", "", "", EMPTY_REPORT);

    let mut c17 = Vec::new();
    for [line, cc0, cc1, co] in C17_TABLE {
        for (column, cost) in [(0, cc0), (1, cc1), (4, co)] {
            c17.push((line, column, cost.to_string()));
        }
    }
    all.costs("C17", NAND2, C17_NET, &c17);

    let text = |text: &str| text.to_string();
    let known = [(29, 0, text("29")), (29, 1, text("29"))];
    all.costs("28 AND2", AND2, &doubling("AND2", 28), &known);
    let known = [(30, 0, text("30")), (30, 1, text("30"))];
    all.costs("29 AND2", AND2, &doubling("AND2", 29), &known);
    // A cell with a row that names both values of a pin pays for each pin.
    let both = AND2.replace("CC,21,", "CC,21,M,7,");
    let known = [(29, 0, text("29")), (29, 1, text("536870911"))];
    all.costs("28 of both values", &both, &doubling("AND2", 28), &known);
    let known = [(30, 0, text("30")), (30, 1, text("over"))];
    all.costs("29 of both values", &both, &doubling("AND2", 29), &known);
    for gates in [1, 2, 3, 10, 27, 30, 31, 40, MOST_LINES - 1] {
        for (cell, lib) in [("AND2", AND2), ("NAND2", NAND2)] {
            all.costs(&format!("{gates} {cell}"), lib, &doubling(cell, gates), &[]);
        }
    }
    for cost in EDGES {
        for (sequential, [zero, one, observe]) in [(false, [0, 1, 4]), (true, [2, 3, 5])] {
            let known = [
                (900, one, shown(cost)),
                (901, observe, shown(cost)),
                (903, zero, shown(8 * cost)),
            ];
            all.costs(
                &format!("cost {cost}"),
                EXACT,
                &exact(cost, sequential),
                &known,
            );
        }
    }
    for depth in 1..=8 {
        // One leaf for the 0 of an AND tree, all of them for its 1.
        let whole = (1u32 << (depth + 1)) - 1;
        let known = [(1, 0, (depth + 1).to_string()), (1, 1, whole.to_string())];
        all.costs(
            &format!("AND tree {depth}"),
            AND2,
            &tree("AND2", depth),
            &known,
        );
        let (mut zero, mut one) = (1u32, 1u32);
        for _ in 0..depth {
            (zero, one) = (2 * one + 1, zero + 1);
        }
        let known = [(1, 0, zero.to_string()), (1, 1, one.to_string())];
        all.costs(
            &format!("NAND tree {depth}"),
            NAND2,
            &tree("NAND2", depth),
            &known,
        );
    }
    for gates in [1, 2, 5, 100, MOST_LINES - 1] {
        let most = [2 * gates + 1, 2 * gates + 1, gates + 1, gates + 1];
        let known: Vec<_> = (0..4)
            .map(|column| (0, column, most[column].to_string()))
            .collect();
        all.costs(
            &format!("most sweeps, {gates} gates"),
            SLOW,
            &slow_chain(gates),
            &known,
        );
        if gates <= 5 {
            all.costs("full rows", &full_cell(), &full_chain(gates), &known);
        }
        all.costs("chain", INV, &chain("INV", gates, false), &[]);
        all.costs("chain backwards", INV, &chain("INV", gates, true), &[]);
    }
    for count in [1, 2, 50, 333] {
        all.costs("latches", NAND2, &latches(count), &[]);
    }
}

/// Every byte of a small pair replaced by every other, left out, doubled, and the text broken off
/// at every place.
pub fn one_byte(all: &mut Comparison) {
    let [lib, net] = [C1130.as_bytes(), C1130_NET.as_bytes()];
    for which in 0..2 {
        let text = [lib, net][which];
        let mut changed = Vec::new();
        for at in 0..text.len() {
            for byte in 0..=255 {
                let mut other = text.to_vec();
                other[at] = byte;
                changed.push(other);
            }
            let mut other = text.to_vec();
            other.remove(at);
            changed.push(other);
            for byte in [text[at], b',', b'\n', b'0', b'3', b'M', b'Z', b' '] {
                let mut other = text.to_vec();
                other.insert(at, byte);
                changed.push(other);
            }
            changed.push(text[..at].to_vec());
        }
        for byte in 0..=255 {
            changed.push(vec![byte]);
        }
        for other in changed {
            let pair = if which == 0 {
                [&other[..], net]
            } else {
                [lib, &other[..]]
            };
            all.check("one byte", pair[0], pair[1], 200, None);
        }
    }
}

/// The largest sizes that pass, and the next ones.
pub fn largest(all: &mut Comparison, rng: &mut Random) {
    for bytes in [MOST_BYTES - 1, MOST_BYTES, MOST_BYTES + 1] {
        let refused = |bytes: usize| (bytes > MOST_BYTES).then_some(2 * REFUSED);
        for _ in 0..3 {
            let mut long = library_of(rng, bytes);
            let shape = Shape {
                inputs: 8,
                gates: 100,
                undriven: 2,
                outputs: 20,
                wiring: Wiring::Any,
                order: Order::Shuffled,
                scattered: true,
            };
            add_netlist(rng, &mut long, &shape);
            all.check(
                "long library",
                &long.lib.bytes(),
                &long.net.bytes(),
                2 * ROOM,
                refused(long.lib.bytes().len()),
            );
            let long = netlist_of(rng, bytes);
            all.check(
                "long netlist",
                &long.lib.bytes(),
                &long.net.bytes(),
                2 * ROOM,
                refused(bytes),
            );
        }
        // Long texts without a line end, and of line ends alone.
        for byte in [b'\n', b',', b'0', b'A', 0] {
            let text = vec![byte; bytes];
            all.check("long run", &text, b"", ROOM, refused(bytes));
            all.check("long run", b"", &text, ROOM, refused(bytes));
            all.check("long runs", &text, &text, ROOM, refused(bytes));
        }
        // One line of one gate with very many pins, and one row line with very many rows.
        let mut net = b"gate,NAND2,1".to_vec();
        while net.len() + 3 <= bytes {
            net.extend_from_slice(b",1");
        }
        net.resize(bytes - 1, b'1');
        net.push(b'\n');
        all.check("many pins", NAND2.as_bytes(), &net, ROOM, None);
        let mut lib = b"Name,A,1\nCC,3".to_vec();
        while lib.len() + 5 <= bytes {
            lib.extend_from_slice(b",M,3");
        }
        lib.resize(bytes - 1, b'3');
        lib.push(b'\n');
        all.check("many rows", &lib, b"", ROOM, None);
    }
    for style in [Style::Common, Style::Any, Style::Wired, Style::Largest] {
        for order in [Order::Forward, Order::Backward, Order::Shuffled] {
            for wiring in [Wiring::Forward, Wiring::Deep, Wiring::Any] {
                for inputs in [0, 1, 100] {
                    let mut most = Pair::default();
                    let cells = if style == Style::Largest { 14 } else { 32 };
                    add_cells(rng, &mut most, cells, style);
                    let shape = Shape {
                        inputs,
                        gates: MOST_LINES - inputs,
                        undriven: 0,
                        outputs: rng.within(1, MOST_LINES),
                        wiring,
                        order,
                        scattered: false,
                    };
                    add_netlist(rng, &mut most, &shape);
                    let (lib, net) = (most.lib.bytes(), most.net.bytes());
                    all.check("1,000 lines", &lib, &net, 2 * ROOM, None);
                    all.check("1,000 lines", &lib, &net, rng.below(ROOM), None);
                }
            }
        }
    }
    let mut cells = Pair::default();
    for count in 1..=33u64 {
        add_cell(rng, &mut cells, 2, Style::Common);
        let known = if count == 33 {
            9_000_193
        } else {
            EMPTY_REPORT.len() as u64
        };
        all.check("many cells", &cells.lib.bytes(), b"", ROOM, Some(known));
    }
}
