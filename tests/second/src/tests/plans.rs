//! The cheapest plans, found without sweeps, and plans written out.

use crate::figures::*;
use crate::generate::{add_ranges, ladder, pair};
use crate::library::{self, Library, Row, Ways};
use crate::netlist::{self, Netlist, Rules};
use crate::random::Random;
use crate::{plan_into, sweep, LARGEST, NEVER, OVER};
use std::collections::BTreeSet;

/// A plan names a line of one wire once, unless the cell has a row of both values.
#[test]
fn plan_of_one_wire() {
    let plan = |lib: &str| {
        let mut text = vec![0; 1_000];
        let net = doubling("AND2", 2);
        let length = plan_into(lib.as_bytes(), net.as_bytes(), 3, 1, 0, &mut text);
        String::from_utf8(text[..length as usize].to_vec()).unwrap()
    };
    assert_eq!(plan(AND2), "0,3,1,13\n1,2,1,13\n2,1,1,input\n");
    let both = AND2.replace("CC,21,M,5,13", "CC,21,M,7,M,5,13");
    let twice = "1,2,1,13\n2,1,1,input\n2,1,1,input\n";
    assert_eq!(plan(&both), format!("0,3,1,13\n{twice}{twice}"));
}

/// The cheapest plans, found without sweeps: the cheapest number not yet known is settled next, from
/// settled ones only. Costs far above the largest figure are cut off, as they only mean "over".
struct Plans {
    set: Vec<[Option<u64>; 2]>,
    observe: Vec<Option<u64>>,
}

const FAR: u64 = 1 << 50;

fn plans(
    library: &Library,
    netlist: &Netlist,
    price: impl Fn(usize) -> u32,
    sequential: bool,
) -> Plans {
    let lines = netlist.marks.len();
    let ways = |cell: usize| -> &Ways {
        let cell = &library.cells[cell];
        if sequential {
            &cell.sequential
        } else {
            &cell.combinational
        }
    };
    let mut set = vec![[None; 2]; lines];
    for (line, marks) in netlist.marks.iter().enumerate() {
        if marks.input {
            set[line] = [Some(u64::from(price(line))); 2];
        }
    }
    // The sum over the columns of pins and output, straight from the paper's bit numbers.
    let sum = |row: Row, gate: &netlist::Gate, set: &[[Option<u64>; 2]]| -> Option<u64> {
        let n = gate.pins;
        let mut sum = u64::from(row.depth);
        let row = row.columns << 1;
        for i in 1..=n {
            for (bit, value) in [(2 * (n - i) + 2, 0), (2 * (n - i) + 1, 1)] {
                if row >> bit & 1 == 1 {
                    sum = FAR.min(sum + set[gate.pin(i - 1)][value]?);
                }
            }
        }
        for (bit, value) in [(2 * n + 2, 0), (2 * n + 1, 1)] {
            if row >> bit & 1 == 1 {
                sum = FAR.min(sum + set[gate.output()][value]?);
            }
        }
        Some(sum)
    };
    // The same of a row that sets the output of a one-wire cell: the values of lines as a set.
    let wired =
        |row: library::Row, gate: &netlist::Gate, set: &[[Option<u64>; 2]]| -> Option<u64> {
            let n = gate.pins;
            let mut asked = BTreeSet::new();
            for i in 1..=n {
                for (bit, value) in [(2 * (n - i) + 2, 0), (2 * (n - i) + 1, 1)] {
                    if row.columns >> (bit - 1) & 1 == 1 {
                        asked.insert((gate.pin(i - 1), value));
                    }
                }
            }
            let mut sum = u64::from(row.depth);
            for &(line, value) in &asked {
                if asked.contains(&(line, 1 - value)) {
                    return None;
                }
                sum = FAR.min(sum + set[line][value]?);
            }
            Some(sum)
        };
    loop {
        let mut next: Option<(u64, usize, usize)> = None;
        for gate in &netlist.gates {
            for value in 0..2 {
                if set[gate.output()][value].is_some() {
                    continue;
                }
                for &row in library.rows(ways(gate.cell).set[value]) {
                    let found = if library.cells[gate.cell].one_wire {
                        wired(row, gate, &set)
                    } else {
                        sum(row, gate, &set)
                    };
                    if let Some(cost) = found {
                        let found = (cost, gate.output(), value);
                        next = Some(next.map_or(found, |best| best.min(found)));
                    }
                }
            }
        }
        let Some((cost, line, value)) = next else {
            break;
        };
        set[line][value] = Some(cost);
    }
    let mut observe: Vec<Option<u64>> = netlist
        .marks
        .iter()
        .map(|marks| marks.output.then_some(0))
        .collect();
    loop {
        let mut next: Option<(u64, usize)> = None;
        for gate in &netlist.gates {
            let Some(seen) = observe[gate.output()] else {
                continue;
            };
            for pin in 0..gate.pins {
                if observe[gate.pin(pin)].is_some() {
                    continue;
                }
                for &row in library.rows(ways(gate.cell).observe[pin]) {
                    if let Some(cost) = sum(row, gate, &set) {
                        let found = (FAR.min(cost + seen), gate.pin(pin));
                        next = Some(next.map_or(found, |best| best.min(found)));
                    }
                }
            }
        }
        let Some((cost, line)) = next else { break };
        observe[line] = Some(cost);
    }
    Plans { set, observe }
}

#[test]
fn cheapest_plans() {
    let told = |cost: Option<u64>| match cost {
        None => NEVER,
        Some(cost) if cost > u64::from(LARGEST) => OVER,
        Some(cost) => cost as u32,
    };
    let mut rng = Random::from(7);
    let mut counts = [0; 3];
    for round in 0..400 {
        // Costs grow fast along a ladder.
        let mut pair = match round % 10 {
            0 => pair(&mut rng, 120),
            5 => ladder(&mut rng, 120),
            _ => pair(&mut rng, 15),
        };
        if round % 2 == 0 {
            add_ranges(&mut rng, &mut pair);
        }
        let end = round / 2 % 2;
        let library = library::read(&pair.lib.bytes()).unwrap();
        let netlist = netlist::read(&pair.net.bytes(), &library, Rules::New).unwrap();
        let price = |line| netlist.price(line, end);
        let (numbers, _) = sweep::run(&library, &netlist, price);
        let combinational = plans(&library, &netlist, price, false);
        let sequential = plans(&library, &netlist, |_| 0, true);
        for line in 1..netlist.marks.len() {
            assert_eq!(numbers.cc[line], combinational.set[line].map(told));
            assert_eq!(numbers.sc[line], sequential.set[line].map(told));
            assert_eq!(numbers.co[line], told(combinational.observe[line]));
            assert_eq!(numbers.so[line], told(sequential.observe[line]));
            if netlist.marks[line].mentioned {
                let [zero, one] = numbers.cc[line];
                for cost in [zero, one, numbers.co[line], numbers.so[line]] {
                    counts[cost.saturating_sub(LARGEST) as usize] += 1;
                }
            }
        }
    }
    // Each kind of cost was met.
    assert!(counts.iter().all(|&count| count > 5), "{counts:?}");
}
