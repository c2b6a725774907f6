//! The scope paper's figures and at least one text for every refusal.

mod buffers;
mod figures;
mod library;
mod netlist;
mod plans;
mod ranges;

use crate::generate::{groups_of, ladder, ENTRY};
use crate::netlist::Rules;
use crate::random::Random;
use crate::shapes::Call;
use crate::{analyse, report_into, shapes, Answer};
use crate::{MOST_BYTES, REFUSED};

const ROOM: usize = MOST_BYTES + 1;

fn report(lib: &str, net: &str) -> String {
    match analyse(lib.as_bytes(), net.as_bytes(), ROOM) {
        Answer::Accepted { report, .. } => String::from_utf8(report).unwrap(),
        refused => panic!("{refused:?}"),
    }
}

/// The costs printed for a line, and the sweeps under line 0.
fn printed(report: &str, line: usize) -> Vec<String> {
    let head = if line == 0 {
        "sweeps,".to_string()
    } else {
        format!("{line},")
    };
    let found = report
        .lines()
        .find(|text| text.starts_with(&head))
        .expect("the line is printed");
    found.split(',').skip(1).map(str::to_string).collect()
}

fn refused(lib: &str, net: &str, number: u32, line: u32) {
    assert_eq!(
        analyse(lib.as_bytes(), net.as_bytes(), ROOM),
        Answer::Refused { number, line },
        "library:\n{lib}netlist:\n{net}"
    );
}

/// The stored cases of the program, where both files can be read: what it must print is what this
/// implementation says.
#[test]
fn stored_cases() {
    let cases = concat!(env!("CARGO_MANIFEST_DIR"), "/../cases");
    let mut tried = 0;
    for folder in std::fs::read_dir(cases).unwrap() {
        let folder = folder.unwrap().path();
        let file = |name: &str| std::fs::read(folder.join(name));
        let (Ok(lib), Ok(net)) = (file("lib.txt"), file("net.txt")) else {
            continue;
        };
        let said = match analyse(&lib, &net, ROOM) {
            Answer::Accepted { report, .. } => report,
            Answer::Refused { number, line } => format!("refused,{number},{line}\n").into_bytes(),
        };
        assert!(said == file("stdout").unwrap(), "{}", folder.display());
        tried += 1;
    }
    assert!(tried >= 10, "{tried} cases");
}

/// What the ladders are made for comes up: gates that read their own output, pins that share a line,
/// lines without a driver, rows for both values of a pin, observing rows for the output's own values.
#[test]
fn ladders() {
    let mut rng = Random::from(7);
    let (mut own, mut shared, mut undriven) = (0, 0, 0);
    let (mut both, mut output) = (0, 0);
    for round in 1..=100 {
        let pair = ladder(&mut rng, round);
        let library = crate::library::read(&pair.lib.bytes()).unwrap();
        let netlist = crate::netlist::read(&pair.net.bytes(), &library, Rules::New).unwrap();
        assert_eq!(netlist.gates.len(), round);
        let mut driven: Vec<bool> = netlist.marks.iter().map(|marks| marks.input).collect();
        for gate in &netlist.gates {
            driven[gate.output()] = true;
        }
        for gate in &netlist.gates {
            let lines: Vec<usize> = (0..gate.pins).map(|pin| gate.pin(pin)).collect();
            own += usize::from(lines.contains(&gate.output()));
            shared += usize::from((1..gate.pins).any(|pin| lines[..pin].contains(&lines[pin])));
            undriven += usize::from(lines.iter().any(|&line| !driven[line]));
        }
        for (cell, entry) in pair.cells.iter().zip(pair.lib.lines.chunks(ENTRY)) {
            let rows = |line: usize| groups_of(&entry[line]).into_iter().flatten();
            // The bits of the pins at 1; those at 0 are one higher.
            let ones = (0..cell.pins).fold(0, |ones, pin| ones | 1u32 << (2 * pin + 1));
            let twice = |row: &u32| row & row >> 1 & ones != 0;
            both += (1..=4).flat_map(rows).filter(twice).count();
            let values = 3u32 << (2 * cell.pins + 1);
            output += [2, 4]
                .into_iter()
                .flat_map(rows)
                .filter(|row| row & values != 0)
                .count();
        }
    }
    let met = [own, shared, undriven, both, output];
    assert!(met.iter().all(|&count| count >= 100), "{met:?}");
}

/// What the benchmark times; the heaviest takes this implementation many seconds in a test's build.
#[test]
fn each_shape_is_what_its_label_says() {
    let mut shapes = shapes::all();
    shapes.retain(|case| !case.label.starts_with("the heaviest"));
    assert!(shapes.len() > 15);
    for case in shapes {
        let mut buffer = vec![0; ROOM];
        let answer = report_into(&case.lib, &case.net, &mut buffer);
        let length = if answer < REFUSED { answer as usize } else { 0 };
        let untrue = case.untrue(answer, &buffer[..length]);
        assert_eq!(untrue, None, "{}, {} gates", case.label, case.gates());
    }
}

/// What the benchmark times of other calls; advice on a large netlist takes this implementation many seconds here.
#[test]
fn each_call_is_what_its_label_says() {
    let mut calls = shapes::called();
    calls.retain(|called| !matches!(called.call, Call::Advise) || called.case.gates() <= 100);
    assert!(calls.len() > 7);
    for called in calls {
        let table = called.stood();
        let mut left = called.lent();
        called.run(&table, &mut left);
        assert_eq!(called.untrue(&table, &left), None, "{}", called.label);
    }
}
