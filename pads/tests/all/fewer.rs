//! Functions that are written by others because entries run out: every number of every net stays.

use crate::common::{example, load, source, Random, ALL};
use crate::formats::Room;
use scoap_pads::ask::archive::{Six, MOST_CELLS};
use scoap_pads::ask::model::Model;
use scoap_pads::read::load::{self, Source};
use scoap_pads::read::names::LineKind;
use scoap_pads::rows::writer::{self, Fewer};
use scoap_pads::show::cost::Cost;
use scoap_pads::show::messages::Messages;
use std::collections::BTreeMap;

/// The six numbers and the kind by net name, but for what the importer named itself; what was written by others.
type Written = (BTreeMap<String, (Six, LineKind)>, Fewer, Model);

fn within(source: &Source, most: usize) -> Option<Written> {
    let mut messages = Messages::new();
    let mut design = load::read(source, &mut messages).ok().filter(|_| messages.errors() == 0)?;
    let texts = writer::write_within(&mut design, most, &mut messages).ok()?;
    let bytes = |text: &String| text.clone().into_bytes();
    let model = Model::new("t", bytes(&texts.lib), bytes(&texts.net), texts.names.clone()).expect("what was written");
    let named = model.names.iter().filter(|name| !name.net.starts_with("(part "));
    let numbers = named.map(|name| (name.net.clone(), (*model.numbers.of(name.line), name.kind)));
    Some((numbers.collect(), texts.fewer, model))
}

/// Every limit from what it takes down to what can't be done: the same numbers by name.
fn every_limit(source: &Source) -> (usize, usize) {
    let Some((numbers, fewer, plain)) = within(source, MOST_CELLS) else { return (0, 0) };
    assert_eq!((fewer.written, fewer.wanted), (0, plain.cells.len()));
    let (mut written, mut inverters) = (0, 0);
    for most in (1..fewer.wanted).rev() {
        let (other, fewer, model) = within(source, most).expect("lines enough");
        if fewer.written == 0 {
            // Nothing is changed where it would not be enough.
            assert_eq!(model.cells.len(), plain.cells.len());
            assert!(fewer.left > most);
            break;
        }
        assert!(model.cells.len() <= most, "{most}");
        assert_eq!(model.names.len(), plain.names.len() + fewer.inverters);
        assert_eq!(other, numbers, "{}, {most} entries", source.path);
        scoap_pads::ask::why::check_all(&model).unwrap();
        (written, inverters) = (written + fewer.written, inverters + fewer.inverters);
    }
    (written, inverters)
}

#[test]
fn examples_within_every_limit() {
    let mut all = (0, 0);
    for name in ALL.iter().filter(|name| name.contains('.')) {
        let (written, inverters) = every_limit(&source(&example(name)));
        all = (all.0 + written, all.1 + inverters);
    }
    assert!(all.0 > 60 && all.1 > 500, "{all:?}");
}

/// Tables of one to three pins, with loops, registers, tied pins and constants among them.
fn random_tables(random: &mut Random) -> String {
    let (inputs, gates) = (3, 24);
    let net = |random: &mut Random| match random.below(inputs + gates + 2) {
        at if at < inputs => format!("i{at}"),
        at if at < inputs + gates => format!("n{}", at - inputs),
        at => format!("c{}", at - inputs - gates),
    };
    let mut text = ".model r\n.inputs i0 i1 i2\n.outputs n0 n7 n15\n.names c0\n.names c1\n1\n".to_string();
    for at in 0..gates {
        if random.below(6) == 0 {
            text += &format!(".latch {} n{at} re {} 2\n", net(random), net(random));
            continue;
        }
        let n = 1 + random.below(3);
        let pins: Vec<String> = (0..n).map(|_| net(random)).collect();
        text += &format!(".names {} n{at}\n", pins.join(" "));
        let bits = 1 + random.below((1 << (1 << n)) - 2);
        for s in (0..1 << n).filter(|s| bits >> s & 1 == 1) {
            text += &format!("{s:0n$b} 1\n");
        }
    }
    text + ".end\n"
}

#[test]
fn random_tables_within_every_limit() {
    let room = Room::new("fewer");
    let mut random = Random(0xfe3e);
    let mut all = (0, 0);
    for _ in 0..150 {
        let (written, inverters) = every_limit(&room.file("r.blif", &random_tables(&mut random)));
        all = (all.0 + written, all.1 + inverters);
    }
    assert!(all.0 > 1_000 && all.1 > 1_000, "{all:?}");
}

/// A library in the style of an open one: groups of AND and OR, inverted, with inverted pins; its functions by pins.
fn library() -> Vec<(String, usize, String)> {
    let pins = ["A", "B", "C", "D", "E", "F"];
    let mut cells: Vec<(String, usize, String)> = Vec::new();
    let mut add = |name: String, n: usize, function: String| cells.push((name, n, function));
    for n in 2..=4usize {
        for (word, mark) in [("and", " & "), ("or", " | ")] {
            for low in 0..=n.min(2) {
                let all: Vec<String> =
                    (0..n).map(|pin| format!("{}{}", if pin < low { "!" } else { "" }, pins[pin])).collect();
                let tail = "b".repeat(low);
                add(format!("{word}{n}{tail}"), n, all.join(mark));
                add(format!("n{word}{n}{tail}"), n, format!("!({})", all.join(mark)));
            }
        }
    }
    for groups in [&[2, 1][..], &[2, 2], &[3, 1], &[2, 1, 1], &[3, 2], &[4, 1], &[2, 2, 1], &[2, 1, 1, 1], &[3, 1, 1]] {
        for (word, inner, outer) in [("a", " & ", " | "), ("o", " | ", " & ")] {
            let mut at = 0;
            let parts: Vec<String> = groups
                .iter()
                .map(|&size| {
                    at += size;
                    format!("({})", pins[at - size..at].join(inner))
                })
                .collect();
            let name: String = groups.iter().map(|size| size.to_string()).collect();
            let n = groups.iter().sum();
            add(format!("{word}{name}"), n, parts.join(outer));
            add(format!("{word}{name}i"), n, format!("!({})", parts.join(outer)));
            add(
                format!("{word}{name}b"),
                n,
                format!("{} {outer} !{}", parts[..parts.len() - 1].join(outer), pins[n - 1]),
            );
        }
    }
    for (name, n, function) in [
        ("buf", 1, "A"),
        ("inv", 1, "!A"),
        ("xor2", 2, "A ^ B"),
        ("xnor2", 2, "!(A ^ B)"),
        ("xor3", 3, "A ^ B ^ C"),
        ("xnor3", 3, "!(A ^ B ^ C)"),
        ("mux2", 3, "(A & !C) | (B & C)"),
        ("mux2i", 3, "!((A & !C) | (B & C))"),
        ("maj3", 3, "(A & B) | (A & C) | (B & C)"),
        ("maj3i", 3, "!((A & B) | (A & C) | (B & C))"),
        ("mux4", 6, "(A & !E & !F) | (B & E & !F) | (C & !E & F) | (D & E & F)"),
    ] {
        add(name.to_string(), n, function.to_string());
    }
    cells
}

fn liberty(cells: &[(String, usize, String)]) -> String {
    let mut text = "library (many) {\n".to_string();
    for (name, n, function) in cells {
        text += &format!("  cell ({name}) {{\n");
        for pin in &["A", "B", "C", "D", "E", "F"][..*n] {
            text += &format!("    pin ({pin}) {{ direction : input; }}\n");
        }
        text += &format!("    pin (Y) {{ direction : output; function : \"{function}\"; }}\n  }}\n");
    }
    text + "}\n"
}

/// A netlist in which every cell of the library stands, each pin at a net of its own.
fn netlist(cells: &[(String, usize, String)], random: &mut Random, gates: usize) -> String {
    let inputs = 12;
    let mut nets: Vec<String> = (0..inputs).map(|at| format!("i{at}")).collect();
    let mut text = format!(".model many\n.inputs {}\n.outputs", nets.join(" "));
    for at in (0..gates).filter(|at| at % 9 == 0 || at + 20 > gates) {
        text += &format!(" n{at}");
    }
    text.push('\n');
    for at in 0..gates {
        let (name, n, _) = &cells[if at < cells.len() { at } else { random.below(cells.len()) }];
        text += &format!(".gate {name}");
        let mut read: Vec<String> = Vec::new();
        while read.len() < *n {
            let net = nets[nets.len() - 1 - random.below(nets.len().min(40))].clone();
            if !read.contains(&net) {
                read.push(net);
            }
        }
        for (pin, net) in ["A", "B", "C", "D", "E", "F"].iter().zip(&read) {
            text += &format!(" {pin}={net}");
        }
        text += &format!(" Y=n{at}\n");
        nets.push(format!("n{at}"));
    }
    text + ".end\n"
}

/// A net that nothing reads is never seen.
const NEVER: u64 = u64::MAX / 4;

/// Numbers straight from each function's own rows: a solver of its own, for nets without loops and registers.
fn solved(source: &Source) -> BTreeMap<String, [u64; 3]> {
    use scoap_pads::read::hub::Source as Read;
    use scoap_pads::rows::{by_definition, cells::Kind};
    let mut messages = Messages::new();
    let design = load::read(source, &mut messages).expect("a netlist");
    let never = NEVER;
    let mut numbers = vec![[never; 3]; design.nets.len()];
    design.inputs.iter().for_each(|&net| numbers[net] = [1, 1, never]);
    design.outputs.iter().for_each(|(_, source)| {
        if let Read::Net(net) = source {
            numbers[*net][2] = 0;
        }
    });
    let cost = |numbers: &[[u64; 3]], pins: &[Read], row: u32| -> u64 {
        let n = pins.len();
        let mut sum = 1;
        for (pin, source) in pins.iter().enumerate() {
            let Read::Net(net) = source else { panic!("a net") };
            let place = 2 * (n - 1 - pin);
            for (bit, value) in [(place + 2, 0), (place + 1, 1)] {
                if row >> bit & 1 == 1 {
                    sum += numbers[*net][value];
                }
            }
        }
        sum
    };
    loop {
        let before = numbers.clone();
        for gate in &design.gates {
            let Kind::Table(table) = &gate.cell.kind else { panic!("a table") };
            let entry = by_definition(table);
            for (value, rows) in entry.control.iter().enumerate() {
                let least = rows.iter().map(|&row| cost(&numbers, &gate.pins, row)).min().unwrap_or(never);
                numbers[gate.output][value] = numbers[gate.output][value].min(least);
            }
            for (pin, rows) in entry.observe.iter().enumerate() {
                let Read::Net(net) = gate.pins[pin] else { panic!("a net") };
                let seen = numbers[gate.output][2];
                let least = rows.iter().map(|&row| cost(&numbers, &gate.pins, row) + seen).min().unwrap_or(never);
                numbers[net][2] = numbers[net][2].min(least);
            }
        }
        if numbers == before {
            break;
        }
    }
    design.nets.iter().zip(&numbers).map(|(net, numbers)| (net.name().to_string(), *numbers)).collect()
}

#[test]
fn a_library_of_eighty_functions_and_more_gets_in() {
    let room = Room::new("eighty");
    let cells = library();
    let lib = room.file("many.lib", &liberty(&cells)).path;
    let mut random = Random(0x88);
    for (gates, most_inverters) in [(cells.len(), cells.len()), (260, 400)] {
        let mut source = room.file("many.blif", &netlist(&cells, &mut random, gates));
        source.libraries = vec![lib.clone()];
        let (loaded, said) = load(&source);
        let loaded = loaded.unwrap_or_else(|| panic!("{said}"));
        let fewer = loaded.texts.as_ref().unwrap().fewer;
        assert!(fewer.wanted >= 80, "{fewer:?}");
        assert!(loaded.model.cells.len() <= MOST_CELLS && fewer.written > 48, "{fewer:?}");
        assert!(fewer.inverters > 0 && fewer.inverters < most_inverters, "{fewer:?}");
        let solved = solved(&source);
        let mut nets = 0;
        for name in loaded.model.names.iter().filter(|name| name.kind != LineKind::Part) {
            let six = loaded.model.numbers.of(name.line);
            let told = [six[0], six[1], six[4]].map(|cost| match cost {
                Cost::Figure(figure) => u64::from(figure),
                Cost::Never => NEVER,
                other => panic!("{}: {other:?}", name.net),
            });
            assert_eq!(told, solved[&name.net], "{}", name.net);
            nets += 1;
        }
        assert_eq!(nets, gates + 12);
    }
}

/// What feeds a protected net is the same, gates that are written by others among it.
#[test]
fn protection_stays() {
    use scoap_pads::ask::pads::{Privacy, USUAL_DEPTH};
    let mut told = 0;
    for name in ["recorder/uart_log.json", "recorder/breath.json"] {
        let source = source(&example(name));
        let (_, fewer, plain) = within(&source, MOST_CELLS).unwrap();
        let (_, other, turned) = (1..fewer.wanted)
            .find_map(|most| within(&source, most).filter(|(_, fewer, _)| fewer.written > 0))
            .expect("a limit that takes inverters");
        assert!(other.inverters > 20, "{other:?}");
        for protected in plain.names.iter().filter(|name| name.kind == LineKind::Register) {
            let line_in = |model: &Model, net: &str| model.names.iter().find(|name| name.net == net).unwrap().line;
            for depth in [USUAL_DEPTH, 2, 4] {
                let of = |model: &Model| Privacy::new(model, vec![], vec![line_in(model, &protected.net)], depth);
                let (one, two) = (of(&plain), of(&turned));
                for name in plain.names.iter().filter(|name| name.kind != LineKind::Part) {
                    let there = line_in(&turned, &name.net);
                    assert_eq!(one.ruled_out(name.line), two.ruled_out(there), "{} of {}", name.net, protected.net);
                    assert_eq!(
                        one.told(&plain, name.line),
                        two.told(&turned, there),
                        "{} of {}",
                        name.net,
                        protected.net
                    );
                    told += 1;
                }
            }
        }
    }
    assert!(told > 10_000, "{told}");
}
