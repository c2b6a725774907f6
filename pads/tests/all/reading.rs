//! Reasons, pads and advice on every example.

use crate::common::{model, reported, Random, ALL};
use scoap_pads::ask::archive::Refusal;
use scoap_pads::ask::model::{Driver, Model};
use scoap_pads::ask::pads::{self, Privacy, USUAL_DEPTH};
use scoap_pads::ask::why;
use scoap_pads::read::names;
use scoap_pads::read::names::LineKind;
use scoap_pads::show::cost::Cost;

#[test]
fn every_reason_of_every_line_adds_up() {
    for name in ALL {
        let model = model(name);
        let steps = why::check_all(&model).unwrap_or_else(|words| panic!("{name}: {words}"));
        assert_eq!(steps, 6 * model.names.len(), "{name}");
    }
}

/// Every line that a pad may be asked for, candidate or not.
fn unmarked(model: &Model) -> Vec<usize> {
    model.lines().filter(|&line| !model.is_output[line]).collect()
}

/// What is asked for is what a new report says, on every line of every example.
#[test]
fn asks_are_new_reports() {
    let mut asks = 0;
    for name in ALL {
        let model = model(name);
        for line in unmarked(&model) {
            let (count, asked) = model.ask(line).unwrap();
            assert_eq!((count, &asked), (0, &reported(&model, &[line])), "{name}, line {line}");
            assert_ne!(asked, model.numbers, "{name}, line {line}");
            asks += 1;
        }
    }
    assert!(asks > 1_000, "{asks} asks");
}

/// Pads one after another: what was asked for stands, as a new report with all of them says.
#[test]
fn commits_are_new_reports() {
    let mut random = Random(0xbad5);
    for name in ALL {
        let mut model = model(name);
        let mut pads = Vec::new();
        for count in 0..5 {
            let lines = unmarked(&model);
            if lines.is_empty() {
                break;
            }
            let [line, other] = [0; 2].map(|_| lines[random.below(lines.len())]);
            let (ticket, asked) = model.ask(line).unwrap();
            let (_, beside) = model.ask(other).unwrap();
            assert_eq!(beside, reported(&model, &[&pads[..], &[other]].concat()), "{name}: {other} beside {pads:?}");
            assert_eq!(ticket, count, "{name}");
            let before = model.numbers.clone();
            model.commit(line, ticket).unwrap();
            pads.push(line);
            assert_eq!(model.numbers, asked, "{name}: {pads:?}");
            assert_eq!(model.numbers, reported(&model, &pads), "{name}: {pads:?}");
            // No pad raises a number; CC and SC stay.
            for line in model.lines() {
                let (was, is) = (before.of(line), model.numbers.of(line));
                assert!(was[..4] == is[..4] && is[4] <= was[4] && is[5] <= was[5], "{name}: {pads:?}");
            }
            // The ticket is used up.
            if let Some(&next) = unmarked(&model).first() {
                assert_eq!(model.commit(next, ticket), Err(Refusal { number: 24, line: 0 }), "{name}");
            }
        }
        assert_eq!(model.pads(), pads.len() as u64);
    }
}

/// The gain and the lines easier to see, from a new report of the second implementation: worked out by hand here.
#[test]
fn effects_are_drawn_from_new_reports() {
    for name in ["shift_register/c1.blif", "recorder/i2c_id.json", "c17"] {
        let model = model(name);
        let lines = unmarked(&model);
        for effect in pads::effects(&model, &lines, &Privacy::default()).unwrap() {
            let mut net = model.net.clone();
            net.extend_from_slice(format!("output,{}\n", effect.line).as_bytes());
            let second::Answer::Accepted { report, .. } = second::analyse(&model.lib, &net, 65_536) else {
                panic!("{name}: a pad is refused");
            };
            let report = String::from_utf8(report).unwrap();
            let mut fall = 0;
            let mut easier = Vec::new();
            for row in report.lines().skip(1).filter(|row| !row.starts_with("sweeps")) {
                let fields: Vec<&str> = row.split(',').collect();
                let line: usize = fields[0].parse().unwrap();
                if !model.is_ranked(line) {
                    continue;
                }
                let was = model.numbers.of(line);
                if let (Some(was), Ok(is)) = (was[4].figure(), fields[5].parse::<u32>()) {
                    fall += u64::from(was - is);
                }
                // No pad raises a number: another one is a lower one.
                if fields[5..] != [was[4].plain(), was[5].plain()] {
                    easier.push((line, fields[5].to_string()));
                }
            }
            assert_eq!(fall, effect.gain, "{name}, line {}", effect.line);
            let told: Vec<(usize, String)> = effect.easier.iter().map(|&(line, co)| (line, co.plain())).collect();
            assert_eq!(told, easier, "{name}, line {}", effect.line);
        }
    }
}

/// Whether a line may get a pad, by what the netlist says of it.
fn may_have(model: &Model, placed: &[usize], line: usize) -> bool {
    let text = String::from_utf8_lossy(&model.net);
    let statements: Vec<Vec<&str>> = text.lines().map(|statement| statement.split(',').collect()).collect();
    let own = line.to_string();
    let drives = |fields: &&Vec<&str>| fields[0] == "gate" && fields[2] == own && fields.len() > 3;
    let reads = |fields: &Vec<&str>| fields[0] == "gate" && fields[3..].contains(&own.as_str());
    let driven = statements.iter().find(drives).is_some() && model.name(line).kind != LineKind::Part;
    let input = model.inputs_too && statements.contains(&vec!["input", &own]) && model.net_name(line) != "(clock)";
    let read = statements.iter().any(reads);
    let marked = statements.contains(&vec!["output", &own]) || placed.contains(&line);
    !marked && (driven && (read || model.name(line).kind == LineKind::Register) || input && read)
}

/// The advice by trying every pad and comparing by hand.
fn brute(model: &Model, placed: &[usize], privacy: &Privacy) -> Option<usize> {
    let base = reported(model, placed);
    let before = pads::measure(model, &base);
    let mut best: Option<((usize, usize, u32, u64), usize)> = None;
    for line in model.lines().filter(|&line| may_have(model, placed, line) && !privacy.ruled_out(line)) {
        let mut pads = placed.to_vec();
        pads.push(line);
        let after = reported(model, &pads);
        let shown = |&line: &usize| after.of(line)[4] < base.of(line)[4] || after.of(line)[5] < base.of(line)[5];
        if privacy.protected.iter().any(shown) {
            continue;
        }
        let m = pads::measure(model, &after);
        let key = ((m.never, m.over, m.largest, m.sum), line);
        if m < before && best.is_none_or(|best| key < best) {
            best = Some(key);
        }
    }
    best.map(|(_, line)| line)
}

/// Examples with nets to protect, and how far.
const PROTECTED: [(&str, &str, usize); 8] = [
    ("shift_register/c1.blif", "STC*", 1),
    ("shift_register/c3.blif", "DATB", 0),
    ("recorder/breath.json", "quiet[*]", 1),
    ("recorder/breath.json", "quiet[*]", 3),
    ("recorder/i2c_id.json", "held[*]", 1),
    ("recorder/i2c_id.json", "held[*]", 0),
    ("c17", "11", 1),
    ("latch", "*", 1),
];

#[test]
fn advice_is_what_trying_all_gives() {
    for (name, pattern, depth) in PROTECTED {
        let mut model = model(name);
        let nets = names::find(&model.names, pattern).unwrap();
        for inputs_too in [false, true] {
            model.inputs_too = inputs_too;
            for privacy in [
                Privacy::default(),
                Privacy::new(&model, vec![], nets.clone(), depth),
                Privacy::new(&model, nets.clone(), vec![], depth),
            ] {
                let (rounds, _) = pads::advise(&model, 2, &privacy).unwrap();
                let mut placed = Vec::new();
                for round in &rounds {
                    let pad = round.pad.as_ref().map(|pad| pad.line);
                    assert_eq!(pad, brute(&model, &placed, &privacy), "{name}");
                    let proved = proved_brute(&model, &placed, &privacy);
                    assert_eq!(round.proved, Ok(proved), "{name} beside {placed:?}");
                    placed.extend(pad);
                }
                // No protected net is easier to see than before, whatever was placed.
                let after = reported(&model, &placed);
                for &line in &privacy.protected {
                    assert_eq!(after.of(line)[4..], model.numbers.of(line)[4..], "{name}");
                }
            }
        }
    }
}

/// The proved adviser's one pad, by trying all: every line counts, ranked or not, but constants and unread inputs.
fn proved_brute(model: &Model, placed: &[usize], privacy: &Privacy) -> Option<(usize, Cost)> {
    let base = reported(model, placed);
    let mut best = None;
    for line in model.lines().filter(|&line| may_have(model, placed, line) && !privacy.ruled_out(line)) {
        let after = reported(model, &[placed, &[line]].concat());
        let kept = |other: &usize| after.of(*other)[4..] == base.of(*other)[4..];
        let counts = |other: &usize| match model.name(*other).kind {
            LineKind::Constant => false,
            LineKind::Input => model.is_read(*other),
            _ => true,
        };
        let largest = model.lines().filter(counts).map(|other| after.of(other)[4]).max().unwrap();
        if privacy.protected.iter().all(kept) && best.is_none_or(|(_, least)| largest < least) {
            best = Some((line, largest));
        }
    }
    best
}

/// 000's own choice of a pad.
#[test]
fn the_pad_of_source_000() {
    let model = model("shift_register/c1.blif");
    let (rounds, _) = pads::advise(&model, 1, &Privacy::default()).unwrap();
    assert_eq!(model.net_name(rounds[0].pad.as_ref().unwrap().line), "CNT109");
}

/// Without privacy the best pad of this design shows protected nets.
#[test]
fn protection_changes_the_advice() {
    let model = model("recorder/uart_log.json");
    let mut protected = Vec::new();
    for pattern in ["data[*]", "mem0[*]", "mem1[*]", "shift[*]"] {
        protected.extend(names::find(&model.names, pattern).unwrap());
    }
    let open = &pads::advise(&model, 1, &Privacy::default()).unwrap().0[0];
    let privacy = Privacy::new(&model, vec![], protected, USUAL_DEPTH);
    let pad = open.pad.as_ref().unwrap().line;
    assert!(!pads::effects(&model, &[pad], &privacy).unwrap()[0].touched.is_empty());
    let closed = &pads::advise(&model, 1, &privacy).unwrap().0[0];
    assert!(closed.allowed < closed.candidates);
    assert_ne!(closed.pad.as_ref().unwrap().line, pad);
}

/// Each register protected by itself: no pad that is allowed has its next value, or what an inverter makes of it.
#[test]
fn the_data_of_a_protected_register_gets_no_pad() {
    let mut registers = 0;
    for name in ["recorder/afe_spi.json", "recorder/breath.json", "recorder/uart_log.json", "recorder/decim.json"] {
        let model = model(name);
        for line in model.lines().filter(|&line| model.name(line).kind == LineKind::Register) {
            let Some(Driver::Gate(gate)) = model.driver[line] else { panic!("{name}: a register without a gate") };
            let privacy = Privacy::new(&model, vec![], vec![line], USUAL_DEPTH);
            let pin = model.name(line).pins.iter().position(|pin| pin == "D").unwrap();
            let mut data = model.gates[gate].pins[pin];
            let constant = model.name(data).kind == LineKind::Constant;
            loop {
                assert!(constant || privacy.ruled_out(data), "{name}: {}", model.net_name(data));
                match model.driver[data] {
                    Some(Driver::Gate(gate))
                        if model.gates[gate].pins.len() == 1 && model.name(data).kind != LineKind::Register =>
                    {
                        data = model.gates[gate].pins[0];
                    }
                    _ => break,
                }
            }
            let narrow = Privacy::new(&model, vec![], vec![line], 0);
            assert!(constant || data == line || !narrow.ruled_out(data), "{name}");
            registers += 1;
        }
    }
    assert!(registers > 100, "{registers} registers");
}
