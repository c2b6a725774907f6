//! Figures of sources 000 and 002, and every example against the second implementation.

use crate::common::{model, ALL};
use scoap_pads::ask::model::{Model, Number};
use scoap_pads::read::names;
use scoap_pads::show::cost::Cost;
use second::Answer;

fn largest(model: &Model, numbers: &[Number]) -> (u32, String) {
    let mut found = (0, String::new());
    for line in model.lines() {
        for &number in numbers {
            if let Cost::Figure(figure) = number.of(model.numbers.of(line)) {
                if figure > found.0 {
                    found = (figure, model.net_name(line).to_string());
                }
            }
        }
    }
    found
}

const CC: [Number; 2] = [Number::Cc0, Number::Cc1];
const SC: [Number; 2] = [Number::Sc0, Number::Sc1];

/// 000, sections V and VI: (26) to (30), and the text of V.
#[test]
fn the_shift_register_of_source_000() {
    let [c1, c2, c3] = ["c1", "c2", "c3"].map(|name| model(&format!("shift_register/{name}.blif")));
    assert_eq!(largest(&c1, &CC), (62, "FB111".to_string()));
    assert_eq!(largest(&c2, &CC).0, 106);
    assert_eq!(largest(&c3, &CC).0, 19);
    assert_eq!(largest(&c1, &[Number::Co]), (74, "CNT109".to_string()));
    assert_eq!(largest(&c3, &[Number::Co]), (33, "CNT109".to_string()));
    assert_eq!(largest(&c1, &SC), (8, "FB111".to_string()));
    assert_eq!(largest(&c1, &[Number::So]), (9, "CNT109".to_string()));
    // The least observable node of C3 as an output.
    let pad = names::find(&c3.names, "CNT109").unwrap()[0];
    let (_, after) = c3.ask(pad).unwrap();
    let co = c3.lines().filter_map(|line| after.of(line)[4].figure()).max();
    assert_eq!(co, Some(22));
    // The SC0 and SC1 profiles are alike, and each flip-flop's bump has three nodes.
    let profile = |number: Number| {
        let mut costs: Vec<Cost> = c1.lines().map(|line| number.of(c1.numbers.of(line))).collect();
        costs.sort();
        costs
    };
    assert_eq!(profile(Number::Sc0), profile(Number::Sc1));
    for stage in 1..=7 {
        let bump = profile(Number::Sc1).into_iter().filter(|&cost| cost == Cost::Figure(stage)).count();
        assert_eq!(bump, 3, "flip-flop {stage}");
    }
}

/// 002, figure 10: net, CC0, CC1, ob.
#[test]
fn the_eight_inputs_of_source_002() {
    let model = model("eight_inputs/eight_inputs.bench");
    let table = "10 3 2 11, 24 1 1 12, 25 1 1 12, 26 1 1 12, 27 1 1 12, 28 3 2 11, 29 3 2 11, 1 1 1 13, 2 1 1 6, 3 1 1 7, \
                 6 1 1 7, 7 1 1 6, 11 3 2 5, 16 4 2 3, 19 4 2 3, 30 1 1 13, 31 1 1 13, 32 1 1 13, 33 1 1 13, 22 13 2 0, \
                 23 5 5 0";
    let mut lines = 0;
    for row in table.split(',') {
        let fields: Vec<&str> = row.split_whitespace().collect();
        let line = names::find(&model.names, fields[0]).unwrap()[0];
        let six = model.numbers.of(line);
        let told: Vec<String> = [six[0], six[1], six[4]].iter().map(|cost| cost.plain()).collect();
        assert_eq!(told, fields[1..], "net {}", fields[0]);
        lines += 1;
    }
    assert_eq!(lines, 21);
}

/// What the second implementation reports, or where it differs.
fn differs(model: &Model) -> Option<String> {
    let Answer::Accepted { report, .. } = second::analyse(&model.lib, &model.net, 65_536) else {
        return Some("refused".to_string());
    };
    let own = scoap_pads::ask::archive::report_text(&model.lib, &model.net).ok()?;
    (own.as_bytes() != report).then(|| "another report".to_string())
}

#[test]
fn every_example_against_the_second_implementation() {
    for name in ALL {
        assert_eq!(differs(&model(name)), None, "{name}");
    }
    // Another netlist is found.
    let mut wrong = model("c17");
    wrong.net.extend_from_slice(b"hello\n");
    assert!(differs(&wrong).is_some());
}

/// A register of document 01 through the importer: the flip-flop of C1490.
#[test]
fn c1490_through_the_importer() {
    let room = std::env::temp_dir().join(format!("scoap_pads_c1490_{}", std::process::id()));
    std::fs::create_dir_all(&room).unwrap();
    let file = room.join("c1490.blif");
    let text = ".model c1490\n.inputs D C R\n.outputs Q\n.subckt $_DFF_NP0_ D=D C=C R=R Q=Q\n.end\n";
    std::fs::write(&file, text).unwrap();
    let (loaded, said) = crate::common::load(&crate::common::source(&file.display().to_string()));
    let model = loaded.expect(&said).model;
    let text = String::from_utf8(model.lib.clone()).unwrap();
    assert!(text.contains("CC,22,M,134,74\nCO,1034,1334,M,1474,1222\nSC,23,M,135,75\nSO,1035,1335,M,1475,1223\n"));
    let told = |net: &str| -> Vec<String> {
        let line = names::find(&model.names, net).unwrap()[0];
        model.numbers.of(line).iter().map(|cost| cost.plain()).collect()
    };
    assert_eq!(told("Q"), ["2", "4", "1", "1", "0", "0"]);
    assert_eq!(told("D")[4..], ["3", "1"]);
    assert_eq!(told("C")[4..], ["6", "2"]);
    assert_eq!(told("R")[4..], ["6", "2"]);
    std::fs::remove_dir_all(room).unwrap();
}
