//! What is shown of names: no two rows of a report read alike, and every command says the same name.

use crate::common::{example, model, ALL};
use scoap_pads::ask::model::Model;
use scoap_pads::read::names;
use scoap_pads::show::commands;
use scoap_pads::show::messages::Messages;
use std::collections::HashSet;

fn run(words: &[&str]) -> String {
    let words: Vec<String> = words.iter().map(|word| word.to_string()).collect();
    commands::run(&words, &mut Messages::new()).expect("an answer").text
}

/// The part of a table's rows that begins where the head has this word.
fn column(text: &str, head: &str) -> Vec<String> {
    let mut lines = text.lines().skip_while(|line| !line.starts_with("hardest "));
    let at = lines.next().and_then(|line| line.find(head)).expect("the column");
    let cell = |line: &str| -> String {
        let rest: String = line.chars().skip(at).collect();
        rest.split("  ").next().unwrap_or("").to_string()
    };
    lines.take_while(|line| !line.starts_with(['…', 'b', 'n'])).map(cell).collect()
}

#[test]
fn no_two_rows_read_alike() {
    let library = example("recorder/recorder.lib");
    for name in ALL {
        let text = run(&["report", &example(name), "-l", &library, "--worst", "100000"]);
        let nets = column(&text, "net ");
        let different: HashSet<&String> = nets.iter().collect();
        assert!(nets.len() > 2 && !nets.iter().any(String::is_empty), "{name}: {text}");
        assert_eq!(different.len(), nets.len(), "{name}: {nets:?}");
    }
}

/// Long names that differ in the middle alone, and two lines of one name.
#[test]
fn names_that_would_read_alike() {
    let long = |word: &str| format!("a_{}_{word}_{}_z", "x".repeat(40), "y".repeat(40));
    let mut text = "INPUT(a)\nINPUT(b)\nOUTPUT(q)\n".to_string();
    for at in 0..5 {
        text += &format!("{} = NAND(a, b)\n", long(&at.to_string()));
    }
    let all: Vec<String> = (0..5).map(|at| long(&at.to_string())).collect();
    text += &format!("q = AND({})\n", all.join(", "));
    let file = std::env::temp_dir().join(format!("scoap_pads.alike.{}.bench", std::process::id()));
    std::fs::write(&file, text).unwrap();
    let text = run(&["report", &file.display().to_string()]);
    std::fs::remove_file(&file).unwrap();
    let nets = column(&text, "net ");
    assert_eq!(nets.iter().collect::<HashSet<_>>().len(), 8, "{text}");
}

/// The name that is shown, the netlist's own and the line are one net, and no two nets are called alike.
#[test]
fn every_name_finds_its_net() {
    let mut short = 0;
    for name in ALL {
        let model: Model = model(name);
        let mut known: HashSet<&str> = HashSet::new();
        for of in &model.names {
            assert!(known.insert(&of.net), "{name}: {} twice", of.net);
            for called in [of.net.as_str(), &format!("line:{}", of.line)].into_iter().chain(of.long()) {
                assert_eq!(names::find(&model.names, called), Ok(vec![of.line]), "{name}: {called}");
            }
            short += usize::from(of.long().is_some());
        }
    }
    assert!(short > 500, "{short}");
}
