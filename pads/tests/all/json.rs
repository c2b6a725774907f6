//! What `--json` prints: it is JSON, and has the numbers of the text.

use crate::common::example;
use scoap_pads::read::json::{self, Value};
use scoap_pads::show::commands;
use scoap_pads::show::cost::{grouped, Cost};
use scoap_pads::show::messages::Messages;

fn run(words: &[&str]) -> String {
    let words: Vec<String> = words.iter().map(|word| word.to_string()).collect();
    commands::run(&words, &mut Messages::new()).expect("an answer").text
}

/// The text of a command and its JSON.
fn both(words: &[&str]) -> (String, String) {
    (run(words), run(&[words, &["--json"]].concat()))
}

/// A number or a cost as the text has it.
fn told(value: &Value) -> String {
    match value {
        Value::Number(digits) => grouped(digits.parse().unwrap()),
        Value::Text(word) => Cost::read(word).expect("a cost").to_string(),
        other => panic!("{other:?} is no cost"),
    }
}

fn at<'v, 'a>(of: &'v Value<'a>, path: &str) -> &'v Value<'a> {
    path.split('.').fold(of, |of, key| of.get(key).unwrap_or_else(|| panic!("no {key} of {path}")))
}

fn text<'v>(of: &'v Value, path: &str) -> &'v str {
    at(of, path).text().unwrap_or_else(|| panic!("{path} is no text"))
}

/// Words of a line of text, without the commas that part them.
fn words(line: &str) -> Vec<String> {
    line.split_whitespace().map(|word| word.trim_end_matches([',', ';', ':']).to_string()).collect()
}

const DESIGNS: [(&str, &str); 3] = [
    ("shift_register/c1.blif", "FB111"),
    ("recorder/uart_log.json", "crc[0].d~2"),
    ("recorder/uart_log.json", "sent[3]"),
];

fn change(before: &Value, after: &Value) -> String {
    let pair = |key: &str| format!("{} -> {}", told(at(before, key)), told(at(after, key)));
    format!("largest CO {}, sum {}", pair("largest_co"), pair("sum_co"))
}

#[test]
fn a_report_has_the_numbers_of_its_table() {
    let library = example("recorder/recorder.lib");
    for (name, _) in DESIGNS {
        let path = example(name);
        for by in ["fault", "co", "gain"] {
            let (table, json) =
                both(&["report", &path, "-l", &library, "--worst", "1000", "--by", by, "--fail-above", "50"]);
            let json = json::parse(&json).unwrap();
            let nets = at(&json, "nets").items();
            let rows: Vec<&str> =
                table.lines().skip_while(|line| !line.starts_with("hardest ")).skip(1).take(nets.len()).collect();
            assert!(nets.len() > 20 && rows.len() == nets.len());
            for (row, net) in rows.iter().zip(nets) {
                let mut wanted = vec![told(at(net, "hardest")), told(at(net, "line")), text(net, "net").to_string()];
                wanted.push(text(net, "kind").replace("register", "reg"));
                wanted.extend(["cc0", "cc1", "sc0", "sc1", "co", "so"].map(|key| told(at(net, key))));
                wanted.push(match at(net, "gain") {
                    Value::Null => "-".to_string(),
                    gain => told(gain),
                });
                if net.get("freed").and_then(Value::whole).is_some_and(|freed| freed > 0) {
                    wanted.push(format!("+{}", told(at(net, "freed"))));
                }
                assert_eq!(words(row)[..wanted.len()], wanted, "{row}");
            }
            let best = at(&json, "best");
            let change = change(at(&json, "measure"), at(best, "after"));
            assert!(table.contains(&format!("best pad: {}  {change}", text(best, "net"))), "{change}: {table}");
            let above = at(&json, "above.nets").items().len();
            assert!(above > 0 && table.contains(&format!("{above} nets above 50: ")), "{table}");
            assert_eq!(at(&json, "status").whole(), Some(3));
            let unset = at(&json, "nevers.set").items().len();
            assert_eq!(table.contains(&format!("Never set to 0 or to 1: {unset} lines")), unset > 0);
            let count = |key: &str| at(&json, &format!("design.{key}")).whole().unwrap();
            assert!(table.contains(&format!(
                " {} lines ({} inputs, {} registers",
                count("lines"),
                count("inputs"),
                count("registers")
            )));
        }
    }
}

#[test]
fn reasons_have_the_terms_of_their_text() {
    let library = example("recorder/recorder.lib");
    for (name, net) in DESIGNS {
        let path = example(name);
        for of in ["cc0", "cc1", "sc0", "sc1", "co", "so"] {
            let (told_text, json) = both(&["why", &path, net, "-l", &library, "--of", of, "--steps", "9"]);
            let json = json::parse(&json).unwrap();
            let mut lines = told_text.lines().skip_while(|line| {
                !line.starts_with(|c: char| c.is_ascii_digit() || c == 'n' || c == 'o') || line.contains("(line ")
            });
            let node = |of: &Value| match at(of, "to") {
                Value::Text(word) => format!("{} {word}", text(of, "net")),
                value => format!("{} at {}", text(of, "net"), value.whole().unwrap()),
            };
            for step in at(&json, "steps").items() {
                let head = lines.next().unwrap_or("");
                assert!(head.starts_with(&format!("{}  {}", told(at(step, "cost")), node(step))), "{head}: {json:?}");
                if text(step, "way") == "row" {
                    assert!(
                        head.contains(&format!("(row {})", text(step, "by.row")))
                            && head.contains(text(step, "by.cell"))
                    );
                    let mut sum: Vec<String> =
                        at(step, "terms").items().iter().map(|term| told(at(term, "cost"))).collect();
                    let depth = at(step, "depth").whole().unwrap();
                    if depth > 0 || sum.is_empty() {
                        sum.push(format!("depth {depth}"));
                    }
                    assert!(head.ends_with(&format!(": {}", sum.join(" + "))), "{head}");
                }
                for term in at(step, "terms").items() {
                    let line = lines.next().unwrap_or("").trim_start();
                    assert_eq!(line, format!("{}  {}", told(at(term, "cost")), node(term)));
                }
                for _ in at(step, "blocked").items().iter().take(12) {
                    lines.next();
                }
            }
            assert_eq!(at(&json, "of").text(), Some(of));
        }
    }
}

#[test]
fn pads_and_advice_have_the_measures_of_their_text() {
    let library = example("recorder/recorder.lib");
    let protect = example("recorder/patient.nets");
    for (name, net) in DESIGNS {
        let path = example(name);
        let pattern = format!("{}*", &net[..2]);
        let (table, json) = both(&["pad", &path, &pattern, "-l", &library]);
        let json = json::parse(&json).unwrap();
        assert!(table.contains(&change(at(&json, "before"), at(&json, "after"))), "{table}");
        for net in at(&json, "easier").items() {
            let pair = |key: &str| at(net, key).items().iter().map(told).collect::<Vec<_>>();
            let (co, so) = (pair("co"), pair("so"));
            let kind = text(net, "kind").replace("register", "reg");
            let row = [
                told(at(net, "line")),
                text(net, "net").to_string(),
                kind,
                co[0].clone(),
                "->".into(),
                co[1].clone(),
                so[0].clone(),
                "->".into(),
                so[1].clone(),
            ];
            assert!(table.lines().any(|line| words(line) == row), "{row:?}: {table}");
        }
        let alone = at(&json, "alone").items();
        assert_eq!(table.starts_with("each alone:\n"), alone.len() > 1);
        for pad in alone.iter().filter(|_| alone.len() > 1) {
            let mut row = vec![told(at(pad, "line")), text(pad, "net").to_string()];
            let tail: Vec<String> = ["never", "over", "largest_co", "sum_co"]
                .iter()
                .map(|key| told(at(pad, &format!("after.{key}"))))
                .collect();
            row.push(told(at(pad, "gain")));
            let easier = at(pad, "easier").items().len().to_string();
            let line = table.lines().find(|line| words(line).starts_with(&row[..2])).unwrap_or("");
            let line = words(line);
            assert_eq!(line[3], row[2]);
            assert_eq!(line[line.len() - 5..], [&tail[..], &[easier]].concat(), "{table}");
        }
        let mut given = vec!["advise", &path, "-l", &library, "--pads", "2"];
        if name.contains("uart") {
            given.extend(["--protect", &protect]);
        }
        let (advice, json) = both(&given);
        let json = json::parse(&json).unwrap();
        let rounds = at(&json, "rounds").items();
        assert_eq!(rounds.len(), 2);
        for (at_round, round) in rounds.iter().enumerate() {
            let pad = at(round, "pad");
            let change = change(at(round, "before"), at(pad, "after"));
            assert!(
                advice.contains(&format!("pad {}: {}  {change}", at_round + 1, text(pad, "net"))),
                "{change}: {advice}"
            );
            let easier = at(pad, "easier").items().len();
            let (allowed, all) = (told(at(round, "allowed")), told(at(round, "candidates")));
            assert!(
                advice.contains(&format!("{easier} nets easier to see; chosen among {allowed} of {all} lines")),
                "{advice}"
            );
            let proved = at(round, "proved");
            let line = format!("{}, largest CO {}", text(proved, "net"), told(at(proved, "largest_co")));
            assert!(advice.contains(&line), "{line}: {advice}");
            assert_eq!(at(pad, "allowed"), &Value::Bool(true));
        }
    }
}

#[test]
fn a_check_has_the_counts_of_its_text() {
    let library = example("recorder/recorder.lib");
    for (name, _) in DESIGNS {
        let (text_of, json) = both(&["check", &example(name), "-l", &library]);
        let json = json::parse(&json).unwrap();
        let lines: Vec<Vec<String>> = text_of.lines().map(words).collect();
        for limit in at(&json, "limits").items() {
            let row = [told(at(limit, "used")), "of".to_string(), told(at(limit, "most"))];
            let what = words(text(limit, "what"));
            assert!(lines.contains(&[&row[..], &what[..]].concat()), "{row:?}");
        }
        for cell in at(&json, "used").items() {
            let row = [text(cell, "cell").to_string(), told(at(cell, "pins"))];
            let line = lines.iter().find(|line| line.starts_with(&row)).unwrap_or_else(|| panic!("{row:?}"));
            assert_eq!(line[3], told(at(cell, "gates")));
        }
    }
}

/// Refusals and wrong command lines are JSON too.
#[test]
fn refusals() {
    let stopped = |words: &[&str]| {
        let words: Vec<String> = words.iter().map(|word| word.to_string()).collect();
        let mut messages = Messages::new();
        let stop = commands::run(&words, &mut messages).err().expect("a stop");
        commands::stopped(&words, &stop, &messages)
    };
    let bad = example("../pads/tests/bad/chip.blif");
    let json = stopped(&["report", &bad, "--json"]).unwrap();
    let json = json::parse(&json).unwrap();
    assert_eq!(at(&json, "status").whole(), Some(1));
    let told = at(&json, "messages").items();
    assert_eq!(at(&json, "errors").whole(), Some(told.len() as i64));
    let first = told.iter().find(|said| at(said, "line").whole() == Some(5)).expect("the error of line 5");
    assert_eq!(text(first, "text"), "this row has 3 columns, the gate has 2 inputs");
    assert_eq!((text(first, "shown"), text(first, "kind"), text(first, "file")), ("111 1", "error", bad.as_str()));
    for words in [
        &["report", "--json"][..],
        &["praise", "x", "--json"],
        &["why", &example("c17"), "--json", "zz"],
        &["report", &example("c17"), "--csv", "-", "--json"],
    ] {
        let json = stopped(words).unwrap();
        let json = json::parse(&json).unwrap();
        assert_eq!(at(&json, "status").whole(), Some(2));
        assert!(!text(&json, "error").is_empty());
    }
    assert_eq!(stopped(&["report", &bad]), None);
    assert_eq!(stopped(&["why", &example("c17"), "--", "--json"]), None);
}
