//! One self-contained page of a design: profiles, the table, reasons and pads. Names are data, never markup.

use crate::ask::model::{Model, Number};
use crate::ask::never;
use crate::ask::pads::{self, Effect, Privacy};
use crate::ask::ranking;
use crate::ask::upstream;
use crate::ask::why::{Node, Reasons, Step, Way};
use crate::read::load;
use crate::show::cost::Cost;
use std::collections::HashMap;
use std::fmt::Write;

const TEMPLATE: &str = include_str!("page/page.html");
const STYLE: &str = include_str!("page/page.css");
const SCRIPT: &str = concat!(
    include_str!("page/base.js"),
    include_str!("page/why.js"),
    include_str!("page/live.js"),
    include_str!("page/draw.js"),
    include_str!("page/table.js"),
    include_str!("page/panel.js"),
    include_str!("page/sheet.js"),
    include_str!("page/start.js"),
);
const MOST_WAYS: usize = 12;

/// A string of JSON that can stand inside a script: `<` never begins a tag.
fn text(of: &str) -> String {
    let mut out = String::from("\"");
    for c in of.chars() {
        match c {
            '"' => out.push_str("\\\""),
            '\\' => out.push_str("\\\\"),
            '<' | '>' | '&' | '\u{2028}' | '\u{2029}' => {
                let _ = write!(out, "\\u{:04x}", c as u32);
            }
            c if c.is_control() => {
                let _ = write!(out, "\\u{:04x}", c as u32);
            }
            c => out.push(c),
        }
    }
    out.push('"');
    out
}

fn list(items: impl IntoIterator<Item = String>) -> String {
    format!("[{}]", items.into_iter().collect::<Vec<_>>().join(","))
}

fn cost(of: Cost) -> String {
    match of {
        Cost::Figure(figure) => figure.to_string(),
        other => text(&other.plain()),
    }
}

/// The role of a node: 0 and 1 set a line to the value, 2 sees it.
fn role(node: Node) -> usize {
    match node {
        Node::Set { value, .. } => usize::from(value),
        Node::See { .. } => 2,
    }
}

fn step(reasons: &Reasons, step: &Step) -> String {
    match &step.way {
        Way::Input => "0".to_string(),
        Way::Output => "1".to_string(),
        Way::Row(through) => {
            let terms = step.terms.iter().map(|&(term, _)| format!("[{},{}]", role(term), term.line()));
            format!("{{\"t\":{},\"d\":{},\"x\":{}}}", text(&reasons.through_told(*through)), step.depth, list(terms))
        }
        Way::None(blocked) => {
            let ways = blocked.iter().take(MOST_WAYS).map(|(through, never)| {
                let told = text(&reasons.through_told(*through));
                match never {
                    Some(term) => format!("[{told},{},{}]", role(*term), term.line()),
                    None => format!("[{told},-1,0]"),
                }
            });
            format!("{{\"b\":{},\"t\":{}}}", list(ways), text(reasons.nothing_told(step.node)))
        }
    }
}

/// The page of a design with pads placed already.
pub fn page(path: &str, model: &Model, placed: &[usize], privacy: &Privacy, said: &str) -> Result<String, String> {
    let may: Vec<usize> = pads::candidates(model);
    let model = pads::placed(model, placed)?;
    let effects = pads::by_line(&model)?;
    let steps = all_steps(&model)?;
    let lines = model.lines().map(|line| {
        line_data(&model, line, effects.get(&line), may.contains(&line), &steps[&line])
            + &near_data(&model, line, privacy)
            + "}"
    });
    let numbers = |lines: &[usize]| list(lines.iter().map(usize::to_string));
    let texts = format!(
        "{{\"lib\":{},\"net\":{}}}",
        text(&String::from_utf8_lossy(&model.lib)),
        text(&String::from_utf8_lossy(&model.net))
    );
    let data = format!(
        "{{\"title\":{},\"summary\":{},\"nevers\":{},\"warnings\":{},\"pads\":{},\"forbidden\":{},\"protected\":{},\"depth\":{},\"taken\":{},\"lines\":{}}}",
        text(&model.title),
        text(&load::summary(path, &model)),
        list(never::text(&model).lines().map(text)),
        list(said.lines().map(text)),
        numbers(placed),
        numbers(&privacy.forbidden),
        numbers(&privacy.protected),
        privacy.depth(),
        numbers(&model.taken),
        list(lines)
    );
    let mut page = TEMPLATE.to_string();
    // Each place is after the one before it, so that no data is taken for a place.
    let mut from = 0;
    let contents = [
        ("@STYLE@", STYLE),
        ("@DATA@", data.as_str()),
        ("@TEXTS@", texts.as_str()),
        ("@SCOAP@", model.analyser().js),
        ("@SCRIPT@", SCRIPT),
    ];
    for (place, content) in contents {
        let at = from + page[from..].find(place).expect("a place for the data");
        page.replace_range(at..at + place.len(), content);
        from = at + content.len();
    }
    Ok(page)
}

/// The four steps of each line's setting, in the report's order. Pads do not change them; those of seeing are the page's own.
fn all_steps(model: &Model) -> Result<HashMap<usize, Vec<String>>, String> {
    let mut steps: HashMap<usize, Vec<String>> = HashMap::new();
    let mut kinds = [Reasons::new(model, false), Reasons::new(model, true)];
    for line in model.lines() {
        let mut four = Vec::new();
        for (number, _) in &Number::ALL[..4] {
            let number = *number;
            let reasons = &mut kinds[usize::from(number.sequential())];
            let found = reasons.step(Node::of(number, line))?;
            four.push(step(reasons, &found));
        }
        steps.insert(line, four);
    }
    Ok(steps)
}

fn line_data(model: &Model, line: usize, effect: Option<&Effect>, may: bool, steps: &[String]) -> String {
    let name = model.name(line);
    let six = model.numbers.of(line);
    let mut readers: Vec<usize> = model.readers[line].iter().map(|&(gate, _)| model.gates[gate].line).collect();
    readers.dedup();
    let ranked = model.is_ranked(line);
    let mut out = format!(
        "{{\"l\":{line},\"n\":{},\"k\":{},\"c\":{},\"h\":{},\"q\":{},\"o\":{},\"r\":{ranked},\"may\":{may},\"a\":{},\"s\":{},\"t\":{},\"i\":{},\"v\":{},\"w\":{}",
        text(&name.net),
        text(name.kind.word()),
        list(six.iter().map(|&of| cost(of))),
        cost(ranking::hardest(six)),
        text(ranking::dearer(six).word()),
        model.is_output[line],
        list(name.aliases.iter().map(|alias| text(alias))),
        text(&name.source),
        text(&name.cell),
        text(&name.instance),
        list(readers.iter().map(usize::to_string)),
        list(steps.iter().cloned())
    );
    let fed = model.feeds(line).filter(|_| !model.is_output[line]);
    let _ = write!(out, ",\"d\":{}", fed.map_or("null".to_string(), |fed| fed.to_string()));
    if let Some(effect) = effect {
        let _ = write!(out, ",\"g\":{},\"f\":{},\"en\":{}", effect.gain, effect.freed, effect.easier.len());
    } else {
        out.push_str(",\"g\":null,\"f\":0,\"en\":0");
    }
    let _ = write!(out, ",\"p\":{}", list(name.pins.iter().map(|pin| text(pin))));
    out
}

/// What feeds a line, and what privacy says of it: whether it carries a protected value, which protected line it is upstream
/// of and how far, and whether it gets no pad. The page finds the latter anew, and is held to these.
fn near_data(model: &Model, line: usize, privacy: &Privacy) -> String {
    let numbers = |lines: &[usize]| list(lines.iter().map(usize::to_string));
    let fed = upstream::feeding(model, line);
    let near =
        privacy.upstream(line).map_or("null".to_string(), |(to, registers, gates)| numbers(&[to, registers, gates]));
    format!(
        ",\"u\":{},\"b\":{},\"y\":{},\"m\":[{},{near},{}]",
        numbers(&fed.reads),
        numbers(&fed.beside),
        numbers(&fed.takes),
        privacy.carries(line),
        privacy.ruled_out(line)
    )
}

#[cfg(test)]
mod tests {
    use super::*;

    #[test]
    fn names_never_become_markup() {
        assert_eq!(text("</script><b>\"\\\n"), "\"\\u003c/script\\u003e\\u003cb\\u003e\\\"\\\\\\u000a\"");
        let out = text("\u{2028}ä");
        assert_eq!(out, "\"\\u2028ä\"");
        assert!(crate::read::json::parse(&out).is_ok());
    }

    #[test]
    fn the_data_is_json() {
        let lib = crate::ask::archive::cell("NAND2", 2, "1110").unwrap();
        let net = b"input,1\ninput,2\ngate,NAND2,3,1,4\ngate,NAND2,4,2,3\noutput,3\n".to_vec();
        let model = Model::new("latch", lib.into_bytes(), net, Vec::new()).unwrap();
        let page = page("latch", &model, &[2], &Privacy::default(), "note: x\n").unwrap();
        let data = page.split("id=\"data\">").nth(1).unwrap().split("</script>").next().unwrap();
        let data = crate::read::json::parse(data).unwrap();
        assert_eq!(data.get("lines").unwrap().items().len(), 4);
        assert_eq!(data.get("pads").unwrap().items()[0].whole(), Some(2));
        for place in ["@STYLE@", "@DATA@", "@TEXTS@", "@SCOAP@", "@SCRIPT@"] {
            assert!(!page.contains(place), "{place}");
        }
    }
}
