//! The parts of what `--json` prints; docs/JSON.md describes them. Names stand as they are printed, so that nothing hidden is
//! left when they are decoded.

use crate::ask::archive::{MOST_CELLS, MOST_PINS, MOST_ROWS};
use crate::ask::model::{Model, Number};
use crate::ask::never::{self, Root};
use crate::ask::pads::{Effect, Measure, Privacy, Round};
use crate::ask::ranking;
use crate::ask::why::{Node, Reasons, Step, Through, Way};
use crate::read::names::LineKind;
use crate::rows::writer::Texts;
use crate::show::json::Json;
use crate::show::messages::{printable, shown_name, Messages};

type Members = Vec<(&'static str, Json)>;

/// What every command prints around its own members.
pub fn whole(command: &str, status: u8, messages: &Messages, own: Members) -> String {
    let said = messages.said().iter().map(|said| {
        Json::Object(vec![
            ("kind", said.kind.into()),
            ("file", (!said.file.is_empty()).then(|| shown_name(&said.file)).into()),
            ("line", Some(said.line).filter(|&line| line > 0).into()),
            ("text", printable(&said.words).into()),
            ("shown", (!said.shown.is_empty()).then(|| shown_name(&said.shown)).into()),
        ])
    });
    let mut members: Members = vec![
        ("scoap_pads", env!("CARGO_PKG_VERSION").into()),
        ("command", shown_name(command).into()),
        ("status", Json::Number(u64::from(status))),
        ("errors", messages.errors().into()),
        ("messages", Json::List(said.collect())),
    ];
    members.extend(own);
    Json::Object(members).text()
}

pub fn design(path: &str, model: &Model) -> (&'static str, Json) {
    let mut members: Members = vec![
        ("source", shown_name(path).into()),
        ("title", model.title.as_str().into()),
        ("lines", model.names.len().into()),
    ];
    for (key, kind) in [
        ("inputs", LineKind::Input),
        ("registers", LineKind::Register),
        ("gates", LineKind::Gate),
        ("constants", LineKind::Constant),
        ("open", LineKind::Open),
        ("parts", LineKind::Part),
    ] {
        members.push((key, model.names.iter().filter(|name| name.kind == kind).count().into()));
    }
    members.push(("outputs", model.lines().filter(|&line| model.is_output[line]).count().into()));
    members.push(("cells", model.cells.len().into()));
    members.push(("at_low", model.ranges.into()));
    members.push(("block", model.block.into()));
    ("design", Json::Object(members))
}

/// What is used of each limit: used, most, what.
pub fn limits(model: &Model) -> [(usize, usize, &'static str); 6] {
    let groups = model.cells.iter().flat_map(|cell| cell.control.iter().chain(&cell.observe).flatten());
    [
        (model.names.len(), model.analyser().lines, "lines"),
        (model.cells.len(), MOST_CELLS, "cells"),
        (model.cells.iter().map(|cell| cell.pins).max().unwrap_or(0), MOST_PINS, "pins of a cell"),
        (groups.map(Vec::len).max().unwrap_or(0), MOST_ROWS, "rows of a group"),
        (model.lib.len(), model.analyser().bytes, "bytes of lib.txt"),
        (model.net.len(), model.analyser().bytes, "bytes of net.txt"),
    ]
}

pub fn check(path: &str, model: &Model, texts: Option<&Texts>) -> Members {
    let limits = limits(model).map(|(used, most, what)| {
        Json::Object(vec![("what", what.into()), ("used", used.into()), ("most", most.into())])
    });
    let cells = model.cells.iter().enumerate().map(|(at, cell)| {
        let types = texts.map_or(Vec::new(), |texts| texts.cells[at].types.clone());
        Json::Object(vec![
            ("cell", cell.name.as_str().into()),
            ("pins", cell.pins.into()),
            ("gates", model.gates.iter().filter(|gate| gate.cell == at).count().into()),
            ("types", types.iter().map(|word| shown_name(word)).collect::<Vec<_>>().into()),
        ])
    });
    vec![design(path, model), ("limits", limits.to_vec().into()), ("used", Json::List(cells.collect()))]
}

fn name(model: &Model, line: usize) -> Json {
    model.net_name(line).into()
}

pub fn names(model: &Model, lines: &[usize]) -> Json {
    lines.iter().map(|&line| model.net_name(line)).collect::<Vec<_>>().into()
}

fn six(model: &Model, line: usize) -> Members {
    let six = model.numbers.of(line);
    Number::ALL.iter().map(|&(number, word)| (word, number.of(six).into())).collect()
}

/// What privacy says of a line.
fn near(model: &Model, line: usize, privacy: &Privacy) -> Members {
    let upstream = privacy.upstream(line).map(|(to, registers, gates)| {
        Json::Object(vec![("of", name(model, to)), ("registers", registers.into()), ("gates", gates.into())])
    });
    vec![
        ("protected", privacy.protected.contains(&line).into()),
        ("carries", privacy.carries(line).into()),
        ("upstream", upstream.into()),
        ("ruled_out", privacy.ruled_out(line).into()),
    ]
}

/// One net: its names and numbers, what a pad on it would gain, what privacy says.
pub fn net(model: &Model, line: usize, effect: Option<&Effect>, privacy: &Privacy) -> Json {
    let of = model.name(line);
    let mut members: Members = vec![
        ("net", of.net.as_str().into()),
        ("line", line.into()),
        ("kind", of.kind.word().into()),
        ("output", model.is_output[line].into()),
    ];
    members.extend(six(model, line));
    let ranked = model.is_ranked(line);
    members.extend([
        ("hardest", ranked.then(|| ranking::hardest(model.numbers.of(line))).into()),
        ("gain", effect.map(|effect| effect.gain).into()),
        ("freed", effect.map(|effect| effect.freed).into()),
        ("feeds", model.feeds(line).map(|fed| model.net_name(fed)).into()),
        ("cell", of.cell.as_str().into()),
        ("instance", of.instance.as_str().into()),
        ("aliases", of.aliases.clone().into()),
        ("source", of.source.as_str().into()),
    ]);
    members.extend(near(model, line, privacy));
    Json::Object(members)
}

pub fn measure(of: Measure) -> Json {
    Json::Object(vec![
        ("never", of.never.into()),
        ("over", of.over.into()),
        ("largest_co", u64::from(of.largest).into()),
        ("sum_co", of.sum.into()),
    ])
}

/// On what values that can never be set rest.
pub fn nevers(model: &Model) -> Json {
    let found = never::find(model);
    let roots = found.roots.iter().filter(|(_, resting)| *resting > 0).map(|(root, resting)| {
        let (word, lines) = match root {
            Root::Constant(line) => ("constant", vec![*line]),
            Root::Open(line) => ("open", vec![*line]),
            Root::Loop(lines) => ("loop", lines.clone()),
            Root::OneWire(line) => ("one_wire", vec![*line]),
        };
        Json::Object(vec![("root", word.into()), ("nets", names(model, &lines)), ("resting", (*resting).into())])
    });
    Json::Object(vec![
        ("set", names(model, &found.lines)),
        ("roots", Json::List(roots.collect())),
        ("more_loops", found.more_loops.into()),
        ("seen", names(model, &found.unseen)),
        ("qualifies", model.analyser().qualifies(&model.lib, &model.net).ok().into()),
    ])
}

fn node(model: &Model, of: Node) -> Members {
    let to = match of {
        Node::Set { value, .. } => Json::Number(u64::from(value)),
        Node::See { .. } => "seen".into(),
    };
    vec![("net", name(model, of.line())), ("line", of.line().into()), ("to", to)]
}

fn through(model: &Model, reasons: &Reasons, of: Through) -> Json {
    let row = reasons.row(of);
    let pins = (0..model.cell_of(of.gate).pins).filter_map(|pin| {
        let values: Vec<usize> = (0..2).filter(|&value| row.pins.contains(&(pin, value == 1))).collect();
        (!values.is_empty())
            .then(|| Json::Object(vec![("pin", model.pin_name(of.gate, pin).into()), ("values", values.into())]))
    });
    Json::Object(vec![
        ("cell", model.cell_name(of.gate).into()),
        ("drives", name(model, model.gates[of.gate].line)),
        ("pin", of.pin.map(|pin| model.pin_name(of.gate, pin)).into()),
        ("row", row.octal.as_str().into()),
        ("pins", Json::List(pins.collect())),
        ("output", row.output.iter().map(|&value| usize::from(value)).collect::<Vec<_>>().into()),
    ])
}

/// One step of a reason.
pub fn step(model: &Model, reasons: &Reasons, of: &Step) -> Json {
    let mut members = node(model, of.node);
    members.push(("cost", of.cost.into()));
    let (way, by, blocked) = match &of.way {
        Way::Input => ("input", Json::Null, Vec::new()),
        Way::Output => ("output", Json::Null, Vec::new()),
        Way::Row(by) => ("row", through(model, reasons, *by), Vec::new()),
        Way::None(blocked) => ("none", Json::Null, blocked.clone()),
    };
    let terms = of.terms.iter().map(|&(term, cost)| {
        let mut members = node(model, term);
        members.push(("cost", cost.into()));
        Json::Object(members)
    });
    let blocked = blocked.into_iter().map(|(by, never)| {
        let never = never.map(|term| Json::Object(node(model, term)));
        Json::Object(vec![("by", through(model, reasons, by)), ("never", never.into())])
    });
    members.extend([
        ("way", way.into()),
        ("by", by),
        ("terms", Json::List(terms.collect())),
        ("depth", u64::from(of.depth).into()),
        ("blocked", Json::List(blocked.collect())),
    ]);
    Json::Object(members)
}

/// What one pad alone would do.
pub fn pad(model: &Model, of: &Effect, privacy: &Privacy) -> Members {
    let mut members: Members = vec![
        ("net", name(model, of.line)),
        ("line", of.line.into()),
        ("long", model.name(of.line).long().into()),
        ("gain", of.gain.into()),
        ("freed", of.freed.into()),
        ("after", measure(of.after)),
        ("easier", names(model, &of.easier.iter().map(|&(line, _)| line).collect::<Vec<_>>())),
        ("touches", names(model, &of.touched)),
        ("allowed", privacy.allows(of).into()),
    ];
    members.extend(near(model, of.line, privacy));
    members
}

/// One round of the advice.
pub fn round(model: &Model, before: Measure, of: &Round, privacy: &Privacy) -> Json {
    let proved = match of.proved {
        Ok(Some((line, largest))) => {
            Json::Object(vec![("net", name(model, line)), ("line", line.into()), ("largest_co", largest.into())])
        }
        Ok(None) => Json::Null,
        Err(refusal) => Json::Object(vec![("refusal", Json::Number(u64::from(refusal.number)))]),
    };
    Json::Object(vec![
        ("pad", of.pad.as_ref().map(|effect| Json::Object(pad(model, effect, privacy))).into()),
        ("before", measure(before)),
        ("allowed", of.allowed.into()),
        ("candidates", of.candidates.into()),
        ("proved", proved),
    ])
}
