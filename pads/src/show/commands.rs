//! The commands: each answers what it prints and its exit status.

use crate::ask::archive::{self, refusal_told, MOST_LINES};
use crate::ask::model::{Model, Number};
use crate::ask::pads::{self, Effect, Measure, Privacy, Round, Touching};
use crate::ask::ranking::{self, Key};
use crate::ask::{never, why};
use crate::read::csv;
use crate::read::load::{self, Loaded};
use crate::read::names::{self, cut, LineKind};
use crate::show::args::{Args, Takes};
use crate::show::cost::{grouped, Cost};
use crate::show::json::Json;
use crate::show::messages::{printable, shown_name, Messages};
use crate::show::text::{self, Stop};
use crate::show::{forms, help, page};
use std::collections::HashMap;
use std::fmt::Write;
use std::path::Path;

/// What a command prints, and its exit status.
pub struct Done {
    pub text: String,
    pub status: u8,
    /// A file of the command line is standard output, and has it for itself.
    pub aside: bool,
    /// The members of what `--json` prints instead.
    own: Option<Vec<(&'static str, Json)>>,
}

impl Done {
    fn well(text: String) -> Result<Done, Stop> {
        Ok(Done { text, status: 0, aside: false, own: None })
    }

    /// The same as JSON, where it is asked for.
    fn or(self, args: &Args, own: impl FnOnce() -> Result<Vec<(&'static str, Json)>, Stop>) -> Result<Done, Stop> {
        if !args.has("--json") {
            return Ok(self);
        }
        Ok(Done { own: Some(own()?), ..self })
    }

    /// What is said of a file that was written.
    fn beside(file: Option<&str>, text: String) -> Result<Done, Stop> {
        Ok(Done { text, status: 0, aside: file.is_some_and(text::is_standard_output), own: None })
    }
}

/// Whether the command line asks for JSON.
fn wants_json(given: &[String]) -> bool {
    given.iter().take_while(|word| *word != "--").any(|word| word == "--json")
}

/// Runs the command line; messages are told by the caller.
pub fn run(given: &[String], messages: &mut Messages) -> Result<Done, Stop> {
    let mut done = answer(given, messages)?;
    if let Some(own) = done.own.take() {
        done.text = forms::whole(&given[0], done.status, messages, own);
    }
    Ok(done)
}

/// What is printed of a command that stopped, where it is asked for JSON.
pub fn stopped(given: &[String], stop: &Stop, messages: &Messages) -> Option<String> {
    let (status, words) = match stop {
        Stop::Refused => (1, None),
        Stop::Usage(words) => (2, Some(printable(words))),
    };
    let command = given.first().map_or("", String::as_str);
    wants_json(given).then(|| forms::whole(command, status, messages, vec![("error", words.into())]))
}

fn answer(given: &[String], messages: &mut Messages) -> Result<Done, Stop> {
    let Some((command, rest)) = given.split_first() else {
        return Err(Stop::Usage(format!("a command is missing\n{}", help::GENERAL)));
    };
    match command.as_str() {
        "--help" | "-h" | "help" => {
            return Done::well(rest.first().and_then(|of| help::of(of)).unwrap_or(help::GENERAL).to_string());
        }
        "--recipes" => return Done::well(help::RECIPES.to_string()),
        "--version" => return Done::well(concat!("scoap_pads ", env!("CARGO_PKG_VERSION"), "\n").to_string()),
        _ => {}
    }
    let Some(help) = help::of(command) else {
        return Err(Stop::Usage(format!("there is no command {command}; 'scoap_pads --help' lists them")));
    };
    if rest.iter().any(|word| word == "--help" || word == "-h") {
        return Done::well(help.to_string());
    }
    let many = usize::MAX;
    let parse = |values, flags, words| -> Result<Args, Stop> {
        let args = Args::parse(rest, &Takes { values, flags, words })?;
        match ["--csv", "-o"].into_iter().find(|name| args.value(name).is_some_and(text::is_standard_output)) {
            Some(name) if args.has("--json") => {
                Err(Stop::Usage(format!("--json and {name} both want standard output")))
            }
            _ => Ok(args),
        }
    };
    match command.as_str() {
        "import" => import(&parse(&["-o"], &[], (0, 0))?, messages),
        "check" => check(&parse(&[], &[], (0, 0))?, messages),
        "report" => {
            let values = &["--by", "--worst", "--min", "--csv", "--fail-above", "--protect", "--protect-depth"];
            report(&parse(values, &["--registers", "--inputs-too"], (0, 0))?, messages)
        }
        "why" => reason(&parse(&["--of", "--steps"], &[], (1, 1))?, messages),
        "pad" => pad(&parse(&["--protect", "--protect-depth"], &[], (1, many))?, messages),
        "page" => {
            let values = &["-o", "--pad", "--forbid", "--protect", "--protect-depth"];
            page_of(&parse(values, &["--inputs-too"], (0, 0))?, messages)
        }
        _ => {
            let values = &["--pads", "--forbid", "--protect", "--protect-depth", "--csv"];
            advise(&parse(values, &["--inputs-too"], (0, 0))?, messages)
        }
    }
}

fn import(args: &Args, messages: &mut Messages) -> Result<Done, Stop> {
    let folder = args.value("-o").ok_or_else(|| Stop::Usage("-o DIR is missing".to_string()))?;
    if text::is_standard_output(folder) {
        return Err(Stop::Usage(format!("-o {folder}: a folder is wanted, for three files")));
    }
    let Loaded { model, texts } = load::load(&args.source, messages)?;
    let folder = Path::new(folder);
    std::fs::create_dir_all(folder).map_err(|e| Stop::Usage(format!("{}: can't be made: {e}", folder.display())))?;
    let (lib, net, names) = match &texts {
        Some(texts) => (texts.lib.as_bytes(), texts.net.as_bytes(), &texts.names),
        None => (&model.lib[..], &model.net[..], &model.names),
    };
    let file = |name: &str| folder.join(name).display().to_string();
    text::write(&file("lib.txt"), lib)?;
    text::write(&file("net.txt"), net)?;
    text::write(&file("names.csv"), names::write(names).as_bytes())?;
    let done = Done::well(format!(
        "{}\nwritten: lib.txt, net.txt and names.csv in {}\n",
        load::summary(&args.source.path, &model),
        folder.display()
    ))?;
    done.or(args, || {
        let written = ["lib.txt", "net.txt", "names.csv"].map(|name| shown_name(&file(name))).to_vec();
        Ok(vec![forms::design(&args.source.path, &model), ("written", written.into())])
    })
}

fn check(args: &Args, messages: &mut Messages) -> Result<Done, Stop> {
    let Loaded { model, texts } = load::load(&args.source, messages)?;
    let mut text = load::summary(&args.source.path, &model) + "\n";
    let _ = writeln!(
        text,
        "analyser: of {} lines (linked: {})",
        grouped(model.analyser().lines as u64),
        archive::sizes_told()
    );
    text += "limits used:\n";
    for (used, most, what) in forms::limits(&model) {
        let _ = writeln!(text, "  {:>6} of {:>6} {what}", grouped(used as u64), grouped(most as u64));
    }
    if let Some(told) = texts.as_ref().and_then(|texts| texts.fewer.told()) {
        let _ = writeln!(text, "{told}");
    }
    text += "cells:\n";
    for (at, cell) in model.cells.iter().enumerate() {
        let gates = model.gates.iter().filter(|gate| gate.cell == at).count();
        let types = texts.as_ref().map_or(String::new(), |texts| texts.cells[at].types.join(", "));
        let line =
            format!("  {:<8} {}, {}  {types}", cell.name, load::many(cell.pins, "pin"), load::many(gates, "gate"));
        let _ = writeln!(text, "{}", line.trim_end());
    }
    Done::well(text)?.or(args, || Ok(forms::check(&args.source.path, &model, texts.as_ref())))
}

fn gain_told(effect: Option<&Effect>) -> String {
    match effect {
        None => "-".to_string(),
        Some(effect) if effect.freed > 0 => format!("{} +{}", grouped(effect.gain), effect.freed),
        Some(effect) => grouped(effect.gain),
    }
}

fn kind_told(kind: LineKind) -> &'static str {
    match kind {
        LineKind::Register => "reg",
        other => other.word(),
    }
}

/// Columns of a table, the first `left` of them and the last one aligned left.
fn table(rows: &[Vec<String>], left: &[usize]) -> String {
    let columns = rows.first().map_or(0, Vec::len);
    let width = |column: usize| rows.iter().map(|row| row[column].chars().count()).max().unwrap_or(0);
    let widths: Vec<usize> = (0..columns).map(width).collect();
    let mut text = String::new();
    for row in rows {
        let cells: Vec<String> = row
            .iter()
            .enumerate()
            .map(|(at, cell)| {
                let width = widths[at];
                if left.contains(&at) {
                    format!("{cell:<width$}")
                } else {
                    format!("{cell:>width$}")
                }
            })
            .collect();
        text += cells.join("  ").trim_end();
        text.push('\n');
    }
    text
}

const NAME_WIDTH: usize = 44;
const FED_WIDTH: usize = 28;

fn report(args: &Args, messages: &mut Messages) -> Result<Done, Stop> {
    let key = match args.value("--by") {
        None => Key::Fault,
        Some(word) => Key::read(word)
            .ok_or_else(|| Stop::Usage(format!("--by {word}: fault, cc0, cc1, sc0, sc1, co, so or gain")))?,
    };
    let worst = args.number("--worst", 20)?;
    let least = args.number("--min", 0)?;
    let bound = args.value("--fail-above").map(|_| args.number("--fail-above", 0)).transpose()?;
    let model = model_of(args, messages)?;
    let privacy = privacy_of(args, &model, messages)?;
    if bound.is_some() {
        judgeable(&args.source.path, &model, messages)?;
    }
    messages.print();
    let effects = pads::by_line_under(&model, &privacy).map_err(Stop::Usage)?;
    let ranked = ranking::ranked(&model, key, &effects);
    if let Some(file) = args.value("--csv") {
        text::write(file, csv_of(&model, &ranked, &effects, &privacy).as_bytes())?;
    }
    let mut text = load::summary(&args.source.path, &model) + "\n";
    text += &never::text(&model);
    let wanted = |line: &usize| {
        let hard = ranking::hardest(model.numbers.of(*line));
        let enough = hard.figure().is_none_or(|figure| figure as usize >= least);
        enough && (!args.has("--registers") || model.name(*line).kind == LineKind::Register)
    };
    let lines: Vec<usize> = ranked.iter().copied().filter(wanted).collect();
    text += &nets_told(&model, &lines[..worst.min(lines.len())], &effects);
    if lines.len() > worst {
        let _ =
            writeln!(text, "… {} more; --worst N shows more, --csv FILE all", grouped((lines.len() - worst) as u64));
    }
    text += &best_told(&model, &effects, &privacy);
    let broken = bound.map(|bound| above(&model, bound));
    let mut status = 0;
    if let (Some(lines), Some(bound)) = (&broken, bound) {
        if lines.is_empty() {
            let _ = writeln!(text, "no net is above {}", grouped(bound as u64));
        } else {
            status = 3;
            let told = cut_names(&model, &lines[..lines.len().min(3)], NAME_WIDTH);
            let _ = writeln!(
                text,
                "{} above {}: {}{}",
                load::many(lines.len(), "net"),
                grouped(bound as u64),
                told.join(", "),
                if lines.len() > 3 { ", …" } else { "" }
            );
        }
    }
    let done = Done { status, ..Done::beside(args.value("--csv"), text)? };
    done.or(args, || {
        let shown = &lines[..worst.min(lines.len())];
        let net = |&line: &usize| forms::net(&model, line, effects.get(&line), &privacy);
        let before = pads::measure(&model, &model.numbers);
        let all: Vec<Effect> = effects.values().cloned().collect();
        let best = pads::best(before, &all, &privacy);
        let above = broken
            .zip(bound)
            .map(|(lines, bound)| Json::Object(vec![("bound", bound.into()), ("nets", forms::names(&model, &lines))]));
        Ok(vec![
            forms::design(&args.source.path, &model),
            ("by", args.value("--by").unwrap_or("fault").into()),
            ("nets", Json::List(shown.iter().map(net).collect())),
            ("more", (lines.len() - shown.len()).into()),
            ("nevers", forms::nevers(&model)),
            ("measure", forms::measure(before)),
            ("best", best.map(|best| Json::Object(forms::pad(&model, best, &privacy))).into()),
            ("above", above.into()),
        ])
    })
}

/// The table of a report. What is shown of names is parted: no two rows read alike.
fn nets_told(model: &Model, lines: &[usize], effects: &HashMap<usize, Effect>) -> String {
    let head =
        ["hardest", "line", "net", "kind", "CC0", "CC1", "SC0", "SC1", "CO", "SO", "pad gain", "feeds", "source"];
    let mut rows = vec![head.map(str::to_string).to_vec()];
    let fed = |&line: &usize| {
        let asked = model.name(line).kind == LineKind::Gate && !model.is_output[line];
        asked.then(|| model.feeds(line)).flatten()
    };
    let fed: Vec<Option<usize>> = lines.iter().map(fed).collect();
    let mut fed_names = cut_names(model, &fed.iter().flatten().copied().collect::<Vec<_>>(), FED_WIDTH).into_iter();
    for ((&line, name), fed) in lines.iter().zip(cut_names(model, lines, NAME_WIDTH)).zip(fed) {
        let six = model.numbers.of(line);
        let mut row = vec![ranking::hardest(six).to_string(), line.to_string(), name];
        row.push(kind_told(model.name(line).kind).to_string());
        row.extend(six.iter().map(Cost::to_string));
        row.push(gain_told(effects.get(&line)));
        row.push(fed.and_then(|_| fed_names.next()).unwrap_or_default());
        row.push(cut(names::place_told(&model.name(line).source), FED_WIDTH));
        rows.push(row);
    }
    if rows[1..].iter().all(|row| row[12].is_empty()) {
        rows.iter_mut().for_each(|row| row.truncate(12));
    }
    table(&rows, &[2, 3, 11, 12])
}

/// The names of lines, cut so that no two read alike.
fn cut_names(model: &Model, lines: &[usize], most: usize) -> Vec<String> {
    let names: Vec<(usize, &str)> = lines.iter().map(|&line| (line, model.net_name(line))).collect();
    names::cut_all(&names, most)
}

/// A design of which no number can be above a bound is no design that passed: it is refused.
fn judgeable(path: &str, model: &Model, messages: &mut Messages) -> Result<(), Stop> {
    if model.gates.iter().all(|gate| gate.pins.is_empty()) {
        messages.error(path, "no gates: --fail-above has nothing to judge");
    } else if !model.lines().any(|line| model.is_ranked(line)) {
        messages.error(path, "no net that anything reads: --fail-above has nothing to judge");
    } else {
        return Ok(());
    }
    Err(Stop::Refused)
}

/// Ranked lines with CO or hardest fault above a bound, over or never.
fn above(model: &Model, bound: usize) -> Vec<usize> {
    let over = |cost: Cost| cost.figure().is_none_or(|figure| figure as usize > bound);
    model
        .lines()
        .filter(|&line| model.is_ranked(line))
        .filter(|&line| {
            let six = model.numbers.of(line);
            over(six[4]) || over(ranking::hardest(six))
        })
        .collect()
}

fn best_told(model: &Model, effects: &HashMap<usize, Effect>, privacy: &Privacy) -> String {
    let before = pads::measure(model, &model.numbers);
    let all: Vec<Effect> = effects.values().cloned().collect();
    match pads::best(before, &all, privacy) {
        None if privacy.protected.is_empty() => "best pad: none makes a net easier to see\n".to_string(),
        None => "best pad: none that is allowed makes a net easier to see\n".to_string(),
        Some(best) => {
            let mut text = format!("best pad: {}  {}\n", model.net_name(best.line), change_told(before, best.after));
            text += &long_told(model, best.line, "          ");
            for told in privacy.told(model, best.line) {
                let _ = writeln!(text, "          {told}");
            }
            text
        }
    }
}

/// What the netlist itself calls a net whose name was made: the one that a layout knows.
fn long_told(model: &Model, line: usize, indent: &str) -> String {
    model.name(line).long().map_or(String::new(), |long| format!("{indent}in the netlist: {long}\n"))
}

/// `largest CO 7,631 -> 3,374, sum 270,960 -> 117,508`.
fn change_told(before: Measure, after: Measure) -> String {
    let mut told = Vec::new();
    for (word, was, is) in [("never seen", before.never, after.never), ("over", before.over, after.over)] {
        if was != is {
            told.push(format!("{word} {was} -> {is}"));
        }
    }
    let pair = |was: u64, is: u64| format!("{} -> {}", grouped(was), grouped(is));
    told.push(format!("largest CO {}", pair(u64::from(before.largest), u64::from(after.largest))));
    told.push(format!("sum {}", pair(before.sum, after.sum)));
    told.join(", ")
}

fn csv_of(model: &Model, ranked: &[usize], effects: &HashMap<usize, Effect>, privacy: &Privacy) -> String {
    let head = [
        "net",
        "line",
        "kind",
        "cc0",
        "cc1",
        "sc0",
        "sc1",
        "co",
        "so",
        "hardest",
        "gain",
        "aliases",
        "protected",
        "upstream",
        "source",
    ];
    let mut text = csv::record(&head);
    let rest = model.lines().filter(|&line| !model.is_ranked(line));
    for line in ranked.iter().copied().chain(rest) {
        let six = model.numbers.of(line);
        let name = model.name(line);
        let mut fields = vec![name.net.clone(), line.to_string(), name.kind.word().to_string()];
        fields.extend(six.iter().map(|cost| cost.plain()));
        // Lines that are not ranked have neither.
        let ranked = model.is_ranked(line);
        fields.push(if ranked { ranking::hardest(six).plain() } else { String::new() });
        fields.push(effects.get(&line).map_or(String::new(), |effect| effect.gain.to_string()));
        fields.push(name.aliases.join(" "));
        fields.push(protected_told(privacy, line).to_string());
        fields.push(privacy.upstream_told(model, line).unwrap_or_default());
        fields.push(name.source.clone());
        let fields: Vec<&str> = fields.iter().map(String::as_str).collect();
        text += &csv::record(&fields);
    }
    text
}

fn protected_told(privacy: &Privacy, line: usize) -> &'static str {
    if privacy.protected.contains(&line) {
        "protected"
    } else if privacy.carries(line) {
        "carries"
    } else {
        ""
    }
}

/// The model of the command line's source.
fn model_of(args: &Args, messages: &mut Messages) -> Result<Model, Stop> {
    let Loaded { mut model, .. } = load::load(&args.source, messages)?;
    model.inputs_too = args.has("--inputs-too");
    Ok(model)
}

/// What the command line forbids and protects.
fn privacy_of(args: &Args, model: &Model, messages: &mut Messages) -> Result<Privacy, Stop> {
    let forbidden = nets_of(model, args.value("--forbid"), messages)?;
    let protected = nets_of(model, args.value("--protect"), messages)?;
    let depth = args.number("--protect-depth", pads::USUAL_DEPTH)?;
    if messages.errors() > 0 {
        return Err(Stop::Refused);
    }
    if !protected.is_empty() && !model.closed.is_empty() {
        messages.warn(
            "--protect counts what a box takes as not seen; what a box gives may carry a protected value, and nothing here \
             knows it: protect or forbid those nets too",
        );
    }
    Ok(Privacy::new(model, forbidden, protected, depth))
}

/// Of which numbers those shown are, where a netlist has ranges; a summary says the same.
fn low_told(model: &Model) -> &'static str {
    if model.ranges {
        "numbers at LOW of the ranges\n"
    } else {
        ""
    }
}

/// One net of the command line.
fn one_net(model: &Model, wanted: &str) -> Result<usize, Stop> {
    match names::find(&model.names, wanted).map_err(Stop::Usage)?.as_slice() {
        [line] => Ok(*line),
        lines => Err(Stop::Usage(format!("{wanted} means {} nets; one is wanted here", lines.len()))),
    }
}

fn reason(args: &Args, messages: &mut Messages) -> Result<Done, Stop> {
    let number = match args.value("--of") {
        None => None,
        Some(word) => {
            let number = Number::read(&word.to_ascii_lowercase());
            Some(number.ok_or_else(|| Stop::Usage(format!("--of {word}: cc0, cc1, sc0, sc1, co or so")))?)
        }
    };
    let steps = args.number("--steps", 4)?.clamp(1, 10_000);
    let Loaded { model, .. } = load::load(&args.source, messages)?;
    let line = one_net(&model, &args.words[0])?;
    let six = model.numbers.of(line);
    let number = number.unwrap_or_else(|| ranking::dearer(six));
    let name = model.name(line);
    let mut text = format!(
        "{} (line {line}, {}): CC0 {}, CC1 {}, SC0 {}, SC1 {}, CO {}, SO {}; {}:\n",
        name.net,
        name.kind.word(),
        six[0],
        six[1],
        six[2],
        six[3],
        six[4],
        six[5],
        number.word().to_ascii_uppercase()
    );
    if !name.aliases.is_empty() {
        let _ = writeln!(text, "also {}", name.aliases.join(", "));
    }
    if !name.source.is_empty() {
        let _ = writeln!(text, "at {}", name.source.replace('|', ", "));
    }
    text += low_told(&model);
    text += &why::text(&model, line, number, steps).map_err(Stop::Usage)?;
    Done::well(text)?.or(args, || {
        let mut reasons = why::Reasons::new(&model, number.sequential());
        let steps = why::steps(&mut reasons, why::Node::of(number, line), steps).map_err(Stop::Usage)?;
        let steps = steps.iter().map(|step| forms::step(&model, &reasons, step)).collect();
        Ok(vec![
            forms::design(&args.source.path, &model),
            ("net", forms::net(&model, line, None, &Privacy::default())),
            ("of", number.word().into()),
            ("steps", Json::List(steps)),
        ])
    })
}

/// The lines that a file of patterns means.
fn nets_of(model: &Model, file: Option<&str>, messages: &mut Messages) -> Result<Vec<usize>, Stop> {
    let Some(file) = file else { return Ok(Vec::new()) };
    let text = text::read(file, 1 << 20, messages)?;
    let mut lines = Vec::new();
    for (at, text) in text.lines().enumerate() {
        let wanted = text.split('#').next().unwrap_or("").trim();
        if wanted.is_empty() {
            continue;
        }
        match names::find(&model.names, wanted) {
            Ok(found) => lines.extend(found),
            Err(words) => messages.error_at(file, at + 1, text, words),
        }
        if messages.full() {
            break;
        }
    }
    lines.sort_unstable();
    lines.dedup();
    Ok(lines)
}

fn pad(args: &Args, messages: &mut Messages) -> Result<Done, Stop> {
    let model = model_of(args, messages)?;
    let mut lines: Vec<usize> = Vec::new();
    for wanted in &args.words {
        lines.extend(names::find(&model.names, wanted).map_err(Stop::Usage)?);
    }
    lines.sort_unstable();
    lines.dedup();
    let privacy = privacy_of(args, &model, messages)?;
    let (outputs, lines): (Vec<usize>, Vec<usize>) = lines.into_iter().partition(|&line| model.is_output[line]);
    for &line in &outputs {
        messages.note(format!("{} is an output already", model.net_name(line)));
    }
    messages.print();
    let after = pads::placed(&model, &lines).map_err(Stop::Usage)?.numbers;
    let measures = [pads::measure(&model, &model.numbers), pads::measure(&model, &after)];
    let told: Vec<&str> = lines.iter().map(|&line| model.net_name(line)).collect();
    // Of several nets also what each alone would do.
    let alone = pads::effects(&model, &lines, &privacy).map_err(Stop::Usage)?;
    let mut text = if alone.len() > 1 { alone_told(&model, &alone, &privacy) } else { String::new() };
    let _ = writeln!(
        text,
        "pads on {}: {}",
        if told.is_empty() { "nothing".to_string() } else { told.join(", ") },
        change_told(measures[0], measures[1])
    );
    text += low_told(&model);
    for &line in &lines {
        if let Some(long) = model.name(line).long() {
            let _ = writeln!(text, "{}: in the netlist {long}", model.net_name(line));
        }
        for told in privacy.told(&model, line) {
            let _ = writeln!(text, "{}: {told}", model.net_name(line));
        }
        if privacy.ruled_out(line) {
            let _ = writeln!(text, "{}: ruled out, no pad is advised here", model.net_name(line));
        }
    }
    let mut changed: Vec<usize> =
        model.lines().filter(|&line| pads::is_easier(model.numbers.of(line), after.of(line))).collect();
    let fall = |line: usize| pads::fall(model.numbers.of(line)[4], after.of(line)[4]);
    changed.sort_by_key(|&line| (std::cmp::Reverse(fall(line)), line));
    let _ = writeln!(text, "{} easier to see; CC and SC stay as they are", load::many(changed.len(), "net"));
    let mut rows = vec![["line", "net", "kind", "CO", "", "SO", "", ""].map(str::to_string).to_vec()];
    for (&line, name) in changed.iter().zip(cut_names(&model, &changed, NAME_WIDTH)) {
        let (was, is) = (model.numbers.of(line), after.of(line));
        rows.push(vec![
            line.to_string(),
            name,
            kind_told(model.name(line).kind).to_string(),
            was[4].to_string(),
            format!("-> {}", is[4]),
            was[5].to_string(),
            format!("-> {}", is[5]),
            protected_told(&privacy, line).to_string(),
        ]);
    }
    if !changed.is_empty() {
        text += &table(&rows, &[1, 2, 4, 6, 7]);
    }
    let touching = Touching::new(&model, &privacy).map_err(Stop::Usage)?;
    let touched = touching.by(&model, &lines, &after).map_err(Stop::Usage)?;
    text += &touched_told(&model, &touched, &changed);
    Done::well(text)?.or(args, || {
        let easier = changed.iter().map(|&line| {
            let (was, is) = (model.numbers.of(line), after.of(line));
            Json::Object(vec![
                ("net", model.net_name(line).into()),
                ("line", line.into()),
                ("kind", model.name(line).kind.word().into()),
                ("co", vec![was[4], is[4]].into()),
                ("so", vec![was[5], is[5]].into()),
                ("protected", privacy.protected.contains(&line).into()),
                ("carries", privacy.carries(line).into()),
            ])
        });
        Ok(vec![
            forms::design(&args.source.path, &model),
            ("pads", forms::names(&model, &lines)),
            ("outputs_already", forms::names(&model, &outputs)),
            ("before", forms::measure(measures[0])),
            ("after", forms::measure(measures[1])),
            ("easier", Json::List(easier.collect())),
            ("touches", forms::names(&model, &touched)),
            ("alone", Json::List(alone.iter().map(|pad| Json::Object(forms::pad(&model, pad, &privacy))).collect())),
        ])
    })
}

/// What each of these pads alone would do, the largest gain first.
fn alone_told(model: &Model, pads: &[Effect], privacy: &Privacy) -> String {
    let mut pads: Vec<&Effect> = pads.iter().collect();
    pads.sort_by_key(|pad| (std::cmp::Reverse(pad.rank()), pad.line));
    let lines: Vec<usize> = pads.iter().map(|pad| pad.line).collect();
    let head = ["line", "net", "kind", "pad gain", "never seen", "over", "largest CO", "sum", "easier", ""];
    let mut rows = vec![head.map(str::to_string).to_vec()];
    for (pad, name) in pads.iter().zip(cut_names(model, &lines, NAME_WIDTH)) {
        let mut told = Vec::new();
        if !pad.touched.is_empty() {
            told.push(format!("touches {}", load::many(pad.touched.len(), "protected net")));
        }
        if privacy.ruled_out(pad.line) {
            told.push("ruled out".to_string());
        }
        rows.push(vec![
            pad.line.to_string(),
            name,
            kind_told(model.name(pad.line).kind).to_string(),
            gain_told(Some(pad)),
            grouped(pad.after.never as u64),
            grouped(pad.after.over as u64),
            grouped(u64::from(pad.after.largest)),
            grouped(pad.after.sum),
            grouped(pad.easier.len() as u64),
            told.join(", "),
        ]);
    }
    format!("each alone:\n{}", table(&rows, &[1, 2, 9]))
}

/// The protected nets that pads touch; those that change by the numbers shown, and others.
fn touched_told(model: &Model, touched: &[usize], changed: &[usize]) -> String {
    let (shown, within): (Vec<usize>, Vec<usize>) = touched.iter().partition(|line| changed.contains(line));
    let mut text = String::new();
    if !shown.is_empty() {
        let _ = writeln!(text, "{} easier to see", load::many(shown.len(), "protected net"));
    }
    if !within.is_empty() {
        let names: Vec<&str> = within.iter().map(|&line| model.net_name(line)).collect();
        let what = load::many(within.len(), "protected net");
        let _ = writeln!(text, "{what} perhaps easier to see at other prices within the ranges: {}", names.join(", "));
    }
    text
}

fn advise(args: &Args, messages: &mut Messages) -> Result<Done, Stop> {
    let count = args.number("--pads", 1)?.clamp(1, MOST_LINES);
    let model = model_of(args, messages)?;
    let privacy = privacy_of(args, &model, messages)?;
    messages.print();
    let (rounds, effects) = pads::advise(&model, count, &privacy).map_err(Stop::Usage)?;
    if let Some(file) = args.value("--csv") {
        text::write(file, candidates_csv(&model, &effects, &privacy).as_bytes())?;
    }
    let mut text = load::summary(&args.source.path, &model) + "\n";
    let mut before = pads::measure(&model, &model.numbers);
    for (at, round) in rounds.iter().enumerate() {
        match &round.pad {
            Some(pad) => {
                text += &pad_told(&model, at + 1, before, pad, round, &privacy);
                before = pad.after;
            }
            None if privacy.forbidden.is_empty() && privacy.protected.is_empty() => text += "no pad helps further\n",
            None => text += "no pad that is allowed helps further\n",
        }
        text += "       proved adviser, among the same lines, by the largest CO alone: ";
        text += &match round.proved {
            Ok(Some((line, largest))) => format!("{}, largest CO {largest}\n", model.net_name(line)),
            Ok(None) => "none, no line is allowed\n".to_string(),
            Err(refusal) => format!("refuses, {} (refusal {})\n", refusal_told(refusal.number), refusal.number),
        };
    }
    text += &trouble_told(&model);
    Done::beside(args.value("--csv"), text)?.or(args, || {
        let mut before = pads::measure(&model, &model.numbers);
        let rounds = rounds.iter().map(|round| {
            let told = forms::round(&model, before, round, &privacy);
            before = round.pad.as_ref().map_or(before, |pad| pad.after);
            told
        });
        let rounds = Json::List(rounds.collect());
        let trouble = trouble(&model).map(|(line, number)| {
            let cost = number.of(model.numbers.of(line));
            let net = model.net_name(line).into();
            Json::Object(vec![
                ("net", net),
                ("line", line.into()),
                ("number", number.word().into()),
                ("cost", cost.into()),
            ])
        });
        Ok(vec![forms::design(&args.source.path, &model), ("rounds", rounds), ("trouble", trouble.into())])
    })
}

fn pad_told(model: &Model, at: usize, before: Measure, pad: &Effect, round: &Round, privacy: &Privacy) -> String {
    let mut text = format!("pad {at}: {}  {}\n", model.net_name(pad.line), change_told(before, pad.after));
    text += &long_told(model, pad.line, "       ");
    let easier = load::many(pad.easier.len(), "net");
    let _ =
        writeln!(text, "       {easier} easier to see; chosen among {} of {} lines", round.allowed, round.candidates);
    for told in privacy.told(model, pad.line) {
        let _ = writeln!(text, "       {told}");
    }
    text
}

fn page_of(args: &Args, messages: &mut Messages) -> Result<Done, Stop> {
    let file = args.value("-o").ok_or_else(|| Stop::Usage("-o FILE.html is missing".to_string()))?;
    let model = model_of(args, messages)?;
    let mut placed = Vec::new();
    for wanted in args.values("--pad") {
        placed.extend(names::find(&model.names, wanted).map_err(Stop::Usage)?);
    }
    placed.sort_unstable();
    placed.dedup();
    placed.retain(|&line| !model.is_output[line]);
    let privacy = privacy_of(args, &model, messages)?;
    let said = messages.text();
    messages.print();
    let page = page::page(&args.source.path, &model, &placed, &privacy, &said).map_err(Stop::Usage)?;
    text::write(file, page.as_bytes())?;
    let summary = load::summary(&args.source.path, &model);
    Done::beside(Some(file), format!("{summary}\nwritten: {file}, {} KB\n", page.len() / 1000))?
        .or(args, || Ok(vec![forms::design(&args.source.path, &model), ("written", vec![shown_name(file)].into())]))
}

/// The hardest net, where setting is its trouble.
fn trouble(model: &Model) -> Option<(usize, Number)> {
    let line = *ranking::ranked(model, Key::Fault, &HashMap::new()).first()?;
    let number = ranking::dearer(model.numbers.of(line));
    (number != Number::Co).then_some((line, number))
}

/// A pad does not help where setting is the trouble.
fn trouble_told(model: &Model) -> String {
    let Some((line, number)) = trouble(model) else { return String::new() };
    format!(
        "a pad changes CO and SO alone: the hardest net, {}, is hard to set ({} {}), and no pad helps there; a way to load \
         it does\n",
        model.net_name(line),
        number.word().to_ascii_uppercase(),
        number.of(model.numbers.of(line))
    )
}

fn candidates_csv(model: &Model, effects: &[Effect], privacy: &Privacy) -> String {
    let mut text =
        csv::record(&["net", "instance", "gain", "largest_co", "easier", "protected", "allowed", "upstream", "line"]);
    let mut effects: Vec<&Effect> = effects.iter().collect();
    effects.sort_by_key(|effect| (effect.after, effect.line));
    for effect in effects {
        let names = |lines: &[usize]| -> String {
            lines.iter().map(|&line| model.net_name(line)).collect::<Vec<_>>().join(" ")
        };
        let easier: Vec<usize> = effect.easier.iter().map(|&(line, _)| line).collect();
        let largest = match effect.after {
            Measure { never: 1.., .. } => Cost::Never,
            Measure { over: 1.., .. } => Cost::Over,
            Measure { largest, .. } => Cost::Figure(largest),
        };
        text += &csv::record(&[
            model.net_name(effect.line),
            &model.name(effect.line).instance,
            &effect.gain.to_string(),
            &largest.plain(),
            &names(&easier),
            &names(&effect.touched),
            if privacy.allows(effect) { "1" } else { "0" },
            &privacy.upstream_told(model, effect.line).unwrap_or_default(),
            &effect.line.to_string(),
        ]);
    }
    text
}
