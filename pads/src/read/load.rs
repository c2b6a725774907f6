//! A SOURCE of the command line: a netlist with its libraries, or a folder.

use crate::ask::archive::refusal_told;
use crate::ask::model::Model;
use crate::read::hub::{Design, Lines};
use crate::read::names::{self, LineKind};
use crate::read::{bench, blif, blocks, genlib, liberty, native, prices, structural, verilog, yosys};
use crate::rows::types::Types;
use crate::rows::writer::{self, Texts};
use crate::show::cost::grouped;
use crate::show::messages::{shown_name, Messages};
use crate::show::text::{self, Stop};
use std::path::Path;

/// What the command line says of a source.
#[derive(Clone, Debug, Default)]
pub struct Source {
    pub path: String,
    pub libraries: Vec<String>,
    pub format: Option<String>,
    pub top: Option<String>,
    pub clock: Option<String>,
    pub open: bool,
    /// Types of cells that stay closed.
    pub boxes: Vec<String>,
    /// The file with prices of inputs.
    pub price: Option<String>,
}

pub struct Loaded {
    pub model: Model,
    /// Of a netlist that was imported.
    pub texts: Option<Texts>,
}

/// Reads a source; every error is in the messages.
pub fn load(source: &Source, messages: &mut Messages) -> Result<Loaded, Stop> {
    if Path::new(&source.path).is_dir() {
        if source.price.is_some() || !source.boxes.is_empty() {
            messages.warn("--price and --box are not used: a folder has its ranges and its inputs in net.txt");
        }
        let model = native::read(&source.path, messages)?;
        return Ok(Loaded { model, texts: None });
    }
    let mut design = read(source, messages)?;
    if messages.errors() > 0 {
        return Err(Stop::Refused);
    }
    let mut texts = writer::write(&mut design, messages)?;
    names::shorten(&mut texts.names, &texts.net);
    if let Some(file) = &source.price {
        prices::put(file, &mut texts, messages)?;
    }
    let file = source.path.rsplit('/').next().unwrap_or("");
    let stem = file.rsplit_once('.').map_or(file, |(stem, _)| stem);
    let title = if design.name.is_empty() { stem.to_string() } else { design.name.clone() };
    let bytes = |text: &String| text.clone().into_bytes();
    match Model::new(&title, bytes(&texts.lib), bytes(&texts.net), texts.names.clone()) {
        Ok(mut model) => {
            model.block = design.block;
            model.closed = design.closed.iter().map(|title| shown_name(title)).collect();
            model.taken = texts.taken.clone();
            tell(&model, messages);
            Ok(Loaded { model, texts: Some(texts) })
        }
        Err(refusal) => {
            let said = refusal_told(refusal.number);
            let words = format!(
                "internal error: the analyser refuses what was written: {said} (refusal {}, line {})",
                refusal.number, refusal.line
            );
            messages.error(&source.path, words);
            Err(Stop::Refused)
        }
    }
}

/// The netlist of a source, before it is written.
pub fn read(source: &Source, messages: &mut Messages) -> Result<Design, Stop> {
    let path = source.path.as_str();
    let ending = path.rsplit_once('.').map_or("", |(_, ending)| ending).to_ascii_lowercase();
    let format = source.format.as_deref().unwrap_or(&ending);
    let mut libraries = Vec::new();
    for file in &source.libraries {
        let text = text::read(file, liberty::MOST_BYTES, messages)?;
        let genlib = file.ends_with(".genlib") || genlib::is_one(&text);
        libraries.push(if genlib { genlib::read } else { liberty::read }(file, &text, messages));
    }
    if messages.errors() > 0 {
        return Err(Stop::Refused);
    }
    let mut types = Types::new(libraries);
    types.boxes = source.boxes.iter().map(|title| (title.clone(), false)).collect();
    let wanted = blif::Wanted { top: source.top.as_deref(), clock: source.clock.as_deref(), allow_open: source.open };
    let by_json = yosys::Wanted { top: source.top.as_deref(), allow_open: source.open };
    if source.top.is_some() && !["json", "blif", "v", "sv"].contains(&format) {
        messages.warn(format!("--top is not used: a .{format} file has one block"));
    }
    let design = match format {
        "json" => {
            let text = text::read(path, blocks::MOST_BYTES, messages)?;
            yosys::read(path, &text, &by_json, &mut types, messages)
        }
        "blif" => {
            let text = text::read(path, blocks::MOST_BYTES, messages)?;
            Ok(blif::read(path, &text, &wanted, &mut types, messages))
        }
        "bench" => {
            let text = text::read(path, blocks::MOST_BYTES, messages)?;
            Ok(bench::read(path, &text, &wanted, messages))
        }
        "v" | "sv" => by_verilog(source, &mut types, messages),
        _ => Err(Stop::Usage(format!(
            "{path}: is neither a folder nor a netlist by its ending (.json, .blif, .bench, .v); --format says which it is"
        ))),
    };
    for (title, _) in types.boxes.iter().filter(|(_, met)| !met) {
        messages.warn(format!("--box {title} is not used: no cell has this type"));
    }
    design
}

/// Structural Verilog is read here, the rest by Yosys where it is installed.
fn by_verilog(source: &Source, types: &mut Types, messages: &mut Messages) -> Result<Design, Stop> {
    let path = source.path.as_str();
    let text = text::read(path, blocks::MOST_BYTES, messages)?;
    let wanted = structural::Wanted { top: source.top.as_deref(), allow_open: source.open };
    let faults = match structural::read(path, &text, &wanted, types, messages) {
        structural::Answer::Read(design) => return Ok(*design),
        structural::Answer::Refused => return Err(Stop::Refused),
        structural::Answer::Beyond(faults) => faults,
    };
    let first = faults.iter().find(|fault| fault.beyond).map(|fault| (fault.line, fault.words.clone()));
    let (line, words) = first.unwrap_or_default();
    if verilog::is_there() && text.len() <= verilog::MOST_BYTES {
        messages.note(format!("Yosys reads {path}, since line {line} is more than a netlist: {words}"));
        drop(text);
        let text = verilog::to_json(path, &source.libraries, source.top.as_deref(), messages)?;
        let wanted = yosys::Wanted { top: source.top.as_deref(), allow_open: source.open };
        return yosys::read(path, &text, &wanted, types, messages);
    }
    let lines = Lines { file: path, text: &text };
    for fault in faults {
        let more = if fault.beyond { format!("{}; {}", fault.words, verilog::NEEDED) } else { fault.words };
        lines.error(messages, fault.line, more);
    }
    Err(Stop::Refused)
}

/// What the user should know of lines.
fn tell(model: &Model, messages: &mut Messages) {
    let unread = |kind: LineKind| -> Vec<&str> {
        model
            .names
            .iter()
            .filter(|name| name.kind == kind && !model.is_read(name.line))
            .map(|name| name.net.as_str())
            .collect()
    };
    let some = |nets: &[&str]| {
        let mut told = nets.iter().take(5).copied().collect::<Vec<_>>().join(", ");
        if nets.len() > 5 {
            told += ", …";
        }
        told
    };
    for (kind, what) in [(LineKind::Gate, "gates"), (LineKind::Register, "registers")] {
        let nets = unread(kind);
        if !nets.is_empty() {
            messages.warn(format!("{} {what} that nothing reads: {}", nets.len(), some(&nets)));
        }
    }
    let inputs = unread(LineKind::Input);
    if !inputs.is_empty() {
        messages.note(format!("{} inputs that nothing reads: {}", inputs.len(), some(&inputs)));
    }
    if model.block {
        messages.note(
            "this is a block: its pins count as the chip's pins. In the chip numbers are as high or higher (lower only \
             where the chip ties two of these pins together), so a threshold set for the chip leaves too few pads here",
        );
    }
}

/// `1 line`, `1,000 lines`.
pub fn many(count: usize, word: &str) -> String {
    format!("{} {word}{}", grouped(count as u64), if count == 1 { "" } else { "s" })
}

/// `chip.json: decim, 508 lines (7 inputs, 74 registers, 426 gates, 1 constant), 10 outputs, 16 cells`.
pub fn summary(path: &str, model: &Model) -> String {
    let mut kinds = Vec::new();
    for (kind, word) in LineKind::ALL {
        let count = model.names.iter().filter(|name| name.kind == kind).count();
        if count > 0 {
            kinds.push(if kind == LineKind::Open { format!("{count} open") } else { many(count, word) });
        }
    }
    let outputs = model.lines().filter(|&line| model.is_output[line]).count();
    format!(
        "{}: {}, {} ({}), {}, {}{}{}",
        shown_name(path),
        model.title,
        many(model.names.len(), "line"),
        kinds.join(", "),
        many(outputs, "output"),
        many(model.cells.len(), "cell"),
        if model.closed.is_empty() { String::new() } else { format!("; closed: {}", model.closed.join(", ")) },
        if model.ranges { "; numbers at LOW of the ranges" } else { "" }
    )
}
