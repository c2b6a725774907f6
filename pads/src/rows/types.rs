//! The cell types that a netlist may use: Yosys's own gates and those of the libraries given.

use crate::read::hub::{Design, Gate, Source};
use crate::read::liberty::{Library, Written};
use crate::rows::cells::{self, Cell};
use std::collections::HashMap;
use std::rc::Rc;

/// The outputs of a type, and its input pins.
pub struct Type {
    pub outputs: Vec<Rc<Cell>>,
    pub inputs: Vec<String>,
}

#[derive(Default)]
pub struct Types {
    pub libraries: Vec<Library>,
    /// Types that stay closed (`--box`), and whether a cell of each was met.
    pub boxes: Vec<(String, bool)>,
    found: HashMap<String, Option<Result<Rc<Type>, String>>>,
}

impl Types {
    pub fn new(libraries: Vec<Library>) -> Self {
        Types { libraries, ..Types::default() }
    }

    /// The type of this name: None where there is none, an error in words where it has no rows.
    pub fn find(&mut self, title: &str) -> Option<Result<Rc<Type>, String>> {
        if !self.found.contains_key(title) {
            let made = self.make(title);
            self.found.insert(title.to_string(), made);
        }
        self.found[title].clone()
    }

    fn make(&self, title: &str) -> Option<Result<Rc<Type>, String>> {
        if let Some(made) = cells::yosys(title) {
            return Some(made.map(|cell| Rc::new(Type { inputs: cell.pins.clone(), outputs: vec![Rc::new(cell)] })));
        }
        let written = self.written(title)?;
        Some(written.cells(title).map(|(outputs, inputs)| Rc::new(Type { outputs, inputs })))
    }

    /// Whether a type stays closed.
    pub fn is_box(&mut self, title: &str) -> bool {
        let found = self.boxes.iter_mut().find(|(other, _)| other == title);
        found.map(|(_, met)| *met = true).is_some()
    }

    /// Whether a pin of a type drives, where a library says it.
    pub fn drives(&self, title: &str, pin: &str) -> Option<bool> {
        self.written(title)?.drives(pin)
    }

    pub fn written(&self, title: &str) -> Option<&Written> {
        self.libraries.iter().find_map(|library| library.cells.get(title))
    }

    /// Why a type is not known.
    pub fn unknown(&self, title: &str) -> String {
        if ["$reduce_and", "$reduce_or"].contains(&title) {
            return format!(
                "has the type {title}: a wired AND or OR (wand, wor) has no cell and so no rows; write it as an AND or OR gate, \
                 or synthesise first, see 'scoap_pads --recipes'"
            );
        }
        if title.starts_with('$') {
            return format!("has the type {title}, which is no gate: synthesise first, see 'scoap_pads --recipes'");
        }
        let told: Vec<String> =
            self.libraries.iter().map(|library| format!("{}, {} cells", library.file, library.cells.len())).collect();
        if told.is_empty() {
            format!("has the type {title}, and no library is given: name it with -l FILE.lib, or keep it closed by --box {title}")
        } else {
            format!(
                "has the type {title}, which no library given has (libraries: {}): add one by -l, or keep it closed by --box \
                 {title}",
                told.join("; ")
            )
        }
    }
}

/// Cells of types that are not known, by type: the first of each, and how many.
#[derive(Default)]
pub struct Unknown {
    found: Vec<(String, String, usize, usize)>,
    places: HashMap<String, usize>,
}

impl Unknown {
    /// `who` is the cell, `line` where it stands, 0 where there is none.
    pub fn add(&mut self, title: &str, who: &str, line: usize) {
        if let Some(&at) = self.places.get(title) {
            self.found[at].3 += 1;
            return;
        }
        self.places.insert(title.to_string(), self.found.len());
        self.found.push((title.to_string(), who.to_string(), line, 1));
    }

    /// A type each; that no library is given is said once.
    pub fn tell(self, types: &Types, mut tell: impl FnMut(usize, String)) {
        let no_library = |title: &str| types.libraries.is_empty() && !title.starts_with('$');
        let missing: Vec<_> = self.found.iter().filter(|(title, ..)| no_library(title)).collect();
        for (title, who, line, count) in &self.found {
            if missing.len() > 1 && no_library(title) {
                continue;
            }
            let more = if *count > 1 { format!(" and {} more", count - 1) } else { String::new() };
            tell(*line, format!("{who}{more} {}", types.unknown(title)));
        }
        if let (true, Some((_, _, line, _))) = (missing.len() > 1, missing.first()) {
            let mut told: Vec<String> =
                missing.iter().take(20).map(|(title, _, _, count)| format!("{title} ({count})")).collect();
            if missing.len() > 20 {
                told.push(format!("and {} more types", missing.len() - 20));
            }
            let cells: usize = missing.iter().map(|(.., count)| count).sum();
            tell(
                *line,
                format!(
                    "{cells} cells have types that are not known, and no library is given: name it with -l FILE.lib, or keep a type closed by \
                     --box TYPE\n  {}",
                    told.join(", ")
                ),
            );
        }
    }
}

/// Where a cell stands.
#[derive(Clone, Default)]
pub struct Place {
    pub instance: String,
    pub source: String,
    pub line: usize,
}

/// The name of a register inside a cell, whose value an output reads beside the cell's pins: that of a clock gate.
pub fn inner(node: &str) -> String {
    format!("({node})")
}

/// What stands inside a cell gets a net where an output that is connected reads it.
fn add_inner(
    design: &mut Design,
    kind: &Type,
    place: &Place,
    pins: &mut HashMap<String, Source>,
    outputs: &mut HashMap<String, usize>,
) {
    for cell in kind.outputs.iter().filter(|cell| cell.output.starts_with('(')) {
        let mut readers = kind.outputs.iter().filter(|reader| reader.pins.contains(&cell.output));
        let Some(output) = readers.find_map(|reader| outputs.get(&reader.output).copied()) else { continue };
        let of = if place.instance.is_empty() { design.nets[output].name() } else { &place.instance };
        let name = format!("{of}.{}", cell.output.trim_matches(['(', ')']));
        let net = design.add_net();
        design.name_bytes += name.len();
        design.nets[net].names.push(name);
        pins.insert(cell.output.clone(), Source::Net(net));
        outputs.insert(cell.output.clone(), net);
    }
}

/// Adds the gates of a cell, one for each output that is connected. Pins without a connection are open; answers their
/// count.
pub fn add_gates(
    design: &mut Design,
    kind: &Type,
    place: &Place,
    pins: &HashMap<String, Source>,
    outputs: &HashMap<String, usize>,
) -> usize {
    let mut open = 0;
    let mut pins = pins.clone();
    let mut outputs = outputs.clone();
    add_inner(design, kind, place, &mut pins, &mut outputs);
    for cell in &kind.outputs {
        let Some(&output) = outputs.get(&cell.output) else {
            continue;
        };
        let read: Vec<Source> = cell.pins.iter().map(|pin| pins.get(pin).copied().unwrap_or(Source::Open)).collect();
        open += read.iter().filter(|&&source| source == Source::Open).count();
        design.gates.push(Gate {
            cell: cell.clone(),
            instance: place.instance.clone(),
            pins: read,
            output,
            source: place.source.clone(),
            line: place.line,
        });
    }
    open
}
