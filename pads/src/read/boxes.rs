//! `--box TYPE`: cells that stay closed, a memory or a converter. What a box gives becomes an input, what it takes an
//! output.

use crate::read::hub::{Design, Lines, Source};
use crate::read::load::many;
use crate::show::messages::Messages;
use std::collections::BTreeMap;

/// A cell of such a type.
#[derive(Clone, Debug, Default)]
pub struct Boxed {
    pub title: String,
    pub instance: String,
    /// Each pin with what it is connected to, and whether it drives, where that is known.
    pub pins: Vec<(String, Source, Option<bool>)>,
    pub line: usize,
}

/// Puts the pins of all boxes among inputs and outputs. Where no library and no netlist says a pin's direction, it drives a
/// net that nothing else drives.
pub fn open(design: &mut Design, lines: &Lines, messages: &mut Messages) {
    if design.boxes.is_empty() {
        return;
    }
    let mut driven: Vec<bool> = vec![false; design.nets.len()];
    let gates = design.gates.iter().map(|gate| gate.output);
    let wires = design.wires.iter().map(|&(net, ..)| net);
    for net in gates.chain(wires).chain(design.inputs.iter().copied()).chain(design.inouts.iter().copied()) {
        driven[net] = true;
    }
    let boxes = std::mem::take(&mut design.boxes);
    // What is known first, so that it counts for what is not.
    let mut given: BTreeMap<usize, usize> = BTreeMap::new();
    for (at, of) in boxes.iter().enumerate() {
        for (_, source, drives) in &of.pins {
            if let (Source::Net(net), Some(true)) = (source, drives) {
                driven[*net] = true;
                given.insert(*net, at);
                design.inputs.push(*net);
            }
        }
    }
    let mut told: BTreeMap<&str, [usize; 3]> = BTreeMap::new();
    let own = design.outputs.len();
    for (at, of) in boxes.iter().enumerate() {
        let counts = told.entry(&of.title).or_default();
        counts[0] += 1;
        let who = if of.instance.is_empty() { &of.title } else { &of.instance };
        for (pin, source, drives) in &of.pins {
            let Source::Net(net) = *source else { continue };
            if *drives == Some(true) {
                counts[1] += 1;
                continue;
            }
            if drives.is_none() && !driven[net] {
                driven[net] = true;
                given.insert(net, at);
                design.inputs.push(net);
                counts[1] += 1;
                continue;
            }
            if let Some(&other) = given.get(&net).filter(|&&other| drives.is_none() && other != at) {
                let words = format!(
                    "{who}: whether pin {pin} drives {} is not known, and {} has it too: give the boxes' pins a direction \
                     (a Liberty library by -l, or port_directions)",
                    design.nets[net].name(),
                    boxes[other].title
                );
                lines.error(messages, of.line, words);
                continue;
            }
            counts[2] += 1;
            design.outputs.push((format!("{who}.{pin}"), Source::Net(net)));
        }
    }
    design.taken = own..design.outputs.len();
    for (title, [cells, gives, takes]) in told {
        design.closed.push(title.to_string());
        messages.note(format!(
            "--box {title}: {} closed; {} became inputs and {} outputs. What a box takes counts as seen there, and what it \
             gives as set there, at 1 or as --price FILE has it",
            many(cells, "cell"),
            many(gives, "pin"),
            many(takes, "pin")
        ));
    }
}
