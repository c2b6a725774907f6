//! Why lines can never be set: loops, constants and open lines on which the others rest.

use crate::ask::model::{Driver, Model};
use crate::read::names::{cut_all, LineKind};
use crate::show::cost::Cost;
use std::collections::HashMap;

/// On what values that can never be set rest.
#[derive(Clone, Debug, PartialEq, Eq)]
pub enum Root {
    /// A constant's other value, or a cell that never gives the value.
    Constant(usize),
    Open(usize),
    /// Lines of a loop that nothing outside can set.
    Loop(Vec<usize>),
    /// Each row asks 0 and 1 of one wire.
    OneWire(usize),
}

pub struct Nevers {
    /// Ranked lines with a value that can never be set.
    pub lines: Vec<usize>,
    /// The roots, each with how many of these lines rest on it.
    pub roots: Vec<(Root, usize)>,
    /// Loops that rest on another root.
    pub more_loops: usize,
    /// Ranked lines that can never be seen.
    pub unseen: Vec<usize>,
}

type Value = (usize, usize);

pub fn find(model: &Model) -> Nevers {
    let never = |line: usize, value: usize| model.numbers.of(line)[value] == Cost::Never;
    let mut values: Vec<Value> = Vec::new();
    for line in model.lines() {
        values.extend((0..2).filter(|&value| never(line, value)).map(|value| (line, value)));
    }
    let place: HashMap<Value, usize> = values.iter().enumerate().map(|(at, &value)| (value, at)).collect();
    let arrows: Vec<Vec<usize>> = values
        .iter()
        .map(|&(line, value)| {
            let mut arrows: Vec<usize> = Vec::new();
            if let Some(Driver::Gate(gate)) = model.driver[line] {
                for row in &model.cell_of(gate).control[0][value] {
                    for &(pin, at) in &row.pins {
                        let named = (model.gates[gate].pins[pin], usize::from(at));
                        arrows.extend(place.get(&named));
                    }
                }
            }
            arrows.sort_unstable();
            arrows.dedup();
            arrows
        })
        .collect();
    let (set_of, sets) = connected(&arrows);
    let mut roots = Vec::new();
    let mut more_loops = 0;
    for (at, set) in sets.iter().enumerate() {
        let leaves = set.iter().any(|&node| arrows[node].iter().any(|&next| set_of[next] != at));
        let cyclic = set.len() > 1 || arrows[set[0]].contains(&set[0]);
        if leaves {
            more_loops += usize::from(cyclic);
            continue;
        }
        let root = root_of(model, set.iter().map(|&node| values[node]).collect(), cyclic);
        roots.push((root, resting(model, &values, &arrows, set)));
    }
    roots.sort_by_key(|(_, count)| std::cmp::Reverse(*count));
    let ranked = |line: &usize| model.is_ranked(*line);
    Nevers {
        lines: model.lines().filter(ranked).filter(|&line| never(line, 0) || never(line, 1)).collect(),
        roots,
        more_loops,
        unseen: model.lines().filter(ranked).filter(|&line| model.numbers.of(line)[4] == Cost::Never).collect(),
    }
}

fn root_of(model: &Model, values: Vec<Value>, cyclic: bool) -> Root {
    let (line, value) = values[0];
    if cyclic {
        let mut lines: Vec<usize> = values.into_iter().map(|(line, _)| line).collect();
        lines.sort_unstable();
        lines.dedup();
        return Root::Loop(lines);
    }
    match model.driver[line] {
        Some(Driver::Gate(gate)) if model.cell_of(gate).control[0][value].is_empty() => Root::Constant(line),
        Some(Driver::Gate(_)) => Root::OneWire(line),
        _ => Root::Open(line),
    }
}

/// How many ranked lines have a value that leads to the set.
fn resting(model: &Model, values: &[Value], arrows: &[Vec<usize>], set: &[usize]) -> usize {
    let mut back: Vec<Vec<usize>> = vec![Vec::new(); values.len()];
    for (from, next) in arrows.iter().enumerate() {
        for &to in next {
            back[to].push(from);
        }
    }
    let mut seen = vec![false; values.len()];
    let mut front: Vec<usize> = set.to_vec();
    let mut lines: Vec<usize> = Vec::new();
    for &node in set {
        seen[node] = true;
    }
    while let Some(node) = front.pop() {
        lines.push(values[node].0);
        for &from in &back[node] {
            if !std::mem::replace(&mut seen[from], true) {
                front.push(from);
            }
        }
    }
    lines.sort_unstable();
    lines.dedup();
    lines.into_iter().filter(|&line| model.is_ranked(line)).count()
}

/// The strongly connected sets: the set of each node, and the nodes of each set.
fn connected(arrows: &[Vec<usize>]) -> (Vec<usize>, Vec<Vec<usize>>) {
    let n = arrows.len();
    let mut index = vec![usize::MAX; n];
    let mut low = vec![0; n];
    let mut on_stack = vec![false; n];
    let mut stack = Vec::new();
    let mut set_of = vec![usize::MAX; n];
    let mut sets: Vec<Vec<usize>> = Vec::new();
    let mut count = 0;
    for root in 0..n {
        if index[root] != usize::MAX {
            continue;
        }
        let mut path = vec![(root, 0)];
        while let Some(&mut (node, ref mut at)) = path.last_mut() {
            if *at == 0 && index[node] == usize::MAX {
                index[node] = count;
                low[node] = count;
                count += 1;
                stack.push(node);
                on_stack[node] = true;
            }
            if let Some(&next) = arrows[node].get(*at) {
                *at += 1;
                if index[next] == usize::MAX {
                    path.push((next, 0));
                } else if on_stack[next] {
                    low[node] = low[node].min(index[next]);
                }
                continue;
            }
            path.pop();
            if let Some(&(above, _)) = path.last() {
                low[above] = low[above].min(low[node]);
            }
            if low[node] == index[node] {
                let mut set = Vec::new();
                loop {
                    let member = stack.pop().expect("a node of the set");
                    on_stack[member] = false;
                    set_of[member] = sets.len();
                    set.push(member);
                    if member == node {
                        break;
                    }
                }
                set.sort_unstable();
                sets.push(set);
            }
        }
    }
    (set_of, sets)
}

fn some(model: &Model, lines: &[usize], most: usize) -> String {
    // Registers are what an engineer knows.
    let mut lines = lines.to_vec();
    lines.sort_by_key(|&line| model.name(line).kind != LineKind::Register);
    let names: Vec<(usize, &str)> = lines.iter().take(most).map(|&line| (line, model.net_name(line))).collect();
    let mut told = cut_all(&names, 40);
    if lines.len() > most {
        told.push("…".to_string());
    }
    told.join(", ")
}

fn lines_told(count: usize) -> String {
    format!("{count} {}", if count == 1 { "line" } else { "lines" })
}

/// The nevers in a few lines of text; nothing where there are none.
pub fn text(model: &Model) -> String {
    let nevers = find(model);
    let mut text = String::new();
    if !nevers.lines.is_empty() {
        text += &format!("Never set to 0 or to 1: {}\n", lines_told(nevers.lines.len()));
        let mut constants = (Vec::new(), 0);
        let mut told = 0;
        for (root, count) in nevers.roots.iter().filter(|(_, count)| *count > 0) {
            let words = match root {
                Root::Constant(line) => {
                    constants.0.push(*line);
                    constants.1 += count;
                    continue;
                }
                Root::Open(line) => format!("on {}, which is open: nothing drives it", model.net_name(*line)),
                Root::OneWire(line) => {
                    format!("on {}, whose gate would need 0 and 1 of one wire", model.net_name(*line))
                }
                Root::Loop(lines) => {
                    format!("on a loop that nothing outside can set: {}", some(model, lines, 4))
                }
            };
            if told < 5 {
                text += &format!("  {} rest {words}\n", lines_told(*count));
            }
            told += 1;
        }
        if told > 5 {
            text += &format!("  and {} more such roots\n", told - 5);
        }
        if constants.1 > 0 {
            text += &format!("  {} rest on constants: {}\n", lines_told(constants.1), some(model, &constants.0, 4));
        }
        if nevers.more_loops > 0 {
            text += &format!("  {} more loops stand behind one of these\n", nevers.more_loops);
        }
    }
    if !nevers.unseen.is_empty() {
        text += &format!(
            "Never seen: {}: {} ('why NET --of co' says what blocks it)\n",
            lines_told(nevers.unseen.len()),
            some(model, &nevers.unseen, 4)
        );
    }
    if !text.is_empty() {
        text += match model.analyser().qualifies(&model.lib, &model.net) {
            Ok(1) => "It is proved of this netlist: no setting of the inputs gives a line a value that is never.\n",
            Ok(2) => "It is proved of this netlist: never stands exactly where no setting of the inputs gives the value.\n",
            _ => "Never says that there is no plan; of the chip itself nothing is proved here (registers, loops or open lines).\n",
        };
    }
    text
}

#[cfg(test)]
mod tests {
    use super::*;
    use crate::ask::archive;
    use crate::rows::cells::{yosys, Kind};

    fn model(net: &str) -> Model {
        let mut lib = String::new();
        for (name, n, bits) in [("AND2", 2, "0001"), ("XOR2", 2, "0110"), ("TIE0", 0, "0"), ("NOT", 1, "10")] {
            lib += &archive::cell(name, n, bits).unwrap();
        }
        let Kind::Register(register) = yosys("$_DFF_P_").unwrap().unwrap().kind else { panic!() };
        lib += &register.entry().text("DFF");
        Model::new("t", lib.into_bytes(), net.as_bytes().to_vec(), Vec::new()).unwrap()
    }

    #[test]
    fn a_toggling_bit_is_a_loop() {
        // 3 toggles with 1; 5 toggles with 3; 6 follows 5.
        let net = "input,1\ninput,2\ngate,DFF,3,4,2\ngate,XOR2,4,1,3\ngate,DFF,5,7,2\ngate,XOR2,7,3,5\ngate,NOT,6,5\noutput,6\n";
        let nevers = find(&model(net));
        assert_eq!(nevers.lines, [3, 4, 5, 6, 7]);
        assert_eq!(nevers.roots, [(Root::Loop(vec![3, 4]), 5)]);
        assert_eq!(nevers.more_loops, 1);
        let text = text(&model(net));
        assert!(text.contains("5 lines rest on a loop that nothing outside can set: 3, 4"), "{text}");
    }

    #[test]
    fn constants_open_lines_and_one_wire() {
        let net = "input,1\ngate,TIE0,2\ngate,AND2,3,1,2\ngate,XOR2,4,1,1\nopen,5\ngate,NOT,6,5\noutput,3\noutput,4\noutput,6\n";
        let mut roots = find(&model(net)).roots;
        roots.sort_by_key(|(root, _)| format!("{root:?}"));
        assert!(roots.contains(&(Root::Constant(2), 1)));
        assert!(roots.contains(&(Root::OneWire(4), 1)));
        assert!(roots.contains(&(Root::Open(5), 2)), "{roots:?}");
    }

    #[test]
    fn none() {
        assert_eq!(text(&model("input,1\ngate,NOT,2,1\noutput,2\n")), "");
    }

    #[test]
    fn unseen() {
        let net = "input,1\ninput,2\ngate,AND2,3,1,2\ngate,NOT,4,1\noutput,4\n";
        assert_eq!(find(&model(net)).unseen, [2]);
    }
}
