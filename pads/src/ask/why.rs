//! The reason for a number, one step at a time: the gate, the row decoded into pins, and the terms that the number is the
//! sum of. For setting, the row is the one of the proved plan; where that text is too long, and for observing, the first
//! row in library order whose terms and depth give the number, taken so that no step goes back to a node above it.

use crate::ask::model::{Driver, Model, Number, Row};
use crate::show::cost::Cost;
use std::collections::HashMap;

/// What a plan does with a line: set it to a value, or see it.
#[derive(Clone, Copy, Debug, PartialEq, Eq, Hash, PartialOrd, Ord)]
pub enum Node {
    Set { line: usize, value: bool },
    See { line: usize },
}

impl Node {
    pub fn line(self) -> usize {
        match self {
            Node::Set { line, .. } | Node::See { line } => line,
        }
    }

    pub fn of(number: Number, line: usize) -> Node {
        match number {
            Number::Cc0 | Number::Sc0 => Node::Set { line, value: false },
            Number::Cc1 | Number::Sc1 => Node::Set { line, value: true },
            Number::Co | Number::So => Node::See { line },
        }
    }

    pub fn told(self, model: &Model) -> String {
        match self {
            Node::Set { line, value } => format!("{} at {}", model.net_name(line), u8::from(value)),
            Node::See { line } => format!("{} seen", model.net_name(line)),
        }
    }
}

/// A row of a gate's cell; `pin` where the pin is seen through it.
#[derive(Clone, Copy, Debug, PartialEq, Eq)]
pub struct Through {
    pub gate: usize,
    pub pin: Option<usize>,
    pub row: usize,
}

#[derive(Clone, Debug, PartialEq, Eq)]
pub enum Way {
    /// An input is set.
    Input,
    /// An output is seen.
    Output,
    Row(Through),
    /// There is none: each row with the first of its terms that is never, or with none where the row asks 0 and 1 of one
    /// wire.
    None(Vec<(Through, Option<Node>)>),
}

#[derive(Clone, Debug)]
pub struct Step {
    pub node: Node,
    pub cost: Cost,
    pub way: Way,
    /// Dearest first.
    pub terms: Vec<(Node, Cost)>,
    pub depth: u32,
}

/// The reasons in one kind of terms.
pub struct Reasons<'m> {
    model: &'m Model,
    sequential: bool,
    /// Rows of the proved plans, by line and value.
    planned: HashMap<(usize, bool), Option<String>>,
    chosen: HashMap<Node, Through>,
}

impl<'m> Reasons<'m> {
    pub fn new(model: &'m Model, sequential: bool) -> Self {
        let mut reasons = Reasons { model, sequential, planned: HashMap::new(), chosen: HashMap::new() };
        reasons.choose_all();
        reasons
    }

    pub fn cost(&self, node: Node) -> Cost {
        let six = self.model.numbers.of(node.line());
        let number = match (node, self.sequential) {
            (Node::Set { value: false, .. }, false) => Number::Cc0,
            (Node::Set { value: true, .. }, false) => Number::Cc1,
            (Node::Set { value: false, .. }, true) => Number::Sc0,
            (Node::Set { value: true, .. }, true) => Number::Sc1,
            (Node::See { .. }, false) => Number::Co,
            (Node::See { .. }, true) => Number::So,
        };
        number.of(six)
    }

    pub fn row(&self, through: Through) -> &'m Row {
        let cell = self.model.cell_of(through.gate);
        let at = usize::from(self.sequential);
        match through.pin {
            Some(pin) => &cell.observe[at][pin][through.row],
            None => cell.control[at].iter().flatten().nth(through.row).expect("a row"),
        }
    }

    /// All rows that set a gate's output to a value, numbered through both groups.
    fn setting(&self, gate: usize, value: bool) -> Vec<Through> {
        let groups = &self.model.cell_of(gate).control[usize::from(self.sequential)];
        let first = if value { groups[0].len() } else { 0 };
        let count = groups[usize::from(value)].len();
        (first..first + count).map(|row| Through { gate, pin: None, row }).collect()
    }

    /// All ways by which a line is seen, in library order.
    fn seeing(&self, line: usize) -> Vec<Through> {
        let mut ways = Vec::new();
        for &(gate, pin) in &self.model.readers[line] {
            let count = self.model.cell_of(gate).observe[usize::from(self.sequential)][pin].len();
            ways.extend((0..count).map(|row| Through { gate, pin: Some(pin), row }));
        }
        ways
    }

    fn ways(&self, node: Node) -> Vec<Through> {
        match node {
            Node::Set { line, value } => match self.model.driver[line] {
                Some(Driver::Gate(gate)) => self.setting(gate, value),
                _ => Vec::new(),
            },
            Node::See { line } => self.seeing(line),
        }
    }

    /// What a row asks for; None where it needs 0 and 1 of one wire (K7).
    fn terms(&self, through: Through) -> Option<Vec<Node>> {
        let gate = &self.model.gates[through.gate];
        let row = self.row(through);
        let mut terms: Vec<Node> = Vec::new();
        let one_wire = through.pin.is_none() && self.model.cell_of(through.gate).one_wire;
        for &(pin, value) in &row.pins {
            let line = gate.pins[pin];
            let term = Node::Set { line, value };
            if one_wire && terms.contains(&Node::Set { line, value: !value }) {
                return None;
            }
            if !(one_wire && terms.contains(&term)) {
                terms.push(term);
            }
        }
        for &value in &row.output {
            terms.push(Node::Set { line: gate.line, value });
        }
        if through.pin.is_some() {
            terms.push(Node::See { line: gate.line });
        }
        Some(terms)
    }

    fn sum(&self, through: Through, terms: &[Node]) -> Cost {
        let depth = Cost::Figure(self.row(through).depth);
        terms.iter().fold(depth, |sum, &term| sum.and(self.cost(term)))
    }

    fn is_leaf(&self, node: Node) -> bool {
        match node {
            Node::Set { line, .. } => self.model.driver[line] == Some(Driver::Input),
            Node::See { line } => self.model.is_output[line],
        }
    }

    /// For each node that has a number, a row that gives it and names only nodes that were chosen before.
    fn choose_all(&mut self) {
        let lines: Vec<usize> = self.model.lines().collect();
        let mut open: Vec<Node> = Vec::new();
        for &line in &lines {
            open.push(Node::Set { line, value: false });
            open.push(Node::Set { line, value: true });
        }
        let seen = lines.iter().map(|&line| Node::See { line });
        for mut open in [open, seen.collect()] {
            open.retain(|&node| !self.is_leaf(node) && self.cost(node) != Cost::Never);
            loop {
                let before = open.len();
                open.retain(|&node| match self.choice(node) {
                    Some(through) => {
                        self.chosen.insert(node, through);
                        false
                    }
                    None => true,
                });
                if open.len() == before {
                    break;
                }
            }
        }
    }

    fn choice(&self, node: Node) -> Option<Through> {
        let known = |&term: &Node| self.is_leaf(term) || self.chosen.contains_key(&term);
        self.ways(node).into_iter().find(|&through| {
            self.terms(through)
                .is_some_and(|terms| self.sum(through, &terms) == self.cost(node) && terms.iter().all(known))
        })
    }

    /// The row of the proved plan, if its text has room.
    fn planned(&mut self, line: usize, value: bool) -> Option<String> {
        if let Some(row) = self.planned.get(&(line, value)) {
            return row.clone();
        }
        let kind = u8::from(self.sequential);
        match self.model.analyser().plan(&self.model.lib, &self.model.net, line, u8::from(value), kind) {
            Ok(text) => {
                // One plan has the rows of all its nodes.
                for node in text.lines() {
                    let fields: Vec<&str> = node.split(',').collect();
                    if let [_, line, value, row] = fields.as_slice() {
                        let line = line.parse().unwrap_or(0);
                        self.planned.insert((line, *value == "1"), Some(row.to_string()));
                    }
                }
            }
            Err(_) => {
                self.planned.insert((line, value), None);
            }
        }
        self.planned.get(&(line, value)).cloned().flatten()
    }

    /// One step: the way to a node and its terms. An internal error in words where the terms do not give the number.
    pub fn step(&mut self, node: Node) -> Result<Step, String> {
        let cost = self.cost(node);
        let leaf = |way: Way| Step { node, cost, way, terms: Vec::new(), depth: 0 };
        if self.is_leaf(node) {
            return Ok(leaf(match node {
                Node::Set { .. } => Way::Input,
                Node::See { .. } => Way::Output,
            }));
        }
        if cost == Cost::Never {
            return Ok(leaf(Way::None(self.blocked(node))));
        }
        let mut through = self.chosen.get(&node).copied();
        if let Node::Set { line, value } = node {
            if let Some(octal) = self.planned(line, value) {
                let ways = self.ways(node);
                through = ways.into_iter().find(|&way| self.row(way).octal == octal);
            }
        }
        let wrong = || format!("internal error: no row gives {cost} for {}", node.told(self.model));
        let through = through.ok_or_else(wrong)?;
        let terms = self.terms(through).ok_or_else(wrong)?;
        if self.sum(through, &terms) != cost {
            return Err(wrong());
        }
        let mut terms: Vec<(Node, Cost)> = terms.into_iter().map(|term| (term, self.cost(term))).collect();
        terms.sort_by_key(|&(_, cost)| std::cmp::Reverse(cost));
        let depth = self.row(through).depth;
        Ok(Step { node, cost, way: Way::Row(through), terms, depth })
    }

    /// What stands against each row of a node that is never.
    fn blocked(&self, node: Node) -> Vec<(Through, Option<Node>)> {
        self.ways(node)
            .into_iter()
            .map(|through| {
                let never = self
                    .terms(through)
                    .and_then(|terms| terms.into_iter().find(|&term| self.cost(term) == Cost::Never));
                (through, never)
            })
            .collect()
    }

    /// `D 1, CLK 0 1`: a row by its pins.
    pub fn row_told(&self, through: Through) -> String {
        let row = self.row(through);
        let n = self.model.cell_of(through.gate).pins;
        let mut told = Vec::new();
        for pin in 0..n {
            let values: Vec<&str> = [(false, "0"), (true, "1")]
                .iter()
                .filter(|(value, _)| row.pins.contains(&(pin, *value)))
                .map(|(_, word)| *word)
                .collect();
            if !values.is_empty() {
                told.push(format!("{} {}", self.model.pin_name(through.gate, pin), values.join(" ")));
            }
        }
        for &value in &row.output {
            told.push(format!("output {}", u8::from(value)));
        }
        if told.is_empty() {
            "nothing".to_string()
        } else {
            told.join(", ")
        }
    }

    /// The step as text: the node, the way, the sum.
    pub fn told(&self, step: &Step) -> String {
        let head = format!("{}  {}", step.cost, step.node.told(self.model));
        match &step.way {
            Way::Input => format!("{head}: an input"),
            Way::Output => format!("{head}: it is an output"),
            Way::Row(through) => {
                let mut parts: Vec<String> = step.terms.iter().map(|(_, cost)| cost.to_string()).collect();
                if step.depth > 0 || parts.is_empty() {
                    parts.push(format!("depth {}", step.depth));
                }
                format!("{head}, {}: {}", self.through_told(*through), parts.join(" + "))
            }
            Way::None(blocked) if blocked.is_empty() => format!("{head}: {}", self.nothing_told(step.node)),
            Way::None(_) => format!("{head}: each way is blocked"),
        }
    }

    pub fn through_told(&self, through: Through) -> String {
        let cell = self.model.cell_name(through.gate);
        let octal = &self.row(through).octal;
        let row = self.row_told(through);
        match through.pin {
            None => format!("by {cell} with {row} (row {octal})"),
            Some(pin) => format!(
                "through pin {} of {cell} -> {} with {row} (row {octal})",
                self.model.pin_name(through.gate, pin),
                self.model.net_name(self.model.gates[through.gate].line)
            ),
        }
    }

    pub fn nothing_told(&self, node: Node) -> &'static str {
        match (node, self.model.driver[node.line()]) {
            (Node::See { line }, _) if self.model.readers[line].is_empty() => "nothing reads it, and it is no output",
            (Node::See { .. }, _) => "no cell that reads it ever changes with it",
            (_, Some(Driver::Gate(_))) => "its cell never gives this value",
            _ => "the line is open: nothing drives it",
        }
    }
}

/// At most so many steps, each following the dearest term of the one above.
pub fn steps(reasons: &mut Reasons, node: Node, most: usize) -> Result<Vec<Step>, String> {
    let mut steps = vec![reasons.step(node)?];
    while steps.len() < most.max(1) {
        match steps.last().and_then(|step| step.terms.first()) {
            Some(&(next, cost)) if cost > Cost::Figure(0) => steps.push(reasons.step(next)?),
            _ => break,
        }
    }
    Ok(steps)
}

/// The text of `why`.
pub fn text(model: &Model, line: usize, number: Number, most: usize) -> Result<String, String> {
    let mut reasons = Reasons::new(model, number.sequential());
    let mut text = String::new();
    for step in steps(&mut reasons, Node::of(number, line), most)? {
        text += &reasons.told(&step);
        text.push('\n');
        let width = step.terms.iter().map(|(_, cost)| cost.to_string().len()).max().unwrap_or(0);
        for (term, cost) in &step.terms {
            text += &format!("    {cost:>width$}  {}\n", term.told(model));
        }
        if let Way::None(blocked) = &step.way {
            for (through, never) in blocked.iter().take(12) {
                let why = match never {
                    Some(term) => format!("{} is never", term.told(model)),
                    None => "asks 0 and 1 of one wire".to_string(),
                };
                text += &format!("    {}: {why}\n", reasons.through_told(*through));
            }
            if blocked.len() > 12 {
                text += &format!("    and {} more ways\n", blocked.len() - 12);
            }
        }
    }
    Ok(text)
}

/// Checks that every reason of every line adds up, in all six numbers, and that no step leads back: the count of steps.
pub fn check_all(model: &Model) -> Result<usize, String> {
    let mut steps = 0;
    for sequential in [false, true] {
        let mut reasons = Reasons::new(model, sequential);
        let mut below: HashMap<Node, Vec<Node>> = HashMap::new();
        for line in model.lines().collect::<Vec<_>>() {
            for node in [Node::Set { line, value: false }, Node::Set { line, value: true }, Node::See { line }] {
                let step = reasons.step(node)?;
                steps += 1;
                let sum = step.terms.iter().fold(Cost::Figure(step.depth), |sum, &(_, cost)| sum.and(cost));
                if matches!(step.way, Way::Row(_)) && sum != step.cost {
                    return Err(format!("{} does not add up", node.told(model)));
                }
                below.insert(node, step.terms.iter().map(|&(term, _)| term).collect());
            }
        }
        no_way_back(&below, model)?;
    }
    Ok(steps)
}

fn no_way_back(below: &HashMap<Node, Vec<Node>>, model: &Model) -> Result<(), String> {
    // 1 on the path, 2 done.
    let mut state: HashMap<Node, u8> = HashMap::new();
    for &root in below.keys() {
        if state.contains_key(&root) {
            continue;
        }
        let mut path = vec![(root, 0)];
        state.insert(root, 1);
        while let Some((node, at)) = path.last_mut() {
            match below[node].get(*at) {
                Some(&next) => {
                    *at += 1;
                    match state.get(&next) {
                        Some(1) => return Err(format!("{} leads back to itself", next.told(model))),
                        Some(_) => {}
                        None => {
                            state.insert(next, 1);
                            path.push((next, 0));
                        }
                    }
                }
                None => {
                    state.insert(*node, 2);
                    path.pop();
                }
            }
        }
    }
    Ok(())
}

#[cfg(test)]
mod tests {
    use super::*;
    use crate::ask::archive;

    fn model(tables: &[(&str, usize, &str)], net: &str) -> Model {
        let lib: String = tables.iter().map(|(name, n, bits)| archive::cell(name, *n, bits).unwrap()).collect();
        Model::new("t", lib.into_bytes(), net.as_bytes().to_vec(), Vec::new()).unwrap()
    }

    #[test]
    fn a_latch_adds_up_and_ends() {
        let model = model(&[("NAND2", 2, "1110")], "input,1\ninput,2\ngate,NAND2,3,1,4\ngate,NAND2,4,2,3\noutput,3\n");
        assert_eq!(check_all(&model).unwrap(), 24);
        let told = text(&model, 4, Number::Co, 3).unwrap();
        assert!(
            told.starts_with("2  4 seen, through pin 2 of NAND2 -> 3 with 1 1 (row 211): 1 + 0 + depth 1\n"),
            "{told}"
        );
    }

    #[test]
    fn nevers_are_told_by_their_ways() {
        let model = model(
            &[("AND2", 2, "0001"), ("XOR2", 2, "0110"), ("TIE0", 0, "0")],
            "input,1\ngate,TIE0,2\ngate,AND2,3,1,2\ngate,XOR2,4,1,1\noutput,3\ngate,AND2,5,1,1\n",
        );
        check_all(&model).unwrap();
        let told = text(&model, 3, Number::Cc1, 3).unwrap();
        assert!(told.contains("2 at 1 is never"), "{told}");
        let told = text(&model, 4, Number::Cc1, 3).unwrap();
        assert!(told.contains("asks 0 and 1 of one wire"), "{told}");
        let told = text(&model, 5, Number::Co, 3).unwrap();
        assert!(told.contains("nothing reads it"), "{told}");
        let told = text(&model, 2, Number::Cc1, 3).unwrap();
        assert!(told.contains("its cell never gives this value"), "{told}");
    }

    #[test]
    fn a_wrong_number_is_found() {
        let mut model = model(&[("NOT", 1, "10")], "input,1\ngate,NOT,2,1\noutput,2\n");
        let other = archive::report(&model.lib, b"input,2\ngate,NOT,1,2\noutput,1\n").unwrap();
        model.numbers = other;
        assert!(check_all(&model).is_err());
    }
}
