//! The blocks of a netlist that is not flat: what is in each, which one is the chip, and what it comes to when it is
//! flattened. All sizes are products of counts, taken before anything is built.

use crate::ask::archive::{larger_told, MOST_LINES};
use crate::read::hub::{Design, MOST_GATES};
use crate::rows::types::Types;
use crate::show::cost::grouped;
use crate::show::messages::Messages;
use std::collections::HashMap;
use std::ops::Range;

/// Largest netlist that is read.
pub const MOST_BYTES: usize = 128 << 20;
/// Blocks within each other.
const MOST_DEPTH: usize = 100;
/// Blocks and types of cells in them that are counted, and bytes of their names.
const MOST_KINDS: usize = 100_000;
const MOST_KIND_BYTES: usize = 16 << 20;
/// Instances, gates and wires that are made, and bytes of text that are gone over for them.
const MOST_WEIGHT: u64 = 16 * MOST_GATES as u64;
const MOST_WORK: u64 = 4 * MOST_BYTES as u64;
/// Rows of the tree that are shown.
const MOST_SHOWN: usize = 40;

#[derive(Clone, Debug, Default)]
pub struct Block {
    pub name: String,
    /// Bits of its ports that are inputs.
    pub inputs: u64,
    /// Gates that are no cells, and whatever else flattening copies.
    pub gates: u64,
    pub others: u64,
    /// How many cells it has of each type; blocks are among them.
    pub cells: HashMap<String, u64>,
    /// The file says that it is the chip.
    pub marked: bool,
    /// Where it stands in the text, and its first line.
    pub bytes: Range<usize>,
    pub line: usize,
}

impl Block {
    pub fn add(&mut self, title: &str, count: u64) {
        match self.cells.get_mut(title) {
            Some(all) => *all += count,
            None => {
                self.cells.insert(title.to_string(), count);
            }
        }
    }
}

#[derive(Debug, Default)]
pub struct Tree {
    pub blocks: Vec<Block>,
    places: HashMap<String, usize>,
    /// The blocks in each, with how often.
    below: Vec<Vec<(usize, u64)>>,
    /// Lines of cells and gates in each.
    own: Vec<u64>,
    kinds: usize,
    kind_bytes: usize,
}

/// What a block comes to with all blocks in it.
#[derive(Clone, Copy, Debug, Default, PartialEq, Eq)]
struct Size {
    lines: u64,
    weight: u64,
    work: u64,
    depth: usize,
}

impl Tree {
    /// False where there are too many.
    #[must_use]
    pub fn push(&mut self, block: Block) -> bool {
        self.kinds += 1 + block.cells.len();
        self.kind_bytes += block.name.len() + block.cells.keys().map(String::len).sum::<usize>();
        let place = self.blocks.len();
        self.places.entry(block.name.clone()).or_insert(place);
        self.blocks.push(block);
        self.kinds <= MOST_KINDS && self.kind_bytes <= MOST_KIND_BYTES
    }

    pub fn too_many() -> String {
        format!("more than {} blocks and types of cells in them: take the one you want out", grouped(MOST_KINDS as u64))
    }

    pub fn place(&self, name: &str) -> Option<usize> {
        self.places.get(name).copied()
    }

    /// Tells blocks from cells: a type that a library has is a cell.
    pub fn settle(&mut self, types: &mut Types) {
        for block in &self.blocks {
            let mut own = block.gates;
            let mut below = Vec::new();
            for (title, &count) in &block.cells {
                // What stays closed is not gone into.
                if types.is_box(title) {
                    own += count;
                    continue;
                }
                match (types.find(title), self.places.get(title)) {
                    (Some(Ok(kind)), _) => own += count.saturating_mul(kind.outputs.len() as u64),
                    (None, Some(&place)) => below.push((place, count)),
                    _ => own += count,
                }
            }
            below.sort_unstable();
            self.below.push(below);
            self.own.push(own);
        }
    }

    /// The chip: the block that is named, the one that is marked, or the one that is in no other.
    pub fn choose(&self, file: &str, top: Option<&str>, types: &mut Types, messages: &mut Messages) -> Option<usize> {
        let all: Vec<usize> =
            (0..self.blocks.len()).filter(|&at| self.place(&self.blocks[at].name) == Some(at)).collect();
        if let Some(top) = top {
            let found = self.place(top);
            if found.is_none() {
                messages.error(file, format!("no block is called {top}\n  {}", self.told(&all)));
            }
            return found;
        }
        let marked: Vec<usize> = all.iter().copied().filter(|&at| self.blocks[at].marked).collect();
        let mut inside = vec![false; self.blocks.len()];
        for (at, below) in self.below.iter().enumerate() {
            for &(place, _) in below.iter().filter(|&&(place, _)| place != at) {
                inside[place] = true;
            }
        }
        let mut roots: Vec<usize> = all.iter().copied().filter(|&at| !inside[at]).collect();
        // The models of a library's cells may stand beside the chip.
        if roots.len() > 1 {
            roots.retain(|&at| types.find(&self.blocks[at].name).is_none());
        }
        match (marked.as_slice(), roots.as_slice(), all.as_slice()) {
            ([one], ..) | (_, [one], _) | (.., [one]) => Some(*one),
            (_, [], []) => {
                messages.error(file, "no blocks: there is nothing to read");
                None
            }
            (_, [], _) => {
                messages
                    .error(file, format!("every block is in another one, so none is the chip\n  {}", self.told(&all)));
                None
            }
            _ => {
                let words = format!(
                    "which block is the chip? These are in no other one: say --top NAME\n  {}",
                    self.told(&roots)
                );
                messages.error(file, words);
                None
            }
        }
    }

    fn told(&self, some: &[usize]) -> String {
        let mut told: Vec<String> = Vec::new();
        for &at in some.iter().take(20) {
            let lines = self.sizes(at).ok().and_then(|sizes| sizes[at]).map_or(self.own[at], |size| size.lines);
            let lines = lines.saturating_add(self.blocks[at].inputs);
            told.push(format!("{} ({})", self.blocks[at].name, lines_of(lines)));
        }
        if told.is_empty() {
            told.push("none".to_string());
        }
        if some.len() > 20 {
            told.push(format!("and {} more", some.len() - 20));
        }
        format!("blocks here: {}", told.join(", "))
    }

    /// The sizes of a block and all in it, or blocks that contain each other, the first once more at the end.
    fn sizes(&self, top: usize) -> Result<Vec<Option<Size>>, Vec<usize>> {
        let mut sizes: Vec<Option<Size>> = vec![None; self.blocks.len()];
        let mut open = vec![false; self.blocks.len()];
        let mut path = vec![(top, 0)];
        open[top] = true;
        while let Some((at, next)) = path.last_mut() {
            let at = *at;
            if let Some(&(place, _)) = self.below[at].get(*next) {
                *next += 1;
                if open[place] {
                    let from = path.iter().position(|&(other, _)| other == place).unwrap_or(0);
                    return Err(path[from..].iter().map(|&(other, _)| other).chain([place]).collect());
                }
                if sizes[place].is_none() {
                    open[place] = true;
                    path.push((place, 0));
                }
                continue;
            }
            let block = &self.blocks[at];
            let own = self.own[at];
            let mut size = Size {
                lines: own,
                weight: own.saturating_add(block.others).saturating_add(block.inputs + 1),
                work: block.bytes.len() as u64,
                depth: 1,
            };
            for &(place, count) in &self.below[at] {
                let inner = sizes[place].unwrap_or_default();
                size.lines = size.lines.saturating_add(inner.lines.saturating_mul(count));
                size.weight = size.weight.saturating_add(inner.weight.saturating_mul(count));
                size.work = size.work.saturating_add(inner.work.saturating_mul(count));
                size.depth = size.depth.max(inner.depth + 1);
            }
            sizes[at] = Some(size);
            open[at] = false;
            path.pop();
        }
        Ok(sizes)
    }

    /// The blocks that a chip is made of, itself first; every reason against building it is told.
    pub fn parts(&self, file: &str, top: usize, design: &mut Design, messages: &mut Messages) -> Option<Vec<usize>> {
        let sizes = match self.sizes(top) {
            Ok(sizes) => sizes,
            Err(ring) => {
                let mut names: Vec<&str> = ring.iter().map(|&at| self.blocks[at].name.as_str()).collect();
                if names.len() > 12 {
                    names.splice(6..names.len() - 5, ["…"]);
                }
                let words = format!(
                    "a block contains itself: {}. Such a chip has no end: take one of the instances out",
                    names.join(" > ")
                );
                messages.error(file, words);
                return None;
            }
        };
        let whole = sizes[top].unwrap_or_default();
        let lines = whole.lines.saturating_add(self.blocks[top].inputs);
        (design.tree, design.smaller) = self.shown(top, &sizes);
        if whole.depth > MOST_DEPTH {
            let words = format!("{} blocks within each other, at most {MOST_DEPTH} are flattened", whole.depth);
            messages.error(file, words);
            return None;
        }
        if lines > MOST_GATES as u64 {
            let words = format!(
                "{} or a few more, the analyser takes {}{}",
                lines_of(lines),
                grouped(MOST_LINES as u64),
                // Constants, open pins and parts of wide gates are lines besides.
                helps(lines.saturating_add(lines / 50) as usize, design)
            );
            messages.error(file, words);
            return None;
        }
        if whole.weight > MOST_WEIGHT || whole.work > MOST_WORK {
            let words = format!(
                "{}, but {} instances, gates and wires when it is flattened: far above what is needed for them{}",
                lines_of(lines),
                grouped(whole.weight),
                helps(lines as usize, design)
            );
            messages.error(file, words);
            return None;
        }
        let mut parts = vec![top];
        parts.extend((0..self.blocks.len()).filter(|&at| at != top && sizes[at].is_some()));
        Some(parts)
    }

    /// The tree with lines, and the blocks that the analyser takes.
    fn shown(&self, top: usize, sizes: &[Option<Size>]) -> (String, String) {
        let lines_at = |at: usize| sizes[at].unwrap_or_default().lines.saturating_add(self.blocks[at].inputs);
        if self.below[top].is_empty() {
            return (String::new(), String::new());
        }
        let mut rows: Vec<(usize, String, u64)> = Vec::new();
        let mut seen = vec![false; self.blocks.len()];
        let mut left = vec![(top, 0, 1)];
        while let Some((at, depth, count)) = left.pop() {
            if rows.len() > MOST_SHOWN {
                break;
            }
            let times = if count > 1 { format!(", {} times", grouped(count)) } else { String::new() };
            rows.push((depth, format!("{}{times}", self.blocks[at].name), lines_at(at)));
            if std::mem::replace(&mut seen[at], true) {
                continue;
            }
            let mut below = self.below[at].clone();
            below.sort_by_key(|&(place, count)| (lines_at(place).saturating_mul(count), std::cmp::Reverse(place)));
            left.extend(below.into_iter().map(|(place, count)| (place, depth + 1, count)));
        }
        let cut = rows.len() > MOST_SHOWN;
        rows.truncate(MOST_SHOWN);
        let mut tree = "\n  blocks, with the lines that each has by itself:".to_string();
        for (depth, words, lines) in rows {
            tree += &format!("\n    {}{words}: {}", "  ".repeat(depth), grouped(lines));
        }
        if cut {
            tree += "\n    …";
        }
        let mut fit: Vec<usize> = (0..self.blocks.len())
            .filter(|&at| {
                at != top && sizes[at].is_some_and(|size| size.lines > 0) && lines_at(at) <= MOST_LINES as u64
            })
            .collect();
        fit.sort_by_key(|&at| std::cmp::Reverse(lines_at(at)));
        let fit: Vec<String> = fit
            .iter()
            .take(3)
            .map(|&at| format!("--top {} ({})", self.blocks[at].name, lines_of(lines_at(at))))
            .collect();
        (tree, fit.join(", "))
    }
}

fn lines_of(lines: u64) -> String {
    format!("{} line{}", grouped(lines), if lines == 1 { "" } else { "s" })
}

/// What to do with more lines than the analyser takes: the tree of blocks, the blocks that fit, a larger analyser.
pub fn helps(lines: usize, design: &Design) -> String {
    let blocks = match (design.smaller.as_str(), design.tree.as_str()) {
        ("", "") => "analyse a block by --top (of a netlist that is not flattened)".to_string(),
        ("", _) => "a smaller block by --top".to_string(),
        (smaller, _) => smaller.to_string(),
    };
    format!("{}\n  what helps: {blocks}, map to larger cells{}", design.tree, larger_told(lines))
}

#[cfg(test)]
mod tests {
    use super::*;

    /// `name gates child*count child ..` each.
    fn tree(blocks: &[&str]) -> Tree {
        let mut tree = Tree::default();
        for text in blocks {
            let mut words = text.split(' ');
            let mut block = Block { name: words.next().unwrap().to_string(), ..Block::default() };
            block.gates = words.next().unwrap().parse().unwrap();
            for word in words {
                let (child, count) = word.split_once('*').unwrap_or((word, "1"));
                block.add(child, count.parse().unwrap());
            }
            assert!(tree.push(block));
        }
        tree.settle(&mut Types::default());
        tree
    }

    fn parts(tree: &Tree, top: Option<&str>) -> (Option<Vec<usize>>, Design, String) {
        let mut messages = Messages::new();
        let mut design = Design::default();
        let chosen = tree.choose("f", top, &mut Types::default(), &mut messages);
        let parts = chosen.and_then(|top| tree.parts("f", top, &mut design, &mut messages));
        (parts, design, messages.text())
    }

    #[test]
    fn the_chip_is_found() {
        let tree = tree(&["leaf 3", "chip 10 core*4 leaf", "core 100 leaf*2"]);
        let (chosen, design, said) = parts(&tree, None);
        assert_eq!(said, "");
        assert_eq!(chosen.unwrap(), [1, 0, 2]);
        let wanted = "\n  blocks, with the lines that each has by itself:\n    chip: 437\n      core, 4 times: 106\n        leaf, 2 \
                      times: 3\n      leaf: 3";
        assert_eq!(design.tree, wanted);
        assert_eq!(design.smaller, "--top core (106 lines), --top leaf (3 lines)");
        assert_eq!(parts(&tree, Some("core")).0.unwrap(), [2, 0]);
        assert!(parts(&tree, Some("cor"))
            .2
            .contains("no block is called cor\n  blocks here: leaf (3 lines), chip (437 lines)"));
    }

    #[test]
    fn several_chips_and_none() {
        let (_, _, said) = parts(&tree(&["a 1 c", "b 2 c", "c 3"]), None);
        assert!(
            said.contains("These are in no other one: say --top NAME\n  blocks here: a (4 lines), b (5 lines)"),
            "{said}"
        );
        let (_, _, said) = parts(&tree(&["a 1 b", "b 2 a"]), None);
        assert!(said.contains("every block is in another one"), "{said}");
        let (_, _, said) = parts(&tree(&["a 1 b", "b 2 c", "c 1 b"]), None);
        assert!(said.contains("a block contains itself: b > c > b"), "{said}");
        let (_, _, said) = parts(&tree(&["a 1 a"]), None);
        assert!(said.contains("a block contains itself: a > a"), "{said}");
    }

    #[test]
    fn sizes_are_products() {
        let mut blocks = vec!["b0 1".to_string()];
        blocks.extend((1..90).map(|at| format!("b{at} 0 b{}*10", at - 1)));
        let blocks: Vec<&str> = blocks.iter().map(String::as_str).collect();
        let (chosen, _, said) = parts(&tree(&blocks), None);
        assert!(chosen.is_none());
        assert!(said.contains("18,446,744,073,709,551,615 lines or a few more"), "{said}");
        assert!(
            said.contains("what helps: --top b2 (100 lines)") || said.contains("what helps: --top b3 (1,000 lines)"),
            "{said}"
        );
        assert!(said.contains("no analyser can be built for more than 32,767 lines"), "{said}");
        // Nothing in them: the instances alone are too many.
        let empty: Vec<String> = blocks.iter().map(|text| text.replace("b0 1", "b0 0")).collect();
        let empty: Vec<&str> = empty.iter().map(String::as_str).collect();
        let (chosen, _, said) = parts(&tree(&empty), None);
        assert!(chosen.is_none() && said.contains("instances, gates and wires"), "{said}");
        let chain: Vec<String> = (0..5_000).map(|at| format!("b{at} 1 b{}", at + 1)).collect();
        let chain: Vec<&str> = chain.iter().map(String::as_str).collect();
        let (_, _, said) = parts(&tree(&chain), None);
        assert!(said.contains("5000 blocks within each other"), "{said}");
    }
}
