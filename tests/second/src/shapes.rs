//! The shapes that the benchmark times, each with what its label says of it. A shape is the same
//! however many others are made before it.

mod calls;

use crate::between::parts;
use crate::cell::built_in;
use crate::figures::*;
use crate::generate::{
    add_cells, add_netlist, add_ranges, fields, groups_of, library_of, rows_line, CellForm, Order,
    Pair, Shape, Style, Wiring, ENTRY,
};
use crate::grow::{one_row, WORDS};
use crate::random::Random;
use crate::sweep::is_wired;
use crate::REFUSED;
use crate::{both_read, Counts, MOST_BYTES, MOST_LINES};
pub use calls::{called, Call, Called, Left};
use std::collections::HashSet;
use std::ops::Range;

pub const SEED: u64 = 0x5c0a_9197_9115_2026;

/// A pair of texts to be timed.
pub struct Case {
    pub label: String,
    pub lib: Vec<u8>,
    pub net: Vec<u8>,
    pub claims: Vec<Claim>,
}

/// What a label says, of the texts or of the answer.
pub enum Claim {
    Gates(usize),
    /// Some gate reads its own output.
    Loop,
    /// Seven numbers in eight are not never.
    Known,
    LibraryBytes(usize),
    /// Of both texts together.
    Bytes(Range<usize>),
    Sweeps(Counts),
    ReportBytes(Range<usize>),
    RefusedInLastLine,
    /// The rows that set the output of so many gates are read as those of one wire.
    Tied(usize),
    /// The library is the built-in one.
    BuiltIn,
    /// No gate reads the line of a gate above it.
    Backwards,
    /// There are two reports, and they differ.
    Ranges,
}

use Claim::*;

impl Case {
    fn of(label: &str, lib: &str, net: &str, claims: Vec<Claim>) -> Self {
        Case {
            label: label.to_string(),
            lib: lib.as_bytes().to_vec(),
            net: net.as_bytes().to_vec(),
            claims,
        }
    }

    fn from(label: &str, pair: &Pair, claims: Vec<Claim>) -> Self {
        Case {
            label: label.to_string(),
            lib: pair.lib.bytes(),
            net: pair.net.bytes(),
            claims,
        }
    }

    /// The gates, each by its fields.
    fn gate_lines(&self) -> impl Iterator<Item = Vec<&[u8]>> {
        self.net
            .split(|&b| b == b'\n')
            .map(|line| line.split(|&b| b == b',').collect::<Vec<_>>())
            .filter(|line| line[0] == b"gate")
    }

    pub fn gates(&self) -> usize {
        self.gate_lines().count()
    }

    /// The first claim that does not hold. The answer is in the form of the C entry, with the report
    /// where there is one.
    pub fn untrue(&self, answer: u64, report: &[u8]) -> Option<String> {
        let refused = answer >= REFUSED;
        let refusal = |claim: &Claim| matches!(claim, RefusedInLastLine);
        if refused != self.claims.iter().any(refusal) {
            return Some(format!("the answer is {answer}"));
        }
        self.claims.iter().find_map(|claim| match claim {
            Gates(count) => {
                let gates = self.gates();
                (gates != *count).then(|| format!("{gates} gates"))
            }
            Loop => {
                let own = self.gate_lines().any(|gate| gate[3..].contains(&gate[2]));
                (!own).then(|| "no gate reads its own output".to_string())
            }
            Known => {
                let lines = report.split(|&b| b == b'\n').count();
                let never = report.windows(5).filter(|part| part == b"never").count();
                (8 * never > 6 * lines).then(|| format!("{never} times never in {lines} lines"))
            }
            LibraryBytes(count) => {
                let bytes = self.lib.len();
                (bytes != *count).then(|| format!("a library of {bytes} bytes"))
            }
            Bytes(range) => {
                let bytes = self.lib.len() + self.net.len();
                (!range.contains(&bytes)).then(|| format!("{bytes} bytes of texts"))
            }
            Sweeps(counts) => {
                let found = sweeps(report);
                (found != Some(*counts)).then(|| format!("sweeps {found:?}"))
            }
            ReportBytes(range) => {
                let bytes = report.len();
                (!range.contains(&bytes)).then(|| format!("a report of {bytes} bytes"))
            }
            RefusedInLastLine => {
                let lines = self.net.iter().filter(|&&b| b == b'\n').count();
                // Numbers from 10 on are those of the netlist.
                let netlist = (10_000_000..17_000_000).contains(&answer);
                (!netlist || answer % REFUSED != lines as u64)
                    .then(|| format!("the answer is {answer}, the last line {lines}"))
            }
            Tied(count) => {
                let tied = self.tied();
                (tied != *count).then(|| format!("{tied} gates with tied pins"))
            }
            BuiltIn => (self.lib != built_in().as_bytes()).then(|| "another library".to_string()),
            Backwards => {
                let mut above = HashSet::new();
                let forward = self.gate_lines().any(|gate| {
                    above.insert(gate[2]);
                    gate[3..].iter().any(|line| above.contains(line))
                });
                forward.then(|| "a gate reads the line of one above it".to_string())
            }
            Ranges => {
                let two = parts(report).is_some_and(|[low, high]| low != high);
                (!two).then(|| "no second report that differs".to_string())
            }
        })
    }

    /// How many gates have pins that are one wire.
    fn tied(&self) -> usize {
        let Ok((library, netlist)) = both_read(&self.lib, &self.net) else {
            return 0;
        };
        let tied = |gate: &&_| is_wired(&library, gate);
        netlist.gates.iter().filter(tied).count()
    }
}

/// The counts in a report's last line.
pub fn sweeps(report: &[u8]) -> Option<Counts> {
    let text = std::str::from_utf8(report).ok()?;
    let counts = text.lines().last()?.strip_prefix("sweeps,")?;
    let counts: Vec<u32> = counts
        .split(',')
        .map_while(|count| count.parse().ok())
        .collect();
    counts.try_into().ok()
}

/// A random netlist over eight common cells: `gates` gates and an input for every nine of them, as
/// far as 1,000 lines allow.
fn random_pair(seed: u64, gates: usize, wiring: Wiring) -> Pair {
    let mut pair = Pair::default();
    let mut rng = Random::from(seed);
    add_cells(&mut rng, &mut pair, 8, Style::Common);
    add_random(&mut rng, &mut pair, gates, wiring);
    pair
}

/// Such a netlist over the pair's cells.
fn add_random(rng: &mut Random, pair: &mut Pair, gates: usize, wiring: Wiring) {
    let shape = Shape {
        inputs: (gates / 9).clamp(4, MOST_LINES - gates),
        gates,
        undriven: 0,
        outputs: gates / 9 + 1,
        wiring,
        order: Order::Forward,
        scattered: false,
    };
    add_netlist(rng, pair, &shape);
}

fn c17() -> Case {
    Case::of("C17", NAND2, C17_NET, vec![Gates(6), Sweeps([2; 4])])
}

/// The same statements, shuffled.
fn any_order(mut pair: Pair) -> Pair {
    Random::from(SEED).shuffle(&mut pair.net.lines);
    pair
}

/// Without loops and in the order of the values' way: one sweep finds all.
pub fn forward(gates: usize) -> Case {
    let pair = random_pair(SEED, gates, Wiring::Forward);
    let claims = vec![Gates(gates), Sweeps([2; 4])];
    Case::from("forward", &pair, claims)
}

fn forward_any_order(gates: usize) -> Case {
    let pair = any_order(random_pair(SEED, gates, Wiring::Forward));
    Case::from("the same, any order", &pair, vec![Gates(gates)])
}

/// With this seed the loops leave few numbers never.
const FEW_LOOPS: u64 = 75;

fn random(gates: usize) -> Case {
    let pair = random_pair(FEW_LOOPS, gates, Wiring::Near);
    Case::from("random", &pair, vec![Gates(gates), Known])
}

fn random_any_order(gates: usize) -> Case {
    let pair = any_order(random_pair(FEW_LOOPS, gates, Wiring::Near));
    Case::from("the same, any order", &pair, vec![Gates(gates), Known])
}

fn loops(gates: usize) -> Case {
    let pair = any_order(random_pair(SEED, gates, Wiring::Any));
    Case::from("random, loops", &pair, vec![Gates(gates), Loop])
}

/// The same statements from the last to the first.
fn backwards(gates: usize) -> Case {
    let mut pair = random_pair(SEED, gates, Wiring::Forward);
    pair.net.lines.reverse();
    Case::from("listed backwards", &pair, vec![Gates(gates), Backwards])
}

/// With this seed tied pins leave few numbers never.
const FEW_TIED_LOOPS: u64 = 291;

/// The last pin of each gate that has two or more reads the line of its first.
fn tied(gates: usize) -> Case {
    let mut pair = random_pair(FEW_TIED_LOOPS, gates, Wiring::Near);
    let mut tied = 0;
    for gate in pair.net.lines.iter_mut().filter(|line| line[0] == b"gate") {
        if let [_, _, _, first, .., last] = &mut gate[..] {
            last.clone_from(first);
            tied += 1;
        }
    }
    Case::from("tied pins", &pair, vec![Gates(gates), Tied(tied), Known])
}

fn built_in_cells(gates: usize) -> Case {
    let text = built_in();
    let mut pair = Pair::default();
    pair.lib.lines = text.lines().map(fields).collect();
    for head in pair.lib.lines.iter().step_by(ENTRY) {
        pair.cells.push(CellForm {
            name: head[1].clone(),
            pins: usize::from(head[2][0] - b'0'),
            deep: false,
        });
    }
    add_random(&mut Random::from(SEED), &mut pair, gates, Wiring::Forward);
    let claims = vec![Gates(gates), BuiltIn, Sweeps([2; 4])];
    Case::from("built-in cells", &pair, claims)
}

/// Two analyses and two reports.
fn ranged(gates: usize) -> Case {
    let mut pair = random_pair(FEW_LOOPS, gates, Wiring::Near);
    add_ranges(&mut Random::from(SEED), &mut pair);
    Case::from("ranges", &pair, vec![Gates(gates), Ranges, Known])
}

/// From the input to the output: one sweep finds all, the next one changes nothing.
pub fn inverters(gates: usize) -> Case {
    let net = chain("INV", gates, false);
    Case::of("chain", INV, &net, vec![Gates(gates), Sweeps([2; 4])])
}

/// Every sweep finds one gate's numbers.
pub fn inverters_backwards(gates: usize) -> Case {
    let net = chain("INV", gates, true);
    let claims = vec![Gates(gates), Sweeps([gates as u32 + 1; 4])];
    Case::of("chain listed backwards", INV, &net, claims)
}

fn latch_array() -> Case {
    let claims = vec![Gates(666), Sweeps([3; 4])];
    Case::of("latches", NAND2, &latches(333), claims)
}

/// As many sweeps as there can be for setting, one for each number and the last.
fn most_sweeps(gates: usize) -> Counts {
    let gates = gates as u32;
    [2 * gates + 1, 2 * gates + 1, gates + 1, gates + 1]
}

pub fn slow(gates: usize) -> Case {
    let claims = vec![Gates(gates), Sweeps(most_sweeps(gates))];
    Case::of("2G + 1 sweeps", SLOW, &slow_chain(gates), claims)
}

/// The same with full rows at every gate.
fn heaviest() -> Case {
    let gates = MOST_LINES - 1;
    let claims = vec![Gates(gates), Sweeps(most_sweeps(gates))];
    Case::of(
        "the heaviest: full rows",
        &full_cell(),
        &full_chain(gates),
        claims,
    )
}

/// Rows as long as before, with most of the columns below their highest: seven in eight.
fn long_library() -> Pair {
    let mut rng = Random::from(SEED);
    let mut pair = library_of(&mut rng, MOST_BYTES);
    for entry in pair.lib.lines.chunks_mut(ENTRY) {
        for (line, word) in entry[1..].iter_mut().zip(["CC", "CO", "SC", "SO"]) {
            let mut groups = groups_of(line);
            for row in groups.iter_mut().flatten() {
                let below = (1 << row.ilog2()) - 1;
                *row |= (rng.next() | rng.next() | rng.next()) as u32 & below;
            }
            *line = rows_line(word, &groups);
        }
    }
    pair
}

fn long_library_one_gate() -> Case {
    let mut pair = long_library();
    let cell = String::from_utf8(pair.cells[0].name.clone()).unwrap();
    let net = &mut pair.net.lines;
    net.extend((1..=8).map(|line| fields(&format!("input,{line}"))));
    net.push(fields(&format!("gate,{cell},9,1,2,3,4,5,6,7,8")));
    net.push(fields("output,9"));
    let claims = vec![LibraryBytes(65_535), Gates(1), Sweeps([2; 4])];
    Case::from("library of 65,535 bytes", &pair, claims)
}

/// So many gates without loops over the pair's cells; all other lines of 1,000 are inputs.
fn add_gates(pair: &mut Pair, gates: usize, outputs: usize) {
    let shape = Shape {
        inputs: MOST_LINES - gates,
        gates,
        undriven: 0,
        outputs,
        wiring: Wiring::Forward,
        order: Order::Forward,
        scattered: false,
    };
    add_netlist(&mut Random::from(SEED), pair, &shape);
}

fn long_library_many_gates() -> Case {
    let mut pair = long_library();
    add_gates(&mut pair, 860, 100);
    let claims = vec![LibraryBytes(65_535), Gates(860)];
    Case::from("the same, 860 gates", &pair, claims)
}

/// The last line is the one before it once more: marked already.
fn refused_last() -> Case {
    let mut pair = library_of(&mut Random::from(SEED), 24_000);
    add_gates(&mut pair, 980, 200);
    let last = pair.net.lines.last().unwrap().clone();
    pair.net.lines.push(last);
    let claims = vec![Bytes(69_000..70_000), RefusedInLastLine];
    Case::from("refused in last line, 69 KB", &pair, claims)
}

/// A stored case of the program.
fn longest_report() -> Case {
    let lib = include_str!("../../cases/long_report/lib.txt");
    let net = include_str!("../../cases/long_report/net.txt");
    let claims = vec![ReportBytes(63_000..64_000), Sweeps([2; 4])];
    Case::of("longest report, 63 KB", lib, net, claims)
}

/// All of them, the heaviest last.
pub fn all() -> Vec<Case> {
    vec![
        c17(),
        forward(100),
        forward_any_order(100),
        forward(300),
        forward_any_order(300),
        forward(950),
        forward_any_order(950),
        random(100),
        random(950),
        random_any_order(950),
        loops(950),
        tied(950),
        built_in_cells(950),
        backwards(500),
        ranged(950),
        inverters(999),
        inverters_backwards(999),
        latch_array(),
        long_library_one_gate(),
        long_library_many_gates(),
        refused_last(),
        longest_report(),
        slow(999),
        heaviest(),
    ]
}

/// Those by which larger analysers are compared, each with so many lines.
pub fn sized(lines: usize) -> Vec<Case> {
    // A ninth as many inputs as gates.
    let gates = lines * 9 / 10;
    let pair = random_pair(FEW_LOOPS, gates, Wiring::Near);
    vec![
        Case::from("random", &pair, vec![Gates(gates)]),
        Case::from("the same, any order", &any_order(pair), vec![Gates(gates)]),
        forward(gates),
        inverters(lines - 1),
        inverters_backwards(lines - 1),
        slow(lines - 1),
    ]
}

/// Those whose values are settled step by step, the heaviest last.
pub fn stepped() -> Vec<Case> {
    vec![
        c17(),
        random(950),
        inverters_backwards(999),
        slow(999),
        heaviest(),
    ]
}

/// Those on which a pad is tried on every line.
pub fn tried() -> Vec<Case> {
    vec![c17(), forward(950), random(950)]
}

/// Those that pads are asked for and placed on.
pub fn held() -> Vec<Case> {
    vec![
        c17(),
        forward(950),
        random(950),
        random_any_order(950),
        loops(950),
        long_library_many_gates(),
        slow(999),
    ]
}

/// A shape whose library is changed.
pub struct Grown {
    pub case: Case,
    /// Its library with one row more, of each cell and line of rows one where there is a place.
    pub with_a_row: Vec<Vec<u8>>,
    /// Its library with the first entry behind the others.
    pub moved: Vec<u8>,
}

impl Grown {
    fn of(case: Case, mut pair: Pair) -> Self {
        let mut rng = Random::from(SEED);
        let with_a_row = (0..pair.cells.len() * WORDS.len())
            .filter_map(|at| one_row(&mut rng, &pair, at / WORDS.len(), at % WORDS.len()))
            .collect();
        pair.lib.lines.rotate_left(ENTRY);
        Grown {
            case,
            with_a_row,
            moved: pair.lib.bytes(),
        }
    }
}

/// Those under which the library is changed.
pub fn grown() -> Vec<Grown> {
    let pair = |seed, wiring| random_pair(seed, 950, wiring);
    vec![
        Grown::of(forward(950), pair(SEED, Wiring::Forward)),
        Grown::of(random(950), pair(FEW_LOOPS, Wiring::Near)),
        Grown::of(random_any_order(950), pair(FEW_LOOPS, Wiring::Near)),
        Grown::of(loops(950), pair(SEED, Wiring::Any)),
    ]
}
