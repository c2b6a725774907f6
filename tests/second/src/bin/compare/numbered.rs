//! Calls over two texts that leave numbers in a lent slice, on both sides.

use crate::comparison::{answer_of, Comparison};
use crate::lent::{canary, differ, Lent};
use second::damage::{any_damage, overlong, scramble};
use second::generate::Pair;
use second::kept::Case;
use second::random::Random;
use second::refusal::{TABLE_SHORT, TEXT_LONG};
use second::REFUSED;

/// The texts, numbers that a call only reads, and how many it may write.
#[derive(Clone)]
pub struct Lending {
    pub lib: Vec<u8>,
    pub net: Vec<u8>,
    pub read: Vec<u32>,
    pub room: usize,
}

impl Lending {
    /// A call over it, as it is kept.
    pub fn case(&self, call: &str) -> Case {
        Case {
            numbers: self.read.clone(),
            ..Case::of(call, [&self.lib, &self.net], self.room)
        }
    }
}

/// What the archive said, and the numbers after it.
pub struct Said {
    pub answer: u64,
    pub numbers: Vec<u32>,
}

impl Said {
    pub fn accepted(&self) -> bool {
        self.answer < REFUSED
    }

    /// Acceptance, 1, 2, or a refusal of the texts.
    pub fn kind(&self) -> &'static str {
        match (self.answer / REFUSED) as u32 {
            0 => "accepted",
            TABLE_SHORT => "refused 1",
            TEXT_LONG => "refused 2",
            _ => "refused for a text",
        }
    }
}

/// All that a call may read or write.
#[derive(Clone)]
struct Memory {
    texts: [Lent<u8>; 2],
    read: Lent<u32>,
    written: Lent<u32>,
}

impl Memory {
    fn of(lending: &Lending, turn: usize) -> Self {
        let salt = turn as u8;
        let filled = (0..lending.room).map(|at| u32::from(canary(at, salt ^ 0x55)));
        Memory {
            texts: [
                Lent::of(lending.lib.iter().copied(), turn % 8, salt),
                Lent::of(lending.net.iter().copied(), turn / 8 % 8, salt),
            ],
            read: Lent::of(lending.read.iter().copied(), turn % 4, salt),
            written: Lent::of(filled, turn / 4 % 4, salt),
        }
    }

    fn differs(&self, wanted: &Memory) -> Option<String> {
        differ("library", &self.texts[0], &wanted.texts[0])
            .or_else(|| differ("netlist", &self.texts[1], &wanted.texts[1]))
            .or_else(|| differ("numbers read", &self.read, &wanted.read))
            .or_else(|| differ("numbers", &self.written, &wanted.written))
    }

    fn call(&mut self, call: impl Fn(&[u8], &[u8], &[u32], &mut [u32]) -> u64) -> u64 {
        let [lib, net] = &self.texts;
        call(
            lib.inner(),
            net.inner(),
            self.read.inner(),
            self.written.inner_mut(),
        )
    }
}

impl Comparison {
    /// One call on both sides: over the texts, the numbers that it reads and those that it writes.
    pub fn check_numbers(
        &mut self,
        label: &str,
        lending: &Lending,
        proved: impl Fn(&[u8], &[u8], &[u32], &mut [u32]) -> u64,
        second: impl Fn(&[u8], &[u8], &[u32], &mut [u32]) -> u64,
    ) -> Said {
        self.turn += 1;
        let mut got = Memory::of(lending, self.turn);
        let mut wanted = got.clone();
        let expected = wanted.call(second);
        let answer = got.call(proved);
        self.answered(answer);
        self.watch(&lending.lib, &lending.net, false, false, false);
        let problem = if answer != expected {
            let (is, should) = (answer_of(answer), answer_of(expected));
            Some(format!("{is} instead of {should}"))
        } else {
            got.differs(&wanted)
                .map(|place| format!("{}: {place}", answer_of(answer)))
        };
        self.verdict_on(label, lending, problem);
        Said {
            answer,
            numbers: got.written.inner().to_vec(),
        }
    }

    /// A verdict with the texts behind it.
    pub fn verdict_on(&mut self, label: &str, lending: &Lending, problem: Option<String>) {
        let problem = problem.map(|problem| {
            let cut =
                |text: &[u8]| String::from_utf8_lossy(&text[..text.len().min(1_000)]).into_owned();
            let (lib, net) = (cut(&lending.lib), cut(&lending.net));
            format!("{problem}\n  {lib:?}\n  {net:?}")
        });
        self.verdict(label, problem);
    }
}

/// Texts that are too long, or damaged.
pub fn spoil(rng: &mut Random, lending: &mut Lending, made: &Pair) {
    match rng.below(4) {
        0 => overlong(rng, &mut lending.lib),
        1 => overlong(rng, &mut lending.net),
        2 => scramble(rng, &mut lending.net),
        _ => {
            let mut made = made.clone();
            any_damage(rng, &mut made);
            lending.lib = made.lib.bytes();
            lending.net = made.net.bytes();
        }
    }
}

/// What must come up, each by its title, and how often it did.
pub struct Tally(Vec<(&'static str, u64)>);

impl Tally {
    pub fn of(titles: &[&'static str]) -> Self {
        Tally(titles.iter().map(|&title| (title, 0)).collect())
    }

    pub fn note(&mut self, title: &str, met: bool) {
        let (_, count) = self
            .0
            .iter_mut()
            .find(|(known, _)| *known == title)
            .expect("the title is on the list");
        *count += u64::from(met);
    }

    pub fn tell(&self, all: &mut Comparison) {
        for &(title, count) in &self.0 {
            if HAS.contains(&title) {
                all.met_at_least(HAD, title, count);
            } else {
                all.met(title, count);
            }
        }
    }
}

/// What a random netlist has, and how many must have it.
const HAD: u64 = 50;
pub const HAS: [&str; 5] = [
    "with ranges",
    "with open lines",
    "with a gate that reads itself",
    "with pins on one line",
    "with tie cells",
];

/// Notes what a netlist has.
pub fn note_netlist(tally: &mut Tally, made: &Pair) {
    let lines = &made.net.lines;
    let any = |word: &[u8]| lines.iter().any(|line| line[0] == word);
    let gates = || lines.iter().filter(|line| line[0] == b"gate");
    let twice = |pins: &[Vec<u8>]| (1..pins.len()).any(|pin| pins[..pin].contains(&pins[pin]));
    let has = [
        any(b"range"),
        any(b"open"),
        gates().any(|gate| gate[3..].contains(&gate[2])),
        gates().any(|gate| twice(&gate[3..])),
        gates().any(|gate| gate.len() == 3),
    ];
    for (title, met) in HAS.into_iter().zip(has) {
        tally.note(title, met);
    }
}
