//! What a cell does, whatever library it is from: the hub's cells, and Yosys's own ones.

use crate::ask::archive::MOST_PINS;
use crate::rows::registers::{Driver, Function, Register};
use crate::rows::Table;

#[derive(Clone, Copy, Debug, PartialEq, Eq)]
pub enum Op {
    And,
    Or,
    Xor,
}

/// An AND, OR or XOR of any count of pins.
#[derive(Clone, Debug, PartialEq, Eq)]
pub struct Wide {
    pub op: Op,
    /// The output is inverted.
    pub inverted: bool,
    /// These pins are inverted.
    pub flipped: Vec<bool>,
}

impl Wide {
    /// What fits one cell: an exclusive or of more than five pins has more than 16 rows a group.
    pub fn most_pins(op: Op) -> usize {
        if op == Op::Xor {
            5
        } else {
            MOST_PINS
        }
    }

    pub fn table(&self) -> Table {
        let flips = mask(&self.flipped);
        let n = self.flipped.len();
        let all = (1u32 << n) - 1;
        Table::of(n, |s| {
            let s = s ^ flips;
            let value = match self.op {
                Op::And => s == all,
                Op::Or => s != 0,
                Op::Xor => s.count_ones() % 2 == 1,
            };
            value != self.inverted
        })
    }
}

fn mask(bits: &[bool]) -> u32 {
    bits.iter().enumerate().fold(0, |mask, (at, &bit)| mask | u32::from(bit) << at)
}

#[derive(Clone, Debug, PartialEq, Eq)]
pub enum Kind {
    Table(Table),
    /// More pins than one cell takes.
    Wide(Wide),
    Register(Register),
    Driver(Driver),
}

/// One output of a cell.
#[derive(Clone, Debug, PartialEq, Eq)]
pub struct Cell {
    /// The type's name in its own library.
    pub title: String,
    pub pins: Vec<String>,
    pub output: String,
    pub kind: Kind,
}

impl Cell {
    pub fn is_register(&self) -> bool {
        matches!(self.kind, Kind::Register(_))
    }
}

/// An AND, OR or XOR: one table where one cell takes it.
pub fn gate(op: Op, inverted: bool, flipped: Vec<bool>) -> Kind {
    let wide = Wide { op, inverted, flipped };
    if wide.flipped.len() <= Wide::most_pins(op) {
        Kind::Table(wide.table())
    } else {
        Kind::Wide(wide)
    }
}

/// A gate by its word in .bench and elsewhere: AND, NAND, OR, NOR, XOR, XNOR.
pub fn gate_by_word(word: &str, pins: usize) -> Option<Kind> {
    let (op, inverted) = match word {
        "AND" => (Op::And, false),
        "NAND" => (Op::And, true),
        "OR" => (Op::Or, false),
        "NOR" => (Op::Or, true),
        "XOR" => (Op::Xor, false),
        "XNOR" => (Op::Xor, true),
        _ => return None,
    };
    Some(gate(op, inverted, vec![false; pins]))
}

/// A plain register: D, clock.
pub fn plain_register(rising: bool) -> Kind {
    Kind::Register(Register {
        pins: 2,
        clock: 1,
        active: rising,
        latch: false,
        clear: Function::of(2, |_| false),
        preset: Function::of(2, |_| false),
        next: Function::of(3, |s| s & 1 == 1),
        inverted: false,
    })
}

/// A plain latch: D, gate.
pub fn plain_latch(active: bool) -> Kind {
    match plain_register(active) {
        Kind::Register(register) => Kind::Register(Register { latch: true, ..register }),
        other => other,
    }
}

/// A gate-level cell of Yosys, `$_…_`; an error in words where it has no rows, None where there is no such type.
pub fn yosys(title: &str) -> Option<Result<Cell, String>> {
    let inner = title.strip_prefix("$_")?.strip_suffix('_')?;
    let made = combinational(inner).or_else(|| sequential(inner));
    if let Some((pins, output, kind)) = made {
        return Some(Ok(Cell {
            title: title.to_string(),
            pins: pins.iter().map(|pin| pin.to_string()).collect(),
            output: output.to_string(),
            kind,
        }));
    }
    let family = inner.split('_').next().unwrap_or("");
    let words = match family {
        "ALDFF" | "ALDFFE" => "a register with an asynchronous load, which has no rows here: map it to DFFSR or DFF",
        "SR" => "a set-reset latch, which has no rows here: map it to NAND or NOR gates",
        "FF" => "a register without a clock, which has no rows here",
        "MUX8" | "MUX16" => "a multiplexer of more than 8 pins: map it to $_MUX_ or $_MUX4_",
        _ => return None,
    };
    Some(Err(words.to_string()))
}

type Made = (Vec<&'static str>, &'static str, Kind);

fn combinational(inner: &str) -> Option<Made> {
    let bit = |s: u32, at: u32| s >> at & 1 == 1;
    let table = |pins: Vec<&'static str>, f: &dyn Fn(u32) -> bool| -> Option<Made> {
        let table = Table::of(pins.len(), f);
        Some((pins, "Y", Kind::Table(table)))
    };
    match inner {
        "BUF" => table(vec!["A"], &|s| s == 1),
        "NOT" => table(vec!["A"], &|s| s == 0),
        "AND" => table(vec!["A", "B"], &|s| s == 3),
        "NAND" => table(vec!["A", "B"], &|s| s != 3),
        "OR" => table(vec!["A", "B"], &|s| s != 0),
        "NOR" => table(vec!["A", "B"], &|s| s == 0),
        "XOR" => table(vec!["A", "B"], &|s| s == 1 || s == 2),
        "XNOR" => table(vec!["A", "B"], &|s| s == 0 || s == 3),
        "ANDNOT" => table(vec!["A", "B"], &|s| s == 1),
        "ORNOT" => table(vec!["A", "B"], &|s| s != 2),
        "MUX" => table(vec!["A", "B", "S"], &|s| bit(s, s >> 2 & 1)),
        "NMUX" => table(vec!["A", "B", "S"], &|s| !bit(s, s >> 2 & 1)),
        "MUX4" => table(vec!["A", "B", "C", "D", "S", "T"], &|s| bit(s, s >> 4 & 3)),
        "AOI3" => table(vec!["A", "B", "C"], &|s| !(s & 3 == 3 || bit(s, 2))),
        "OAI3" => table(vec!["A", "B", "C"], &|s| !(s & 3 != 0 && bit(s, 2))),
        "AOI4" => table(vec!["A", "B", "C", "D"], &|s| !(s & 3 == 3 || s & 12 == 12)),
        "OAI4" => table(vec!["A", "B", "C", "D"], &|s| !(s & 3 != 0 && s & 12 != 0)),
        "TBUF" => {
            let data = Table::of(2, |s| bit(s, 0));
            let enable = Table::of(2, |s| bit(s, 1));
            Some((vec!["A", "E"], "Y", Kind::Driver(Driver { data, enable })))
        }
        _ => None,
    }
}

/// The letters after a register's family: each N or P (active low or high, falling or rising) or a reset value 0 or 1.
fn sequential(inner: &str) -> Option<Made> {
    let (family, letters) = inner.split_once('_')?;
    let letters: Vec<char> = letters.chars().collect();
    let polarity = |at: usize| match letters.get(at) {
        Some('P') => Some(true),
        Some('N') => Some(false),
        _ => None,
    };
    let value = |at: usize| match letters.get(at) {
        Some('1') => Some(true),
        Some('0') => Some(false),
        _ => None,
    };
    let latch = family.starts_with("DLATCH");
    let mut spec = Spec { clock: "C", active: polarity(0)?, latch, ..Spec::default() };
    if latch {
        spec.clock = "E";
    }
    match (family, letters.len()) {
        ("DFF", 1) | ("DLATCH", 1) => {}
        ("DFFE", 2) => spec.enable = Some(polarity(1)?),
        ("DFF", 3) | ("DLATCH", 3) => spec.reset = Some((polarity(1)?, value(2)?)),
        ("DFFE", 4) => {
            spec.reset = Some((polarity(1)?, value(2)?));
            spec.enable = Some(polarity(3)?);
        }
        ("DFFSR", 3) | ("DLATCHSR", 3) => spec.set_clear = Some((polarity(1)?, polarity(2)?)),
        ("DFFSRE", 4) => {
            spec.set_clear = Some((polarity(1)?, polarity(2)?));
            spec.enable = Some(polarity(3)?);
        }
        ("SDFF", 3) => spec.sync = Some((polarity(1)?, value(2)?)),
        ("SDFFE" | "SDFFCE", 4) => {
            spec.sync = Some((polarity(1)?, value(2)?));
            spec.enable = Some(polarity(3)?);
            spec.enable_first = family == "SDFFCE";
        }
        _ => return None,
    }
    Some(spec.made())
}

#[derive(Default)]
struct Spec {
    clock: &'static str,
    active: bool,
    latch: bool,
    /// Asynchronous: active level, value.
    reset: Option<(bool, bool)>,
    /// Active levels of set and clear.
    set_clear: Option<(bool, bool)>,
    /// Synchronous: active level, value.
    sync: Option<(bool, bool)>,
    enable: Option<bool>,
    /// The enable wins over the synchronous reset.
    enable_first: bool,
}

impl Spec {
    fn made(&self) -> Made {
        let mut pins = vec!["D", self.clock];
        if self.set_clear.is_some() {
            pins.extend(["S", "R"]);
        }
        if self.reset.is_some() || self.sync.is_some() {
            pins.push("R");
        }
        if self.enable.is_some() {
            pins.push("E");
        }
        let n = pins.len();
        let place = |pin: &str| pins.iter().position(|&other| other == pin).unwrap_or(0);
        let is = |s: u32, pin: &str, level: bool| (s >> place(pin) & 1 == 1) == level;
        let forced = |s: u32, v: bool| match (self.reset, self.set_clear) {
            (Some((level, value)), _) => value == v && is(s, "R", level),
            (_, Some((set, clear))) => {
                if v {
                    is(s, "S", set)
                } else {
                    is(s, "R", clear)
                }
            }
            _ => false,
        };
        let next = |s: u32| {
            let (data, old) = (s & 1 == 1, s >> n & 1 == 1);
            let on = self.enable.is_none_or(|level| is(s, "E", level));
            match self.sync {
                Some((level, value)) if is(s, "R", level) && (on || !self.enable_first) => value,
                _ if on => data,
                _ => old,
            }
        };
        let register = Register {
            pins: n,
            clock: 1,
            active: self.active,
            latch: self.latch,
            clear: Function::of(n, |s| forced(s, false)),
            preset: Function::of(n, |s| forced(s, true)),
            next: Function::of(n + 1, next),
            inverted: false,
        };
        (pins, "Q", Kind::Register(register))
    }
}

#[cfg(test)]
pub mod tests {
    use super::*;
    use crate::rows::Entry;

    fn lines(entry: &Entry) -> (String, String) {
        let text = entry.text("T");
        let lines: Vec<&str> = text.lines().collect();
        (lines[1][3..].to_string(), lines[2][3..].to_string())
    }

    fn rows(title: &str) -> (String, String) {
        match yosys(title).unwrap().unwrap().kind {
            Kind::Register(register) => {
                assert_eq!(register.trouble(), None);
                lines(&register.entry())
            }
            Kind::Driver(driver) => lines(&driver.entry()),
            Kind::Table(table) => lines(&table.entry(crate::rows::COMBINATIONAL)),
            Kind::Wide(_) => unreachable!(),
        }
    }

    #[test]
    fn rows_of_registers() {
        for (title, cc, co) in [
            ("$_DFF_P_", "26,16", "206,266,M,316"),
            ("$_DFF_PN0_", "14,M,132,72", "1032,1332,M,1472,1214"),
            ("$_DFF_PN1_", "132,14,M,72", "1032,1332,M,1472,1414"),
            ("$_DFFE_PP_", "132,72", "1032,1332,M,1472,1470,M,1330"),
            ("$_DFFE_PN0P_", "60,M,552,352", "4152,5552,M,6352,5060,6350,M,5550"),
            ("$_SDFF_PN0_", "130,M,34,72", "1032,1330,M,1234,M,1472,1070"),
            ("$_DFFSR_PNN_", "54,M,552,62,M,352", "4152,5552,M,6352,6062,5054"),
            ("$_DLATCH_P_", "22,12", "202,262,M,312"),
            ("$_DLATCH_PN0_", "24,M,112,52", "1012,1312,M,1452,1224"),
            ("$_TBUF_", "23,13", "203,201"),
            // C1490 of source 000: falling edge, clear active high.
            ("$_DFF_NP0_", "22,M,134,74", "1034,1334,M,1474,1222"),
        ] {
            assert_eq!(rows(title), (cc.to_string(), co.to_string()), "{title}");
        }
    }

    #[test]
    fn c1490_byte_for_byte() {
        let Kind::Register(register) = yosys("$_DFF_NP0_").unwrap().unwrap().kind else { panic!() };
        assert_eq!(
            register.entry().text("C1490"),
            "Name,C1490,3\nCC,22,M,134,74\nCO,1034,1334,M,1474,1222\nSC,23,M,135,75\nSO,1035,1335,M,1475,1223\nEnd\n"
        );
    }

    /// The registers that examples/built_in has by hand are those of the rule.
    #[test]
    fn registers_of_the_example() {
        let library = include_str!("../../../examples/built_in/lib.txt");
        for (title, name) in [("$_DFF_P_", "DFF"), ("$_DFF_NP0_", "DFFR"), ("$_DLATCH_P_", "LATCH")] {
            let Kind::Register(register) = yosys(title).unwrap().unwrap().kind else { panic!() };
            assert!(library.contains(&register.entry().text(name)), "{name}");
        }
    }

    #[test]
    fn scan_register() {
        // D SE SI CK RN
        let scan = Register {
            pins: 5,
            clock: 3,
            active: true,
            latch: false,
            clear: Function::of(5, |s| s & 16 == 0),
            preset: Function::of(5, |_| false),
            next: Function::of(6, |s| if s & 2 == 2 { s & 4 == 4 } else { s & 1 == 1 }),
            inverted: false,
        };
        let (cc, co) = lines(&scan.entry());
        assert_eq!(cc, "14,M,2432,M,2132,M,332,1432,M,1072,M,272");
        assert_eq!(co, "20432,22072,M,21132,20232,26432,M,26132,M,24332,M,31432,M,31072,M,30272,24014");
    }

    #[test]
    fn toggles_name_the_old_value() {
        let toggle = Register {
            next: Function::of(3, |s| (s & 1 == 1) != (s & 4 == 4)),
            ..match plain_register(true) {
                Kind::Register(register) => register,
                _ => unreachable!(),
            }
        };
        assert_eq!(toggle.trouble(), Some(crate::rows::registers::Trouble::NamesOld));
    }

    /// All types of Yosys that are registers with rows.
    pub fn register_titles() -> Vec<String> {
        let mut titles = Vec::new();
        let mut add = |family: &str, letters: &[&str]| {
            let mut all = vec![String::new()];
            for choice in letters {
                all = all.iter().flat_map(|prefix| choice.chars().map(move |c| format!("{prefix}{c}"))).collect();
            }
            titles.extend(all.into_iter().map(|letters| format!("$_{family}_{letters}_")));
        };
        add("DFF", &["NP"]);
        add("DFFE", &["NP", "NP"]);
        add("DFF", &["NP", "NP", "01"]);
        add("DFFE", &["NP", "NP", "01", "NP"]);
        add("DFFSR", &["NP", "NP", "NP"]);
        add("SDFF", &["NP", "NP", "01"]);
        add("SDFFE", &["NP", "NP", "01", "NP"]);
        add("SDFFCE", &["NP", "NP", "01", "NP"]);
        add("DLATCH", &["NP"]);
        add("DLATCH", &["NP", "NP", "01"]);
        add("DFFSRE", &["NP", "NP", "NP", "NP"]);
        add("DLATCHSR", &["NP", "NP", "NP"]);
        // 88 that were tried by hand, and those of set and clear with an enable or as latches.
        assert_eq!(titles.len(), 88 + 16 + 8);
        titles
    }

    /// A register's behaviour: the value after a step of its pins.
    fn step(register: &Register, before: u32, after: u32, q: bool) -> bool {
        let forced = |s: u32| (register.clear.at(s), register.preset.at(s));
        let held = |s: u32, q: bool| match forced(s) {
            (true, false) => false,
            (false, true) => true,
            _ => q,
        };
        if forced(after) != (false, false) {
            return held(after, q);
        }
        let level = |s: u32| (s >> register.clock & 1 == 1) == register.active;
        let samples = if register.latch { level(after) } else { level(after) && !level(before) };
        if samples {
            let old = u32::from(q) << register.pins;
            register.next.at(after | old)
        } else {
            q
        }
    }

    /// Doing what a row says, from an old value and a setting of the pins not named: the clock passes from its resting
    /// value to the active one where both are named.
    fn outcome(register: &Register, row: u32, others: u32, q: bool) -> bool {
        let n = register.pins;
        let mut setting = others;
        let mut both = false;
        for pin in 0..n {
            let place = 2 * (n - 1 - pin);
            let [zero, one] = [row >> (place + 2) & 1 == 1, row >> (place + 1) & 1 == 1];
            if zero && one {
                both = true;
            } else if zero {
                setting &= !(1 << pin);
            } else if one {
                setting |= 1 << pin;
            }
        }
        let clock = 1u32 << register.clock;
        let (first, last) = if both {
            let active = if register.active { clock } else { 0 };
            (setting & !clock | (clock ^ active), setting & !clock | active)
        } else {
            (setting, setting)
        };
        let q = step(register, first, first, q);
        step(register, first, last, q)
    }

    fn true_rows(register: &Register, entry: &Entry) -> bool {
        (0..2).all(|v| {
            entry.control[v].iter().all(|&row| {
                (0..1u32 << register.pins)
                    .all(|others| [false, true].iter().all(|&q| outcome(register, row, others, q) == (v == 1)))
            })
        })
    }

    /// None is missing: where a step from quiet pins, or forcing, gives v from either old value, a row is met.
    fn none_missing(register: &Register, entry: &Entry) -> bool {
        let n = register.pins;
        let clock = 1u32 << register.clock;
        let column = |pin: usize, value: bool| 1u32 << (2 * (n - 1 - pin) + if value { 1 } else { 2 });
        (0..2).all(|v| {
            (0..1u32 << n).all(|s| {
                let allowed: u32 = (0..n).map(|pin| column(pin, s >> pin & 1 == 1)).sum();
                let met = |allowed: u32| entry.control[v].iter().any(|&row| row & !allowed == 0);
                let level = (s & clock != 0) == register.active;
                let forced = (register.clear.at(s), register.preset.at(s));
                let gives = |s: u32| [0, 1u32 << n].iter().all(|&old| register.next.at(s | old) == (v == 1));
                if forced == (v == 0, v == 1) && level != register.latch {
                    return met(allowed);
                }
                if forced == (false, false) && gives(s) && level {
                    let both = column(register.clock, false) | column(register.clock, true);
                    return met(if register.latch { allowed } else { allowed | both });
                }
                true
            })
        })
    }

    #[test]
    fn registers_behave_as_their_rows_say() {
        for title in register_titles() {
            let Kind::Register(register) = yosys(&title).unwrap().unwrap().kind else { panic!() };
            assert_eq!(register.trouble(), None, "{title}");
            let entry = register.entry();
            assert!(true_rows(&register, &entry), "{title}");
            assert!(none_missing(&register, &entry), "{title}");
            // The inverted output exchanges the groups.
            let turned = Register { inverted: true, ..register.clone() }.entry();
            assert_eq!(turned.control, [entry.control[1].clone(), entry.control[0].clone()]);
            // A wrong row and a missing row are found.
            let mut wrong = entry.clone();
            wrong.control.swap(0, 1);
            assert!(!true_rows(&register, &wrong), "{title}");
            let mut less = entry.clone();
            less.control[0].pop();
            assert!(!none_missing(&register, &less), "{title}");
        }
    }

    /// A pin is seen by a row: with what the row says, from the output value that it names, the pin's two values give
    /// two outcomes.
    #[test]
    fn observing_rows_tell_the_pin() {
        for title in register_titles() {
            let Kind::Register(register) = yosys(&title).unwrap().unwrap().kind else { panic!() };
            let entry = register.entry();
            let n = register.pins;
            for pin in 0..n {
                if pin == register.clock {
                    continue;
                }
                assert!(!entry.observe[pin].is_empty());
                for &row in &entry.observe[pin] {
                    assert_eq!(row >> (2 * n + 3), 1);
                    let olds: &[bool] = match row >> (2 * n + 1) & 3 {
                        0 => &[false, true],
                        1 => &[true],
                        2 => &[false],
                        _ => panic!(),
                    };
                    let place = 2 * (n - 1 - pin);
                    let free = row & !(3 << (place + 1)) & ((1 << (2 * n + 1)) - 1);
                    for others in 0..1u32 << n {
                        for &q in olds {
                            let at = |bit: usize| outcome(&register, free | 1 << (place + bit), others, q);
                            assert_ne!(at(2), at(1), "{title} pin {pin} row {row:o} q {q}");
                        }
                    }
                }
            }
        }
    }

    #[test]
    fn other_types() {
        assert!(yosys("$_ALDFF_PN_").unwrap().is_err());
        assert!(yosys("$_SR_NN_").unwrap().is_err());
        assert!(yosys("$add").is_none());
        assert!(yosys("$_NOPE_").is_none());
        assert!(yosys("$_DFF_X_").is_none());
        assert!(yosys("$_DFF__").is_none());
    }

    #[test]
    fn wide_gates_keep_their_kind() {
        assert!(matches!(gate_by_word("AND", 8), Some(Kind::Table(_))));
        assert!(matches!(gate_by_word("AND", 9), Some(Kind::Wide(_))));
        assert!(matches!(gate_by_word("XOR", 5), Some(Kind::Table(_))));
        assert!(matches!(gate_by_word("XNOR", 6), Some(Kind::Wide(_))));
    }
}
