//! Fewer functions than the netlist has: where entries run out, a function is written by another one, with its pins in
//! another order, an inverter of depth 0 behind it and, where that is not enough, inverters of depth 0 before its pins.
//! The rows of a function and of its complement are the same with the values exchanged, so every number stays.

use crate::rows::Table;
use std::collections::HashMap;

/// More functions than any library has: a plan for them would take long.
pub const MOST_FUNCTIONS: usize = 256;
/// Up to so many pins every order and every inversion of pins is tried; above, the complement alone.
const MOST_TURNED: usize = 5;

pub struct Function {
    pub table: Table,
    pub gates: usize,
    /// No gate of it has tied pins (K7 reads those as one wire) or constants at its pins.
    pub pins_turn: bool,
}

/// How a function is written by another: pin j of that one reads pin `pins[j]` of this one, inverted where bit j of
/// `flips` is set.
#[derive(Clone, Debug, PartialEq, Eq)]
pub struct Turn {
    pub to: usize,
    pub pins: Vec<usize>,
    pub flips: u32,
    pub inverted: bool,
}

impl Turn {
    /// Lines that a gate of it needs besides its own.
    fn lines(&self) -> usize {
        usize::from(self.inverted) + self.flips.count_ones() as usize
    }

    /// What it takes: 0 another order of pins, 1 an inverter behind it, 2 inverters before pins.
    fn means(&self) -> usize {
        match (self.flips, self.inverted) {
            (0, false) => 0,
            (0, true) => 1,
            _ => 2,
        }
    }
}

/// For each function how it is written by another that stays; `others` are entries that are no such functions. The count
/// of entries that are left where they are still too many.
pub fn plan(
    functions: &[Function],
    others: usize,
    has_inverter: bool,
    most: usize,
) -> Result<Vec<Option<Turn>>, usize> {
    let all = functions.len() + others;
    if functions.len() > MOST_FUNCTIONS {
        return Err(all);
    }
    let turns = turns(functions);
    let mut plan = Plan { functions, turns: &turns, written: vec![None; functions.len()] };
    for means in 0..=2 {
        loop {
            let inverter = usize::from(!has_inverter && plan.inverts());
            let left = all - plan.written.iter().flatten().count() + inverter;
            if left <= most {
                return Ok(plan.turns_taken());
            }
            if !plan.take_one(means) {
                break;
            }
        }
    }
    Err(all - plan.written.iter().flatten().count() + usize::from(!has_inverter && plan.inverts()))
}

struct Plan<'a> {
    functions: &'a [Function],
    /// For each function those that it can be written by, the cheapest first.
    turns: &'a [Vec<Turn>],
    /// The place in its turns.
    written: Vec<Option<usize>>,
}

impl Plan<'_> {
    fn turn(&self, of: usize) -> Option<&Turn> {
        self.written[of].map(|at| &self.turns[of][at])
    }

    fn inverts(&self) -> bool {
        (0..self.functions.len()).any(|of| self.turn(of).is_some_and(|turn| turn.means() > 0))
    }

    fn turns_taken(&self) -> Vec<Option<Turn>> {
        (0..self.functions.len()).map(|of| self.turn(of).cloned()).collect()
    }

    /// The cheapest way to write a function by one that stays, but for `but`.
    fn way(&self, of: usize, but: usize, means: usize) -> Option<usize> {
        self.turns[of]
            .iter()
            .position(|turn| turn.to != but && self.written[turn.to].is_none() && turn.means() <= means)
    }

    fn lines(&self, of: usize, way: usize) -> usize {
        self.functions[of].gates * self.turns[of][way].lines()
    }

    /// Writes one more function by another: the one that takes the fewest lines, with those that were written by it.
    fn take_one(&mut self, means: usize) -> bool {
        let mut best: Option<(isize, usize, Vec<(usize, usize)>)> = None;
        'each: for of in (0..self.functions.len()).filter(|&of| self.written[of].is_none()) {
            let mut moved = Vec::new();
            let mut more = 0;
            let by_it = (0..self.functions.len()).filter(|&other| self.turn(other).is_some_and(|turn| turn.to == of));
            for other in std::iter::once(of).chain(by_it) {
                let Some(way) = self.way(other, of, means) else { continue 'each };
                let before = self.written[other].map_or(0, |way| self.lines(other, way));
                more += self.lines(other, way) as isize - before as isize;
                moved.push((other, way));
            }
            let gates = self.functions[of].gates;
            if best.as_ref().is_none_or(|(least, fewest, _)| (more, gates) < (*least, *fewest)) {
                best = Some((more, gates, moved));
            }
        }
        let Some((_, _, moved)) = best else { return false };
        for (of, way) in moved {
            self.written[of] = Some(way);
        }
        true
    }
}

/// For each function the cheapest way to write it by each other one.
fn turns(functions: &[Function]) -> Vec<Vec<Turn>> {
    let places: HashMap<(usize, Bits), usize> =
        functions.iter().enumerate().map(|(at, of)| ((of.table.pins, bits(&of.table)), at)).collect();
    let mut orders: HashMap<usize, Vec<Vec<usize>>> = HashMap::new();
    let mut all = Vec::new();
    for (own, function) in functions.iter().enumerate() {
        let n = function.table.pins;
        let of = bits(&function.table);
        let orders = orders.entry(n).or_insert_with(|| orders_of(n));
        let mut found: HashMap<usize, Turn> = HashMap::new();
        let all_flips = if n <= MOST_TURNED && function.pins_turn { 1u32 << n } else { 1 };
        for pins in orders.iter() {
            for flips in 0..all_flips {
                let straight = turned(n, of, pins, flips);
                for inverted in [false, true] {
                    let table = if inverted { complement(n, straight) } else { straight };
                    let Some(&to) = places.get(&(n, table)).filter(|&&to| to != own) else { continue };
                    let turn = Turn { to, pins: pins.clone(), flips, inverted };
                    let key = |turn: &Turn| (turn.means(), turn.lines());
                    if found.get(&to).is_none_or(|other| key(&turn) < key(other)) {
                        found.insert(to, turn);
                    }
                }
            }
        }
        let mut found: Vec<Turn> = found.into_values().collect();
        found.sort_by_key(|turn| (turn.lines(), turn.means(), turn.to));
        all.push(found);
    }
    all
}

/// A table of at most eight pins, a bit for each setting.
type Bits = [u64; 4];

fn bits(table: &Table) -> Bits {
    let mut bits = [0; 4];
    for s in (0..1u32 << table.pins).filter(|&s| table.at(s)) {
        bits[s as usize / 64] |= 1 << (s % 64);
    }
    bits
}

fn complement(n: usize, of: Bits) -> Bits {
    let mut bits = [0; 4];
    for (at, word) in bits.iter_mut().enumerate().take((1usize << n).div_ceil(64)) {
        *word = !of[at] & if n >= 6 { u64::MAX } else { (1 << (1 << n)) - 1 };
    }
    bits
}

/// The other function of a turn, before an inverter behind it.
fn turned(n: usize, of: Bits, pins: &[usize], flips: u32) -> Bits {
    if flips == 0 && pins.iter().enumerate().all(|(at, &pin)| at == pin) {
        return of;
    }
    let mut bits = [0; 4];
    for z in 0..1u32 << n {
        let x = pins.iter().enumerate().fold(0, |x, (at, &pin)| x | ((z ^ flips) >> at & 1) << pin) as usize;
        bits[z as usize / 64] |= (of[x / 64] >> (x % 64) & 1) << (z % 64);
    }
    bits
}

fn orders_of(n: usize) -> Vec<Vec<usize>> {
    if n > MOST_TURNED {
        return vec![(0..n).collect()];
    }
    let mut orders = vec![Vec::new()];
    for _ in 0..n {
        orders = orders
            .iter()
            .flat_map(|order: &Vec<usize>| {
                (0..n).filter(|pin| !order.contains(pin)).map(|pin| [&order[..], &[pin]].concat())
            })
            .collect();
    }
    orders
}

#[cfg(test)]
mod tests {
    use super::*;

    fn function(table: Table, gates: usize) -> Function {
        Function { table, gates, pins_turn: true }
    }

    fn and(n: usize) -> Table {
        Table::of(n, |s| s == (1 << n) - 1)
    }

    fn nand(n: usize) -> Table {
        Table::of(n, |s| s != (1 << n) - 1)
    }

    /// By definition: the function is the other one of turned pins, inverted where that is said.
    fn holds(functions: &[Function], of: usize, turn: &Turn) -> bool {
        let (table, other) = (&functions[of].table, &functions[turn.to].table);
        (0..1u32 << table.pins).all(|x| {
            let z = turn.pins.iter().enumerate().fold(0, |z, (at, &pin)| z | (x >> pin & 1) << at) ^ turn.flips;
            table.at(x) == (other.at(z) != turn.inverted)
        })
    }

    #[test]
    fn the_rarer_is_written() {
        let functions = [function(and(2), 3), function(nand(2), 5), function(and(3), 1), function(nand(3), 1)];
        // Nothing where there is room.
        assert_eq!(plan(&functions, 0, false, 4), Ok(vec![None; 4]));
        // The inverter is an entry too: two are written for one that is saved.
        let taken = plan(&functions, 0, false, 3).unwrap();
        assert_eq!(taken.iter().flatten().count(), 2);
        assert!(taken[0].as_ref().is_some_and(|turn| turn.to == 1 && turn.inverted && turn.flips == 0));
        assert!(taken[1].is_none());
        let taken = plan(&functions, 0, true, 3).unwrap();
        assert_eq!(taken.iter().flatten().count(), 1);
        assert_eq!(plan(&functions, 0, true, 1), Err(2));
    }

    #[test]
    fn an_order_of_pins_costs_nothing() {
        let functions = [
            function(Table::of(3, |s| s & 3 == 3 || s & 4 == 4), 2),
            function(Table::of(3, |s| s & 6 == 6 || s & 1 == 1), 9),
            function(nand(2), 1),
            function(and(2), 1),
        ];
        let taken = plan(&functions, 0, false, 3).unwrap();
        let turn = taken[0].as_ref().unwrap();
        assert_eq!((turn.to, turn.lines()), (1, 0));
        assert!(holds(&functions, 0, turn) && taken[1..].iter().all(Option::is_none));
    }

    #[test]
    fn pins_that_do_not_turn() {
        let or = Table::of(2, |s| s != 0);
        let mut functions = [function(or, 1), function(and(2), 4)];
        let taken = plan(&functions, 0, true, 1).unwrap();
        assert_eq!(taken[0].as_ref().unwrap().lines(), 3);
        // OR2 keeps its pins, so that AND2 is the one that turns.
        functions[0].pins_turn = false;
        let taken = plan(&functions, 0, true, 1).unwrap();
        assert!(taken[0].is_none() && taken[1].as_ref().unwrap().flips == 3);
        functions[1].pins_turn = false;
        assert_eq!(plan(&functions, 0, true, 1), Err(2));
    }

    #[test]
    fn random_tables_hold() {
        let mut state = 5u64;
        let mut written = 0;
        for round in 0..40 {
            let n = 1 + round % 7;
            let mut functions: Vec<Function> = Vec::new();
            for _ in 0..12 {
                state = state.wrapping_mul(6_364_136_223_846_793_005).wrapping_add(1_442_695_040_888_963_407);
                let mixed = state >> 11;
                let table = Table::of(n, |s| mixed >> (s * 7 % 53) & 1 == 1);
                let flips = if n > MOST_TURNED { 0 } else { (mixed % 5) as u32 & ((1 << n) - 1) };
                let other = |s: u32| {
                    let turned =
                        if n > MOST_TURNED { s } else { (0..n).fold(0, |x, at| x | (s >> at & 1) << (n - 1 - at)) };
                    !table.at(turned ^ flips)
                };
                for table in [Table::of(n, other), table.clone()] {
                    if !functions.iter().any(|other| other.table == table) {
                        functions.push(function(table, 1 + (mixed % 7) as usize));
                    }
                }
            }
            let least = plan(&functions, 0, false, 0).unwrap_err();
            assert!(least < functions.len() || n == 1, "{n} pins");
            for most in [least, least + 3] {
                let taken = plan(&functions, 0, false, most).unwrap();
                for (of, turn) in taken.iter().enumerate() {
                    if let Some(turn) = turn {
                        assert!(holds(&functions, of, turn) && taken[turn.to].is_none());
                        written += 1;
                    }
                }
            }
        }
        assert!(written > 200, "{written}");
    }
}
