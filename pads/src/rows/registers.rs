//! Rows of registers, latches and three-state drivers, by one rule for all of them; C1490 of source 000 is its model.
//!
//! A register has a next value over its sampled pins and its own old value, a clock with an active edge (a latch a gate
//! with an active level), perhaps clear and preset. Depth 0 in CC and CO, 1 in SC and SO (000, section IV.B).

use crate::rows::primes::{primes, Cube};
use crate::rows::{descending, Entry, Group, Named, Table, COMBINATIONAL, SEQUENTIAL};

/// A function of the pins (pin i is bit i), and for the next value of the old one (bit `pins`).
#[derive(Clone, Debug, PartialEq, Eq)]
pub struct Function {
    pub bits: Vec<bool>,
}

impl Function {
    pub fn of(variables: usize, f: impl Fn(u32) -> bool) -> Self {
        Function { bits: (0..1u32 << variables).map(f).collect() }
    }

    pub fn at(&self, setting: u32) -> bool {
        self.bits[setting as usize]
    }

    pub fn depends(&self, variable: usize) -> bool {
        (0..self.bits.len() as u32).any(|s| self.at(s) != self.at(s ^ 1 << variable))
    }
}

#[derive(Clone, Debug, PartialEq, Eq)]
pub struct Register {
    pub pins: usize,
    pub clock: usize,
    /// The clock's value after its active edge, or the gate's active level.
    pub active: bool,
    /// A latch, whose gate is open at the active level.
    pub latch: bool,
    /// Of the pins.
    pub clear: Function,
    pub preset: Function,
    /// Of the pins and the old value.
    pub next: Function,
    /// The output is the inverted one.
    pub inverted: bool,
}

/// Why a register has no rows.
#[derive(Clone, Copy, Debug, PartialEq, Eq)]
pub enum Trouble {
    /// A pin is clock, forcing or sampled, and one of these again.
    Roles(usize),
    /// The next value can be set only by naming the old one (a toggle or JK register).
    NamesOld,
}

impl Register {
    fn forces(&self, pin: usize) -> bool {
        self.clear.depends(pin) || self.preset.depends(pin)
    }

    fn old(&self) -> usize {
        self.pins
    }

    fn sampled(&self) -> Vec<usize> {
        (0..self.pins).filter(|&pin| self.next.depends(pin)).collect()
    }

    fn forcing(&self) -> Vec<usize> {
        (0..self.pins).filter(|&pin| self.forces(pin)).collect()
    }

    /// Pins with two roles have no rows; a next value that names the old one needs a part of its own.
    pub fn trouble(&self) -> Option<Trouble> {
        for pin in 0..self.pins {
            let roles = [pin == self.clock, self.forces(pin), self.next.depends(pin)];
            if roles.into_iter().filter(|&role| role).count() > 1 {
                return Some(Trouble::Roles(pin));
            }
        }
        let wrong = |v: bool| {
            self.next_is(v).iter().any(|cube| {
                let old = 1 << self.old();
                if v {
                    cube.zeros & old != 0
                } else {
                    cube.ones & old != 0
                }
            })
        };
        (wrong(false) || wrong(true)).then_some(Trouble::NamesOld)
    }

    /// The prime implicants of 'next = v', over the sampled pins and the old value.
    fn next_is(&self, v: bool) -> Vec<Cube> {
        let mut variables = self.sampled();
        variables.push(self.old());
        primes(&variables, |s| self.next.at(s) == v)
    }

    /// Those that do not name the old value: one that names it as v only keeps v.
    fn clocked_to(&self, v: bool) -> Vec<Cube> {
        let old = self.old();
        self.next_is(v).into_iter().filter(|cube| !cube.names(old)).collect()
    }

    /// Neither clear nor preset is active.
    fn quiet(&self) -> Vec<Cube> {
        primes(&self.forcing(), |s| !self.clear.at(s) && !self.preset.at(s))
    }

    /// v is forced and the other value not.
    fn forced(&self, v: bool, over: &[usize], also: u32) -> Vec<Cube> {
        primes(over, |s| {
            let s = s | also;
            let (clear, preset) = (self.clear.at(s), self.preset.at(s));
            if v {
                preset && !clear
            } else {
                clear && !preset
            }
        })
    }

    /// The clock goes through its active edge: both values. A latch's gate is at its active level.
    fn clocked(&self, cube: Cube, quiet: Cube) -> Named {
        let mut named = Named::of(cube.and(quiet));
        if self.latch {
            named.pins = named.pins.with(self.clock, self.active);
        } else {
            named.both = 1 << self.clock;
        }
        named
    }

    /// The clock rests after its active edge; a latch's gate is closed.
    fn resting(&self, cube: Cube) -> Cube {
        cube.with(self.clock, self.active != self.latch)
    }

    /// The register's own value as the output shows it.
    fn shown(&self, value: bool) -> bool {
        value != self.inverted
    }

    fn control(&self, v: bool) -> Group {
        let forced = self.forced(v, &self.forcing(), 0);
        let mut rows = descending(forced.into_iter().map(|cube| Named::of(self.resting(cube))), self.pins);
        let quiet = self.quiet();
        let clocked = self.clocked_to(v).into_iter().flat_map(|cube| quiet.iter().map(move |&quiet| (cube, quiet)));
        rows.extend(descending(clocked.map(|(cube, quiet)| self.clocked(cube, quiet)), self.pins));
        rows
    }

    fn observe_sampled(&self, pin: usize) -> Group {
        let mut over: Vec<usize> = self.sampled().into_iter().filter(|&other| other != pin).collect();
        over.push(self.old());
        let old = 1 << self.old();
        let changes = primes(&over, |s| self.next.at(s) != self.next.at(s | 1 << pin));
        let mut rows = Vec::new();
        for cube in changes {
            for &quiet in &self.quiet() {
                let pins = Cube { ones: cube.ones & !old, zeros: cube.zeros & !old };
                let mut named = self.clocked(pins, quiet);
                named.observe = true;
                named.output = cube.names(self.old()).then(|| self.shown(cube.ones & old != 0));
                rows.push(named);
            }
        }
        descending(rows, self.pins)
    }

    fn observe_clock(&self) -> Group {
        let mut rows = Vec::new();
        // The output at 1, then at 0: the value that it shows goes to 0, then to 1.
        for shown in [false, true] {
            let v = self.shown(shown);
            let mut named = Vec::new();
            for cube in self.clocked_to(v) {
                for &quiet in &self.quiet() {
                    let mut row = self.clocked(cube, quiet);
                    row.observe = true;
                    row.output = Some(!shown);
                    named.push(row);
                }
            }
            rows.extend(descending(named, self.pins));
        }
        rows
    }

    fn observe_forcing(&self, pin: usize) -> Group {
        let over: Vec<usize> = self.forcing().into_iter().filter(|&other| other != pin).collect();
        let mut rows = Vec::new();
        for v in [false, true] {
            for active in [false, true] {
                let bit = u32::from(active) << pin;
                let rest = u32::from(!active) << pin;
                // With the pin at this value v is forced; at the other neither is.
                let changes = primes(&over, |s| {
                    let forced = |s: u32| (self.clear.at(s), self.preset.at(s));
                    forced(s | bit) == (!v, v) && forced(s | rest) == (false, false)
                });
                for cube in changes {
                    rows.push(Named {
                        observe: true,
                        output: Some(self.shown(!v)),
                        ..Named::of(self.resting(cube.with(pin, active)))
                    });
                }
            }
        }
        descending(rows, self.pins)
    }

    /// The entry. `trouble` must have found none.
    pub fn entry(&self) -> Entry {
        let by_value = [self.control(self.shown(false)), self.control(self.shown(true))];
        let observe = (0..self.pins).map(|pin| {
            if pin == self.clock {
                self.observe_clock()
            } else if self.forces(pin) {
                self.observe_forcing(pin)
            } else if self.next.depends(pin) {
                self.observe_sampled(pin)
            } else {
                Vec::new()
            }
        });
        Entry { pins: self.pins, depths: SEQUENTIAL, control: by_value, observe: observe.collect() }
    }
}

/// A three-state driver: what it drives while it is enabled.
#[derive(Clone, Debug, PartialEq, Eq)]
pub struct Driver {
    pub data: Table,
    pub enable: Table,
}

impl Driver {
    /// A value by the enable active and data giving it; a data pin is seen with the enable active, an enable pin with
    /// data at either value.
    pub fn entry(&self) -> Entry {
        let n = self.data.pins;
        let support = |table: &Table| -> Vec<usize> { (0..n).filter(|&pin| table.depends(pin)).collect() };
        let data = support(&self.data);
        let enabling = support(&self.enable);
        let enabled = primes(&enabling, |s| self.enable.at(s));
        let joined = |cubes: Vec<Cube>, make: fn(Cube) -> Named| -> Group {
            let pairs = cubes.into_iter().flat_map(|cube| enabled.iter().map(move |&on| cube.and(on)));
            // A pin that is data and enable may be asked for both values: no way.
            descending(pairs.filter(|cube| cube.ones & cube.zeros == 0).map(make), n)
        };
        let value = |e: bool| joined(primes(&data, |s| self.data.at(s) == e), Named::of);
        let observe = (0..n).map(|pin| {
            let others = |of: &[usize]| -> Vec<usize> { of.iter().copied().filter(|&other| other != pin).collect() };
            let changes = primes(&others(&data), |s| self.data.at(s) != self.data.at(s | 1 << pin));
            let mut rows = if data.contains(&pin) { joined(changes, Named::seen) } else { Vec::new() };
            if enabling.contains(&pin) {
                let turns = primes(&others(&enabling), |s| self.enable.at(s) != self.enable.at(s | 1 << pin));
                rows.extend(descending(turns.into_iter().map(Named::seen), n));
            }
            rows
        });
        Entry { pins: n, depths: COMBINATIONAL, control: [value(false), value(true)], observe: observe.collect() }
    }
}
