//! Random calls for as long as is asked. Each round has a seed of its own, and is one netlist with all that is done
//! to it: a failure is repeated by its round's seed alone.

use crate::comparison::Comparison;
use crate::extent::Extent;
use crate::pads::tally::Lists;
use crate::{advice, budgets, changes, chips, kept, pads, pairs, plans, ranges, tables};
use second::damage::any_damage;
use second::generate::{add_netlist, add_ranges, ladder, library_of, netlist_of, pair};
use second::generate::{Order, Shape, Wiring};
use second::random::Random;
use second::standing::STANDING;
use second::MOST_BYTES;
use std::time::{Duration, Instant};

/// What a round can be, and how often it is among a hundred.
const ROUNDS: [(usize, fn(&mut Comparison, &mut Random)); 11] = [
    (26, pairs::random),
    (6, a_ladder),
    (7, some_plans),
    (8, tables::random),
    (5, a_chip),
    (6, some_ranges),
    (3, long_texts),
    (12, a_list),
    (13, a_script),
    (7, some_budgets),
    (7, some_advice),
];

/// Lengths from here on count as near the longest text.
const NEAR: usize = MOST_BYTES - 600;

fn a_ladder(all: &mut Comparison, rng: &mut Random) {
    let gates = pairs::any_size(rng);
    pairs::ladder_of(all, rng, gates);
}

fn some_plans(all: &mut Comparison, rng: &mut Random) {
    let gates = rng.within(1, 12);
    let mut made = if rng.once_in(2) {
        ladder(rng, gates)
    } else {
        pair(rng, gates)
    };
    if rng.once_in(3) {
        add_ranges(rng, &mut made);
    }
    if rng.once_in(6) {
        any_damage(rng, &mut made);
    }
    let (lib, net) = (made.lib.bytes(), made.net.bytes());
    all.check_plans("plans", &lib, &net, plans::most_line(&net));
}

fn a_chip(all: &mut Comparison, rng: &mut Random) {
    let tree = rng.once_in(2);
    chips::at_every_setting(all, rng, tree, &mut chips::Shown::default());
    let turn = rng.below(1_000);
    chips::beside(all, rng, turn);
}

fn some_ranges(all: &mut Comparison, rng: &mut Random) {
    let turn = rng.below(1_000);
    ranges::random(all, rng, turn, &mut ranges::Shown::default());
}

/// A library or a netlist about as long as a text may be, as it is or damaged.
fn long_texts(all: &mut Comparison, rng: &mut Random) {
    let bytes = rng.within(NEAR, MOST_BYTES + 3);
    let mut made = if rng.once_in(2) {
        let mut made = library_of(rng, bytes);
        let shape = Shape {
            inputs: rng.within(0, 20),
            gates: rng.within(0, 60),
            undriven: rng.below(4),
            outputs: rng.within(0, 20),
            wiring: *rng.pick(&[Wiring::Any, Wiring::Deep, Wiring::Ladder]),
            order: *rng.pick(&[Order::Shuffled, Order::Backward]),
            scattered: rng.once_in(2),
        };
        add_netlist(rng, &mut made, &shape);
        made
    } else {
        netlist_of(rng, bytes)
    };
    if rng.once_in(2) {
        any_damage(rng, &mut made);
    }
    let (lib, net) = (made.lib.bytes(), made.net.bytes());
    all.check_rooms("long texts", &lib, &net);
}

fn some_table(rng: &mut Random) -> Vec<u32> {
    (0..STANDING).map(|_| rng.next() as u32).collect()
}

fn a_list(all: &mut Comparison, rng: &mut Random) {
    let mut other = some_table(rng);
    pads::random_list(&mut Lists::of(all), rng, &mut other);
}

fn a_script(all: &mut Comparison, rng: &mut Random) {
    let mut other = some_table(rng);
    changes::random_script(&mut changes::tally::Changes::of(all), rng, &mut other);
}

fn some_budgets(all: &mut Comparison, rng: &mut Random) {
    budgets::random(all, rng, &mut budgets::tally());
}

fn some_advice(all: &mut Comparison, rng: &mut Random) {
    advice::random(all, rng, &mut advice::tally());
}

/// The round of a seed.
fn round(all: &mut Comparison, seed: u64) {
    let mut rng = Random::from(seed);
    // The canaries and places of slices follow from the turn.
    all.turn = rng.below(1 << 16);
    let mut place = rng.below(100);
    for (share, run) in ROUNDS {
        if place < share {
            return run(all, &mut rng);
        }
        place -= share;
    }
}

/// The seed of the next round.
fn next(seed: u64) -> u64 {
    let mut mixed = seed.wrapping_add(0x9e37_79b9_7f4a_7c15);
    mixed = (mixed ^ mixed >> 30).wrapping_mul(0xbf58_476d_1ce4_e5b9);
    mixed = (mixed ^ mixed >> 27).wrapping_mul(0x94d0_49bb_1331_11eb);
    (mixed ^ mixed >> 31).max(1)
}

/// Kept calls, then rounds for so many seconds, and one at least; the first has the seed itself.
pub fn fuzz(seconds: u64, extent: Extent) -> Comparison {
    let begun = Instant::now();
    let mut seed = extent.seed;
    let mut all = Comparison::of(extent);
    all.watched = Some(Default::default());
    kept::kept(&mut all);
    let mut rounds = 0u64;
    loop {
        let failed = all.failed;
        round(&mut all, seed);
        if all.failed > failed {
            println!("  make fuzz SECONDS=0 SEED={seed:#x} repeats this round");
        }
        seed = next(seed);
        rounds += 1;
        if begun.elapsed() >= Duration::from_secs(seconds) {
            break;
        }
    }
    println!("{rounds} rounds in {} s", begun.elapsed().as_secs());
    all.tell_watched();
    all
}
