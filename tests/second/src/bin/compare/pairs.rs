//! Random pairs and ladders.

use crate::comparison::{Comparison, ANSWERS, ROOM};
use crate::extent::PAIRS;
use second::damage::{any_damage, babble, one_line, overlong, scramble};
use second::generate::{add_ranges, ladder, pair};
use second::random::Random;
use second::{analyse, Answer, Refusal, MOST_BYTES};
use second::{MOST_LINES, REFUSED};

/// Random ladders, besides those of chosen sizes.
const LADDERS: usize = 2_400;

/// One random pair: of good form, damaged at a chosen place, or scrambled.
pub fn random(all: &mut Comparison, rng: &mut Random) {
    let gates = match rng.below(200) {
        0..=119 => 8,
        120..=179 => 40,
        180..=196 => 200,
        _ => MOST_LINES,
    };
    let mut made = pair(rng, gates);
    if rng.once_in(4) {
        add_ranges(rng, &mut made);
    }
    let mut known = None;
    let label;
    match rng.below(20) {
        0..=6 => label = "random".to_string(),
        7..=11 => {
            let refusal = any_damage(rng, &mut made);
            label = format!("random, damaged for {}", refusal.number);
            known = Some(refusal);
        }
        12..=14 => {
            while known.is_none() {
                let mut copy = made.clone();
                known = one_line(rng, &mut copy);
                if known.is_some() {
                    made = copy;
                } else {
                    made = pair(rng, gates);
                }
            }
            label = format!(
                "random, causes in one line, lowest {}",
                known.unwrap().number
            );
        }
        15 | 16 => {
            // The head of one damaged copy and the tail of another.
            let mut other = made.clone();
            any_damage(rng, &mut made);
            any_damage(rng, &mut other);
            for (mine, theirs) in [(&mut made.lib, &other.lib), (&mut made.net, &other.net)] {
                let cut = rng.within(0, mine.lines.len().min(theirs.lines.len()));
                mine.lines.truncate(cut);
                mine.lines.extend_from_slice(&theirs.lines[cut..]);
                mine.unended |= theirs.unended;
            }
            label = "random, damaged twice".to_string();
        }
        _ => {
            label = "random, scrambled".to_string();
        }
    }
    let mut lib = made.lib.bytes();
    let mut net = made.net.bytes();
    if label.ends_with("scrambled") {
        match rng.below(8) {
            0 => overlong(rng, &mut lib),
            1 => overlong(rng, &mut net),
            2 => {
                let pieces = rng.within(0, 60);
                lib = babble(rng, pieces);
            }
            3 => {
                let pieces = rng.within(0, 60);
                net = babble(rng, pieces);
                if rng.once_in(2) {
                    lib.clear();
                }
            }
            _ => {
                for _ in 0..rng.within(1, 4) {
                    let text = if rng.once_in(2) { &mut lib } else { &mut net };
                    scramble(rng, text);
                }
            }
        }
    }
    let mut known = known.map(Refusal::code);
    if lib.len() > MOST_BYTES || net.len() > MOST_BYTES {
        known = Some(2 * REFUSED);
    }
    let mut room = if rng.once_in(3) {
        rng.below(ROOM)
    } else {
        ROOM
    };
    if rng.once_in(4) {
        if let Answer::Accepted { report, .. } = analyse(&lib, &net, usize::MAX) {
            let length = report.len();
            room = match rng.below(6) {
                0 => length,
                1 => length - 1,
                2 => length + 1,
                3 => rng.below(length),
                4 => rng.within(length, 2 * ROOM),
                _ => rng.below(3),
            };
            known = Some(if room < length {
                17 * REFUSED
            } else {
                length as u64
            });
        }
    }
    all.check(&label, &lib, &net, room, known);
}

/// Ladders of any size, most of them small, and of the sizes about which sets of 64 gates end.
pub fn ladders(all: &mut Comparison, rng: &mut Random) {
    let mut sizes = all.extent.random();
    let count = all.extent.count(LADDERS);
    for gates in [
        63,
        64,
        65,
        127,
        128,
        129,
        960,
        961,
        MOST_LINES - 2,
        MOST_LINES - 1,
        MOST_LINES - 1,
        MOST_LINES - 1,
    ] {
        for _ in 0..4 {
            ladder_of(all, rng, gates);
        }
    }
    for _ in 0..count {
        ladder_of(all, rng, any_size(&mut sizes));
    }
}

/// Of any size, most of them small.
pub fn any_size(sizes: &mut Random) -> usize {
    match sizes.below(200) {
        0..=159 => sizes.within(1, 40),
        160..=197 => sizes.within(41, 200),
        _ => sizes.within(201, MOST_LINES - 1),
    }
}

pub fn ladder_of(all: &mut Comparison, rng: &mut Random, gates: usize) {
    let made = ladder(rng, gates);
    let (lib, net) = (made.lib.bytes(), made.net.bytes());
    all.check("ladder", &lib, &net, ROOM, None);
}

/// All random pairs, and the answers and reports that must have come up among them.
pub fn pairs(all: &mut Comparison, rng: &mut Random) {
    all.count_anew();
    let count = all.extent.count(PAIRS);
    for _ in 0..count {
        random(all, rng);
    }
    println!("{count} random pairs; answers:");
    for number in ANSWERS {
        let title = if number == 0 {
            "accepted".to_string()
        } else {
            format!("refused {number}")
        };
        all.met(&title, all.answers[number]);
    }
    all.tell_shown(0);
}
