//! Tables that no analysis of the texts left.

use second::random::Random;
use second::standing::{COSTS, PADS_AT, STANDING, STANDING_NUMBERS};
use second::{MOST_LINES, NEVER, OVER};

/// A cost, or a number that is none.
fn any_number(rng: &mut Random) -> u32 {
    match rng.below(8) {
        0 => NEVER,
        1 => OVER,
        2 => *rng.pick(&[NEVER + 1, u32::MAX, OVER - 1, 1 << 31]),
        3 => rng.next() as u32,
        _ => rng.below(30) as u32,
    }
}

/// Makes a table into one that no analysis of its texts left, or that only looks like one.
pub fn foreign_table(rng: &mut Random, table: &mut [u32], lines: &[u64], other: &[u32]) {
    let any_pad = |rng: &mut Random| match rng.below(6) {
        0 => *rng.pick(&[0, MOST_LINES as u32 + 1, u32::MAX, 65_537]),
        1 => rng.within(1, MOST_LINES) as u32,
        _ if lines.is_empty() => 1,
        _ => *rng.pick(lines) as u32,
    };
    match rng.below(8) {
        // Any numbers at all.
        0 => table
            .iter_mut()
            .for_each(|number| *number = rng.next() as u32),
        // Any numbers under a few pads.
        1 | 2 => {
            table
                .iter_mut()
                .for_each(|number| *number = any_number(rng));
            let count = rng.below(4);
            table[0] = count as u32;
            for place in PADS_AT..PADS_AT + count {
                table[place] = any_pad(rng);
            }
        }
        // That of another netlist.
        3 => {
            let length = table.len().min(other.len());
            table[..length].copy_from_slice(&other[..length]);
        }
        // Another count over the same pads.
        4 => {
            table[0] = *rng.pick(&[
                table[0] + 1,
                table[0].saturating_sub(1),
                MOST_LINES as u32,
                MOST_LINES as u32 + 1,
                u32::MAX,
            ])
        }
        // A pad more, or another in the place of one.
        5 => {
            let at = rng.below(table[0] as usize + 1);
            table[PADS_AT + at.min(MOST_LINES - 1)] = any_pad(rng);
            table[0] = table[0].max(at as u32 + 1);
        }
        // Some numbers changed.
        6 => {
            for _ in 0..rng.within(1, 40) {
                let place = match rng.below(4) {
                    0 => rng.within(1, STANDING - 1),
                    _ if lines.is_empty() => STANDING_NUMBERS,
                    _ => {
                        let line = *rng.pick(lines) as usize;
                        STANDING_NUMBERS + COSTS * (line - 1) + rng.below(COSTS)
                    }
                };
                table[place] = any_number(rng);
            }
        }
        // One that a refusal cleared.
        _ => table.fill(0),
    }
}
