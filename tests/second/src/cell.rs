//! The library entry of a truth table. Prime implicants are found by merging: two cubes that differ
//! in one named pin make a wider one, and what merges with none is prime.

use crate::refusal::{LIBRARY_FORM, PINS_BAD, REPORT_LONG, TEXT_LONG};
use crate::text::{decimal, fields, name};
use crate::REFUSED;
use crate::{Refusal, MOST_BYTES};
use std::collections::BTreeSet;

/// A cube: the pins that it names, as the bits of their places, and their values.
type Cube = (u32, u32);

/// The prime implicants of the settings given, of `pins` pins.
fn primes(pins: u32, wanted: impl Iterator<Item = u32>) -> Vec<Cube> {
    let all = (1 << pins) - 1;
    let mut cubes: BTreeSet<Cube> = wanted.map(|setting| (all, setting)).collect();
    let mut prime = Vec::new();
    while !cubes.is_empty() {
        let mut wider = BTreeSet::new();
        for &(named, values) in &cubes {
            let mut merged = false;
            for pin in (0..pins).map(|at| 1 << at).filter(|pin| named & pin != 0) {
                if cubes.contains(&(named, values ^ pin)) {
                    wider.insert((named & !pin, values & !pin));
                    merged = true;
                }
            }
            if !merged {
                prime.push((named, values));
            }
        }
        cubes = wider;
    }
    prime
}

/// The columns of a cube: for each pin two bits, at 0 the higher.
fn columns(pins: u32, (named, values): Cube) -> u32 {
    (0..pins)
        .filter(|at| named >> at & 1 == 1)
        .map(|at| (2 - (values >> at & 1)) << (2 * at))
        .sum()
}

fn group(mut rows: Vec<u32>) -> String {
    if rows.is_empty() {
        return "Z".to_string();
    }
    rows.sort_unstable_by(|a, b| b.cmp(a));
    let rows: Vec<String> = rows.iter().map(|row| format!("{row:o}")).collect();
    rows.join(",M,")
}

fn entry(name: &str, pins: u32, output: &[bool]) -> String {
    let mut text = format!("Name,{name},{pins}\n");
    for (word, setting, depth) in [
        ("CC", true, 1),
        ("CO", false, 1),
        ("SC", true, 0),
        ("SO", false, 0),
    ] {
        text.push_str(word);
        if setting {
            for value in [false, true] {
                let wanted = (0..1u32 << pins).filter(|&s| output[s as usize] == value);
                let rows = primes(pins, wanted)
                    .into_iter()
                    .map(|cube| 2 * columns(pins, cube) + depth);
                text.push(',');
                text.push_str(&group(rows.collect()));
            }
        } else {
            for pin in 0..pins {
                // The pin stands at this place; the settings are those of the other pins.
                let at = pins - 1 - pin;
                let with = |s: u32, value: u32| {
                    (s >> at << (at + 1) | value << at | s & ((1 << at) - 1)) as usize
                };
                let wanted =
                    (0..1u32 << (pins - 1)).filter(|&s| output[with(s, 0)] != output[with(s, 1)]);
                let rows = primes(pins - 1, wanted).into_iter().map(|(named, values)| {
                    let cube = (with(named, 0) as u32, with(values, 0) as u32);
                    2 * ((1 << (2 * pins + 2)) + columns(pins, cube)) + depth
                });
                text.push(',');
                text.push_str(&group(rows.collect()));
            }
        }
        text.push('\n');
    }
    text.push_str("End\n");
    text
}

/// The entry of a text of one line, or a refusal.
pub fn cell(text: &[u8]) -> Result<String, Refusal> {
    let refused = |number, line| Err(Refusal { number, line });
    if text.len() > MOST_BYTES {
        return refused(TEXT_LONG, 0);
    }
    let Some((10, line)) = text.split_last() else {
        return refused(LIBRARY_FORM, 1);
    };
    let parts: Vec<&[u8]> = fields(line).collect();
    let [title, count, bits] = parts[..] else {
        return refused(LIBRARY_FORM, 1);
    };
    let formed = name(title).is_some() && bits.iter().all(|bit| matches!(bit, b'0' | b'1'));
    let (true, Some(pins)) = (formed, decimal(count)) else {
        return refused(LIBRARY_FORM, 1);
    };
    if pins > 4 {
        return refused(PINS_BAD, 1);
    }
    if bits.len() != 1 << pins {
        return refused(LIBRARY_FORM, 1);
    }
    let output: Vec<bool> = bits.iter().map(|&bit| bit == b'1').collect();
    Ok(entry(&String::from_utf8_lossy(title), pins, &output))
}

/// The built-in library: AND2 to AND4, then likewise NAND, OR, NOR, XOR and XNOR, and last NOT.
pub fn built_in() -> String {
    let kinds: [(&str, fn(u32, u32) -> bool); 6] = [
        ("AND", |ones, pins| ones == pins),
        ("NAND", |ones, pins| ones != pins),
        ("OR", |ones, _| ones > 0),
        ("NOR", |ones, _| ones == 0),
        ("XOR", |ones, _| ones % 2 == 1),
        ("XNOR", |ones, _| ones % 2 == 0),
    ];
    let mut text = String::new();
    for (kind, output) in kinds {
        for pins in 2..=4 {
            let outputs = (0..1u32 << pins).map(|setting| output(setting.count_ones(), pins));
            let outputs: Vec<bool> = outputs.collect();
            text.push_str(&entry(&format!("{kind}{pins}"), pins, &outputs));
        }
    }
    text.push_str(&entry("NOT", 1, &[true, false]));
    text
}

/// The same with the effect on a lent buffer, in the form of the C entry.
pub fn built_in_into(buffer: &mut [u8]) -> u64 {
    text_into(Ok(built_in()), buffer)
}

/// The entry of a text of one line with the effect on a lent buffer, in the form of the C entry.
pub fn cell_into(text: &[u8], buffer: &mut [u8]) -> u64 {
    text_into(cell(text), buffer)
}

fn text_into(made: Result<String, Refusal>, buffer: &mut [u8]) -> u64 {
    let made = made.and_then(|entry| {
        let fits = entry.len() <= buffer.len();
        fits.then_some(entry).ok_or(Refusal {
            number: REPORT_LONG,
            line: 0,
        })
    });
    match made {
        Ok(entry) => {
            buffer[..entry.len()].copy_from_slice(entry.as_bytes());
            entry.len() as u64
        }
        Err(Refusal { number, line }) => {
            if number > TEXT_LONG {
                buffer.fill(0);
            }
            u64::from(number) * REFUSED + u64::from(line)
        }
    }
}
