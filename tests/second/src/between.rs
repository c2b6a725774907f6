//! What a netlist with ranges promises of its two reports: however the prices fall within the ranges, each
//! CC and CO number lies between the two printed, never stands in both or in neither, and SC and SO,
//! with their sweeps, are the same.

use crate::cost::{Cost, NEVER, OVER};
use crate::generate::{range_line, Pair};
use crate::random::Random;
use crate::report::HIGH;

/// The columns of SC0, SC1 and SO in a report's lines, and of SC and SO in its sweeps.
const SEQUENTIAL: [usize; 3] = [2, 3, 5];
const SEQUENTIAL_SWEEPS: [usize; 2] = [1, 3];

/// The report at low prices and that at high ones, if there are two.
pub fn parts(reports: &[u8]) -> Option<[&[u8]; 2]> {
    let line = [b"\n", HIGH].concat();
    let at = reports.windows(line.len()).position(|part| part == line)?;
    Some([&reports[..at + 1], &reports[at + line.len()..]])
}

/// The head of each line and its numbers; of the first line, which has none, its bytes.
pub fn rows(report: &[u8]) -> Vec<(&[u8], Vec<Cost>)> {
    let cost = |field: &[u8]| match field {
        b"over" => OVER,
        b"never" => NEVER,
        _ => std::str::from_utf8(field)
            .ok()
            .and_then(|text| text.parse().ok())
            .expect("a cost is printed"),
    };
    let mut lines = report.split(|&b| b == b'\n');
    let mut rows = vec![(lines.next().unwrap_or_default(), Vec::new())];
    for line in lines {
        let mut fields = line.split(|&b| b == b',');
        rows.push((
            fields.next().unwrap_or_default(),
            fields.map(cost).collect(),
        ));
    }
    rows
}

/// What is wrong with a report at prices between those of two others.
pub fn between([low, middle, high]: [&[u8]; 3]) -> Option<String> {
    let [low, middle, high] = [rows(low), rows(middle), rows(high)];
    if low.len() != middle.len() || middle.len() != high.len() {
        return Some("the reports differ in length".to_string());
    }
    for ((least, row), most) in low.iter().zip(&middle).zip(&high) {
        let shape = |row: &(&[u8], Vec<Cost>)| (row.0.to_vec(), row.1.len());
        if shape(least) != shape(row) || shape(row) != shape(most) {
            return Some("the reports differ in their lines".to_string());
        }
        let sweeps = row.0 == b"sweeps";
        let same: &[usize] = if sweeps {
            &SEQUENTIAL_SWEEPS
        } else {
            &SEQUENTIAL
        };
        for (column, ((&a, &x), &b)) in least.1.iter().zip(&row.1).zip(&most.1).enumerate() {
            let right = if same.contains(&column) {
                a == x && x == b
            } else {
                sweeps || (a <= x && x <= b && (a == NEVER) == (b == NEVER))
            };
            if !right {
                let head = String::from_utf8_lossy(row.0);
                return Some(format!("{head}, column {column}: {a}, {x}, {b}"));
            }
        }
    }
    None
}

/// The same pair with each range shrunk to one price within it.
pub fn at_some_prices(rng: &mut Random, pair: &Pair) -> Pair {
    let mut other = pair.clone();
    for line in other
        .net
        .lines
        .iter_mut()
        .filter(|line| line[0] == b"range")
    {
        let bound =
            |field: &[u8]| -> usize { std::str::from_utf8(field).unwrap().parse().unwrap() };
        let price = rng.within(bound(&line[2]), bound(&line[3])) as u32;
        *line = range_line(&line[1], [price, price]);
    }
    other
}
