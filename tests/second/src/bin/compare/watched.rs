//! What the texts of compared calls had, and how often each refusal was met.

use crate::comparison::{Comparison, NUMBERS};
use second::{MOST_BYTES, MOST_CELLS, MOST_ROWS};

const TITLES: [&str; 14] = [
    "an entry that begins with Name3",
    "a group Z",
    "a 33rd entry",
    "a group of 17 rows or more",
    "pins on one line",
    "a gate that reads itself",
    "a cell without pins",
    "a range",
    "an open line",
    "a text of 65,000 to 65,535 bytes",
    "a text of 65,536 bytes or more",
    "a buffer that just fits",
    "a pad placed",
    "a library changed",
];

#[derive(Default)]
pub struct Watched([u64; TITLES.len()]);

/// The rows of the largest group of a line of rows.
fn most_rows(line: &[u8]) -> usize {
    let mut most = 0;
    let mut rows = 0;
    let mut joined = false;
    for field in line.split(|&b| b == b',').skip(1) {
        if field == b"M" {
            joined = true;
            continue;
        }
        rows = if joined { rows + 1 } else { 1 };
        joined = false;
        most = most.max(rows);
    }
    most
}

/// The first nine of what a pair of texts has.
fn has(lib: &[u8], net: &[u8]) -> [bool; 9] {
    let mut has = [false; 9];
    let mut entries = 0;
    for line in lib.split(|&b| b == b'\n') {
        let name = line.starts_with(b"Name");
        entries += usize::from(name);
        has[0] |= line.starts_with(b"Name3,");
        has[1] |= !name && line.split(|&b| b == b',').any(|field| field == b"Z");
        has[3] |= !name && line.len() > 2 * MOST_ROWS && most_rows(line) > MOST_ROWS;
    }
    has[2] = entries > MOST_CELLS;
    for line in net.split(|&b| b == b'\n') {
        if line.starts_with(b"gate,") {
            let fields: Vec<&[u8]> = line.split(|&b| b == b',').skip(2).collect();
            let Some((output, pins)) = fields.split_first() else {
                continue;
            };
            has[4] |= (1..pins.len()).any(|pin| pins[..pin].contains(&pins[pin]));
            has[5] |= pins.contains(output);
            has[6] |= pins.is_empty();
        }
        has[7] |= line.starts_with(b"range,");
        has[8] |= line.starts_with(b"open,");
    }
    has
}

impl Comparison {
    /// Counts what a call had, where that is asked for: its texts, how much it wrote of how much it could, and
    /// whether it placed a pad or changed a library.
    pub fn watch(&mut self, lib: &[u8], net: &[u8], fits: bool, placed: bool, changed: bool) {
        let Some(Watched(counts)) = &mut self.watched else {
            return;
        };
        let long = |text: &[u8]| (65_000..=MOST_BYTES).contains(&text.len());
        let rest = [
            long(lib) || long(net),
            lib.len().max(net.len()) > MOST_BYTES,
            fits,
            placed,
            changed,
        ];
        let met = has(lib, net).into_iter().chain(rest);
        for (count, met) in counts.iter_mut().zip(met) {
            *count += u64::from(met);
        }
    }

    pub fn tell_watched(&self) {
        println!("answers:");
        println!("  {:<36} {:>9}", "accepted", self.met[0]);
        for number in (1..NUMBERS).filter(|&number| number != 16) {
            let title = format!("refused {number}");
            println!("  {title:<36} {:>9}", self.met[number]);
        }
        println!("calls with");
        if let Some(Watched(counts)) = &self.watched {
            for (title, count) in TITLES.into_iter().zip(counts) {
                println!("  {title:<36} {count:>9}");
            }
        }
    }
}
