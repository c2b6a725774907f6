//! Damage of bytes, of which nothing is said beforehand.

use crate::random::Random;
use crate::MOST_BYTES;

/// A text made too long for the entry, whatever stands in it.
pub fn overlong(rng: &mut Random, text: &mut Vec<u8>) {
    let length = match rng.below(4) {
        0 | 1 => MOST_BYTES + 1,
        2 => MOST_BYTES + 2,
        _ => rng.within(MOST_BYTES + 1, 3 * MOST_BYTES),
    };
    if text.is_empty() || rng.once_in(4) {
        text.resize(length, *rng.pick(&[b'\n', b',', b'1', 0]));
    } else {
        while text.len() < length {
            text.extend_from_within(..text.len().min(length - text.len()));
        }
    }
}

/// Blind damage of bytes, of which nothing is said beforehand.
pub fn scramble(rng: &mut Random, text: &mut Vec<u8>) {
    const TELLING: &[u8] = b"\n\n,,00178903MZCSOEndNamegateinputoutputrange \r\0";
    let length = text.len();
    if length == 0 {
        text.push(*rng.pick(TELLING));
        return;
    }
    let at = rng.below(length);
    let span = rng.within(1, 12).min(length - at);
    match rng.below(10) {
        0 => text[at] = rng.next() as u8,
        1 => text[at] ^= 1 << rng.below(8),
        2 => text[at] = *rng.pick(TELLING),
        3 => text.insert(at, *rng.pick(TELLING)),
        4 => {
            text.remove(at);
        }
        5 => {
            text.drain(at..at + span);
        }
        6 => {
            let copy = text[at..at + span].to_vec();
            let to = rng.within(0, length);
            text.splice(to..to, copy);
        }
        7 => text.truncate(at),
        8 => {
            // Two fields change places.
            let marks: Vec<usize> = (0..length)
                .filter(|&at| text[at] == b',' || text[at] == b'\n')
                .collect();
            if marks.len() > 2 {
                let first = rng.below(marks.len() - 2);
                let (left, middle, right) = (marks[first], marks[first + 1], marks[first + 2]);
                let mut swapped = text[middle + 1..right].to_vec();
                swapped.push(text[middle]);
                swapped.extend_from_slice(&text[left + 1..middle]);
                text.splice(left + 1..right, swapped);
            }
        }
        _ => {
            // A whole line doubled or taken out.
            let start = text[..at]
                .iter()
                .rposition(|&b| b == b'\n')
                .map_or(0, |end| end + 1);
            let end = text[at..]
                .iter()
                .position(|&b| b == b'\n')
                .map_or(length, |end| at + end + 1);
            if rng.once_in(2) {
                text.drain(start..end);
            } else {
                let line = text[start..end].to_vec();
                text.splice(start..start, line);
            }
        }
    }
}

/// Words and signs of both texts in any order.
pub fn babble(rng: &mut Random, pieces: usize) -> Vec<u8> {
    const PIECES: [&str; 37] = [
        "Name",
        "Name3",
        "CC",
        "CO",
        "SC",
        "SO",
        "End",
        "M",
        "Z",
        "input",
        "output",
        "gate",
        "range",
        "A",
        "B",
        "0",
        "1",
        "2",
        "3",
        "5",
        "41",
        "1000",
        "1001",
        "99999",
        "100000",
        "\n",
        "\n",
        ",",
        ",",
        ",",
        "01",
        "input,1\n",
        "range,1,2,",
        "range,1,2,999\n",
        "Name,A,1\nCC,3,5\nCO,41\nSC,2,4\nSO,40\nEnd\n",
        "Name,B,0\nCC,1,Z\nCO\nSC,Z,0\nSO\nEnd\n",
        "Name3,C,1\nCC,27,10\nCO,207\nSC,20,17\nSO,200\nEnd\n",
    ];
    (0..pieces)
        .flat_map(|_| rng.pick(&PIECES).bytes())
        .collect()
}
