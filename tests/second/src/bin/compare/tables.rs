//! Truth tables and their entries, and the built-in library.

use crate::archive;
use crate::comparison::{answer_of, Comparison};
use crate::lent::{canary, differ, Lent};
use second::cell::{built_in as library, built_in_into, cell, cell_into};
use second::damage::{overlong, scramble};
use second::generate::random_name;
use second::kept::Case;
use second::random::Random;

/// One text of both sides, in a buffer of `room` bytes.
fn written(
    all: &mut Comparison,
    label: &str,
    case: Case,
    proved: impl Fn(&mut [u8]) -> u64,
    second: impl Fn(&mut [u8]) -> u64,
) {
    let room = case.room;
    all.turn += 1;
    let salt = all.turn as u8;
    let mut got = Lent::of((0..room).map(|at| canary(at, salt)), all.turn % 8, salt);
    let mut wanted = got.clone();
    let said = proved(got.inner_mut());
    let meant = second(wanted.inner_mut());
    all.answered(said);
    let problem = if said != meant {
        Some(format!(
            "{} instead of {}",
            answer_of(said),
            answer_of(meant)
        ))
    } else {
        differ("text", &got, &wanted)
    };
    all.keeping(|| case, |all| all.verdict(label, problem));
}

/// One line through both generators, into a buffer of `room` bytes.
pub fn table(all: &mut Comparison, line: &[u8], room: usize) {
    written(
        all,
        &String::from_utf8_lossy(&line[..line.len().min(200)]),
        Case::of("cell", [line, b""], room),
        |entry| archive::scoap_cell(line, entry),
        |entry| cell_into(line, entry),
    );
}

/// The built-in library in a buffer of `room` bytes.
pub fn built_in(all: &mut Comparison, room: usize) {
    written(
        all,
        "the built-in library",
        Case::of("built_in", [b"", b""], room),
        archive::scoap_built_in,
        built_in_into,
    );
}

/// A random truth table, sometimes damaged, with a buffer about as long as its entry; or the built-in library.
pub fn random(all: &mut Comparison, rng: &mut Random) {
    if rng.once_in(20) {
        let length = library().len();
        let room = *rng.pick(&[0, length / 2, length - 1, length, length + 9]);
        built_in(all, room);
        return;
    }
    let pins = rng.within(0, 4);
    let bits = (0..1 << pins).map(|_| *rng.pick(b"01")).collect();
    let length = rng.within(1, 8);
    let name = random_name(rng, length);
    let mut line = [name, pins.to_string().into_bytes(), bits].join(&b',');
    line.push(b'\n');
    match rng.below(12) {
        0..=2 => scramble(rng, &mut line),
        3 => overlong(rng, &mut line),
        4 => {
            let most = rng.within(5, 99_999);
            let cut = line.iter().position(|&b| b == b',').unwrap_or(0);
            line = [&line[..cut], b",", most.to_string().as_bytes(), b",0\n"].concat();
        }
        _ => {}
    }
    let length = cell(&line).map_or(100, |entry| entry.len());
    let room = *rng.pick(&[0, length / 2, length - 1, length, length, length + 1, 8_192]);
    table(all, &line, room);
}

/// The library of examples/built_in: what the archive writes, and three registers by hand.
fn example(all: &mut Comparison) {
    let folder = concat!(env!("CARGO_MANIFEST_DIR"), "/../../examples");
    let read = |name: &str| std::fs::read(format!("{folder}/{name}")).unwrap_or_default();
    let mut made = vec![0; 65_536];
    let mut length = archive::scoap_built_in(&mut made) as usize;
    for line in ["BUF,1,01\n", "TIE0,0,0\n", "TIE1,0,1\n"] {
        length += archive::scoap_cell(line.as_bytes(), &mut made[length..]) as usize;
    }
    let is = read("built_in/lib.txt");
    let problem = (!is.starts_with(&made[..length])).then(|| "is not what is written".to_string());
    all.verdict("examples/built_in, generated entries", problem);
    // C1490 under another name.
    let c1490 = String::from_utf8_lossy(&read("c1490/lib.txt")).replace("C1490", "DFFR");
    let found = String::from_utf8_lossy(&is).contains(&c1490) && c1490.contains("DFFR");
    let problem = (!found).then(|| "is not C1490".to_string());
    all.verdict("examples/built_in, DFFR", problem);
}

/// All truth tables of at most four pins, short buffers, and damaged lines.
pub fn tables(all: &mut Comparison) {
    example(all);
    for pins in 0..=4u32 {
        for outputs in 0..1u64 << (1 << pins) {
            let bits: String = (0..1 << pins)
                .map(|at| if outputs >> at & 1 == 1 { '1' } else { '0' })
                .collect();
            table(all, format!("T{pins},{pins},{bits}\n").as_bytes(), 1024);
        }
    }
    let length = library().len();
    for room in [0, 1, length / 2, length - 1, length, length + 1, 65_536] {
        built_in(all, room);
    }
    let whole = b"C1130,3,10000000\n";
    for room in 0..120 {
        table(all, whole, room);
    }
    for end in 0..whole.len() {
        table(all, &whole[..end], 1024);
    }
    for line in [
        &b"A,5,\n"[..],
        b"A,9,01\n",
        b"A,5,2\n",
        b"A,0,1\n\n",
        b"A,05,1\n",
        b"A,1,011\n",
        b"a,1,01\n",
        b"A,1,01,\n",
    ] {
        table(all, line, 1024);
    }
    for at in 0..whole.len() {
        for byte in 0..=255 {
            let mut line = whole.to_vec();
            line[at] = byte;
            table(all, &line, 1024);
        }
    }
    let mut long = b"A,5,".to_vec();
    long.resize(65_534, b'1');
    long.push(10);
    table(all, &long, 1024);
    long.insert(4, b'0');
    table(all, &long, 1024);
}
