//! Netlists with ranges at prices within them.

use crate::archive;
use crate::comparison::{Comparison, ROOM};
use second::between::{at_some_prices, between, parts};
use second::figures::{doubling, AND2};
use second::generate::{add_ranges, ladder, pair};
use second::random::Random;
use second::REFUSED;

/// Random pairs with ranges, each tried at prices within them so many times.
const RANGED: usize = 2_400;
const PRICINGS: usize = 3;

/// How many had two reports, two that differ, and a number that is never.
#[derive(Default)]
pub struct Shown {
    two: u64,
    apart: u64,
    nevers: u64,
}

/// One netlist with ranges: both reports, and those at prices within the ranges, which the archive tells of ranges
/// whose bounds are the same.
pub fn random(all: &mut Comparison, rng: &mut Random, turn: usize, shown: &mut Shown) {
    let mut made = if turn % 3 == 0 {
        ladder(rng, 1 + turn % 60)
    } else {
        pair(rng, 1 + turn % 60)
    };
    add_ranges(rng, &mut made);
    let (lib, net) = (made.lib.bytes(), made.net.bytes());
    let whole = reports(all, &lib, &net);
    all.check_rooms("ranges", &lib, &net);
    let Some([low, high]) = parts(&whole) else {
        return;
    };
    shown.two += 1;
    shown.apart += u64::from(low != high);
    shown.nevers += u64::from(low.windows(5).any(|part| part == b"never"));
    for _ in 0..PRICINGS {
        let some = at_some_prices(rng, &made);
        let whole = reports(all, &some.lib.bytes(), &some.net.bytes());
        let problem = match parts(&whole) {
            Some([first, second]) if first == second => between([low, first, high]),
            _ => Some("the same prices do not give the same report twice".to_string()),
        };
        all.verdict("prices within the ranges", problem);
    }
}

/// A cost that is over at HIGH and a figure at LOW: 28 gates of a cell that pays for both its pins.
fn over_at_high(all: &mut Comparison) {
    let label = "over at HIGH alone";
    let both = AND2.replace("CC,21,", "CC,21,M,7,");
    let net = doubling("AND2", 28) + "range,1,1,999\n";
    let whole = reports(all, both.as_bytes(), net.as_bytes());
    let line = |report: &[u8]| {
        let report = String::from_utf8_lossy(report).into_owned();
        let found = report.lines().find(|line| line.starts_with("29,"));
        found.unwrap_or_default().to_string()
    };
    let found = parts(&whole).map(|[low, high]| [line(low), line(high)]);
    let wanted = ["29,29,536870911,0,0,0,0", "29,1027,over,0,0,0,0"].map(String::from);
    let problem = (found.as_ref() != Some(&wanted)).then(|| format!("{found:?}"));
    all.verdict(label, problem);
    all.check_rooms(label, both.as_bytes(), net.as_bytes());
}

/// All of them, and what must have come up.
pub fn ranges(all: &mut Comparison, rng: &mut Random) {
    over_at_high(all);
    let mut shown = Shown::default();
    for turn in 0..all.extent.count(RANGED) {
        random(all, rng, turn, &mut shown);
    }
    let Shown { two, apart, nevers } = shown;
    println!(
        "{} netlists with ranges, each at {PRICINGS} pricings within them",
        two
    );
    for (title, count) in [
        ("two reports", two),
        ("that differ", apart),
        ("a number that is never", nevers),
    ] {
        all.met(title, count);
    }
}

/// What the archive reports of an accepted pair, after it was compared with the second implementation.
fn reports(all: &mut Comparison, lib: &[u8], net: &[u8]) -> Vec<u8> {
    all.check("ranges", lib, net, 2 * ROOM, None);
    let mut buffer = vec![0; 2 * ROOM];
    let answer = archive::scoap_report(lib, net, &mut buffer);
    buffer.truncate(if answer < REFUSED { answer as usize } else { 0 });
    buffer
}
