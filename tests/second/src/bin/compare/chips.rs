//! Netlists of truth tables at every setting of their inputs.

use crate::archive;
use crate::comparison::{Comparison, ROOM};
use second::chip::Chip;
use second::damage::scramble;
use second::generate::{add_ranges, pair};
use second::random::Random;
use second::REFUSED;

/// Random netlists of truth tables, tried at every setting of their inputs.
const CHIPS: usize = 4_000;

/// What the netlists have shown.
#[derive(Default)]
pub struct Shown {
    once: u64,
    deep: u64,
    nevers: u64,
    figures: u64,
}

/// One netlist of truth tables; of a `tree` each line is read by at most one pin.
pub fn at_every_setting(all: &mut Comparison, rng: &mut Random, tree: bool, shown: &mut Shown) {
    let chip = Chip::random(rng, tree);
    let (lib, net) = (chip.library(), chip.netlist());
    all.check("chip", &lib, &net, ROOM, None);
    let mut buffer = vec![0; ROOM];
    let answer = archive::scoap_report(&lib, &net, &mut buffer);
    let length = if answer < REFUSED { answer } else { 0 };
    let report = String::from_utf8_lossy(&buffer[..length as usize]).into_owned();
    let read_once = chip.read_once();
    let qualified = all.check_qualifies("chip", &lib, &net);
    let problem = (qualified != 1 + u64::from(read_once))
        .then(|| format!("qualifies {qualified}, each line read once: {read_once}"));
    all.verdict("a chip qualifies", problem);
    shown.once += u64::from(read_once);
    shown.deep += u64::from(chip.deep());
    let given = chip.given();
    let mut rows = 0;
    for row in report.lines().skip(1) {
        let parts: Vec<&str> = row.split(',').collect();
        let Ok(line) = parts[0].parse::<usize>() else {
            continue;
        };
        rows += 1;
        for value in [0, 1] {
            let never = parts[1 + value] == "never";
            let given = given[line - 1][value];
            shown.nevers += u64::from(never);
            shown.figures += u64::from(!never && !given);
            let holds = if read_once {
                never != given
            } else {
                !(never && given)
            };
            let problem = (!holds).then(|| {
                let net = String::from_utf8_lossy(&net);
                format!("line {line}, value {value}: never {never}, given {given}: {net:?}")
            });
            all.verdict("what never says", problem);
        }
    }
    let problem = (rows != given.len()).then(|| format!("{rows} lines of {}", given.len()));
    all.verdict("each line of a chip", problem);
}

/// Other cells, loops and open lines, and texts that are refused.
pub fn beside(all: &mut Comparison, rng: &mut Random, turn: usize) {
    let chip = Chip::random(rng, turn % 2 == 0);
    let mut made = pair(rng, 1 + turn % 12);
    if turn % 8 == 0 {
        add_ranges(rng, &mut made);
    }
    let (lib, net) = (made.lib.bytes(), made.net.bytes());
    all.check_qualifies("any pair", &lib, &net);
    let (mut lib, mut net) = (chip.library(), chip.netlist());
    match turn % 5 {
        0 => net.extend(b"open,900\noutput,900\n"),
        // Prices do not touch what never says.
        4 => net.extend(b"range,1,2,999\n"),
        1 => scramble(rng, &mut lib),
        2 => scramble(rng, &mut net),
        _ => net.extend(b"gate,T0,900,900\n"),
    }
    all.check_qualifies("a damaged chip", &lib, &net);
}

/// What never says of the chip, on netlists of truth tables: no setting of the inputs gives a line a value
/// whose CC number is never; where each line is read by at most one pin, never stands exactly so.
pub fn chips(all: &mut Comparison, rng: &mut Random) {
    let mut shown = Shown::default();
    let chips = all.extent.count(CHIPS);
    for turn in 0..chips {
        at_every_setting(all, rng, turn % 2 == 0, &mut shown);
    }
    println!("{chips} netlists of truth tables at every setting");
    for turn in 0..chips {
        beside(all, rng, turn);
    }
    for (title, count) in [
        ("K8 says nothing", all.qualified[0]),
        ("its first sentence", all.qualified[1]),
        ("both", all.qualified[2]),
        ("refused", all.qualified[3]),
    ] {
        all.met(title, count);
    }
    for (title, count) in [
        ("each line read by at most one pin", shown.once),
        ("a generated cell under Name3", shown.deep),
        ("a value that is never", shown.nevers),
        ("a figure that no setting gives", shown.figures),
    ] {
        all.met(title, count);
    }
}
