//! Other calls than scoap_report, by both sides, and by the archive over its scoap_report.

use crate::{archive, call, fitting, median, rounds, rounds_of, ROOM};
use second::shapes::{called, Call, Called, Left};
use std::hint::black_box;

/// The call by the archive.
fn by_archive(called: &Called, table: &[u32], left: &mut Left) -> u64 {
    let (lib, net) = (&called.case.lib[..], &called.case.net[..]);
    left.answer = match called.call {
        Call::Ask(line) => archive::scoap_ask(lib, net, table, line, &mut left.numbers),
        Call::Best(budget) => archive::scoap_best(lib, net, budget, &mut left.numbers),
        Call::Advise => archive::scoap_advise(lib, net, &[], &mut left.numbers),
        Call::Plan(line, value, kind) => {
            archive::scoap_plan(lib, net, line, value, kind, &mut left.text)
        }
    };
    left.answer
}

/// Microseconds for a call, of the archive and of the second, and again of the archive and of a report beside it; or why
/// it cannot be timed.
fn measure(called: &Called) -> Result<[[f64; 2]; 2], String> {
    let table = called.stood();
    let mut left = [called.lent(), called.lent()];
    by_archive(called, &table, &mut left[0]);
    called.run(&table, &mut left[1]);
    if left[0] != left[1] {
        let [archive, second] = left.map(|left| left.answer);
        return Err(format!(
            "the archive answers {archive}, the second {second}, or other bytes"
        ));
    }
    if let Some(instead) = called.untrue(&table, &left[0]) {
        return Err(format!("not what its label says: {instead}"));
    }
    let times = rounds(|side| {
        let (called, left) = (black_box(called), black_box(&mut left[side]));
        match side {
            0 => by_archive(called, &table, left),
            _ => called.run(&table, left),
        }
    });
    let mut report = vec![0; ROOM];
    let mut run = |side| match side {
        0 => by_archive(black_box(called), &table, black_box(&mut left[0])),
        _ => call(archive::scoap_report, &called.case, &mut report),
    };
    let calls = [fitting(&mut run, 0), fitting(&mut run, 1)];
    Ok([times.map(median), rounds_of(run, calls).map(median)])
}

/// All of them, with a ratio for each.
pub fn calls() -> bool {
    println!("other calls, by both sides; last, the archive's time over that of its scoap_report");
    println!(
        "{:<27} {:>5} {:>11} {:>11} {:>7} {:>11} {:>7}",
        "call and shape", "gates", "archive", "second", "ratio", "report", "ratio"
    );
    let mut sound = true;
    for called in called() {
        match measure(&called) {
            Ok([[archive, second], [beside, report]]) => println!(
                "{:<27} {:>5} {archive:>11.1} {second:>11.1} {:>7.4} {report:>11.1} {:>7.2}",
                called.label,
                called.case.gates(),
                archive / second,
                beside / report,
            ),
            Err(problem) => {
                println!("FAILED: {}: {problem}", called.label);
                sound = false;
            }
        }
    }
    sound
}
