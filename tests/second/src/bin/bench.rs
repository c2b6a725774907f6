//! The proved archive and the second implementation timed side by side in one process. Both get the
//! same texts and a buffer cleared before each call; they take turns, and each row shows the medians
//! of several rounds. The clock is the thread's own processor time, so that other work on the machine
//! counts for neither side.
//!
//! Before a shape is timed, both sides must have given the same answer and the same bytes, and the
//! shape must be what its label says; else the program fails. Other calls follow in the same way.
//!
//! With --sizes: shapes of 1,000 to 32,767 lines instead, as far as the analyser takes them.
//!
//! Last, by the archive alone: what an ask for a pad and its commit cost over scoap_report, what a change of library
//! costs, what steps within a budget cost, and what a pad tried on every line costs.

#[path = "../archive.rs"]
mod archive;
#[path = "bench/calls.rs"]
mod calls;
#[path = "bench/changes.rs"]
mod changes;

use second::advice::{advise_into, rank_into, ADVICE, RANKS};
use second::budget::{best_into, BEST};
use second::report_into;
use second::shapes::{self, Case, SEED};
use second::standing::{ask_into, OBSERVED, STANDING};
use second::{MOST_BYTES, MOST_LINES, REFUSED};
use std::hint::black_box;
use std::process::ExitCode;
use std::time::Duration;

const ROOM: usize = MOST_BYTES + 1;
const ROUNDS: usize = 11;
/// A batch of calls takes about so long, so that the clock's own steps don't show.
const BATCH: Duration = Duration::from_millis(12);
/// Where a call takes longer on either side, one call of each has to do.
const LONG: Duration = Duration::from_secs(2);

type Entry = fn(&[u8], &[u8], &mut [u8]) -> u64;

/// Processor time of this thread, as Linux tells it on 64-bit machines.
fn now() -> Duration {
    #[repr(C)]
    struct Time {
        seconds: i64,
        nanoseconds: i64,
    }
    extern "C" {
        fn clock_gettime(clock: i32, time: *mut Time) -> i32;
    }
    const THREAD_TIME: i32 = 3;
    let mut time = Time {
        seconds: 0,
        nanoseconds: 0,
    };
    let failed = unsafe { clock_gettime(THREAD_TIME, &mut time) };
    assert_eq!(failed, 0, "there is a clock of the thread's processor time");
    Duration::new(time.seconds as u64, time.nanoseconds as u32)
}

/// One call on a cleared buffer.
fn call(entry: Entry, case: &Case, buffer: &mut [u8]) -> u64 {
    buffer.fill(0);
    entry(
        black_box(&case.lib),
        black_box(&case.net),
        black_box(buffer),
    )
}

/// The time of `calls` calls of a side.
fn batch(run: &mut impl FnMut(usize) -> u64, side: usize, calls: u32) -> Duration {
    let start = now();
    for _ in 0..calls {
        black_box(run(side));
    }
    now() - start
}

/// Medians in microseconds for one call, and the sweeps as the table shows them.
struct Times {
    archive: f64,
    second: f64,
    sweeps: String,
}

fn median(mut times: Vec<f64>) -> f64 {
    times.sort_by(f64::total_cmp);
    times[times.len() / 2]
}

/// Times a case, or says why it cannot be timed.
fn measure(case: &Case) -> Result<Times, String> {
    let entries: [Entry; 2] = [archive::scoap_report, report_into];
    let mut buffers = [(); 2].map(|()| vec![0; ROOM]);
    let mut answers = [0; 2];
    let mut once = [Duration::ZERO; 2];
    for side in 0..2 {
        let start = now();
        answers[side] = call(entries[side], case, &mut buffers[side]);
        once[side] = now() - start;
    }
    let [answer, other] = answers;
    if answer != other {
        return Err(format!("the archive answers {answer}, the second {other}"));
    }
    if buffers[0] != buffers[1] {
        return Err(format!("both answer {answer}, with different bytes"));
    }
    let length = if answer < REFUSED { answer as usize } else { 0 };
    let report = &buffers[0][..length];
    if let Some(instead) = case.untrue(answer, report) {
        return Err(format!("not what its label says: {instead}"));
    }
    let sweeps = shapes::sweeps(report).map_or("-".to_string(), |counts| {
        counts.map(|count| count.to_string()).join(",")
    });
    let micros = |time: Duration| time.as_secs_f64() * 1e6;
    let [archive, second] = if once.iter().any(|&time| time > LONG) {
        once.map(micros)
    } else {
        rounds(|side| call(entries[side], case, &mut buffers[0])).map(median)
    };
    Ok(Times {
        archive,
        second,
        sweeps,
    })
}

/// Microseconds for one call of each side, round by round. A batch has as many calls of each.
fn rounds(mut run: impl FnMut(usize) -> u64) -> [Vec<f64>; 2] {
    let once = batch(&mut run, 1, 1);
    if once > LONG {
        return [batch(&mut run, 0, 1), once].map(|time| vec![time.as_secs_f64() * 1e6]);
    }
    let calls = fitting(&mut run, 1);
    rounds_of(run, [calls; 2])
}

/// How many calls of a side make up a batch.
fn fitting(run: &mut impl FnMut(usize) -> u64, side: usize) -> u32 {
    let mut calls = 1;
    while batch(run, side, calls) < BATCH && calls < 1 << 20 {
        calls *= 2;
    }
    calls
}

/// The same with so many calls of each side in a batch.
fn rounds_of(mut run: impl FnMut(usize) -> u64, calls: [u32; 2]) -> [Vec<f64>; 2] {
    let mut times = [Vec::new(), Vec::new()];
    for round in 0..ROUNDS {
        // Each side goes first in every other round.
        for turn in 0..2 {
            let side = (round + turn) % 2;
            let time = batch(&mut run, side, calls[side]);
            times[side].push(time.as_secs_f64() * 1e6 / f64::from(calls[side]));
        }
    }
    times
}

/// Tells why a case was not timed.
fn failed(case: &Case, problem: &str) {
    println!("FAILED: {}, {} gates: {problem}", case.label, case.gates());
}

/// All shapes, with a ratio for each.
fn table() -> bool {
    println!(
        "{:<27} {:>5} {:<20} {:>11} {:>11} {:>7}",
        "shape", "gates", "sweeps CC,SC,CO,SO", "archive", "second", "ratio"
    );
    let mut sound = true;
    let mut ratios = Vec::new();
    for case in shapes::all() {
        match measure(&case) {
            Ok(Times {
                archive,
                second,
                sweeps,
            }) => {
                let ratio = archive / second;
                println!(
                    "{:<27} {:>5} {sweeps:<20} {archive:>11.1} {second:>11.1} {ratio:>7.4}",
                    case.label,
                    case.gates()
                );
                ratios.push(ratio);
            }
            Err(problem) => {
                failed(&case, &problem);
                sound = false;
            }
        }
    }
    let largest = ratios.iter().copied().fold(0.0, f64::max);
    let faster = ratios.iter().filter(|&&ratio| ratio < 1.0).count();
    println!(
        "largest ratio {largest:.2}; the archive is faster on {faster} of {} shapes",
        ratios.len()
    );
    sound
}

/// Twice the gates: a factor of 2 means that the time grows as the gates, 4 as their square.
fn growth() -> bool {
    println!("growth with the gates, and the factor from half as many");
    println!(
        "{:<27} {:>5} {:>11} {:>6} {:>11} {:>6}",
        "shape", "gates", "archive", "factor", "second", "factor"
    );
    let families = [
        shapes::forward,
        shapes::inverters,
        shapes::inverters_backwards,
        shapes::slow,
    ];
    let mut sound = true;
    for make in families {
        let mut half: Option<Times> = None;
        for gates in [60, 120, 240, 480, 960] {
            let case = make(gates);
            let times = match measure(&case) {
                Ok(times) => times,
                Err(problem) => {
                    failed(&case, &problem);
                    sound = false;
                    continue;
                }
            };
            let factor = |now: f64, before: Option<f64>| {
                before.map_or(String::new(), |before| format!("{:.2}", now / before))
            };
            println!(
                "{:<27} {gates:>5} {:>11.1} {:>6} {:>11.1} {:>6}",
                case.label,
                times.archive,
                factor(times.archive, half.as_ref().map(|half| half.archive)),
                times.second,
                factor(times.second, half.as_ref().map(|half| half.second)),
            );
            half = Some(times);
        }
    }
    sound
}

/// The lines of the shapes by which larger analysers are compared: a thousand and twice as many again and again, and the most
/// that large/build takes.
const SIZES: [usize; 6] = [1_000, 2_000, 4_000, 8_000, 16_000, 32_767];

/// The same shapes at these sizes, as far as this analyser takes them.
fn sizes() -> bool {
    println!(
        "{:<27} {:>6} {:<20} {:>11} {:>11} {:>7}",
        "shape", "lines", "sweeps CC,SC,CO,SO", "archive", "second", "ratio"
    );
    let taken = SIZES.iter().filter(|&&lines| lines <= MOST_LINES);
    let sizes: Vec<_> = taken.map(|&lines| (lines, shapes::sized(lines))).collect();
    let mut sound = true;
    for at in 0..sizes[0].1.len() {
        for (lines, cases) in &sizes {
            let case = &cases[at];
            match measure(case) {
                Ok(Times {
                    archive,
                    second,
                    sweeps,
                }) => println!(
                    "{:<27} {lines:>6} {sweeps:<20} {archive:>11.1} {second:>11.1} {:>7.4}",
                    case.label,
                    archive / second
                ),
                Err(problem) => {
                    failed(case, &problem);
                    sound = false;
                }
            }
        }
    }
    sound
}

/// Some lines that an ask accepts, spread over the netlist.
fn askable(case: &Case, table: &[u32], answer: &mut [u32]) -> Result<Vec<u64>, String> {
    let mut other = vec![0; OBSERVED];
    let mut lines = Vec::new();
    for line in (1..=MOST_LINES as u64).step_by(61) {
        let said = archive::scoap_ask(&case.lib, &case.net, table, line, answer);
        let wanted = ask_into(&case.lib, &case.net, table, line, &mut other);
        if said != wanted || (said < REFUSED && answer != other) {
            return Err(format!(
                "ask {line}: the archive answers {said}, the second {wanted}"
            ));
        }
        if said < REFUSED {
            lines.push(line);
        }
    }
    Ok(lines)
}

/// Medians in microseconds: of an ask and of a report timed beside it, of a commit and of one beside that.
fn measure_pads(case: &Case) -> Result<[f64; 4], String> {
    let mut report = vec![0; ROOM];
    let mut table = vec![0; STANDING];
    let mut answer = vec![0; OBSERVED];
    archive::scoap_stand(&case.lib, &case.net, &mut table, &mut report);
    let lines = askable(case, &table, &mut answer)?;
    if lines.is_empty() {
        return Err("no line can be asked for".to_string());
    }
    let mut turn = 0;
    let mut next = || {
        turn += 1;
        lines[turn % lines.len()]
    };
    let asks = rounds(|side| match side {
        0 => archive::scoap_ask(&case.lib, &case.net, &table, next(), &mut answer),
        _ => call(archive::scoap_report, case, &mut report),
    });
    let fresh = table.clone();
    let commits = rounds(|side| match side {
        // Each is the first pad.
        0 => {
            table.copy_from_slice(&fresh);
            archive::scoap_commit(&case.lib, &case.net, &mut table, next(), 0)
        }
        _ => call(archive::scoap_report, case, &mut report),
    });
    let [ask, beside_ask] = asks.map(median);
    let [commit, beside_commit] = commits.map(median);
    Ok([ask, beside_ask, commit, beside_commit])
}

/// What asking for a pad and placing it cost, each as a share of an analysis with its report.
fn pads() -> bool {
    println!("pads, by the archive alone: a call's time over that of scoap_report beside it");
    println!(
        "{:<27} {:>5} {:>11} {:>11} {:>7} {:>11} {:>7}",
        "shape", "gates", "report", "ask", "ratio", "commit", "ratio"
    );
    let mut sound = true;
    for case in shapes::held() {
        match measure_pads(&case) {
            Ok([ask, beside_ask, commit, beside_commit]) => println!(
                "{:<27} {:>5} {beside_ask:>11.1} {ask:>11.1} {:>7.4} {commit:>11.1} {:>7.4}",
                case.label,
                case.gates(),
                ask / beside_ask,
                commit / beside_commit,
            ),
            Err(problem) => {
                failed(&case, &problem);
                sound = false;
            }
        }
    }
    sound
}

/// The budgets that are timed: reading alone, some steps, and all that can be settled.
const NONE: u64 = 0;
const SOME: u64 = 100;
const UNLIMITED: u64 = u64::MAX;

/// Medians in microseconds: of some steps and of none beside them, of all steps and of a report beside them.
fn measure_budgets(case: &Case) -> Result<[f64; 4], String> {
    let mut best = vec![0; BEST];
    let mut other = vec![0; BEST];
    for budget in [NONE, SOME, UNLIMITED] {
        let said = archive::scoap_best(&case.lib, &case.net, budget, &mut best);
        let wanted = best_into(&case.lib, &case.net, budget, &mut other);
        if said != wanted || best != other {
            return Err(format!(
                "budget {budget}: the archive answers {said}, the second {wanted}, or other numbers"
            ));
        }
    }
    let mut report = vec![0; ROOM];
    let mut within = |budget: u64| {
        archive::scoap_best(
            black_box(&case.lib),
            black_box(&case.net),
            budget,
            black_box(&mut best),
        )
    };
    let few = rounds(|side| within([SOME, NONE][side]));
    let all = rounds(|side| match side {
        0 => within(UNLIMITED),
        _ => call(archive::scoap_report, case, &mut report),
    });
    let [some, none] = few.map(median);
    let [unlimited, report] = all.map(median);
    Ok([some, none, unlimited, report])
}

/// What steps within a budget cost.
fn budgets() -> bool {
    println!(
        "steps, by the archive alone: {SOME} over none, which is reading; all over scoap_report"
    );
    println!(
        "{:<27} {:>5} {:>11} {:>11} {:>7} {:>11} {:>11} {:>7}",
        "shape", "gates", "none", "some", "ratio", "report", "all", "ratio"
    );
    let mut sound = true;
    for case in shapes::stepped() {
        match measure_budgets(&case) {
            Ok([some, none, unlimited, report]) => println!(
                "{:<27} {:>5} {none:>11.1} {some:>11.1} {:>7.4} {report:>11.1} {unlimited:>11.1} {:>7.4}",
                case.label,
                case.gates(),
                some / none,
                unlimited / report,
            ),
            Err(problem) => {
                failed(&case, &problem);
                sound = false;
            }
        }
    }
    sound
}

/// Medians in microseconds: of advice and of a report beside it, of ranks and of one beside them.
fn measure_advice(case: &Case) -> Result<[f64; 4], String> {
    let mut ranks = vec![0; RANKS];
    let mut other = vec![0; RANKS];
    for (size, archive, second) in [
        (
            ADVICE,
            archive::scoap_advise as Advising,
            advise_into as Advising,
        ),
        (RANKS, archive::scoap_rank, rank_into),
    ] {
        let said = archive(&case.lib, &case.net, &[], &mut ranks[..size]);
        let wanted = second(&case.lib, &case.net, &[], &mut other[..size]);
        if said != wanted || ranks[..size] != other[..size] {
            return Err(format!(
                "the archive answers {said}, the second {wanted}, or other numbers"
            ));
        }
    }
    let mut report = vec![0; ROOM];
    let mut timed = |entry: Advising| {
        let mut run = |side: usize| match side {
            0 => entry(
                black_box(&case.lib),
                black_box(&case.net),
                &[],
                black_box(&mut ranks),
            ),
            _ => call(archive::scoap_report, case, &mut report),
        };
        let calls = [fitting(&mut run, 0), fitting(&mut run, 1)];
        rounds_of(run, calls).map(median)
    };
    let [advice, beside_advice] = timed(archive::scoap_advise);
    let [ranks, beside_ranks] = timed(archive::scoap_rank);
    Ok([advice, beside_advice, ranks, beside_ranks])
}

type Advising = fn(&[u8], &[u8], &[u32], &mut [u32]) -> u64;

/// What it costs to try a pad on every line.
fn advice() -> bool {
    println!("a pad tried on every line, by the archive alone: over scoap_report beside it");
    println!(
        "{:<27} {:>5} {:>11} {:>11} {:>7} {:>11} {:>7}",
        "shape", "gates", "report", "advise", "ratio", "rank", "ratio"
    );
    let mut sound = true;
    for case in shapes::tried() {
        match measure_advice(&case) {
            Ok([advice, beside_advice, ranks, beside_ranks]) => println!(
                "{:<27} {:>5} {beside_advice:>11.1} {advice:>11.1} {:>7.2} {ranks:>11.1} {:>7.2}",
                case.label,
                case.gates(),
                advice / beside_advice,
                ranks / beside_ranks,
            ),
            Err(problem) => {
                failed(&case, &problem);
                sound = false;
            }
        }
    }
    sound
}

fn main() -> ExitCode {
    println!("archive: the proved program, libscoap_c.a, through its C entry");
    println!("second:  the second implementation, a plain program in Rust, tests/second");
    println!("ratio:   the archive's time over the second's; below 1 the archive is faster");
    println!(
        "Microseconds for a call, medians of {ROUNDS} rounds in turn, or one call each where it takes \
         above {} s; seed {SEED:#x}",
        LONG.as_secs()
    );
    println!();
    if std::env::args().nth(1).as_deref() == Some("--sizes") {
        return if sizes() {
            ExitCode::SUCCESS
        } else {
            ExitCode::FAILURE
        };
    }
    let grown = growth();
    println!();
    let timed = table();
    println!();
    let called = calls::calls();
    println!();
    let asked = pads();
    println!();
    let changed = changes::changes();
    println!();
    let stepped = budgets();
    println!();
    let advised = advice();
    if grown && timed && called && asked && changed && stepped && advised {
        ExitCode::SUCCESS
    } else {
        ExitCode::FAILURE
    }
}
