//! The proved archive and the second implementation side by side, through the C entries: the figures
//! of the scope paper, the largest sizes, every one-byte change of a small pair, random pairs,
//! ladders, in which a sweep changes few of the numbers, plans, truth tables, netlists of truth
//! tables at every setting of their inputs, netlists with ranges at prices within them, lists of
//! asks and commits, with changes of library among them, netlists at budgets, and pads tried on
//! every line.
//!
//! Every entry of every lent slice is compared, canaries stand before and past it and around the
//! texts. The last line counts: 'N passed, M failed'.
//!
//!     compare [SEED [PAIRS]]          another seed; another count of random pairs, and of the rest in proportion
//!     compare --fuzz SECONDS [SEED]   random calls alone, for so many seconds
//!     compare --record FILE EVERY [SEED [PAIRS]]   as the first, and every so-manieth call is written into the file, up to
//!                                     1.2 MB of each name: its slices before and after it, and its answer

mod advice;
#[path = "../../archive.rs"]
mod archive;
mod budgets;
mod changes;
mod chips;
mod comparison;
mod extent;
mod fixed;
mod fuzz;
mod kept;
mod lent;
mod numbered;
mod pads;
mod pairs;
mod plans;
mod ranges;
mod tables;
mod watched;

use comparison::Comparison;
use extent::Extent;
use std::process::ExitCode;

fn main() -> ExitCode {
    let mut words: Vec<String> = std::env::args().skip(1).collect();
    if words.first().is_some_and(|word| word == "--record") {
        let every = words.get(2).and_then(|every| every.parse().ok());
        let Some(every) = every else {
            eprintln!("usage: compare --record FILE EVERY [SEED [PAIRS]]");
            return ExitCode::FAILURE;
        };
        if let Err(error) = second::record::begin(&words[1], every, 1_200_000) {
            eprintln!("{}: {error}", words[1]);
            return ExitCode::FAILURE;
        }
        words.drain(..3);
    }
    let asked = match &words[..] {
        [word, seconds, seed @ ..] if word == "--fuzz" && seed.len() < 2 => seconds
            .parse()
            .ok()
            .and_then(|seconds: u64| Some((Extent::of(seed)?, Some(seconds)))),
        _ => Extent::of(&words).map(|extent| (extent, None)),
    };
    let Some((extent, seconds)) = asked else {
        eprintln!("usage: compare [SEED [PAIRS]]\n       compare --fuzz SECONDS [SEED]\n       compare --record FILE EVERY [SEED [PAIRS]]");
        return ExitCode::FAILURE;
    };
    println!("seed {:#x}", extent.seed);
    let all = match seconds {
        Some(seconds) => fuzz::fuzz(seconds, extent),
        None => whole(extent),
    };
    second::record::end();
    println!("{} passed, {} failed", all.passed, all.failed);
    if all.failed == 0 {
        ExitCode::SUCCESS
    } else {
        ExitCode::FAILURE
    }
}

/// Every part in turn.
fn whole(extent: Extent) -> Comparison {
    let mut rng = extent.random();
    let mut all = Comparison::of(extent);
    kept::kept(&mut all);
    fixed::figures(&mut all);
    fixed::one_byte(&mut all);
    fixed::largest(&mut all, &mut rng);
    println!("{} fixed cases, {} failed", all.verdicts(), all.failed);
    pairs::pairs(&mut all, &mut rng);

    all.count_anew();
    let before = all.verdicts();
    pairs::ladders(&mut all, &mut rng);
    println!("{} ladders", all.verdicts() - before);
    plans::plans(&mut all, &mut rng);
    all.tell_shown(1);

    let before = all.verdicts();
    tables::tables(&mut all);
    println!("{} truth tables and damaged lines", all.verdicts() - before);
    // The rest is the same however many pairs there were before it.
    for part in [
        chips::chips,
        ranges::ranges,
        pads::pads,
        changes::changes,
        budgets::budgets,
        advice::advice,
    ] {
        let mut own = all.extent.random();
        part(&mut all, &mut own);
    }
    all
}
