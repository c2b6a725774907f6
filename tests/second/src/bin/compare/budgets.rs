//! Best numbers within a budget, on both sides: random netlists at budgets from none to unlimited, with slices too
//! short or longer than the table, and texts too long or bad.
//!
//! What the archive leaves is besides held against the numbers of an analysis, which settles nothing one by one.

use crate::archive;
use crate::comparison::Comparison;
use crate::numbered::{note_netlist, spoil, Lending, Said, Tally, HAS};
use second::budget::{best_into, order, Value, BEST, BEST_LINE};
use second::figures::*;
use second::generate::{add_ranges, doubled, ladder, pair, Pair};
use second::kept::Case;
use second::random::Random;
use second::refusal::TABLE_SHORT;
use second::standing::{analysed, COSTS, STANDING, STANDING_NUMBERS};
use second::REFUSED;
use second::{Cost, LARGEST, MOST_LINES, NEVER, OVER};

/// Random netlists, each at some budgets.
const NETLISTS: usize = 2_000;

/// What must have come up in the random netlists.
const MET: [&str; 13] = [
    "accepted",
    "refused 1",
    "refused 2",
    "refused for a text",
    "no step, though something is offered",
    "the budget ends it",
    "nothing more is on offer",
    "a budget above 2,000",
    "it ends among equal offers",
    "a value at over settled",
    "an offer above the number",
    "a number without an offer",
    "a mentioned line left at never",
];

/// Flag and number of each value, line by line.
fn values(table: &[u32]) -> impl Iterator<Item = (Value, u32, Cost)> + '_ {
    table[1..BEST].chunks(2).enumerate().map(|(at, pair)| {
        let place = 2 * at;
        let value = (place / BEST_LINE + 1, place % BEST_LINE / 2);
        (value, pair[0], pair[1])
    })
}

/// The number of a value in an analysis.
fn number(analysis: &[u32], (line, value): Value) -> Cost {
    analysis[STANDING_NUMBERS + COSTS * (line - 1) + value]
}

/// What is wrong with an accepted answer, as document 02 has it.
fn untrue(budget: u64, said: &Said, analysis: &[u32]) -> Option<String> {
    let table = &said.numbers;
    let last = table[0];
    let mut settled = 0;
    let mut largest = 0;
    for (value, flag, cost) in values(table) {
        let number = number(analysis, value);
        match flag {
            1 if cost == number && cost < NEVER => {
                settled += 1;
                largest = largest.max(cost);
            }
            0 if last <= number && number <= cost => {
                // Where the budget did not end it, nothing is left.
                if said.answer < budget && cost < NEVER {
                    return Some(format!("{value:?} is on offer at {cost} still"));
                }
            }
            _ => {
                let is = format!("{value:?}: flag {flag}, {cost}");
                return Some(format!("{is}, where {number} is reported; last {last}"));
            }
        }
    }
    if settled != said.answer || settled > budget || last != largest {
        let steps = said.answer;
        return Some(format!(
            "{steps} steps, {settled} settled up to {largest}, last {last}"
        ));
    }
    None
}

/// What a larger budget changed of the values that were settled.
fn changed(table: &[u32], larger: &[u32]) -> Option<String> {
    values(table)
        .zip(values(larger))
        .find(|((_, flag, cost), (_, now, then))| *flag == 1 && (*now, *then) != (1, *cost))
        .map(|((value, ..), _)| format!("a larger budget changes {value:?}"))
}

pub fn check(all: &mut Comparison, label: &str, lending: &Lending, budget: u64) -> Said {
    let case = || Case {
        words: vec![budget],
        ..lending.case("best")
    };
    all.keeping(case, |all| {
        all.check_numbers(
            label,
            lending,
            |lib, net, _, best| archive::scoap_best(lib, net, budget, best),
            |lib, net, _, best| best_into(lib, net, budget, best),
        )
    })
}

/// A netlist that is accepted at budgets that ascend, and what each answer must say.
fn ascending(all: &mut Comparison, label: &str, lending: &Lending, budgets: &[u64]) -> Vec<Said> {
    let analysis = analysed(&lending.lib, &lending.net, &[]).unwrap_or(vec![0; STANDING]);
    let mut before: Option<Said> = None;
    let mut answers = Vec::new();
    for &budget in budgets {
        let said = check(all, label, lending, budget);
        if said.accepted() {
            let problem = untrue(budget, &said, &analysis).or_else(|| {
                let before = before.as_ref()?;
                changed(&before.numbers, &said.numbers)
            });
            let problem = problem.map(|problem| format!("budget {budget}: {problem}"));
            all.verdict_on(label, lending, problem);
        } else {
            all.verdict_on(label, lending, Some("is refused".to_string()));
        }
        answers.extend(before.replace(said));
    }
    answers.extend(before);
    answers
}

/// Some budgets for a netlist that settles its values at these costs, ascending.
fn budgets_for(rng: &mut Random, costs: &[Cost]) -> Vec<u64> {
    let count = costs.len() as u64;
    let mut budgets = vec![
        rng.below(2) as u64,
        rng.within(2, 12) as u64,
        *rng.pick(&[100, count.saturating_sub(1), count, count + 1]),
        *rng.pick(&[
            2_000,
            2_001,
            1 << 32,
            (1 << 32) + 3,
            1 << 63,
            u64::MAX,
            u64::MAX,
        ]),
    ];
    // One that ends among equal offers.
    let equal: Vec<usize> = (1..costs.len())
        .filter(|&at| costs[at - 1] == costs[at])
        .collect();
    if !equal.is_empty() {
        budgets.push(*rng.pick(&equal) as u64);
    }
    budgets.sort_unstable();
    budgets.dedup();
    budgets
}

/// A random netlist; some have costs that are over.
fn random_netlist(rng: &mut Random) -> Pair {
    let gates = match rng.below(200) {
        0..=139 => 8,
        140..=189 => 40,
        190..=197 => 200,
        _ => 900,
    };
    let mut made = match rng.below(12) {
        0 => {
            let gates = rng.within(26, 34);
            doubled(rng, gates)
        }
        1..=4 => ladder(rng, gates),
        _ => pair(rng, gates),
    };
    if rng.once_in(3) {
        add_ranges(rng, &mut made);
    }
    made
}

/// A random netlist at some budgets.
pub fn random(all: &mut Comparison, rng: &mut Random, tally: &mut Tally) {
    let made = random_netlist(rng);
    note_netlist(tally, &made);
    let lending = Lending {
        lib: made.lib.bytes(),
        net: made.net.bytes(),
        read: Vec::new(),
        room: BEST + *rng.pick(&[0, 1, 40]),
    };
    let costs: Vec<Cost> = order(&lending.lib, &lending.net)
        .map(|order| order.into_iter().map(|(cost, _)| cost).collect())
        .unwrap_or_default();
    let budgets = budgets_for(rng, &costs);
    let answers = ascending(all, "budget", &lending, &budgets);
    let lines = made.mentioned();
    for (said, &budget) in answers.iter().zip(&budgets) {
        tally.note(said.kind(), true);
        if !said.accepted() {
            continue;
        }
        let steps = said.answer as usize;
        let last = answers.last().unwrap_or(said);
        let open = |met: &dyn Fn(Value, Cost) -> bool| {
            values(&said.numbers).any(|(value, flag, cost)| flag == 0 && met(value, cost))
        };
        // The largest budget settles all that has a number.
        let ends = |value: Value| {
            let at = 1 + BEST_LINE * (value.0 - 1) + 2 * value.1;
            last.numbers[at + 1]
        };
        for (title, met) in [
            (
                "no step, though something is offered",
                steps == 0 && open(&|_, cost| cost < NEVER),
            ),
            ("the budget ends it", said.answer == budget && budget > 0),
            ("nothing more is on offer", said.answer < budget),
            ("a budget above 2,000", budget > 2_000),
            (
                "it ends among equal offers",
                steps > 0 && steps < costs.len() && costs[steps - 1] == costs[steps],
            ),
            (
                "a value at over settled",
                values(&said.numbers).any(|(_, flag, cost)| flag == 1 && cost == OVER),
            ),
            (
                "an offer above the number",
                open(&|value, cost| cost <= LARGEST && ends(value) < cost),
            ),
            (
                "a number without an offer",
                open(&|value, cost| cost == NEVER && ends(value) < NEVER),
            ),
            (
                "a mentioned line left at never",
                said.answer < budget && open(&|(line, _), _| lines.contains(&(line as u64))),
            ),
        ] {
            tally.note(title, met);
        }
    }
    beside(all, rng, tally, &made, &lending);
}

/// Slices too short, with good texts or long ones, and texts that are refused.
fn beside(all: &mut Comparison, rng: &mut Random, tally: &mut Tally, made: &Pair, lent: &Lending) {
    let budget = *rng.pick(&[0, 1, 7, 2_000, u64::MAX]);
    let mut short = lent.clone();
    short.room = *rng.pick(&[0, 1, BEST / 2, BEST - 1]);
    if rng.once_in(3) {
        spoil(rng, &mut short, made);
    }
    let said = check(all, "short slice", &short, budget);
    tally.note(said.kind(), true);
    let meant = u64::from(TABLE_SHORT) * REFUSED;
    let problem = (said.answer != meant).then(|| format!("{} is answered", said.answer));
    all.verdict_on("short slice", &short, problem);
    let mut bad = lent.clone();
    spoil(rng, &mut bad, made);
    let said = check(all, "bad texts", &bad, budget);
    tally.note(said.kind(), true);
}

/// The figures at every budget, and the largest netlists.
fn fixed(all: &mut Comparison) {
    let lending = |lib: &str, net: &str| Lending {
        lib: lib.as_bytes().to_vec(),
        net: net.as_bytes().to_vec(),
        read: Vec::new(),
        room: BEST,
    };
    // The latch after five steps: its inputs, then line 3 at 1.
    let said = check(all, "latch", &lending(NAND2, LATCH_NET), 5);
    let head = &said.numbers[..17];
    let problem = (said.answer != 5 || head != LATCH_BEST).then(|| format!("latch: {head:?}"));
    all.verdict("latch", problem);
    let both = AND2.replace("CC,21,", "CC,21,M,7,");
    let over = doubling("AND2", 33);
    let some: Vec<u64> = (0..30).chain([u64::MAX]).collect();
    let many: Vec<u64> = (0..70).chain([u64::MAX]).collect();
    for (label, lib, net, budgets) in [
        ("C1130", C1130, C1130_NET, &some),
        ("C1130 with a range", C1130, C1130_RANGE_NET, &some),
        ("C1490", C1490, C1490_NET, &some),
        ("latch", NAND2, LATCH_NET, &some),
        ("C17", NAND2, C17_NET, &some),
        ("depth 7", DELAY, DELAY_NET, &some),
        ("tie cells", TIES, TIES_NET, &some),
        ("undriven line", "", UNDRIVEN_NET, &some),
        ("empty netlist", NAND2, "", &some),
        ("costs that are over", &both, &over, &many),
    ] {
        ascending(all, label, &lending(lib, net), budgets);
    }
    // A thousand lines have two thousand values.
    let inputs: String = (1..=MOST_LINES)
        .map(|line| format!("input,{line}\n"))
        .collect();
    let values = 2 * MOST_LINES as u64;
    let edges = [0, values - 1, values, values + 1, u64::MAX];
    ascending(all, "a thousand inputs", &lending("", &inputs), &edges);
    let gates = MOST_LINES - 1;
    let budgets = [0, 100, values / 2, values - 1, u64::MAX];
    for (label, lib, net) in [
        ("full rows", full_cell(), full_chain(60)),
        ("2G + 1 sweeps", SLOW.to_string(), slow_chain(gates)),
        ("chain", INV.to_string(), chain("INV", gates, true)),
    ] {
        ascending(all, label, &lending(&lib, &net), &budgets);
    }
    // An analysis of this one takes the second implementation long.
    for budget in budgets {
        let heaviest = lending(&full_cell(), &full_chain(gates));
        check(all, "the heaviest", &heaviest, budget);
    }
}

/// Counts what comes up in random netlists.
pub fn tally() -> Tally {
    Tally::of(&[&MET[..], &HAS[..]].concat())
}

/// All of it, and what must have come up in the random netlists.
pub fn budgets(all: &mut Comparison, rng: &mut Random) {
    fixed(all);
    let mut tally = tally();
    let count = all.extent.count(NETLISTS);
    for _ in 0..count {
        random(all, rng, &mut tally);
    }
    println!("{count} netlists at some budgets each; answers:");
    tally.tell(all);
}
