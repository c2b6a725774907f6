//! The pad adviser, on both sides: random netlists with lists of forbidden lines, with slices too short or longer than
//! the answer, and texts too long or bad.
//!
//! What the archive says is besides held against its own reports of texts with the pad's output line added, and the
//! advice against the ranks.

use crate::archive;
use crate::comparison::{answer_of, Comparison, ROOM};
use crate::numbered::{note_netlist, spoil, Lending, Said, Tally, HAS};
use second::advice::{advise_into, rank_into, ADVICE, RANKS, RANK_WORDS};
use second::between::{parts, rows};
use second::figures::*;
use second::generate::{add_ranges, doubled, ladder, pair, Pair};
use second::random::Random;
use second::refusal::TABLE_SHORT;
use second::shapes;
use second::REFUSED;
use second::{Cost, LARGEST, MOST_LINES, NEVER, OVER};

/// Random netlists, each with a list of forbidden lines.
const NETLISTS: usize = 1_200;
/// Lines of each whose ranks are held against a new analysis.
const ANALYSED: usize = 3;
/// Where CO stands among the numbers of a report's line.
const CO: usize = 4;

#[derive(Clone, Copy, Debug)]
pub enum Call {
    Advise,
    Rank,
}

impl Call {
    fn size(self) -> usize {
        match self {
            Call::Advise => ADVICE,
            Call::Rank => RANKS,
        }
    }

    /// On both sides; `lending.read` is the list of forbidden lines.
    pub fn check(self, all: &mut Comparison, label: &str, lending: &Lending) -> Said {
        match self {
            Call::Advise => all.keeping(
                || lending.case("advise"),
                |all| all.check_numbers(label, lending, archive::scoap_advise, advise_into),
            ),
            Call::Rank => all.keeping(
                || lending.case("rank"),
                |all| all.check_numbers(label, lending, archive::scoap_rank, rank_into),
            ),
        }
    }
}

/// The four numbers of a line, if it is allowed.
fn rank_of(ranks: &[u32], line: usize) -> Option<[u32; RANK_WORDS]> {
    let place = RANK_WORDS * (line - 1);
    let words: [u32; RANK_WORDS] = ranks[place..place + RANK_WORDS].try_into().ok()?;
    (words != [NEVER; RANK_WORDS]).then_some(words)
}

/// The largest CO that a line's numbers tell of.
fn largest([nevers, overs, figure, _]: [u32; RANK_WORDS]) -> Cost {
    match (nevers, overs) {
        (0, 0) => figure,
        (0, _) => OVER,
        _ => NEVER,
    }
}

/// The allowed lines with their largest CO, as ranks tell them.
fn told(ranks: &[u32]) -> Vec<(Cost, usize)> {
    (1..=MOST_LINES)
        .filter_map(|line| Some((largest(rank_of(ranks, line)?), line)))
        .collect()
}

/// The numbers of a line in a new analysis, by the archive's report of the netlist with that line marked output.
fn analysed(lib: &[u8], net: &[u8], line: usize) -> Option<[u32; RANK_WORDS]> {
    let mut net = net.to_vec();
    net.extend(format!("output,{line}\n").bytes());
    let mut report = vec![0; 2 * ROOM];
    let length = archive::scoap_report(lib, &net, &mut report) as usize;
    let report = report.get(..length)?;
    let low = parts(report).map_or(report, |[low, _]| low);
    let (mut words, mut sum) = ([0; RANK_WORDS], 0u64);
    for (head, costs) in rows(low) {
        if costs.is_empty() || head == b"sweeps" {
            continue;
        }
        match costs[CO] {
            NEVER => words[0] += 1,
            OVER => words[1] += 1,
            figure => {
                words[2] = words[2].max(figure);
                sum += u64::from(figure);
            }
        }
    }
    words[3] = sum.min(u64::from(OVER)) as u32;
    Some(words)
}

/// What is wrong with advice, over the ranks of the same list: the lowest line among the least, or 0 of none.
fn ill_advised(advice: &Said, told: &[(Cost, usize)]) -> Option<String> {
    let is = (advice.answer > 0).then_some((advice.numbers[0], advice.answer as usize));
    let wanted = told.iter().min().copied();
    (is != wanted).then(|| format!("advice {is:?}, where the ranks tell {wanted:?}"))
}

/// Which lines the netlist mentions, ascending, and which of them are outputs.
fn lines_of(made: &Pair) -> (Vec<u32>, Vec<u32>) {
    let mut lines: Vec<u32> = made.mentioned().iter().map(|&line| line as u32).collect();
    lines.sort_unstable();
    lines.dedup();
    let outputs = made.net.lines.iter().filter(|line| line[0] == b"output");
    let outputs = outputs
        .filter_map(|line| std::str::from_utf8(&line[1]).ok()?.parse().ok())
        .collect();
    (lines, outputs)
}

/// A list of forbidden lines, with entries that name none.
fn any_list(rng: &mut Random, lines: &[u32]) -> Vec<u32> {
    let mut list: Vec<u32> = match rng.below(8) {
        0 => Vec::new(),
        1 => lines.to_vec(),
        2 => {
            let left = rng.within(1, 2);
            let mut list = lines.to_vec();
            rng.shuffle(&mut list);
            list.truncate(lines.len().saturating_sub(left));
            list
        }
        _ => {
            let share = rng.within(2, 6);
            let some = |_: &&u32| rng.once_in(share);
            lines.iter().filter(some).copied().collect()
        }
    };
    if rng.once_in(2) && !list.is_empty() {
        let again = *rng.pick(&list);
        list.extend(vec![again; rng.within(1, 3)]);
    }
    for _ in 0..rng.below(4) {
        let near = lines.first().copied().unwrap_or(1);
        list.push(match rng.below(6) {
            0 => 0,
            1 => MOST_LINES as u32 + 1,
            2 => u32::MAX,
            3 => near + 65_536,
            4 => rng.next() as u32,
            _ => rng.within(1, MOST_LINES) as u32,
        });
    }
    if rng.once_in(20) {
        list.extend(vec![0; 5_000]);
    }
    rng.shuffle(&mut list);
    list
}

/// A random netlist; some have costs that are over.
fn random_netlist(rng: &mut Random) -> Pair {
    let gates = match rng.below(200) {
        0..=149 => 8,
        150..=197 => 40,
        _ => 200,
    };
    let mut made = match rng.below(12) {
        0 | 1 => {
            let gates = rng.within(26, 36);
            doubled(rng, gates)
        }
        2..=5 => ladder(rng, gates),
        _ => pair(rng, gates),
    };
    if rng.once_in(3) {
        add_ranges(rng, &mut made);
    }
    made
}

/// What must have come up in the random netlists.
const MET: [&str; 17] = [
    "accepted",
    "refused 1",
    "refused 2",
    "refused for a text",
    "a line is named",
    "none is allowed",
    "the largest CO is a figure",
    "the largest CO is over",
    "the largest CO is never",
    "several lines are as good",
    "a forbidden line would be better",
    "an output would be lower",
    "one allowed line alone",
    "a line forbidden twice",
    "an entry that names no line",
    "a sum that is over",
    "all never, and ranks that differ",
];

/// A netlist with a list of forbidden lines.
struct Question {
    made: Pair,
    lines: Vec<u32>,
    outputs: Vec<u32>,
    list: Vec<u32>,
    /// How much longer the lent numbers are than they must be.
    more: usize,
}

impl Question {
    fn random(rng: &mut Random) -> Self {
        let made = random_netlist(rng);
        let (lines, outputs) = lines_of(&made);
        Question {
            list: any_list(rng, &lines),
            more: *rng.pick(&[0, 1, 40]),
            made,
            lines,
            outputs,
        }
    }

    fn lending(&self, call: Call) -> Lending {
        Lending {
            lib: self.made.lib.bytes(),
            net: self.made.net.bytes(),
            read: self.list.clone(),
            room: call.size() + self.more,
        }
    }

    /// The allowed lines, by the text itself.
    fn allowed(&self) -> Vec<usize> {
        self.lines
            .iter()
            .filter(|line| !self.outputs.contains(line) && !self.list.contains(line))
            .map(|&line| line as usize)
            .collect()
    }

    /// The advice without the list is never worse, and another line only where that one is forbidden: then it is
    /// answered that the list took the better line away.
    fn freely(&self, all: &mut Comparison, advice: &Said) -> bool {
        let mut lending = self.lending(Call::Advise);
        lending.read.clear();
        let freely = Call::Advise.check(all, "advice", &lending);
        let other = freely.answer != advice.answer;
        let right = freely.numbers[0] <= advice.numbers[0]
            && (!other || self.list.contains(&(freely.answer as u32)));
        let problem = (!right).then(|| format!("without the list {}", freely.answer));
        all.verdict_on("advice", &lending, problem);
        other
    }
}

/// A random netlist with a list of forbidden lines.
pub fn random(all: &mut Comparison, rng: &mut Random, tally: &mut Tally) {
    let question = Question::random(rng);
    note_netlist(tally, &question.made);
    let ranking = question.lending(Call::Rank);
    let advice = Call::Advise.check(all, "advice", &question.lending(Call::Advise));
    let ranks = Call::Rank.check(all, "ranks", &ranking);
    tally.note(advice.kind(), true);
    tally.note(ranks.kind(), true);
    if !advice.accepted() || !ranks.accepted() {
        all.verdict_on("advice", &ranking, Some("is refused".to_string()));
        return;
    }

    let allowed = question.allowed();
    let told = told(&ranks.numbers);
    let lines = told.iter().map(|&(_, line)| line);
    let right = ranks.answer == allowed.len() as u64 && lines.eq(allowed.iter().copied());
    let problem = (!right).then(|| format!("{} allowed of {allowed:?}", ranks.answer));
    all.verdict_on("allowed lines", &ranking, problem);
    all.verdict_on("advice", &ranking, ill_advised(&advice, &told));
    // Some lines by a new analysis, the named one among them.
    let named = (advice.answer > 0).then_some(advice.answer as usize);
    let some = (0..ANALYSED).filter(|_| !allowed.is_empty());
    let some: Vec<usize> = some.map(|_| *rng.pick(&allowed)).chain(named).collect();
    for line in some {
        let is = rank_of(&ranks.numbers, line);
        let anew = analysed(&ranking.lib, &ranking.net, line);
        let problem = (is != anew).then(|| format!("line {line}: {is:?}, a new analysis {anew:?}"));
        all.verdict_on("a new analysis", &ranking, problem);
    }
    let taken = named.is_some() && rng.once_in(2) && question.freely(all, &advice);
    tally.note("a forbidden line would be better", taken);
    note(tally, &question, &advice, &ranks, &told);
    for call in [Call::Advise, Call::Rank] {
        beside(all, rng, tally, &question, call);
    }
}

/// Notes what an accepted answer shows.
fn note(
    tally: &mut Tally,
    question: &Question,
    advice: &Said,
    ranks: &Said,
    told: &[(Cost, usize)],
) {
    let Question {
        lines,
        outputs,
        list,
        ..
    } = question;
    let named = advice.answer > 0;
    let cost = advice.numbers[0];
    let twice = |line: &u32| list.iter().filter(|each| *each == line).count() > 1;
    let words = |at: usize| rank_of(&ranks.numbers, told[at].1).unwrap_or_default();
    for (title, met) in [
        ("a line is named", named),
        ("none is allowed", !named),
        ("the largest CO is a figure", named && cost <= LARGEST),
        ("the largest CO is over", named && cost == OVER),
        ("the largest CO is never", named && cost == NEVER),
        (
            "several lines are as good",
            told.iter().filter(|&&(each, _)| each == cost).count() > 1,
        ),
        (
            "an output would be lower",
            outputs.iter().any(|&line| u64::from(line) < advice.answer),
        ),
        ("one allowed line alone", told.len() == 1),
        ("a line forbidden twice", lines.iter().any(twice)),
        (
            "an entry that names no line",
            list.iter().any(|line| !lines.contains(line)),
        ),
        (
            "a sum that is over",
            (0..told.len()).any(|at| words(at)[3] == OVER),
        ),
        (
            "all never, and ranks that differ",
            cost == NEVER && (1..told.len()).any(|at| words(at) != words(0)),
        ),
    ] {
        tally.note(title, met);
    }
}

/// Slices too short, with good texts or long ones, and texts that are refused.
fn beside(
    all: &mut Comparison,
    rng: &mut Random,
    tally: &mut Tally,
    question: &Question,
    call: Call,
) {
    let mut short = question.lending(call);
    short.room = *rng.pick(&[0, call.size() / 2, call.size() - 1]);
    if rng.once_in(3) {
        spoil(rng, &mut short, &question.made);
    }
    let said = call.check(all, "short slice", &short);
    tally.note(said.kind(), true);
    let meant = u64::from(TABLE_SHORT) * REFUSED;
    let problem = (said.answer != meant).then(|| answer_of(said.answer));
    all.verdict_on("short slice", &short, problem);
    let mut bad = question.lending(call);
    spoil(rng, &mut bad, &question.made);
    let said = call.check(all, "bad texts", &bad);
    tally.note(said.kind(), true);
}

/// The figures, and the benchmark's netlists of 950 gates.
fn fixed(all: &mut Comparison) {
    let lending = |lib: &[u8], net: &[u8], list: &[u32], room: usize| Lending {
        lib: lib.to_vec(),
        net: net.to_vec(),
        read: list.to_vec(),
        room,
    };
    // The latch: a pad on line 2 or 4 leaves 3.
    for (list, line, cost) in [
        (&[][..], 2, 3),
        (&[2], 4, 3),
        (&[2, 1_001, 2, 0, u32::MAX], 4, 3),
        (&[4, 2], 1, 5),
    ] {
        let latch = lending(NAND2.as_bytes(), LATCH_NET.as_bytes(), list, ADVICE);
        let said = Call::Advise.check(all, "latch", &latch);
        let is = (said.answer, said.numbers[0]);
        let problem = (is != (line, cost)).then(|| format!("latch without {list:?}: {is:?}"));
        all.verdict("latch", problem);
    }
    for (label, lib, net) in [
        ("C1130", C1130, C1130_NET),
        ("C1130 with a range", C1130, C1130_RANGE_NET),
        ("C1490", C1490, C1490_NET),
        ("latch", NAND2, LATCH_NET),
        ("C17", NAND2, C17_NET),
        ("depth 7", DELAY, DELAY_NET),
        ("tie cells", TIES, TIES_NET),
        ("undriven line", "", UNDRIVEN_NET),
        ("empty netlist", NAND2, ""),
    ] {
        let [lib, net] = [lib.as_bytes(), net.as_bytes()];
        for list in [&[][..], &[1], &[1, 2], &[3, 1, 4, 1, 5, 9, 2, 6]] {
            Call::Advise.check(all, label, &lending(lib, net, list, ADVICE));
            Call::Rank.check(all, label, &lending(lib, net, list, RANKS));
        }
    }
    for case in shapes::tried() {
        let ranking = lending(&case.lib, &case.net, &[], RANKS);
        let ranks = Call::Rank.check(all, &case.label, &ranking);
        let mut answer = [5; ADVICE];
        let advice = Said {
            answer: archive::scoap_advise(&case.lib, &case.net, &[], &mut answer),
            numbers: answer.to_vec(),
        };
        let problem = ill_advised(&advice, &told(&ranks.numbers));
        all.verdict(&case.label, problem);
    }
}

/// Counts what comes up in random netlists.
pub fn tally() -> Tally {
    Tally::of(&[&MET[..], &HAS[..]].concat())
}

/// All of it, and what must have come up in the random netlists.
pub fn advice(all: &mut Comparison, rng: &mut Random) {
    fixed(all);
    let mut tally = tally();
    let count = all.extent.count(NETLISTS);
    for _ in 0..count {
        random(all, rng, &mut tally);
    }
    println!("{count} netlists with lists of forbidden lines; answers:");
    tally.tell(all);
}
