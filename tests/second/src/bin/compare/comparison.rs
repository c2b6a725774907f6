//! The two sides lent the same texts and buffers, and what came of it.

use crate::archive;
use crate::extent::Extent;
use crate::lent::{canary, Lent};
use crate::watched::Watched;
use second::kept::Case;
use second::{analyse, plan_into, qualifies_code, report_into, Answer, Refusal, MOST_LINES};
use second::{MOST_BYTES, REFUSED};

/// Every answer must come up at least so often among the random pairs.
const AT_LEAST: u64 = 100;
/// The buffer that the program itself lends.
pub const ROOM: usize = MOST_BYTES + 1;
/// Failures told in full.
const TOLD: u64 = 10;

/// The answers that a pair of texts can get; 0 stands for acceptance. Number 1 needs a lent table, and
/// 16 is unused.
pub const ANSWERS: [usize; 19] = [
    0, 2, 3, 4, 5, 6, 7, 8, 9, 10, 11, 12, 13, 14, 15, 17, 20, 21, 22,
];
pub const HIGHEST: usize = 22;
/// All refusal numbers, with 0 and the unused 16.
pub const NUMBERS: usize = 25;

/// What the reports of accepted pairs must have shown: at least so often in random pairs, and in
/// ladders.
const SHOWN: [(&str, [u64; 2]); 6] = [
    ("a cost that is over", [AT_LEAST, 50]),
    ("a cost that is never", [AT_LEAST, AT_LEAST]),
    ("more than 3 sweeps", [AT_LEAST, 1_000]),
    ("more than 100 sweeps", [10, 50]),
    ("more sweeps than lines", [0, AT_LEAST]),
    ("as many lines as there may be", [10, 10]),
];

pub struct Comparison {
    pub passed: u64,
    pub failed: u64,
    /// By refusal number, 0 for acceptance, as the archive answered.
    pub answers: [u64; HIGHEST + 1],
    /// By place of `SHOWN`.
    shown: [u64; SHOWN.len()],
    /// Plans written out, and refused.
    pub plans: [u64; 2],
    /// Pairs of which K8 says nothing, its first sentence, both; and pairs that are refused.
    pub qualified: [u64; 4],
    /// By refusal number, 0 for acceptance, over all calls of the run.
    pub met: [u64; NUMBERS],
    /// What the compared calls had, where that is counted.
    pub watched: Option<Watched>,
    /// Calls that this run has kept.
    pub kept: usize,
    pub turn: usize,
    pub extent: Extent,
}

pub fn answer_of(answer: u64) -> String {
    if answer < REFUSED {
        format!("accepted, {answer}")
    } else {
        format!("refused, {}, line {}", answer / REFUSED, answer % REFUSED)
    }
}

impl Comparison {
    pub fn of(extent: Extent) -> Self {
        Comparison {
            passed: 0,
            failed: 0,
            answers: [0; HIGHEST + 1],
            shown: [0; SHOWN.len()],
            plans: [0; 2],
            qualified: [0; 4],
            met: [0; NUMBERS],
            watched: None,
            kept: 0,
            turn: 0,
            extent,
        }
    }

    /// Counts a call's answer.
    pub fn answered(&mut self, answer: u64) {
        let number = (answer / REFUSED) as usize;
        if let Some(count) = self.met.get_mut(number) {
            *count += 1;
        }
    }

    /// How many verdicts there were so far.
    pub fn verdicts(&self) -> u64 {
        self.passed + self.failed
    }

    /// From here on it is counted anew what answers come up and what reports show.
    pub fn count_anew(&mut self) {
        self.answers = [0; HIGHEST + 1];
        self.shown = [0; SHOWN.len()];
    }

    /// Tells how often something came up that must have: `least` times in a whole run.
    pub fn met_at_least(&mut self, least: u64, title: &str, count: u64) {
        println!("  {title:<34} {count:>6}");
        let few = self.extent.whole() && count < least;
        self.verdict(title, few.then(|| format!("came up {count} times only")));
    }

    pub fn met(&mut self, title: &str, count: u64) {
        self.met_at_least(AT_LEAST, title, count);
    }

    pub fn verdict(&mut self, label: &str, problem: Option<String>) {
        match problem {
            None => self.passed += 1,
            Some(problem) => {
                self.failed += 1;
                if self.failed <= TOLD {
                    println!("FAILED: {label}: {problem}");
                }
            }
        }
    }

    /// Lends both sides the same texts and a buffer of `room` bytes. `known` is the answer that the
    /// case was made for, where there is one.
    pub fn check(&mut self, label: &str, lib: &[u8], net: &[u8], room: usize, known: Option<u64>) {
        let case = || Case::of("report", [lib, net], room);
        self.keeping(case, |all| all.compare_report(label, lib, net, room, known));
    }

    fn compare_report(
        &mut self,
        label: &str,
        lib: &[u8],
        net: &[u8],
        room: usize,
        known: Option<u64>,
    ) {
        self.turn += 1;
        let salt = self.turn as u8;
        let shift = self.turn % 8;
        let lent_lib = Lent::of(lib.iter().copied(), shift, salt);
        let lent_net = Lent::of(net.iter().copied(), self.turn / 8 % 8, salt);
        let before = Lent::of(
            (0..room).map(|at| canary(at, salt ^ 0x55)),
            self.turn / 64 % 8,
            salt,
        );
        let mut wanted = before.clone();
        let mut got = before;
        let expected = report_into(lib, net, wanted.inner_mut());
        // The texts are compared with these copies afterwards.
        let texts = [lent_lib.all.clone(), lent_net.all.clone()];
        let answer = archive::scoap_report(lent_lib.inner(), lent_net.inner(), got.inner_mut());

        self.answered(answer);
        self.watch(lib, net, answer == room as u64, false, false);
        self.answers[if answer < REFUSED {
            0
        } else {
            (answer / REFUSED).min(HIGHEST as u64) as usize
        }] += 1;
        if answer < REFUSED && answer <= room as u64 {
            self.note(&got.inner()[..answer as usize]);
        }
        let problem = if answer != expected {
            Some(format!(
                "{} instead of {}",
                answer_of(answer),
                answer_of(expected)
            ))
        } else if let Some(known) = known.filter(|&known| known != answer) {
            Some(format!(
                "{} where {} was meant",
                answer_of(answer),
                answer_of(known)
            ))
        } else if let Some(at) = (0..got.all.len()).find(|&at| got.all[at] != wanted.all[at]) {
            let place = at as i64 - got.start as i64;
            let [is, should] = [got.all[at], wanted.all[at]];
            Some(format!(
                "{}; byte {place} of a buffer of {room} is {is} instead of {should}",
                answer_of(answer)
            ))
        } else if texts != [lent_lib.all, lent_net.all] {
            Some("a text has changed".to_string())
        } else {
            None
        };
        let told = problem.is_some() && self.failed < TOLD;
        self.verdict(label, problem);
        if told {
            for (title, text) in [("library", lib), ("netlist", net)] {
                let cut = &text[..text.len().min(1_500)];
                println!(
                    "  {title}, {} bytes: {:?}",
                    text.len(),
                    String::from_utf8_lossy(cut)
                );
            }
        }
    }

    /// Of which netlists K8 speaks, by both sides.
    pub fn check_qualifies(&mut self, label: &str, lib: &[u8], net: &[u8]) -> u64 {
        let case = || Case::of("qualifies", [lib, net], 0);
        self.keeping(case, |all| all.compare_qualifies(label, lib, net))
    }

    fn compare_qualifies(&mut self, label: &str, lib: &[u8], net: &[u8]) -> u64 {
        let answer = archive::scoap_qualifies(lib, net);
        self.answered(answer);
        self.watch(lib, net, false, false, false);
        let expected = qualifies_code(lib, net);
        self.qualified[answer.min(3) as usize] += 1;
        let problem = (answer != expected).then(|| {
            let net = String::from_utf8_lossy(net);
            format!("qualifies {answer} instead of {expected}: {net:?}")
        });
        self.verdict(label, problem);
        answer
    }

    /// Lends both sides the same texts and a buffer of `room` bytes for a plan's text.
    pub fn check_plan(
        &mut self,
        label: &str,
        pair: [&[u8]; 2],
        asked: [u64; 3],
        room: usize,
    ) -> u64 {
        let case = || Case {
            words: asked.to_vec(),
            ..Case::of("plan", pair, room)
        };
        self.keeping(case, |all| all.compare_plan(label, pair, asked, room))
    }

    fn compare_plan(&mut self, label: &str, pair: [&[u8]; 2], asked: [u64; 3], room: usize) -> u64 {
        self.turn += 1;
        let salt = self.turn as u8;
        let [lib, net] = pair;
        let [line, value, kind] = asked;
        let mut got = Lent::of((0..room).map(|at| canary(at, salt)), self.turn % 8, salt);
        let mut wanted = got.clone();
        let expected = plan_into(lib, net, line, value, kind, wanted.inner_mut());
        let answer = archive::scoap_plan(lib, net, line, value, kind, got.inner_mut());
        self.answered(answer);
        self.watch(lib, net, answer == room as u64, false, false);
        let problem = if answer != expected {
            Some(format!(
                "plan of {asked:?}, {room} bytes: {} instead of {}",
                answer_of(answer),
                answer_of(expected)
            ))
        } else if got.all != wanted.all {
            Some(format!(
                "plan of {asked:?}, {room} bytes: {:?} instead of {:?}",
                String::from_utf8_lossy(got.inner()),
                String::from_utf8_lossy(wanted.inner())
            ))
        } else {
            None
        };
        let told = problem.is_some() && self.failed < TOLD;
        self.verdict(label, problem);
        if told {
            for text in pair {
                println!("  {:?}", String::from_utf8_lossy(text));
            }
        }
        answer
    }

    /// The plans of all lines that the netlist may mention, both values and kinds, with buffers just long
    /// enough, one byte short and long.
    pub fn check_plans(&mut self, label: &str, lib: &[u8], net: &[u8], lines: u64) {
        for line in 0..=lines + 1 {
            for value in [0, 1] {
                for kind in [0, 1] {
                    let asked = [line, value, kind];
                    let answer = self.check_plan(label, [lib, net], asked, 4_000);
                    self.plans[usize::from(answer >= REFUSED)] += 1;
                    if answer < REFUSED {
                        self.check_plan(label, [lib, net], asked, answer as usize);
                        self.check_plan(label, [lib, net], asked, answer as usize - 1);
                    }
                }
            }
        }
        for asked in [
            [1, 2, 0],
            [1, 0, 2],
            [MOST_LINES as u64 + 1, 0, 0],
            [u64::MAX, 0, 1],
        ] {
            self.check_plan(label, [lib, net], asked, 100);
        }
    }

    /// What the report of an accepted pair shows.
    fn note(&mut self, report: &[u8]) {
        let has = |word: &[u8]| report.windows(word.len()).any(|part| part == word);
        let sweeps = report
            .split(|&b| b == b'\n')
            .find(|line| line.starts_with(b"sweeps,"));
        let most = sweeps
            .and_then(|line| std::str::from_utf8(line).ok())
            .map_or(0, |line| {
                line.split(',')
                    .filter_map(|part| part.parse::<u32>().ok())
                    .max()
                    .unwrap_or(0)
            });
        // The first line is the head, the last one has the sweeps.
        let lines = report
            .iter()
            .filter(|&&b| b == b'\n')
            .count()
            .saturating_sub(2);
        let shows = [
            has(b"over"),
            has(b"never"),
            most > 3,
            most > 100,
            most as usize > lines,
            lines == MOST_LINES,
        ];
        for (count, shown) in self.shown.iter_mut().zip(shows) {
            *count += u64::from(shown);
        }
    }

    /// Tells what the reports have shown; `part` is 0 for random pairs and 1 for ladders.
    pub fn tell_shown(&mut self, part: usize) {
        println!("among the accepted:");
        for (at, (title, least)) in SHOWN.into_iter().enumerate() {
            self.met_at_least(least[part], title, self.shown[at]);
        }
    }

    /// With buffers just long enough, one byte short, empty and long.
    pub fn check_rooms(&mut self, label: &str, lib: &[u8], net: &[u8]) {
        match analyse(lib, net, usize::MAX) {
            Answer::Accepted { report, .. } => {
                let length = report.len();
                let known = Some(length as u64);
                for room in [length, length + 1, ROOM.max(length), ROOM + 7_000] {
                    self.check(label, lib, net, room, known);
                }
                for room in [0, 1, length / 2, length - 1] {
                    self.check(label, lib, net, room, Some(17 * REFUSED));
                }
            }
            Answer::Refused { number, line } => {
                let known = Some(Refusal { number, line }.code());
                for room in [0, 1, 1_000, ROOM] {
                    self.check(label, lib, net, room, known);
                }
            }
        }
    }

    /// A figure whose whole report is known.
    pub fn figure(&mut self, label: &str, lib: &str, net: &str, report: &str) {
        let mut buffer = vec![1; report.len()];
        let answer = archive::scoap_report(lib.as_bytes(), net.as_bytes(), &mut buffer);
        let problem = (answer != report.len() as u64 || buffer != report.as_bytes()).then(|| {
            format!(
                "{}: {:?}",
                answer_of(answer),
                String::from_utf8_lossy(&buffer)
            )
        });
        self.verdict(label, problem);
        self.check_rooms(label, lib.as_bytes(), net.as_bytes());
    }

    /// A figure that gives some costs of some lines: line, column from 0, text.
    pub fn costs(&mut self, label: &str, lib: &str, net: &str, known: &[(u32, usize, String)]) {
        let mut buffer = vec![1; ROOM];
        let answer = archive::scoap_report(lib.as_bytes(), net.as_bytes(), &mut buffer);
        if answer > ROOM as u64 {
            self.verdict(label, Some(answer_of(answer)));
            return;
        }
        let report = String::from_utf8_lossy(&buffer[..answer as usize]).into_owned();
        for (line, column, cost) in known {
            let head = if *line == 0 {
                "sweeps".to_string()
            } else {
                line.to_string()
            };
            let found = report
                .lines()
                .map(|text| text.split(',').collect::<Vec<_>>())
                .find(|parts| parts[0] == head)
                .and_then(|parts| parts.get(column + 1).map(|part| part.to_string()));
            let problem = (found.as_ref() != Some(cost))
                .then(|| format!("line {line}, column {column}: {found:?} instead of {cost}"));
            self.verdict(label, problem);
        }
        self.check_rooms(label, lib.as_bytes(), net.as_bytes());
    }
}
