//! What pads would change, as the archive answers when it is asked for a pad, and the advice drawn from that. A pad is an
//! output: it changes CO and SO alone.

use crate::ask::archive::{self, refusal_told, Numbers, Refusal, Six};
use crate::ask::model::{Driver, Model};
use crate::ask::upstream::{self, Upstream};
use crate::read::names::{LineKind, OWN_CLOCK};
use crate::show::cost::Cost;
use std::collections::HashMap;
use std::sync::atomic::{AtomicUsize, Ordering};
use std::time::{Duration, Instant};

/// How well the ranked lines are seen. Ordered: lines that are never seen, over, the largest figure, the sum of figures.
#[derive(Clone, Copy, Debug, PartialEq, Eq, PartialOrd, Ord)]
pub struct Measure {
    pub never: usize,
    pub over: usize,
    pub largest: u32,
    pub sum: u64,
}

pub fn measure(model: &Model, numbers: &Numbers) -> Measure {
    let ranked: Vec<usize> = model.lines().filter(|&line| model.is_ranked(line)).collect();
    measured(&ranked, numbers)
}

fn measured(ranked: &[usize], numbers: &Numbers) -> Measure {
    let mut measure = Measure { never: 0, over: 0, largest: 0, sum: 0 };
    for &line in ranked {
        match numbers.of(line)[4] {
            Cost::Never => measure.never += 1,
            Cost::Over => measure.over += 1,
            Cost::Figure(figure) => {
                measure.largest = measure.largest.max(figure);
                measure.sum += u64::from(figure);
            }
        }
    }
    measure
}

/// What one pad does.
#[derive(Clone, Debug, PartialEq, Eq)]
pub struct Effect {
    pub line: usize,
    /// The count of pads when this one was asked for: with the line, its ticket.
    pub count: u64,
    pub after: Measure,
    /// Lines that were never seen, or over, and are seen for less.
    pub freed: usize,
    /// How much the CO figures fall together.
    pub gain: u64,
    /// Ranked lines that become easier to see, with their CO after.
    pub easier: Vec<(usize, Cost)>,
    /// Protected lines that may become easier to see, whatever the prices within their ranges.
    pub touched: Vec<usize>,
}

impl Effect {
    /// The order of gains: more lines freed, then the larger fall.
    pub fn rank(&self) -> (usize, u64) {
        (self.freed, self.gain)
    }
}

/// How far a CO falls: whether it was never or over and is less, and else by how much.
pub fn fall(was: Cost, is: Cost) -> (bool, u32) {
    match (was, is) {
        (Cost::Figure(was), Cost::Figure(is)) => (false, was.saturating_sub(is)),
        (was, is) => (is < was, 0),
    }
}

/// Whether a line is easier to see: its CO or SO falls.
pub fn is_easier(was: &Six, is: &Six) -> bool {
    is[4] < was[4] || is[5] < was[5]
}

/// The effect of a pad on a line: what it leaves, by the count of pads when it was asked for, and the protected lines that
/// it touches.
fn effect(model: &Model, ranked: &[usize], line: usize, (count, after): (u64, Numbers), touched: Vec<usize>) -> Effect {
    let mut freed = 0;
    let mut gain = 0;
    let mut easier = Vec::new();
    for &other in ranked {
        let (was, is) = (model.numbers.of(other), after.of(other));
        let (free, figures) = fall(was[4], is[4]);
        freed += usize::from(free);
        gain += u64::from(figures);
        if is_easier(was, is) {
            easier.push((other, is[4]));
        }
    }
    Effect { line, count, after: measured(ranked, &after), freed, gain, easier, touched }
}

/// Whether a line may get a pad: it is no output and has none yet, a gate or a register drives it, and something reads it,
/// if it is no register. An input is one where that is asked for, but never the clock that the importer put in.
pub fn is_candidate(model: &Model, line: usize) -> bool {
    let name = model.name(line);
    let read = !model.readers[line].is_empty();
    let driven = match model.driver[line] {
        Some(Driver::Gate(gate)) => !model.gates[gate].pins.is_empty(),
        _ => false,
    };
    let wanted = match name.kind {
        LineKind::Gate => driven && read,
        LineKind::Register => driven,
        LineKind::Input => model.inputs_too && read && name.net != OWN_CLOCK,
        LineKind::Constant | LineKind::Open | LineKind::Part | LineKind::Unsaid => false,
    };
    wanted && !model.is_output[line]
}

/// The lines that may get a pad.
pub fn candidates(model: &Model) -> Vec<usize> {
    model.lines().filter(|&line| is_candidate(model, line)).collect()
}

/// Tells the progress of what takes longer than a second.
pub struct Progress {
    begun: Instant,
    told: Instant,
    what: &'static str,
}

impl Progress {
    pub fn new(what: &'static str) -> Self {
        let now = Instant::now();
        Progress { begun: now, told: now, what }
    }

    pub fn tell(&mut self, done: usize, of: usize) {
        let second = Duration::from_secs(1);
        if self.begun.elapsed() >= second && self.told.elapsed() >= second {
            eprintln!("{}: {done} of {of}", self.what);
            self.told = Instant::now();
        }
    }
}

fn refused(refusal: Refusal) -> String {
    format!("a pad is refused: {} (refusal {})", refusal_told(refusal.number), refusal.number)
}

/// The protected lines that pads on these lines touch together: their SO falls, or their CO. With ranges a CO counts as
/// touched where at HIGH, without the pads, it is above that at LOW with the pads as the only outputs: comparing at one
/// end, or at both, is not enough, since two ways may be priced apart. With boxes what they take counts as not seen, so that
/// a line that only a box takes is touched by every pad that shows it.
pub struct Touching<'p> {
    privacy: &'p Privacy,
    /// The numbers without the pads at HIGH, and with boxes not seen, where the netlist has either.
    guard: Option<Numbers>,
}

impl<'p> Touching<'p> {
    pub fn new(model: &Model, privacy: &'p Privacy) -> Result<Self, String> {
        let wanted = (model.ranges || !model.taken.is_empty()) && !privacy.protected.is_empty();
        Ok(Touching { privacy, guard: wanted.then(|| model.guarded()).transpose().map_err(refused)? })
    }

    pub fn by(&self, model: &Model, pads: &[usize], after: &Numbers) -> Result<Vec<usize>, String> {
        let alone = self.guard.as_ref().map(|_| model.alone(pads)).transpose().map_err(refused)?;
        let ends = self.guard.as_ref().zip(alone.as_ref());
        let is_touched = |line: &usize| {
            let (was, is) = (model.numbers.of(*line), after.of(*line));
            is_easier(was, is) || ends.is_some_and(|(guard, alone)| is_easier(guard.of(*line), alone.of(*line)))
        };
        Ok(self.privacy.protected.iter().copied().filter(is_touched).collect())
    }
}

/// The effect of a pad on each of these lines alone, beside those that are placed already; by a thread for each processor.
pub fn effects(model: &Model, lines: &[usize], privacy: &Privacy) -> Result<Vec<Effect>, String> {
    let touching = Touching::new(model, privacy)?;
    let ranked: Vec<usize> = model.lines().filter(|&line| model.is_ranked(line)).collect();
    let one = |line: usize| -> Result<Effect, String> {
        let (count, after) = model.ask(line).map_err(refused)?;
        let touched = touching.by(model, &[line], &after)?;
        Ok(effect(model, &ranked, line, (count, after), touched))
    };
    let next = AtomicUsize::new(0);
    let work = |mut progress: Option<Progress>| {
        let mut done = Vec::new();
        loop {
            let at = next.fetch_add(1, Ordering::Relaxed);
            let Some(&line) = lines.get(at) else { return done };
            done.push((at, one(line)));
            if let Some(progress) = &mut progress {
                progress.tell(at + 1, lines.len());
            }
        }
    };
    let helpers = std::thread::available_parallelism().map_or(1, usize::from).min(lines.len()).saturating_sub(1);
    let mut done = std::thread::scope(|scope| {
        // A thread that cannot be had leaves its work to the others.
        let spawn =
            |_| std::thread::Builder::new().stack_size(archive::stack()).spawn_scoped(scope, || work(None)).ok();
        let helpers: Vec<_> = (0..helpers).filter_map(spawn).collect();
        let mut done = work(Some(Progress::new("pads tried")));
        for helper in helpers {
            done.extend(helper.join().expect("a thread that ends"));
        }
        done
    });
    done.sort_by_key(|(at, _)| *at);
    done.into_iter().map(|(_, effect)| effect).collect()
}

/// The effect of a pad on each line that may get one, by line.
pub fn by_line(model: &Model) -> Result<HashMap<usize, Effect>, String> {
    by_line_under(model, &Privacy::default())
}

/// The same, with the protected lines that each pad touches.
pub fn by_line_under(model: &Model, privacy: &Privacy) -> Result<HashMap<usize, Effect>, String> {
    let effects = effects(model, &candidates(model), privacy)?;
    Ok(effects.into_iter().map(|effect| (effect.line, effect)).collect())
}

/// The model with pads on these lines.
pub fn placed(model: &Model, lines: &[usize]) -> Result<Model, String> {
    let mut progress = Progress::new("pads placed");
    let mut model = model.clone();
    for (at, &line) in lines.iter().enumerate() {
        model.commit(line, model.pads()).map_err(refused)?;
        progress.tell(at + 1, lines.len());
    }
    Ok(model)
}

/// Nets that get no pad, and nets that no pad may make easier to see, nor carry; by line.
#[derive(Clone, Default)]
pub struct Privacy {
    pub forbidden: Vec<usize>,
    pub protected: Vec<usize>,
    /// How far upstream of a protected net lines are ruled out: 0 that net alone, 1 what carries its value too, and above
    /// that so many real gates and registers further.
    depth: usize,
    upstream: Upstream,
}

/// What `--protect-depth` is, where it is not said.
pub const USUAL_DEPTH: usize = 1;

impl Privacy {
    pub fn new(model: &Model, forbidden: Vec<usize>, protected: Vec<usize>, depth: usize) -> Privacy {
        let upstream = Upstream::new(model, &protected);
        Privacy { forbidden, protected, depth, upstream }
    }

    /// How far upstream lines are ruled out.
    pub fn depth(&self) -> usize {
        self.depth
    }

    /// Whether a line carries a protected value.
    pub fn carries(&self, line: usize) -> bool {
        self.upstream.carries(line)
    }

    /// The nearest protected line that a line is upstream of, and the registers and gates on the way.
    pub fn upstream(&self, line: usize) -> Option<(usize, usize, usize)> {
        self.upstream.nearest(line)
    }

    /// Whether a line gets no pad, whatever the pad would change.
    pub fn ruled_out(&self, line: usize) -> bool {
        let near = || self.depth > 0 && self.upstream.within(line, self.depth - 1);
        self.forbidden.contains(&line) || self.protected.contains(&line) || near()
    }

    pub fn allows(&self, effect: &Effect) -> bool {
        !self.ruled_out(effect.line) && effect.touched.is_empty()
    }

    /// What a person must know of a pad on a line: whether it carries a protected value, and how far upstream it is.
    pub fn told(&self, model: &Model, line: usize) -> Vec<String> {
        let mut told: Vec<String> = self.upstream.carries_told(model, line).into_iter().collect();
        told.extend(self.upstream_told(model, line).map(|words| {
            match upstream::reached(model, line, &self.protected) {
                0 | 1 => words,
                all => format!("{words}; and of {} more", all - 1),
            }
        }));
        told
    }

    /// `upstream of secret: 1 register, 3 gates`.
    pub fn upstream_told(&self, model: &Model, line: usize) -> Option<String> {
        self.upstream.told(model, line)
    }
}

/// One round of the advice: what the program and the archive's adviser choose, beside the pads of the rounds before.
pub struct Round {
    /// None where no pad helps further.
    pub pad: Option<Effect>,
    /// The proved adviser's pad among the same lines, and the largest CO that it leaves; constants, and inputs that
    /// nothing reads, not counted.
    pub proved: Result<Option<(usize, Cost)>, Refusal>,
    /// Candidates that privacy leaves, and all of them.
    pub allowed: usize,
    pub candidates: usize,
}

/// The pad that leaves the least measure among those allowed; the lowest line among equals. None where no pad helps.
pub fn best<'e>(before: Measure, effects: &'e [Effect], privacy: &Privacy) -> Option<&'e Effect> {
    let allowed = effects.iter().filter(|effect| privacy.allows(effect));
    allowed.min_by_key(|effect| (effect.after, effect.line)).filter(|effect| effect.after < before)
}

/// Pads one after another, up to a round that has none. Also answers all effects of the first round.
pub fn advise(model: &Model, count: usize, privacy: &Privacy) -> Result<(Vec<Round>, Vec<Effect>), String> {
    let mut model = model.clone();
    let mut rounds: Vec<Round> = Vec::new();
    let mut first = Vec::new();
    while rounds.len() < count {
        let effects = effects(&model, &candidates(&model), privacy)?;
        let allowed: Vec<usize> =
            effects.iter().filter(|effect| privacy.allows(effect)).map(|effect| effect.line).collect();
        let pad = best(measure(&model, &model.numbers), &effects, privacy).cloned();
        let proved = proved(&model, &allowed);
        rounds.push(Round { pad: pad.clone(), proved, allowed: allowed.len(), candidates: effects.len() });
        if first.is_empty() {
            first = effects;
        }
        let Some(effect) = pad else { break };
        model.commit(effect.line, effect.count).map_err(refused)?;
    }
    Ok((rounds, first))
}

/// The proved adviser's one pad among these lines: every other line is forbidden to it.
fn proved(model: &Model, allowed: &[usize]) -> Result<Option<(usize, Cost)>, Refusal> {
    let others = model.lines().filter(|line| allowed.binary_search(line).is_err());
    let forbidden: Vec<u32> = others.map(|line| line as u32).collect();
    model.advised(&forbidden)
}

#[cfg(test)]
mod tests {
    use super::*;
    use crate::ask::archive;

    fn chain() -> Model {
        let lib = archive::cell("AND2", 2, "0001").unwrap();
        let net = "input,1\ninput,2\ninput,3\ninput,4\ngate,AND2,5,1,2\ngate,AND2,6,5,3\ngate,AND2,7,6,4\noutput,7\n";
        Model::new("t", lib.into_bytes(), net.as_bytes().to_vec(), Vec::new()).unwrap()
    }

    #[test]
    fn effects_and_advice() {
        let mut model = chain();
        let before = measure(&model, &model.numbers);
        assert_eq!(before.largest, 6);
        assert_eq!(candidates(&model), [5, 6]);
        model.inputs_too = true;
        let lines = candidates(&model);
        assert_eq!(lines, [1, 2, 3, 4, 5, 6]);
        let effects = effects(&model, &lines, &Privacy::default()).unwrap();
        let pad5 = &effects[4];
        assert_eq!(pad5.easier, [(1, Cost::Figure(2)), (2, Cost::Figure(2)), (5, Cost::Figure(0))]);
        assert_eq!(pad5.after.sum + pad5.gain, before.sum);
        let (rounds, _) = advise(&model, 2, &Privacy::default()).unwrap();
        // By trying all.
        let brute = effects.iter().min_by_key(|effect| (effect.after, effect.line)).unwrap();
        assert_eq!(rounds[0].pad.as_ref(), Some(brute));
        assert_eq!(rounds.len(), 2);
    }

    #[test]
    fn protected_nets_stay_as_hard_to_see() {
        let mut model = chain();
        model.inputs_too = true;
        let privacy = Privacy::new(&model, vec![6], vec![1], USUAL_DEPTH);
        let (rounds, effects) = advise(&model, 9, &privacy).unwrap();
        let mut pads = Vec::new();
        for pad in rounds.iter().filter_map(|round| round.pad.as_ref()) {
            pads.push(pad.line);
            let after = placed(&model, &pads).unwrap();
            assert_eq!(after.numbers.of(1), model.numbers.of(1));
        }
        assert!(!pads.is_empty() && !pads.contains(&6) && !pads.contains(&5));
        // A pad on 5 would show 1.
        assert_eq!(effects[4].touched, [1]);
    }

    #[test]
    fn nothing_helps_where_all_is_seen() {
        let lib = archive::cell("NOT", 1, "10").unwrap();
        let net = b"input,1\ngate,NOT,2,1\noutput,2\noutput,1\n".to_vec();
        let model = Model::new("t", lib.into_bytes(), net, Vec::new()).unwrap();
        let (rounds, _) = advise(&model, 3, &Privacy::default()).unwrap();
        assert!(rounds.len() == 1 && rounds[0].pad.is_none() && rounds[0].proved == Ok(None));
    }

    /// A way to a protected line that is dear at LOW and cheap at HIGH: a pad on it counts, though no number at LOW falls.
    #[test]
    fn with_ranges_both_ends_count() {
        let lib = archive::cell("AND2", 2, "0001").unwrap();
        let net = b"input,1\ninput,2\ninput,3\nrange,2,1,999\ngate,AND2,4,1,2\ngate,AND2,5,1,3\noutput,4\n".to_vec();
        let mut model = Model::new("t", lib.into_bytes(), net, Vec::new()).unwrap();
        model.inputs_too = true;
        let privacy = Privacy::new(&model, vec![], vec![1], USUAL_DEPTH);
        let effects = effects(&model, &[3, 5], &privacy).unwrap();
        assert!(!effects[1].easier.iter().any(|&(line, _)| line == 1));
        assert_eq!(effects[1].touched, [1]);
        assert_eq!(effects[0].touched, []);
        assert!(!privacy.allows(&effects[1]));
    }
}
