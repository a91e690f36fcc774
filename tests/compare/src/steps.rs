//! Steps of slips and chains of them: forwards at random places, from the end backwards,
//! and those of a plain reduction; and what order 9 says of following them, by direct
//! work on lists. Nothing here is shared with the peer.

use crate::circuit::{self, merge, partner, pass, Gate};
use crate::random::Random;

#[derive(Clone, Copy, Debug, PartialEq, Eq)]
pub enum Word {
    Pass,
    Merge,
}

/// A line of a slip: a word, and the place of the first of two neighbours, from 1.
#[derive(Clone, Copy, Debug, PartialEq, Eq)]
pub struct Step {
    pub word: Word,
    pub place: usize,
}

/// The kinds of steps that are allowed, as they are counted.
pub const KINDS: [&str; 4] = [
    "passes",
    "merges into one gate",
    "powered pairs that vanish",
    "NOT pairs that vanish",
];

pub fn passing(place: usize) -> Step {
    Step {
        word: Word::Pass,
        place,
    }
}

pub fn merging(place: usize) -> Step {
    Step {
        word: Word::Merge,
        place,
    }
}

impl Step {
    /// The same place with the other word.
    pub fn with_other_word(self) -> Step {
        match self.word {
            Word::Pass => merging(self.place),
            Word::Merge => passing(self.place),
        }
    }

    pub fn at(self, place: usize) -> Step {
        Step { place, ..self }
    }

    /// Which of the kinds it is where it is allowed on a circuit.
    fn kind(self, gates: &[Gate]) -> usize {
        match (self.word, merged_at(gates, self.place)) {
            (Word::Pass, _) => 0,
            (Word::Merge, Some(left)) if !left.is_empty() => 1,
            _ if matches!(gates[self.place - 1], Gate::Powered { .. }) => 2,
            _ => 3,
        }
    }
}

/// The slip of these steps.
pub fn text(steps: &[Step]) -> Vec<u8> {
    let line = |step: &Step| match step.word {
        Word::Pass => format!("(pass {})\n", step.place),
        Word::Merge => format!("(merge {})\n", step.place),
    };
    steps.iter().map(line).collect::<String>().into_bytes()
}

/// What the neighbours at a place merge into, if there are two that do.
fn merged_at(gates: &[Gate], place: usize) -> Option<Vec<Gate>> {
    let pair = gates.get(place.checked_sub(1)?..place + 1)?;
    merge(pair[0], pair[1])
}

/// The neighbours at a place exchanged, if there are two that pass.
fn passed_at(gates: &[Gate], place: usize) -> Option<Vec<Gate>> {
    let pair = gates.get(place.checked_sub(1)?..place + 1)?;
    pass(pair[0], pair[1]).then(|| vec![pair[1], pair[0]])
}

/// The circuit after a step; none if the step is not allowed.
pub fn taken(gates: &[Gate], step: Step) -> Option<Vec<Gate>> {
    let middle = match step.word {
        Word::Pass => passed_at(gates, step.place)?,
        Word::Merge => merged_at(gates, step.place)?,
    };
    let before = &gates[..step.place - 1];
    let after = &gates[step.place + 1..];
    Some([before, &middle, after].concat())
}

/// The circuit that steps end at, or the line of the first that is not allowed.
pub fn followed(first: &[Gate], steps: &[Step]) -> Result<Vec<Gate>, u64> {
    let mut gates = first.to_vec();
    for (step, line) in steps.iter().zip(1u64..) {
        gates = taken(&gates, *step).ok_or(line)?;
    }
    Ok(gates)
}

/// Number, line and text that have to come back.
pub type Due = (u64, u64, u64);

/// What a slip in form gets between two circuits on the same lines.
pub fn due(first: &[Gate], steps: &[Step], second: &[Gate]) -> Due {
    match followed(first, steps) {
        Err(line) => (12, line, 2),
        Ok(last) if last != second => (13, 0, 0),
        Ok(_) => (0, 0, 0),
    }
}

/// Circuits, each one step after the one before.
#[derive(Clone)]
pub struct Chain {
    pub first: Vec<Gate>,
    pub steps: Vec<Step>,
    pub last: Vec<Gate>,
}

impl Chain {
    /// Counts its steps by their kinds.
    pub fn count(&self, kinds: &mut [u64; KINDS.len()]) {
        let mut gates = self.first.clone();
        for &step in &self.steps {
            let Some(next) = taken(&gates, step) else {
                return;
            };
            kinds[step.kind(&gates)] += 1;
            gates = next;
        }
    }
}

/// Steps at random places, so many unless none is allowed any more. Where there are
/// merges, one of them is taken once in so many times.
pub fn forwards(random: &mut Random, first: &[Gate], count: usize, merges: usize) -> Chain {
    let mut last = first.to_vec();
    let mut steps = Vec::new();
    while steps.len() < count {
        let places = |of: &dyn Fn(Gate, Gate) -> bool| -> Vec<usize> {
            let pairs = last.windows(2).zip(1..);
            let fitting = pairs.filter(|(pair, _)| of(pair[0], pair[1]));
            fitting.map(|(_, place)| place).collect()
        };
        let to_merge = places(&|one, other| merge(one, other).is_some());
        let to_pass = places(&pass);
        let step = match (to_merge.is_empty(), to_pass.is_empty()) {
            (true, true) => break,
            (false, true) => merging(random.pick(&to_merge)),
            (false, false) if random.one_in(merges) => merging(random.pick(&to_merge)),
            _ => passing(random.pick(&to_pass)),
        };
        let Some(next) = taken(&last, step) else {
            break;
        };
        last = next;
        steps.push(step);
    }
    Chain {
        first: first.to_vec(),
        steps,
        last,
    }
}

/// A chain to this circuit, found from its end: gates split in two, pairs put in, a NOT
/// pair as often as any other, and neighbours exchanged. No circuit of it has more gates
/// than so many, unless the last has.
pub fn backwards(
    random: &mut Random,
    lines: u8,
    last: &[Gate],
    count: usize,
    most: usize,
) -> Chain {
    let mut first = last.to_vec();
    let mut steps = Vec::new();
    for _ in 0..count {
        let step = match random.below(6) {
            0 if first.len() + 2 <= most => {
                let gate = if random.one_in(2) {
                    Gate::Not {
                        target: random.below(usize::from(lines)) as u8,
                    }
                } else {
                    Gate::random(random, lines)
                };
                let at = random.below(first.len() + 1);
                first.splice(at..at, [gate, gate.undone()]);
                merging(at + 1)
            }
            1 if !first.is_empty() && first.len() < most => {
                let at = random.below(first.len());
                let Some(halves) = halves(random, first[at]) else {
                    continue;
                };
                first.splice(at..=at, halves);
                merging(at + 1)
            }
            _ if first.len() > 1 => {
                let place = random.between(1, first.len() - 1);
                let Some(next) = taken(&first, passing(place)) else {
                    continue;
                };
                first = next;
                passing(place)
            }
            _ => continue,
        };
        steps.push(step);
    }
    steps.reverse();
    Chain {
        first,
        steps,
        last: last.to_vec(),
    }
}

/// Two gates that merge into this one.
fn halves(random: &mut Random, gate: Gate) -> Option<[Gate; 2]> {
    let one = gate.of_any_power(random);
    let other = gate.of_any_power(random);
    (merge(one, other)? == [gate]).then_some([one, other])
}

/// The steps of a plain reduction: while there is a gate with a later partner, the
/// partner is passed along to it and they merge; then the least of the gates that pass
/// all those before them is passed to the front, again and again.
pub fn reducing(gates: &[Gate]) -> Chain {
    let mut left = gates.to_vec();
    let mut steps = Vec::new();
    while let Some((at, second, merged)) = (0..left.len()).find_map(|at| partner(&left, at)) {
        steps.extend((at + 2..=second).rev().map(passing));
        steps.push(merging(at + 1));
        left.remove(second);
        left.splice(at..=at, merged);
    }
    for front in 0..left.len() {
        let free = |&at: &usize| left[front..at].iter().all(|&g| pass(g, left[at]));
        let least = (front..left.len())
            .filter(free)
            .min_by_key(|&at| left[at].record());
        let least = least.unwrap_or(front);
        steps.extend((front + 1..=least).rev().map(passing));
        left[front..=least].rotate_right(1);
    }
    Chain {
        first: gates.to_vec(),
        steps,
        last: circuit::reduced(gates),
    }
}

/// So many gates of one control and target that merge, from the front, into one, which
/// never vanishes on the way: the sums are 1, 2, 3, 1, 2, 3 and so on.
pub fn merging_into_one(control: u8, target: u8, count: usize) -> Vec<Gate> {
    let gate = |at| Gate::Powered {
        power: if at == 0 { 1 } else { [2, 1, 1][at % 3] },
        control,
        target,
    };
    (0..count).map(gate).collect()
}
