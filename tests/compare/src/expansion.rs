//! The expansion of a cascade as the scope document words it, with the spares of
//! order 5, the kept lines of order 8 and the NOTs of negated controls; nothing here is
//! shared with the peer.
//!
//! It is a rewriting: in a list of steps each gate that is still due gives way to
//! the gates and the smaller ones that it is made from, until none is due.

use crate::circuit::Gate;
use crate::texts::Mct;

const V: u8 = 1;
const CN: u8 = 2;
const VP: u8 = 3;

fn powered(power: u8, control: u8, target: u8) -> Gate {
    Gate::Powered {
        power,
        control,
        target,
    }
}

#[derive(Clone)]
enum Step {
    Done(Gate),
    Due(Due),
}

/// A gate to be expanded, with its spares in order, or its undoing.
#[derive(Clone)]
struct Due {
    controls: Vec<u8>,
    target: u8,
    spares: Vec<u8>,
    undone: bool,
}

/// All gates, expanded in order and joined.
pub fn of_all(lines: u8, mcts: &[Mct]) -> Vec<Gate> {
    keeping(lines, &[], mcts)
}

/// The same with these lines kept.
pub fn keeping(lines: u8, kept: &[u8], mcts: &[Mct]) -> Vec<Gate> {
    let each = |mct: &Mct| of(mct, mct.spares(lines, kept));
    mcts.iter().flat_map(each).collect()
}

/// A NOT on each negated line, the expansion of the gate without signs, and the
/// NOTs again.
fn of(mct: &Mct, spares: Vec<u8>) -> Vec<Gate> {
    let mut steps = vec![Step::Due(Due {
        controls: mct.lines(),
        target: mct.target,
        spares,
        undone: false,
    })];
    while steps.iter().any(|step| matches!(step, Step::Due(_))) {
        steps = steps.into_iter().flat_map(Step::rewritten).collect();
    }
    let done = steps.into_iter().filter_map(|step| match step {
        Step::Done(gate) => Some(gate),
        Step::Due(_) => None,
    });
    between_nots(mct, done.collect())
}

fn between_nots(mct: &Mct, gates: Vec<Gate>) -> Vec<Gate> {
    let nots: Vec<Gate> = mct.negated().map(|target| Gate::Not { target }).collect();
    [nots.clone(), gates, nots].concat()
}

impl Step {
    fn rewritten(self) -> Vec<Step> {
        match self {
            Step::Done(_) => vec![self],
            Step::Due(due) if due.undone => due.made_from().iter().rev().map(Step::undo).collect(),
            Step::Due(due) => due.made_from(),
        }
    }

    fn undo(&self) -> Step {
        match self {
            Step::Done(gate) => Step::Done(gate.undone()),
            Step::Due(due) => Step::Due(Due {
                undone: !due.undone,
                ..due.clone()
            }),
        }
    }
}

impl Due {
    /// What the gate, not undone, is made from.
    fn made_from(&self) -> Vec<Step> {
        let t = self.target;
        match self.controls[..] {
            [] => vec![Step::Done(Gate::Not { target: t })],
            [a] => vec![Step::Done(powered(CN, a, t))],
            [a, b] => [(V, b, t), (CN, a, b), (VP, b, t), (CN, a, b), (V, a, t)]
                .map(|(power, control, target)| Step::Done(powered(power, control, target)))
                .to_vec(),
            _ => {
                let s = self.spares[0];
                let [m0, m1] = self.smaller().map(Step::Due);
                let [m2, m3] = [m0.undo(), m1.undo()];
                let [v, vp] = [V, VP].map(|power| Step::Done(powered(power, s, t)));
                vec![v.clone(), m0, vp.clone(), m1, v, m2, vp, m3]
            }
        }
    }

    /// M0, which gets t, then the remaining spares, then C1; and M1, which gets the
    /// remaining spares, then C0.
    fn smaller(&self) -> [Due; 2] {
        let mut c0 = self.controls.clone();
        let c1 = c0.split_off(c0.len() / 2);
        let mut remaining = self.spares.clone();
        let s = remaining.remove(0);
        let m0_spares = [&[self.target], &remaining[..], &c1].concat();
        let m1_spares = [&remaining[..], &c0].concat();
        [(c0, m0_spares), (c1, m1_spares)].map(|(controls, spares)| Due {
            controls,
            target: s,
            spares,
            undone: false,
        })
    }
}

/// The expansion of before order 5, in which each gate takes the lowest line that
/// it does not name: with at most four controls it is the same.
pub fn before(mct: &Mct) -> Vec<Gate> {
    between_nots(mct, by_lowest_line(&mct.lines(), mct.target))
}

fn by_lowest_line(controls: &[u8], t: u8) -> Vec<Gate> {
    match *controls {
        [] => vec![Gate::Not { target: t }],
        [a] => vec![powered(CN, a, t)],
        [a, b] => vec![
            powered(V, b, t),
            powered(CN, a, b),
            powered(VP, b, t),
            powered(CN, a, b),
            powered(V, a, t),
        ],
        _ => {
            let named = |line: &u8| *line == t || controls.contains(line);
            let s = (0..32).find(|line| !named(line)).expect("a spare line");
            let (c0, c1) = controls.split_at(controls.len() / 2);
            let (m0, m1) = (by_lowest_line(c0, s), by_lowest_line(c1, s));
            let [m2, m3] =
                [&m0, &m1].map(|gates| gates.iter().rev().map(|gate| gate.undone()).collect());
            let [v, vp] = [V, VP].map(|power| vec![powered(power, s, t)]);
            [v.clone(), m0, vp.clone(), m1, v, m2, vp, m3].concat()
        }
    }
}
