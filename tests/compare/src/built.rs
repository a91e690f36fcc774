//! Long circuits whose reduced list the definitions give by themselves, without a
//! reduction. Nothing here is shared with the peer.

use crate::circuit::{carried, every_gate, merge, pass, Gate};
use crate::random::Random;
use crate::texts;
use std::cmp::Reverse;
use std::collections::BTreeMap;

pub const LINES: [u8; 5] = [2, 3, 6, 17, 32];
const MOST: usize = 4_096;

/// A circuit and its reduced list.
pub struct Drawn {
    pub gates: Vec<Gate>,
    pub list: Vec<Gate>,
}

/// A kind of circuit, on so many lines, of at most so many gates.
type Kind = fn(&mut Random, u8, usize) -> Drawn;

pub const KINDS: [(&str, Kind); 8] = [
    ("a circuit and its undoing", undone),
    ("pairs that vanish around each other", vanishing),
    ("one gate again and again", repeated),
    ("gates that all pass each other", passing),
    ("the same around others that vanish", around),
    ("gates that each hold the next", held),
    ("circuits on lines of their own", apart),
    ("gates that vanish between others", filled),
];
/// Those that the last two are made of: most leave gates.
const PARTS: [Kind; 4] = [held, held, passing, vanishing];

/// A circuit of some kind and a redrawing of it by passes alone, which has the
/// same list; as long as may be, or of any length.
pub fn drawn_twice(random: &mut Random, kind: Kind, lines: u8, full: bool) -> [Drawn; 2] {
    let count = if full {
        MOST
    } else {
        random.between(MOST / 8, MOST)
    };
    let drawn = kind(random, lines, count);
    let again = Drawn {
        gates: carried(random, &drawn.gates, drawn.gates.len()),
        list: drawn.list.clone(),
    };
    [drawn, again]
}

/// Every gate has its undoing, inside out: nothing is left.
fn undone(random: &mut Random, lines: u8, count: usize) -> Drawn {
    let mut gates = texts::gates(random, lines, count / 2);
    let back: Vec<Gate> = gates.iter().rev().map(|gate| gate.undone()).collect();
    gates.extend(back);
    Drawn {
        gates,
        list: Vec::new(),
    }
}

/// Gates of one control and target whose powers add up to 0, the other such
/// gates somewhere between them or beside them: nothing is left.
fn vanishing(random: &mut Random, lines: u8, count: usize) -> Drawn {
    let mut gates = Vec::new();
    loop {
        let mut around = adding_up_to_0(random, lines);
        if gates.len() + around.len() > count {
            return Drawn {
                gates,
                list: Vec::new(),
            };
        }
        let place = random.below(around.len() + 1);
        around.splice(place..place, gates);
        gates = around;
    }
}

/// Neighbours that merge again and again until nothing is left.
fn adding_up_to_0(random: &mut Random, lines: u8) -> Vec<Gate> {
    let mut gates = vec![Gate::random(random, lines)];
    let mut sum = gates.clone();
    while let Some(last) = sum.pop() {
        let next = last.of_any_power(random);
        gates.push(next);
        sum.extend(merge(last, next).into_iter().flatten());
    }
    gates
}

/// One v so often: four of them are nothing.
fn repeated(random: &mut Random, lines: u8, count: usize) -> Drawn {
    let mut gate = Gate::random(random, lines);
    while !matches!(gate, Gate::Powered { power: 1, .. }) {
        gate = Gate::random(random, lines);
    }
    let gates = vec![gate; count];
    let list = summed(&gates);
    Drawn { gates, list }
}

/// Each line is used in one way only. Either one gate for each control and
/// target, or any gates; in the order opposite to the list's, or in any.
fn passing(random: &mut Random, lines: u8, count: usize) -> Drawn {
    let targets = random.next() as u32 | 1 << random.below(usize::from(lines));
    let fitting = with_targets(lines, targets);
    let mut gates: Vec<Gate> = if random.one_in(2) {
        fitting
            .chunk_by(|a, b| a.record() / 4 == b.record() / 4)
            .map(|powers| random.pick(powers))
            .take(count)
            .collect()
    } else {
        (0..count).map(|_| random.pick(&fitting)).collect()
    };
    if random.one_in(2) {
        gates.sort_by_key(|gate| Reverse(gate.record()));
    } else {
        random.shuffle(&mut gates);
    }
    let list = summed(&gates);
    Drawn { gates, list }
}

/// All gates that have one of these lines as target, a bit for each, and none as
/// control.
fn with_targets(lines: u8, targets: u32) -> Vec<Gate> {
    let is_target = |line: u8| targets >> line & 1 == 1;
    let mut gates = every_gate(lines);
    gates.retain(|gate| match *gate {
        Gate::Not { target } => is_target(target),
        Gate::Powered {
            control, target, ..
        } => is_target(target) && !is_target(control),
    });
    gates
}

/// Gates that all pass each other, before and after many that vanish and use each
/// line the other way: pairs, side by side or mixed.
fn around(random: &mut Random, lines: u8, count: usize) -> Drawn {
    // At least one line of each kind.
    let mut split: Vec<usize> = (0..usize::from(lines)).collect();
    random.shuffle(&mut split);
    let targets = (random.next() as u32 | 1 << split[0]) & !(1 << split[1]);
    let [outer, inner] = [targets, !targets].map(|targets| with_targets(lines, targets));
    // Few enough that one merge missed at the others is not made up for later.
    let some: Vec<Gate> = (0..4).map(|_| random.pick(&outer)).collect();
    let mut own: Vec<Gate> = (0..random.pick(&[4, 30, count / 4]))
        .map(|_| random.pick(&some))
        .collect();
    let list = summed(&own);
    let mut between: Vec<Gate> = (0..(count - own.len()) / 2)
        .map(|_| random.pick(&inner))
        .flat_map(|gate| [gate, gate.undone()])
        .collect();
    if random.one_in(2) {
        random.shuffle(&mut between);
    }
    let place = random.below(own.len() + 1);
    own.splice(place..place, between);
    Drawn { gates: own, list }
}

/// The list of gates that all pass each other: for each control and target their
/// merge, in gate order.
fn summed(gates: &[Gate]) -> Vec<Gate> {
    let mut sums: BTreeMap<u16, Gate> = BTreeMap::new();
    for &gate in gates {
        let place = gate.record() / 4;
        let sum = match sums.remove(&place) {
            None => vec![gate],
            Some(sum) => merge(sum, gate).unwrap_or_default(),
        };
        sums.extend(sum.into_iter().map(|sum| (place, sum)));
    }
    sums.into_values().collect()
}

/// No gate passes the next, nor merges with it: the circuit is its own list. On
/// one line that is one gate.
fn held(random: &mut Random, lines: u8, count: usize) -> Drawn {
    let mut from = every_gate(lines);
    if lines > 1 && random.one_in(2) {
        from = handful(random, &from);
    }
    let mut gates = vec![random.pick(&from)];
    while lines > 1 && gates.len() < count {
        let next = random.pick(&from);
        if !pass(gates[gates.len() - 1], next) {
            gates.push(next);
        }
    }
    Drawn {
        list: gates.clone(),
        gates,
    }
}

/// Some of these gates, none of which passes all the others.
fn handful(random: &mut Random, from: &[Gate]) -> Vec<Gate> {
    let mut some = vec![random.pick(from)];
    let size = random.between(2, 6);
    while some.len() < size {
        let next = random.pick(from);
        if some.iter().any(|&gate| !pass(gate, next)) {
            some.push(next);
        }
    }
    some
}

/// Circuits of other kinds, each on lines of its own, one after the other or
/// mixed. Gates of different ones pass: so of the first gates left of all their
/// lists the least comes next.
fn apart(random: &mut Random, lines: u8, count: usize) -> Drawn {
    let mut all: Vec<u8> = (0..lines).collect();
    random.shuffle(&mut all);
    let width = random.between(2, 6);
    let each = count / all.len().div_ceil(width);
    let parts: Vec<Drawn> = all
        .chunks_mut(width)
        .map(|own| {
            // In rising order, so that the order of gates stays.
            own.sort();
            let kind = random.pick(&PARTS);
            let drawn = kind(random, own.len() as u8, each);
            let moved = |gates: &[Gate]| gates.iter().map(|gate| gate.moved(own)).collect();
            Drawn {
                gates: moved(&drawn.gates),
                list: moved(&drawn.list),
            }
        })
        .collect();
    let one_after_the_other = random.one_in(2);
    let gates = joined(parts.iter().map(|part| &part.gates), |fronts| {
        if one_after_the_other {
            0
        } else {
            random.below(fronts.len())
        }
    });
    let list = joined(parts.iter().map(|part| &part.list), |fronts| {
        (0..fronts.len())
            .min_by_key(|&which| fronts[which].record())
            .unwrap_or_default()
    });
    Drawn { gates, list }
}

/// All lists in one: which of them gives its first gate left is chosen among
/// these gates.
fn joined<'a>(
    lists: impl Iterator<Item = &'a Vec<Gate>>,
    mut chosen: impl FnMut(&[Gate]) -> usize,
) -> Vec<Gate> {
    let mut left: Vec<&[Gate]> = lists.map(Vec::as_slice).collect();
    let mut whole = Vec::new();
    loop {
        left.retain(|list| !list.is_empty());
        if left.is_empty() {
            return whole;
        }
        let fronts: Vec<Gate> = left.iter().map(|list| list[0]).collect();
        let which = chosen(&fronts);
        whole.push(fronts[which]);
        left[which] = &left[which][1..];
    }
}

/// A circuit of another kind with gates that vanish between its own.
fn filled(random: &mut Random, lines: u8, count: usize) -> Drawn {
    let kind = random.pick(&PARTS);
    let Drawn { gates: own, list } = kind(random, lines, count / 4);
    let mut room = count - own.len();
    let mut gates = Vec::new();
    for gate in own {
        let most = random.below(24).min(room);
        let between = vanishing(random, lines, most).gates;
        room -= between.len();
        gates.extend(between);
        gates.push(gate);
    }
    gates.extend(vanishing(random, lines, room).gates);
    Drawn { gates, list }
}
