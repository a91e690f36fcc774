//! Redrawings: circuits that a chain of random passes and merges, forwards and
//! backwards, links to a given one. Nothing here is shared with the peer.

use crate::circuit::{merge, pass, Gate};
use crate::random::Random;

/// The kinds of steps, as they are counted.
pub const STEPS: [&str; 5] = [
    "passes",
    "merges into one gate",
    "pairs that vanish",
    "gates split in two",
    "pairs put in",
];
const PASS: usize = 0;
const MERGE: usize = 1;
const VANISH: usize = 2;
const SPLIT: usize = 3;
const PUT_IN: usize = 4;

/// A circuit on its way along a chain.
struct Chain<'a> {
    random: &'a mut Random,
    lines: u8,
    gates: Vec<Gate>,
    /// How many gates the circuit may have on its way.
    most: usize,
    /// How many steps of each kind were taken.
    taken: &'a mut [u64; STEPS.len()],
}

/// A circuit linked to the given one, after so many tries of a step; the steps
/// that were taken are counted. It has at most `most` gates, if the given one
/// has.
pub fn redrawn(
    random: &mut Random,
    lines: u8,
    start: &[Gate],
    tries: usize,
    most: usize,
    taken: &mut [u64; STEPS.len()],
) -> Vec<Gate> {
    let mut chain = Chain {
        random,
        lines,
        gates: start.to_vec(),
        most,
        taken,
    };
    for _ in 0..tries {
        match chain.random.below(8) {
            0 => chain.put_in(),
            1 => chain.split(),
            2 | 3 => chain.merge(),
            _ => chain.carry(),
        }
    }
    chain.gates
}

impl Chain<'_> {
    /// Carries one gate some places along, either way, while it passes.
    fn carry(&mut self) {
        if self.gates.is_empty() {
            return;
        }
        let mut place = self.random.below(self.gates.len());
        let onwards = self.random.one_in(2);
        for _ in 0..self.random.between(1, 8) {
            let next = if onwards {
                place + 1
            } else {
                place.wrapping_sub(1)
            };
            match self.gates.get(next) {
                Some(&other) if pass(self.gates[place], other) => {}
                _ => return,
            }
            self.gates.swap(place, next);
            self.taken[PASS] += 1;
            place = next;
        }
    }

    /// Merges two neighbours, any two of those that do.
    fn merge(&mut self) {
        let places: Vec<usize> = (1..self.gates.len())
            .filter(|&place| merge(self.gates[place - 1], self.gates[place]).is_some())
            .collect();
        if places.is_empty() {
            return;
        }
        let place = self.random.pick(&places);
        let merged = merge(self.gates[place - 1], self.gates[place]).unwrap_or_default();
        self.taken[if merged.is_empty() { VANISH } else { MERGE }] += 1;
        self.gates.splice(place - 1..=place, merged);
    }

    /// Puts two gates in the place of one, their powers summing to its power
    /// modulo 4, none of them 0.
    fn split(&mut self) {
        if self.gates.is_empty() || self.gates.len() + 1 > self.most {
            return;
        }
        let place = self.random.below(self.gates.len());
        let Gate::Powered {
            power,
            control,
            target,
        } = self.gates[place]
        else {
            return;
        };
        let powers = [1, 2, 3].map(|first| [first, (power + 4 - first) % 4]);
        let nonzero: Vec<[u8; 2]> = powers.into_iter().filter(|pair| pair[1] != 0).collect();
        let halves = self.random.pick(&nonzero).map(|power| Gate::Powered {
            power,
            control,
            target,
        });
        self.gates.splice(place..=place, halves);
        self.taken[SPLIT] += 1;
    }

    /// Puts in two gates that vanish, between any neighbours or at either end.
    fn put_in(&mut self) {
        if self.gates.len() + 2 > self.most {
            return;
        }
        let gate = Gate::random(self.random, self.lines);
        let place = self.random.below(self.gates.len() + 1);
        self.gates.splice(place..place, [gate, gate.undone()]);
        self.taken[PUT_IN] += 1;
    }
}
