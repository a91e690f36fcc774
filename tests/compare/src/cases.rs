//! The cases of an order while they are made.

use crate::random::Random;
use crate::rules::Row;
use crate::texts::{self, Signs};

/// The cases so far: all that there are to be, or some of them; and how many have been
/// made in turn.
pub struct Cases<'a, Case> {
    pub random: &'a mut Random,
    pub whole: bool,
    pub turn: usize,
    pub all: Vec<Case>,
}

impl<'a, Case> Cases<'a, Case> {
    pub fn new(random: &'a mut Random, whole: bool) -> Self {
        Cases {
            random,
            whole,
            turn: 0,
            all: Vec::new(),
        }
    }

    /// So many gates of at most two controls.
    pub fn narrow(&mut self, lines: u8, count: usize) -> Vec<Row> {
        let gate = |_| {
            let k = self.random.below(3);
            let signs = Signs::any(self.random);
            Row::Gate(texts::mct(self.random, lines, k, signs))
        };
        (0..count).map(gate).collect()
    }
}
