//! The reduced list, in two steps: merge to a fixed point, then order by
//! selection.
//!
//! Two gates of one control and target can be brought together by passes
//! exactly if every gate between them passes them: a gate between that doesn't
//! pass the one doesn't pass the other either, and stays between them. So the
//! first step searches, from each gate onwards, for such a partner and merges
//! until no gate has one. The second step repeatedly takes, of the gates that
//! pass all those remaining before them, the first in gate order.

use crate::gate::Gate;
use std::cmp::Reverse;
use std::collections::BinaryHeap;

pub fn reduce(gates: &[Gate]) -> Vec<Gate> {
    select(&merge(gates))
}

const NONE: u32 = u32::MAX;

/// A circuit in which the search for partners goes on. The search of a gate
/// ends at the end of the circuit, or stops at a gate that it doesn't pass and
/// is continued from there when that gate vanishes. Nothing is ever put in, so
/// a search never has to start again, and all of them together take at most
/// one step for each pair of gates.
struct Search {
    gates: Vec<Gate>,
    gone: Vec<bool>,
    /// The next gate that remains. Also the way on from a gate that is gone.
    next: Vec<u32>,
    previous: Vec<u32>,
    /// For each gate, where its search goes on.
    place: Vec<u32>,
    /// For each gate the first search stopped at it, and for each stopped
    /// search the next one stopped at the same gate.
    first_stopped: Vec<u32>,
    next_stopped: Vec<u32>,
    /// The gates whose search is due.
    due: Vec<u32>,
}

/// Merges all gates that passes can bring together, until there are none.
pub fn merge(gates: &[Gate]) -> Vec<Gate> {
    let count = gates.len() as u32;
    let mut search = Search {
        gates: gates.to_vec(),
        gone: vec![false; gates.len()],
        next: (1..=count)
            .map(|next| if next == count { NONE } else { next })
            .collect(),
        previous: (0..count).map(|place| place.wrapping_sub(1)).collect(),
        place: (1..=count)
            .map(|next| if next == count { NONE } else { next })
            .collect(),
        first_stopped: vec![NONE; gates.len()],
        next_stopped: vec![NONE; gates.len()],
        due: (0..count).rev().collect(),
    };
    while let Some(gate) = search.due.pop() {
        if !search.gone[gate as usize] {
            search.go_on(gate);
        }
    }
    let Search { gates, gone, .. } = search;
    gates
        .iter()
        .zip(gone)
        .filter(|(_, gone)| !gone)
        .map(|(&gate, _)| gate)
        .collect()
}

impl Search {
    /// Continues the search of one gate.
    fn go_on(&mut self, searching: u32) {
        let own = searching as usize;
        let mut place = self.place[own];
        while place != NONE {
            let met = place as usize;
            if self.gone[met] {
                place = self.next[met];
            } else if self.gates[own].merges(self.gates[met]) {
                let merged = self.gates[own].merged(self.gates[met]);
                self.remove(place);
                match merged {
                    None => {
                        self.remove(searching);
                        return;
                    }
                    Some(gate) => self.gates[own] = gate,
                }
                place = self.next[met];
            } else if self.gates[own].passes(self.gates[met]) {
                place = self.next[met];
            } else {
                self.place[own] = place;
                self.next_stopped[own] = self.first_stopped[met];
                self.first_stopped[met] = searching;
                return;
            }
        }
        self.place[own] = NONE;
    }

    /// Takes a gate out; the searches stopped at it are due again.
    fn remove(&mut self, gate: u32) {
        let own = gate as usize;
        self.gone[own] = true;
        let (before, after) = (self.previous[own], self.next[own]);
        if before != NONE {
            self.next[before as usize] = after;
        }
        if after != NONE {
            self.previous[after as usize] = before;
        }
        let mut stopped = self.first_stopped[own];
        while stopped != NONE {
            self.due.push(stopped);
            stopped = self.next_stopped[stopped as usize];
        }
        self.first_stopped[own] = NONE;
    }
}

/// One run of a line: neighbouring uses of the line of one kind, all as target
/// or all as control. Uses of one kind pass each other on that line, uses of
/// different kinds don't.
struct Run {
    as_target: bool,
    /// Whether other runs of the line come before it.
    waits: bool,
    /// How many of its uses are not yet taken.
    left: u32,
    /// The run after it on the same line.
    following: u32,
    first_use: u32,
}

/// Orders the gates by selection. A gate passes all those remaining before it
/// exactly if its use of each of its lines lies in that line's first run that
/// is not yet used up.
pub fn select(gates: &[Gate]) -> Vec<Gate> {
    let mut runs: Vec<Run> = Vec::with_capacity(64);
    let mut last_run = [NONE; 32];
    // The uses of gate g are 2g (its target) and 2g + 1 (its control).
    let mut run_of = vec![NONE; 2 * gates.len()];
    let mut next_use = vec![NONE; 2 * gates.len()];
    // For each gate, how many of its uses lie in a run that has to wait.
    let mut waiting = vec![0u8; gates.len()];
    for (place, gate) in gates.iter().enumerate() {
        let uses = [Some(gate.target()), gate.control()];
        for (which, line) in uses.iter().enumerate() {
            let Some(line) = *line else { continue };
            let as_target = which == 0;
            let last = &mut last_run[usize::from(line)];
            if *last == NONE || runs[*last as usize].as_target != as_target {
                let new = runs.len() as u32;
                let waits = *last != NONE;
                if waits {
                    runs[*last as usize].following = new;
                }
                runs.push(Run {
                    as_target,
                    waits,
                    left: 0,
                    following: NONE,
                    first_use: NONE,
                });
                *last = new;
            }
            let the_use = 2 * place + which;
            let run = &mut runs[*last as usize];
            run_of[the_use] = *last;
            next_use[the_use] = run.first_use;
            run.first_use = the_use as u32;
            run.left += 1;
            waiting[place] += u8::from(run.waits);
        }
    }
    let mut free = BinaryHeap::with_capacity(gates.len());
    for (place, gate) in gates.iter().enumerate() {
        if waiting[place] == 0 {
            free.push(Reverse((*gate, place as u32)));
        }
    }
    let mut selected = Vec::with_capacity(gates.len());
    while let Some(Reverse((gate, place))) = free.pop() {
        selected.push(gate);
        for the_use in [2 * place as usize, 2 * place as usize + 1] {
            if run_of[the_use] == NONE {
                continue;
            }
            let run = &mut runs[run_of[the_use] as usize];
            run.left -= 1;
            let following = run.following;
            if run.left > 0 || following == NONE {
                continue;
            }
            let mut freed = runs[following as usize].first_use;
            while freed != NONE {
                let other = freed as usize / 2;
                waiting[other] -= 1;
                if waiting[other] == 0 {
                    free.push(Reverse((gates[other], other as u32)));
                }
                freed = next_use[freed as usize];
            }
        }
    }
    selected
}

#[cfg(test)]
mod tests {
    //! Both steps against plain loops that follow the sentences word for word.
    use super::*;

    fn merge_word_for_word(gates: &[Gate]) -> Vec<Gate> {
        let mut gates = gates.to_vec();
        'again: loop {
            for i in 0..gates.len() {
                for j in i + 1..gates.len() {
                    if gates[i].merges(gates[j])
                        && gates[i + 1..j].iter().all(|&g| g.passes(gates[i]))
                    {
                        let merged = gates[i].merged(gates[j]);
                        gates.remove(j);
                        match merged {
                            Some(gate) => gates[i] = gate,
                            None => {
                                gates.remove(i);
                            }
                        }
                        continue 'again;
                    }
                }
            }
            return gates;
        }
    }

    fn select_word_for_word(gates: &[Gate]) -> Vec<Gate> {
        let mut remaining = gates.to_vec();
        let mut selected = Vec::new();
        while !remaining.is_empty() {
            let first = (0..remaining.len())
                .filter(|&i| remaining[..i].iter().all(|&g| g.passes(remaining[i])))
                .min_by_key(|&i| remaining[i])
                .unwrap();
            selected.push(remaining.remove(first));
        }
        selected
    }

    #[test]
    fn the_fast_loops_agree_with_the_plain_ones() {
        let mut state = 1u64;
        let mut below = |bound: u64| {
            state = state
                .wrapping_mul(6364136223846793005)
                .wrapping_add(1442695040888963407);
            ((state >> 33) % bound) as u8
        };
        for case in 0..6_000u64 {
            let lines = 1 + case % 7;
            let mut gates = Vec::new();
            for _ in 0..below(40) {
                let target = below(lines);
                let control = below(lines);
                gates.push(if control == target {
                    Gate::not(target)
                } else {
                    Gate::powered(1 + below(3), control, target)
                });
            }
            if case % 3 == 0 {
                let undone: Vec<Gate> = gates.iter().rev().map(|g| g.undone()).collect();
                gates.extend(undone);
                if case % 2 == 0 && !gates.is_empty() {
                    gates.remove(usize::from(below(gates.len() as u64)));
                }
            }
            let plain = merge_word_for_word(&gates);
            let fast = merge(&gates);
            assert_eq!(select_word_for_word(&plain), select(&fast));
            assert_eq!(select_word_for_word(&fast), select(&plain));
        }
    }
}
