//! What a cascade and a circuit do to bit patterns, as the scope document words
//! it: whole numbers, nothing rounded. Nothing here is shared with the peer.

use crate::circuit::Gate;
use crate::texts::Mct;

/// The pattern after a cascade: each gate flips its target exactly if all its
/// controls are met, a negated one by 0 and any other by 1.
pub fn cascade(mcts: &[Mct], start: usize) -> usize {
    mcts.iter().fold(start, |pattern, mct| {
        let bit = |line: u8| pattern >> line & 1;
        let met = mct
            .controls
            .iter()
            .all(|control| bit(control.line) == usize::from(!control.negated));
        pattern ^ usize::from(met) << mct.target
    })
}

/// A number with real and imaginary part.
type Amplitude = (i64, i64);

fn sum(a: Amplitude, b: Amplitude) -> Amplitude {
    (a.0 + b.0, a.1 + b.1)
}

fn product(a: Amplitude, b: Amplitude) -> Amplitude {
    (a.0 * b.0 - a.1 * b.1, a.0 * b.1 + a.1 * b.0)
}

/// The doubled matrix of each power: what is on the diagonal, and what is off it.
const MATRIX: [[Amplitude; 2]; 4] = [
    [(2, 0), (0, 0)],
    [(1, 1), (1, -1)],
    [(0, 0), (2, 0)],
    [(1, -1), (1, 1)],
];

/// The pattern in which a circuit ends with amplitude 1 from this start, if it
/// does.
pub fn circuit(lines: u8, gates: &[Gate], start: usize) -> Option<usize> {
    let mut state = vec![(0, 0); 1 << lines];
    state[start] = (1, 0);
    // Amplitude 1 is this number: doubled by each powered gate, and halved with
    // all amplitudes where they are even.
    let mut one = 1;
    for &gate in gates {
        match gate {
            Gate::Not { target } => {
                for pattern in (0..state.len()).filter(|pattern| pattern >> target & 1 == 0) {
                    state.swap(pattern, pattern | 1 << target);
                }
            }
            Gate::Powered {
                power,
                control,
                target,
            } => {
                for pattern in (0..state.len()).filter(|pattern| pattern >> target & 1 == 0) {
                    let power = if pattern >> control & 1 == 1 {
                        power
                    } else {
                        0
                    };
                    let [on, off] = MATRIX[usize::from(power)];
                    let other = pattern | 1 << target;
                    let (a, b) = (state[pattern], state[other]);
                    state[pattern] = sum(product(on, a), product(off, b));
                    state[other] = sum(product(off, a), product(on, b));
                }
                one *= 2;
                while one > 1 && state.iter().all(|(re, im)| re % 2 == 0 && im % 2 == 0) {
                    one /= 2;
                    for amplitude in &mut state {
                        *amplitude = (amplitude.0 / 2, amplitude.1 / 2);
                    }
                }
                // No list of a cascade comes near this.
                if one >= 1 << 40 {
                    return None;
                }
            }
        }
    }
    let end = state.iter().position(|&amplitude| amplitude != (0, 0))?;
    let alone = state[end + 1..]
        .iter()
        .all(|&amplitude| amplitude == (0, 0));
    (alone && state[end] == (one, 0)).then_some(end)
}
