//! The job that joins two circuit texts, with one gate list and one answer area, and
//! what its program writes.

use crate::gate::Gate;
use crate::several::{of_text, Outcome, Refused};
use crate::{answered, fill, judged, Circuit, Kind, Refusal};
use crate::{LONGEST_ANSWER, MOST_GATES, SHORTEST_LIST};

/// Join two circuits on the same number of lines, the first before the second, then
/// reduce. The count is the bytes written.
pub fn join(first: &[u8], list: &mut [u16], second: &[u8], answer: &mut [u8]) -> Outcome {
    match joined(first, list.len(), second, answer) {
        Err(refused) => {
            if refused.refusal.clears() {
                fill(list, &[]);
            }
            refused.outcome()
        }
        Ok((gates, bytes)) => {
            fill(list, &gates);
            Outcome::success(bytes as u64)
        }
    }
}

/// The reduced list of the join and the bytes of its text, or the first refusal: of
/// the first text and the list, of the second text, 11, the join's own 9, then 10.
fn joined(
    first: &[u8],
    list_len: usize,
    second: &[u8],
    answer: &mut [u8],
) -> Result<(Vec<Gate>, usize), Refused> {
    let first = judged(Kind::Circuit, first, Some(list_len)).map_err(of_text(1))?;
    let second = judged(Kind::Circuit, second, None).map_err(of_text(2))?;
    let circuit = one_after_the_other(first, second)?;
    answered(circuit, Some(answer)).map_err(of_text(0))
}

/// Rules 11 and 9: one circuit of two, both as they were read.
fn one_after_the_other(mut first: Circuit, second: Circuit) -> Result<Circuit, Refused> {
    if first.lines != second.lines {
        return Err(Refused {
            text: 0,
            refusal: Refusal {
                number: 11,
                line: 0,
            },
        });
    }
    let room = MOST_GATES - first.gates.len();
    if second.gates.len() > room {
        // Line 1 and the gates that there is room for come before the first one over.
        return Err(Refused {
            text: 2,
            refusal: Refusal {
                number: 9,
                line: 1 + room as u64 + 1,
            },
        });
    }
    first.gates.extend(second.gates);
    Ok(first)
}

/// What the program writes for two texts: the answer, or the form
/// `(turned-away r l t)`.
pub fn answer(first: &[u8], second: &[u8]) -> Vec<u8> {
    let mut list = [0u16; SHORTEST_LIST];
    let mut answer = vec![0u8; LONGEST_ANSWER];
    let outcome = join(first, &mut list, second, &mut answer);
    if outcome.number != 0 {
        return outcome.turned_away();
    }
    answer.truncate(outcome.count as usize);
    answer
}

#[cfg(test)]
mod tests {
    //! Expected values from the scope document's examples and order 7.
    use super::*;
    use crate::several::texts::{circuit, turned_away};

    const JUNK: u16 = 0xbeef;
    const NOT_0: u16 = 2;

    /// Runs the job on a list and an area of these lengths, and checks what holds of
    /// them in every case. The area is cut to what was written.
    fn run_on(lengths: [usize; 2], first: &str, second: &str) -> (Outcome, Vec<u16>, String) {
        let mut list = vec![JUNK; lengths[0]];
        let mut area = vec![b'?'; lengths[1]];
        let outcome = join(first.as_bytes(), &mut list, second.as_bytes(), &mut area);
        assert!(area[outcome.count as usize..].iter().all(|&b| b == b'?'));
        area.truncate(outcome.count as usize);
        (outcome, list, String::from_utf8(area).unwrap())
    }

    /// The answer of two accepted texts, which is the same with every list and every
    /// area that is long enough; a shorter area is refused.
    fn joined(first: &str, second: &str) -> String {
        let (outcome, list, text) = run_on([4_096, 50_000], first, second);
        assert_eq!(outcome, Outcome::success(text.len() as u64));
        let circuit = crate::reader::read(Kind::Circuit, text.as_bytes()).unwrap();
        let (front, rest) = list.split_at(circuit.gates.len());
        assert!(circuit
            .gates
            .iter()
            .map(|gate| gate.number())
            .eq(front.to_vec()));
        assert!(rest.iter().all(|&record| record == NOT_0));
        for area in [text.len(), text.len() + 1] {
            let again = run_on([5_000, area], first, second);
            assert_eq!((again.0, &again.2), (outcome, &text));
            assert_eq!(again.1[..4_096], list);
            assert!(again.1[4_096..].iter().all(|&record| record == NOT_0));
        }
        for area in [0, 1, text.len() - 1] {
            assert_eq!(refused_on([4_096, area], first, second), (10, 0, 0));
        }
        text
    }

    /// Number, line and text of a refusal, and what it leaves.
    fn refused_on(lengths: [usize; 2], first: &str, second: &str) -> (u64, u64, u64) {
        let (outcome, list, _) = run_on(lengths, first, second);
        assert_ne!(outcome.number, 0);
        assert_eq!(outcome.count, 0);
        let left = match outcome.number {
            1 | 2 => JUNK,
            _ => NOT_0,
        };
        assert_eq!(list.len(), lengths[0]);
        assert!(list.iter().all(|&record| record == left));
        (outcome.number, outcome.line, outcome.text)
    }

    /// A refusal that is the same whatever the area.
    fn refused(first: &str, second: &str) -> (u64, u64, u64) {
        let ample = refused_on([4_096, 50_000], first, second);
        for lengths in [[4_096, 0], [4_097, 1], [5_000, 9]] {
            assert_eq!(refused_on(lengths, first, second), ample);
        }
        ample
    }

    /// So many gates that all vanish, but for one if they are odd.
    fn nots(lines: u8, count: usize) -> String {
        circuit(lines, &vec!["not 0"; count])
    }

    /// So many gates of which none passes the next, nor merges with it.
    fn held(count: usize) -> String {
        let two = ["cn 0 1", "v 1 0"];
        let gates: Vec<&str> = (0..count).map(|place| two[place % 2]).collect();
        circuit(2, &gates)
    }

    #[test]
    fn the_first_before_the_second_then_reduced() {
        let joins: [(u8, &[&str], &[&str], &[&str]); 9] = [
            (2, &["v 0 1"], &["v 0 1"], &["cn 0 1"]),
            (2, &["cn 0 1"], &["v 0 1"], &["vp 0 1"]),
            (2, &["v 0 1"], &["vp 0 1"], &[]),
            (3, &["cn 0 2", "cn 1 2"], &["cn 0 2"], &["cn 1 2"]),
            (3, &["cn 0 1"], &["cn 1 2"], &["cn 0 1", "cn 1 2"]),
            (3, &["cn 1 2"], &["cn 0 1"], &["cn 1 2", "cn 0 1"]),
            (2, &["cn 0 1"], &["not 1"], &["not 1", "cn 0 1"]),
            (
                2,
                &["not 0"],
                &["cn 0 1", "not 0"],
                &["not 0", "cn 0 1", "not 0"],
            ),
            (32, &[], &[], &[]),
        ];
        for (lines, first, second, expected) in joins {
            assert_eq!(
                joined(&circuit(lines, first), &circuit(lines, second)),
                circuit(lines, expected)
            );
        }
    }

    #[test]
    fn a_circuit_and_its_inverse_give_no_gates() {
        let toffoli = ["v 0 2", "v 1 2", "cn 0 1", "vp 1 2", "cn 0 1"];
        let inverse = ["cn 0 1", "v 1 2", "cn 0 1", "vp 1 2", "vp 0 2"];
        let reduced = ["cn 0 1", "vp 0 2", "v 1 2", "cn 0 1", "vp 1 2"];
        for undoing in [inverse, reduced] {
            let [there, back] = [toffoli, undoing].map(|gates| circuit(3, &gates));
            assert_eq!(joined(&there, &back), circuit(3, &[]));
            assert_eq!(joined(&back, &there), circuit(3, &[]));
        }
        // Reversed alone, or exchanged alone, it does not undo.
        let reversed = ["cn 0 1", "vp 1 2", "cn 0 1", "v 1 2", "v 0 2"];
        let exchanged = ["vp 0 2", "vp 1 2", "cn 0 1", "v 1 2", "cn 0 1"];
        for other in [reversed, exchanged] {
            let answer = joined(&circuit(3, &toffoli), &circuit(3, &other));
            assert_ne!(answer, circuit(3, &[]));
        }
    }

    #[test]
    fn gates_together_before_reduction() {
        for first in [0, 1, 2, 2_047, 2_048, 2_049, 4_094, 4_095, 4_096] {
            let room = 4_096 - first;
            assert_eq!(joined(&nots(1, first), &nots(1, room)), nots(1, 0));
            let whole = joined(&held(first), &held(room));
            if first % 2 == 0 {
                assert_eq!(whole, held(4_096));
            }
            // The gates that there is room for stand on the lines 2 to room + 1.
            let due = (9, room as u64 + 2, 2);
            for over in [room + 1, room + 2, 4_096] {
                if (room + 1..=4_096).contains(&over) {
                    assert_eq!(refused(&nots(1, first), &nots(1, over)), due);
                    assert_eq!(refused(&held(first), &held(over)), due);
                }
            }
        }
        // The first gate of the second text is over, and the last.
        assert_eq!(refused(&nots(2, 4_096), &nots(2, 1)), (9, 2, 2));
        assert_eq!(refused(&nots(2, 1), &nots(2, 4_096)), (9, 4_097, 2));
        // The 4,097th of a text by itself.
        assert_eq!(refused(&nots(2, 4_097), &nots(2, 0)), (9, 4_098, 1));
        assert_eq!(refused(&nots(2, 0), &nots(2, 4_097)), (9, 4_098, 2));
        assert_eq!(refused(&nots(2, 4_096), &nots(2, 4_097)), (9, 4_098, 2));
    }

    #[test]
    fn different_line_counts_once_both_are_read() {
        assert_eq!(refused("(lines 2)\n", "(lines 3)\n"), (11, 0, 0));
        assert_eq!(refused("(lines 32)\n", "(lines 31)\n"), (11, 0, 0));
        // Before the join's own 9, after every refusal of either text.
        assert_eq!(refused(&nots(2, 4_096), &nots(3, 4_096)), (11, 0, 0));
        assert_eq!(refused(&nots(2, 4_097), &nots(3, 1)), (9, 4_098, 1));
        assert_eq!(refused(&nots(2, 1), &nots(3, 4_097)), (9, 4_098, 2));
        assert_eq!(refused("(lines 2)\n", "(lines 3)\n(not 3)\n"), (4, 2, 2));
        assert_eq!(refused("(lines 2)\n", "(lines 3)\n(not 0)"), (3, 2, 2));
        assert_eq!(refused("(lines 2)\n(v 1 1)\n", "(lines 3)\n"), (5, 2, 1));
        assert_eq!(refused("(lines 2)\n", "(lines 33)\n"), (4, 1, 2));
    }

    #[test]
    fn refusals_come_in_the_order_of_the_texts() {
        let good = circuit(3, &["cn 0 1"]);
        for (text, number, line) in turned_away() {
            assert_eq!(refused(&good, &text), (number, line, 2));
            assert_eq!(refused(&text, &good), (number, line, 1));
            for (second, _, _) in turned_away() {
                assert_eq!(refused(&text, &second), (number, line, 1));
            }
        }
    }

    #[test]
    fn the_list_is_judged_with_the_first_text() {
        let good = circuit(3, &["cn 0 1"]);
        let malformed = "(lines 3)\n(cn 0 1)\n(not 2)";
        let overlong = "x".repeat(60_001);
        for short in [0, 1, 4_095] {
            for area in [0, 100] {
                for second in [&good[..], malformed, &overlong, "(lines 2)\n"] {
                    let refused = |first| refused_on([short, area], first, second);
                    assert_eq!(refused(&good), (2, 0, 1));
                    assert_eq!(refused(malformed), (2, 0, 1));
                    assert_eq!(refused(&overlong), (1, 0, 1));
                }
            }
        }
    }

    #[test]
    fn what_the_program_writes() {
        let written = |first: &str, second: &str| {
            String::from_utf8(answer(first.as_bytes(), second.as_bytes())).unwrap()
        };
        let one = circuit(2, &["v 0 1"]);
        assert_eq!(written(&one, &one), circuit(2, &["cn 0 1"]));
        assert_eq!(written(&held(2_048), &held(2_048)), held(4_096));
        assert_eq!(written(&one, "(lines 3)\n"), "(turned-away 11 0 0)\n");
        let four_thousand = held(4_096);
        assert_eq!(written(&four_thousand, &one), "(turned-away 9 2 2)\n");
        assert_eq!(written(&one, &four_thousand), "(turned-away 9 4097 2)\n");
        assert_eq!(written("", &one), "(turned-away 3 1 1)\n");
        let overlong = "x".repeat(60_001);
        assert_eq!(written(&one, &overlong), "(turned-away 1 0 2)\n");
    }
}
