//! The job that compares two circuit texts, each with its gate list, and what its
//! program writes.

use crate::several::{of_text, Outcome, Refused};
use crate::{fill, judged, Circuit, Kind, SHORTEST_LIST};
use std::cmp::Ordering;

/// Compare two circuits by number of lines, then by their reduced lists. The count
/// is 0, 1 or 2 for less, equal, greater.
pub fn compare(
    first: &[u8],
    first_list: &mut [u16],
    second: &[u8],
    second_list: &mut [u16],
) -> Outcome {
    match both(first, first_list.len(), second, second_list.len()) {
        Err(refused) => {
            if refused.refusal.clears() {
                fill(first_list, &[]);
                fill(second_list, &[]);
            }
            refused.outcome()
        }
        Ok(circuits) => {
            let [first, second] = circuits.map(Circuit::reduced);
            fill(first_list, &first.gates);
            fill(second_list, &second.gates);
            Outcome::success(match first.cmp(&second) {
                Ordering::Less => 0,
                Ordering::Equal => 1,
                Ordering::Greater => 2,
            })
        }
    }
}

/// Both circuits, or the first refusal.
fn both(
    first: &[u8],
    first_list_len: usize,
    second: &[u8],
    second_list_len: usize,
) -> Result<[Circuit; 2], Refused> {
    Ok([
        judged(Kind::Circuit, first, Some(first_list_len)).map_err(of_text(1))?,
        judged(Kind::Circuit, second, Some(second_list_len)).map_err(of_text(2))?,
    ])
}

/// What the program writes for two texts: the answer, or the form
/// `(turned-away r l t)`.
pub fn answer(first: &[u8], second: &[u8]) -> Vec<u8> {
    let mut lists = [[0u16; SHORTEST_LIST]; 2];
    let [first_list, second_list] = &mut lists;
    let outcome = compare(first, first_list, second, second_list);
    match (outcome.number, outcome.count) {
        (0, 0) => b"(less)\n".to_vec(),
        (0, 1) => b"(equal)\n".to_vec(),
        (0, _) => b"(greater)\n".to_vec(),
        _ => outcome.turned_away(),
    }
}

#[cfg(test)]
mod tests {
    //! Expected values from the scope document's examples and order 1.
    use super::*;
    use crate::gate::Gate;
    use crate::several::texts::{circuit, turned_away};

    const LESS: u64 = 0;
    const EQUAL: u64 = 1;
    const GREATER: u64 = 2;
    const JUNK: [u16; 2] = [0xbeef, 0xcafe];
    const NOT_0: u16 = 2;

    /// Runs the job on lists of these lengths.
    fn run_on(lengths: [usize; 2], first: &str, second: &str) -> (Outcome, [Vec<u16>; 2]) {
        let mut first_list = vec![JUNK[0]; lengths[0]];
        let mut second_list = vec![JUNK[1]; lengths[1]];
        let outcome = compare(
            first.as_bytes(),
            &mut first_list,
            second.as_bytes(),
            &mut second_list,
        );
        (outcome, [first_list, second_list])
    }

    /// The count of two accepted texts, checked in both orders.
    fn compared(first: &str, second: &str) -> u64 {
        let (there, lists) = run_on([4_096, 5_000], first, second);
        let (back, [list_2, list_1]) = run_on([5_000, 4_096], second, first);
        for outcome in [there, back] {
            assert_eq!((outcome.number, outcome.line, outcome.text), (0, 0, 0));
        }
        assert_eq!(there.count + back.count, 2);
        assert_eq!(lists, [list_1, list_2]);
        there.count
    }

    /// A refusal on whole lists, which shows in both of them.
    fn refused(first: &str, second: &str) -> (u64, u64, u64) {
        refused_on([4_096, 4_097], first, second)
    }

    fn refused_on(lengths: [usize; 2], first: &str, second: &str) -> (u64, u64, u64) {
        let (outcome, lists) = run_on(lengths, first, second);
        assert_ne!(outcome.number, 0);
        assert_eq!(outcome.count, 0);
        for (which, list) in lists.iter().enumerate() {
            let left = match outcome.number {
                1 | 2 => JUNK[which],
                _ => NOT_0,
            };
            assert_eq!(list.len(), lengths[which]);
            assert!(list.iter().all(|&record| record == left));
        }
        (outcome.number, outcome.line, outcome.text)
    }

    #[test]
    fn a_circuit_and_its_redrawing_are_equal() {
        let pairs: [(u8, &[&str], &[&str]); 7] = [
            (3, &["cn 0 2", "cn 1 2", "cn 0 2"], &["cn 1 2"]),
            (2, &["cn 0 1", "not 1"], &["not 1", "cn 0 1"]),
            (2, &["v 0 1", "v 0 1"], &["cn 0 1"]),
            (2, &["cn 0 1", "v 0 1"], &["vp 0 1"]),
            (2, &["v 0 1", "vp 0 1"], &[]),
            (3, &["v 0 2", "v 1 2"], &["v 1 2", "v 0 2"]),
            (32, &[], &[]),
        ];
        for (lines, first, second) in pairs {
            assert_eq!(
                compared(&circuit(lines, first), &circuit(lines, second)),
                EQUAL
            );
        }
    }

    #[test]
    fn gates_that_hold_each_other_keep_circuits_apart() {
        let held = circuit(3, &["cn 0 1", "cn 1 2", "cn 0 1"]);
        assert_eq!(compared(&held, &circuit(3, &["cn 1 2"])), LESS);
        let held = circuit(2, &["not 0", "cn 0 1", "not 0"]);
        assert_eq!(compared(&held, &circuit(2, &["cn 0 1"])), LESS);
        let there = circuit(3, &["cn 0 1", "cn 1 2"]);
        let back = circuit(3, &["cn 1 2", "cn 0 1"]);
        assert_eq!(compared(&there, &back), LESS);
    }

    #[test]
    fn no_gates_are_less_than_any_other_circuit_on_these_lines() {
        let alphabet = [
            "not 0", "v 1 0", "cn 1 0", "vp 1 0", "not 1", "v 0 1", "cn 0 1", "vp 0 1",
        ];
        // What each of them vanishes with.
        let undone = [0, 3, 2, 1, 4, 7, 6, 5];
        let none = circuit(2, &[]);
        for (one, undone) in alphabet.iter().zip(undone) {
            assert_eq!(compared(&none, &circuit(2, &[one])), LESS);
            for (place, other) in alphabet.iter().enumerate() {
                let expected = if place == undone { EQUAL } else { LESS };
                assert_eq!(compared(&none, &circuit(2, &[one, other])), expected);
            }
        }
    }

    #[test]
    fn the_number_of_lines_decides_before_any_gate() {
        let longest = circuit(1, &["not 0"; 4_095]);
        assert_eq!(compared(&longest, &circuit(2, &[])), LESS);
        let last = circuit(31, &["vp 29 30"]);
        assert_eq!(compared(&last, &circuit(32, &["not 0"])), LESS);
        let same = ["cn 0 1"];
        assert_eq!(compared(&circuit(3, &same), &circuit(2, &same)), GREATER);
    }

    #[test]
    fn gates_compare_by_target_then_control_then_power() {
        let rising = [
            "not 0", "v 1 0", "cn 1 0", "vp 1 0", "v 10 0", "not 1", "v 0 1", "cn 0 1", "vp 0 1",
            "v 2 1", "not 2", "vp 9 2", "v 10 2", "not 10",
        ];
        for (i, first) in rising.iter().enumerate() {
            for (j, second) in rising.iter().enumerate() {
                let expected = match i.cmp(&j) {
                    Ordering::Less => LESS,
                    Ordering::Equal => EQUAL,
                    Ordering::Greater => GREATER,
                };
                assert_eq!(
                    compared(&circuit(11, &[first]), &circuit(11, &[second])),
                    expected
                );
            }
        }
    }

    #[test]
    fn a_list_that_ends_sooner_comes_first_but_not_a_shorter_one() {
        let one = circuit(2, &["not 0"]);
        let two = circuit(2, &["not 0", "cn 0 1"]);
        let three = circuit(2, &["not 0", "cn 0 1", "not 0"]);
        assert_eq!(compared(&one, &two), LESS);
        assert_eq!(compared(&two, &three), LESS);
        assert_eq!(compared(&three, &circuit(2, &["cn 0 1"])), LESS);
        assert_eq!(compared(&circuit(2, &["not 1"]), &two), GREATER);
    }

    #[test]
    fn each_list_holds_its_own_reduced_list() {
        let first = circuit(3, &["cn 0 2", "cn 1 2", "cn 0 2"]);
        let second = circuit(2, &["cn 0 1", "not 1"]);
        let (outcome, lists) = run_on([4_096, 5_000], &first, &second);
        assert_eq!(outcome.count, GREATER);
        let expected: [&[Gate]; 2] = [
            &[Gate::powered(2, 1, 2)],
            &[Gate::not(1), Gate::powered(2, 0, 1)],
        ];
        for (list, gates) in lists.iter().zip(expected) {
            let (front, rest) = list.split_at(gates.len());
            assert!(front.iter().zip(gates).all(|(r, g)| *r == g.number()));
            assert!(rest.iter().all(|&record| record == NOT_0));
        }
    }

    #[test]
    fn refusals_come_in_the_order_of_the_texts() {
        let good = circuit(3, &["cn 0 1"]);
        for (text, number, line) in turned_away() {
            assert_eq!(refused(&good, &text), (number, line, 2));
            assert_eq!(refused(&text, &good), (number, line, 1));
            for (second, _, _) in turned_away() {
                assert_eq!(refused(&text, &second), (number, line, 1));
            }
        }
        assert_eq!(
            compared("(lines 32)\n", &circuit(32, &["not 31"; 4_096])),
            EQUAL
        );
    }

    #[test]
    fn each_list_is_judged_with_its_own_text() {
        let good = circuit(3, &["cn 0 1"]);
        let malformed = "(lines 3)\n(cn 0 1)\n(not 2)";
        let overlong = "x".repeat(60_001);
        for short in [0, 1, 4_095] {
            assert_eq!(refused_on([short, 4_096], &good, &good), (2, 0, 1));
            assert_eq!(refused_on([4_096, short], &good, &good), (2, 0, 2));
            assert_eq!(refused_on([short, short], &good, &good), (2, 0, 1));
            assert_eq!(refused_on([short, 4_096], malformed, &good), (2, 0, 1));
            assert_eq!(refused_on([4_096, short], malformed, &good), (3, 3, 1));
            assert_eq!(refused_on([4_096, short], &good, malformed), (2, 0, 2));
            assert_eq!(refused_on([short, 4_096], &good, &overlong), (2, 0, 1));
            assert_eq!(refused_on([short, short], &overlong, &good), (1, 0, 1));
            assert_eq!(refused_on([4_096, short], &good, &overlong), (1, 0, 2));
            assert_eq!(refused_on([4_096, short], malformed, &overlong), (3, 3, 1));
        }
    }

    #[test]
    fn what_the_program_writes() {
        let none = "(lines 2)\n";
        let one = circuit(2, &["not 0"]);
        let written = |first: &str, second: &str| answer(first.as_bytes(), second.as_bytes());
        assert_eq!(written(none, &one), b"(less)\n");
        assert_eq!(written(&one, &one), b"(equal)\n");
        assert_eq!(written(&one, none), b"(greater)\n");
        assert_eq!(written(&one, "(lines 2)"), b"(turned-away 3 1 2)\n");
        let crossed = circuit(2, &["not 0", "v 1 1"]);
        assert_eq!(written(&crossed, ""), b"(turned-away 5 3 1)\n");
        let overlong = "x".repeat(60_001);
        assert_eq!(written(none, &overlong), b"(turned-away 1 0 2)\n");
    }
}
