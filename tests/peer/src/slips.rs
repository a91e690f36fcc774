//! The job that follows a slip, the steps that are said to lead from one circuit to
//! another, with a gate list for each circuit, and what its program writes.

use crate::gate::Gate;
use crate::several::{of_text, Outcome, Refused};
use crate::{fill, judged, reader, Circuit, Kind, Refusal};
use crate::{LONGEST_TEXT, SHORTEST_LIST};

/// The most lines of a slip (rule 9).
pub const MOST_STEPS: usize = 4_096;

/// A line of a slip: what is done with two neighbours, and the place of the first of
/// them, counted from 1.
#[derive(Clone, Copy, Debug, PartialEq, Eq)]
pub enum Step {
    Pass(usize),
    Merge(usize),
}

/// Follow a slip from the first circuit to the second. The count is 0.
pub fn slip(
    first: &[u8],
    first_list: &mut [u16],
    slip: &[u8],
    second: &[u8],
    second_list: &mut [u16],
) -> Outcome {
    match followed(first, first_list.len(), slip, second, second_list.len()) {
        Err(refused) => {
            if refused.refusal.clears() {
                fill(first_list, &[]);
                fill(second_list, &[]);
            }
            refused.outcome()
        }
        Ok([ended_at, second]) => {
            fill(first_list, &ended_at.gates);
            fill(second_list, &second.gates);
            Outcome::success(0)
        }
    }
}

/// The circuit that the steps end at and the second one, or the first refusal: of the
/// first text and its list, of the slip, of the second text and its list, 11, a step
/// that is not allowed, then 13.
fn followed(
    first: &[u8],
    first_list_len: usize,
    slip: &[u8],
    second: &[u8],
    second_list_len: usize,
) -> Result<[Circuit; 2], Refused> {
    let mut circuit = judged(Kind::Circuit, first, Some(first_list_len)).map_err(of_text(1))?;
    let steps = read(slip).map_err(of_text(2))?;
    let second = judged(Kind::Circuit, second, Some(second_list_len)).map_err(of_text(3))?;
    if circuit.lines != second.lines {
        return Err(of_text(0)(Refusal {
            number: 11,
            line: 0,
        }));
    }
    for (step, line) in steps.into_iter().zip(1..) {
        take(step, &mut circuit.gates).ok_or(Refused {
            text: 2,
            refusal: Refusal { number: 12, line },
        })?;
    }
    if circuit.gates != second.gates {
        return Err(of_text(0)(Refusal {
            number: 13,
            line: 0,
        }));
    }
    Ok([circuit, second])
}

/// Rule 1 of a slip, then rules 3 and 9 on each line. A slip may be empty.
fn read(text: &[u8]) -> Result<Vec<Step>, Refusal> {
    if text.len() > LONGEST_TEXT {
        return Err(Refusal { number: 1, line: 0 });
    }
    let mut steps = Vec::new();
    let mut rest = text;
    while !rest.is_empty() {
        let line = steps.len() as u64 + 1;
        let step = reader::next_line(&mut rest)
            .and_then(step_form)
            .ok_or(Refusal { number: 3, line })?;
        if steps.len() >= MOST_STEPS {
            return Err(Refusal { number: 9, line });
        }
        steps.push(step);
    }
    Ok(steps)
}

/// `(pass i)` or `(merge i)`
fn step_form(line: &[u8]) -> Option<Step> {
    let inside = line.strip_prefix(b"(")?.strip_suffix(b")")?;
    if let Some(digits) = inside.strip_prefix(b"pass ") {
        place_form(digits).map(Step::Pass)
    } else {
        let digits = inside.strip_prefix(b"merge ")?;
        place_form(digits).map(Step::Merge)
    }
}

/// One to four digits, without a leading zero except 0 itself.
fn place_form(digits: &[u8]) -> Option<usize> {
    let in_form = match digits {
        [b'0'] => true,
        [b'1'..=b'9', others @ ..] => others.len() <= 3 && others.iter().all(u8::is_ascii_digit),
        _ => false,
    };
    let value = |value: usize, digit: &u8| 10 * value + usize::from(digit - b'0');
    in_form.then(|| digits.iter().fold(0, value))
}

/// Takes one step on a circuit; none if it is not allowed there.
fn take(step: Step, gates: &mut Vec<Gate>) -> Option<()> {
    let (Step::Pass(place) | Step::Merge(place)) = step;
    let left = place.checked_sub(1)?;
    let (&one, &other) = (gates.get(left)?, gates.get(left + 1)?);
    match step {
        Step::Pass(_) if one.passes(other) => gates.swap(left, left + 1),
        Step::Merge(_) if one.merges(other) => {
            gates.splice(left..left + 2, one.merged(other));
        }
        _ => return None,
    }
    Some(())
}

/// What the program writes for three texts: that the slip is accepted, or the form
/// `(turned-away r l t)`.
pub fn answer(first: &[u8], slip_text: &[u8], second: &[u8]) -> Vec<u8> {
    let mut lists = [[0u16; SHORTEST_LIST]; 2];
    let [first_list, second_list] = &mut lists;
    let outcome = slip(first, first_list, slip_text, second, second_list);
    match outcome.number {
        0 => b"(accepted)\n".to_vec(),
        _ => outcome.turned_away(),
    }
}

#[cfg(test)]
mod tests {
    //! Expected values from the scope document's examples and order 9, worked by hand.
    use super::*;
    use crate::several::texts::{circuit, forms, turned_away};

    const JUNK: [u16; 2] = [0xbeef, 0xcafe];
    const NOT_0: u16 = 2;

    /// Runs the job on lists of these lengths.
    fn run_on(lengths: [usize; 2], texts: [&str; 3]) -> (Outcome, [Vec<u16>; 2]) {
        let [first, steps, second] = texts.map(str::as_bytes);
        let mut first_list = vec![JUNK[0]; lengths[0]];
        let mut second_list = vec![JUNK[1]; lengths[1]];
        let outcome = slip(first, &mut first_list, steps, second, &mut second_list);
        (outcome, [first_list, second_list])
    }

    /// Number, line and text of a refusal, and what it leaves in both lists.
    fn refused_on(lengths: [usize; 2], texts: [&str; 3]) -> (u64, u64, u64) {
        let (outcome, lists) = run_on(lengths, texts);
        assert_ne!(outcome.number, 0);
        assert_eq!(outcome.count, 0);
        for (which, list) in lists.iter().enumerate() {
            let left = match outcome.number {
                1 | 2 => JUNK[which],
                _ => NOT_0,
            };
            assert_eq!(list.len(), lengths[which]);
            assert!(list.iter().all(|&record| record == left));
        }
        (outcome.number, outcome.line, outcome.text)
    }

    fn refused(first: &str, slip: &str, second: &str) -> (u64, u64, u64) {
        refused_on([4_096, 4_097], [first, slip, second])
    }

    /// Whether the slip is accepted, with the second circuit in both lists.
    fn accepted(first: &str, slip: &str, second: &str) -> bool {
        for lengths in [[4_096, 5_000], [4_097, 4_096]] {
            let (outcome, lists) = run_on(lengths, [first, slip, second]);
            if outcome != Outcome::success(0) {
                return false;
            }
            let circuit = reader::read(Kind::Circuit, second.as_bytes()).unwrap();
            let records: Vec<u16> = circuit.gates.iter().map(|gate| gate.number()).collect();
            for list in lists {
                let (front, rest) = list.split_at(records.len());
                assert_eq!(front, records);
                assert!(rest.iter().all(|&record| record == NOT_0));
            }
        }
        true
    }

    /// Whether this slip leads from one circuit to the other. Then it leads to none with a
    /// gate more, and a step without two neighbours behind it is not allowed.
    fn leads(lines: u8, first: &[&str], steps: &[&str], second: &[&str]) -> bool {
        let texts = [first, second].map(|gates| circuit(lines, gates));
        let there = accepted(&texts[0], &forms(steps), &texts[1]);
        if there {
            let more = circuit(lines, &[second, &["not 0"]].concat());
            assert_eq!(refused(&texts[0], &forms(steps), &more), (13, 0, 0));
            let last = forms(steps) + "(merge 9999)\n";
            let line = steps.len() as u64 + 1;
            assert_eq!(refused(&texts[0], &last, &texts[1]), (12, line, 2));
        }
        there
    }

    #[test]
    fn the_papers_reductions_step_by_step() {
        assert!(leads(2, &["v 0 1", "v 0 1"], &["merge 1"], &["cn 0 1"]));
        assert!(leads(2, &["cn 0 1", "v 0 1"], &["merge 1"], &["vp 0 1"]));
        assert!(leads(2, &["v 0 1", "vp 0 1"], &["merge 1"], &[]));
        let three = ["cn 0 2", "cn 1 2", "cn 0 2"];
        assert!(leads(3, &three, &["pass 1", "merge 2"], &["cn 1 2"]));
        assert!(leads(3, &three, &["pass 2", "merge 1"], &["cn 1 2"]));
        let two = ["cn 0 1", "not 1"];
        assert!(leads(2, &two, &["pass 1"], &["not 1", "cn 0 1"]));
        // The expansion of an mct of two controls, to the list that map gives.
        let expanded = ["v 1 2", "cn 0 1", "vp 1 2", "cn 0 1", "v 0 2"];
        let list = ["v 0 2", "v 1 2", "cn 0 1", "vp 1 2", "cn 0 1"];
        let steps = ["pass 4", "pass 3", "pass 2", "pass 1"];
        assert!(leads(3, &expanded, &steps, &list));
    }

    #[test]
    fn what_holds_each_other_stays() {
        let held = circuit(3, &["cn 0 1", "cn 1 2", "cn 0 1"]);
        for step in ["pass 1", "pass 2", "merge 1", "merge 2"] {
            assert_eq!(refused(&held, &forms(&[step]), &held), (12, 1, 2));
        }
        assert!(accepted(&held, "", &held));
        let held = circuit(2, &["not 0", "cn 0 1", "not 0"]);
        for step in ["pass 1", "pass 2", "merge 1", "merge 2"] {
            assert_eq!(refused(&held, &forms(&[step]), &held), (12, 1, 2));
        }
    }

    #[test]
    fn all_sums_of_powers() {
        let words = ["", "v", "cn", "vp"];
        for one in 1..4 {
            for other in 1..4 {
                let pair = [one, other].map(|power| format!("{} 2 0", words[power]));
                let sum = format!("{} 2 0", words[(one + other) % 4]);
                let end: &[&str] = if one + other == 4 { &[] } else { &[&sum] };
                assert!(leads(3, &[&pair[0], &pair[1]], &["merge 1"], end));
                let passed = [&pair[1][..], &pair[0]];
                assert!(leads(3, &[&pair[0], &pair[1]], &["pass 1"], &passed));
            }
        }
        assert!(leads(1, &["not 0", "not 0"], &["merge 1"], &[]));
        assert!(leads(1, &["not 0", "not 0"], &["pass 1"], &["not 0"; 2]));
    }

    #[test]
    fn neighbours_that_do_not_merge() {
        for (one, other) in [
            ("v 0 2", "v 1 2"),
            ("v 0 1", "v 0 2"),
            ("not 0", "not 1"),
            ("not 2", "cn 0 2"),
            ("cn 0 2", "not 2"),
            ("cn 0 1", "cn 1 0"),
        ] {
            let first = circuit(3, &[one, other]);
            assert_eq!(refused(&first, "(merge 1)\n", &first), (12, 1, 2));
        }
    }

    #[test]
    fn neighbours_that_do_not_pass() {
        for (one, other) in [
            ("cn 0 1", "cn 1 2"),
            ("cn 1 2", "cn 0 1"),
            ("not 0", "v 0 1"),
            ("v 0 1", "not 0"),
            ("v 0 1", "vp 1 0"),
        ] {
            let first = circuit(3, &[one, other]);
            assert_eq!(refused(&first, "(pass 1)\n", &first), (12, 1, 2));
        }
        for (one, other) in [
            ("v 0 2", "v 1 2"),
            ("v 0 1", "v 0 2"),
            ("not 1", "v 0 1"),
            ("not 0", "not 1"),
        ] {
            assert!(leads(3, &[one, other], &["pass 1"], &[other, one]));
        }
    }

    #[test]
    fn a_vanished_pair_opens_the_next_merge() {
        let first = ["v 0 1", "v 1 0", "vp 1 0", "v 0 1", "not 1", "not 1"];
        assert!(leads(
            2,
            &first,
            &["merge 5", "merge 2", "merge 1"],
            &["cn 0 1"]
        ));
        let texts = [&first[..], &["cn 0 1"]].map(|gates| circuit(2, gates));
        for (steps, line) in [
            (&["merge 2", "merge 5", "merge 1"][..], 2),
            (&["merge 1", "merge 2", "merge 5"], 1),
            (&["merge 5", "merge 2", "merge 2"], 3),
            (&["merge 5", "merge 2", "merge 0"], 3),
        ] {
            let slip = forms(steps);
            assert_eq!(refused(&texts[0], &slip, &texts[1]), (12, line, 2));
        }
    }

    #[test]
    fn places_and_their_form() {
        let text = circuit(2, &["not 0"; 4]);
        for place in [0, 4, 5, 10, 999, 1000, 4_095, 4_096, 9_999] {
            for word in ["pass", "merge"] {
                let slip = format!("({word} {place})\n");
                assert_eq!(refused(&text, &slip, &text), (12, 1, 2));
            }
        }
        for place in 1..=3 {
            assert!(accepted(&text, &format!("(pass {place})\n"), &text));
            let two = circuit(2, &["not 0"; 2]);
            assert!(accepted(&text, &format!("(merge {place})\n"), &two));
        }
        let malformed = [
            "(pass 01)\n",
            "(pass 00)\n",
            "(pass 0001)\n",
            "(pass 10000)\n",
            "(pass 12345)\n",
            "(pass 00001)\n",
            "(pass -1)\n",
            "(pass +1)\n",
            "(pass )\n",
            "(pass)\n",
            "(pass 1 )\n",
            "(pass  1)\n",
            " (pass 1)\n",
            "(pass 1) \n",
            "(pass 1)\r\n",
            "(pass 1",
            "(pass 1)",
            "pass 1\n",
            "(Pass 1)\n",
            "(passes 1)\n",
            "(merge 1 2)\n",
            "(merges 1)\n",
            "(merg 1)\n",
            "(lines 2)\n",
            "(not 0)\n",
            "\n",
            "x",
        ];
        for line in malformed {
            assert_eq!(refused(&text, line, &text), (3, 1, 2), "{line:?}");
            let later = "(pass 1)\n".to_string() + line;
            assert_eq!(refused(&text, &later, &text), (3, 2, 2), "{line:?}");
            // The form is judged before any step.
            let later = "(pass 0)\n".to_string() + line;
            assert_eq!(refused(&text, &later, &text), (3, 2, 2), "{line:?}");
        }
    }

    #[test]
    fn an_empty_slip() {
        let none = circuit(3, &[]);
        let two = circuit(3, &["v 0 2", "v 1 2"]);
        let redrawn = circuit(3, &["v 1 2", "v 0 2"]);
        assert!(accepted(&none, "", &none));
        assert!(accepted(&two, "", &two));
        assert_eq!(refused(&two, "", &redrawn), (13, 0, 0));
        assert_eq!(refused(&two, "", &none), (13, 0, 0));
        assert_eq!(refused(&none, "", &two), (13, 0, 0));
    }

    #[test]
    fn neither_circuit_is_reduced() {
        let two = circuit(2, &["not 0", "not 0"]);
        let none = circuit(2, &[]);
        assert!(accepted(&two, "", &two));
        assert!(accepted(&two, "(merge 1)\n", &none));
        assert_eq!(refused(&two, "(merge 1)\n", &two), (13, 0, 0));
        assert_eq!(refused(&none, "", &two), (13, 0, 0));
    }

    #[test]
    fn as_many_steps_as_may_be() {
        let full = circuit(2, &["not 1"; 4_096]);
        let steps = |count: usize| "(pass 4095)\n".repeat(count);
        for count in [0, 1, 4_095, 4_096] {
            assert!(accepted(&full, &steps(count), &full));
        }
        for count in [4_097, 4_098] {
            assert_eq!(refused(&full, &steps(count), &full), (9, 4_097, 2));
        }
        let malformed = steps(4_096) + "(pass 4095)";
        assert_eq!(refused(&full, &malformed, &full), (3, 4_097, 2));
        let malformed = steps(4_097) + "(pass 4095)";
        assert_eq!(refused(&full, &malformed, &full), (9, 4_097, 2));
        // Each merge takes two gates away, until there are none.
        let merges = "(merge 1)\n".repeat(2_048);
        let none = circuit(2, &[]);
        assert!(accepted(&full, &merges, &none));
        let one_more = merges.clone() + "(merge 1)\n";
        assert_eq!(refused(&full, &one_more, &none), (12, 2_049, 2));
        // Sums that are 2, 3, 1, 2, 3, 1 and so on: each merge takes one away.
        let gates: Vec<&str> = (0..4_096)
            .map(|place| ["v 0 1", "v 0 1", "cn 0 1"][(place + 2) % 3])
            .collect();
        let first = circuit(2, &[&["v 0 1"], &gates[1..]].concat());
        let merges = "(merge 1)\n".repeat(4_095);
        assert!(accepted(&first, &merges, &circuit(2, &["v 0 1"])));
        let one_more = merges + "(merge 1)\n";
        let end = circuit(2, &["v 0 1"]);
        assert_eq!(refused(&first, &one_more, &end), (12, 4_096, 2));
    }

    #[test]
    fn refusals_come_in_the_order_of_the_texts() {
        let good = circuit(3, &["cn 0 1"]);
        let overlong = "x".repeat(60_001);
        let circuits = turned_away();
        let circuits = circuits
            .iter()
            .map(|(text, n, line)| (&text[..], *n, *line));
        let many = "(pass 0)\n".repeat(4_097);
        let slips = [
            (&overlong[..], 1, 0),
            (&overlong[..60_000], 3, 1),
            ("(pass 1)\n(pass 2", 3, 2),
            (&many, 9, 4_097),
        ];
        let in_form = ["", "(pass 1)\n", "(merge 0)\n"];
        let others = [&good[..], "(lines 2)\n"];
        for (text, number, line) in circuits.clone() {
            for (slip, _, _) in slips {
                for (second, _, _) in circuits.clone() {
                    assert_eq!(refused(text, slip, second), (number, line, 1));
                }
            }
            for slip in in_form {
                for other in others {
                    assert_eq!(refused(text, slip, other), (number, line, 1));
                    assert_eq!(refused(other, slip, text), (number, line, 3));
                }
            }
            for (slip, number, line) in slips {
                assert_eq!(refused(&good, slip, text), (number, line, 2));
            }
        }
        for (slip, number, line) in slips {
            for other in others {
                assert_eq!(refused(&good, slip, other), (number, line, 2));
            }
        }
    }

    #[test]
    fn different_lines_before_steps_and_steps_before_the_end() {
        let one = circuit(3, &["cn 0 1", "not 2"]);
        let other = circuit(4, &["cn 0 1", "not 2"]);
        let passed = circuit(3, &["not 2", "cn 0 1"]);
        for slip in ["", "(pass 1)\n", "(pass 0)\n", "(merge 1)\n"] {
            assert_eq!(refused(&one, slip, &other), (11, 0, 0));
            assert_eq!(refused(&other, slip, &one), (11, 0, 0));
        }
        assert_eq!(refused(&one, "(pass 1", &other), (3, 1, 2));
        assert_eq!(refused(&one, "", &other[..other.len() - 1]), (3, 3, 3));
        assert!(accepted(&one, "(pass 1)\n", &passed));
        assert_eq!(refused(&one, "(pass 1)\n", &one), (13, 0, 0));
        assert_eq!(refused(&one, "(pass 2)\n", &one), (12, 1, 2));
        assert_eq!(refused(&one, "(pass 1)\n(pass 2)\n", &one), (12, 2, 2));
        assert_eq!(refused(&one, "(pass 1)\n(pass 2)\n", &passed), (12, 2, 2));
    }

    #[test]
    fn each_list_is_judged_with_its_own_text() {
        let good = circuit(3, &["cn 0 1"]);
        let malformed = "(lines 3)\n(cn 0 1)\n(not 2)";
        let overlong = "x".repeat(60_001);
        for short in [0, 1, 4_095] {
            let both = |lengths, texts| refused_on(lengths, texts);
            let [left, right, all] = [[short, 4_096], [4_096, short], [short; 2]];
            for slip in ["", "(pass 0)\n", "(pass", &overlong] {
                assert_eq!(both(left, [&good, slip, &good]), (2, 0, 1));
                assert_eq!(both(left, [malformed, slip, &good]), (2, 0, 1));
                assert_eq!(both(all, [&good, slip, &overlong]), (2, 0, 1));
                assert_eq!(both(all, [&overlong, slip, &good]), (1, 0, 1));
                assert_eq!(both(right, [malformed, slip, &good]), (3, 3, 1));
            }
            for slip in ["", "(pass 0)\n"] {
                assert_eq!(both(right, [&good, slip, &good]), (2, 0, 3));
                assert_eq!(both(right, [&good, slip, malformed]), (2, 0, 3));
                assert_eq!(both(right, [&good, slip, &overlong]), (1, 0, 3));
                assert_eq!(both(right, [&good, slip, "(lines 2)\n"]), (2, 0, 3));
            }
            assert_eq!(both(right, [&good, "(pass", &good]), (3, 1, 2));
            assert_eq!(both(right, [&good, &overlong, &good]), (1, 0, 2));
        }
    }

    #[test]
    fn what_the_program_writes() {
        let written = |texts: [&str; 3]| {
            let [first, slip, second] = texts.map(str::as_bytes);
            String::from_utf8(answer(first, slip, second)).unwrap()
        };
        let two = circuit(2, &["v 0 1", "v 0 1"]);
        let one = circuit(2, &["cn 0 1"]);
        assert_eq!(written([&two, "(merge 1)\n", &one]), "(accepted)\n");
        assert_eq!(written([&two, "", &two]), "(accepted)\n");
        assert_eq!(written([&two, "", &one]), "(turned-away 13 0 0)\n");
        let late = "(pass 1)\n(pass 2)\n";
        assert_eq!(written([&two, late, &one]), "(turned-away 12 2 2)\n");
        let other = "(lines 3)\n";
        assert_eq!(written([&two, late, other]), "(turned-away 11 0 0)\n");
        assert_eq!(written([&two, "(pass 1)", ""]), "(turned-away 3 1 2)\n");
        assert_eq!(written([&two, late, ""]), "(turned-away 3 1 3)\n");
        assert_eq!(written(["", "", ""]), "(turned-away 3 1 1)\n");
        let overlong = "x".repeat(60_001);
        assert_eq!(written([&two, &overlong, ""]), "(turned-away 1 0 2)\n");
    }
}
