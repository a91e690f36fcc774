//! The examples of the scope document, with the values that it gives.

use super::*;

const JUNK: u16 = 0xbeef;
const NOT_0: u16 = 2;

/// Runs a job on lent areas, the answer area of this length, and checks what
/// holds of them in every case.
fn run(job: Job, text: &str, answer_len: usize) -> (Outcome, Vec<u8>, Vec<u16>) {
    let mut list = vec![JUNK; 5_000];
    let mut answer = vec![b'?'; answer_len];
    let outcome = job.run(text.as_bytes(), &mut list, &mut answer);
    let rest = match outcome.number {
        1 | 2 => JUNK,
        _ => NOT_0,
    };
    let (gates, bytes) = (outcome.gates as usize, outcome.bytes as usize);
    assert!(list[gates..].iter().all(|&record| record == rest));
    assert!(answer[bytes..].iter().all(|&byte| byte == b'?'));
    list.truncate(gates);
    answer.truncate(bytes);
    (outcome, answer, list)
}

fn accepted(gates: u64, bytes: u64) -> Outcome {
    Outcome {
        number: 0,
        line: 0,
        gates,
        bytes,
    }
}

/// A refusal by rule 1, 2 or 10.
fn without_line(number: u64) -> Outcome {
    Outcome {
        number,
        line: 0,
        gates: 0,
        bytes: 0,
    }
}

/// The answer text and the gates of an accepted text.
pub fn answered(job: Job, text: &str) -> (String, u64) {
    let (outcome, answer, list) = run(job, text, 50_000);
    let answer = String::from_utf8(answer).unwrap();
    let gates = answer.lines().count() as u64 - 1;
    assert_eq!(outcome, accepted(gates, answer.len() as u64));
    let circuit = reader::read(Kind::Circuit, answer.as_bytes()).unwrap();
    assert!(circuit.gates.iter().map(|gate| gate.number()).eq(list));
    (answer, gates)
}

pub fn mapped(text: &str) -> String {
    answered(Job::Map, text).0
}

fn reduced_to(text: &str, expected: &str) {
    assert_eq!(answered(Job::Reduce, text).0, expected);
}

/// The gates that map counts with an empty area, which have to be those that it
/// gives with any other.
pub fn quoted(text: &str) -> u64 {
    let (outcome, _, list) = run(Job::Map, text, 0);
    assert_eq!(outcome, accepted(outcome.gates, 0));
    assert_eq!(answered(Job::Map, text).1, outcome.gates);
    assert_eq!(run(Job::Map, text, 50_000).2, list);
    outcome.gates
}

/// The number and line of a text that is refused whatever area is lent.
pub fn refused(job: Job, text: &str) -> (u64, u64) {
    let (outcome, _, _) = run(job, text, 50_000);
    assert_ne!(outcome.number, 0);
    assert_eq!((outcome.gates, outcome.bytes), (0, 0));
    for answer_len in [0, 1, 9] {
        assert_eq!(run(job, text, answer_len).0, outcome);
    }
    (outcome.number, outcome.line)
}

/// An mct line with the first k lines as controls.
fn mct(k: u8, target: u8) -> String {
    let controls: Vec<String> = (0..k).map(|c| c.to_string()).collect();
    format!("(mct ({}) {target})\n", controls.join(" "))
}

#[test]
fn one_mct_of_two_controls() {
    let text = "(lines 3)\n(mct (0 1) 2)\n";
    let answer = "(lines 3)\n(v 0 2)\n(v 1 2)\n(cn 0 1)\n(vp 1 2)\n(cn 0 1)\n";
    assert_eq!(mapped(text), answer);
    assert_eq!(
        program_answer(Program::Map, text.as_bytes()),
        answer.as_bytes()
    );
    assert_eq!(quoted(text), 5);
    assert_eq!(
        program_answer(Program::Quote, text.as_bytes()),
        b"(quote 5)\n"
    );
}

#[test]
fn one_mct_of_two_controls_twice() {
    assert_eq!(quoted("(lines 3)\n(mct (0 1) 2)\n(mct (0 1) 2)\n"), 9);
}

#[test]
fn three_controls_and_the_spare_line() {
    let text = "(lines 5)\n(mct (0 1 2) 3)\n";
    let circuit = reader::read(Kind::Cascade, text.as_bytes()).unwrap_or_else(|_| panic!());
    assert_eq!(circuit.gates.len(), 16);
    assert_eq!(circuit.gates[0], Gate::powered(1, 4, 3));
    assert_eq!(quoted(text), 14);
    let no_spare = "(lines 4)\n(mct (0 1 2) 3)\n";
    assert_eq!(refused(Job::Map, no_spare), (8, 2));
    for program in [Program::Map, Program::Quote] {
        assert_eq!(
            program_answer(program, no_spare.as_bytes()),
            b"(turned-away 8 2)\n"
        );
    }
}

#[test]
fn merges() {
    reduced_to("(lines 2)\n(v 0 1)\n(v 0 1)\n", "(lines 2)\n(cn 0 1)\n");
    reduced_to("(lines 2)\n(cn 0 1)\n(v 0 1)\n", "(lines 2)\n(vp 0 1)\n");
    reduced_to("(lines 2)\n(v 0 1)\n(vp 0 1)\n", "(lines 2)\n");
}

#[test]
fn passes() {
    reduced_to(
        "(lines 3)\n(cn 0 2)\n(cn 1 2)\n(cn 0 2)\n",
        "(lines 3)\n(cn 1 2)\n",
    );
    let itself = "(lines 3)\n(cn 0 1)\n(cn 1 2)\n(cn 0 1)\n";
    reduced_to(itself, itself);
    reduced_to(
        "(lines 2)\n(cn 0 1)\n(not 1)\n",
        "(lines 2)\n(not 1)\n(cn 0 1)\n",
    );
    let itself = "(lines 2)\n(not 0)\n(cn 0 1)\n(not 0)\n";
    reduced_to(itself, itself);
}

#[test]
fn a_vanished_pair_opens_the_next_merge() {
    reduced_to(
        "(lines 3)\n(cn 0 1)\n(v 1 2)\n(not 2)\n(vp 1 2)\n(cn 0 1)\n",
        "(lines 3)\n(not 2)\n",
    );
}

#[test]
fn expansions_past_the_limit() {
    let mut text = "(lines 17)\n".to_string() + &mct(15, 15).repeat(11);
    let circuit = reader::read(Kind::Cascade, text.as_bytes()).unwrap_or_else(|_| panic!());
    assert_eq!(circuit.gates.len(), 4_092);
    assert!(quoted(&text) <= 4_092);
    text += &mct(15, 15);
    assert_eq!(refused(Job::Map, &text), (9, 13));
}

#[test]
fn counts_of_the_expansion() {
    let counts = [
        1, 1, 5, 16, 24, 46, 68, 84, 100, 144, 188, 232, 276, 308, 340, 372,
    ];
    for (k, count) in counts.into_iter().enumerate() {
        // With the fewest lines and with all 32, the gate at either end of them.
        let low: Vec<u8> = (0..k as u8).collect();
        let high: Vec<u8> = low.iter().map(|c| 31 - c).rev().collect();
        for (lines, controls, target) in [(17, &low, 15), (32, &low, 15), (32, &high, 4)] {
            let mut gates = Vec::new();
            let spares = expansion::unnamed(lines, controls, target);
            expansion::expand_mct(controls, &[], target, &spares, &mut gates);
            assert_eq!(gates.len(), count);
        }
    }
}

#[test]
fn refusals_of_the_examples() {
    // Order 6 has made 8 of the first; with a line that it does not name it is 7.
    let wide = |lines: u8| format!("(lines {lines})\n{}", mct(16, 16));
    assert_eq!(refused(Job::Map, &wide(17)), (8, 2));
    assert_eq!(refused(Job::Map, &wide(18)), (7, 2));
    for job in [Job::Map, Job::Reduce] {
        let (outcome, _, _) = run(job, "(lines 32)\n", 50_000);
        assert_eq!(outcome, accepted(0, 11));
        assert_eq!(refused(job, "(lines 33)\n"), (4, 1));
        assert_eq!(refused(job, &"x".repeat(60_001)), (1, 0));
        assert_eq!(refused(job, &"x".repeat(60_000)), (3, 1));
        assert_eq!(refused(job, ""), (3, 1));
        assert_eq!(refused(job, "(lines 3)"), (3, 1));
    }
    assert_eq!(refused(Job::Map, "(lines 3)\n(mct (0 1) 2)"), (3, 2));
    assert_eq!(refused(Job::Reduce, "(lines 3)\n(cn 0 1)\n(not 2)"), (3, 3));
}

#[test]
fn a_text_without_gates() {
    assert_eq!(mapped("(lines 1)\n"), "(lines 1)\n");
    assert_eq!(quoted("(lines 7)\n"), 0);
    reduced_to("(lines 32)\n", "(lines 32)\n");
}

#[test]
fn the_order_of_the_rules() {
    let crossed_and_unsorted = "(lines 5)\n(mct (2 1) 2)\n";
    assert_eq!(refused(Job::Map, crossed_and_unsorted), (5, 2));
    assert_eq!(refused(Job::Map, "(lines 5)\n(mct (2 1) 5)\n"), (4, 2));
    assert_eq!(refused(Job::Map, "(lines 5)\n(mct (2 1) 3)\n"), (6, 2));
    assert_eq!(refused(Job::Map, "(lines 5)\n(mct (1 1) 3)\n"), (6, 2));
    assert_eq!(refused(Job::Map, "(lines 5)\n(mct (1 2) 003)\n"), (3, 2));
    assert_eq!(refused(Job::Map, "(lines 5)\n(mct (1 2) 100)\n"), (3, 2));
    assert_eq!(refused(Job::Reduce, "(lines 5)\n(v 5 5)\n"), (4, 2));
    assert_eq!(refused(Job::Reduce, "(lines 5)\n(v 4 4)\n"), (5, 2));
    assert_eq!(refused(Job::Reduce, "(lines 0)\n"), (4, 1));
    assert_eq!(refused(Job::Reduce, "(lines 100)\n"), (3, 1));
    assert_eq!(refused(Job::Reduce, "(lines 5)\n\n"), (3, 2));
}

#[test]
fn gates_and_bytes_of_the_starred_examples() {
    gates_and_bytes(Job::Map, "(lines 3)\n(mct (0 1) 2)\n", 5, 53);
    for (text, gates, bytes) in [
        ("(lines 2)\n(v 0 1)\n(v 0 1)\n", 1, 19),
        ("(lines 2)\n(cn 0 1)\n(v 0 1)\n", 1, 19),
        ("(lines 2)\n(v 0 1)\n(vp 0 1)\n", 0, 10),
        ("(lines 3)\n(cn 0 2)\n(cn 1 2)\n(cn 0 2)\n", 1, 19),
        ("(lines 3)\n(cn 0 1)\n(cn 1 2)\n(cn 0 1)\n", 3, 37),
        ("(lines 2)\n(cn 0 1)\n(not 1)\n", 2, 27),
        ("(lines 2)\n(not 0)\n(cn 0 1)\n(not 0)\n", 3, 35),
    ] {
        gates_and_bytes(Job::Reduce, text, gates, bytes);
    }
}

/// The same with every area that is long enough.
fn gates_and_bytes(job: Job, text: &str, gates: u64, bytes: u64) {
    let fitting = bytes as usize;
    for answer_len in [fitting, fitting + 1, 50_000] {
        assert_eq!(run(job, text, answer_len).0, accepted(gates, bytes));
    }
}

#[test]
fn an_empty_area_is_never_short_for_map() {
    let text = "(lines 3)\n(mct (0 1) 2)\n";
    assert_eq!(run(Job::Map, text, 0).0, accepted(5, 0));
    for answer_len in 1..53 {
        assert_eq!(run(Job::Map, text, answer_len).0, without_line(10));
    }
    assert_eq!(run(Job::Map, text, 53).0, accepted(5, 53));
    let no_gates = "(lines 7)\n";
    assert_eq!(run(Job::Map, no_gates, 0).0, accepted(0, 0));
    assert_eq!(run(Job::Map, no_gates, 9).0, without_line(10));
    assert_eq!(run(Job::Map, no_gates, 10).0, accepted(0, 10));
}

#[test]
fn an_empty_area_is_short_for_reduce() {
    for (text, bytes) in [("(lines 7)\n", 10), ("(lines 2)\n(v 0 1)\n(v 0 1)\n", 19)] {
        for answer_len in 0..bytes {
            assert_eq!(run(Job::Reduce, text, answer_len).0, without_line(10));
        }
        assert_eq!(run(Job::Reduce, text, bytes).0.number, 0);
    }
}

#[test]
fn lent_memory() {
    let text = b"(lines 2)\n(v 0 1)\n(v 0 1)\n";
    let answer_text = b"(lines 2)\n(cn 0 1)\n";
    let mut short = vec![JUNK; 4_095];
    let mut answer = vec![b'?'; 100];
    assert_eq!(map(b"(lines 7)\n", &mut short, &mut []), without_line(2));
    assert_eq!(map(&[b'x'; 60_001], &mut short, &mut []), without_line(1));
    assert_eq!(reduce(text, &mut short, &mut answer), without_line(2));
    assert_eq!(
        reduce(&[b'x'; 60_001], &mut short, &mut answer),
        without_line(1)
    );
    assert!(short.iter().all(|&record| record == JUNK));
    assert!(answer.iter().all(|&byte| byte == b'?'));
    let mut list = vec![JUNK; 4_096];
    assert_eq!(
        reduce(text, &mut list, &mut answer[..answer_text.len() - 1]),
        without_line(10)
    );
    assert!(list.iter().all(|&record| record == NOT_0));
    assert!(answer.iter().all(|&byte| byte == b'?'));
    let mut list = vec![JUNK; 4_096];
    let outcome = reduce(text, &mut list, &mut answer[..answer_text.len()]);
    assert_eq!(outcome, accepted(1, answer_text.len() as u64));
    assert_eq!(&answer[..answer_text.len()], answer_text);
    assert!(answer[answer_text.len()..].iter().all(|&byte| byte == b'?'));
    assert_eq!(list[0], Gate::powered(2, 0, 1).number());
    assert_eq!(list[0], (33 + 1) * 4 + 2);
    assert!(list[1..].iter().all(|&record| record == NOT_0));
}
