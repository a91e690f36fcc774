//! The job that inverts a circuit (order 7): its gates reversed, v and vp exchanged,
//! then reduced. The expected lists are worked out by hand from these words and from
//! the scope document's examples.

use super::*;
use crate::examples::{answered, refused};

fn circuit(lines: u8, gates: &[&str]) -> String {
    let gates: String = gates.iter().map(|gate| format!("({gate})\n")).collect();
    format!("(lines {lines})\n{gates}")
}

/// The answer of an accepted text; inverted again it is the circuit's reduced list.
fn inverted(text: &str) -> String {
    let (answer, _) = answered(Job::Invert, text);
    let back = answered(Job::Invert, &answer);
    assert_eq!(back, answered(Job::Reduce, text));
    answer
}

#[test]
fn one_gate() {
    for (gate, inverse) in [
        ("v 0 1", "vp 0 1"),
        ("vp 0 1", "v 0 1"),
        ("cn 0 1", "cn 0 1"),
        ("not 1", "not 1"),
    ] {
        assert_eq!(inverted(&circuit(2, &[gate])), circuit(2, &[inverse]));
    }
    assert_eq!(inverted("(lines 32)\n"), "(lines 32)\n");
}

#[test]
fn reversed_exchanged_and_reduced() {
    let inverses: [(u8, &[&str], &[&str]); 9] = [
        // Held: the order is the other way round.
        (3, &["cn 0 1", "cn 1 2"], &["cn 1 2", "cn 0 1"]),
        (3, &["cn 0 1", "v 1 2"], &["vp 1 2", "cn 0 1"]),
        (2, &["not 0", "v 0 1"], &["vp 0 1", "not 0"]),
        // Passing: in the order of the list.
        (2, &["cn 0 1", "not 1"], &["not 1", "cn 0 1"]),
        (3, &["v 0 2", "vp 1 2"], &["vp 0 2", "v 1 2"]),
        // Merged.
        (2, &["v 0 1", "v 0 1"], &["cn 0 1"]),
        (2, &["cn 0 1", "v 0 1"], &["v 0 1"]),
        (2, &["v 0 1", "vp 0 1"], &[]),
        (3, &["cn 0 2", "cn 1 2", "cn 0 2"], &["cn 1 2"]),
    ];
    for (lines, gates, inverse) in inverses {
        assert_eq!(inverted(&circuit(lines, gates)), circuit(lines, inverse));
    }
}

#[test]
fn the_list_of_an_mct_of_two_controls() {
    let list = ["v 0 2", "v 1 2", "cn 0 1", "vp 1 2", "cn 0 1"];
    let inverse = ["cn 0 1", "vp 0 2", "v 1 2", "cn 0 1", "vp 1 2"];
    assert_eq!(inverted(&circuit(3, &list)), circuit(3, &inverse));
    assert_eq!(inverted(&circuit(3, &inverse)), circuit(3, &list));
}

#[test]
fn a_full_circuit() {
    let there = circuit(32, &["vp 30 31", "v 31 30"].repeat(2_048));
    let back = circuit(32, &["vp 31 30", "v 30 31"].repeat(2_048));
    assert_eq!(inverted(&there), back);
    let past = there + "(not 0)\n";
    assert_eq!(refused(Job::Invert, &past), (9, 4_098));
}

#[test]
fn it_refuses_what_reduce_refuses() {
    let overlong = "x".repeat(60_001);
    for (text, refusal) in [
        (&overlong[..], (1, 0)),
        (&overlong[..60_000], (3, 1)),
        ("", (3, 1)),
        ("(lines 2)\n(v 0 1)", (3, 2)),
        ("(lines 2)\n(mct (0) 1)\n", (3, 2)),
        ("(lines 33)\n", (4, 1)),
        ("(lines 2)\n(not 0)\n(v 2 1)\n", (4, 3)),
        ("(lines 2)\n(v 1 1)\n", (5, 2)),
    ] {
        assert_eq!(refused(Job::Invert, text), refusal);
        assert_eq!(refused(Job::Reduce, text), refusal);
    }
}

/// The inverse may be longer than the reduced list, or shorter: the area is measured
/// by its own text.
#[test]
fn lent_memory() {
    for (gate, bytes) in [("v 0 1", 19), ("vp 0 1", 18)] {
        let text = circuit(2, &[gate]);
        for (list_len, answer_len, number) in [
            (4_095, bytes, 2),
            (0, 0, 2),
            (4_096, 0, 10),
            (5_000, bytes - 1, 10),
            (4_096, bytes, 0),
            (5_000, bytes + 1, 0),
        ] {
            let mut list = vec![0xbeef; list_len];
            let mut answer = vec![b'?'; answer_len];
            let outcome = invert(text.as_bytes(), &mut list, &mut answer);
            let success = u64::from(number == 0);
            let expected = Outcome {
                number,
                line: 0,
                gates: success,
                bytes: success * bytes as u64,
            };
            assert_eq!(outcome, expected);
            let rest = if number == 2 { 0xbeef } else { 2 };
            let gates = outcome.gates as usize;
            assert!(list[gates..].iter().all(|&record| record == rest));
            let written = outcome.bytes as usize;
            assert!(answer[written..].iter().all(|&byte| byte == b'?'));
        }
    }
}

#[test]
fn what_the_program_writes() {
    let written = |text: &str| program_answer(Program::Invert, text.as_bytes());
    assert_eq!(
        written("(lines 2)\n(not 0)\n(v 0 1)\n"),
        b"(lines 2)\n(vp 0 1)\n(not 0)\n"
    );
    assert_eq!(written("(lines 2)\n(v 1 1)\n"), b"(turned-away 5 2)\n");
    assert_eq!(written(""), b"(turned-away 3 1)\n");
}
