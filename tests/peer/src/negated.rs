//! Negated controls (order 4). Every expected value is written out here from the
//! order's sentences.

use super::*;
use crate::examples::{mapped, quoted, refused};

/// The gates of a cascade's expansion, unreduced.
fn expanded(text: &str) -> Vec<Gate> {
    match reader::read(Kind::Cascade, text.as_bytes()) {
        Ok(circuit) => circuit.gates,
        Err(refusal) => panic!("{refusal:?}"),
    }
}

/// What map does with a text that has this one line after line 1.
fn line_refused(lines: u8, line: &str) -> (u64, u64) {
    refused(Job::Map, &format!("(lines {lines})\n{line}\n"))
}

/// An mct line with the first k lines as controls, of which the first so many
/// are negated.
fn mct(k: u8, negated: u8, target: u8) -> String {
    let controls: Vec<String> = (0..k)
        .map(|c| format!("{}{c}", if c < negated { "-" } else { "" }))
        .collect();
    format!("(mct ({}) {target})\n", controls.join(" "))
}

#[test]
fn one_negated_control() {
    let text = "(lines 2)\n(mct (-0) 1)\n";
    let list = [Gate::not(0), Gate::powered(2, 0, 1), Gate::not(0)];
    assert_eq!(expanded(text), list);
    let answer = "(lines 2)\n(not 0)\n(cn 0 1)\n(not 0)\n";
    assert_eq!(mapped(text), answer);
    assert_eq!(quoted(text), 3);
    assert_eq!(
        program_answer(Program::Map, text.as_bytes()),
        answer.as_bytes()
    );
    assert_eq!(
        program_answer(Program::Quote, text.as_bytes()),
        b"(quote 3)\n"
    );
}

/// The reduced list of `(mct (-0 -1) 2)`, by hand.
///
/// The expansion is `not 0` `not 1` `v 1 2` `cn 0 1` `vp 1 2` `cn 0 1` `v 0 2`
/// `not 0` `not 1`. Nothing merges: the two `not 0` have `cn 0 1` between them,
/// whose control is 0; the two `not 1` have `v 1 2`, whose control is 1; `v 1 2`
/// and `vp 1 2` have `cn 0 1`, whose target is their control; and so has `vp 1 2`,
/// between the two `cn 0 1`, their target as its control. So all nine stay.
///
/// The first in dictionary order takes, again and again, the least of the gates
/// that pass all those left before them:
/// - `not 0`, the least gate there is;
/// - `not 1`, of target 1, before `v 0 2`, of target 2, which `not 0` alone held;
/// - `v 0 2`, before `v 1 2`, which `not 1` held: the same target, control 0 first;
/// - `v 1 2`, the only one: it holds both `cn 0 1` and the last `not 1`;
/// - `cn 0 1`, the only one: it holds `vp 1 2` and the last `not 0`;
/// - `vp 1 2`, the only one: it holds the other `cn 0 1` and the last `not 1`;
/// - `not 1`, before `cn 0 1`, which it passes: the same target, a NOT first;
/// - `cn 0 1`, the only one: it holds the last `not 0`;
/// - `not 0`.
#[test]
fn two_negated_controls() {
    let text = "(lines 3)\n(mct (-0 -1) 2)\n";
    let expansion = [
        Gate::not(0),
        Gate::not(1),
        Gate::powered(1, 1, 2),
        Gate::powered(2, 0, 1),
        Gate::powered(3, 1, 2),
        Gate::powered(2, 0, 1),
        Gate::powered(1, 0, 2),
        Gate::not(0),
        Gate::not(1),
    ];
    assert_eq!(expanded(text), expansion);
    let list = "(lines 3)\n(not 0)\n(not 1)\n(v 0 2)\n(v 1 2)\n(cn 0 1)\n(vp 1 2)\n\
                (not 1)\n(cn 0 1)\n(not 0)\n";
    assert_eq!(mapped(text), list);
    assert_eq!(quoted(text), 9);
    assert_eq!(list, in_its_link_class(3, &expansion));
}

/// The reduced list as a text, by brute force: of all circuits that passes and
/// forward merges lead to, the first of the shortest. A shortest linked circuit
/// and this one lead by such steps to a common one, which is as short, so that
/// only passes lie between the two: the shortest linked ones are all among them.
fn in_its_link_class(lines: u8, start: &[Gate]) -> String {
    let mut known = std::collections::BTreeSet::from([start.to_vec()]);
    let mut due = vec![start.to_vec()];
    while let Some(gates) = due.pop() {
        for place in 1..gates.len() {
            let (a, b) = (gates[place - 1], gates[place]);
            let mut next = Vec::new();
            if a.passes(b) {
                next.push(vec![b, a]);
            }
            if a.merges(b) {
                next.push(a.merged(b).into_iter().collect());
            }
            for middle in next {
                let mut other = gates.clone();
                other.splice(place - 1..=place, middle);
                if known.insert(other.clone()) {
                    due.push(other);
                }
            }
        }
    }
    assert!(known.len() > 1);
    let gates = known.into_iter().min_by_key(Vec::len).unwrap();
    String::from_utf8(circuit_text(&Circuit { lines, gates })).unwrap()
}

#[test]
fn a_not_on_each_negated_line_before_and_after() {
    // The spare line is 0, which is no reason for a NOT on it.
    assert_eq!(
        expanded("(lines 14)\n(mct (-1 2 -12) 5)\n"),
        [
            &[Gate::not(1), Gate::not(12)],
            &expanded("(lines 14)\n(mct (1 2 12) 5)\n")[..],
            &[Gate::not(1), Gate::not(12)],
        ]
        .concat()
    );
    assert_eq!(
        expanded("(lines 14)\n(mct (-0 1 -12) 5)\n"),
        [
            &[Gate::not(0), Gate::not(12)],
            &expanded("(lines 14)\n(mct (0 1 12) 5)\n")[..],
            &[Gate::not(0), Gate::not(12)],
        ]
        .concat()
    );
    // Each gate has its own, and neighbours are not merged in the expansion.
    assert_eq!(
        expanded("(lines 3)\n(mct (-1) 0)\n(mct () 1)\n(mct (1 -2) 0)\n(mct (-2) 1)\n"),
        [
            Gate::not(1),
            Gate::powered(2, 1, 0),
            Gate::not(1),
            Gate::not(1),
            Gate::not(2),
            Gate::powered(1, 2, 0),
            Gate::powered(2, 1, 2),
            Gate::powered(3, 2, 0),
            Gate::powered(2, 1, 2),
            Gate::powered(1, 1, 0),
            Gate::not(2),
            Gate::not(2),
            Gate::powered(2, 2, 1),
            Gate::not(2),
        ]
    );
    // Rising order is that of the lines, not of their digits.
    assert_eq!(
        expanded("(lines 12)\n(mct (-9 -10) 11)\n")[..2],
        [Gate::not(9), Gate::not(10)]
    );
}

/// NOT and cn act on patterns, so that the expansion of a gate of one control can
/// be run on them.
#[test]
fn one_control_of_either_sign_has_its_pattern() {
    for lines in 2..=4u8 {
        for control in 0..lines {
            for target in (0..lines).filter(|&target| target != control) {
                for (sign, meets) in [("", 1), ("-", 0)] {
                    let text = format!("(lines {lines})\n(mct ({sign}{control}) {target})\n");
                    let gates = expanded(&text);
                    for start in 0..1u32 << lines {
                        let mut pattern = start;
                        for gate in &gates {
                            let held = gate.control().is_some_and(|c| pattern >> c & 1 == 0);
                            pattern ^= u32::from(!held) << gate.target();
                        }
                        let met = start >> control & 1 == meets;
                        assert_eq!(pattern, start ^ u32::from(met) << target);
                    }
                }
            }
        }
    }
}

#[test]
fn signs_in_form() {
    for line in [
        "(mct (-0) 1)",
        "(mct (-0 1 -12) 5)",
        "(mct (0 -1 12) 5)",
        "(mct (-0 -1 -12) 5)",
        "(mct (-10) 11)",
        "(mct (-13) 0)",
        "(mct () 0)",
    ] {
        let text = format!("(lines 14)\n{line}\n");
        assert!(mapped(&text).starts_with("(lines 14)\n"));
    }
    // An mct line of any k is in form: rule 6 answers here, not rule 3.
    let many = vec!["-3"; 1_000].join(" ");
    assert_eq!(line_refused(14, &format!("(mct ({many}) 5)")), (6, 2));
    assert_eq!(line_refused(14, "(mct (-99) 5)"), (4, 2));
}

#[test]
fn signs_that_are_malformed() {
    for line in [
        "(mct (--1) 5)",
        "(mct (---1) 5)",
        "(mct (- 1) 5)",
        "(mct (-01) 5)",
        "(mct (-00) 5)",
        "(mct (-) 5)",
        "(mct (0 -) 5)",
        "(mct (- 0) 5)",
        "(mct (-0-1) 5)",
        "(mct (0-1) 5)",
        "(mct (+1) 5)",
        "(mct (-+1) 5)",
        "(mct (+-1) 5)",
        "(mct (1-) 5)",
        "(mct (-1-) 5)",
        "(mct (1- 2) 5)",
        "(mct (-123) 5)",
        "(mct (-100) 5)",
        "(mct (-1a) 5)",
        "(mct ( -1) 5)",
        "(mct (-1 ) 5)",
        "(mct (0  -1) 5)",
        "(mct (0) -1)",
        "(mct (-0) -1)",
        "(mct () -0)",
        "(mct (0) 1-)",
        "(mct -(0) 1)",
        "(mct (0)- 1)",
        "(mct (0) - 1)",
        "-(mct (0) 1)",
        "(-mct (0) 1)",
        "(mct (0) 1)-",
        "(mct (\u{2212}0) 1)",
        "-",
        "-0",
    ] {
        assert_eq!(line_refused(14, line), (3, 2), "{line}");
    }
    for header in [
        "(lines -3)",
        "(lines -0)",
        "-(lines 3)",
        "(-lines 3)",
        "(lines 3-)",
        "(lines - 3)",
    ] {
        for job in [Job::Map, Job::Reduce] {
            assert_eq!(refused(job, &format!("{header}\n")), (3, 1), "{header}");
            let more = format!("{header}\n(mct (-0) 1)\n");
            assert_eq!(refused(job, &more), (3, 1), "{header}");
        }
    }
    // Cut within a sign, the text ends without byte 10.
    for cut in [
        "(lines 3)\n(mct (-",
        "(lines 3)\n(mct (-0",
        "(lines 3)\n(mct (-0) 1)",
    ] {
        assert_eq!(refused(Job::Map, cut), (3, 2));
    }
}

#[test]
fn a_sign_in_a_circuit_is_malformed() {
    for line in [
        "(not -0)",
        "(not --0)",
        "(cn -0 1)",
        "(cn 0 -1)",
        "(cn -0 -1)",
        "(v -0 1)",
        "(v 0 -1)",
        "(vp -0 1)",
        "(vp 0 -1)",
        "(-cn 0 1)",
        "-(cn 0 1)",
        "(mct (0) 1)",
        "(mct (-0) 1)",
    ] {
        let text = format!("(lines 3)\n(cn 0 1)\n{line}\n");
        assert_eq!(refused(Job::Reduce, &text), (3, 3), "{line}");
    }
    assert_eq!(
        refused(Job::Map, "(lines 3)\n(mct (-0) 1)\n(cn 0 1)\n"),
        (3, 3)
    );
}

#[test]
fn rules_4_to_8_do_not_see_the_sign() {
    // 4: no such line.
    assert_eq!(line_refused(7, "(mct (-7) 0)"), (4, 2));
    assert_eq!(line_refused(7, "(mct (-1 -7) 0)"), (4, 2));
    assert_eq!(line_refused(7, "(mct (-0) 7)"), (4, 2));
    assert_eq!(line_refused(1, "(mct (-1) 0)"), (4, 2));
    assert_eq!(line_refused(32, "(mct (-32) 0)"), (4, 2));
    // 5: crossed.
    assert_eq!(line_refused(3, "(mct (-2) 2)"), (5, 2));
    assert_eq!(line_refused(3, "(mct (-0) 0)"), (5, 2));
    assert_eq!(line_refused(3, "(mct (0 -2) 2)"), (5, 2));
    // 6: unsorted, by line.
    for controls in [
        "3 -3", "-3 3", "-3 -3", "-4 -3", "-4 3", "4 -3", "0 -0", "-0 0", "-0 -0", "-1 0", "1 -0",
        "-10 -9", "0 -4 3", "-0 -4 -3",
    ] {
        let line = format!("(mct ({controls}) 5)");
        assert_eq!(line_refused(14, &line), (6, 2), "{line}");
    }
    for controls in ["3 -4", "-3 4", "-3 -4", "-9 -10", "-0 1", "0 -1"] {
        assert!(mapped(&format!("(lines 14)\n(mct ({controls}) 5)\n")).len() > 11);
    }
    // 7: sixteen controls, whatever their signs; 8 where that holds too.
    for negated in [1, 8, 15, 16] {
        for (lines, number) in [(17, 8), (18, 7), (32, 7)] {
            let line = mct(16, negated, 16);
            assert_eq!(line_refused(lines, line.trim_end()), (number, 2));
        }
        assert!(quoted(&format!("(lines 17)\n{}", mct(15, negated.min(15), 15))) > 0);
    }
    // 8: three controls or more, negated ones counted too, and no line spare.
    for k in 3..=15 {
        for negated in 1..=k {
            assert_eq!(line_refused(k + 1, mct(k, negated, k).trim_end()), (8, 2));
        }
    }
    assert_eq!(quoted("(lines 3)\n(mct (-0 1) 2)\n"), 7);
    // The order of the rules.
    assert_eq!(line_refused(4, "(mct (-3 -1 -7) 1)"), (4, 2));
    assert_eq!(line_refused(4, "(mct (-3 -1 -1) 1)"), (5, 2));
    assert_eq!(line_refused(4, "(mct (-3 -1 -0) 2)"), (6, 2));
    assert_eq!(line_refused(4, "(mct (-0 -1 -3) 2)"), (8, 2));
    assert_eq!(line_refused(4, "(mct (-0 -1 -7) -2)"), (3, 2));
    // An earlier line is refused first, whatever its number.
    assert_eq!(
        refused(Job::Map, "(lines 4)\n(mct (-0 -1 -3) 2)\n(mct (--1) 2)\n"),
        (8, 2)
    );
}

#[test]
fn the_not_gates_count_in_rule_9() {
    let quoted_or = |gates: &[String]| {
        let text = format!("(lines 17)\n{}", gates.concat());
        match reader::read(Kind::Cascade, text.as_bytes()) {
            Ok(circuit) => {
                assert!(quoted(&text) as usize <= circuit.gates.len());
                Ok(circuit.gates.len())
            }
            Err(refusal) => {
                assert_eq!(refused(Job::Map, &text), (refusal.number, refusal.line));
                Err((refusal.number, refusal.line))
            }
        }
    };
    // Eleven gates of 15 controls are 4,092 gates. Two negated controls in all,
    // wherever they are, make 4,096; a third makes 4,098.
    let eleven = |negated: [u8; 11]| negated.map(|negated| mct(15, negated, 15)).to_vec();
    let one_of = |place: usize, negated: u8| {
        let mut all = [0; 11];
        all[place] = negated;
        all
    };
    assert_eq!(quoted_or(&eleven([0; 11])), Ok(4_092));
    for place in 0..11 {
        assert_eq!(quoted_or(&eleven(one_of(place, 1))), Ok(4_094));
        assert_eq!(quoted_or(&eleven(one_of(place, 2))), Ok(4_096));
        assert_eq!(quoted_or(&eleven(one_of(place, 3))), Err((9, 12)));
        assert_eq!(quoted_or(&eleven(one_of(place, 15))), Err((9, 12)));
    }
    let mut apart = [0; 11];
    (apart[0], apart[10]) = (1, 1);
    assert_eq!(quoted_or(&eleven(apart)), Ok(4_096));
    apart[5] = 1;
    assert_eq!(quoted_or(&eleven(apart)), Err((9, 12)));
    // All controls negated: ten gates are 4,020, and the eleventh goes past.
    assert_eq!(quoted_or(&eleven([15; 11])[..10]), Ok(4_020));
    assert_eq!(quoted_or(&eleven([15; 11])), Err((9, 12)));
    // The gates after these: each line of the text is tried with its own NOTs.
    let then = |negated: [u8; 11], more: &[&str]| {
        let more = more.iter().map(|line| format!("{line}\n"));
        quoted_or(&[eleven(negated), more.collect()].concat())
    };
    assert_eq!(then([0; 11], &["(mct (-0) 1)"]), Ok(4_095));
    assert_eq!(then([0; 11], &["(mct (-0) 1)", "(mct () 1)"]), Ok(4_096));
    assert_eq!(
        then([0; 11], &["(mct (-0) 1)", "(mct () 1)", "(mct () 1)"]),
        Err((9, 15))
    );
    assert_eq!(then([0; 11], &["(mct () 1)", "(mct (-0) 1)"]), Ok(4_096));
    assert_eq!(
        then([0; 11], &["(mct (0) 1)", "(mct () 1)", "(mct (-0) 1)"]),
        Err((9, 15))
    );
    assert_eq!(
        then(one_of(3, 1), &["(mct (0) 1)", "(mct () 1)"]),
        Ok(4_096)
    );
    assert_eq!(then(one_of(3, 1), &["(mct (-0) 1)"]), Err((9, 13)));
    assert_eq!(then(one_of(3, 2), &["(mct () 1)"]), Err((9, 13)));
    assert_eq!(then([0; 11], &["(mct (-0 -1) 2)"]), Err((9, 13)));
    assert_eq!(then([0; 11], &["(mct (0 1) 2)"]), Err((9, 13)));
}

#[test]
fn the_number_of_gates_with_signs() {
    let many = |line: &str, count: usize| format!("(lines 5)\n{}", line.repeat(count));
    // One gate and its repetition vanish: not 0, cn 0 1, not 0, twice.
    let one = "(mct (-0) 1)\n";
    assert_eq!(quoted(&many(one, 256)), 0);
    assert_eq!(quoted(&many(one, 255)), 3);
    assert_eq!(refused(Job::Map, &many(one, 257)), (9, 258));
    assert_eq!(refused(Job::Map, &many(one, 300)), (9, 258));
    // 256 gates of three controls are 4,096 gates; one sign, in whichever of
    // them, makes the last one go past.
    let three = "(mct (0 1 2) 3)\n";
    assert_eq!(expanded(&many(three, 256)).len(), 4_096);
    for place in [0, 1, 100, 255] {
        let mut gates = vec![three; 256];
        gates[place] = "(mct (0 -1 2) 3)\n";
        let text = format!("(lines 5)\n{}", gates.concat());
        assert_eq!(refused(Job::Map, &text), (9, 257));
        let (shorter, _) = text.split_at(text.len() - gates[255].len());
        assert_eq!(
            expanded(shorter).len(),
            255 * 16 + if place < 255 { 2 } else { 0 }
        );
    }
    // With one sign each they are of 18 gates: 227 are 4,086, and the 228th, on
    // line 229, goes past.
    let signed = "(mct (-0 1 2) 3)\n";
    assert_eq!(expanded(&many(signed, 227)).len(), 4_086);
    assert_eq!(refused(Job::Map, &many(signed, 228)), (9, 229));
    assert_eq!(refused(Job::Map, &many(signed, 256)), (9, 229));
}

#[test]
fn gates_with_signs_that_meet() {
    // The NOTs between two gates with the same sign vanish, and then what they
    // stood between does.
    assert_eq!(
        mapped("(lines 3)\n(mct (-0) 1)\n(mct (-0) 2)\n"),
        "(lines 3)\n(not 0)\n(cn 0 1)\n(cn 0 2)\n(not 0)\n"
    );
    assert_eq!(
        mapped("(lines 2)\n(mct (-0) 1)\n(mct (-0) 1)\n"),
        "(lines 2)\n"
    );
    // With the other sign they stay: passes and merges do not find that the two
    // together are a NOT.
    assert_eq!(
        mapped("(lines 2)\n(mct (0) 1)\n(mct (-0) 1)\n"),
        "(lines 2)\n(cn 0 1)\n(not 0)\n(cn 0 1)\n(not 0)\n"
    );
    // A NOT that is written as a gate undoes one of a sign.
    assert_eq!(
        mapped("(lines 2)\n(mct () 0)\n(mct (-0) 1)\n"),
        "(lines 2)\n(cn 0 1)\n(not 0)\n"
    );
}

#[test]
fn the_counts_of_the_expansion_with_signs() {
    let counts = [
        1, 1, 5, 16, 24, 46, 68, 84, 100, 144, 188, 232, 276, 308, 340, 372,
    ];
    for (k, count) in counts.into_iter().enumerate() {
        for negated in 0..=k {
            let gate = mct(k as u8, negated as u8, 15);
            assert_eq!(
                expanded(&format!("(lines 17)\n{gate}")).len(),
                count + 2 * negated
            );
        }
    }
}
