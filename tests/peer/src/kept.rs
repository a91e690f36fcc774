//! Kept lines (order 8). Every expected value is written out here from the order's
//! sentences; expansions are put together by hand, with the spare that each gate takes.

use super::*;
use crate::examples::{mapped, quoted, refused};
use crate::spares::{cn, expanded, made, mapped_as, ten_controls_with_spare_11, toffoli};

/// An mct line without signs.
fn mct(controls: &[u8], target: u8) -> String {
    format!("(mct ({}) {target})\n", words(controls))
}

/// The first k lines as controls.
fn first(k: u8, target: u8) -> String {
    let controls: Vec<u8> = (0..k).collect();
    mct(&controls, target)
}

fn keep(lines: &[u8]) -> String {
    format!("(keep {})\n", words(lines))
}

fn words(numbers: &[u8]) -> String {
    let words: Vec<String> = numbers.iter().map(u8::to_string).collect();
    words.join(" ")
}

/// The lines of a set, a bit for each.
fn lines_of(set: u32) -> Vec<u8> {
    (0..32).filter(|line| set >> line & 1 == 1).collect()
}

/// Number and line of a cascade with this line 2.
fn line_2_refused(lines: u8, line: &str) -> (u64, u64) {
    refused(Job::Map, &format!("(lines {lines})\n{line}\n"))
}

/// The only unnamed line is kept.
#[test]
fn five_lines_and_no_spare_left() {
    let text = "(lines 5)\n(keep 4)\n(mct (0 1 2) 3)\n";
    assert_eq!(refused(Job::Map, text), (8, 3));
    for program in [Program::Map, Program::Quote] {
        let answer = program_answer(program, text.as_bytes());
        assert_eq!(answer, b"(turned-away 8 3)\n");
    }
    // Without the keep line, or with another line kept, there is a spare.
    assert_eq!(quoted("(lines 5)\n(mct (0 1 2) 3)\n"), 14);
    for kept in ["0", "3", "0 1 2 3"] {
        assert_eq!(
            quoted(&format!("(lines 5)\n(keep {kept})\n(mct (0 1 2) 3)\n")),
            14
        );
    }
    // Four lines have none, whatever is kept.
    assert_eq!(
        refused(Job::Map, "(lines 4)\n(keep 0)\n(mct (0 1 2) 3)\n"),
        (8, 3)
    );
}

/// Of the unnamed lines 4 and 5 the first is kept, so the spare is 5: M0 is `cn 0 5`, M1
/// the gate on 5 with the controls 1 and 2.
///
/// In the reduced list the second `cn 1 2` of M1 and the first of M3 are gone: all gates
/// between them have target 5 or 3 and control 0, 1 or 5, so the two meet and vanish. Of
/// the others the least that passes all before it is taken again and again. Gates on 5
/// and the gates `v 5 3` and `vp 5 3` hold each other, and so do `cn 1 2` and the gates
/// of control 2; so only the gate of control 1 on 5 goes before another, in M1 (in M3 it
/// stands first already).
#[test]
fn six_lines_and_the_next_spare() {
    let text = "(lines 6)\n(keep 4)\n(mct (0 1 2) 3)\n";
    let by_hand = "(lines 6)\n\
        (v 5 3)\n\
        (cn 0 5)\n\
        (vp 5 3)\n\
        (v 2 5)\n(cn 1 2)\n(vp 2 5)\n(cn 1 2)\n(v 1 5)\n\
        (v 5 3)\n\
        (cn 0 5)\n\
        (vp 5 3)\n\
        (vp 1 5)\n(cn 1 2)\n(v 2 5)\n(cn 1 2)\n(vp 2 5)\n";
    let circuit = reader::read(Kind::Circuit, by_hand.as_bytes()).unwrap_or_else(|_| panic!());
    assert_eq!(circuit.gates.len(), 16);
    assert_eq!(expanded(text), circuit.gates);
    let answer = "(lines 6)\n(v 5 3)\n(cn 0 5)\n(vp 5 3)\n(v 1 5)\n(v 2 5)\n(cn 1 2)\n(vp 2 5)\n\
        (v 5 3)\n(cn 0 5)\n(vp 5 3)\n(vp 1 5)\n(v 2 5)\n(cn 1 2)\n(vp 2 5)\n";
    assert_eq!(mapped(text), answer);
    assert_eq!(quoted(text), 14);
    let written = program_answer(Program::Map, text.as_bytes());
    assert_eq!(written, answer.as_bytes());
    let written = program_answer(Program::Quote, text.as_bytes());
    assert_eq!(written, b"(quote 14)\n");
}

/// The spares of `(mct (0 1 2 3 4) 5)` on eight lines are 6 and 7. M1 is on the spare
/// taken, with the controls 2, 3 and 4, and has the other spare, then 0 and 1.
#[test]
fn a_kept_line_that_the_gate_names_is_borrowed() {
    let gate = "(mct (0 1 2 3 4) 5)\n";
    let made_with = |s, s1| {
        let m1 = made(s1, s, cn(2, s1), toffoli(3, 4, s1));
        made(s, 5, toffoli(0, 1, s), m1)
    };
    let cases: [(&str, (u8, u8)); 9] = [
        // 7 is kept: M1 takes 0, which the gate names, kept or not.
        ("7", (6, 0)),
        ("0 7", (6, 0)),
        ("0 1 2 3 4 5 7", (6, 0)),
        ("1 7", (6, 0)),
        // 6 is kept: the gate takes 7.
        ("6", (7, 0)),
        ("0 6", (7, 0)),
        // Only lines that the gate names: as without the keep line.
        ("0", (6, 7)),
        ("0 1 2 3 4 5", (6, 7)),
        ("5", (6, 7)),
    ];
    for (kept, (s, s1)) in cases {
        let text = format!("(lines 8)\n(keep {kept})\n{gate}");
        mapped_as(&text, &made_with(s, s1));
    }
    assert_eq!(
        refused(Job::Map, &format!("(lines 8)\n(keep 6 7)\n{gate}")),
        (8, 3)
    );
    // On seven lines with line 0 kept, as well.
    mapped_as(&format!("(lines 7)\n(keep 0)\n{gate}"), &made_with(6, 0));
    // Line 0 is then the target of gates of the list.
    let answer = mapped(&format!("(lines 7)\n(keep 0)\n{gate}"));
    assert!(answer.contains("(cn 2 0)\n"));
}

/// Ten controls, and 11 the only spare left of 11 and 12: M0 takes t, which is 10; its
/// M1 takes 5, the first of C1; M1 takes 0, and its own M1 takes 1. All of these are
/// kept, and the gate names them.
#[test]
fn the_target_and_controls_of_either_half_are_borrowed() {
    let gate = ten_controls_with_spare_11();
    for kept in [
        "12",
        "10 12",
        "0 1 5 10 12",
        "0 1 2 3 4 5 6 7 8 9 10 12",
        "5 12",
    ] {
        let text = format!("(lines 13)\n(keep {kept})\n{}", first(10, 10));
        mapped_as(&text, &gate);
    }
}

/// Fifteen controls with 16 to 19 unnamed: as many spares are left as are not kept, and
/// with three or four the list is the same. With the spares a and b, M1 of M0 takes b,
/// M1 takes b, and M1 of M1 the next one, or the first of C0; with a alone these are the
/// first of C1, and the first and second of C0.
#[test]
fn fifteen_controls_and_kept_lines() {
    let gate = |s, s1, s2, s3| {
        let m0 = made(
            15,
            s,
            made(s, 15, cn(0, s), toffoli(1, 2, s)),
            made(s1, 15, toffoli(3, 4, s1), toffoli(5, 6, s1)),
        );
        let m1 = made(
            s2,
            s,
            made(s, s2, toffoli(7, 8, s), toffoli(9, 10, s)),
            made(s3, s2, toffoli(11, 12, s3), toffoli(13, 14, s3)),
        );
        made(s, 15, m0, m1)
    };
    let text = |kept: &str| format!("(lines 20)\n(keep {kept})\n{}", first(15, 15));
    mapped_as(&text("17 18 19"), &gate(16, 7, 0, 1));
    mapped_as(&text("16 17 18"), &gate(19, 7, 0, 1));
    mapped_as(&text("0 1 7 16 18 19"), &gate(17, 7, 0, 1));
    mapped_as(&text("16 18"), &gate(17, 19, 19, 0));
    mapped_as(&text("0 15 17 19"), &gate(16, 18, 18, 0));
    mapped_as(&text("16"), &gate(17, 18, 18, 19));
    mapped_as(&text("19"), &gate(16, 17, 17, 18));
    mapped_as(&text("0 7 15"), &gate(16, 17, 17, 18));
    assert_eq!(refused(Job::Map, &text("16 17 18 19")), (8, 3));
    assert_eq!(refused(Job::Map, &text("0 16 17 18 19")), (8, 3));
}

/// The kept set holds for every gate, and which of the kept lines a gate names is its
/// own matter.
#[test]
fn each_gate_has_its_own_spares() {
    let text = "(lines 7)\n(keep 5 6)\n(mct (0 1 2) 3)\n(mct (0 1 5) 6)\n(mct (0 1 2) 5)\n\
                (mct (6) 5)\n(mct (0 1 2) 3)\n";
    let gates = [
        made(4, 3, cn(0, 4), toffoli(1, 2, 4)),
        made(2, 6, cn(0, 2), toffoli(1, 5, 2)),
        made(3, 5, cn(0, 3), toffoli(1, 2, 3)),
        cn(6, 5),
        made(4, 3, cn(0, 4), toffoli(1, 2, 4)),
    ];
    mapped_as(text, &gates.concat());
    // A line that one gate names is not a spare of another.
    let text = "(lines 5)\n(keep 4)\n(mct (0 1 2) 4)\n(mct (0 1) 2)\n";
    let gates = made(3, 4, cn(0, 3), toffoli(1, 2, 3));
    mapped_as(text, &[gates, toffoli(0, 1, 2)].concat());
    let more = format!("{text}(mct (0 1 2) 3)\n");
    assert_eq!(refused(Job::Map, &more), (8, 5));
}

/// All gates of three and four controls on four to six lines with all kept sets: the
/// spare is the lowest line that is neither named nor kept, and without one it is 8. No
/// gate touches a kept line that is not named.
#[test]
fn every_kept_set_on_few_lines() {
    let mut numbers = [0; 9];
    for lines in 4..=6u8 {
        let all = (1u32 << lines) - 1;
        for named in 0..=all {
            if !(4..=5).contains(&named.count_ones()) {
                continue;
            }
            for kept in 1..=all {
                for t in lines_of(named) {
                    let number = one_gate(lines, named, kept, t);
                    numbers[number as usize] += 1;
                }
            }
        }
    }
    // Four or five named lines of four to six, each as target; kept sets that have all
    // others, and those that do not.
    let refused = 4 * 15 + 20 * 16 + 5 * 31 + 60 * 16 + 30 * 32;
    assert_eq!(numbers[8], refused);
    assert_eq!(numbers[0], 20 * 15 + 60 * 47 + 30 * 31);
}

/// Checks one gate at line 3, and gives its number.
fn one_gate(lines: u8, named: u32, kept: u32, t: u8) -> u64 {
    let controls = lines_of(named & !(1 << t));
    let text = format!(
        "(lines {lines})\n{}{}",
        keep(&lines_of(kept)),
        mct(&controls, t)
    );
    let spare = (0..lines).find(|line| (named | kept) >> line & 1 == 0);
    match (reader::read(Kind::Cascade, text.as_bytes()), spare) {
        (Err(refusal), None) => {
            assert_eq!((refusal.number, refusal.line), (8, 3), "{text}");
            8
        }
        (Ok(circuit), Some(s)) => {
            let gate = match controls[..] {
                [a, b, c] => made(s, t, cn(a, s), toffoli(b, c, s)),
                [a, b, c, d] => made(s, t, toffoli(a, b, s), toffoli(c, d, s)),
                _ => unreachable!(),
            };
            assert_eq!(circuit.gates, gate, "{text}");
            let touched = circuit.gates.iter().fold(0, |touched, gate| {
                touched | 1 << gate.target() | gate.control().map_or(0, |control| 1 << control)
            });
            assert_eq!(touched & kept & !named, 0, "{text}");
            0
        }
        _ => panic!("{text}"),
    }
}

#[test]
fn signs_on_kept_lines() {
    assert_eq!(
        mapped("(lines 3)\n(keep 0 2)\n(mct (-0) 1)\n"),
        "(lines 3)\n(not 0)\n(cn 0 1)\n(not 0)\n"
    );
    let nots = vec![Gate::not(0), Gate::not(2)];
    let gate = made(5, 3, cn(0, 5), toffoli(1, 2, 5));
    let text = "(lines 7)\n(keep 0 4 6)\n(mct (-0 1 -2) 3)\n";
    mapped_as(text, &[nots.clone(), gate, nots].concat());
    let text = "(lines 5)\n(keep 4)\n(mct (-0 1 -2) 3)\n";
    assert_eq!(refused(Job::Map, text), (8, 3));
}

/// No spare is needed below three controls: all lines may be kept.
#[test]
fn all_lines_kept() {
    assert_eq!(mapped("(lines 3)\n(keep 0 1 2)\n"), "(lines 3)\n");
    assert_eq!(quoted("(lines 1)\n(keep 0)\n"), 0);
    let all: Vec<u8> = (0..32).collect();
    assert_eq!(
        mapped(&format!("(lines 32)\n{}", keep(&all))),
        "(lines 32)\n"
    );
    assert_eq!(
        mapped("(lines 3)\n(keep 0 1 2)\n(mct (0 1) 2)\n"),
        "(lines 3)\n(v 0 2)\n(v 1 2)\n(cn 0 1)\n(vp 1 2)\n(cn 0 1)\n"
    );
    assert_eq!(quoted("(lines 3)\n(keep 0 1 2)\n(mct () 1)\n"), 1);
    for lines in 4..=32u8 {
        let all: Vec<u8> = (0..lines).collect();
        let text = format!("(lines {lines})\n{}{}", keep(&all), first(3, 3));
        assert_eq!(refused(Job::Map, &text), (8, 3));
    }
}

/// Rule 8 is tried before 7: 0 to 31 controls on all lines that there may be, with all
/// unnamed lines kept, all but one, and none but one that is named.
#[test]
fn rules_8_and_7() {
    let mut numbers = [0; 9];
    for lines in 1..=32u8 {
        for k in 0..lines {
            let unnamed: Vec<u8> = (k + 1..lines).collect();
            let mut judged = |kept: &[u8], spares: usize| {
                let due = match k {
                    3.. if spares == 0 => 8,
                    16.. => 7,
                    _ => 0,
                };
                let text = format!("(lines {lines})\n{}{}", keep(kept), first(k, k));
                let number = match reader::read(Kind::Cascade, text.as_bytes()) {
                    Ok(_) => 0,
                    Err(Refusal { number, line }) => {
                        assert_eq!(line, 3);
                        number
                    }
                };
                assert_eq!(number, due, "{text}");
                numbers[due as usize] += 1;
            };
            if !unnamed.is_empty() {
                judged(&unnamed, 0);
            }
            if unnamed.len() > 1 {
                judged(&unnamed[1..], 1);
                judged(&unnamed[..unnamed.len() - 1], 1);
            }
            judged(&[k], unnamed.len());
        }
    }
    // Shapes with at least one unnamed line, and with three controls or more: 406; and 29
    // without an unnamed line.
    assert_eq!(numbers[8], 406 + 29);
    // From 16 controls on: 105 shapes with two unnamed lines or more, each twice, and 120
    // with one or more.
    assert_eq!(numbers[7], 2 * 105 + 120);
    assert_eq!(refused(Job::Map, &wide("17")), (8, 3));
    assert_eq!(refused(Job::Map, &wide("16")), (7, 3));
    assert_eq!(refused(Job::Map, &wide("0 17")), (8, 3));
}

/// Sixteen controls on 18 lines, of which 17 is unnamed.
fn wide(kept: &str) -> String {
    format!("(lines 18)\n(keep {kept})\n{}", first(16, 16))
}

#[test]
fn rule_9_counts_the_mct_lines() {
    let many = |head: &str, line: &str, count: usize| format!("{head}{}", line.repeat(count));
    let one = "(mct (0) 1)\n";
    for (head, past) in [
        ("(lines 2)\n", 258),
        ("(lines 2)\n(keep 0)\n", 259),
        ("(lines 2)\n(keep 0 1)\n", 259),
    ] {
        assert_eq!(quoted(&many(head, one, 256)), 0);
        assert_eq!(quoted(&many(head, one, 255)), 1);
        assert_eq!(refused(Job::Map, &many(head, one, 257)), (9, past));
        assert_eq!(refused(Job::Map, &many(head, one, 300)), (9, past));
        let full = many(head, one, 256);
        assert_eq!(
            refused(Job::Map, &format!("{full}(keep 0)\n")),
            (3, past),
            "no mct line"
        );
    }
    // 256 gates of three controls are 4,096 gates, with the spare 4 and with 5.
    let three = "(mct (0 1 2) 3)\n";
    for (head, past) in [("(lines 5)\n", 257), ("(lines 6)\n(keep 4)\n", 258)] {
        let text = many(head, three, 256);
        assert_eq!(expanded(&text).len(), 4_096);
        assert_eq!(refused(Job::Map, &(text.clone() + three)), (9, past + 1));
        let signed = text.replacen("(0 1", "(0 -1", 1);
        assert_eq!(refused(Job::Map, &signed), (9, past));
    }
    // Eleven gates of 15 controls are 4,092.
    let head = "(lines 18)\n(keep 3 17)\n";
    let wide = first(15, 15);
    assert_eq!(expanded(&many(head, &wide, 11)).len(), 4_092);
    assert_eq!(refused(Job::Map, &many(head, &wide, 12)), (9, 14));
    let text = many(head, &wide, 11) + &"(mct () 17)\n".repeat(4);
    assert_eq!(expanded(&text).len(), 4_096);
    assert_eq!(
        refused(Job::Map, &format!("{text}(mct () 17)\n")),
        (9, 3 + 15)
    );
    // 8 and 7 come before it.
    let text = many("(lines 19)\n(keep 17 18)\n", one, 256);
    assert_eq!(
        refused(Job::Map, &(text.clone() + &first(16, 16))),
        (8, 259)
    );
    assert_eq!(refused(Job::Map, &(text.clone() + &first(3, 3))), (9, 259));
    let text = many("(lines 19)\n(keep 17)\n", one, 256);
    assert_eq!(refused(Job::Map, &(text + &first(16, 16))), (7, 259));
}

#[test]
fn rules_3_4_and_6_of_a_keep_line() {
    for (lines, line) in [
        (3, "(keep 3)"),
        (3, "(keep 0 3)"),
        (3, "(keep 99)"),
        (1, "(keep 1)"),
        (32, "(keep 32)"),
        (11, "(keep 9 10 11)"),
        // Unsorted as well, before or after the number that is too large.
        (3, "(keep 3 0)"),
        (3, "(keep 3 3)"),
        (3, "(keep 1 0 3)"),
        (3, "(keep 0 0 99)"),
        (3, "(keep 2 1 0 3 2 1 0)"),
    ] {
        assert_eq!(line_2_refused(lines, line), (4, 2), "{line}");
    }
    for (lines, line) in [
        (3, "(keep 0 0)"),
        (3, "(keep 1 0)"),
        (3, "(keep 0 2 1)"),
        (3, "(keep 0 1 1)"),
        (3, "(keep 0 1 2 0)"),
        (12, "(keep 10 9)"),
        (12, "(keep 9 10 10)"),
        (32, "(keep 31 30)"),
    ] {
        assert_eq!(line_2_refused(lines, line), (6, 2), "{line}");
    }
    for (lines, line) in [(3, "(keep 3 0 -1)"), (3, "(keep 9 9 09)"), (3, "(keep 7 )")] {
        assert_eq!(line_2_refused(lines, line), (3, 2), "{line}");
    }
    for (lines, line) in [
        (1, "(keep 0)"),
        (12, "(keep 0 3 11)"),
        (12, "(keep 9 10)"),
        (32, "(keep 31)"),
    ] {
        assert_eq!(quoted(&format!("(lines {lines})\n{line}\n")), 0, "{line}");
    }
    // Lists of any length are in form.
    let many = |last: &str| format!("(keep {}{last})", "0 ".repeat(1_000));
    assert_eq!(line_2_refused(3, &many("1")), (6, 2));
    assert_eq!(line_2_refused(3, &many("3")), (4, 2));
    assert_eq!(line_2_refused(3, &many("-1")), (3, 2));
    // Line 1 comes first, then line 2, then the others.
    assert_eq!(refused(Job::Map, "(lines 33)\n(keep 40)\n"), (4, 1));
    assert_eq!(refused(Job::Map, "(lines 0)\n(keep)\n"), (4, 1));
    assert_eq!(refused(Job::Map, "(lines 3)\n(keep 1 0)\n(mct\n"), (6, 2));
    assert_eq!(refused(Job::Map, "(lines 3)\n(keep 3)\n(mct\n"), (4, 2));
    assert_eq!(refused(Job::Map, "(lines 3)\n(keep 2)\n(mct\n"), (3, 3));
    assert_eq!(
        refused(Job::Map, "(lines 3)\n(keep 2)\n(mct (0) 3)\n"),
        (4, 3)
    );
    assert_eq!(
        refused(Job::Map, "(lines 3)\n(keep 2)\n(mct (0) 0)\n"),
        (5, 3)
    );
    assert_eq!(
        refused(Job::Map, "(lines 3)\n(keep 2)\n(mct (1 0) 2)\n"),
        (6, 3)
    );
}

#[test]
fn keep_lines_that_are_malformed() {
    for line in [
        "(keep)",
        "(keep )",
        "(keep  0)",
        "(keep 0 )",
        "(keep 0  1)",
        "( keep 0)",
        "(keep ,0)",
        "(keep 0,1)",
        "(keep -0)",
        "(keep -1)",
        "(keep 0 -1)",
        "(keep --1)",
        "(keep - 1)",
        "(keep +1)",
        "(keep 0-1)",
        "(keep 0-)",
        "(keep 00)",
        "(keep 01)",
        "(keep 0 01)",
        "(keep 100)",
        "(keep 0 123)",
        "(keep 0 1a)",
        "(keep a)",
        "(keep (0))",
        "(keep (0 1))",
        "(keep () 0)",
        "(keep (0) 1)",
        "(Keep 0)",
        "(KEEP 0)",
        "(kept 0)",
        "(kee 0)",
        "(keeps 0)",
        "(eep 0)",
        "(keep0)",
        "(keep 0",
        "keep 0)",
        "keep 0",
        "-(keep 0)",
        "((keep 0)",
        "(keep 0))",
        "(keep 0) ",
        " (keep 0)",
        "(keep 0)\r",
        "(keep\t0)",
        "(keep 0\t1)",
        "(keep 0\0)",
        "(keep 0)(keep 1)",
        "(keep 0) (mct () 1)",
        "(lines 14)",
        "(keep \u{0660})",
        "",
    ] {
        assert_eq!(line_2_refused(14, line), (3, 2), "{line:?}");
        let more = format!("{line}\n(mct (0 1) 2)");
        assert_eq!(line_2_refused(14, &more), (3, 2), "{line:?}");
    }
}

/// All cuts of a text with a keep line: accepted are those after a line's end.
#[test]
fn every_cut() {
    let text = "(lines 12)\n(keep 0 3 11)\n(mct (0) 1)\n";
    let mut accepted = 0;
    for end in 0..=text.len() {
        let cut = &text[..end];
        let line = 1 + cut.matches('\n').count() as u64;
        if cut.ends_with('\n') {
            assert_eq!(quoted(cut), u64::from(line == 4));
            accepted += 1;
        } else {
            assert_eq!(refused(Job::Map, cut), (3, line));
        }
    }
    assert_eq!(accepted, 3);
}

/// A keep line stands on line 2 or nowhere.
#[test]
fn a_keep_line_elsewhere_is_malformed() {
    for (text, line) in [
        ("(keep 0)\n", 1),
        ("(keep 0)\n(lines 3)\n", 1),
        ("(lines 3)\n(keep 0)\n(keep 0)\n", 3),
        ("(lines 3)\n(keep 0)\n(keep 1)\n(mct (0 1) 2)\n", 3),
        ("(lines 3)\n(mct (0 1) 2)\n(keep 0)\n", 3),
        ("(lines 3)\n(mct () 2)\n(mct () 2)\n(keep 0)\n", 4),
        ("(lines 3)\n(keep 0)\n(mct () 2)\n(keep 0)\n", 4),
        ("(lines 3)\n\n(keep 0)\n", 2),
        // Rules 4 and 6 are not reached.
        ("(lines 3)\n(mct () 2)\n(keep 3)\n", 3),
        ("(lines 3)\n(keep 0)\n(keep 1 0)\n", 3),
    ] {
        assert_eq!(refused(Job::Map, text), (3, line), "{text}");
    }
}

/// In a circuit text a keep line is malformed, wherever it stands and whatever it names.
#[test]
fn a_keep_line_in_a_circuit_is_malformed() {
    let good = "(lines 3)\n(cn 0 1)\n";
    for (text, line) in [
        ("(lines 3)\n(keep 0)\n", 2),
        ("(lines 3)\n(keep 0)\n(cn 0 1)\n", 2),
        ("(lines 3)\n(keep 2)\n(mct (0) 1)\n", 2),
        ("(lines 3)\n(keep 3)\n", 2),
        ("(lines 3)\n(keep 1 0)\n", 2),
        ("(lines 3)\n(keep)\n", 2),
        ("(lines 3)\n(cn 0 1)\n(keep 0)\n", 3),
        ("(lines 3)\n(keep 0)\n(not 3)\n", 2),
    ] {
        for job in [Job::Reduce, Job::Invert] {
            assert_eq!(refused(job, text), (3, line), "{text}");
        }
        let due = |which| format!("(turned-away 3 {line} {which})\n").into_bytes();
        let [good, text] = [good, text].map(str::as_bytes);
        for answer in [comparison::answer, joining::answer] {
            assert_eq!(answer(text, good), due(1));
            assert_eq!(answer(good, text), due(2));
            assert_eq!(answer(text, text), due(1));
        }
    }
    assert_eq!(refused(Job::Reduce, "(lines 33)\n(keep 0)\n"), (4, 1));
}

/// The longest text, and one byte more.
#[test]
fn a_keep_line_of_60_000_bytes() {
    let text = |last: &str| format!("(lines 32)\n(keep 0{}{last})\n", " 0".repeat(29_989));
    assert_eq!(text(" 1").len(), 60_000);
    assert_eq!(refused(Job::Map, &text(" 1")), (6, 2));
    assert_eq!(refused(Job::Map, &text(" -")), (3, 2));
    assert_eq!(refused(Job::Map, &text(" 10")), (1, 0));
}
