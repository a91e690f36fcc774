//! Too wide against no spare (order 6): of a line that passes rules 3 to 6, rule 8 is
//! tried before rule 7. Every expected number is worked out here from the number of
//! controls k and that of lines n.

use super::*;
use crate::examples::{quoted, refused};

/// Gates of the expansion of 0 to 15 controls.
const COUNTS: [usize; 16] = [
    1, 1, 5, 16, 24, 46, 68, 84, 100, 144, 188, 232, 276, 308, 340, 372,
];

/// Which controls have a minus sign: none, all, or every other one.
const SIGNS: [fn(usize) -> bool; 3] = [|_| false, |_| true, |place| place % 2 == 0];

/// An mct line, its controls in the order given.
fn mct(controls: &[u8], target: u8, signed: fn(usize) -> bool) -> String {
    let words: Vec<String> = (0..)
        .zip(controls)
        .map(|(place, control)| format!("{}{control}", if signed(place) { "-" } else { "" }))
        .collect();
    format!("(mct ({}) {target})\n", words.join(" "))
}

/// The first k lines as controls, without signs.
fn first(k: u8, target: u8) -> String {
    let controls: Vec<u8> = (0..k).collect();
    mct(&controls, target, |_| false)
}

/// The numbers that rules 7 and 8 give, with 8 first.
fn due(k: usize, n: usize) -> Option<u64> {
    if k >= 3 && n == k + 1 {
        Some(8)
    } else if k > 15 {
        Some(7)
    } else {
        None
    }
}

/// Whether the reader gives a text of one gate its number at line 2, or expands it.
fn judged(n: u8, k: usize, line: &str) -> Option<u64> {
    let text = format!("(lines {n})\n{line}");
    let due = due(k, usize::from(n));
    match reader::read(Kind::Cascade, text.as_bytes()) {
        Err(refusal) => assert_eq!((Some(refusal.number), refusal.line), (due, 2), "{text}"),
        Ok(circuit) => {
            let nots = 2 * line.matches('-').count();
            let gates = circuit.gates.len();
            assert_eq!((None, gates), (due, COUNTS[k] + nots), "{text}");
        }
    }
    due
}

/// All choices of so many of the lines below n, at most two.
fn choices(n: u8, count: usize) -> Vec<Vec<u8>> {
    match count {
        0 => vec![vec![]],
        1 => (0..n).map(|line| vec![line]).collect(),
        _ => (0..n)
            .flat_map(|low| (low + 1..n).map(move |high| vec![low, high]))
            .collect(),
    }
}

/// Gates of 14 to 18 controls with none, one and two lines unnamed, whichever these
/// are, with each other line as target.
#[test]
fn around_sixteen_controls() {
    // How many there are with each number, for so many lines unnamed.
    let mut numbers = [[0; 9]; 3];
    for k in 14..=18 {
        for unnamed in 0..=2 {
            let n = (k + 1 + unnamed) as u8;
            for without in choices(n, unnamed) {
                let named: Vec<u8> = (0..n).filter(|line| !without.contains(line)).collect();
                for place in 0..=k {
                    let mut controls = named.clone();
                    let target = controls.remove(place);
                    for signed in SIGNS {
                        let line = mct(&controls, target, signed);
                        let number = judged(n, k, &line).unwrap_or(0);
                        numbers[unnamed][number as usize] += 1;
                        if number > 0 && (unnamed == 0 || place == k / 2) {
                            let text = format!("(lines {n})\n{line}");
                            assert_eq!(refused(Job::Map, &text), (number, 2));
                        }
                    }
                }
            }
        }
    }
    // Targets, and choices of the unnamed lines, on n lines; three kinds of signs.
    let of = |number: usize| numbers.map(|numbers| numbers[number]);
    assert_eq!(of(8), [3 * (15 + 16 + 17 + 18 + 19), 0, 0]);
    let one = 18 * 17 + 19 * 18 + 20 * 19;
    let two = 171 * 17 + 190 * 18 + 210 * 19;
    assert_eq!(of(7), [0, 3 * one, 3 * two]);
    let one = 16 * 15 + 17 * 16;
    let two = 136 * 15 + 153 * 16;
    assert_eq!(of(0), [0, 3 * one, 3 * two]);
}

/// Every number of controls on every number of lines, the named lines lowest and
/// highest.
#[test]
fn every_shape() {
    let mut numbers = [0; 9];
    let mut narrow = 0;
    for n in 1..=32u8 {
        for k in 0..usize::from(n) {
            let named = k as u8 + 1;
            let shape = due(k, usize::from(n)).unwrap_or(0) as usize;
            numbers[shape] += 1;
            narrow += usize::from(shape == 8 && k <= 15);
            for all in [(0..named), (n - named..n)] {
                for place in [0, k / 2, k] {
                    let mut controls: Vec<u8> = all.clone().collect();
                    let target = controls.remove(place);
                    for signed in SIGNS {
                        judged(n, k, &mct(&controls, target, signed));
                    }
                }
            }
        }
    }
    // 8 from 3 controls on 4 lines to 31 on 32, and of these as before up to 15 on 16;
    // 7 from 16 controls on 18 lines to 30 on 32. Together 528 shapes.
    assert_eq!((numbers[8], narrow), (29, 13));
    assert_eq!(numbers[7], (1..=15).sum());
    assert_eq!(numbers[0], 528 - 29 - 120);
}

#[test]
fn the_ends_of_the_rules() {
    let refused = |n: u8, k: u8| refused(Job::Map, &format!("(lines {n})\n{}", first(k, k)));
    // The example of document 01, and the widest gates there are.
    assert_eq!(refused(17, 16), (8, 2));
    assert_eq!(refused(18, 16), (7, 2));
    assert_eq!(refused(32, 31), (8, 2));
    assert_eq!(refused(32, 30), (7, 2));
    assert_eq!(refused(32, 16), (7, 2));
    // Below 16 controls, as before.
    assert_eq!(refused(16, 15), (8, 2));
    assert_eq!(refused(15, 14), (8, 2));
    assert_eq!(refused(4, 3), (8, 2));
    let quoted = |n: u8, k: u8| quoted(&format!("(lines {n})\n{}", first(k, k)));
    assert_eq!(quoted(17, 15), 250);
    assert_eq!(quoted(3, 2), 5);
    assert_eq!(quoted(2, 1), 1);
    assert_eq!(quoted(1, 0), 1);
}

/// The programs, and reduce, in whose texts a gate of a cascade has no form.
#[test]
fn the_programs() {
    for (n, k, number) in [(17, 16, 8), (18, 16, 7), (32, 31, 8), (32, 30, 7)] {
        let text = format!("(lines {n})\n{}", first(k, k));
        let due = format!("(turned-away {number} 2)\n").into_bytes();
        for program in [Program::Map, Program::Quote] {
            assert_eq!(program_answer(program, text.as_bytes()), due);
        }
        assert_eq!(refused(Job::Reduce, &text), (3, 2));
    }
}

/// With 16 controls or more that name every line, or all but one, but for one number
/// or one byte: rules 3 to 6 come before 8 and 7.
#[test]
fn rules_3_to_6_come_first() {
    let mut numbers = [0; 7];
    for (n, k) in [(17, 16), (18, 16), (18, 17), (32, 31), (32, 30)] {
        let mut due = |line: &str, number: usize| {
            let text = format!("(lines {n})\n{line}");
            assert_eq!(refused(Job::Map, &text), (number as u64, 2), "{text}");
            numbers[number] += 1;
        };
        let controls: Vec<u8> = (0..k).collect();
        for signed in SIGNS {
            let right = mct(&controls, k, signed);
            for wrong in [
                right.replace(") ", ")  "),
                right.replace(") ", ") -"),
                right.replace(") ", ") 0"),
                right.replace("(mct", "(Mct"),
                right.replace("mct (", "mct ( "),
                right.replace(")\n", ") \n"),
                right.replace(")\n", ")\r\n"),
                right.replace(")\n", ")"),
                right.replace("10 ", "100 "),
            ] {
                due(&wrong, 3);
            }
            for foreign in [n, n + 1, 99] {
                due(&mct(&controls, foreign, signed), 4);
            }
            for place in 0..controls.len() {
                let mut other = controls.clone();
                for foreign in [n, 99] {
                    other[place] = foreign;
                    due(&mct(&other, k, signed), 4);
                    // Also where 5 holds.
                    due(
                        &mct(&other, controls[(place + 1) % controls.len()], signed),
                        4,
                    );
                }
                due(&mct(&controls, controls[place], signed), 5);
                let mut other = controls.clone();
                if place > 0 {
                    other.swap(place - 1, place);
                    due(&mct(&other, k, signed), 6);
                    // Also where 5 holds.
                    due(&mct(&other, other[place], signed), 5);
                    other = controls.clone();
                    other[place] = other[place - 1];
                    due(&mct(&other, k, signed), 6);
                }
            }
        }
    }
    // Nine lines that are not in form; three targets out of range, and each control four
    // times; each control crosses, and each but the first does so again and falls twice.
    let controls = 3 * (16 + 16 + 17 + 31 + 30);
    let shapes = 3 * 5;
    assert_eq!(numbers[3], 9 * shapes);
    assert_eq!(numbers[4], 4 * controls + 3 * shapes);
    assert_eq!(numbers[5], 2 * controls - shapes);
    assert_eq!(numbers[6], 2 * (controls - shapes));
    // More controls than lines: never rising, so never 7 or 8.
    for k in [17u8, 18, 32, 200] {
        let controls: Vec<u8> = (0..k).map(|place| place % 16).collect();
        let text = format!("(lines 17)\n{}", mct(&controls, 16, |_| true));
        assert_eq!(refused(Job::Map, &text), (6, 2));
    }
}

/// The gate at any line of the text, and another line against a rule before or after
/// it: the first such line answers, whatever its number.
#[test]
fn the_first_failing_line_answers() {
    let mut cases = 0;
    for (n, k) in [(17, 16), (18, 16), (18, 17), (32, 31), (32, 30), (32, 16)] {
        let wide = first(k, k);
        let number = due(usize::from(k), usize::from(n)).unwrap();
        let others = [
            ("(mct () 0)".to_string(), 3),
            ("(mct (0 1) -2)\n".to_string(), 3),
            (format!("(mct (0 1) {n})\n"), 4),
            ("(mct (0 1) 1)\n".to_string(), 5),
            ("(mct (1 0) 2)\n".to_string(), 6),
            (first(16, n - 1), if n == 17 { 8 } else { 7 }),
            (first(n - 1, n - 1), 8),
        ];
        for before in [0, 1, 2, 40, 254, 255] {
            let text = format!("(lines {n})\n{}", "(mct (-0) 1)\n".repeat(before));
            let line = before as u64 + 2;
            assert_eq!(refused(Job::Map, &format!("{text}{wide}")), (number, line));
            for (other, other_number) in &others {
                let later = format!("{text}{wide}{other}");
                assert_eq!(refused(Job::Map, &later), (number, line));
                // A line without its end can't have another after it.
                if other.ends_with('\n') {
                    let earlier = format!("{text}{other}{wide}");
                    assert_eq!(refused(Job::Map, &earlier), (*other_number, line));
                }
                cases += 1;
            }
        }
    }
    assert_eq!(cases, 6 * 6 * 7);
}

/// Rule 9 comes after both: at the 257th gate, and past 4,096 gates.
#[test]
fn rule_9_comes_last() {
    let many = |n: u8, count: usize, line: &str| format!("(lines {n})\n{}", line.repeat(count));
    for (n, k, number) in [
        (17, 16, 8),
        (18, 16, 7),
        (32, 31, 8),
        (32, 30, 7),
        (16, 15, 8),
        (17, 15, 9),
        (5, 2, 9),
    ] {
        let full = many(n, 256, "(mct (0) 1)\n");
        let text = full.clone() + &first(k, k);
        assert_eq!(refused(Job::Map, &text), (number, 258));
        // One gate more, and the 257th answers with 9.
        let text = full + "(mct (0) 1)\n" + &first(k, k);
        assert_eq!(refused(Job::Map, &text), (9, 258));
    }
    // Eleven gates of 15 controls are 4,092 gates, twelve of 14 are 4,080.
    for (n, k, number) in [(17, 16, 8), (18, 16, 7), (18, 17, 8), (17, 15, 9)] {
        let text = many(n, 11, &first(15, 15)) + &first(k, k);
        assert_eq!(refused(Job::Map, &text), (number, 13));
        let text = many(n, 12, &first(15, 15)) + &first(k, k);
        assert_eq!(refused(Job::Map, &text), (9, 13));
    }
    let text = many(16, 12, &first(14, 14));
    assert!(quoted(&text) > 0);
    assert_eq!(refused(Job::Map, &(text.clone() + &first(15, 15))), (8, 14));
    assert_eq!(refused(Job::Map, &(text + &first(14, 14))), (9, 14));
}
