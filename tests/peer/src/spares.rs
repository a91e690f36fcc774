//! The order of the spares (order 5). Every expansion that is expected is put
//! together here by hand, with the spare that each smaller gate takes by the
//! order's sentence written out.

use super::*;
use crate::examples::{mapped, quoted, refused};

/// The gates of a cascade's expansion, unreduced.
pub fn expanded(text: &str) -> Vec<Gate> {
    match reader::read(Kind::Cascade, text.as_bytes()) {
        Ok(circuit) => circuit.gates,
        Err(refusal) => panic!("{refusal:?}"),
    }
}

/// The gate of one control.
pub fn cn(control: u8, target: u8) -> Vec<Gate> {
    vec![Gate::powered(2, control, target)]
}

/// The gate of two controls a < b.
pub fn toffoli(a: u8, b: u8, t: u8) -> Vec<Gate> {
    vec![
        Gate::powered(1, b, t),
        Gate::powered(2, a, b),
        Gate::powered(3, b, t),
        Gate::powered(2, a, b),
        Gate::powered(1, a, t),
    ]
}

/// The gate on t made with the spare s from M0 and M1, both on s, and from M2 and
/// M3, which undo them.
pub fn made(s: u8, t: u8, m0: Vec<Gate>, m1: Vec<Gate>) -> Vec<Gate> {
    let [m2, m3] = [&m0, &m1].map(|m| m.iter().rev().map(|gate| gate.undone()).collect());
    let v = || vec![Gate::powered(1, s, t)];
    let vp = || vec![Gate::powered(3, s, t)];
    [v(), m0, vp(), m1, v(), m2, vp(), m3].concat()
}

/// Whether map's answer and its count are those of an expansion.
pub fn mapped_as(text: &str, expected: &[Gate]) {
    assert_eq!(expanded(text), expected, "{text}");
    let lines = text.strip_prefix("(lines ").unwrap();
    let lines = lines.split_once(')').unwrap().0.parse().unwrap();
    let gates = reduction::reduce(expected);
    assert_eq!(quoted(text), gates.len() as u64);
    let answer = circuit_text(&Circuit { lines, gates });
    assert_eq!(mapped(text).into_bytes(), answer);
}

/// The gate's spares are 6 and 7: it takes 6. M0 has the controls 0 and 1, for
/// which no spare is needed. M1, on 6 with the controls 2, 3 and 4, has the spares
/// 7, 0 and 1: it takes 7, where the lowest line would be 0. Its own M0 is of one
/// control and its M1 of two.
#[test]
fn five_controls_on_eight_lines() {
    let text = "(lines 8)\n(mct (0 1 2 3 4) 5)\n";
    let by_hand = "(lines 8)\n\
        (v 6 5)\n\
        (v 1 6)\n(cn 0 1)\n(vp 1 6)\n(cn 0 1)\n(v 0 6)\n\
        (vp 6 5)\n\
        (v 7 6)\n\
        (cn 2 7)\n\
        (vp 7 6)\n\
        (v 4 7)\n(cn 3 4)\n(vp 4 7)\n(cn 3 4)\n(v 3 7)\n\
        (v 7 6)\n\
        (cn 2 7)\n\
        (vp 7 6)\n\
        (vp 3 7)\n(cn 3 4)\n(v 4 7)\n(cn 3 4)\n(vp 4 7)\n\
        (v 6 5)\n\
        (vp 0 6)\n(cn 0 1)\n(v 1 6)\n(cn 0 1)\n(vp 1 6)\n\
        (vp 6 5)\n\
        (v 4 7)\n(cn 3 4)\n(vp 4 7)\n(cn 3 4)\n(v 3 7)\n\
        (v 7 6)\n\
        (cn 2 7)\n\
        (vp 7 6)\n\
        (vp 3 7)\n(cn 3 4)\n(v 4 7)\n(cn 3 4)\n(vp 4 7)\n\
        (v 7 6)\n\
        (cn 2 7)\n\
        (vp 7 6)\n";
    let circuit = reader::read(Kind::Circuit, by_hand.as_bytes()).unwrap_or_else(|_| panic!());
    assert_eq!(circuit.gates.len(), 46);
    assert_eq!(expanded(text), circuit.gates);
    let m1 = made(7, 6, cn(2, 7), toffoli(3, 4, 7));
    mapped_as(text, &made(6, 5, toffoli(0, 1, 6), m1));
}

/// The number of lines matters: on seven there is one spare, and M1 takes the
/// first of C0. More lines than eight change nothing for this gate.
#[test]
fn five_controls_on_other_lines() {
    let gate = "(mct (0 1 2 3 4) 5)";
    let m1 = made(0, 6, cn(2, 0), toffoli(3, 4, 0));
    let seven = made(6, 5, toffoli(0, 1, 6), m1);
    mapped_as(&format!("(lines 7)\n{gate}\n"), &seven);
    let eight = expanded(&format!("(lines 8)\n{gate}\n"));
    assert_ne!(seven, eight);
    for lines in 9..=32 {
        mapped_as(&format!("(lines {lines})\n{gate}\n"), &eight);
    }
}

/// Unnamed lines below, between and above the controls. Of 0, 7 and 8 the gate takes
/// 0 and M1 takes 7; of 1, 3 and 8 the gate takes 1 and M1 takes 3. With negated
/// controls it is the same between NOTs.
#[test]
fn five_controls_with_low_and_high_lines_unnamed() {
    let m1 = made(7, 0, cn(3, 7), toffoli(4, 5, 7));
    let around = made(0, 6, toffoli(1, 2, 0), m1);
    mapped_as("(lines 9)\n(mct (1 2 3 4 5) 6)\n", &around);
    let m1 = made(3, 1, cn(4, 3), toffoli(5, 7, 3));
    let between = made(1, 6, toffoli(0, 2, 1), m1);
    mapped_as("(lines 9)\n(mct (0 2 4 5 7) 6)\n", &between);
    let nots = vec![Gate::not(2), Gate::not(7)];
    let signed = [nots.clone(), between, nots].concat();
    mapped_as("(lines 9)\n(mct (0 -2 4 5 -7) 6)\n", &signed);
}

/// 001's Fig. 5: eight controls and three ancillary lines, with the target first,
/// then the ancillary lines, then the controls.
///
/// The gate takes 1. M0, on 1 with the controls 4 to 7, has the spares 0 (t), 2, 3
/// and 8 to 11: it takes 0. M1, on 1 with the controls 8 to 11, has the spares 2, 3
/// and 4 to 7: it takes 2. All further gates are of two controls.
#[test]
fn eight_controls_and_three_ancillary_lines() {
    let m0 = made(0, 1, toffoli(4, 5, 0), toffoli(6, 7, 0));
    let m1 = made(2, 1, toffoli(8, 9, 2), toffoli(10, 11, 2));
    let gate = made(1, 0, m0, m1);
    assert_eq!(gate.len(), 100);
    mapped_as("(lines 12)\n(mct (4 5 6 7 8 9 10 11) 0)\n", &gate);
    // With one ancillary line M1 takes the first of C0.
    let m0 = made(0, 1, toffoli(2, 3, 0), toffoli(4, 5, 0));
    let m1 = made(2, 1, toffoli(6, 7, 2), toffoli(8, 9, 2));
    let one = made(1, 0, m0, m1);
    mapped_as("(lines 10)\n(mct (2 3 4 5 6 7 8 9) 0)\n", &one);
}

/// One spare, 11. M0, on 11 with the controls 0 to 4, has the spares 10 (t) and 5 to
/// 9: it takes 10. Its M1, on 10 with 2, 3 and 4, has 5 to 9, then 0 and 1: it takes
/// 5. M1, on 11 with 5 to 9, has 0 to 4: it takes 0. Its M1, on 0 with 7, 8 and 9, has
/// 1 to 4, then 5 and 6: it takes 1.
pub fn ten_controls_with_spare_11() -> Vec<Gate> {
    let m0 = made(
        10,
        11,
        toffoli(0, 1, 10),
        made(5, 10, cn(2, 5), toffoli(3, 4, 5)),
    );
    let m1 = made(
        0,
        11,
        toffoli(5, 6, 0),
        made(1, 0, cn(7, 1), toffoli(8, 9, 1)),
    );
    made(11, 10, m0, m1)
}

#[test]
fn ten_controls_and_one_spare() {
    mapped_as(
        "(lines 12)\n(mct (0 1 2 3 4 5 6 7 8 9) 10)\n",
        &ten_controls_with_spare_11(),
    );
}

/// Two spares, 13 and 14: the gate takes 13.
/// - M0, on 13 with 0 to 5, has 12 (t), 14 and 6 to 11: it takes 12. Its M0, on 12 with
///   0, 1 and 2, has 13 (the target of M0), 14, 6 to 11 and 3, 4, 5: it takes 13. Its
///   M1, on 12 with 3, 4 and 5, has 14, 6 to 11 and 0, 1, 2: it takes 14.
/// - M1, on 13 with 6 to 11, has 14 and 0 to 5: it takes 14. Its M0, on 14 with 6, 7 and
///   8, has 13, 0 to 5 and 9, 10, 11: it takes 13. Its M1, on 14 with 9, 10 and 11, has
///   0 to 5 and 6, 7, 8: it takes 0.
#[test]
fn twelve_controls_and_two_spares() {
    let m0 = made(
        12,
        13,
        made(13, 12, cn(0, 13), toffoli(1, 2, 13)),
        made(14, 12, cn(3, 14), toffoli(4, 5, 14)),
    );
    let m1 = made(
        14,
        13,
        made(13, 14, cn(6, 13), toffoli(7, 8, 13)),
        made(0, 14, cn(9, 0), toffoli(10, 11, 0)),
    );
    mapped_as(
        "(lines 15)\n(mct (0 1 2 3 4 5 6 7 8 9 10 11) 12)\n",
        &made(13, 12, m0, m1),
    );
}

/// Fifteen controls, 2 to 16, on 17 of 20 lines: the spares are 0, 1, 18 and 19, and the
/// gate takes 0. C0 is 2 to 8, C1 is 9 to 16.
/// - M0, on 0, has 17 (t), 1, 18, 19 and 9 to 16: it takes 17. Its M0, on 17 with 2, 3
///   and 4, has 0, 1, 18, .. : it takes 0. Its M1, on 17 with 5 to 8, has 1, 18, ..: it
///   takes 1; both smaller gates of that are of two controls.
/// - M1, on 0, has 1, 18, 19 and 2 to 8: it takes 1. Its M0, on 1 with 9 to 12, has 0, 18,
///   19, ..: it takes 0. Its M1, on 1 with 13 to 16, has 18, 19, ..: it takes 18.
#[test]
fn fifteen_controls_and_four_spares() {
    let m0 = made(
        17,
        0,
        made(0, 17, cn(2, 0), toffoli(3, 4, 0)),
        made(1, 17, toffoli(5, 6, 1), toffoli(7, 8, 1)),
    );
    let m1 = made(
        1,
        0,
        made(0, 1, toffoli(9, 10, 0), toffoli(11, 12, 0)),
        made(18, 1, toffoli(13, 14, 18), toffoli(15, 16, 18)),
    );
    let gate = made(0, 17, m0, m1);
    assert_eq!(gate.len(), 372);
    mapped_as(
        "(lines 20)\n(mct (2 3 4 5 6 7 8 9 10 11 12 13 14 15 16) 17)\n",
        &gate,
    );
}

/// One spare, 16, for fifteen controls: M1 of M0 takes the first of C1, M1 of M1 the
/// second of C0. With two, 16 and 17, M1 of M0 takes 17, and M1 of M1 the first of C0.
#[test]
fn fifteen_controls_and_few_spares() {
    let text = |lines| format!("(lines {lines})\n(mct (0 1 2 3 4 5 6 7 8 9 10 11 12 13 14) 15)\n");
    // s1 is taken by M1 of M0, s2 by M1, s3 by M1 of M1.
    let gate = |s1, s2, s3| {
        let m0 = made(
            15,
            16,
            made(16, 15, cn(0, 16), toffoli(1, 2, 16)),
            made(s1, 15, toffoli(3, 4, s1), toffoli(5, 6, s1)),
        );
        let m1 = made(
            s2,
            16,
            made(16, s2, toffoli(7, 8, 16), toffoli(9, 10, 16)),
            made(s3, s2, toffoli(11, 12, s3), toffoli(13, 14, s3)),
        );
        made(16, 15, m0, m1)
    };
    mapped_as(&text(17), &gate(7, 0, 1));
    mapped_as(&text(18), &gate(17, 17, 0));
    for lines in 19..=32 {
        mapped_as(&text(lines), &gate(17, 17, 18));
    }
}

/// The lowest line that a gate does not name: what every gate took before, and
/// what one of at most four controls still takes.
fn lowest(controls: &[u8], target: u8) -> u8 {
    let named = |line: &u8| *line == target || controls.contains(line);
    (0..32).find(|line| !named(line)).unwrap()
}

/// Three controls a, b, c leave halves of one and two, four leave two of two: the
/// one spare taken is the lowest unnamed line.
#[test]
fn three_and_four_controls_take_the_lowest_line() {
    let mut cases = 0;
    for lines in 5..=9u8 {
        for named in 0..1u32 << lines {
            let all: Vec<u8> = (0..lines).filter(|line| named >> line & 1 == 1).collect();
            if all.len() < 4 || all.len() > 5 || usize::from(lines) == all.len() {
                continue;
            }
            for &t in &all {
                let controls: Vec<u8> = all.iter().copied().filter(|&c| c != t).collect();
                let s = lowest(&controls, t);
                let gate = match controls[..] {
                    [a, b, c] => made(s, t, cn(a, s), toffoli(b, c, s)),
                    [a, b, c, d] => made(s, t, toffoli(a, b, s), toffoli(c, d, s)),
                    _ => unreachable!(),
                };
                let spares = expansion::unnamed(lines, &controls, t);
                let mut gates = Vec::new();
                expansion::expand_mct(&controls, &[], t, &spares, &mut gates);
                assert_eq!(gates, gate);
                cases += 1;
            }
        }
    }
    // 4 (n over 4) and 5 (n over 5) placements on n lines, the latter from 6 on.
    assert_eq!(
        cases,
        4 * (5 + 15 + 35 + 70 + 126) + 5 * (6 + 21 + 56 + 126)
    );
}

/// The lines that a gate takes as spares, at each number of lines: rising, and
/// whatever the number of controls.
#[test]
fn unnamed_lines_rise() {
    assert_eq!(expansion::unnamed(8, &[0, 1, 2, 3, 4], 5), [6, 7]);
    assert_eq!(expansion::unnamed(6, &[0, 1, 2, 3, 4], 5), []);
    assert_eq!(expansion::unnamed(9, &[1, 3, 4], 7), [0, 2, 5, 6, 8]);
    assert_eq!(expansion::unnamed(4, &[], 0), [1, 2, 3]);
    let all_but_31: Vec<u8> = (0..31).collect();
    assert_eq!(expansion::unnamed(32, &[], 31), all_but_31);
}

/// Refusal 8 is the same condition: three or more controls and n = k + 1.
#[test]
fn no_spare_as_before() {
    for k in 0..=15u8 {
        let controls: Vec<String> = (0..k).map(|c| c.to_string()).collect();
        let gate = format!("(mct ({}) {k})\n", controls.join(" "));
        let text = format!("(lines {})\n{gate}", k + 1);
        if k >= 3 {
            assert_eq!(refused(Job::Map, &text), (8, 2));
        } else {
            assert!(quoted(&text) > 0);
        }
        assert!(quoted(&format!("(lines {})\n{gate}", k + 2)) > 0);
    }
}
