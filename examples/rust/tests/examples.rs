//! The examples of document 01, negated controls, spare lines, kept lines, the order of
//! circuits, inverses, joins and slips, and what is left in memory that a caller lends.

use std::cmp::Ordering;

use yilgorza::lent::{self, Counts};
use yilgorza::{
    compare, invert, join, map, reduce, slip, Circuit, Gate, Number, Refusal, SeveralRefusal,
};

/// A text of these lines.
fn text(lines: &[&str]) -> Vec<u8> {
    lines
        .iter()
        .flat_map(|line| [line, "\n"])
        .collect::<String>()
        .into_bytes()
}

fn refused<T>(number: Number, line: u64) -> Result<T, Refusal> {
    Err(Refusal { number, line })
}

/// A refusal of one of several texts.
fn refused_text<T>(number: Number, line: u64, text: u64) -> Result<T, SeveralRefusal> {
    Err(SeveralRefusal { number, line, text })
}

/// The gates that map counts, asked for with an answer area of length 0.
fn quoted(text: &[u8]) -> Result<Vec<Gate>, Refusal> {
    let mut list = vec![0; 4096];
    let Counts { gates, bytes } = lent::map(text, &mut list, &mut [])?;
    assert_eq!(bytes, 0);
    let records = list[..gates].iter();
    Ok(records.map(|record| lent::gate(*record).unwrap()).collect())
}

const TOFFOLI: [&str; 2] = ["(lines 3)", "(mct (0 1) 2)"];
const TOFFOLI_MAPPED: [&str; 6] = [
    "(lines 3)",
    "(v 0 2)",
    "(v 1 2)",
    "(cn 0 1)",
    "(vp 1 2)",
    "(cn 0 1)",
];

#[test]
fn toffoli() {
    let gates = vec![
        Gate::V {
            control: 0,
            target: 2,
        },
        Gate::V {
            control: 1,
            target: 2,
        },
        Gate::Cn {
            control: 0,
            target: 1,
        },
        Gate::Vp {
            control: 1,
            target: 2,
        },
        Gate::Cn {
            control: 0,
            target: 1,
        },
    ];
    assert_eq!(quoted(&text(&TOFFOLI)).as_ref(), Ok(&gates));
    assert_eq!(
        map(&text(&TOFFOLI)),
        Ok(Circuit {
            text: text(&TOFFOLI_MAPPED),
            gates
        })
    );
}

#[test]
fn quotes() {
    let cases: [(&[&str], usize); 4] = [
        (&TOFFOLI, 5),
        (&["(lines 3)", "(mct (0 1) 2)", "(mct (0 1) 2)"], 9),
        (&["(lines 5)", "(mct (0 1 2) 3)"], 14),
        (&["(lines 32)"], 0),
    ];
    for (lines, count) in cases {
        let gates = quoted(&text(lines)).unwrap();
        assert_eq!(gates.len(), count);
        assert_eq!(map(&text(lines)).unwrap().gates, gates);
    }
}

/// Five controls: the gate borrows line 6, and of its smaller gates M1 line 7.
const FIVE: &[u8] = include_bytes!("../../texts/five.cascade");
const FIVE_MAPPED: [&str; 33] = [
    "(lines 8)",
    "(v 6 5)",
    "(v 0 6)",
    "(v 1 6)",
    "(cn 0 1)",
    "(vp 1 6)",
    "(vp 6 5)",
    "(v 7 6)",
    "(cn 2 7)",
    "(vp 7 6)",
    "(v 3 7)",
    "(v 4 7)",
    "(cn 3 4)",
    "(vp 4 7)",
    "(v 7 6)",
    "(cn 2 7)",
    "(vp 7 6)",
    "(v 6 5)",
    "(vp 0 6)",
    "(v 1 6)",
    "(cn 0 1)",
    "(vp 1 6)",
    "(vp 6 5)",
    "(v 7 6)",
    "(cn 2 7)",
    "(vp 7 6)",
    "(vp 3 7)",
    "(v 4 7)",
    "(cn 3 4)",
    "(vp 4 7)",
    "(v 7 6)",
    "(cn 2 7)",
    "(vp 7 6)",
];

#[test]
fn spare_lines() {
    assert_eq!(FIVE, text(&["(lines 8)", "(mct (0 1 2 3 4) 5)"]));
    let circuit = map(FIVE).unwrap();
    assert_eq!(circuit.text, text(&FIVE_MAPPED));
    assert_eq!(quoted(FIVE).as_ref(), Ok(&circuit.gates));
    assert_eq!(reduce(&circuit.text), Ok(circuit));

    // The expansion by document 02's order of spare lines, reduced.
    let wide = "(mct (0 1 2 3 4 5 6 7 8 9 10 11 12 13 14) 15)";
    let cases: [(&[&str], usize); 8] = [
        (&["(lines 7)", "(mct (0 1 2 3 4) 5)"], 42),
        (&["(lines 7)", "(mct (1 2 3 4 5) 0)"], 42),
        (&["(lines 9)", "(mct (0 1 2 3 4 5) 6)"], 44),
        (&["(lines 11)", "(mct (0 1 2 3 4 5 6 7 8) 9)"], 100),
        (&["(lines 12)", "(mct (0 1 2 3 4 5 6 7 8) 9)"], 98),
        (&["(lines 13)", "(mct (0 1 2 3 4 5 6 7 8) 9)"], 80),
        (&["(lines 17)", wide], 250),
        (&["(lines 18)", wide], 252),
    ];
    for (lines, count) in cases {
        assert_eq!(quoted(&text(lines)).unwrap().len(), count, "{lines:?}");
    }
}

/// Three controls, and the lines 4 and 5 unnamed: 4 is kept, so the gate borrows 5. The
/// list is the reduced one of the expansion with this spare line, by hand.
const KEPT: &[u8] = include_bytes!("../../texts/kept.cascade");
const KEPT_MAPPED: [&str; 15] = [
    "(lines 6)",
    "(v 5 3)",
    "(cn 0 5)",
    "(vp 5 3)",
    "(v 1 5)",
    "(v 2 5)",
    "(cn 1 2)",
    "(vp 2 5)",
    "(v 5 3)",
    "(cn 0 5)",
    "(vp 5 3)",
    "(vp 1 5)",
    "(v 2 5)",
    "(cn 1 2)",
    "(vp 2 5)",
];

#[test]
fn kept_lines() {
    assert_eq!(KEPT, text(&["(lines 6)", "(keep 4)", "(mct (0 1 2) 3)"]));
    let circuit = map(KEPT).unwrap();
    assert_eq!(circuit.text, text(&KEPT_MAPPED));
    assert_eq!(circuit.gates.len(), 14);
    assert_eq!(quoted(KEPT).as_ref(), Ok(&circuit.gates));
    // The list is a circuit, reduced already.
    assert_eq!(reduce(&circuit.text), Ok(circuit));

    let five = "(mct (0 1 2 3 4) 5)";
    let cases: [(&[&str], usize); 9] = [
        // The gate names line 0, which its M1 borrows.
        (&["(lines 7)", "(keep 0)", five], 42),
        // With 6 or 7 kept it is as on seven lines, and on nine as on eight.
        (&["(lines 8)", "(keep 6)", five], 42),
        (&["(lines 8)", "(keep 7)", five], 42),
        (&["(lines 9)", "(keep 6)", five], 32),
        (&["(lines 8)", "(keep 0 1 2 3 4 5)", five], 32),
        // A negated control adds its two NOTs, on a kept line too.
        (&["(lines 6)", "(keep 0 4)", "(mct (-0 1 2) 3)"], 16),
        // Two controls borrow nothing.
        (&["(lines 3)", "(keep 0 1 2)", "(mct (0 1) 2)"], 5),
        (&["(lines 3)", "(keep 0 1 2)"], 0),
        (&["(lines 32)", "(keep 31)"], 0),
    ];
    for (lines, count) in cases {
        assert_eq!(quoted(&text(lines)).unwrap().len(), count, "{lines:?}");
    }

    // Lines that the gate names may be borrowed by the smaller ones, kept or not: the
    // list is the one without the keep line.
    for (head, kept) in [
        ("(lines 7)", "(keep 0)"),
        ("(lines 7)", "(keep 0 1 2 3 4 5)"),
        ("(lines 8)", "(keep 0 5)"),
    ] {
        assert_eq!(map(&text(&[head, kept, five])), map(&text(&[head, five])));
    }
}

#[test]
fn refusals_of_kept_lines() {
    let three = "(mct (0 1 2) 3)";
    for lines in [
        ["(lines 5)", "(keep 4)", three],
        ["(lines 5)", "(keep 0 4)", three],
        ["(lines 5)", "(keep 4)", "(mct (-0 1 -2) 3)"],
        ["(lines 6)", "(keep 4 5)", three],
        ["(lines 4)", "(keep 0)", three],
        // Rule 8 is tried before 7.
        ["(lines 18)", "(keep 17)", SIXTEEN],
    ] {
        assert_eq!(map(&text(&lines)), refused(Number::NoSpare, 3), "{lines:?}");
        assert_eq!(quoted(&text(&lines)), refused(Number::NoSpare, 3));
    }
    let wide = text(&["(lines 19)", "(keep 17)", SIXTEEN]);
    assert_eq!(map(&wide), refused(Number::TooWide, 3));

    // The keep line itself: rules 3, 4 and 6, in this order.
    for (keep, number) in [
        ("(keep)", Number::Malformed),
        ("(keep )", Number::Malformed),
        ("(keep -1)", Number::Malformed),
        ("(keep 01)", Number::Malformed),
        ("(keep 0  1)", Number::Malformed),
        ("(keep 0 1 )", Number::Malformed),
        ("(keep (0))", Number::Malformed),
        ("(keep 100)", Number::Malformed),
        ("(Keep 0)", Number::Malformed),
        ("(keep 3)", Number::NoSuchLine),
        ("(keep 0 99)", Number::NoSuchLine),
        ("(keep 3 0)", Number::NoSuchLine),
        ("(keep 1 0)", Number::Unsorted),
        ("(keep 1 1)", Number::Unsorted),
        ("(keep 0 2 1)", Number::Unsorted),
    ] {
        for rest in [&[][..], &["(mct (0 1) 2)"], &["(mct (0) 0)"]] {
            let given = text(&[&["(lines 3)", keep], rest].concat());
            assert_eq!(map(&given), refused(number, 2), "{keep}");
            assert_eq!(quoted(&given), refused(number, 2), "{keep}");
        }
    }

    // It stands on line 2 of a cascade and nowhere else; line 1 is judged before it.
    for (lines, number, line) in [
        (
            vec!["(lines 3)", "(keep 0)", "(keep 1)"],
            Number::Malformed,
            3,
        ),
        (
            vec!["(lines 3)", "(mct () 0)", "(keep 1)"],
            Number::Malformed,
            3,
        ),
        (vec!["(keep 0)", "(lines 3)"], Number::Malformed, 1),
        (vec!["(lines 33)", "(keep 0)"], Number::NoSuchLine, 1),
        // The lines after it are counted from it on.
        (
            vec!["(lines 3)", "(keep 0)", "(mct (0) 0)"],
            Number::Crossed,
            3,
        ),
        (
            vec!["(lines 3)", "(keep 0)", "(mct () 0)", "(mct (2 1) 0)"],
            Number::Unsorted,
            4,
        ),
    ] {
        assert_eq!(map(&text(&lines)), refused(number, line), "{lines:?}");
    }
    let keep = text(&["(lines 3)", "(keep 0)"]);
    let good = text(&["(lines 3)"]);
    assert_eq!(reduce(&keep), refused(Number::Malformed, 2));
    assert_eq!(invert(&keep), refused(Number::Malformed, 2));
    for (first, second, number) in [(&keep, &good, 1), (&good, &keep, 2)] {
        let malformed = refused_text(Number::Malformed, 2, number);
        assert_eq!(compare(first, second), malformed);
        assert_eq!(
            join(first, second),
            refused_text(Number::Malformed, 2, number)
        );
    }

    // 256 gates are allowed beside it.
    let many = |gates| [vec!["(lines 3)", "(keep 2)"], vec!["(mct (0) 1)"; gates]].concat();
    assert_eq!(quoted(&text(&many(256))), Ok(vec![]));
    assert_eq!(map(&text(&many(257))), refused(Number::TooMany, 259));
}

/// Cascades with negated controls, and what they are mapped to.
const NEGATED: [(&[&str], &[&str]); 5] = [
    (
        &["(lines 2)", "(mct (-0) 1)"],
        &["(lines 2)", "(not 0)", "(cn 0 1)", "(not 0)"],
    ),
    (
        &["(lines 3)", "(mct (-0 -1) 2)"],
        &[
            "(lines 3)",
            "(not 0)",
            "(not 1)",
            "(v 0 2)",
            "(v 1 2)",
            "(cn 0 1)",
            "(vp 1 2)",
            "(not 1)",
            "(cn 0 1)",
            "(not 0)",
        ],
    ),
    // NOTs that meet between the gates vanish.
    (
        &["(lines 3)", "(mct (-0) 1)", "(mct (-0) 2)"],
        &["(lines 3)", "(not 0)", "(cn 0 1)", "(cn 0 2)", "(not 0)"],
    ),
    (
        &["(lines 2)", "(mct (-0) 1)", "(mct (-0) 1)"],
        &["(lines 2)"],
    ),
    // A NOT keeps apart what would merge without it.
    (
        &["(lines 2)", "(mct (0) 1)", "(mct (-0) 1)"],
        &["(lines 2)", "(cn 0 1)", "(not 0)", "(cn 0 1)", "(not 0)"],
    ),
];

#[test]
fn negated_controls() {
    for (given, expected) in NEGATED {
        let circuit = map(&text(given)).unwrap();
        assert_eq!(circuit.text, text(expected));
        assert_eq!(circuit.gates.len(), expected.len() - 1);
        assert_eq!(quoted(&text(given)).as_ref(), Ok(&circuit.gates));
        // The list is a circuit, reduced already.
        assert_eq!(reduce(&circuit.text), Ok(circuit));
    }
    let cases: [(&[&str], usize); 4] = [
        (&["(lines 3)", "(mct (-0 1) 2)"], 7),
        (&["(lines 3)", "(mct (0 -1) 2)"], 7),
        (&["(lines 5)", "(mct (-0 -1 -2) 3)"], 20),
        (&["(lines 14)", "(mct (-0 1 -12) 5)"], 18),
    ];
    for (lines, count) in cases {
        assert_eq!(quoted(&text(lines)).unwrap().len(), count);
    }
}

/// A gate with 16 controls, without signs and with some: it names 17 lines.
const SIXTEEN: &str = "(mct (0 1 2 3 4 5 6 7 8 9 10 11 12 13 14 15) 16)";
const SIXTEEN_NEGATED: &str = "(mct (-0 1 2 3 4 5 6 7 8 9 10 11 12 13 14 -15) 16)";

#[test]
fn refusals_of_signs() {
    // A sign is one minus directly before a control, and stands nowhere else.
    let lines = text(&["(lines -2)"]);
    assert_eq!(map(&lines), refused(Number::Malformed, 1));
    assert_eq!(reduce(&lines), refused(Number::Malformed, 1));
    for form in [
        "(mct (0) -1)",
        "(mct () -1)",
        "(mct (--1) 2)",
        "(mct (- 1) 2)",
        "(mct (-01) 2)",
        "(mct (-00) 2)",
        "(mct (+1) 2)",
        "(mct (-) 2)",
        "(mct (0-1) 2)",
        "(mct (1-) 2)",
        "(mct (-100) 2)",
    ] {
        let given = text(&["(lines 13)", "(mct (-0) 1)", form]);
        assert_eq!(map(&given), refused(Number::Malformed, 3), "{form}");
        assert_eq!(quoted(&given), refused(Number::Malformed, 3), "{form}");
    }
    for form in ["(cn -0 1)", "(v 0 -1)", "(not -0)", "(mct (-0) 1)"] {
        let given = text(&["(lines 2)", form]);
        assert_eq!(reduce(&given), refused(Number::Malformed, 2), "{form}");
        let second = refused_text(Number::Malformed, 2, 2);
        assert_eq!(compare(b"(lines 2)\n", &given), second, "{form}");
    }
    // The other rules read the line, whatever its sign.
    for (lines, number) in [
        (["(lines 3)", "(mct (-3) 1)"], Number::NoSuchLine),
        (["(lines 3)", "(mct (-1) 1)"], Number::Crossed),
        (["(lines 5)", "(mct (3 -3) 4)"], Number::Unsorted),
        (["(lines 5)", "(mct (-3 3) 4)"], Number::Unsorted),
        (["(lines 5)", "(mct (-3 -3) 4)"], Number::Unsorted),
        (["(lines 5)", "(mct (-3 2) 4)"], Number::Unsorted),
        (["(lines 4)", "(mct (-0 1 -2) 3)"], Number::NoSpare),
        // Rule 8 is tried before 7.
        (["(lines 17)", SIXTEEN_NEGATED], Number::NoSpare),
        (["(lines 18)", SIXTEEN_NEGATED], Number::TooWide),
    ] {
        assert_eq!(map(&text(&lines)), refused(number, 2), "{lines:?}");
        assert_eq!(quoted(&text(&lines)), refused(number, 2), "{lines:?}");
    }
}

#[test]
fn reductions() {
    let cases: [(&[&str], &[&str]); 7] = [
        (
            &["(lines 2)", "(v 0 1)", "(v 0 1)"],
            &["(lines 2)", "(cn 0 1)"],
        ),
        (
            &["(lines 2)", "(cn 0 1)", "(v 0 1)"],
            &["(lines 2)", "(vp 0 1)"],
        ),
        (&["(lines 2)", "(v 0 1)", "(vp 0 1)"], &["(lines 2)"]),
        (
            &["(lines 3)", "(cn 0 2)", "(cn 1 2)", "(cn 0 2)"],
            &["(lines 3)", "(cn 1 2)"],
        ),
        (
            &["(lines 3)", "(cn 0 1)", "(cn 1 2)", "(cn 0 1)"],
            &["(lines 3)", "(cn 0 1)", "(cn 1 2)", "(cn 0 1)"],
        ),
        (
            &["(lines 2)", "(cn 0 1)", "(not 1)"],
            &["(lines 2)", "(not 1)", "(cn 0 1)"],
        ),
        (
            &["(lines 2)", "(not 0)", "(cn 0 1)", "(not 0)"],
            &["(lines 2)", "(not 0)", "(cn 0 1)", "(not 0)"],
        ),
    ];
    for (given, expected) in cases {
        let circuit = reduce(&text(given)).unwrap();
        assert_eq!(circuit.text, text(expected));
        assert_eq!(circuit.gates.len(), expected.len() - 1);
    }
    let last = reduce(&text(&["(lines 2)", "(not 0)", "(cn 0 1)", "(not 0)"])).unwrap();
    let not = Gate::Not { target: 0 };
    assert_eq!(
        last.gates,
        [
            not,
            Gate::Cn {
                control: 0,
                target: 1
            },
            not
        ]
    );
}

#[test]
fn refusals() {
    let no_spare = text(&["(lines 4)", "(mct (0 1 2) 3)"]);
    assert_eq!(map(&no_spare), refused(Number::NoSpare, 2));
    assert_eq!(quoted(&no_spare), refused(Number::NoSpare, 2));
    // 16 controls break rule 7, and on 17 lines rule 8 too, which is tried before it.
    let both = text(&["(lines 17)", SIXTEEN]);
    assert_eq!(map(&both), refused(Number::NoSpare, 2));
    assert_eq!(quoted(&both), refused(Number::NoSpare, 2));
    let wide = text(&["(lines 18)", SIXTEEN]);
    assert_eq!(map(&wide), refused(Number::TooWide, 2));
    assert_eq!(quoted(&wide), refused(Number::TooWide, 2));
    assert_eq!(
        reduce(&text(&["(lines 33)"])),
        refused(Number::NoSuchLine, 1)
    );
    assert_eq!(reduce(&[b'('; 60001]), refused(Number::Overlong, 0));
    assert_eq!(
        reduce(b"(lines 2)\n(cn 0 1)"),
        refused(Number::Malformed, 2)
    );
    assert_eq!(map(b""), refused(Number::Malformed, 1));
    assert_eq!(
        map(b"").unwrap_err().to_string(),
        "(turned-away 3 1): this line of the text is not written in the form asked for"
    );
}

/// Circuits in rising order, each in all the ways in which it is drawn here: by the
/// number of lines, then by the reduced lists, which document 01 gives or which are
/// the only ones with so few gates.
const RISING: [&[&[&str]]; 14] = [
    &[&["(lines 1)"]],
    &[&["(lines 1)", "(not 0)"]],
    &[&["(lines 2)"], &["(lines 2)", "(v 0 1)", "(vp 0 1)"]],
    &[&["(lines 2)", "(not 0)"]],
    &[&["(lines 2)", "(not 0)", "(cn 0 1)"]],
    // One gate more than the last, and it is the `not 0` that fills a list.
    &[&["(lines 2)", "(not 0)", "(cn 0 1)", "(not 0)"]],
    &[
        &["(lines 2)", "(not 1)", "(cn 0 1)"],
        &["(lines 2)", "(cn 0 1)", "(not 1)"],
    ],
    &[
        &["(lines 2)", "(cn 0 1)"],
        &["(lines 2)", "(v 0 1)", "(v 0 1)"],
    ],
    &[&["(lines 2)", "(cn 0 1)", "(cn 1 0)"]],
    &[
        &["(lines 2)", "(vp 0 1)"],
        &["(lines 2)", "(cn 0 1)", "(v 0 1)"],
    ],
    &[&["(lines 3)"]],
    &[&["(lines 3)", "(cn 0 1)", "(cn 1 2)", "(cn 0 1)"]],
    &[
        &["(lines 3)", "(cn 1 2)"],
        &["(lines 3)", "(cn 0 2)", "(cn 1 2)", "(cn 0 2)"],
        &["(lines 3)", "(v 1 2)", "(v 1 2)"],
    ],
    &[&["(lines 32)"]],
];

#[test]
fn comparisons() {
    let mut drawn = Vec::new();
    for (place, ways) in RISING.iter().enumerate() {
        drawn.extend(ways.iter().map(|lines| (place, text(lines))));
    }
    for (first_place, first) in &drawn {
        for (second_place, second) in &drawn {
            let order = first_place.cmp(second_place);
            assert_eq!(compare(first, second), Ok(order));
        }
    }
    // Sorted from any order they come out in this one.
    let mut sorted = drawn.clone();
    sorted.reverse();
    sorted.sort_by(|a, b| compare(&a.1, &b.1).unwrap());
    assert!(sorted.windows(2).all(|pair| pair[0].0 <= pair[1].0));
}

/// What undoes the list of the Toffoli gate, as a reduced list: its gates reversed, v
/// and vp exchanged, and `vp 0 2` brought before `v 1 2`.
const TOFFOLI_UNDONE: [&str; 6] = [
    "(lines 3)",
    "(cn 0 1)",
    "(vp 0 2)",
    "(v 1 2)",
    "(cn 0 1)",
    "(vp 1 2)",
];

#[test]
fn inverses() {
    let cases: [(&[&str], &[&str]); 8] = [
        (&["(lines 32)"], &["(lines 32)"]),
        (&["(lines 1)", "(not 0)"], &["(lines 1)", "(not 0)"]),
        (&["(lines 2)", "(v 0 1)"], &["(lines 2)", "(vp 0 1)"]),
        (&["(lines 2)", "(vp 1 0)"], &["(lines 2)", "(v 1 0)"]),
        (
            &["(lines 2)", "(v 0 1)", "(v 0 1)"],
            &["(lines 2)", "(cn 0 1)"],
        ),
        (
            &["(lines 2)", "(not 0)", "(cn 0 1)"],
            &["(lines 2)", "(cn 0 1)", "(not 0)"],
        ),
        (
            &["(lines 3)", "(cn 0 1)", "(v 1 2)", "(cn 2 0)"],
            &["(lines 3)", "(cn 2 0)", "(vp 1 2)", "(cn 0 1)"],
        ),
        (&TOFFOLI_MAPPED, &TOFFOLI_UNDONE),
    ];
    for (given, undone) in cases {
        let inverse = invert(&text(given)).unwrap();
        assert_eq!(inverse.text, text(undone));
        assert_eq!(inverse.gates.len(), undone.len() - 1);
        assert_eq!(invert(&inverse.text), reduce(&text(given)));
    }
    let last = invert(&text(&TOFFOLI_MAPPED)).unwrap().gates[4];
    let (control, target) = (1, 2);
    assert_eq!(last, Gate::Vp { control, target });
}

/// Every drawing of every circuit, joined with its inverse either way round, gives no
/// gates; and the inverse of the inverse is the circuit's reduced list.
#[test]
fn what_was_computed_is_uncomputed() {
    for drawn in RISING.concat() {
        let given = text(drawn);
        let undo = invert(&given).unwrap();
        let nothing = Circuit {
            text: text(&drawn[..1]),
            gates: vec![],
        };
        assert_eq!(join(&given, &undo.text).as_ref(), Ok(&nothing));
        assert_eq!(join(&undo.text, &given).as_ref(), Ok(&nothing));
        assert_eq!(invert(&undo.text), reduce(&given));
        // A circuit that was drawn otherwise is undone by the same list.
        let reduced = reduce(&given).unwrap().text;
        assert_eq!(join(&reduced, &undo.text), Ok(nothing));
        assert_eq!(invert(&reduced), Ok(undo));
    }
}

#[test]
fn joins() {
    let cases: [(&[&str], &[&str], &[&str]); 8] = [
        (&["(lines 7)"], &["(lines 7)"], &["(lines 7)"]),
        (
            &["(lines 2)", "(cn 0 1)"],
            &["(lines 2)", "(v 0 1)"],
            &["(lines 2)", "(vp 0 1)"],
        ),
        // The first stands before the second, unless they pass.
        (
            &["(lines 2)", "(not 0)"],
            &["(lines 2)", "(cn 0 1)"],
            &["(lines 2)", "(not 0)", "(cn 0 1)"],
        ),
        (
            &["(lines 2)", "(cn 0 1)"],
            &["(lines 2)", "(not 0)"],
            &["(lines 2)", "(cn 0 1)", "(not 0)"],
        ),
        (
            &["(lines 2)", "(cn 0 1)"],
            &["(lines 2)", "(not 1)"],
            &["(lines 2)", "(not 1)", "(cn 0 1)"],
        ),
        (
            &["(lines 3)", "(cn 0 2)", "(cn 1 2)"],
            &["(lines 3)", "(cn 0 2)"],
            &["(lines 3)", "(cn 1 2)"],
        ),
        (
            &["(lines 3)"],
            &["(lines 3)", "(v 1 2)", "(v 1 2)"],
            &["(lines 3)", "(cn 1 2)"],
        ),
        (&TOFFOLI_MAPPED, &TOFFOLI_UNDONE, &["(lines 3)"]),
    ];
    for (first, second, expected) in cases {
        let joined = join(&text(first), &text(second)).unwrap();
        assert_eq!(joined.text, text(expected));
        // It is what reduce gives to both texts put together.
        let both = text(&[first, &second[1..]].concat());
        assert_eq!(reduce(&both), Ok(joined));
    }
    // The same gate twice does not vanish: document 01 quotes it 9.
    let mapped = text(&TOFFOLI_MAPPED);
    assert_eq!(join(&mapped, &mapped).unwrap().gates.len(), 9);
}

#[test]
fn refusals_of_joins() {
    let nots = |lines: &'static str, gates| text(&[vec![lines], vec!["(not 0)"; gates]].concat());
    let on_one = |gates| nots("(lines 1)", gates);
    let no_gates = || {
        Ok(Circuit {
            text: text(&["(lines 1)"]),
            gates: vec![],
        })
    };

    // The circuits as read have together 4,096 gates, and one more; the line is that of
    // the first gate over, whatever comes after it.
    for (first, second) in [(0, 4096), (1, 4095), (2048, 2048), (4095, 1), (4096, 0)] {
        assert_eq!(join(&on_one(first), &on_one(second)), no_gates());
    }
    for first in [1, 2, 2048, 4095, 4096] {
        let line = 4096 - first as u64 + 2;
        for second in [4097 - first, 4096] {
            let over = join(&on_one(first), &on_one(second));
            assert_eq!(over, refused_text(Number::TooMany, line, 2));
        }
    }

    // Another number of lines is told before that, and after what is wrong with a text.
    let different = refused_text(Number::DifferentLines, 0, 0);
    assert_eq!(join(&on_one(1), &nots("(lines 2)", 1)), different);
    assert_eq!(join(&nots("(lines 32)", 0), &on_one(0)), different);
    assert_eq!(join(&on_one(4096), &nots("(lines 2)", 4096)), different);
    let crossed = text(&["(lines 2)", "(v 1 1)"]);
    assert_eq!(
        join(&on_one(4096), &crossed),
        refused_text(Number::Crossed, 2, 2)
    );
    assert_eq!(
        join(&crossed, &on_one(4096)),
        refused_text(Number::Crossed, 2, 1)
    );
    assert_eq!(
        join(&on_one(0), b"(lines 2)\n").unwrap_err().to_string(),
        "(turned-away 11 0 0): the two circuits do not have the same number of lines"
    );
    assert_eq!(
        join(&on_one(4096), &on_one(1)).unwrap_err().to_string(),
        "(turned-away 9 2 2): the second text: too many gates: the 257th of a cascade, an \
         expansion past 4,096, or the 4,097th of a circuit or of two that are joined; or \
         too many steps: the 4,097th of a slip"
    );
}

/// The Toffoli gate written twice, as it is expanded; a slip; and its reduced list, which
/// document 01 says has 9 gates. The last gate passes back to the fifth, the two merge to
/// `cn 0 2`, and this passes to the front.
const TWICE: &[u8] = include_bytes!("../../texts/twice.circuit");
const TWICE_SLIP: &[u8] = include_bytes!("../../texts/twice.slip");
const NINE: &[u8] = include_bytes!("../../texts/nine.circuit");

/// Circuits, steps that are allowed on them, and the circuits that these end at.
const SLIPS: [(&[&str], &[&str], &[&str]); 15] = [
    (&["(lines 32)"], &[], &["(lines 32)"]),
    (&["(lines 1)", "(not 0)"], &[], &["(lines 1)", "(not 0)"]),
    (
        &["(lines 1)", "(not 0)", "(not 0)"],
        &["(merge 1)"],
        &["(lines 1)"],
    ),
    (
        &["(lines 2)", "(v 0 1)", "(v 0 1)"],
        &["(merge 1)"],
        &["(lines 2)", "(cn 0 1)"],
    ),
    (
        &["(lines 2)", "(cn 0 1)", "(v 0 1)"],
        &["(merge 1)"],
        &["(lines 2)", "(vp 0 1)"],
    ),
    (
        &["(lines 2)", "(v 0 1)", "(vp 0 1)"],
        &["(merge 1)"],
        &["(lines 2)"],
    ),
    (
        &["(lines 2)", "(cn 0 1)", "(cn 0 1)"],
        &["(merge 1)"],
        &["(lines 2)"],
    ),
    (
        &["(lines 2)", "(vp 0 1)", "(vp 0 1)"],
        &["(merge 1)"],
        &["(lines 2)", "(cn 0 1)"],
    ),
    (
        &["(lines 2)", "(cn 1 0)", "(vp 1 0)"],
        &["(merge 1)"],
        &["(lines 2)", "(v 1 0)"],
    ),
    (
        &["(lines 3)", "(cn 0 2)", "(cn 1 2)", "(cn 0 2)"],
        &["(pass 2)", "(merge 1)"],
        &["(lines 3)", "(cn 1 2)"],
    ),
    (
        &["(lines 3)", "(cn 0 2)", "(cn 1 2)", "(cn 0 2)"],
        &["(pass 1)", "(merge 2)"],
        &["(lines 3)", "(cn 1 2)"],
    ),
    (
        &["(lines 2)", "(cn 0 1)", "(not 1)"],
        &["(pass 1)"],
        &["(lines 2)", "(not 1)", "(cn 0 1)"],
    ),
    // A pass backwards is a pass; gates that are equal pass too.
    (
        &["(lines 2)", "(cn 0 1)", "(not 1)"],
        &["(pass 1)", "(pass 1)"],
        &["(lines 2)", "(cn 0 1)", "(not 1)"],
    ),
    (
        &["(lines 2)", "(v 0 1)", "(v 0 1)", "(vp 0 1)"],
        &["(pass 1)", "(merge 2)"],
        &["(lines 2)", "(v 0 1)"],
    ),
    // Two that vanish bring the next two together.
    (
        &["(lines 2)", "(v 0 1)", "(not 0)", "(not 0)", "(v 0 1)"],
        &["(merge 2)", "(merge 1)"],
        &["(lines 2)", "(cn 0 1)"],
    ),
];

#[test]
fn slips() {
    for (circuit, steps, second) in SLIPS {
        let (circuit, second) = (text(circuit), text(second));
        assert_eq!(slip(&circuit, &text(steps), &second), Ok(()), "{steps:?}");
        // What is accepted is linked, and has one reduced list.
        assert_eq!(compare(&circuit, &second), Ok(Ordering::Equal));
        assert_eq!(reduce(&circuit), reduce(&second));
    }
    assert_eq!(slip(TWICE, TWICE_SLIP, NINE), Ok(()));
    assert_eq!(reduce(TWICE).unwrap().text, NINE);
    assert_eq!(
        map(b"(lines 3)\n(mct (0 1) 2)\n(mct (0 1) 2)\n"),
        reduce(TWICE)
    );

    // Slips that follow one another are one, and passes lead back.
    let end = TWICE_SLIP.iter().rposition(|byte| *byte == b'5').unwrap() + 3;
    let (merging, passing) = TWICE_SLIP.split_at(end);
    let between = [
        "(lines 3)",
        "(v 1 2)",
        "(cn 0 1)",
        "(vp 1 2)",
        "(cn 0 1)",
        "(cn 0 2)",
        "(v 1 2)",
        "(cn 0 1)",
        "(vp 1 2)",
        "(cn 0 1)",
    ];
    assert_eq!(slip(TWICE, merging, &text(&between)), Ok(()));
    assert_eq!(slip(&text(&between), passing, NINE), Ok(()));
    let back = text(&["(pass 1)", "(pass 2)", "(pass 3)", "(pass 4)"]);
    assert_eq!(slip(NINE, &back, &text(&between)), Ok(()));
    let there_and_back = [passing, &back].concat();
    assert_eq!(
        slip(&text(&between), &there_and_back, &text(&between)),
        Ok(())
    );
}

#[test]
fn steps_that_are_not_allowed() {
    let apart = ["(lines 3)", "(cn 0 1)", "(cn 1 2)", "(cn 0 1)"];
    let beside = ["(lines 3)", "(cn 0 2)", "(cn 1 2)"];
    let cases: [(&[&str], &[&str]); 17] = [
        // Of these no two neighbours pass or merge.
        (&apart, &["(pass 1)"]),
        (&apart, &["(pass 2)"]),
        (&apart, &["(merge 1)"]),
        (&apart, &["(merge 2)"]),
        // Place 0, and places without a right neighbour.
        (&apart, &["(pass 0)"]),
        (&apart, &["(merge 0)"]),
        (&apart, &["(pass 3)"]),
        (&apart, &["(merge 3)"]),
        (&apart, &["(pass 4)"]),
        (&apart, &["(merge 9999)"]),
        (&["(lines 3)"], &["(pass 1)"]),
        (&["(lines 3)", "(not 0)"], &["(merge 1)"]),
        // Another control, another target, and a NOT beside a gate on its line.
        (&beside, &["(pass 1)", "(merge 1)"]),
        (&["(lines 3)", "(cn 0 1)", "(cn 0 2)"], &["(merge 1)"]),
        (&["(lines 3)", "(not 1)", "(not 2)"], &["(merge 1)"]),
        (&["(lines 3)", "(not 1)", "(cn 0 1)"], &["(merge 1)"]),
        // Allowed once, and after it there are no two gates.
        (
            &["(lines 3)", "(v 0 1)", "(v 0 1)"],
            &["(merge 1)", "(merge 1)"],
        ),
    ];
    for (circuit, steps) in cases {
        let told = refused_text(Number::NotAllowed, steps.len() as u64, 2);
        assert_eq!(slip(&text(circuit), &text(steps), b"(lines 3)\n"), told);
        // The first that is not allowed is told, whatever comes after it.
        let more = [steps, &["(pass 0)", "(merge 1)"]].concat();
        assert_eq!(slip(&text(circuit), &text(&more), NINE), told);
    }
    assert_eq!(
        slip(&text(&beside), b"(pass 1)\n(pass 2)\n", b"(lines 3)\n")
            .unwrap_err()
            .to_string(),
        "(turned-away 12 2 2): the second text: this step of the slip is not allowed: the \
         two gates at its place do not pass or merge, or there are no two gates there"
    );
}

#[test]
fn slips_that_end_elsewhere() {
    let other: SeveralRefusal = SeveralRefusal {
        number: Number::OtherEnd,
        line: 0,
        text: 0,
    };
    for (circuit, steps, second) in SLIPS {
        let (circuit, steps, second) = (text(circuit), text(steps), text(second));
        let longer = [&second[..], b"(not 0)\n"].concat();
        assert_eq!(slip(&circuit, &steps, &longer), Err(other));
        if circuit != second {
            assert_eq!(slip(&circuit, b"", &second), Err(other));
        }
    }
    // Linked, but not gate for gate; and a step too few.
    let drawn = text(&["(lines 3)", "(v 1 2)", "(v 1 2)"]);
    let once = text(&["(lines 3)", "(cn 1 2)"]);
    assert_eq!(slip(&once, b"", &drawn), Err(other));
    assert_eq!(slip(&drawn, b"", &once), Err(other));
    assert_eq!(
        slip(TWICE, &TWICE_SLIP[..TWICE_SLIP.len() - 9], NINE),
        Err(other)
    );
    assert_eq!(
        other.to_string(),
        "(turned-away 13 0 0): the steps of the slip end at another circuit than the second"
    );
}

#[test]
fn refusals_of_slips() {
    let good = text(&["(lines 2)", "(cn 0 1)"]);
    // Forms that a slip has not.
    for form in [
        "(pass 01)",
        "(pass 00)",
        "(pass 10000)",
        "(pass -1)",
        "(pass +1)",
        "(pass)",
        "(pass )",
        "(pass 1 )",
        "(pass  1)",
        "( pass 1)",
        "(pass 1) ",
        " (pass 1)",
        "(pass 1 2)",
        "(Pass 1)",
        "(merge 01)",
        "(merge)",
        "(merge 1",
        "merge 1",
        "(merges 1)",
        "(lines 2)",
        "(cn 0 1)",
        "",
    ] {
        let malformed = refused_text(Number::Malformed, 1, 2);
        assert_eq!(slip(&good, &text(&[form]), &good), malformed, "{form}");
        // The whole slip is judged before any step is taken.
        let later = text(&["(pass 0)", form]);
        let malformed = refused_text(Number::Malformed, 2, 2);
        assert_eq!(slip(&good, &later, &good), malformed, "{form}");
    }
    assert_eq!(
        slip(&good, b"(pass 1)", &good),
        refused_text(Number::Malformed, 1, 2)
    );
    assert_eq!(
        slip(&good, &[b'('; 60001], &good),
        refused_text(Number::Overlong, 0, 2)
    );

    // 4,096 steps are allowed, there and back, and one more is too many; that a line is not
    // in form is told before.
    let beside = text(&["(lines 3)", "(cn 0 2)", "(cn 1 2)"]);
    let many = |steps| text(&vec!["(pass 1)"; steps]);
    assert_eq!(slip(&beside, &many(4096), &beside), Ok(()));
    assert_eq!(
        slip(&beside, &many(4097), &beside),
        refused_text(Number::TooMany, 4097, 2)
    );
    assert_eq!(
        slip(&beside, &[many(4096), text(&["(pass)"])].concat(), &beside),
        refused_text(Number::Malformed, 4097, 2)
    );

    // Number 11 comes before any step, and after what is wrong with a text.
    let different = refused_text(Number::DifferentLines, 0, 0);
    assert_eq!(slip(&good, b"(pass 0)\n", &beside), different);
    assert_eq!(slip(&good, b"", b"(lines 3)\n(cn 0 1)\n"), different);
    let crossed = text(&["(lines 3)", "(v 1 1)"]);
    for (texts, line, number) in [
        ([&crossed[..], b"(pass)\n", b""], (Number::Crossed, 2), 1),
        ([&good, b"(pass)\n", b""], (Number::Malformed, 1), 2),
        ([&good, b"(pass 0)\n", &crossed], (Number::Crossed, 2), 3),
        ([&good, b"(pass 0)\n", b""], (Number::Malformed, 1), 3),
        ([b"", b"", b""], (Number::Malformed, 1), 1),
    ] {
        let [first, steps, second] = texts;
        let told = refused_text(line.0, line.1, number);
        assert_eq!(slip(first, steps, second), told);
    }
    assert_eq!(
        slip(&good, b"", b"").unwrap_err().to_string(),
        "(turned-away 3 1 3): the third text: this line of the text is not written in the \
         form asked for"
    );
}

#[test]
fn refusals_of_two_texts() {
    let good = text(&["(lines 2)", "(cn 0 1)"]);
    let full = [vec!["(lines 2)"], vec!["(not 0)"; 4096]].concat();
    let over = [full.clone(), vec!["(not 0)"]].concat();
    let cases = [
        (vec![b'('; 60001], Number::Overlong, 0),
        (vec![], Number::Malformed, 1),
        (text(&TOFFOLI), Number::Malformed, 2),
        (b"(lines 2)\n(cn 0 1)".to_vec(), Number::Malformed, 2),
        (text(&["(lines 33)"]), Number::NoSuchLine, 1),
        (
            text(&["(lines 2)", "(cn 0 1)", "(not 2)"]),
            Number::NoSuchLine,
            3,
        ),
        (text(&["(lines 2)", "(v 1 1)"]), Number::Crossed, 2),
        (text(&over), Number::TooMany, 4098),
    ];
    for (bad, number, line) in &cases {
        let first = refused_text(*number, *line, 1);
        assert_eq!(compare(bad, &good), first);
        assert_eq!(compare(&good, bad), refused_text(*number, *line, 2));
        assert_eq!(join(bad, &good), refused_text(*number, *line, 1));
        assert_eq!(join(&good, bad), refused_text(*number, *line, 2));
        // The second circuit of a slip is its third text.
        assert_eq!(slip(bad, b"", &good), refused_text(*number, *line, 1));
        assert_eq!(slip(&good, b"", bad), refused_text(*number, *line, 3));
        // The first text is judged whole before the second is looked at.
        for (other, _, _) in &cases {
            assert_eq!(compare(bad, other), first);
            assert_eq!(join(bad, other), refused_text(*number, *line, 1));
        }
        // With one text it is the refusal of reduce and invert.
        assert_eq!(reduce(bad), refused(*number, *line));
        assert_eq!(invert(bad), refused(*number, *line));
    }
    assert_eq!(
        compare(&text(&full), &text(&["(lines 2)"])),
        Ok(Ordering::Equal)
    );
    assert_eq!(
        compare(&good, b"").unwrap_err().to_string(),
        "(turned-away 3 1 2): the second text: this line of the text is not written \
         in the form asked for"
    );
}

#[test]
fn twelfth_wide_gate() {
    let gate = "(mct (0 1 2 3 4 5 6 7 8 9 10 11 12 13 14) 15)";
    let lines = |count| [vec!["(lines 17)"], vec![gate; count]].concat();
    assert!(map(&text(&lines(11))).is_ok());
    assert_eq!(map(&text(&lines(12))), refused(Number::TooMany, 13));

    // Eleven expand to 4,092 gates, and to two more for each negated control.
    let one = gate.replace(" 14)", " -14)");
    let two = one.replace("(0 ", "(-0 ");
    let last = |count, last| [lines(count), vec![last]].concat();
    assert!(map(&text(&last(10, &one))).is_ok());
    assert!(map(&text(&last(10, &two))).is_ok());
    let three = two.replace(" 7 ", " -7 ");
    let over = last(10, &three);
    assert_eq!(map(&text(&over)), refused(Number::TooMany, 12));
    assert_eq!(quoted(&text(&over)), refused(Number::TooMany, 12));
    // It is the last line that goes past, wherever the three are.
    let over = [&["(lines 17)", &one, &two], &lines(9)[1..]].concat();
    assert_eq!(map(&text(&over)), refused(Number::TooMany, 12));
}

/// A job over one text, on lent memory.
type Job = fn(&[u8], &mut [u16], &mut [u8]) -> Result<Counts, Refusal>;

#[test]
fn lent_memory() {
    let toffoli = text(&TOFFOLI);
    let mapped = text(&TOFFOLI_MAPPED);
    let undone = text(&TOFFOLI_UNDONE);
    let bytes = mapped.len();

    // map, reduce and invert give this list the same counts, list and text.
    for (job, given) in [
        (lent::map as Job, &toffoli),
        (lent::reduce, &mapped),
        (lent::invert, &undone),
    ] {
        let (mut list, mut answer) = (vec![7; 4100], vec![7; bytes + 1]);
        let counts = job(given, &mut list, &mut answer);
        assert_eq!(counts, Ok(Counts { gates: 5, bytes }));
        assert_eq!(list[..5], [269, 273, 138, 275, 138]);
        assert_eq!(list[5..], [2; 4095]);
        assert_eq!(lent::gate(list[5]), Some(Gate::Not { target: 0 }));
        assert_eq!(answer[..bytes], mapped);
        assert_eq!(answer[bytes..], [7]);

        for room in [1, bytes - 1] {
            let (mut list, mut answer) = (vec![7; 4096], vec![7; room]);
            let short = job(given, &mut list, &mut answer);
            assert_eq!(short, refused(Number::ShortAnswer, 0));
            assert_eq!(list, [2; 4096]);
            assert_eq!(answer, vec![7; room]);
        }
    }
}

#[test]
fn an_answer_area_of_length_0() {
    // What a list of this length, full of 7, holds after the call.
    let left = |job: Job, text: &[u8], records| {
        let mut list = vec![7; records];
        (job(text, &mut list, &mut []), list)
    };
    let toffoli = text(&TOFFOLI);

    // map only quotes, and leaves the list that it leaves with any area.
    let (quoted, list) = left(lent::map, &toffoli, 4100);
    assert_eq!(quoted, Ok(Counts { gates: 5, bytes: 0 }));
    assert_eq!(list[..5], [269, 273, 138, 275, 138]);
    assert_eq!(list[5..], [2; 4095]);
    let no_gates = left(lent::map, b"(lines 3)\n", 4096);
    assert_eq!(no_gates, (Ok(Counts { gates: 0, bytes: 0 }), vec![2; 4096]));

    // It refuses what it refuses with any area.
    let short = left(lent::map, &toffoli, 4095);
    assert_eq!(short, (refused(Number::ShortList, 0), vec![7; 4095]));
    let long = left(lent::map, &[b'('; 60001], 4096);
    assert_eq!(long, (refused(Number::Overlong, 0), vec![7; 4096]));
    let empty = left(lent::map, b"", 4096);
    assert_eq!(empty, (refused(Number::Malformed, 1), vec![2; 4096]));

    // For reduce and invert such an area is too short, after everything else.
    for job in [lent::reduce as Job, lent::invert] {
        let reduced = left(job, &text(&TOFFOLI_MAPPED), 4096);
        assert_eq!(reduced, (refused(Number::ShortAnswer, 0), vec![2; 4096]));
        let cascade = left(job, &toffoli, 4096);
        assert_eq!(cascade, (refused(Number::Malformed, 2), vec![2; 4096]));
        let short = left(job, &toffoli, 4095);
        assert_eq!(short, (refused(Number::ShortList, 0), vec![7; 4095]));
    }
}

#[test]
fn an_answer_area_goes_by_the_answer_of_its_own_job() {
    // v becomes vp: a byte more than reduce takes.
    let given = text(&["(lines 2)", "(v 0 1)"]);
    let mut list = vec![7; 4096];
    let mut answer = vec![7; given.len()];
    let bytes = given.len();
    let reduced = lent::reduce(&given, &mut list, &mut answer);
    assert_eq!(reduced, Ok(Counts { gates: 1, bytes }));
    let inverted = lent::invert(&given, &mut list, &mut answer);
    assert_eq!(inverted, refused(Number::ShortAnswer, 0));
    answer.push(7);
    let bytes = answer.len();
    let inverted = lent::invert(&given, &mut list, &mut answer);
    assert_eq!(inverted, Ok(Counts { gates: 1, bytes }));
}

#[test]
fn memory_lent_to_join() {
    let ordered = text(&["(lines 3)", "(v 1 2)"]);
    let other = text(&["(lines 3)", "(v 1 2)", "(not 0)"]);
    let joined = text(&["(lines 3)", "(not 0)", "(cn 1 2)"]);
    let elsewhere = text(&["(lines 2)", "(not 0)"]);
    let long = vec![b'('; 60001];

    // What a list and an area of these lengths, full of 7, hold after the call.
    let left = |first: &[u8], records, second: &[u8], room| {
        let (mut list, mut answer) = (vec![7; records], vec![7; room]);
        let result = lent::join(first, &mut list, second, &mut answer);
        (result, list, answer)
    };

    for (records, room) in [(4096, joined.len()), (5000, 100)] {
        let (result, list, answer) = left(&ordered, records, &other, room);
        assert_eq!(result, Ok(joined.len()));
        assert_eq!(list[..2], [2, 274]);
        assert!(list[2..].iter().all(|record| *record == 2));
        assert_eq!(answer[..joined.len()], joined);
        assert!(answer[joined.len()..].iter().all(|byte| *byte == 7));
    }

    // Refusals 1 and 2 leave the list as it was, any other `not 0` in all of it,
    // whatever its length; and every refusal the area.
    for (first, records, second, room, (number, line, text), record) in [
        (&long, 0, &other, 100, (Number::Overlong, 0, 1), 7),
        (&ordered, 4095, &long, 100, (Number::ShortList, 0, 1), 7),
        (&ordered, 4095, &other, 0, (Number::ShortList, 0, 1), 7),
        (&ordered, 5000, &long, 100, (Number::Overlong, 0, 2), 7),
        (&vec![], 4096, &long, 100, (Number::Malformed, 1, 1), 2),
        (&ordered, 5000, &vec![], 100, (Number::Malformed, 1, 2), 2),
        (
            &ordered,
            5000,
            &elsewhere,
            0,
            (Number::DifferentLines, 0, 0),
            2,
        ),
        (&ordered, 5000, &other, 0, (Number::ShortAnswer, 0, 0), 2),
        (
            &ordered,
            4096,
            &other,
            joined.len() - 1,
            (Number::ShortAnswer, 0, 0),
            2,
        ),
    ] {
        let (result, list, answer) = left(first, records, second, room);
        assert_eq!(result, refused_text(number, line, text));
        assert_eq!(list, vec![record; records]);
        assert_eq!(answer, vec![7; room]);
    }
    let full = text(&[vec!["(lines 3)"], vec!["(not 0)"; 4096]].concat());
    let (result, list, answer) = left(&full, 4096, &other, 100);
    assert_eq!(result, refused_text(Number::TooMany, 2, 2));
    assert_eq!((list, answer), (vec![2; 4096], vec![7; 100]));
    let mut rest = vec![7; 4096];
    let both = lent::join(&ordered, &mut rest, &ordered, &mut [7; 100]);
    assert_eq!((both, rest[0]), (Ok(19), 274));
}

#[test]
fn lists_lent_to_compare() {
    let ordered = text(&["(lines 3)", "(v 1 2)", "(v 1 2)"]);
    let other = text(&["(lines 2)", "(not 0)", "(cn 0 1)", "(not 0)"]);
    let long = vec![b'('; 60001];

    // What two lists of these lengths, full of 7, hold after the call.
    let left = |first: &[u8], first_len, second: &[u8], second_len| {
        let (mut first_list, mut second_list) = (vec![7; first_len], vec![7; second_len]);
        let result = lent::compare(first, &mut first_list, second, &mut second_list);
        (result, first_list, second_list)
    };

    let (result, first, second) = left(&ordered, 4096, &other, 5000);
    assert_eq!(result, Ok(Ordering::Greater));
    assert_eq!(first[..1], [274]);
    assert_eq!(first[1..], [2; 4095]);
    assert_eq!(second[..3], [2, 138, 2]);
    assert_eq!(second[3..], [2; 4997]);

    // Refusals 1 and 2 leave both lists as they were.
    let unchanged = |a, b| (vec![7; a], vec![7; b]);
    for (first, first_len, second, second_len, refusal) in [
        (&ordered, 4095, &other, 4096, (Number::ShortList, 1)),
        (&ordered, 4096, &other, 4095, (Number::ShortList, 2)),
        (&ordered, 0, &vec![], 0, (Number::ShortList, 1)),
        (&ordered, 4096, &long, 0, (Number::Overlong, 2)),
        (&long, 0, &long, 4096, (Number::Overlong, 1)),
    ] {
        let (result, a, b) = left(first, first_len, second, second_len);
        assert_eq!(result, refused_text(refusal.0, 0, refusal.1));
        assert_eq!((a, b), unchanged(first_len, second_len));
    }

    // Any other leaves `not 0` in all of both, whatever their lengths.
    for (first, first_len, second, second_len, text) in [
        (&vec![], 4096, &other, 4096, 1),
        (&vec![], 5000, &long, 10, 1),
        (&vec![], 4096, &other, 0, 1),
        (&ordered, 5000, &vec![], 4097, 2),
    ] {
        let (result, a, b) = left(first, first_len, second, second_len);
        assert_eq!(result, refused_text(Number::Malformed, 1, text));
        assert_eq!((a, b), (vec![2; first_len], vec![2; second_len]));
    }
}

#[test]
fn lists_lent_to_slip() {
    let circuit = text(&["(lines 3)", "(cn 0 2)", "(cn 1 2)", "(cn 0 2)", "(not 0)"]);
    let second = text(&["(lines 3)", "(cn 1 2)", "(not 0)"]);
    let steps = text(&["(pass 2)", "(merge 1)"]);
    let long = vec![b'('; 60001];

    // What two lists of these lengths, full of 7, hold after the call.
    let left = |texts: [&[u8]; 3], first_len, second_len| {
        let (mut first_list, mut second_list) = (vec![7; first_len], vec![7; second_len]);
        let [first, steps, second] = texts;
        let result = lent::slip(first, &mut first_list, steps, second, &mut second_list);
        (result, first_list, second_list)
    };

    let (result, a, b) = left([&circuit, &steps, &second], 4096, 5000);
    assert_eq!(result, Ok(()));
    assert_eq!(a[..2], [274, 2]);
    assert_eq!(a[2..], [2; 4094]);
    assert_eq!(b[..2], [274, 2]);
    assert_eq!(b[2..], [2; 4998]);
    // As read, where there is no step: nothing is reduced.
    let (result, a, b) = left([&circuit, b"", &circuit], 5000, 4096);
    assert_eq!(result, Ok(()));
    assert_eq!(a[..5], [270, 274, 270, 2, 2]);
    assert_eq!(b, a[..4096]);

    // Refusals 1 and 2 leave both lists as they were, also those of texts read before.
    for (texts, lens, number, text) in [
        ([&long[..], &long, &long], (0, 0), Number::Overlong, 1),
        ([&circuit, &long, &long], (4095, 0), Number::ShortList, 1),
        ([&circuit, &long, &long], (4096, 0), Number::Overlong, 2),
        ([&circuit, &steps, &long], (4096, 0), Number::Overlong, 3),
        ([&circuit, &steps, b""], (5000, 4095), Number::ShortList, 3),
    ] {
        let (result, a, b) = left(texts, lens.0, lens.1);
        assert_eq!(result, refused_text(number, 0, text));
        assert_eq!((a, b), (vec![7; lens.0], vec![7; lens.1]));
    }

    // Any other leaves `not 0` in all of both, whatever their lengths.
    for (texts, lens, (number, line, text)) in [
        (
            [&b""[..], &long, &long],
            (4096, 10),
            (Number::Malformed, 1, 1),
        ),
        (
            [&circuit, b"\n", &long],
            (5000, 0),
            (Number::Malformed, 1, 2),
        ),
        (
            [&circuit, &steps, b""],
            (4096, 4097),
            (Number::Malformed, 1, 3),
        ),
        (
            [&circuit, &steps, b"(lines 4)\n"],
            (4096, 4096),
            (Number::DifferentLines, 0, 0),
        ),
        (
            [&circuit, b"(pass 4)\n", &second],
            (4096, 5000),
            (Number::NotAllowed, 1, 2),
        ),
        (
            [&circuit, &steps, &circuit],
            (5000, 4096),
            (Number::OtherEnd, 0, 0),
        ),
    ] {
        let (result, a, b) = left(texts, lens.0, lens.1);
        assert_eq!(result, refused_text(number, line, text));
        assert_eq!((a, b), (vec![2; lens.0], vec![2; lens.1]));
    }
}

/// The words are those of README's table.
#[test]
fn refusals_in_words() {
    let page = include_str!("../../../README.md");
    for (place, number) in Number::ALL.into_iter().enumerate() {
        let row = format!("| {} | {} |", place + 1, number.words());
        assert_eq!(number as usize, place + 1);
        assert!(page.lines().any(|line| line == row), "{row}");
    }
}

#[test]
fn numbers_that_no_gate_has() {
    // A NOT has power 2, no other gate has power 0 or its target as control, and
    // 4,224 would be on line 32.
    for record in [0, 1, 3, 4, 5, 6, 7, 8, 4224, u16::MAX] {
        assert_eq!(lent::gate(record), None);
    }
    let gates = (0..=u16::MAX).filter_map(lent::gate).count();
    assert_eq!(gates, 32 + 32 * 31 * 3);
}
