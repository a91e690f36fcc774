//! Negated controls without the peer: texts whose answer the order's sentences
//! give, and random cascades whose answer is held to others of the subject itself
//! and to the patterns that the cascade means.

use crate::circuit;
use crate::expansion;
use crate::meaning;
use crate::random::Random;
use crate::report::{shown, Report};
use crate::texts::{self, Mct, Signs};
use peer::Program;

/// What the subject answers to a text, as its program writes it.
pub type Ask<'a> = dyn FnMut(Program, &[u8]) -> Result<Vec<u8>, String> + 'a;

/// The most lines on which patterns are run.
const MOST_LINES: u8 = 6;

/// What has to come of a text.
#[derive(Clone, Copy, Debug)]
enum Due {
    /// This answer of map, whole.
    Answer(&'static str),
    /// An answer of map with so many gates.
    Gates(usize),
    /// Any answer of map.
    Accepted,
    /// Refused by map, with this number, at this line.
    Refused(u64, u64),
    /// Refused by reduce.
    NoCircuit(u64, u64),
}

use Due::{Accepted, Answer, Gates, NoCircuit, Refused};

struct Negated<'a> {
    report: &'a mut Report,
    random: &'a mut Random,
    ask: &'a mut Ask<'a>,
    /// How many texts of known answer had a minus sign, how many other cascades had
    /// a negated control, and how many of these were run on all patterns.
    texts: usize,
    cascades: usize,
    patterns: usize,
}

/// So many random cascades with signs, half as many without, and the texts whose
/// answer is known.
pub fn run<'a>(
    report: &'a mut Report,
    random: &'a mut Random,
    cascades: usize,
    ask: &'a mut Ask<'a>,
) {
    let mut negated = Negated {
        report,
        random,
        ask,
        texts: 0,
        cascades: 0,
        patterns: 0,
    };
    for (text, due) in known() {
        negated.known(&text, due);
    }
    negated.every_width();
    for case in 0..cascades + cascades / 2 {
        let signs = [Signs::Some, Signs::All, Signs::None][case % 3];
        negated.random(signs, case % 6 < 4);
    }
    let Negated {
        texts,
        cascades: signed,
        patterns,
        ..
    } = negated;
    println!(
        "negated controls: {texts} texts of known answer with a sign, {signed} cascades with a \
         negated control, {patterns} of them run on all patterns"
    );
    report.case(
        texts >= 200 && signed >= cascades && patterns >= cascades / 2,
        || "too few cases with signs".to_string(),
    );
}

impl Negated<'_> {
    fn known(&mut self, text: &str, due: Due) {
        self.texts += usize::from(text.contains('-'));
        let program = match due {
            NoCircuit(..) => Program::Reduce,
            _ => Program::Map,
        };
        let got = (self.ask)(program, text.as_bytes());
        let read = got.as_ref().ok().and_then(|answer| circuit::read(answer));
        let is = |answer: &str| got.as_deref() == Ok(answer.as_bytes());
        let right = match (due, &read) {
            (Answer(answer), _) => is(answer),
            (Gates(count), Some((_, gates))) => gates.len() == count,
            (Accepted, Some(_)) => true,
            (Refused(number, line) | NoCircuit(number, line), _) => {
                is(&format!("(turned-away {number} {line})\n"))
            }
            _ => false,
        };
        self.report.case(right, || {
            let got = got.as_ref().map(|answer| shown(answer));
            let text = shown(text.as_bytes());
            format!("{program:?}: got {got:?}, and not {due:?}; text {text}")
        });
        if program == Program::Map {
            self.quoted(text.as_bytes(), &got);
        }
    }

    /// Quote counts the gates that map writes, or refuses what map refuses.
    fn quoted(&mut self, text: &[u8], mapped: &Result<Vec<u8>, String>) {
        let Ok(mapped) = mapped else { return };
        let expected = match circuit::read(mapped) {
            Some((_, gates)) => format!("(quote {})\n", gates.len()).into_bytes(),
            None => mapped.clone(),
        };
        let got = (self.ask)(Program::Quote, text);
        self.report.case(got == Ok(expected), || {
            format!(
                "quote: got {got:?}, where map answers {}; text {}",
                shown(mapped),
                shown(text)
            )
        });
    }

    /// Gates of every number of controls, as wide as may be.
    fn every_width(&mut self) {
        for k in 0..=15 {
            for signs in [Signs::None, Signs::Some, Signs::All] {
                let lines = self.random.between(17, 32) as u8;
                let gate = texts::mct(self.random, lines, k, signs);
                self.cascade(lines, &[gate]);
            }
        }
    }

    fn random(&mut self, signs: Signs, few_lines: bool) {
        let lines = if few_lines {
            self.random.between(2, usize::from(MOST_LINES)) as u8
        } else {
            texts::some_lines(self.random).max(2)
        };
        let (most_mcts, most_gates) = self.random.pick(&[(2, 60), (6, 100), (12, 160)]);
        let most_gates = if few_lines { most_gates } else { 2_000 };
        loop {
            let mcts = texts::mcts(self.random, lines, most_mcts, most_gates, signs);
            if signs == Signs::None || mcts.iter().any(has_negated) {
                return self.cascade(lines, &mcts);
            }
        }
    }

    /// One accepted cascade: its answer is the list that reduce gives to its NOTs,
    /// its expansion without signs and its NOTs, and the one that map gives where
    /// the NOTs are written as gates without controls; and it does what the cascade
    /// means.
    fn cascade(&mut self, lines: u8, mcts: &[Mct]) {
        let signed = mcts.iter().any(has_negated);
        self.cascades += usize::from(signed);
        let text = texts::cascade_text(lines, mcts);
        let got = (self.ask)(Program::Map, &text);
        self.quoted(&text, &got);
        let expanded = expansion::of_all(lines, mcts);
        let count: usize = mcts.iter().map(Mct::gates).sum();
        assert!(count == expanded.len() && count <= 4_096);
        self.same(
            Program::Reduce,
            &text,
            &got,
            &circuit::text(lines, &expanded),
        );
        let written: Vec<Mct> = mcts.iter().flat_map(with_written_nots).collect();
        if written.len() <= 256 {
            let written = texts::cascade_text(lines, &written);
            self.same(Program::Map, &text, &got, &written);
        }
        if lines > MOST_LINES {
            return;
        }
        self.patterns += usize::from(signed);
        let read = got.as_ref().ok().and_then(|answer| circuit::read(answer));
        let right = read.is_some_and(|(read_lines, gates)| {
            read_lines == lines
                && (0..1 << lines).all(|start| {
                    let end = meaning::cascade(mcts, start);
                    meaning::circuit(lines, &gates, start) == Some(end)
                })
        });
        self.report.case(right, || {
            let got = got.as_ref().map(|answer| shown(answer));
            format!("map: another pattern; got {got:?}; text {}", shown(&text))
        });
    }

    /// Whether a program answers another text as map answered the cascade.
    fn same(&mut self, program: Program, text: &[u8], got: &Result<Vec<u8>, String>, other: &[u8]) {
        let answer = (self.ask)(program, other);
        let answers = got.as_ref().is_ok_and(|got| got.starts_with(b"(lines "));
        self.report.case(answers && answer == *got, || {
            let [got, answer] =
                [got, &answer].map(|answer| answer.as_ref().map(|answer| shown(answer)));
            format!(
                "map gives {got:?}, {program:?} of the same with its NOTs written {answer:?}; \
                 texts {} and {}",
                shown(text),
                shown(other)
            )
        });
    }
}

fn has_negated(mct: &Mct) -> bool {
    mct.negated().next().is_some()
}

/// The gate without signs, with a gate without controls on each negated line
/// before and after it.
fn with_written_nots(mct: &Mct) -> Vec<Mct> {
    let nots: Vec<Mct> = mct
        .negated()
        .map(|target| Mct {
            controls: Vec::new(),
            target,
        })
        .collect();
    let mut gate = mct.clone();
    for control in &mut gate.controls {
        control.negated = false;
    }
    [nots.clone(), vec![gate], nots].concat()
}

/// An mct line with the first k lines as controls, of which the first so many are
/// negated.
fn mct(k: usize, negated: usize, target: usize) -> String {
    let controls: Vec<String> = (0..k)
        .map(|c| format!("{}{c}", if c < negated { "-" } else { "" }))
        .collect();
    format!("(mct ({}) {target})\n", controls.join(" "))
}

/// Texts with signs, and what the order says of them.
fn known() -> Vec<(String, Due)> {
    [answers(), forms(), sign_unseen(), limits()].concat()
}

/// Whole answers.
fn answers() -> Vec<(String, Due)> {
    let mut all = Vec::new();
    let mut add = |text: String, due| all.push((text, due));
    for (text, answer) in [
        (
            "(lines 2)\n(mct (-0) 1)\n",
            "(lines 2)\n(not 0)\n(cn 0 1)\n(not 0)\n",
        ),
        // tests/peer has how this one is found by hand.
        (
            "(lines 3)\n(mct (-0 -1) 2)\n",
            "(lines 3)\n(not 0)\n(not 1)\n(v 0 2)\n(v 1 2)\n(cn 0 1)\n(vp 1 2)\n(not 1)\n\
             (cn 0 1)\n(not 0)\n",
        ),
        // The NOTs between the gates vanish, and perhaps what they were between.
        (
            "(lines 3)\n(mct (-0) 1)\n(mct (-0) 2)\n",
            "(lines 3)\n(not 0)\n(cn 0 1)\n(cn 0 2)\n(not 0)\n",
        ),
        ("(lines 2)\n(mct (-0) 1)\n(mct (-0) 1)\n", "(lines 2)\n"),
        (
            "(lines 2)\n(mct (0) 1)\n(mct (-0) 1)\n",
            "(lines 2)\n(cn 0 1)\n(not 0)\n(cn 0 1)\n(not 0)\n",
        ),
        (
            "(lines 2)\n(mct () 0)\n(mct (-0) 1)\n",
            "(lines 2)\n(cn 0 1)\n(not 0)\n",
        ),
    ] {
        add(text.to_string(), Answer(answer));
    }
    all
}

/// What is in form, and what is not.
fn forms() -> Vec<(String, Due)> {
    let mut all = Vec::new();
    let mut add = |text: String, due| all.push((text, due));
    for controls in [
        "-0",
        "-0 1 -12",
        "0 -1 12",
        "-0 -1 -12",
        "-10",
        "-13",
        "0 1 12",
    ] {
        add(format!("(lines 14)\n(mct ({controls}) 5)\n"), Accepted);
    }
    for line in [
        "(mct (--1) 5)",
        "(mct (---1) 5)",
        "(mct (- 1) 5)",
        "(mct (-01) 5)",
        "(mct (-00) 5)",
        "(mct (-) 5)",
        "(mct (0 -) 5)",
        "(mct (- 0) 5)",
        "(mct (-0-1) 5)",
        "(mct (0-1) 5)",
        "(mct (+1) 5)",
        "(mct (-+1) 5)",
        "(mct (1-) 5)",
        "(mct (-1-) 5)",
        "(mct (1- 2) 5)",
        "(mct (-123) 5)",
        "(mct (-100) 5)",
        "(mct ( -1) 5)",
        "(mct (-1 ) 5)",
        "(mct (0  -1) 5)",
        "(mct (0) -1)",
        "(mct (-0) -1)",
        "(mct () -0)",
        "(mct (0) 1-)",
        "(mct -(0) 1)",
        "(mct (0)- 1)",
        "(mct (0) - 1)",
        "-(mct (0) 1)",
        "(-mct (0) 1)",
        "(mct (0) 1)-",
        "(not -0)",
        "-",
    ] {
        add(format!("(lines 14)\n{line}\n"), Refused(3, 2));
        let later = format!("(lines 14)\n(mct (-0) 1)\n{line}\n(mct (-14) 1)\n");
        add(later, Refused(3, 3));
    }
    for header in [
        "(lines -3)",
        "(lines -0)",
        "-(lines 3)",
        "(lines 3-)",
        "(lines --3)",
    ] {
        add(format!("{header}\n(mct (-0) 1)\n"), Refused(3, 1));
        add(format!("{header}\n"), NoCircuit(3, 1));
    }
    for line in [
        "(not -0)",
        "(not --0)",
        "(cn -0 1)",
        "(cn 0 -1)",
        "(cn -0 -1)",
        "(v -0 1)",
        "(v 0 -1)",
        "(vp -0 1)",
        "(vp 0 -1)",
        "(-not 0)",
        "(mct (0) 1)",
        "(mct (-0) 1)",
    ] {
        add(format!("(lines 3)\n(cn 0 1)\n{line}\n"), NoCircuit(3, 3));
    }
    for cut in ["(mct (-", "(mct (-0", "(mct (-0) 1)"] {
        add(format!("(lines 3)\n{cut}"), Refused(3, 2));
    }
    all
}

/// Rules 4 to 8 see the line and not the sign.
fn sign_unseen() -> Vec<(String, Due)> {
    let mut all = Vec::new();
    let mut add = |text: String, due| all.push((text, due));
    for (lines, line, number) in [
        (7, "(mct (-7) 0)", 4),
        (7, "(mct (-1 -7) 0)", 4),
        (7, "(mct (-0) 7)", 4),
        (1, "(mct (-1) 0)", 4),
        (32, "(mct (-32) 0)", 4),
        (32, "(mct (-99) 0)", 4),
        (3, "(mct (-2) 2)", 5),
        (3, "(mct (-0) 0)", 5),
        (3, "(mct (0 -2) 2)", 5),
        (4, "(mct (-3 -1 -7) 1)", 4),
        (4, "(mct (-3 -1 -1) 1)", 5),
        (4, "(mct (-3 -1 -0) 2)", 6),
        (4, "(mct (-0 -1 -3) 2)", 8),
        (4, "(mct (0 1 -3) 2)", 8),
        (4, "(mct (-0 -1 -7) -2)", 3),
    ] {
        add(format!("(lines {lines})\n{line}\n"), Refused(number, 2));
    }
    for controls in [
        "3 -3", "-3 3", "-3 -3", "-4 -3", "-4 3", "4 -3", "0 -0", "-0 0", "-0 -0", "-1 0", "1 -0",
        "-10 -9", "0 -4 3",
    ] {
        add(format!("(lines 14)\n(mct ({controls}) 5)\n"), Refused(6, 2));
    }
    for controls in ["3 -4", "-3 4", "-3 -4", "-9 -10", "-0 1", "0 -1"] {
        add(format!("(lines 14)\n(mct ({controls}) 5)\n"), Accepted);
    }
    for negated in [1, 8, 15, 16] {
        for (lines, number) in [(17, 8), (18, 7), (32, 7)] {
            let text = format!("(lines {lines})\n{}", mct(16, negated, 16));
            add(text, Refused(number, 2));
        }
    }
    for k in [3, 4, 9, 15] {
        for negated in [1, k / 2, k] {
            let gate = mct(k, negated, k);
            add(format!("(lines {})\n{gate}", k + 1), Refused(8, 2));
            add(format!("(lines {})\n{gate}", k + 2), Accepted);
        }
    }
    add("(lines 3)\n(mct (-0 1) 2)\n".to_string(), Gates(7));
    all
}

/// Rule 9, which counts the NOTs.
fn limits() -> Vec<(String, Due)> {
    let mut all = Vec::new();
    let mut add = |text: String, due| all.push((text, due));
    // Eleven gates of 15 controls are 4,092 gates; each sign is two more.
    let eleven = |first: usize, last: usize| {
        let others = mct(15, 0, 15).repeat(9);
        format!(
            "(lines 17)\n{}{others}{}",
            mct(15, first, 15),
            mct(15, last, 15)
        )
    };
    for (first, last) in [(0, 0), (1, 0), (0, 1), (2, 0), (0, 2), (1, 1)] {
        let text = eleven(first, last);
        add(text.clone(), Accepted);
        // What is left for the lines after them.
        let left = 4 - 2 * (first + last);
        let nots = |count| "(mct () 1)\n".repeat(count);
        add(format!("{text}{}", nots(left)), Accepted);
        let past = Refused(9, 13 + left as u64);
        add(format!("{text}{}", nots(left + 1)), past);
        let signed = "(mct (-0) 1)\n";
        let due = if left >= 3 { Accepted } else { Refused(9, 13) };
        add(format!("{text}{signed}"), due);
        let due = match left {
            4 => Accepted,
            2 => Refused(9, 14),
            _ => Refused(9, 13),
        };
        add(format!("{text}(mct () 1)\n{signed}"), due);
        add(format!("{text}(mct (-0 -1) 2)\n"), Refused(9, 13));
    }
    for (first, last) in [(3, 0), (0, 3), (2, 1), (1, 2), (15, 0), (0, 15), (15, 15)] {
        add(eleven(first, last), Refused(9, 12));
    }
    // All controls negated, they are of 402.
    let wide = mct(15, 15, 15);
    add(format!("(lines 17)\n{}", wide.repeat(10)), Accepted);
    add(format!("(lines 17)\n{}", wide.repeat(11)), Refused(9, 12));
    // The number of gates: 256 of three controls are 4,096.
    let many = |line: &str, count| format!("(lines 5)\n{}", line.repeat(count));
    add(many("(mct (-0) 1)\n", 256), Gates(0));
    add(many("(mct (-0) 1)\n", 255), Gates(3));
    add(many("(mct (-0) 1)\n", 257), Refused(9, 258));
    let full = many("(mct (0 1 2) 3)\n", 256);
    add(full.clone(), Accepted);
    add(full.replacen("(0 1 2)", "(0 -1 2)", 1), Refused(9, 257));
    add(many("(mct (-0 1 2) 3)\n", 227), Accepted);
    add(many("(mct (-0 1 2) 3)\n", 228), Refused(9, 229));
    add(many("(mct (-0 1 2) 3)\n", 257), Refused(9, 229));
    all
}
