//! The C function that joins two texts against the peer, on many thousands of pairs:
//! number, line, text and count, every record and byte lent, and what stands beside
//! them. Where order 7 says the answer by itself (the line of the join's own 9,
//! different line counts, a circuit and its inverse, circuits of known lists), it is
//! asserted without the peer too; and so are the laws between the answers of the
//! library: the inverse of the inverse, a join with the inverse, a join and the
//! reduction of both texts in one.

use crate::built::{self, Drawn};
use crate::chain::{redrawn, STEPS};
use crate::circuit::{self, Gate};
use crate::random::Random;
use crate::report::{shown, Parts, Report};
use crate::subject::{call, holds, join, Area};
use crate::texts;
use peer::joining;
use peer::several::Outcome;
use peer::Job;

/// The numbers that come with text 0, 1 and 2; text 0 is neither of the two.
const NUMBERS: [&[usize]; 3] = [&[0, 10, 11], &[1, 2, 3, 4, 5, 9], &[1, 3, 4, 5, 9]];
/// Lengths of the list: all those below 4,096 are short.
const LENGTHS: [usize; 6] = [0, 1, 4_095, 4_096, 4_097, 5_000];
/// An answer area that has room for every answer, and one that has more.
const LONGEST: [usize; 2] = [45_067, 50_000];
const MOST: usize = 4_096;
const FEWEST_PAIRS: u64 = 80_000;
/// How often, at least, the join's own 9 has to come up, and joins of 4,094 to 4,096
/// gates that are accepted.
const FEWEST_OVER: u64 = 5_500;
const FEWEST_FULL: u64 = 2_400;

struct Joins {
    report: Report,
    random: Random,
    /// How many pairs were joined, each with several areas.
    pairs: u64,
    /// How often each number came up, for each text number.
    numbers: [[u64; 12]; 3],
    /// How often the join's own 9 came up.
    over: u64,
    /// How often gates that are nearly too many were accepted.
    full: u64,
    /// How many steps of each kind led to the redrawings.
    steps: [u64; STEPS.len()],
}

/// What the library gave for two texts.
struct Answer {
    outcome: Outcome,
    list: Area<u16>,
    answer: Area<u8>,
}

impl Answer {
    /// The text that was written.
    fn text(&self) -> &[u8] {
        let count = self.outcome.count as usize;
        self.answer.inside().get(..count).unwrap_or_default()
    }
}

pub fn run() -> Report {
    let mut joins = Joins {
        report: Report::new("joins"),
        random: Random::seeded(20_260_907),
        pairs: 0,
        numbers: [[0; 12]; 3],
        over: 0,
        full: 0,
        steps: [0; STEPS.len()],
    };
    joins.run_parts(&[
        ("joins of known lists", Joins::known),
        ("random circuits", Joins::random),
        ("a circuit and its inverse", Joins::inverses),
        ("one gate from the inverse", Joins::nearly),
        ("laws of three circuits", Joins::laws),
        ("one text twice, in one area", Joins::one_area),
        ("other numbers of lines", Joins::other_lines),
        ("every refusal of either text", Joins::refusals),
        ("every single change of small texts", Joins::every_change),
        ("damaged texts", Joins::damaged),
        ("sizes of text and list", Joins::sizes),
        ("every number of gates in the first", Joins::every_first),
        ("around 4,096 gates together", Joins::around_the_most),
        ("long circuits and their inverses", Joins::long_inverses),
        ("long circuits", Joins::long),
    ]);
    joins.tell();
    joins.report
}

impl Parts for Joins {
    fn report(&mut self) -> &mut Report {
        &mut self.report
    }

    fn given(&self) -> Option<(u64, &'static str)> {
        Some((self.pairs, "pairs"))
    }
}

impl Joins {
    /// Tells how often everything came up; what never did, and a number that a text
    /// can't have but had, has failed.
    fn tell(&mut self) {
        for (text, (numbers, possible)) in self.numbers.iter().zip(NUMBERS).enumerate() {
            let told: Vec<String> = possible
                .iter()
                .map(|&number| format!("{number}: {}", numbers[number]))
                .collect();
            println!("joins: numbers with text {text}: {}", told.join(", "));
            for (number, &times) in numbers.iter().enumerate() {
                self.report
                    .case((times > 0) == possible.contains(&number), || {
                        format!("number {number} came up {times} times with text {text}")
                    });
            }
        }
        let told: Vec<String> = STEPS
            .iter()
            .zip(self.steps)
            .map(|(name, times)| format!("{name} {times}"))
            .collect();
        println!("joins: redrawings by {}", told.join(", "));
        for (name, times) in STEPS.iter().zip(self.steps) {
            self.report
                .case(times > 0, || format!("{name} never came up"));
        }
        let (pairs, over, full) = (self.pairs, self.over, self.full);
        println!(
            "joins: {pairs} pairs, {over} times the join's own 9, {full} joins of 4,094 to 4,096 \
             gates accepted"
        );
        for (name, times, fewest) in [
            ("pairs", pairs, FEWEST_PAIRS),
            ("times the join's own 9", over, FEWEST_OVER),
            ("full joins", full, FEWEST_FULL),
        ] {
            self.report
                .case(times >= fewest, || format!("only {times} {name}"));
        }
    }

    /// One call on lent areas of these lengths, everything compared.
    fn case(&mut self, texts: [&[u8]; 2], list_len: usize, answer_len: usize) -> Answer {
        // Junk that is no record of a gate.
        let junk = 5_000 + (self.random.next() % 60_000) as u16;
        let junk_byte = self.random.next() as u8;
        let text_areas = texts.map(|text| Area::holding(text, junk_byte));
        let mut list = Area::filled(list_len, junk);
        let mut answer = Area::filled(answer_len, junk_byte);
        let outcome = join(text_areas.each_ref(), &mut list, &mut answer);

        let mut expected_list = vec![junk; list_len];
        let mut expected_answer = vec![junk_byte; answer_len];
        let expected = joining::join(texts[0], &mut expected_list, texts[1], &mut expected_answer);
        self.count(outcome);
        let wrong = if outcome != expected {
            "the outcome differs"
        } else if list.inside() != expected_list {
            "the gate list differs"
        } else if answer.inside() != expected_answer {
            "the answer area differs"
        } else if (0..2).any(|which| text_areas[which].inside() != texts[which]) {
            "a text was changed"
        } else if !(list.guards_hold(junk)
            && answer.guards_hold(junk_byte)
            && text_areas.iter().all(|area| area.guards_hold(junk_byte)))
        {
            "the memory beside an area was changed"
        } else if !numbers_hold(outcome, list_len, answer_len) {
            "not what the papers say of the numbers"
        } else {
            ""
        };
        self.report.case(wrong.is_empty(), || {
            let first = list
                .inside()
                .iter()
                .zip(&expected_list)
                .position(|(a, b)| a != b);
            format!(
                "list of {list_len}, answer area of {answer_len}: {wrong}; got {outcome:?}, \
                 expected {expected:?}, first record that differs {first:?}; {}",
                shown_pair(texts)
            )
        });
        Answer {
            outcome,
            list,
            answer,
        }
    }

    fn count(&mut self, outcome: Outcome) {
        let (number, text) = (outcome.number as usize, outcome.text as usize);
        let numbers = self.numbers.get_mut(text);
        if let Some(times) = numbers.and_then(|n| n.get_mut(number)) {
            *times += 1;
        }
        // The 4,097th gate of a text by itself stands on line 4,098.
        self.over += u64::from((number, text) == (9, 2) && outcome.line < 4_098);
    }

    /// A pair with an ample area, and with others: where it is accepted, empty, one
    /// byte short, fitting, larger by one and shorter; else empty and short ones, with
    /// which the refusal is the same.
    fn pair(&mut self, texts: [&[u8]; 2], list_len: usize) -> Answer {
        self.pairs += 1;
        let longest = self.random.pick(&LONGEST);
        let ample = self.case(texts, list_len, longest);
        let accepted = ample.outcome.number == 0;
        let fitting = ample.text().len().max(1);
        let shorter = self.random.below(fitting);
        let lengths = if accepted {
            vec![0, fitting - 1, fitting, fitting + 1, shorter]
        } else {
            vec![0, self.random.between(1, 30)]
        };
        for answer_len in lengths {
            let other = self.case(texts, list_len, answer_len);
            let right = if accepted && answer_len < fitting {
                other.outcome == refused(10, 0, 0)
                    && holds(&other.list, &[])
                    && other.answer.inside().windows(2).all(|two| two[0] == two[1])
            } else {
                other.outcome == ample.outcome
                    && (!accepted
                        || (other.list.inside() == ample.list.inside()
                            && other.text() == ample.text()))
            };
            self.report.case(right, || {
                format!(
                    "answer area of {answer_len}: {:?}, with an ample one {:?}, or other bytes; {}",
                    other.outcome,
                    ample.outcome,
                    shown_pair(texts)
                )
            });
        }
        ample
    }

    /// A pair in both orders, with some lengths of the list.
    fn both(&mut self, texts: [&[u8]; 2]) {
        for texts in [texts, [texts[1], texts[0]]] {
            let list_len = self.list_len();
            self.pair(texts, list_len);
        }
    }

    /// A list that is seldom short.
    fn list_len(&mut self) -> usize {
        match self.random.below(12) {
            0 => self.random.pick(&LENGTHS),
            _ => 4_096,
        }
    }

    /// A list that no text is refused for.
    fn whole_list(&mut self) -> usize {
        self.random.pick(&[4_096, 4_096, 4_097, 5_000])
    }

    /// The answer that two accepted texts have to get, by the words in `said`.
    fn gives(&mut self, said: &str, texts: [&[u8]; 2], expected: &[u8]) {
        let list_len = self.whole_list();
        let got = self.pair(texts, list_len);
        self.accepted(said, texts, &got, expected);
    }

    /// Whether this answer was given, with its gates in the list.
    fn accepted(&mut self, said: &str, texts: [&[u8]; 2], got: &Answer, expected: &[u8]) {
        let records = circuit::read(expected).map(|(_, gates)| circuit::records(&gates));
        let right = got.outcome == Outcome::success(expected.len() as u64)
            && got.text() == expected
            && records.is_some_and(|records| holds(&got.list, &records));
        self.report.case(right, || {
            format!(
                "{said}: got {:?} {}, expected {}, or another list; {}",
                got.outcome,
                shown(got.text()),
                shown(expected),
                shown_pair(texts)
            )
        });
    }

    /// What the library answers to a circuit text, by itself.
    fn answer(&mut self, job: Job, text: &[u8]) -> Vec<u8> {
        let mut list = Area::filled(4_096, 0xffff);
        let mut answer = Area::filled(LONGEST[0], b'?');
        let outcome = call(job, &Area::holding(text, b'?'), &mut list, &mut answer);
        self.report.case(outcome.number == 0, || {
            format!("{job:?} gives {outcome:?}; text {}", shown(text))
        });
        answer.inside()[..outcome.bytes as usize].to_vec()
    }

    /// What the library answers to two, by itself.
    fn joined(&mut self, texts: [&[u8]; 2]) -> Vec<u8> {
        let got = self.case(texts, 4_096, LONGEST[0]);
        self.pairs += 1;
        self.report.case(got.outcome.number == 0, || {
            format!("join gives {:?}; {}", got.outcome, shown_pair(texts))
        });
        got.text().to_vec()
    }

    fn same(&mut self, said: &str, answers: [&[u8]; 2], texts: &[&[u8]]) {
        self.report.case(answers[0] == answers[1], || {
            let texts: Vec<String> = texts.iter().map(|text| shown(text)).collect();
            format!(
                "{said}: {} and {}; {}",
                shown(answers[0]),
                shown(answers[1]),
                texts.join(" and ")
            )
        });
    }

    fn gates(&mut self, lines: u8, most: usize) -> Vec<Gate> {
        let count = self.random.below(most + 1);
        texts::gates(&mut self.random, lines, count)
    }

    /// A redrawing of at most so many gates.
    fn redrawn(&mut self, lines: u8, gates: &[Gate], tries: usize, most: usize) -> Vec<Gate> {
        let tries = self.random.between(1, tries);
        redrawn(&mut self.random, lines, gates, tries, most, &mut self.steps)
    }

    /// Joins worked out by hand, with every area up to some length.
    fn known(&mut self) {
        for (first, second, expected) in KNOWN {
            let texts = [first.as_bytes(), second.as_bytes()];
            self.gives("by hand", texts, expected.as_bytes());
            for answer_len in 0..=expected.len() + 2 {
                let got = self.case(texts, 4_096, answer_len);
                let due = if answer_len < expected.len() {
                    refused(10, 0, 0)
                } else {
                    Outcome::success(expected.len() as u64)
                };
                self.report.case(got.outcome == due, || {
                    format!(
                        "answer area of {answer_len}: got {:?}, not {due:?}; {}",
                        got.outcome,
                        shown_pair(texts)
                    )
                });
            }
        }
    }

    /// Any circuits, seldom on different numbers of lines. The list expected comes from
    /// plain loops over both circuits in one, and from reduce on their text.
    fn random(&mut self) {
        for _ in 0..12_000 {
            let lines = texts::some_lines(&mut self.random);
            let most = self.random.pick(&[0, 2, 6, 14, 14, 40]);
            let [a, b] = [0, 1].map(|_| self.gates(lines, most));
            let texts = [&a, &b].map(|gates| circuit::text(lines, gates));
            let list = circuit::reduced(&[a.clone(), b.clone()].concat());
            let expected = circuit::text(lines, &list);
            self.gives("plain loops", [&texts[0], &texts[1]], &expected);
            let whole = circuit::text(lines, &[a, b].concat());
            let reduced = self.answer(Job::Reduce, &whole);
            self.same("reduce of both in one", [&reduced, &expected], &[&whole]);
        }
        for _ in 0..8_000 {
            let pair = [0, 1].map(|_| texts::circuit(&mut self.random, 20));
            self.both([&pair[0], &pair[1]]);
        }
    }

    /// A circuit with its inverse, as invert gives it, as it is drawn by hand and
    /// redrawn by passes and merges, in both orders: no gates. The inverse of the
    /// inverse is the reduced list.
    fn inverses(&mut self) {
        for _ in 0..6_000 {
            let lines = texts::some_lines(&mut self.random);
            let most = self.random.pick(&[2, 8, 16, 16, 60]);
            let gates = self.gates(lines, most);
            self.undone(lines, &gates, 100);
        }
    }

    fn undone(&mut self, lines: u8, gates: &[Gate], tries: usize) {
        let text = circuit::text(lines, gates);
        let none = circuit::text(lines, &[]);
        let by_hand = circuit::undone(gates);
        let again = self.redrawn(lines, &by_hand, tries, MOST - gates.len());
        let inverse = self.answer(Job::Invert, &text);
        let back = self.answer(Job::Invert, &inverse);
        let reduced = self.answer(Job::Reduce, &text);
        self.same("the inverse of the inverse", [&back, &reduced], &[&text]);
        let drawn = circuit::text(lines, &by_hand);
        let drawn_reduced = self.answer(Job::Reduce, &drawn);
        self.same(
            "the inverse by hand, reduced",
            [&inverse, &drawn_reduced],
            &[&text],
        );
        for undoing in [&inverse, &drawn, &circuit::text(lines, &again)] {
            self.gives("with its inverse", [&text, undoing], &none);
            self.gives("the inverse first", [undoing, &text], &none);
        }
    }

    /// Circuits that one gate keeps apart aren't linked (see `pairs`): so with one gate
    /// other than in the inverse something is left.
    fn nearly(&mut self) {
        for _ in 0..4_000 {
            let lines = texts::some_lines(&mut self.random);
            let gates = self.gates(lines, 16);
            let mut other = circuit::undone(&gates);
            let place = self.random.below(other.len() + 1);
            let new = Gate::random(&mut self.random, lines);
            match other.get(place) {
                Some(&old) if old != new && self.random.one_in(2) => other[place] = new,
                Some(_) if self.random.one_in(2) => {
                    other.remove(place);
                }
                _ => other.insert(place, new),
            }
            let other = self.redrawn(lines, &other, 60, MOST - 16);
            let texts = [&gates, &other].map(|gates| circuit::text(lines, gates));
            let list_len = self.whole_list();
            let got = self.pair([&texts[0], &texts[1]], list_len);
            let right = got.outcome.number == 0 && got.text() > &circuit::text(lines, &[])[..];
            self.report.case(right, || {
                format!(
                    "one gate from the inverse: {:?} {}; {}",
                    got.outcome,
                    shown(got.text()),
                    shown_pair([&texts[0], &texts[1]])
                )
            });
        }
    }

    /// What holds of any circuits on the same lines, by the library's answers.
    fn laws(&mut self) {
        for _ in 0..3_000 {
            let lines = texts::some_lines(&mut self.random);
            let [a, b, c] = [0, 1, 2].map(|_| self.gates(lines, 12));
            let drawn = [&a, &b].map(|gates| {
                let again = self.redrawn(lines, gates, 40, 2_000);
                circuit::text(lines, &again)
            });
            let [a, b, c] = [a, b, c].map(|gates| circuit::text(lines, &gates));
            let none = circuit::text(lines, &[]);
            let texts = [&a[..], &b, &c];
            let ab = self.joined([&a, &b]);
            let bc = self.joined([&b, &c]);
            let [left, right] = [self.joined([&ab, &c]), self.joined([&a, &bc])];
            self.same("three joined in two ways", [&left, &right], &texts);
            let redrawn = self.joined([&drawn[0], &drawn[1]]);
            self.same("redrawings joined", [&ab, &redrawn], &texts);
            let [inverse_a, inverse_b] = [&a, &b].map(|text| self.answer(Job::Invert, text));
            let inverse = self.answer(Job::Invert, &ab);
            let inverses = self.joined([&inverse_b, &inverse_a]);
            self.same("the inverse of a join", [&inverse, &inverses], &texts);
            let back = self.joined([&ab, &inverse_b]);
            let reduced = self.answer(Job::Reduce, &a);
            self.same("what was joined undone", [&back, &reduced], &texts);
            for pair in [[&a, &none], [&none, &a]] {
                let with_none = self.joined([pair[0], pair[1]]);
                self.same("joined with no gates", [&with_none, &reduced], &texts);
            }
        }
    }

    /// The two texts may be one area.
    fn one_area(&mut self) {
        for case in 0..3_000 {
            let lines = texts::some_lines(&mut self.random);
            let most = if case % 100 == 0 { 2_100 } else { 30 };
            let gates = self.gates(lines, most);
            let text = Area::holding(&circuit::text(lines, &gates), b'?');
            let mut list = Area::filled(4_096, 0xffff);
            let mut answer = Area::filled(LONGEST[0], b'?');
            let outcome = join([&text; 2], &mut list, &mut answer);
            let got = Answer {
                outcome,
                list,
                answer,
            };
            self.pairs += 1;
            let whole = circuit::text(lines, &[&gates[..], &gates].concat());
            let texts = [text.inside(); 2];
            if 2 * gates.len() <= MOST {
                let expected = self.answer(Job::Reduce, &whole);
                self.accepted("one area", texts, &got, &expected);
            } else {
                self.refused("one area", texts, &got, over_the_most(gates.len()));
            }
            let whole = text.guards_hold(b'?') && got.answer.guards_hold(b'?');
            self.report.case(whole && got.list.guards_hold(0xffff), || {
                "one area: the memory beside an area was changed".to_string()
            });
        }
    }

    /// Whether this refusal was given, which is neither 1 nor 2, with what it leaves.
    fn refused(&mut self, said: &str, texts: [&[u8]; 2], got: &Answer, due: Outcome) {
        let right = got.outcome == due && holds(&got.list, &[]);
        self.report.case(right, || {
            format!(
                "{said}: got {:?}, not {due:?}, or another list; {}",
                got.outcome,
                shown_pair(texts)
            )
        });
    }

    /// Different numbers of lines: 11, whatever the gates.
    fn other_lines(&mut self) {
        let different = refused(11, 0, 0);
        for lines in 1..=32 {
            for other_lines in 1..=32 {
                let texts = [lines, other_lines].map(|n| circuit::text(n, &[]));
                let texts = [&texts[0][..], &texts[1]];
                if lines == other_lines {
                    self.gives("no gates", texts, texts[0]);
                } else {
                    let list_len = self.whole_list();
                    let got = self.pair(texts, list_len);
                    self.refused("no gates", texts, &got, different);
                }
            }
        }
        for case in 0..4_000 {
            let lines = self.random.between(1, 31) as u8;
            let more = self.random.between(usize::from(lines) + 1, 32) as u8;
            let gates = self.gates(lines, 12);
            let other = match self.random.below(3) {
                0 => gates.clone(),
                1 => circuit::undone(&gates),
                _ => self.gates(more, 12),
            };
            let texts = [circuit::text(lines, &gates), circuit::text(more, &other)];
            let texts = [&texts[case % 2][..], &texts[1 - case % 2]];
            let list_len = self.whole_list();
            let got = self.pair(texts, list_len);
            self.refused("other lines", texts, &got, different);
        }
        // Gates that are together too many are not looked at.
        for count in [1, 2_048, 4_095, 4_096] {
            for other in [1, 2_049, 4_096] {
                let [lines, more] = self.random.pick(&[[1, 2], [9, 10], [31, 32], [2, 32]]);
                let texts = [(lines, count), (more, other)].map(|(lines, count)| {
                    circuit::text(lines, &texts::gates_of(&mut self.random, lines, count))
                });
                for texts in [[&texts[0][..], &texts[1]], [&texts[1], &texts[0]]] {
                    let got = self.pair(texts, 4_096);
                    self.refused("many on other lines", texts, &got, different);
                }
            }
        }
    }

    /// Every refusal in either text and in both, with every length of the list, and
    /// areas that are empty, too short for any answer and ample. What has to come back
    /// is known of each text by itself.
    fn refusals(&mut self) {
        let known = self.known_texts();
        for first in &known {
            for second in &known {
                self.pairs += 1;
                for list_len in [0, 4_095, 4_096, 5_000] {
                    for answer_len in [0, 9, 50_000] {
                        let texts = [&first.text[..], &second.text];
                        let got = self.case(texts, list_len, answer_len);
                        let due = due(first, second, list_len, answer_len);
                        let right = (got.outcome.number, got.outcome.line, got.outcome.text) == due
                            && match due.0 {
                                0 => true,
                                1 | 2 => got.list.inside().iter().all(|&record| record >= 5_000),
                                _ => holds(&got.list, &[]),
                            };
                        self.report.case(right, || {
                            format!(
                                "list of {list_len}, area of {answer_len}: got {:?}, the rules say \
                                 {due:?}; {}",
                                got.outcome,
                                shown_pair(texts)
                            )
                        });
                    }
                }
            }
        }
    }

    /// Texts with what each is refused with on a whole list, or its lines and gates.
    fn known_texts(&mut self) -> Vec<Known> {
        let held = alternating(MOST);
        let nots = vec![Gate::Not { target: 31 }; MOST];
        let good = |lines: u8, gates: &[Gate]| Known {
            text: circuit::text(lines, gates),
            refusal: (0, 0),
            lines,
            gates: gates.len(),
        };
        let bad = |text: &[u8], number, line| Known {
            text: text.to_vec(),
            refusal: (number, line),
            lines: 0,
            gates: 0,
        };
        let full = circuit::text(32, &held);
        let mut overlong = full.clone();
        overlong.resize(60_001, b'\n');
        let some = texts::gates(&mut self.random, 3, 5);
        vec![
            good(3, &some),
            good(3, &[]),
            good(32, &[]),
            good(32, &held[..1]),
            good(32, &held[..2_048]),
            good(32, &nots[..2_049]),
            good(32, &nots[..4_095]),
            good(32, &held),
            good(32, &nots),
            good(31, &vec![Gate::Not { target: 0 }; MOST]),
            bad(b"", 3, 1),
            bad(b"(lines 3)\n(cn 0 1)\n(v 1 2)", 3, 3),
            bad(b"(lines 3)\n(mct (0 1) 2)\n", 3, 2),
            bad(b"(lines 3)\n(cn 0 1)\n(v -1 2)\n", 3, 3),
            bad(b"(lines 3)\n(keep 2)\n(cn 0 1)\n", 3, 2),
            bad(&overlong[..60_000], 3, 4_098),
            bad(b"(lines 33)\n", 4, 1),
            bad(b"(lines 4)\n(cn 0 1)\n(v 1 4)\n(v 1 1)\n", 4, 3),
            bad(b"(lines 3)\n(v 1 1)\n(not 3)\n", 5, 2),
            bad(&[&full[..], b"(not 0)\n"].concat(), 9, 4_098),
            bad(&overlong, 1, 0),
        ]
    }

    fn every_change(&mut self) {
        let circuits = texts::SMALL.iter().filter(|text| !text.contains("mct"));
        for text in circuits {
            for changed in texts::every_change(text.as_bytes()) {
                let texts = [&changed[..], text.as_bytes()];
                self.pairs += 1;
                for texts in [texts, [texts[1], texts[0]]] {
                    let answer_len = self.random.pick(&[0, 10, 30, 200]);
                    self.case(texts, 4_096, answer_len);
                }
            }
        }
        for number in 0..=130 {
            for zeros in ["", "0", "00", "-"] {
                for text in [
                    format!("(lines {zeros}{number})\n"),
                    format!("(lines 32)\n(not {zeros}{number})\n"),
                    format!("(lines 32)\n(vp {zeros}{number} 1)\n"),
                    format!("(lines 32)\n(v 1 {zeros}{number})\n"),
                ] {
                    self.both([b"(lines 32)\n(not 31)\n", text.as_bytes()]);
                }
            }
        }
    }

    fn damaged(&mut self) {
        for _ in 0..6_000 {
            let lines = texts::some_lines(&mut self.random);
            let pair = [0, 1].map(|_| {
                let text = circuit::text(lines, &self.gates(lines, 8));
                match self.random.below(5) {
                    0 | 1 => text,
                    2 => texts::wild(&mut self.random, false),
                    _ => texts::damaged(&mut self.random, &text),
                }
            });
            self.both([&pair[0], &pair[1]]);
        }
    }

    fn sizes(&mut self) {
        let small = b"(lines 3)\n(cn 0 1)\n(v 1 2)\n";
        let malformed = b"(lines 3)\n(cn 0 1)\n(v 1 2)";
        for size in [59_999, 60_000, 60_001, 60_002, 65_536, 100_000] {
            for _ in 0..8 {
                let text = texts::of_size(&mut self.random, size);
                let other_size = self.random.pick(&[59_999, 60_000, 60_001, 65_536]);
                let other = texts::of_size(&mut self.random, other_size);
                for second in [&small[..], malformed, b"", &other] {
                    self.both([&text, second]);
                }
            }
        }
        for list_len in [0, 1, 2, 4_094, 4_095, 4_096, 4_097, 5_000, 65_536, 70_000] {
            for second in [&small[..], malformed, b"", b"(lines 4)\n"] {
                for texts in [[&small[..], second], [second, small]] {
                    self.pair(texts, list_len);
                }
            }
        }
        // 4,095 to 4,098 gates in one text, the last perhaps against an earlier rule.
        for count in 4_095..=4_098 {
            let lines = self.random.between(2, 32) as u8;
            let gates = texts::gates_of(&mut self.random, lines, count);
            let text = circuit::text(lines, &gates);
            let other = circuit::text(lines, &gates[..1]);
            self.both([&text, &other]);
            let last = circuit::text(lines, &gates[..count - 1]);
            for line in ["(not 32)\n", "(cn 0 0)\n", "(not 0)", "(not  0)\n", "\n"] {
                let changed = [&last, line.as_bytes()].concat();
                self.both([&changed, &other]);
            }
        }
    }

    /// A first text of each number of gates, and a second that is one gate over, all of
    /// which vanish; for some of them also one that is not.
    fn every_first(&mut self) {
        let nots = circuit::text(1, &[Gate::Not { target: 0 }; MOST]);
        // Line 1 has ten bytes, each NOT eight.
        let text = |gates: usize| &nots[..10 + 8 * gates];
        for first in 0..=MOST {
            let room = MOST - first;
            if first > 0 {
                let texts = [text(first), text(room + 1)];
                let got = self.case(texts, 4_096, 100);
                self.pairs += 1;
                self.refused("one gate over", texts, &got, over_the_most(first));
            }
            if first % 4 == 0 {
                let texts = [text(first), text(room)];
                let got = self.case(texts, 4_096, 100);
                self.pairs += 1;
                self.full += 1;
                self.accepted("as many as may be", texts, &got, text(0));
            }
        }
    }

    /// Circuits of 4,094 to 4,098 gates, cut in two at many places: those of at most
    /// 4,096 get the list that the definitions give, the others 9, whatever is left of
    /// their gates; on different numbers of lines it is 11.
    fn around_the_most(&mut self) {
        for (turn, lines) in built::LINES.into_iter().enumerate() {
            for (name, kind) in built::KINDS {
                for total in 4_094..=4_098 {
                    let Drawn { gates, list } = kind(&mut self.random, lines, total);
                    let Some(gates) = self.filled_up(lines, gates, total) else {
                        continue;
                    };
                    let answer = circuit::text(lines, &list);
                    for place in CUTS {
                        let first = match place {
                            Some(first) => first,
                            None => self.random.below(MOST + 1),
                        };
                        if total - first <= MOST {
                            self.cut(name, lines, &gates, first, &answer, turn);
                        }
                    }
                }
            }
        }
    }

    /// One circuit as two, the first of so many gates.
    fn cut(
        &mut self,
        name: &str,
        lines: u8,
        gates: &[Gate],
        first: usize,
        answer: &[u8],
        turn: usize,
    ) {
        let (front, rest) = gates.split_at(first);
        let other_lines = if lines < 32 && (first + turn) % 8 == 0 {
            lines + 1
        } else {
            lines
        };
        let texts = [
            circuit::text(lines, front),
            circuit::text(other_lines, rest),
        ];
        let texts = [&texts[0][..], &texts[1]];
        let answer_len = match self.random.below(6) {
            0 => answer.len(),
            1 => answer.len() - 1,
            2 => 0,
            _ => LONGEST[0],
        };
        let list_len = self.whole_list();
        let got = self.case(texts, list_len, answer_len);
        self.pairs += 1;
        let said = format!("{name}, {} and {} gates", front.len(), rest.len());
        if other_lines != lines {
            self.refused(&said, texts, &got, refused(11, 0, 0));
        } else if gates.len() > MOST {
            self.refused(&said, texts, &got, over_the_most(first));
        } else if answer_len < answer.len() {
            self.refused(&said, texts, &got, refused(10, 0, 0));
        } else {
            self.full += 1;
            self.accepted(&said, texts, &got, answer);
        }
    }

    /// A circuit linked to the given one, with exactly so many gates, by pairs that
    /// vanish and one gate that is split in two; none if there is no such gate.
    fn filled_up(&mut self, lines: u8, gates: Vec<Gate>, total: usize) -> Option<Vec<Gate>> {
        let mut gates = gates;
        while gates.len() + 2 <= total {
            let gate = Gate::random(&mut self.random, lines);
            let place = self.random.below(gates.len() + 1);
            gates.splice(place..place, [gate, gate.undone()]);
        }
        if gates.len() < total {
            let of_power = |power, gate| match gate {
                Gate::Powered {
                    control, target, ..
                } => Gate::Powered {
                    power,
                    control,
                    target,
                },
                not => not,
            };
            let place = gates
                .iter()
                .position(|gate| matches!(gate, Gate::Powered { .. }))?;
            let Gate::Powered { power, .. } = gates[place] else {
                return None;
            };
            let halves = [[2, 3], [1, 1], [1, 2]][usize::from(power) - 1];
            let halves = halves.map(|power| of_power(power, gates[place]));
            gates.splice(place..=place, halves);
        }
        Some(gates)
    }

    /// Circuits of about half the most gates, with their inverses: no gates where they
    /// are together at most 4,096, and else 9, though nothing would be left.
    fn long_inverses(&mut self) {
        for lines in built::LINES {
            for count in [1_000, 2_046, 2_047, 2_048, 2_049, 2_050, 4_096] {
                let gates = texts::gates_of(&mut self.random, lines, count);
                if count <= 2_048 {
                    self.undone(lines, &gates, 2_000);
                    continue;
                }
                let texts = [gates.clone(), circuit::undone(&gates)]
                    .map(|gates| circuit::text(lines, &gates));
                for texts in [[&texts[0][..], &texts[1]], [&texts[1], &texts[0]]] {
                    let got = self.pair(texts, 4_096);
                    self.refused("with its inverse", texts, &got, over_the_most(count));
                }
                // By the inverse that invert gives, which may be short enough.
                let inverse = self.answer(Job::Invert, &texts[0]);
                let left = inverse.iter().filter(|&&byte| byte == b'\n').count() - 1;
                let none = circuit::text(lines, &[]);
                for (pair, first) in [
                    ([&texts[0], &inverse], count),
                    ([&inverse, &texts[0]], left),
                ] {
                    let pair = pair.map(|text| &text[..]);
                    if count + left <= MOST {
                        self.gives("with its inverse, reduced", pair, &none);
                    } else {
                        let got = self.pair(pair, 4_096);
                        self.refused("inverse, reduced", pair, &got, over_the_most(first));
                    }
                }
            }
        }
    }

    fn long(&mut self) {
        for case in 0..60 {
            let lines = self.random.pick(&[2, 3, 6, 16, 32]);
            let most = if case % 4 == 0 { 2_048 } else { 800 };
            let pair = [0, 1].map(|_| {
                let count = self.random.between(most / 2, most);
                texts::gates(&mut self.random, lines, count)
            });
            let whole = circuit::text(lines, &pair.concat());
            let texts = pair.map(|gates| circuit::text(lines, &gates));
            let reduced = self.answer(Job::Reduce, &whole);
            self.gives("long, reduced in one", [&texts[0], &texts[1]], &reduced);
            let damaged = texts::damaged(&mut self.random, &texts[1]);
            self.both([&texts[0], &damaged]);
        }
    }
}

/// Joins worked out by hand: first, second and answer.
const KNOWN: [(&str, &str, &str); 14] = [
    ("(lines 1)\n", "(lines 1)\n", "(lines 1)\n"),
    ("(lines 32)\n", "(lines 32)\n", "(lines 32)\n"),
    (
        "(lines 2)\n(v 0 1)\n",
        "(lines 2)\n",
        "(lines 2)\n(v 0 1)\n",
    ),
    (
        "(lines 2)\n",
        "(lines 2)\n(v 0 1)\n",
        "(lines 2)\n(v 0 1)\n",
    ),
    (
        "(lines 2)\n(v 0 1)\n",
        "(lines 2)\n(v 0 1)\n",
        "(lines 2)\n(cn 0 1)\n",
    ),
    (
        "(lines 2)\n(cn 0 1)\n",
        "(lines 2)\n(v 0 1)\n",
        "(lines 2)\n(vp 0 1)\n",
    ),
    (
        "(lines 2)\n(v 0 1)\n",
        "(lines 2)\n(vp 0 1)\n",
        "(lines 2)\n",
    ),
    (
        "(lines 3)\n(cn 0 2)\n(cn 1 2)\n",
        "(lines 3)\n(cn 0 2)\n",
        "(lines 3)\n(cn 1 2)\n",
    ),
    // The first before the second.
    (
        "(lines 3)\n(cn 0 1)\n",
        "(lines 3)\n(cn 1 2)\n",
        "(lines 3)\n(cn 0 1)\n(cn 1 2)\n",
    ),
    (
        "(lines 3)\n(cn 1 2)\n",
        "(lines 3)\n(cn 0 1)\n",
        "(lines 3)\n(cn 1 2)\n(cn 0 1)\n",
    ),
    (
        "(lines 2)\n(cn 0 1)\n",
        "(lines 2)\n(not 1)\n",
        "(lines 2)\n(not 1)\n(cn 0 1)\n",
    ),
    (
        "(lines 2)\n(not 0)\n(cn 0 1)\n",
        "(lines 2)\n(not 0)\n",
        "(lines 2)\n(not 0)\n(cn 0 1)\n(not 0)\n",
    ),
    // The list of an mct of two controls and its inverse, either way round.
    (
        "(lines 3)\n(v 0 2)\n(v 1 2)\n(cn 0 1)\n(vp 1 2)\n(cn 0 1)\n",
        "(lines 3)\n(cn 0 1)\n(vp 0 2)\n(v 1 2)\n(cn 0 1)\n(vp 1 2)\n",
        "(lines 3)\n",
    ),
    (
        "(lines 3)\n(cn 0 1)\n(vp 0 2)\n(v 1 2)\n(cn 0 1)\n(vp 1 2)\n",
        "(lines 3)\n(v 0 2)\n(v 1 2)\n(cn 0 1)\n(vp 1 2)\n(cn 0 1)\n",
        "(lines 3)\n",
    ),
];

/// How many gates the first text has, or any number.
const CUTS: [Option<usize>; 24] = [
    Some(0),
    Some(1),
    Some(2),
    Some(3),
    Some(64),
    Some(1_024),
    Some(2_047),
    Some(2_048),
    Some(2_049),
    Some(4_093),
    Some(4_094),
    Some(4_095),
    Some(4_096),
    None,
    None,
    None,
    None,
    None,
    None,
    None,
    None,
    None,
    None,
    None,
];

/// A text with its refusal on a whole list, or none, and then its lines and gates.
struct Known {
    text: Vec<u8>,
    refusal: (u64, u64),
    lines: u8,
    gates: usize,
}

/// Number, line and text that have to come back, by the order in which all is judged.
/// An area of at most nine bytes is too short for line 1.
fn due(first: &Known, second: &Known, list_len: usize, answer_len: usize) -> (u64, u64, u64) {
    match (first.refusal, second.refusal) {
        ((1, line), _) => (1, line, 1),
        _ if list_len < 4_096 => (2, 0, 1),
        ((number, line), _) if number > 0 => (number, line, 1),
        (_, (number, line)) if number > 0 => (number, line, 2),
        _ if first.lines != second.lines => (11, 0, 0),
        _ if first.gates + second.gates > MOST => (9, 4_098 - first.gates as u64, 2),
        _ if answer_len <= 9 => (10, 0, 0),
        _ => (0, 0, 0),
    }
}

fn refused(number: u64, line: u64, text: u64) -> Outcome {
    Outcome {
        number,
        line,
        text,
        count: 0,
    }
}

/// The join's own 9 where the first circuit has so many gates: line 1 and the gates
/// that there is room for come before the first one over.
fn over_the_most(first: usize) -> Outcome {
    refused(9, (4_096 - first + 2) as u64, 2)
}

/// So many gates on 32 lines that all stay.
fn alternating(count: usize) -> Vec<Gate> {
    let two = [(30, 31), (31, 30)].map(|(control, target)| Gate::Powered {
        power: 3,
        control,
        target,
    });
    (0..count).map(|place| two[place % 2]).collect()
}

/// What the papers say of the four numbers, whatever the texts.
fn numbers_hold(outcome: Outcome, list_len: usize, answer_len: usize) -> bool {
    let Outcome {
        number,
        line,
        text,
        count,
    } = outcome;
    let with_text = NUMBERS.get(text as usize);
    let with_line = matches!(number, 3 | 4 | 5 | 9);
    with_text.is_some_and(|numbers| numbers.contains(&(number as usize)))
        && with_line == (line > 0)
        && (number == 0) == (count > 0)
        && count <= answer_len as u64
        && (list_len >= 4_096 || matches!((number, text), (1, 1) | (2, 1)))
}

fn shown_pair(texts: [&[u8]; 2]) -> String {
    texts.map(shown).join(" and ")
}
