//! The C function that compares two texts against the peer, on many thousands of pairs,
//! each in both orders: number, line, text and count, every record of both
//! lists, and what stands beside the areas. Where the orders say the answer by
//! themselves (redrawings are equal, circuits one gate apart are not, fewer lines
//! are less), it is asserted without the peer too.

use crate::chain::{redrawn, STEPS};
use crate::circuit::{self, Gate};
use crate::random::Random;
use crate::report::{shown, Parts, Report};
use crate::subject::{compare, Area};
use crate::texts;
use peer::comparison;
use peer::several::Outcome;
use peer::Program;
use std::cmp::Ordering;

const LESS: u64 = 0;
const EQUAL: u64 = 1;
const GREATER: u64 = 2;
const COUNTS: [&str; 3] = ["less", "equal", "greater"];
/// The numbers that a circuit text can be refused with.
const NUMBERS: [usize; 6] = [1, 2, 3, 4, 5, 9];
/// Lengths of a list: all those below 4,096 are short.
const LENGTHS: [usize; 6] = [0, 1, 4_095, 4_096, 4_097, 5_000];
/// The least lists that no text is refused for.
const WHOLE: [usize; 2] = [4_096; 2];
const FEWEST_PAIRS: u64 = 60_000;
/// Pairs in which a text has a minus sign, which no circuit has in form.
const FEWEST_SIGNED: u64 = 2_000;
const REDRAWINGS: u64 = 40_000;
const TRIPLES: usize = 6_000;

struct Pairs {
    report: Report,
    random: Random,
    /// How many pairs were compared, each in both orders.
    pairs: u64,
    /// How many of them had a minus sign in a text.
    signed: u64,
    /// How often each count came up.
    counts: [u64; 3],
    /// How often each number came up, for each text.
    numbers: [[u64; 10]; 2],
    /// How many steps of each kind led to the redrawings.
    steps: [u64; STEPS.len()],
}

/// What the library gave for two texts.
struct Answer {
    outcome: Outcome,
    lists: [Area<u16>; 2],
}

pub fn run() -> Report {
    let mut pairs = Pairs {
        report: Report::new("pairs"),
        random: Random::seeded(20_240_715),
        pairs: 0,
        signed: 0,
        counts: [0; 3],
        numbers: [[0; 10]; 2],
        steps: [0; STEPS.len()],
    };
    pairs.run_parts(&[
        ("random circuits", Pairs::random),
        ("redrawings", Pairs::redrawings),
        ("one gate apart", Pairs::one_gate_apart),
        ("fronts of reduced lists", Pairs::fronts),
        ("other numbers of lines", Pairs::other_lines),
        ("every refusal of either text", Pairs::refusals),
        ("every single change of small texts", Pairs::every_change),
        ("damaged texts", Pairs::damaged),
        ("limits", Pairs::limits),
        ("long circuits", Pairs::long),
        ("triples, by the library alone", Pairs::triples),
    ]);
    pairs.tell();
    pairs.report
}

impl Parts for Pairs {
    fn report(&mut self) -> &mut Report {
        &mut self.report
    }

    fn given(&self) -> Option<(u64, &'static str)> {
        Some((self.pairs, "pairs"))
    }
}

impl Pairs {
    /// Tells how often everything came up; what never did has failed.
    fn tell(&mut self) {
        let mut all = Vec::new();
        for (name, times) in COUNTS.iter().zip(self.counts) {
            all.push((name.to_string(), times));
        }
        for (text, numbers) in self.numbers.iter().enumerate() {
            for number in NUMBERS {
                all.push((format!("{number} of text {}", text + 1), numbers[number]));
            }
        }
        for (name, times) in STEPS.iter().zip(self.steps) {
            all.push((name.to_string(), times));
        }
        let told: Vec<String> = all.iter().map(|(name, n)| format!("{name} {n}")).collect();
        println!("pairs: {}", told.join(", "));
        for (name, times) in all {
            self.report
                .case(times > 0, || format!("{name} never came up"));
        }
        let pairs = self.pairs;
        let signed = self.signed;
        println!("pairs: {pairs} pairs, each in both orders, {signed} of them with a minus sign");
        self.report.case(signed >= FEWEST_SIGNED, || {
            format!("only {signed} pairs with a minus sign")
        });
        self.report
            .case(pairs >= FEWEST_PAIRS, || format!("only {pairs} pairs"));
    }

    /// One call on lent areas of these lengths, everything compared.
    fn case(&mut self, texts: [&[u8]; 2], lengths: [usize; 2]) -> Answer {
        // Junk that is no record of a gate, another one in each list.
        let junk = 5_000 + (self.random.next() % 60_000) as u16;
        let junk = [junk, junk ^ 1];
        let junk_byte = self.random.next() as u8;
        let text_areas = texts.map(|text| Area::holding(text, junk_byte));
        let mut lists = [0, 1].map(|which| Area::filled(lengths[which], junk[which]));
        let outcome = compare(text_areas.each_ref(), lists.each_mut());

        let mut expected_lists = [0, 1].map(|which| vec![junk[which]; lengths[which]]);
        let [first_list, second_list] = &mut expected_lists;
        let expected = comparison::compare(texts[0], first_list, texts[1], second_list);
        self.count(outcome);
        let wrong = if outcome != expected {
            "the outcome differs"
        } else if lists[0].inside() != expected_lists[0] {
            "list 1 differs"
        } else if lists[1].inside() != expected_lists[1] {
            "list 2 differs"
        } else if (0..2).any(|which| text_areas[which].inside() != texts[which]) {
            "a text was changed"
        } else if (0..2).any(|which| {
            !lists[which].guards_hold(junk[which]) || !text_areas[which].guards_hold(junk_byte)
        }) {
            "the memory beside an area was changed"
        } else if outcome.number == 0 && texts.iter().any(|text| text.contains(&b'-')) {
            "a circuit with a minus sign was accepted"
        } else {
            ""
        };
        self.report.case(wrong.is_empty(), || {
            let first = [0, 1].map(|which| {
                let list = lists[which].inside().iter();
                list.zip(&expected_lists[which]).position(|(a, b)| a != b)
            });
            format!(
                "lists of {lengths:?}: {wrong}; got {outcome:?}, expected {expected:?}, \
                 first records that differ {first:?}; {}",
                shown_pair(texts)
            )
        });
        Answer { outcome, lists }
    }

    fn count(&mut self, outcome: Outcome) {
        let (number, text) = (outcome.number as usize, outcome.text as usize);
        let times = match text {
            0 => self.counts.get_mut(outcome.count as usize),
            _ => self
                .numbers
                .get_mut(text - 1)
                .and_then(|n| n.get_mut(number)),
        };
        if let Some(times) = times {
            *times += 1;
        }
    }

    /// A pair in both orders; what the exchange has to exchange is asserted.
    fn both(&mut self, texts: [&[u8]; 2], lengths: [usize; 2]) -> [Outcome; 2] {
        let there = self.case(texts, lengths);
        let back = self.case([texts[1], texts[0]], [lengths[1], lengths[0]]);
        self.pairs += 1;
        self.signed += u64::from(texts.iter().any(|text| text.contains(&b'-')));
        self.report.case(exchanged(&there, &back), || {
            format!(
                "exchanging the texts: {:?}, then {:?}; {}",
                there.outcome,
                back.outcome,
                shown_pair(texts)
            )
        });
        [there.outcome, back.outcome]
    }

    /// A pair of accepted texts, and what the orders say of its count.
    fn accepted(&mut self, said: &str, texts: [&[u8]; 2], says: impl Fn(u64) -> bool) {
        let lengths = [0, 1].map(|_| self.random.pick(&[4_096, 4_096, 4_097, 5_000]));
        let [got, _] = self.both(texts, lengths);
        let right = got.number == 0 && got.text == 0 && says(got.count);
        self.report.case(right, || {
            format!("{said}: got {got:?}; {}", shown_pair(texts))
        });
    }

    /// A list that is seldom short.
    fn list_len(&mut self) -> usize {
        match self.random.below(12) {
            0 => self.random.pick(&LENGTHS),
            _ => 4_096,
        }
    }

    fn any_lists(&mut self, texts: [&[u8]; 2]) {
        let lengths = [self.list_len(), self.list_len()];
        self.both(texts, lengths);
    }

    fn gates(&mut self, lines: u8, most: usize) -> Vec<Gate> {
        let count = self.random.below(most + 1);
        texts::gates(&mut self.random, lines, count)
    }

    fn redrawn(&mut self, lines: u8, gates: &[Gate], most_tries: usize) -> Vec<Gate> {
        let tries = self.random.between(1, most_tries);
        redrawn(
            &mut self.random,
            lines,
            gates,
            tries,
            4_096,
            &mut self.steps,
        )
    }

    /// The same circuit but for one gate, changed, taken out or put in; nothing is
    /// put into a full one.
    fn one_gate_changed(&mut self, lines: u8, gates: &[Gate]) -> Vec<Gate> {
        let mut changed = gates.to_vec();
        let full = gates.len() == 4_096;
        let place = self.random.below(gates.len() + usize::from(!full));
        let new = Gate::random(&mut self.random, lines);
        match gates.get(place) {
            Some(&old) if old != new && self.random.one_in(2) => changed[place] = new,
            Some(_) if full || self.random.one_in(2) => {
                changed.remove(place);
            }
            _ => changed.insert(place, new),
        }
        changed
    }

    fn random(&mut self) {
        for _ in 0..20_000 {
            let lines = texts::some_lines(&mut self.random);
            let other_lines = if self.random.one_in(6) {
                texts::some_lines(&mut self.random)
            } else {
                lines
            };
            let first = circuit::text(lines, &self.gates(lines, 14));
            let second = circuit::text(other_lines, &self.gates(other_lines, 14));
            self.any_lists([&first, &second]);
        }
    }

    fn redrawings(&mut self) {
        for _ in 0..REDRAWINGS {
            let lines = texts::some_lines(&mut self.random);
            let gates = self.gates(lines, 16);
            let other = self.redrawn(lines, &gates, 100);
            let texts = [&gates, &other].map(|gates| circuit::text(lines, gates));
            self.accepted("a redrawing is equal", [&texts[0], &texts[1]], |count| {
                count == EQUAL
            });
        }
    }

    /// Passes and merges are the laws of a group, in which different gates are
    /// different elements; so circuits that one gate keeps apart aren't linked.
    fn one_gate_apart(&mut self) {
        for _ in 0..20_000 {
            let lines = texts::some_lines(&mut self.random);
            let gates = self.gates(lines, 16);
            let changed = self.one_gate_changed(lines, &gates);
            let other = self.redrawn(lines, &changed, 60);
            let texts = [&gates, &other].map(|gates| circuit::text(lines, gates));
            self.accepted("one gate apart", [&texts[0], &texts[1]], |count| {
                count != EQUAL
            });
        }
    }

    /// The front of a reduced list is a reduced list that ends sooner.
    fn fronts(&mut self) {
        for _ in 0..8_000 {
            let lines = texts::some_lines(&mut self.random);
            let text = circuit::text(lines, &self.gates(lines, 24));
            let reduced = peer::program_answer(Program::Reduce, &text);
            let ends: Vec<usize> = (1..=reduced.len())
                .filter(|&end| reduced[end - 1] == b'\n')
                .collect();
            let end = self.random.pick(&ends);
            let expected = if end == reduced.len() { EQUAL } else { LESS };
            self.accepted("the front of a list", [&reduced[..end], &text], |count| {
                count == expected
            });
        }
    }

    fn other_lines(&mut self) {
        for lines in 1..=32 {
            for other_lines in lines..=32 {
                let texts = [lines, other_lines].map(|n| circuit::text(n, &[]));
                let expected = if lines == other_lines { EQUAL } else { LESS };
                self.accepted("no gates", [&texts[0], &texts[1]], |count| {
                    count == expected
                });
            }
        }
        for _ in 0..4_000 {
            let lines = self.random.between(1, 31) as u8;
            let more = self.random.between(usize::from(lines) + 1, 32) as u8;
            let gates = self.gates(lines, 12);
            let other = match self.random.below(3) {
                0 => gates.clone(),
                1 => self.redrawn(lines, &gates, 40),
                _ => self.gates(more, 12),
            };
            let texts = [circuit::text(lines, &gates), circuit::text(more, &other)];
            self.accepted("fewer lines", [&texts[0], &texts[1]], |count| count == LESS);
        }
    }

    /// Every refusal in either text and in both, with every length of both
    /// lists. What has to come back is known of each text by itself.
    fn refusals(&mut self) {
        let known = self.known_texts();
        for (place, first) in known.iter().enumerate() {
            for second in &known[place..] {
                for length in LENGTHS {
                    for other_length in LENGTHS {
                        let texts = [&first.text[..], &second.text];
                        let lengths = [length, other_length];
                        let got = self.both(texts, lengths);
                        let [one, other] = [first.refusal(length), second.refusal(other_length)];
                        let expected = [refusal_of(one, other), refusal_of(other, one)];
                        let right = got.map(|o| (o.number, o.line, o.text)) == expected
                            && got.iter().all(|o| o.number == 0 || o.count == 0);
                        self.report.case(right, || {
                            format!(
                                "lists of {lengths:?}: got {got:?} in both orders, \
                                 expected {expected:?}; {}",
                                shown_pair(texts)
                            )
                        });
                    }
                }
            }
        }
    }

    /// Texts with the number and line that each is refused with on a whole list.
    fn known_texts(&mut self) -> Vec<Known> {
        let full = circuit::text(32, &self.full_circuit());
        let known = |text: &[u8], number, line| Known {
            text: text.to_vec(),
            number,
            line,
        };
        let mut overlong = full.clone();
        overlong.resize(60_001, b'\n');
        vec![
            known(b"(lines 3)\n(cn 0 1)\n(v 1 2)\n", 0, 0),
            known(b"(lines 3)\n", 0, 0),
            known(&full, 0, 0),
            known(b"", 3, 1),
            known(b"(lines 3)\n(cn 0 1)\n(v 1 2)", 3, 3),
            known(b"(lines 3)\n(mct (0 1) 2)\n", 3, 2),
            known(b"(lines 3)\n(mct (-0 1) 2)\n", 3, 2),
            known(b"(lines 3)\n(cn 0 1)\n(v -1 2)\n", 3, 3),
            known(b"(lines -3)\n(cn 0 1)\n", 3, 1),
            known(b"(lines 3)\n(keep 2)\n(cn 0 1)\n", 3, 2),
            known(&overlong[..60_000], 3, 4_098),
            known(b"(lines 33)\n", 4, 1),
            known(b"(lines 3)\n(cn 0 1)\n(v 1 3)\n(v 1 1)\n", 4, 3),
            known(b"(lines 3)\n(v 1 1)\n(not 3)\n", 5, 2),
            known(&[&full[..], b"(not 0)\n"].concat(), 9, 4_098),
            known(&overlong, 1, 0),
        ]
    }

    /// 4,096 gates on 32 lines that all stay, so that the lists are full.
    fn full_circuit(&self) -> Vec<Gate> {
        let [to, from] = [(30, 31), (31, 30)].map(|(control, target)| Gate::Powered {
            power: 3,
            control,
            target,
        });
        [to, from].repeat(2_048)
    }

    fn every_change(&mut self) {
        let circuits = texts::SMALL.iter().filter(|text| !text.contains("mct"));
        for text in circuits {
            for changed in texts::every_change(text.as_bytes()) {
                self.both([&changed, text.as_bytes()], WHOLE);
            }
        }
        for number in 0..=130 {
            for zeros in ["", "0", "00"] {
                for text in [
                    format!("(lines {zeros}{number})\n"),
                    format!("(lines 32)\n(not {zeros}{number})\n"),
                    format!("(lines 32)\n(vp {zeros}{number} 1)\n"),
                    format!("(lines -{zeros}{number})\n"),
                    format!("(lines 32)\n(not -{zeros}{number})\n"),
                    format!("(lines 32)\n(vp -{zeros}{number} 1)\n"),
                    format!("(lines 32)\n(vp 1 -{zeros}{number})\n"),
                ] {
                    self.any_lists([b"(lines 32)\n(not 31)\n", text.as_bytes()]);
                }
            }
        }
    }

    fn damaged(&mut self) {
        for _ in 0..6_000 {
            let texts = [0, 1].map(|_| {
                let text = texts::circuit(&mut self.random, 8);
                match self.random.below(4) {
                    0 => text,
                    1 => texts::wild(&mut self.random, false),
                    2 => texts::cascade(&mut self.random, 4, 40),
                    _ => texts::damaged(&mut self.random, &text),
                }
            });
            self.any_lists([&texts[0], &texts[1]]);
        }
    }

    fn limits(&mut self) {
        let small = b"(lines 3)\n(cn 0 1)\n(v 1 2)\n";
        let malformed = b"(lines 3)\n(cn 0 1)\n(v 1 2)";
        for size in [59_999, 60_000, 60_001, 60_002, 65_536, 100_000] {
            for _ in 0..12 {
                let text = texts::of_size(&mut self.random, size);
                let other_size = self.random.pick(&[59_999, 60_000, 60_001, 65_536]);
                let other = texts::of_size(&mut self.random, other_size);
                for second in [&small[..], malformed, b"", &other] {
                    let lengths = [0, 1].map(|_| self.random.pick(&LENGTHS));
                    self.both([&text, second], WHOLE);
                    self.both([&text, second], lengths);
                }
            }
        }
        // 4,095 to 4,098 gates, the last perhaps against an earlier rule.
        for count in 4_095..=4_098 {
            let text = texts::circuit_of(&mut self.random, count);
            let other = texts::circuit_of(&mut self.random, count);
            self.both([&text, &other], WHOLE);
            self.both([&text, small], WHOLE);
            let last = text[..text.len() - 1]
                .iter()
                .rposition(|&b| b == b'\n')
                .unwrap()
                + 1;
            for line in ["(not 32)\n", "(cn 0 0)\n", "(not 0)", "(not  0)\n", "\n"] {
                let changed = [&text[..last], line.as_bytes()].concat();
                self.both([small, &changed], WHOLE);
            }
        }
        self.full_lists();
    }

    /// Full lists that are equal, differ in their last gate, or end one sooner.
    fn full_lists(&mut self) {
        let gates = self.full_circuit();
        let mut other = gates.clone();
        other[4_095] = Gate::Powered {
            power: 2,
            control: 31,
            target: 30,
        };
        let full = circuit::text(32, &gates);
        let same = circuit::text(32, &self.redrawn(32, &gates, 2_000));
        let other = circuit::text(32, &other);
        let sooner = circuit::text(32, &gates[..4_095]);
        for (said, text, expected) in [
            ("full lists that are equal", &same, EQUAL),
            ("full lists, another last gate", &other, GREATER),
            ("full list, one ends sooner", &sooner, GREATER),
        ] {
            self.accepted(said, [&full, text], |count| count == expected);
        }
    }

    fn long(&mut self) {
        for case in 0..40 {
            let lines = self.random.pick(&[2, 3, 6, 16, 32]);
            let most = if case % 4 == 0 { 4_096 } else { 1_500 };
            let count = self.random.between(most / 2, most);
            let gates = texts::gates(&mut self.random, lines, count);
            let changed = self.one_gate_changed(lines, &gates);
            let texts = [&gates, &self.redrawn(lines, &gates, 3_000)]
                .map(|gates| circuit::text(lines, gates));
            let apart = circuit::text(lines, &self.redrawn(lines, &changed, 3_000));
            self.accepted("a long redrawing", [&texts[0], &texts[1]], |count| {
                count == EQUAL
            });
            self.accepted("long, one gate apart", [&texts[0], &apart], |count| {
                count != EQUAL
            });
            let damaged = texts::damaged(&mut self.random, &texts[1]);
            self.any_lists([&texts[0], &damaged]);
        }
    }

    /// The order on three circuits by the library's answers alone: reflexive,
    /// antisymmetric, transitive, and as the lists say. A circuit is compared with
    /// itself on one and the same text area.
    fn triples(&mut self) {
        let mut arrangements = [0u64; 3];
        for _ in 0..TRIPLES {
            let triple = self.triple();
            let answers = triple.each_ref().map(|first| {
                triple.each_ref().map(|second| {
                    let mut lists = [0xffff, 0xfffe].map(|junk| Area::filled(4_096, junk));
                    let texts = [first, second].map(|drawn| &drawn.text);
                    let outcome = compare(texts, lists.each_mut());
                    Answer { outcome, lists }
                })
            });
            let counts = answers
                .each_ref()
                .map(|row| row.each_ref().map(|a| a.outcome.count));
            let right = is_an_order(&counts)
                && (0..3).all(|i| {
                    (0..3).all(|j| {
                        as_the_lists_say([triple[i].lines, triple[j].lines], &answers[i][j])
                    })
                });
            let equal = [(0, 1), (1, 2), (2, 0)].map(|(i, j)| counts[i][j] == EQUAL);
            arrangements[equal.into_iter().filter(|&equal| equal).count().min(2)] += 1;
            self.report.case(right, || {
                let texts = triple.each_ref().map(|drawn| shown(drawn.text.inside()));
                format!("no order: counts {counts:?}; {}", texts.join(" and "))
            });
        }
        let [apart, two, all] = arrangements;
        println!("pairs: triples: {apart} all different, {two} with two equal, {all} all equal");
        self.report.case(apart > 0 && two > 0 && all > 0, || {
            "triples of one kind only".to_string()
        });
    }

    /// Three circuits near each other: each of the later two is a redrawing of
    /// the one before, one gate apart from it, or any other, perhaps with another
    /// number of lines.
    fn triple(&mut self) -> [Drawn; 3] {
        let mut lines = texts::some_lines(&mut self.random);
        let mut gates = self.gates(lines, 10);
        let first = Drawn::new(lines, &gates);
        let [second, third] = [0, 1].map(|_| {
            gates = match self.random.below(5) {
                0 | 1 => self.redrawn(lines, &gates, 40),
                2 | 3 => {
                    let changed = self.one_gate_changed(lines, &gates);
                    self.redrawn(lines, &changed, 40)
                }
                _ => self.gates(lines, 10),
            };
            if lines < 32 && self.random.one_in(10) {
                lines += 1;
            }
            Drawn::new(lines, &gates)
        });
        [first, second, third]
    }
}

/// A text, and what its number and line are on a whole list (0 if accepted).
struct Known {
    text: Vec<u8>,
    number: u64,
    line: u64,
}

impl Known {
    /// Number and line of the text with a list of this length.
    fn refusal(&self, length: usize) -> (u64, u64) {
        if self.number != 1 && length < 4_096 {
            (2, 0)
        } else {
            (self.number, self.line)
        }
    }
}

/// Number, line and text that come back if the texts by themselves are refused
/// with these numbers and lines (0 if accepted).
fn refusal_of(first: (u64, u64), second: (u64, u64)) -> (u64, u64, u64) {
    match (first, second) {
        ((0, _), (0, _)) => (0, 0, 0),
        ((0, _), (number, line)) => (number, line, 2),
        ((number, line), _) => (number, line, 1),
    }
}

/// A circuit of a triple.
struct Drawn {
    lines: u8,
    text: Area<u8>,
}

impl Drawn {
    fn new(lines: u8, gates: &[Gate]) -> Drawn {
        Drawn {
            lines,
            text: Area::holding(&circuit::text(lines, gates), 0),
        }
    }
}

/// Whether the second answer is the first with the texts exchanged. On success
/// less and greater change places, and so do the lists. A refusal stays with its
/// text, unless both texts are refused: then the first of either order is.
fn exchanged(there: &Answer, back: &Answer) -> bool {
    let (one, other) = (there.outcome, back.outcome);
    if one.number == 0 || other.number == 0 {
        one.number == other.number
            && one.count + other.count == 2
            && there.lists[0].inside() == back.lists[1].inside()
            && there.lists[1].inside() == back.lists[0].inside()
    } else {
        let same = (one.number, one.line) == (other.number, other.line);
        match (one.text, other.text) {
            (1, 1) => true,
            (1, 2) | (2, 1) => same,
            _ => false,
        }
    }
}

/// Whether the counts of three circuits among each other are those of an order.
fn is_an_order(counts: &[[u64; 3]; 3]) -> bool {
    let all = || (0..3).flat_map(|i| (0..3).map(move |j| (i, j)));
    let reflexive = (0..3).all(|i| counts[i][i] == EQUAL);
    let antisymmetric = all().all(|(i, j)| counts[i][j] + counts[j][i] == 2);
    let transitive = all().all(|(i, j)| {
        (0..3).all(|k| match (counts[i][j], counts[j][k]) {
            (GREATER, _) | (_, GREATER) => true,
            (EQUAL, EQUAL) => counts[i][k] == EQUAL,
            _ => counts[i][k] == LESS,
        })
    });
    reflexive && antisymmetric && transitive
}

/// Whether two circuits on so many lines were accepted, and called what these
/// numbers and the lists that came back say. `not 0`, the least record, stands
/// after a list that ends: so lists that differ with it are in their order, and
/// of two that do not one may still end sooner.
fn as_the_lists_say(lines: [u8; 2], answer: &Answer) -> bool {
    let Answer { outcome, lists } = answer;
    let by_lines = lines[0].cmp(&lines[1]);
    let count_right = match by_lines.then(lists[0].inside().cmp(lists[1].inside())) {
        Ordering::Less => outcome.count == LESS,
        Ordering::Equal => true,
        Ordering::Greater => outcome.count == GREATER,
    };
    (outcome.number, outcome.line, outcome.text) == (0, 0, 0) && count_right
}

fn shown_pair(texts: [&[u8]; 2]) -> String {
    texts.map(shown).join(" and ")
}
