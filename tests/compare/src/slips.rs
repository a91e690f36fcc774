//! The C function that follows a slip against the peer, on many thousands of triples of
//! texts: number, line, text and count, every record of both lists, and what stands
//! beside the areas. Where order 9 says the answer by itself (a chain of steps is
//! accepted, a step that is not allowed refuses at its line, another end is refused, and
//! the order in which all is judged), it is asserted without the peer too; and so is what
//! holds between the answers of the library: what is accepted compares as equal, slips one
//! after the other are one slip, and the steps of a reduction lead to what reduce gives.

use crate::chain::{self, redrawn};
use crate::circuit::{self, Gate};
use crate::random::Random;
use crate::report::{shown, Parts, Report};
use crate::steps::{self, followed, merging, passing, Chain, Due, Step, KINDS};
use crate::subject::{call, compare, holds, slip, Area};
use crate::texts;
use peer::several::Outcome;
use peer::slips;
use peer::Job;

/// The numbers that come with text 0 to 3, and how often each has to come up at least;
/// text 0 is none of the three.
const NUMBERS: [&[(usize, u64)]; 4] = [
    &[(0, 60_000), (11, 8_000), (13, 40_000)],
    &[
        (1, 1_000),
        (2, 10_000),
        (3, 40_000),
        (4, 2_000),
        (5, 1_000),
        (9, 300),
    ],
    &[(1, 300), (3, 40_000), (9, 300), (12, 100_000)],
    &[
        (1, 400),
        (2, 2_000),
        (3, 40_000),
        (4, 1_000),
        (5, 400),
        (9, 120),
    ],
];
/// Lengths of a list: all those below 4,096 are short.
const LENGTHS: [usize; 6] = [0, 1, 4_095, 4_096, 4_097, 5_000];
/// The least lists that no text is refused for.
const WHOLE: [usize; 2] = [4_096; 2];
const MOST: usize = 4_096;
const FEWEST_TRIPLES: u64 = 450_000;
/// How many steps of each kind the chains that are accepted have at least.
const FEWEST_STEPS: [u64; KINDS.len()] = [400_000, 40_000, 40_000, 40_000];
/// What is done to one step of a chain.
const HARMS: [&str; 10] = [
    "other word",
    "place + 1",
    "place - 1",
    "place 0",
    "the last place",
    "past the last place",
    "place 9999",
    "other word past the last place",
    "left out",
    "twice",
];
const FEWEST_HARMED: u64 = 12_000;
/// What is done to the second circuit of a chain.
const ENDS: [&str; 6] = [
    "another gate",
    "another power, control or target",
    "a gate missing",
    "a gate more",
    "not 0 at the end",
    "two gates exchanged",
];
const FEWEST_ENDS: u64 = 2_000;

struct Slips {
    report: Report,
    random: Random,
    /// How many triples were given.
    triples: u64,
    /// How often each number came up, for each text number.
    numbers: [[u64; 14]; 4],
    /// How many steps of each kind the chains have.
    kinds: [u64; KINDS.len()],
    /// For each harm, how often it is accepted still, refused by 12 and by 13.
    harms: [[u64; 3]; HARMS.len()],
    /// How often each end that is another circuit came up.
    ends: [u64; ENDS.len()],
    /// How many steps of each kind led to the redrawings.
    drawn: [u64; chain::STEPS.len()],
}

/// What the library gave for three texts.
struct Answer {
    outcome: Outcome,
    lists: [Area<u16>; 2],
}

pub fn run() -> Report {
    let mut slips = Slips {
        report: Report::new("slips"),
        random: Random::seeded(20_261_009),
        triples: 0,
        numbers: [[0; 14]; 4],
        kinds: [0; KINDS.len()],
        harms: [[0; 3]; HARMS.len()],
        ends: [0; ENDS.len()],
        drawn: [0; chain::STEPS.len()],
    };
    slips.run_parts(&[
        ("slips worked out by hand", Slips::known),
        ("chains forwards", Slips::chains_forwards),
        ("chains found backwards", Slips::chains_backwards),
        ("every step of a chain harmed", Slips::every_step_harmed),
        ("another second circuit", Slips::other_ends),
        ("empty slips", Slips::empty),
        ("one slip after another", Slips::one_after_another),
        ("reductions", Slips::reductions),
        ("any steps", Slips::any_steps),
        ("places around the end", Slips::around_the_end),
        ("places and their digits", Slips::places),
        ("other numbers of lines", Slips::other_lines),
        ("every refusal of every text", Slips::refusals),
        ("every single change of small texts", Slips::every_change),
        ("damaged texts", Slips::damaged),
        ("sizes of text and list", Slips::sizes),
        ("as many steps as may be", Slips::most_steps),
        ("long chains", Slips::long),
        ("texts in one area", Slips::one_area),
    ]);
    slips.tell();
    slips.report
}

impl Parts for Slips {
    fn report(&mut self) -> &mut Report {
        &mut self.report
    }

    fn given(&self) -> Option<(u64, &'static str)> {
        Some((self.triples, "triples"))
    }
}

impl Slips {
    /// Tells how often everything came up; what came up too seldom, and a number that a
    /// text can't have but had, has failed.
    fn tell(&mut self) {
        for (text, (numbers, possible)) in self.numbers.iter().zip(NUMBERS).enumerate() {
            let told: Vec<String> = possible
                .iter()
                .map(|&(number, _)| format!("{number}: {}", numbers[number]))
                .collect();
            println!("slips: numbers with text {text}: {}", told.join(", "));
            for (number, &times) in numbers.iter().enumerate() {
                let due = possible.iter().find(|(due, _)| *due == number);
                let right = due.map_or(times == 0, |&(_, fewest)| times >= fewest);
                self.report.case(right, || {
                    format!("number {number} came up {times} times with text {text}")
                });
            }
        }
        for (name, [still, by_12, by_13]) in HARMS.iter().zip(self.harms) {
            println!("slips: {name}: {by_12} by 12, {by_13} by 13, {still} accepted still");
            self.report
                .case(still + by_12 + by_13 >= FEWEST_HARMED, || {
                    format!("{name} came up too seldom")
                });
        }
        for (name, times) in chain::STEPS.iter().zip(self.drawn) {
            self.report
                .case(times > 0, || format!("no redrawing by {name}"));
        }
        let mut all: Vec<(&str, u64, u64)> = Vec::new();
        for (at, name) in KINDS.into_iter().enumerate() {
            all.push((name, self.kinds[at], FEWEST_STEPS[at]));
        }
        for (name, times) in ENDS.into_iter().zip(self.ends) {
            all.push((name, times, FEWEST_ENDS));
        }
        all.push(("triples", self.triples, FEWEST_TRIPLES));
        let told: Vec<String> = all
            .iter()
            .map(|(name, n, _)| format!("{name} {n}"))
            .collect();
        println!("slips: {}", told.join(", "));
        for (name, times, fewest) in all {
            self.report
                .case(times >= fewest, || format!("only {times}: {name}"));
        }
    }

    /// One call on lent areas of these lengths, everything compared.
    fn case(&mut self, texts: [&[u8]; 3], lengths: [usize; 2]) -> Answer {
        self.triples += 1;
        // Junk that is no record of a gate, another one in each list.
        let junk = 5_000 + (self.random.next() % 60_000) as u16;
        let junk = [junk, junk ^ 1];
        let junk_byte = self.random.next() as u8;
        let text_areas = texts.map(|text| Area::holding(text, junk_byte));
        let mut lists = [0, 1].map(|which| Area::filled(lengths[which], junk[which]));
        let outcome = slip(text_areas.each_ref(), lists.each_mut());

        let mut expected_lists = [0, 1].map(|which| vec![junk[which]; lengths[which]]);
        let [first_list, second_list] = &mut expected_lists;
        let expected = slips::slip(texts[0], first_list, texts[1], texts[2], second_list);
        self.count(outcome);
        let wrong = if outcome != expected {
            "the outcome differs"
        } else if lists[0].inside() != expected_lists[0] {
            "list 1 differs"
        } else if lists[1].inside() != expected_lists[1] {
            "list 2 differs"
        } else if (0..3).any(|which| text_areas[which].inside() != texts[which]) {
            "a text was changed"
        } else if !(0..2).all(|which| lists[which].guards_hold(junk[which]))
            || !text_areas.iter().all(|area| area.guards_hold(junk_byte))
        {
            "the memory beside an area was changed"
        } else if !numbers_hold(outcome, lengths) {
            "not what the papers say of the numbers"
        } else {
            ""
        };
        self.report.case(wrong.is_empty(), || {
            let first = [0, 1].map(|which| {
                let list = lists[which].inside().iter();
                list.zip(&expected_lists[which]).position(|(a, b)| a != b)
            });
            format!(
                "lists of {lengths:?}: {wrong}; got {outcome:?}, expected {expected:?}, \
                 first records that differ {first:?}; {}",
                shown_triple(texts)
            )
        });
        Answer { outcome, lists }
    }

    fn count(&mut self, outcome: Outcome) {
        let numbers = self.numbers.get_mut(outcome.text as usize);
        if let Some(times) = numbers.and_then(|n| n.get_mut(outcome.number as usize)) {
            *times += 1;
        }
    }

    /// Lists that no text is refused for.
    fn whole_lists(&mut self) -> [usize; 2] {
        [0, 1].map(|_| self.random.pick(&[4_096, 4_096, 4_096, 4_097, 5_000]))
    }

    /// Lists that are seldom short.
    fn any_lists(&mut self) -> [usize; 2] {
        [0, 1].map(|_| match self.random.below(12) {
            0 => self.random.pick(&LENGTHS),
            _ => 4_096,
        })
    }

    /// Number, line and text that have to come back by the words in `said`, and what has to
    /// be in both lists: on success the second circuit. The junk is no gate.
    fn gives(&mut self, said: &str, texts: [&[u8]; 3], lengths: [usize; 2], due: Due) -> Answer {
        let got = self.case(texts, lengths);
        let Outcome {
            number, line, text, ..
        } = got.outcome;
        let [first, second] = &got.lists;
        let lists_hold = match due.0 {
            0 => circuit::read(texts[2]).is_some_and(|(_, gates)| {
                let records = circuit::records(&gates);
                holds(first, &records) && holds(second, &records)
            }),
            1 | 2 => [first, second]
                .iter()
                .all(|list| list.inside().iter().all(|&record| record >= 5_000)),
            _ => holds(first, &[]) && holds(second, &[]),
        };
        let right = (number, line, text) == due && got.outcome.count == 0 && lists_hold;
        self.report.case(right, || {
            format!(
                "{said}: lists of {lengths:?}: got {:?}, not {due:?}, or other lists; {}",
                got.outcome,
                shown_triple(texts)
            )
        });
        got
    }

    /// What has to come back of a slip in form between two circuits on so many lines.
    fn gives_due(
        &mut self,
        said: &str,
        lines: u8,
        first: &[Gate],
        slip: &[Step],
        second: &[Gate],
    ) -> Due {
        let due = steps::due(first, slip, second);
        let lengths = self.whole_lists();
        let texts = texts_of(lines, first, slip, second);
        self.gives(said, texts.each_ref().map(|text| &text[..]), lengths, due);
        due
    }

    /// A chain, which is accepted, with the second circuit in both lists.
    fn accepted(&mut self, said: &str, lines: u8, chain: &Chain) {
        let lengths = self.whole_lists();
        let texts = texts_of(lines, &chain.first, &chain.steps, &chain.last);
        let texts = texts.each_ref().map(|text| &text[..]);
        self.gives(said, texts, lengths, (0, 0, 0));
        chain.count(&mut self.kinds);
    }

    /// What is accepted compares as equal.
    fn is_one_circuit(&mut self, lines: u8, chain: &Chain) {
        let texts = [&chain.first, &chain.last].map(|gates| {
            let text = circuit::text(lines, gates);
            Area::holding(&text, b'?')
        });
        let mut lists = [0xffff, 0xfffe].map(|junk| Area::filled(4_096, junk));
        let got = compare(texts.each_ref(), lists.each_mut());
        self.report.case((got.number, got.count) == (0, 1), || {
            let texts = texts.each_ref().map(|text| shown(text.inside()));
            format!(
                "accepted, and compare gives {got:?}; {}",
                texts.join(" and ")
            )
        });
    }

    fn gates(&mut self, lines: u8, most: usize) -> Vec<Gate> {
        let count = self.random.below(most + 1);
        texts::gates(&mut self.random, lines, count)
    }

    /// A redrawing, by steps forwards and backwards.
    fn redrawn(&mut self, lines: u8, gates: &[Gate], tries: usize) -> Vec<Gate> {
        redrawn(&mut self.random, lines, gates, tries, MOST, &mut self.drawn)
    }

    /// A chain of at most so many steps, made in one way or the other.
    fn chain(&mut self, lines: u8, most_gates: usize, most_steps: usize) -> Chain {
        let gates = self.gates(lines, most_gates);
        let count = self.random.below(most_steps + 1);
        if self.random.one_in(2) {
            return steps::backwards(&mut self.random, lines, &gates, count, MOST);
        }
        let first = if self.random.one_in(2) {
            self.redrawn(lines, &gates, 30)
        } else {
            gates
        };
        let merges = self.random.pick(&[1, 2, 3, 10]);
        steps::forwards(&mut self.random, &first, count, merges)
    }

    /// The paper's examples and others, worked out by hand, with what is due.
    fn known(&mut self) {
        for (first, slip, second, due) in KNOWN {
            let texts = [first, slip, second].map(str::as_bytes);
            for lengths in [WHOLE, [5_000, 4_096], [4_097, 5_000]] {
                self.gives("by hand", texts, lengths, due);
            }
        }
    }

    fn chains_forwards(&mut self) {
        for case in 0..12_000 {
            let lines = texts::some_lines(&mut self.random);
            let gates = self.gates(lines, 16);
            let first = if case % 2 == 0 {
                self.redrawn(lines, &gates, 40)
            } else {
                gates
            };
            let count = self.random.between(1, 30);
            let merges = self.random.pick(&[1, 2, 4]);
            let chain = steps::forwards(&mut self.random, &first, count, merges);
            self.accepted("a chain forwards", lines, &chain);
            self.is_one_circuit(lines, &chain);
        }
    }

    fn chains_backwards(&mut self) {
        for _ in 0..12_000 {
            let lines = texts::some_lines(&mut self.random);
            let last = self.gates(lines, 12);
            let count = self.random.between(1, 40);
            let chain = steps::backwards(&mut self.random, lines, &last, count, MOST);
            self.accepted("a chain backwards", lines, &chain);
            self.is_one_circuit(lines, &chain);
        }
    }

    /// Each step of a chain harmed by itself.
    fn every_step_harmed(&mut self) {
        for _ in 0..1_600 {
            let lines = texts::some_lines(&mut self.random);
            let chain = self.chain(lines, 10, 24);
            self.accepted("before any harm", lines, &chain);
            let mut gates = chain.first.clone();
            for (at, &step) in chain.steps.iter().enumerate() {
                let length = gates.len();
                let harmed: [&[Step]; HARMS.len()] = [
                    &[step.with_other_word()],
                    &[step.at(step.place + 1)],
                    &[step.at(step.place - 1)],
                    &[step.at(0)],
                    &[step.at(length)],
                    &[step.at(length + 1)],
                    &[step.at(9_999)],
                    &[step.with_other_word().at(length + 1)],
                    &[],
                    &[step, step],
                ];
                for (harm, instead) in harmed.into_iter().enumerate() {
                    let slip = [&chain.steps[..at], instead, &chain.steps[at + 1..]].concat();
                    let (first, last) = (&chain.first, &chain.last);
                    let due = self.gives_due(HARMS[harm], lines, first, &slip, last);
                    let which = match due.0 {
                        12 => 1,
                        13 => 2,
                        _ => 0,
                    };
                    self.harms[harm][which] += 1;
                }
                gates = steps::taken(&gates, step).unwrap_or(gates);
            }
        }
    }

    /// A chain to one circuit, with another one as the second text.
    fn other_ends(&mut self) {
        for _ in 0..6_000 {
            let lines = texts::some_lines(&mut self.random);
            let chain = self.chain(lines, 12, 16);
            for (which, said) in ENDS.into_iter().enumerate() {
                let other = self.other_end(lines, &chain.last, which);
                if other == chain.last {
                    continue;
                }
                let texts = texts_of(lines, &chain.first, &chain.steps, &other);
                let texts = texts.each_ref().map(|text| &text[..]);
                let lengths = self.whole_lists();
                self.gives(said, texts, lengths, (13, 0, 0));
                self.ends[which] += 1;
            }
        }
    }

    /// Another circuit in one of the ways above; the same where there is none.
    fn other_end(&mut self, lines: u8, gates: &[Gate], which: usize) -> Vec<Gate> {
        let mut other = gates.to_vec();
        let new = Gate::random(&mut self.random, lines);
        let not_0 = Gate::Not { target: 0 };
        let at = self.random.below(gates.len() + 1);
        match (which, gates.get(at)) {
            (0, Some(_)) => other[at] = new,
            (1, Some(&gate)) => other[at] = self.near(lines, gate),
            (2, Some(_)) => {
                other.remove(at);
            }
            // The last gate, or one `not 0` at the end, which the rest of a list holds.
            (2, None) => {
                other.pop();
            }
            (3, _) => other.insert(at, new),
            (4, _) if other.last() == Some(&not_0) && self.random.one_in(2) => {
                other.pop();
            }
            (4, _) => other.push(not_0),
            (5, Some(_)) => {
                let with = self.random.below(gates.len());
                other.swap(at, with);
            }
            _ => {}
        }
        other
    }

    /// A gate that differs from this one in its power, its control or its target alone; a
    /// NOT on the same line for a gate with a control, and the other way round.
    fn near(&mut self, lines: u8, gate: Gate) -> Gate {
        let every = circuit::every_gate(lines);
        let near: Vec<Gate> = every
            .into_iter()
            .filter(|&other| is_near(gate, other))
            .collect();
        if near.is_empty() {
            gate
        } else {
            self.random.pick(&near)
        }
    }

    /// The empty slip is in form: the circuit is the second, or else 13, also where they are
    /// linked.
    fn empty(&mut self) {
        for lines in 1..=32 {
            for count in [0, 1, 2, 40] {
                let gates = texts::gates_of(&mut self.random, lines, count);
                self.gives_due("the same circuit", lines, &gates, &[], &gates);
            }
        }
        let mut apart = 0;
        for _ in 0..6_000 {
            let lines = texts::some_lines(&mut self.random);
            let gates = self.gates(lines, 12);
            let other = self.redrawn(lines, &gates, 20);
            self.gives_due("the same circuit", lines, &gates, &[], &gates);
            if other != gates {
                apart += 1;
                let texts = texts_of(lines, &gates, &[], &other);
                let texts = texts.each_ref().map(|text| &text[..]);
                let lengths = self.whole_lists();
                self.gives("linked and not equal", texts, lengths, (13, 0, 0));
            }
        }
        self.report.case(apart >= 4_000, || {
            format!("only {apart} circuits that are linked and not equal")
        });
    }

    /// Slips one after the other are one slip, and a slip cut in two is two.
    fn one_after_another(&mut self) {
        for case in 0..3_000 {
            let lines = texts::some_lines(&mut self.random);
            let most = if case % 100 == 0 { 300 } else { 16 };
            let first = self.chain(lines, most, most);
            let merges = self.random.pick(&[1, 3]);
            let then = steps::forwards(&mut self.random, &first.last, most, merges);
            let whole = Chain {
                first: first.first.clone(),
                steps: [&first.steps[..], &then.steps].concat(),
                last: then.last.clone(),
            };
            for (said, chain) in [
                ("the one slip", &first),
                ("the other slip", &then),
                ("both slips in one", &whole),
            ] {
                self.accepted(said, lines, chain);
            }
            let cut = self.random.below(whole.steps.len() + 1);
            if let Ok(middle) = followed(&whole.first, &whole.steps[..cut]) {
                let front = Chain {
                    first: whole.first.clone(),
                    steps: whole.steps[..cut].to_vec(),
                    last: middle.clone(),
                };
                let rest = Chain {
                    first: middle,
                    steps: whole.steps[cut..].to_vec(),
                    last: whole.last.clone(),
                };
                self.accepted("the front of a slip", lines, &front);
                self.accepted("the rest of a slip", lines, &rest);
            }
        }
    }

    /// The steps of a plain reduction lead to the list that reduce gives; with one step
    /// fewer they do not.
    fn reductions(&mut self) {
        let mut reduced = 0;
        for case in 0..6_000 {
            let lines = texts::some_lines(&mut self.random);
            let most = if case % 60 == 0 { 120 } else { 16 };
            let gates = self.gates(lines, most);
            let drawn = self.redrawn(lines, &gates, 10);
            let chain = steps::reducing(&drawn);
            if chain.steps.len() > MOST {
                continue;
            }
            let first = circuit::text(lines, &drawn);
            let list = self.reduced(&first);
            let slip = steps::text(&chain.steps);
            let lengths = self.whole_lists();
            self.gives("a reduction", [&first, &slip, &list], lengths, (0, 0, 0));
            chain.count(&mut self.kinds);
            let Some((_, fewer)) = chain.steps.split_last() else {
                continue;
            };
            reduced += 1;
            let slip = steps::text(fewer);
            let texts = [&first[..], &slip, &list];
            self.gives("a reduction cut", texts, lengths, (13, 0, 0));
        }
        self.report.case(reduced >= 4_000, || {
            format!("only {reduced} circuits were not their own reduced list")
        });
    }

    /// What reduce of the library answers.
    fn reduced(&mut self, text: &[u8]) -> Vec<u8> {
        let mut list = Area::filled(4_096, 0xffff);
        let mut answer = Area::filled(45_067, b'?');
        let text_area = Area::holding(text, b'?');
        let outcome = call(Job::Reduce, &text_area, &mut list, &mut answer);
        self.report.case(outcome.number == 0, || {
            format!("reduce gives {outcome:?}; text {}", shown(text))
        });
        answer.inside()[..outcome.bytes as usize].to_vec()
    }

    /// Any steps at places of the circuit and around it, on circuits in which many are
    /// allowed; the second is where they end, if they are all allowed.
    fn any_steps(&mut self) {
        let mut lines_of_12 = [0u64; 8];
        for _ in 0..30_000 {
            let lines = self.random.between(1, 4) as u8;
            let first = self.gates(lines, 14);
            let count = self.random.between(1, 10);
            let slip: Vec<Step> = (0..count)
                .map(|_| {
                    let place = self.random.below(first.len() + 2);
                    if self.random.one_in(3) {
                        merging(place)
                    } else {
                        passing(place)
                    }
                })
                .collect();
            let second = followed(&first, &slip).unwrap_or_else(|_| first.clone());
            let (number, line, _) = self.gives_due("any steps", lines, &first, &slip, &second);
            if number == 12 {
                lines_of_12[(line as usize).min(lines_of_12.len()) - 1] += 1;
            }
        }
        println!("slips: any steps: 12 at lines 1 to 7 and later: {lines_of_12:?}");
        self.report
            .case(lines_of_12.iter().all(|&times| times >= 20), || {
                "12 at too few lines".to_string()
            });
    }

    /// A place without a right neighbour, of circuits that end with `not 0`, which the rest
    /// of a list holds: no step is allowed there.
    fn around_the_end(&mut self) {
        for lines in [1, 2, 5, 32] {
            for length in (0..20).chain([4_094, 4_095, 4_096]) {
                let mut gates = texts::gates_of(&mut self.random, lines, length);
                let ending = self.random.below(4).min(length);
                gates[length - ending..].fill(Gate::Not { target: 0 });
                for place in [0, length.saturating_sub(1), length, length + 1, length + 2] {
                    for step in [passing(place), merging(place)] {
                        let end = steps::taken(&gates, step).unwrap_or_else(|| gates.clone());
                        self.gives_due("around the end", lines, &gates, &[step], &end);
                        self.gives_due("around the end", lines, &gates, &[step], &gates);
                    }
                }
                // The same after the circuit has become shorter.
                if ending >= 2 {
                    let slip = [merging(length - 1), merging(length - 1)];
                    let end = &gates[..length - 2];
                    self.gives_due("after a pair", lines, &gates, &slip, end);
                    self.gives_due("after a pair", lines, &gates, &slip[..1], end);
                    self.gives_due("after a pair", lines, &gates, &slip[..1], &gates);
                    self.gives_due("after a pair", lines, &gates, &[], end);
                }
            }
        }
    }

    /// Every place of up to four digits on a small circuit and some on a full one; other
    /// spellings of numbers, which are malformed.
    fn places(&mut self) {
        let nots = |count: usize| vec![Gate::Not { target: 0 }; count];
        let [small, full] = [circuit::text(1, &nots(12)), circuit::text(1, &nots(MOST))];
        let mut spelled = |place: &str, text: &[u8], gates: usize| {
            let in_form = (1..=4).contains(&place.len())
                && place.bytes().all(|byte| byte.is_ascii_digit())
                && (place == "0" || !place.starts_with('0'));
            let allowed = (1..gates).any(|at| at.to_string() == place);
            let due = match (in_form, allowed) {
                (false, _) => (3, 1, 2),
                (true, false) => (12, 1, 2),
                (true, true) => (0, 0, 0),
            };
            let pass = format!("(pass {place})\n");
            self.gives("a place", [text, pass.as_bytes(), text], WHOLE, due);
            // With one pair fewer where it merges.
            let merge = format!("(merge {place})\n");
            let fewer = circuit::text(1, &nots(gates - 2));
            let end = if due.0 == 0 { &fewer } else { text };
            self.gives("a place", [text, merge.as_bytes(), end], WHOLE, due);
        };
        for place in 0..=9_999 {
            spelled(&place.to_string(), &small, 12);
        }
        let far = [
            1, 2, 9, 10, 11, 99, 100, 255, 256, 257, 999, 1_000, 2_048, 4_093, 4_094, 4_095, 4_096,
            4_097, 8_191, 8_192, 8_193, 9_998, 9_999,
        ];
        for place in far {
            spelled(&place.to_string(), &full, MOST);
        }
        for place in 0..130 {
            for zeros in ["0", "00", "000", "0000", "-", "+", " ", "1000", "0x"] {
                spelled(&format!("{zeros}{place}"), &small, 12);
            }
        }
        for place in [
            "",
            " ",
            "10000",
            "10001",
            "12345",
            "65536",
            "65537",
            "65538",
            "99999",
            "100000",
            "4294967297",
            "18446744073709551616",
            "18446744073709551617",
            "1 ",
            "1 2",
            "1.",
            "1e0",
            "one",
            "١",
            "1\0",
        ] {
            spelled(place, &small, 12);
            spelled(place, &full, MOST);
        }
    }

    /// Different numbers of lines: 11 once all texts have been read, before any step.
    fn other_lines(&mut self) {
        for lines in 1..=32u8 {
            for other_lines in 1..=32u8 {
                let texts = [lines, other_lines].map(|n| circuit::text(n, &[]));
                let due = if lines == other_lines { 0 } else { 11 };
                let texts = [&texts[0][..], b"", &texts[1]];
                self.gives("no gates", texts, WHOLE, (due, 0, 0));
            }
        }
        for case in 0..3_000 {
            let lines = self.random.between(1, 31) as u8;
            let more = self.random.between(usize::from(lines) + 1, 32) as u8;
            let chain = self.chain(lines, 12, 12);
            let pair = if case % 2 == 0 {
                [lines, more]
            } else {
                [more, lines]
            };
            let texts = [
                circuit::text(pair[0], &chain.first),
                circuit::text(pair[1], &chain.last),
            ];
            let refused = [&chain.steps[..], &[passing(0)]].concat();
            let steps = [&chain.steps[..], &refused, &[merging(9_999)]];
            let lengths = self.whole_lists();
            for slip in steps.map(steps::text) {
                let texts = [&texts[0], &slip, &texts[1]];
                let [_, slip, second] = texts;
                let texts = [&texts[0][..], slip, second];
                self.gives("other lines", texts, lengths, (11, 0, 0));
                // What is malformed comes first, the slip before the second circuit.
                let line = slip.iter().filter(|&&byte| byte == b'\n').count() as u64;
                let late = [&slip[..], b"(pass 01)\n"].concat();
                let due = (3, line + 1, 2);
                self.gives("malformed first", [texts[0], &late, second], lengths, due);
                let cut = &second[..second.len() - 1];
                self.gives("malformed first", [texts[0], &late, cut], lengths, due);
                let line = second.iter().filter(|&&byte| byte == b'\n').count() as u64;
                let due = (3, line, 3);
                self.gives("malformed first", [texts[0], slip, cut], lengths, due);
            }
        }
    }

    /// Every refusal of every text beside each other, with short and long lists. What has to
    /// come back is known of each text by itself.
    fn refusals(&mut self) {
        let circuits = known_circuits();
        let slips = known_slips();
        for (which, first) in circuits.iter().enumerate() {
            for slip in &slips {
                for (place, second) in circuits.iter().enumerate() {
                    // All lengths where the second text is judged, and every other time
                    // where the texts are short.
                    let short = first.text.len() + slip.text.len() + second.text.len() < 2_000;
                    let read = first.refusal.0 + slip.refusal.0 == 0;
                    let lengths = if read || (short && (which + place) % 2 == 0) {
                        &LENGTHS[..]
                    } else {
                        &[0, 4_095, 4_096]
                    };
                    for &one in lengths {
                        for &other in lengths {
                            let texts = [&first.text[..], &slip.text, &second.text];
                            let due = due_of(first, slip, second, [one, other]);
                            self.gives("the rules", texts, [one, other], due);
                        }
                    }
                }
            }
        }
    }

    fn every_change(&mut self) {
        for (first, slip, second) in SMALL {
            let texts = [first, slip, second].map(str::as_bytes);
            self.gives("small texts", texts, WHOLE, (0, 0, 0));
            for which in 0..3 {
                for changed in texts::every_change(texts[which]) {
                    let mut triple = texts;
                    triple[which] = &changed;
                    self.case(triple, WHOLE);
                }
            }
        }
    }

    /// One of the three texts damaged, seldom two of them.
    fn damaged(&mut self) {
        for _ in 0..36_000 {
            let lines = texts::some_lines(&mut self.random);
            let chain = self.chain(lines, 8, 8);
            let good = texts_of(lines, &chain.first, &chain.steps, &chain.last);
            let mut triple = good.clone();
            for _ in 0..self.random.pick(&[1, 1, 1, 2]) {
                let which = self.random.below(3);
                triple[which] = match self.random.below(6) {
                    0 | 1 if which != 1 => texts::wild(&mut self.random, false),
                    0 => {
                        let twice = [&triple[1][..], &good[1]].concat();
                        texts::damaged(&mut self.random, &twice)
                    }
                    // Another of the three.
                    2 => good[self.random.below(3)].clone(),
                    _ => texts::damaged(&mut self.random, &triple[which]),
                };
            }
            let lengths = self.any_lists();
            self.case(triple.each_ref().map(|text| &text[..]), lengths);
        }
    }

    /// Texts of about 60,000 bytes in each of the three places, beside others and each other.
    fn sizes(&mut self) {
        let small = b"(lines 3)\n(cn 0 1)\n(v 1 2)\n";
        let malformed = b"(lines 3)\n(cn 0 1)\n(v 1 2)";
        for size in [59_999, 60_000, 60_001, 60_002, 65_536, 100_000] {
            for _ in 0..12 {
                let other_size = self.random.pick(&[59_999, 60_000, 60_001, 65_536]);
                let long = [size, other_size].map(|size| texts::of_size(&mut self.random, size));
                let slips = [size, other_size].map(|size| slip_of_size(&mut self.random, size));
                for triple in [
                    [&long[0][..], b"", small],
                    [&long[0], &slips[1], &long[1]],
                    [small, &slips[0], small],
                    [small, &slips[0], &long[1]],
                    [small, &slips[0], malformed],
                    [malformed, &slips[0], small],
                    [small, b"", &long[0]],
                    [small, b"(pass 0)\n", &long[0]],
                    [small, b"(pass 1", &long[0]],
                    [small, &slips[1], &long[0]],
                    [b"(lines 4)\n", b"", &long[0]],
                ] {
                    let lengths = [0, 1].map(|_| self.random.pick(&LENGTHS));
                    for lengths in [WHOLE, lengths] {
                        let got = self.case(triple, lengths).outcome;
                        let overlong = triple.map(|text| text.len() > 60_000);
                        let right = match overlong {
                            [true, _, _] => got == refused((1, 0, 1)),
                            [_, true, _] if got.text != 1 => got == refused((1, 0, 2)),
                            [_, _, true] if got.text != 1 && got.text != 2 => {
                                got == refused((1, 0, 3))
                            }
                            _ => got.number != 1,
                        };
                        self.report.case(right, || {
                            format!("rule 1: got {got:?}; {}", shown_triple(triple))
                        });
                    }
                }
            }
        }
        self.circuits_of_sizes(small);
        for one in [0, 1, 2, 4_094, 4_095, 4_096, 4_097, 5_000, 65_536, 70_000] {
            for other in [0, 1, 4_095, 4_096, 4_097, 70_000] {
                for second in [&small[..], malformed, b"", b"(lines 4)\n"] {
                    for slip in [&b""[..], b"(pass 1)\n", b"(pass 1)"] {
                        self.case([small, slip, second], [one, other]);
                        self.case([second, slip, small], [one, other]);
                    }
                }
            }
        }
    }

    /// 4,095 to 4,098 gates in either text, the last perhaps against an earlier rule.
    fn circuits_of_sizes(&mut self, small: &[u8]) {
        for count in 4_095..=4_098 {
            let lines = self.random.between(2, 32) as u8;
            let gates = texts::gates_of(&mut self.random, lines, count);
            let text = circuit::text(lines, &gates);
            let refusal = |text| match count {
                4_095 | 4_096 => (0, 0, 0),
                _ => (9, 4_098, text),
            };
            self.gives("many gates", [&text, b"", &text], WHOLE, refusal(1));
            if count > MOST {
                self.gives("many gates", [small, b"", &text], WHOLE, refusal(3));
                let slip = b"(pass 0)\n";
                self.gives("many gates", [small, slip, &text], WHOLE, refusal(3));
            }
            let last = circuit::text(lines, &gates[..count - 1]);
            for line in ["(not 32)\n", "(cn 0 0)\n", "(not 0)", "(not  0)\n", "\n"] {
                let changed = [&last, line.as_bytes()].concat();
                for texts in [[&changed[..], b"", small], [small, b"", &changed]] {
                    self.case(texts, WHOLE);
                }
            }
        }
    }

    /// Slips around 4,096 lines, the last perhaps malformed or not allowed.
    fn most_steps(&mut self) {
        let not = Gate::Not { target: 0 };
        for length in [2, 3, MOST] {
            let text = circuit::text(2, &vec![not; length]);
            let word = passing(length - 1);
            let lines = |count| steps::text(&vec![word; count]);
            for count in [0, 1, 2, 4_094, 4_095, 4_096, 4_097, 4_098, 4_600] {
                let slip = lines(count);
                let due = match count {
                    0..=4_096 => (0, 0, 0),
                    _ => (9, 4_097, 2),
                };
                let lengths = self.whole_lists();
                self.gives("so many steps", [&text, &slip, &text], lengths, due);
                // One more, that is malformed: 3 unless the 4,097th was in form.
                for bad in ["(pass 1", "(pass 1)", "(pass 01)\n", "\n", "(not 0)\n", " "] {
                    let slip = [&slip, bad.as_bytes()].concat();
                    let due = match count {
                        0..=4_096 => (3, count as u64 + 1, 2),
                        _ => (9, 4_097, 2),
                    };
                    self.gives("malformed after", [&text, &slip, &text], WHOLE, due);
                }
                // One more, that is not allowed.
                for bad in [passing(0), merging(length), passing(9_999)] {
                    let slip = [&slip[..], &steps::text(&[bad])].concat();
                    let due = match count {
                        0..=4_095 => (12, count as u64 + 1, 2),
                        _ => (9, 4_097, 2),
                    };
                    self.gives("not allowed after", [&text, &slip, &text], WHOLE, due);
                }
                // One before, that is not allowed, is found after the last line is read.
                let slip = [b"(pass 0)\n", &slip[..]].concat();
                let due = match count {
                    0..=4_095 => (12, 1, 2),
                    _ => (9, 4_097, 2),
                };
                self.gives("not allowed before", [&text, &slip, &text], WHOLE, due);
                let other = circuit::text(3, &vec![not; length]);
                let due = if due.0 == 9 { due } else { (11, 0, 0) };
                self.gives("on other lines", [&text, &slip, &other], WHOLE, due);
                let due = if due.0 == 9 { due } else { (3, 1, 3) };
                self.gives("no second", [&text, &slip, b""], WHOLE, due);
            }
        }
    }

    /// Up to 4,096 steps on up to 4,096 gates, with some harm: to the first step, to the last
    /// and to any, and to the end.
    fn long(&mut self) {
        for (name, lines, chain) in self.long_chains() {
            let (first, last) = (&chain.first, &chain.last);
            self.accepted(&name, lines, &chain);
            self.is_one_circuit(lines, &chain);
            let count = chain.steps.len();
            for at in [0, count - 1, self.random.below(count)] {
                let step = chain.steps[at];
                for instead in [
                    &[step.with_other_word()][..],
                    &[step.at(step.place + 1)],
                    &[step.at(step.place - 1)],
                    &[step.at(0)],
                    &[step.at(MOST)],
                    &[],
                ] {
                    let slip = [&chain.steps[..at], instead, &chain.steps[at + 1..]].concat();
                    self.gives_due(&name, lines, first, &slip, last);
                }
            }
            for which in 0..ENDS.len() {
                let mut other = self.other_end(lines, last, which);
                other.truncate(MOST);
                self.gives_due(&name, lines, first, &chain.steps, &other);
            }
            self.gives_due(&name, lines, first, &[], last);
        }
    }

    /// Long chains of several shapes.
    fn long_chains(&mut self) -> Vec<(String, u8, Chain)> {
        let mut chains = Vec::new();
        let mut add = |name: &str, lines, first: Vec<Gate>, steps: Vec<Step>| {
            // All of these are allowed.
            if let Ok(last) = followed(&first, &steps) {
                let chain = Chain { first, steps, last };
                chains.push((name.to_string(), lines, chain));
            }
        };
        let into_one = steps::merging_into_one(30, 31, MOST);
        add(
            "4,095 merges at the front",
            32,
            into_one,
            vec![merging(1); 4_095],
        );
        let mut into_one = steps::merging_into_one(0, 1, 2_049);
        into_one.splice(..0, texts::gates_of(&mut self.random, 2, 2_047));
        add(
            "2,048 merges in the middle",
            2,
            into_one,
            vec![merging(2_048); 2_048],
        );
        let nots = vec![Gate::Not { target: 31 }; MOST];
        add(
            "pairs from the front",
            32,
            nots.clone(),
            vec![merging(1); 2_048],
        );
        let behind = (0..2_048)
            .map(|pair| merging(MOST - 1 - 2 * pair))
            .collect();
        add("pairs from the end", 32, nots, behind);
        let vps = vec![
            Gate::Powered {
                power: 3,
                control: 31,
                target: 0,
            };
            MOST
        ];
        let carried = (1..MOST).map(passing).collect();
        add("passes from the front to the end", 32, vps.clone(), carried);
        let carried = (1..MOST).rev().map(passing).collect();
        add("passes from the end to the front", 32, vps, carried);
        for case in 0..12 {
            let lines = self.random.pick(&[2, 3, 6, 16, 32]);
            let gates = texts::gates_of(&mut self.random, lines, MOST);
            let merges = [1, 2, 8][case % 3];
            let chain = steps::forwards(&mut self.random, &gates, MOST, merges);
            chains.push(("long, forwards".to_string(), lines, chain));
            let count = self.random.between(500, 2_000);
            let last = texts::gates_of(&mut self.random, lines, count);
            let chain = steps::backwards(&mut self.random, lines, &last, 5_500, MOST);
            let chain = self.cut(chain);
            chains.push(("long, backwards".to_string(), lines, chain));
            let half = texts::gates_of(&mut self.random, lines, 24);
            let chain = steps::reducing(&[&half[..], &circuit::undone(&half)].concat());
            chains.push(("a long reduction".to_string(), lines, chain));
        }
        chains.retain(|(_, _, chain)| (1..=MOST).contains(&chain.steps.len()));
        let longest = |(_, _, chain): &&(String, u8, Chain)| {
            chain.steps.len() == MOST && chain.first.len() == MOST
        };
        let longest = chains.iter().filter(longest).count();
        println!(
            "slips: {} long chains, {longest} of 4,096 steps on 4,096 gates",
            chains.len()
        );
        self.report.case(longest >= 6 && chains.len() >= 30, || {
            "too few long chains".to_string()
        });
        chains
    }

    /// A chain without its first steps, so that it has at most 4,096.
    fn cut(&self, chain: Chain) -> Chain {
        let over = chain.steps.len().saturating_sub(MOST);
        let (front, rest) = chain.steps.split_at(over);
        match followed(&chain.first, front) {
            Ok(first) => Chain {
                first,
                steps: rest.to_vec(),
                last: chain.last.clone(),
            },
            Err(_) => chain,
        }
    }

    /// The texts may be one area: the two circuits, or all three, which as a slip is
    /// malformed or, where all are empty, as a circuit.
    fn one_area(&mut self) {
        for case in 0..2_000 {
            let lines = texts::some_lines(&mut self.random);
            let most = if case % 100 == 0 { 4_096 } else { 20 };
            let gates = self.gates(lines, most);
            let text = Area::holding(&circuit::text(lines, &gates), b'?');
            let back_and_forth = match (1..gates.len())
                .find(|&place| steps::taken(&gates, passing(place)).is_some())
            {
                Some(place) => vec![passing(place); 2],
                None => Vec::new(),
            };
            let steps = Area::holding(&steps::text(&back_and_forth), b'?');
            for (middle, due) in [(&steps, (0, 0, 0)), (&text, (3, 1, 2))] {
                let mut lists = [0xffff, 0xfffe].map(|junk| Area::filled(4_096, junk));
                let outcome = slip([&text, middle, &text], lists.each_mut());
                self.triples += 1;
                self.count(outcome);
                let records = match due.0 {
                    0 => circuit::records(&gates),
                    _ => Vec::new(),
                };
                let right = outcome == refused(due)
                    && lists.iter().all(|list| holds(list, &records))
                    && lists[0].guards_hold(0xffff)
                    && lists[1].guards_hold(0xfffe)
                    && text.guards_hold(b'?')
                    && steps.guards_hold(b'?');
                self.report.case(right, || {
                    format!(
                        "one area: got {outcome:?}, not {due:?}, or other lists; {}",
                        shown(text.inside())
                    )
                });
            }
        }
        let none = Area::holding(b"", b'?');
        let mut lists = [0, 1].map(|_| Area::filled(4_096, 0xffff));
        let outcome = slip([&none; 3], lists.each_mut());
        self.report
            .case(outcome == refused((3, 1, 1)), || format!("{outcome:?}"));
    }
}

/// Slips worked out by hand: first circuit, slip, second circuit, and number, line, text.
const KNOWN: [(&str, &str, &str, Due); 30] = [
    ("(lines 1)\n", "", "(lines 1)\n", (0, 0, 0)),
    (
        "(lines 2)\n(v 0 1)\n(v 0 1)\n",
        "(merge 1)\n",
        "(lines 2)\n(cn 0 1)\n",
        (0, 0, 0),
    ),
    (
        "(lines 2)\n(cn 0 1)\n(v 0 1)\n",
        "(merge 1)\n",
        "(lines 2)\n(vp 0 1)\n",
        (0, 0, 0),
    ),
    (
        "(lines 2)\n(v 0 1)\n(vp 0 1)\n",
        "(merge 1)\n",
        "(lines 2)\n",
        (0, 0, 0),
    ),
    (
        "(lines 2)\n(vp 0 1)\n(vp 0 1)\n",
        "(merge 1)\n",
        "(lines 2)\n(cn 0 1)\n",
        (0, 0, 0),
    ),
    (
        "(lines 2)\n(vp 0 1)\n(cn 0 1)\n",
        "(merge 1)\n",
        "(lines 2)\n(v 0 1)\n",
        (0, 0, 0),
    ),
    (
        "(lines 2)\n(cn 0 1)\n(cn 0 1)\n",
        "(merge 1)\n",
        "(lines 2)\n",
        (0, 0, 0),
    ),
    (
        "(lines 1)\n(not 0)\n(not 0)\n",
        "(merge 1)\n",
        "(lines 1)\n",
        (0, 0, 0),
    ),
    (
        "(lines 3)\n(cn 0 2)\n(cn 1 2)\n(cn 0 2)\n",
        "(pass 1)\n(merge 2)\n",
        "(lines 3)\n(cn 1 2)\n",
        (0, 0, 0),
    ),
    (
        "(lines 3)\n(cn 0 2)\n(cn 1 2)\n(cn 0 2)\n",
        "(pass 2)\n(merge 1)\n",
        "(lines 3)\n(cn 1 2)\n",
        (0, 0, 0),
    ),
    (
        "(lines 2)\n(cn 0 1)\n(not 1)\n",
        "(pass 1)\n",
        "(lines 2)\n(not 1)\n(cn 0 1)\n",
        (0, 0, 0),
    ),
    // The expansion of an mct of two controls, and the list that map gives.
    (
        "(lines 3)\n(v 1 2)\n(cn 0 1)\n(vp 1 2)\n(cn 0 1)\n(v 0 2)\n",
        "(pass 4)\n(pass 3)\n(pass 2)\n(pass 1)\n",
        "(lines 3)\n(v 0 2)\n(v 1 2)\n(cn 0 1)\n(vp 1 2)\n(cn 0 1)\n",
        (0, 0, 0),
    ),
    // A vanished pair opens the next.
    (
        "(lines 2)\n(v 0 1)\n(v 1 0)\n(vp 1 0)\n(vp 0 1)\n",
        "(merge 2)\n(merge 1)\n",
        "(lines 2)\n",
        (0, 0, 0),
    ),
    (
        "(lines 2)\n(v 0 1)\n(v 1 0)\n(vp 1 0)\n(vp 0 1)\n",
        "(merge 1)\n(merge 2)\n",
        "(lines 2)\n",
        (12, 1, 2),
    ),
    (
        "(lines 2)\n(v 0 1)\n(v 1 0)\n(vp 1 0)\n(vp 0 1)\n",
        "(merge 2)\n(merge 2)\n",
        "(lines 2)\n",
        (12, 2, 2),
    ),
    // A gate passes one that has the same target, and one that has the same control.
    (
        "(lines 3)\n(v 0 2)\n(v 1 2)\n",
        "(pass 1)\n",
        "(lines 3)\n(v 1 2)\n(v 0 2)\n",
        (0, 0, 0),
    ),
    (
        "(lines 3)\n(v 0 2)\n(v 0 1)\n",
        "(pass 1)\n",
        "(lines 3)\n(v 0 1)\n(v 0 2)\n",
        (0, 0, 0),
    ),
    // Neither's target may be the other's control.
    (
        "(lines 3)\n(cn 0 1)\n(cn 1 2)\n",
        "(pass 1)\n",
        "(lines 3)\n(cn 1 2)\n(cn 0 1)\n",
        (12, 1, 2),
    ),
    (
        "(lines 3)\n(cn 1 2)\n(cn 0 1)\n",
        "(pass 1)\n",
        "(lines 3)\n(cn 0 1)\n(cn 1 2)\n",
        (12, 1, 2),
    ),
    (
        "(lines 2)\n(not 0)\n(cn 0 1)\n",
        "(pass 1)\n",
        "(lines 2)\n(cn 0 1)\n(not 0)\n",
        (12, 1, 2),
    ),
    (
        "(lines 2)\n(cn 0 1)\n(not 0)\n",
        "(pass 1)\n",
        "(lines 2)\n(not 0)\n(cn 0 1)\n",
        (12, 1, 2),
    ),
    // A merge needs the same control and the same target.
    (
        "(lines 3)\n(v 0 2)\n(v 1 2)\n",
        "(merge 1)\n",
        "(lines 3)\n(cn 0 2)\n",
        (12, 1, 2),
    ),
    (
        "(lines 3)\n(v 0 1)\n(v 0 2)\n",
        "(merge 1)\n",
        "(lines 3)\n(cn 0 1)\n",
        (12, 1, 2),
    ),
    (
        "(lines 2)\n(not 1)\n(cn 0 1)\n",
        "(merge 1)\n",
        "(lines 2)\n",
        (12, 1, 2),
    ),
    (
        "(lines 2)\n(not 0)\n(not 1)\n",
        "(merge 1)\n",
        "(lines 2)\n",
        (12, 1, 2),
    ),
    // No place 0, and none without a right neighbour.
    (
        "(lines 1)\n(not 0)\n(not 0)\n",
        "(merge 0)\n",
        "(lines 1)\n",
        (12, 1, 2),
    ),
    (
        "(lines 1)\n(not 0)\n(not 0)\n",
        "(merge 2)\n",
        "(lines 1)\n",
        (12, 1, 2),
    ),
    // Neither circuit is reduced.
    (
        "(lines 1)\n(not 0)\n(not 0)\n",
        "",
        "(lines 1)\n",
        (13, 0, 0),
    ),
    (
        "(lines 1)\n",
        "",
        "(lines 1)\n(not 0)\n(not 0)\n",
        (13, 0, 0),
    ),
    (
        "(lines 1)\n(not 0)\n(not 0)\n",
        "(pass 1)\n",
        "(lines 2)\n(not 0)\n(not 0)\n",
        (11, 0, 0),
    ),
];

/// Small triples that are accepted, from which every single change is tried.
const SMALL: [(&str, &str, &str); 5] = [
    (
        "(lines 3)\n(cn 0 2)\n(cn 1 2)\n(cn 0 2)\n",
        "(pass 1)\n(merge 2)\n",
        "(lines 3)\n(cn 1 2)\n",
    ),
    (
        "(lines 2)\n(v 0 1)\n(v 0 1)\n",
        "(merge 1)\n",
        "(lines 2)\n(cn 0 1)\n",
    ),
    ("(lines 12)\n(not 10)\n", "", "(lines 12)\n(not 10)\n"),
    (
        "(lines 1)\n(not 0)\n(not 0)\n(not 0)\n(not 0)\n(not 0)\n(not 0)\n(not 0)\n(not 0)\n(not 0)\n(not 0)\n(not 0)\n(not 0)\n",
        "(pass 10)\n(merge 11)\n(pass 9)\n",
        "(lines 1)\n(not 0)\n(not 0)\n(not 0)\n(not 0)\n(not 0)\n(not 0)\n(not 0)\n(not 0)\n(not 0)\n(not 0)\n",
    ),
    ("(lines 1)\n", "", "(lines 1)\n"),
];

/// A text, what it is refused with by itself, and what it holds where it is accepted.
struct Known<T> {
    text: Vec<u8>,
    refusal: (u64, u64),
    holds: T,
}

impl<T: Default> Known<T> {
    fn bad(text: &[u8], number: u64, line: u64) -> Known<T> {
        Known {
            text: text.to_vec(),
            refusal: (number, line),
            holds: T::default(),
        }
    }
}

/// Circuits, with their lines and gates.
fn known_circuits() -> Vec<Known<(u8, Vec<Gate>)>> {
    let good = |lines: u8, gates: &[Gate]| Known {
        text: circuit::text(lines, gates),
        refusal: (0, 0),
        holds: (lines, gates.to_vec()),
    };
    let nots = vec![Gate::Not { target: 0 }; MOST];
    let full = circuit::text(32, &nots);
    let mut overlong = full.clone();
    overlong.resize(60_001, b'\n');
    vec![
        good(3, &nots[..3]),
        good(3, &nots[..1]),
        good(4, &nots[..3]),
        good(32, &nots),
        Known::bad(b"", 3, 1),
        Known::bad(b"(lines 3)\n(cn 0 1)\n(v 1 2)", 3, 3),
        Known::bad(b"(lines 3)\n(mct (0 1) 2)\n", 3, 2),
        Known::bad(b"(pass 1)\n", 3, 1),
        Known::bad(&overlong[..60_000], 3, 4_098),
        Known::bad(b"(lines 33)\n", 4, 1),
        Known::bad(b"(lines 3)\n(cn 0 1)\n(v 1 3)\n(v 1 1)\n", 4, 3),
        Known::bad(b"(lines 3)\n(v 1 1)\n(not 3)\n", 5, 2),
        Known::bad(&[&full[..], b"(not 0)\n"].concat(), 9, 4_098),
        Known::bad(&overlong, 1, 0),
    ]
}

/// Slips, with their steps.
fn known_slips() -> Vec<Known<Vec<Step>>> {
    let good = |slip: &[Step]| Known {
        text: steps::text(slip),
        refusal: (0, 0),
        holds: slip.to_vec(),
    };
    let mut overlong = steps::text(&[passing(1); MOST]);
    overlong.resize(60_001, b'\n');
    vec![
        good(&[]),
        good(&[passing(1), merging(2)]),
        good(&[passing(0)]),
        good(&[passing(1), merging(3)]),
        Known::bad(b"\n", 3, 1),
        Known::bad(b"(pass 1)\n(pass 2)\n(merge 01)\n", 3, 3),
        Known::bad(b"(lines 3)\n(pass 1)\n", 3, 1),
        Known::bad(&overlong[..60_000], 3, 4_097),
        Known::bad(&steps::text(&[passing(0); MOST + 1]), 9, 4_097),
        Known::bad(&overlong, 1, 0),
    ]
}

/// Number, line and text that have to come back, by the order in which all is judged.
fn due_of(
    first: &Known<(u8, Vec<Gate>)>,
    slip: &Known<Vec<Step>>,
    second: &Known<(u8, Vec<Gate>)>,
    lengths: [usize; 2],
) -> Due {
    match [first.refusal, slip.refusal, second.refusal] {
        [(1, _), _, _] => (1, 0, 1),
        _ if lengths[0] < 4_096 => (2, 0, 1),
        [(number, line), _, _] if number > 0 => (number, line, 1),
        [_, (number, line), _] if number > 0 => (number, line, 2),
        [_, _, (1, _)] => (1, 0, 3),
        _ if lengths[1] < 4_096 => (2, 0, 3),
        [_, _, (number, line)] if number > 0 => (number, line, 3),
        _ if first.holds.0 != second.holds.0 => (11, 0, 0),
        _ => steps::due(&first.holds.1, &slip.holds, &second.holds.1),
    }
}

/// The texts of two circuits on so many lines and a slip between them.
fn texts_of(lines: u8, first: &[Gate], slip: &[Step], second: &[Gate]) -> [Vec<u8>; 3] {
    [
        circuit::text(lines, first),
        steps::text(slip),
        circuit::text(lines, second),
    ]
}

/// Whether two gates differ in one part alone, or are a NOT and a gate with a control on
/// the same target.
fn is_near(one: Gate, other: Gate) -> bool {
    let parts = |gate: Gate| match gate {
        Gate::Not { target } => [99, 99, target],
        Gate::Powered {
            power,
            control,
            target,
        } => [power, control, target],
    };
    let (one, other) = (parts(one), parts(other));
    let same = (0..3).filter(|&part| one[part] == other[part]).count();
    let a_not = (one[0] == 99) != (other[0] == 99);
    same == 2 || (a_not && one[2] == other[2])
}

/// Slips of exactly so many bytes, none of them in form.
fn slip_of_size(random: &mut Random, size: usize) -> Vec<u8> {
    let line: &[u8] = random.pick(&[b"(pass 1)\n" as &[u8], b"(merge 4095)\n", b"(pass 0)\n"]);
    let mut slip = Vec::new();
    match random.below(6) {
        // One line of garbage, with and without its end.
        0 => {
            slip.resize(size, b'x');
            if random.one_in(2) {
                slip[size - 1] = b'\n';
            }
        }
        // Line ends only, and any bytes.
        1 => slip.resize(size, b'\n'),
        2 => slip.resize_with(size, || random.next() as u8),
        // One place of thousands of digits.
        3 => {
            slip.extend_from_slice(b"(pass ");
            slip.resize(size - 2, b'1');
            slip.extend_from_slice(b")\n");
        }
        // More than 4,096 lines, the last cut.
        4 => {
            slip = line.repeat(size / line.len() + 1);
            slip.truncate(size);
        }
        // As many lines as may be, and then one malformed line to the end.
        _ => {
            slip = line.repeat(MOST);
            slip.resize(size - 1, b'1');
            slip.push(b'\n');
        }
    }
    slip
}

fn refused((number, line, text): Due) -> Outcome {
    Outcome {
        number,
        line,
        text,
        count: 0,
    }
}

/// What the papers say of the four numbers, whatever the texts.
fn numbers_hold(outcome: Outcome, lengths: [usize; 2]) -> bool {
    let Outcome {
        number,
        line,
        text,
        count,
    } = outcome;
    let with_text = NUMBERS.get(text as usize);
    let with_line = matches!(number, 3 | 4 | 5 | 9 | 12);
    with_text.is_some_and(|numbers| numbers.iter().any(|&(n, _)| n as u64 == number))
        && with_line == (line > 0)
        && count == 0
        && (lengths[0] >= 4_096 || matches!((number, text), (1, 1) | (2, 1)))
        && (lengths[1] >= 4_096 || matches!((number, text), (_, 1) | (_, 2) | (1, 3) | (2, 3)))
        && !((lengths[0] >= 4_096 && (number, text) == (2, 1))
            || (lengths[1] >= 4_096 && (number, text) == (2, 3)))
}

fn shown_triple(texts: [&[u8]; 3]) -> String {
    texts.map(shown).join(" and ")
}
