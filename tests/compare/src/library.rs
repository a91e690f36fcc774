//! The static library against the peer, on many thousands of texts: number,
//! line, gates and bytes, every record and byte lent, and what stands beside
//! them. What the papers say of an answer by themselves, of the answers of one text
//! with several areas, of negated controls (see `negated`), and of the inverse of an
//! inverse, is asserted without the peer too; what order 5 says of spares (see
//! `spares`), order 6 of rules 7 and 8 (see `wide`), and order 8 of kept lines (see
//! `kept`), beside it.

use crate::built::{self, Drawn};
use crate::circuit::{self, Gate};
use crate::kept;
use crate::known::{self, Known};
use crate::negated;
use crate::random::Random;
use crate::report::{shown, Parts, Report};
use crate::rules::Refusal;
use crate::spares::{self, Size};
use crate::subject::{call, holds, read_record, Area};
use crate::texts::{self, Signs};
use crate::wide::{self, Case, Tally};
use peer::{Job, Outcome, Program};

const JOBS: [Job; 3] = [Job::Map, Job::Reduce, Job::Invert];
/// Those over a circuit text.
const CIRCUIT_JOBS: [Job; 2] = [Job::Reduce, Job::Invert];
/// The calls that are counted apart, and the numbers that each can return.
const CALLS: [(&str, &[usize]); 6] = [
    ("map", &[0, 1, 2, 3, 4, 5, 6, 7, 8, 9, 10]),
    ("map, empty area", &[0, 1, 2, 3, 4, 5, 6, 7, 8, 9]),
    ("reduce", &[0, 1, 2, 3, 4, 5, 9, 10]),
    ("reduce, empty area", &[1, 2, 3, 4, 5, 9, 10]),
    ("invert", &[0, 1, 2, 3, 4, 5, 9, 10]),
    ("invert, empty area", &[1, 2, 3, 4, 5, 9, 10]),
];
/// How often, at least, map gives each of the numbers 0 to 10 to a text with a
/// minus sign in it; 1 and 2 do not look at the text.
const FEWEST_SIGNED: [u64; 11] = [
    30_000, 0, 0, 80_000, 10_000, 5_000, 3_000, 50_000, 3_000, 800, 20_000,
];
/// How often, at least, each number of controls from 14 to 18 has to answer on each of
/// one to three lines more, in the texts with lines against several rules.
const FEWEST_WIDE: usize = 40;
/// Random cascades with negated controls that are held to what the order says,
/// without the peer.
const NEGATED: usize = 2_000;
/// What is run of the order of the spares.
const SPARES: Size = Size {
    placements: 12,
    narrow_lines: 8,
    judged: 1_200,
};
/// What is run of the order of rules 7 and 8.
const WIDE: wide::Size = wide::Size {
    whole: true,
    random: 6_000,
};
/// What is run of the order of kept lines.
const KEPT: kept::Size = kept::Size {
    whole: true,
    random: 6_000,
    laws: 900,
};
/// Texts with a keep line that are damaged at random.
const KEPT_DAMAGED: usize = 6_000;
/// Other lists and areas than one of 4,096 records with an area of no byte and with an
/// ample one.
const OTHER_AREAS: [(usize, usize); 8] = [
    (4_097, 0),
    (4_095, 0),
    (5_000, 50_000),
    (4_095, 50_000),
    (4_096, 1),
    (0, 1),
    (9_000, 9),
    (0, 0),
];
/// An answer area that has room for every answer, and one that has more.
const LONGEST: [usize; 2] = [45_067, 50_000];

struct Library {
    report: Report,
    random: Random,
    /// How often each number came up, for each of the calls.
    numbers: [[u64; 11]; CALLS.len()],
    /// How often map gave each number to a text with a minus sign in it.
    signed: [u64; 11],
}

/// What the library gave in one case, and what it had to return.
struct Given {
    outcome: Outcome,
    expected: Outcome,
    list: Area<u16>,
}

pub fn run() -> Report {
    let mut library = Library {
        report: Report::new("library"),
        random: Random::seeded(20_240_601),
        numbers: [[0; 11]; CALLS.len()],
        signed: [0; 11],
    };
    library.run_parts(&[
        ("answer areas of every length", Library::every_area),
        ("every single change of small texts", Library::every_change),
        ("valid texts", Library::valid),
        ("damaged texts", Library::damaged),
        ("texts with lines against several rules", Library::wild),
        ("sizes of text and list", Library::sizes),
        ("numbers of lines and gates at the limits", Library::limits),
        ("long texts", Library::long),
        ("negated controls, without the peer", Library::negated),
        ("spares, beside the peer", Library::spares),
        ("spares, answer areas", Library::spares_areas),
        ("too wide against no spare", Library::wide),
        ("kept lines", Library::kept),
        ("kept lines, changed texts", Library::kept_changed),
        ("kept lines, without the peer", Library::kept_laws),
        ("linked circuits", Library::linked),
        ("long circuits of known lists", Library::built),
        ("long circuits redrawn by passes", Library::redrawn),
        ("records", Library::records),
    ]);
    library.tell();
    library.report
}

impl Parts for Library {
    fn report(&mut self) -> &mut Report {
        &mut self.report
    }

    fn given(&self) -> Option<(u64, &'static str)> {
        None
    }
}

impl Library {
    /// Tells how often each number came up; one that never did, and one that the
    /// call can't return but did, has failed.
    fn tell(&mut self) {
        println!("library: number                  0     1     2     3     4     5     6     7     8     9    10");
        for ((call, possible), numbers) in CALLS.into_iter().zip(self.numbers) {
            let row: Vec<String> = numbers.iter().map(|times| format!("{times:5}")).collect();
            println!("library: {call:20}{}", row.join(" "));
            for (number, times) in numbers.into_iter().enumerate() {
                self.report
                    .case((times > 0) == possible.contains(&number), || {
                        format!("{call}: number {number} came up {times} times")
                    });
            }
        }
        let row = self.signed.map(|times| format!("{times:5}"));
        println!("library: {:20}{}", "map, with a sign", row.join(" "));
        for (number, times) in self.signed.into_iter().enumerate() {
            self.report.case(times >= FEWEST_SIGNED[number], || {
                format!("map: number {number} came up {times} times for a text with a sign")
            });
        }
    }

    /// One case: the same lent areas to both, everything compared.
    fn case(&mut self, job: Job, text: &[u8], list_len: usize, answer_len: usize) -> Given {
        // Junk that is no record of a gate.
        let junk = 5_000 + (self.random.next() % 60_000) as u16;
        let junk_byte = self.random.next() as u8;
        let mut list = Area::filled(list_len, junk);
        let mut answer = Area::filled(answer_len, junk_byte);
        let text_area = Area::holding(text, junk_byte);
        let got = call(job, &text_area, &mut list, &mut answer);

        let mut expected_list = vec![junk; list_len];
        let mut expected_answer = vec![junk_byte; answer_len];
        let expected = job.run(text, &mut expected_list, &mut expected_answer);
        let call = 2 * (job as usize) + usize::from(answer_len == 0);
        if let Some(times) = self.numbers[call].get_mut(got.number as usize) {
            *times += 1;
            if job == Job::Map && text.contains(&b'-') {
                self.signed[got.number as usize] += 1;
            }
        }
        let wrong = if got != expected {
            "the outcome"
        } else if list.inside() != expected_list {
            "the gate list"
        } else if answer.inside() != expected_answer {
            "the answer area"
        } else if text_area.inside() != text {
            "the text, which was changed"
        } else if !(list.guards_hold(junk)
            && answer.guards_hold(junk_byte)
            && text_area.guards_hold(junk_byte))
        {
            "the memory beside an area"
        } else if !counts_hold(job, got, answer.inside()) {
            "what the papers say of gates and bytes"
        } else if job != Job::Map && got.number == 0 && text.contains(&b'-') {
            "what the papers say of a minus sign in a circuit"
        } else if job != Job::Map && got.number == 0 && has_keep_line(text) {
            "what the papers say of a keep line in a circuit"
        } else {
            ""
        };
        self.report.case(wrong.is_empty(), || {
            let first = list
                .inside()
                .iter()
                .zip(&expected_list)
                .position(|(a, b)| a != b);
            format!(
                "{job:?}, list of {list_len}, answer area of {answer_len}: {wrong} differs; \
                 got {got:?}, expected {expected:?}, first record that differs {first:?}; text {}",
                shown(text)
            )
        });
        Given {
            outcome: got,
            expected,
            list,
        }
    }

    /// The answers of one text, by the same job, on lists of one length.
    fn agree(&mut self, job: Job, text: &[u8], given: &[Given]) {
        self.report.case(differ_by_area_only(given), || {
            let outcomes: Vec<Outcome> = given.iter().map(|given| given.outcome).collect();
            format!(
                "{job:?} with several answer areas: {outcomes:?}, or another list; text {}",
                shown(text)
            )
        });
    }

    fn list_len(&mut self) -> usize {
        match self.random.below(40) {
            0 => self.random.pick(&[0, 1, 2_048, 4_095, 4_095]),
            1 => 4_097,
            2 => 5_000,
            3 => self.random.between(4_096, 9_000),
            _ => 4_096,
        }
    }

    /// A text to one job with an empty answer area and with another. Gives what it
    /// returned for the empty one.
    fn with_and_without(
        &mut self,
        job: Job,
        text: &[u8],
        list_len: usize,
        answer_len: usize,
    ) -> Outcome {
        let given = [answer_len, 0].map(|length| self.case(job, text, list_len, length));
        self.agree(job, text, &given);
        given[1].outcome
    }

    /// A text to all jobs, with some lengths of list and answer area. Gives what map
    /// returned for an empty one.
    fn any_job(&mut self, text: &[u8]) -> Outcome {
        let outcomes = JOBS.map(|job| {
            let list_len = self.list_len();
            let answer_len = self.random.pick(&[1, 9, 10, 50, 60, 200, 1_000, 50_000]);
            self.with_and_without(job, text, list_len, answer_len)
        });
        outcomes[0]
    }

    /// A text to one job, with the answer area longest, empty, of one byte and,
    /// where there is an answer, one short, fitting, larger by one and shorter.
    fn areas(&mut self, job: Job, text: &[u8]) {
        let list_len = self.list_len();
        let longest = self.random.pick(&LONGEST);
        let mut given = vec![self.case(job, text, list_len, longest)];
        let mut lengths = vec![0, 1];
        if given[0].expected.number == 0 {
            let fitting = given[0].expected.bytes as usize;
            let shorter = self.random.below(fitting);
            lengths.extend([fitting - 1, fitting, fitting + 1, shorter]);
        }
        for answer_len in lengths {
            given.push(self.case(job, text, list_len, answer_len));
        }
        self.agree(job, text, &given);
    }

    /// A circuit text to both jobs over one, with such areas. They refuse the same.
    fn circuit_areas(&mut self, text: &[u8]) {
        for job in CIRCUIT_JOBS {
            self.areas(job, text);
        }
        let given = CIRCUIT_JOBS.map(|job| self.case(job, text, 4_096, 50_000).outcome);
        let [reduced, inverted] = given.map(|outcome| (outcome.number, outcome.line));
        self.report.case(reduced == inverted, || {
            format!("reduce and invert give {given:?}; text {}", shown(text))
        });
    }

    /// Texts whose answer is known, on whole and short lists: every answer area up
    /// to some length, those around the answer's own, and the longest.
    fn every_area(&mut self) {
        for known in known::all() {
            let fitting = known.ample.bytes as usize;
            let most = if known.text.len() < 1_000 { 140 } else { 2 };
            let around = [fitting.saturating_sub(1), fitting, fitting + 1];
            for list_len in [4_096, 4_097, 4_095, 0] {
                let lengths = (0..=most).chain(around).chain(LONGEST);
                let given: Vec<Given> = lengths
                    .map(|answer_len| self.known(&known, list_len, answer_len))
                    .collect();
                self.agree(known.job, &known.text, &given);
            }
        }
    }

    fn known(&mut self, known: &Known, list_len: usize, answer_len: usize) -> Given {
        let given = self.case(known.job, &known.text, list_len, answer_len);
        let (got, expected) = (given.outcome, known.outcome(list_len, answer_len));
        self.report.case(got == expected, || {
            format!(
                "{:?}, list of {list_len}, answer area of {answer_len}: got {got:?}, \
                 the papers say {expected:?}; text {}",
                known.job,
                shown(&known.text)
            )
        });
        given
    }

    fn every_change(&mut self) {
        for text in texts::SMALL {
            for changed in texts::every_change(text.as_bytes()) {
                let jobs = if text.contains("mct") {
                    &[Job::Map][..]
                } else {
                    &CIRCUIT_JOBS
                };
                for &job in jobs {
                    let answer_len = self.random.pick(&[100, 300, 10]);
                    self.with_and_without(job, &changed, 4_096, answer_len);
                }
            }
        }
        self.any_job(b"");
        for header in 0..=130 {
            for zeros in ["", "0", "00"] {
                self.any_job(format!("(lines {zeros}{header})\n").as_bytes());
                self.any_job(format!("(lines 32)\n(not {zeros}{header})\n").as_bytes());
                self.any_job(format!("(lines 32)\n(vp {zeros}{header} 1)\n").as_bytes());
                self.any_job(format!("(lines 32)\n(mct () {zeros}{header})\n").as_bytes());
                self.any_job(format!("(lines 32)\n(mct (1 {zeros}{header}) 0)\n").as_bytes());
            }
            // The same with a sign, which only a control may have.
            for zeros in ["", "0", "00", "-", " "] {
                let number = format!("-{zeros}{header}");
                for text in [
                    format!("(lines {number})\n"),
                    format!("(lines 32)\n(not {number})\n"),
                    format!("(lines 32)\n(cn {number} 1)\n"),
                    format!("(lines 32)\n(v 1 {number})\n"),
                    format!("(lines 32)\n(mct () {number})\n"),
                    format!("(lines 32)\n(mct ({number}) 0)\n"),
                    format!("(lines 32)\n(mct (1 {number}) 0)\n"),
                    format!("(lines 32)\n(mct ({number} 31) 0)\n"),
                ] {
                    self.any_job(text.as_bytes());
                }
            }
        }
    }

    fn valid(&mut self) {
        for case in 0..12_000 {
            let most = self.random.pick(&[2, 5, 12, 40, 120]);
            let text = texts::circuit(&mut self.random, most);
            self.circuit_areas(&text);
            let most = if case % 8 == 0 { 1_500 } else { 150 };
            let text = texts::cascade(&mut self.random, 12, most);
            self.areas(Job::Map, &text);
        }
    }

    fn damaged(&mut self) {
        for _ in 0..24_000 {
            let text = texts::circuit(&mut self.random, 12);
            let text = texts::damaged(&mut self.random, &text);
            self.any_job(&text);
            let text = texts::cascade(&mut self.random, 6, 120);
            let text = texts::damaged(&mut self.random, &text);
            self.any_job(&text);
        }
    }

    fn wild(&mut self) {
        // How often 14 to 18 controls were accepted, or refused by 7 or 8, with none, one
        // and two lines unnamed.
        let mut wide = [[0; 3]; 5];
        for _ in 0..24_000 {
            let text = texts::wild(&mut self.random, true);
            let Outcome { number, line, .. } = self.any_job(&text);
            for (place, (k, lines)) in (2..).zip(texts::shapes(&text)) {
                let answers = number == 0 || (matches!(number, 7 | 8) && line == place);
                if answers && (14..=18).contains(&k) && (k + 1..=k + 3).contains(&lines) {
                    wide[k - 14][lines - k - 1] += 1;
                }
            }
            let text = texts::wild(&mut self.random, false);
            self.any_job(&text);
        }
        println!("library: 14 to 18 controls with up to two lines unnamed: {wide:?}");
        let enough = wide.iter().flatten().all(|&times| times >= FEWEST_WIDE);
        self.report
            .case(enough, || format!("too few wide gates: {wide:?}"));
    }

    fn sizes(&mut self) {
        for size in [59_999, 60_000, 60_001, 60_002, 65_535, 65_536, 100_000] {
            for _ in 0..24 {
                let text = texts::of_size(&mut self.random, size);
                self.any_job(&text);
                for list_len in [4_095, 4_096, 5_000, 0] {
                    let job = self.random.pick(&JOBS);
                    self.case(job, &text, list_len, 100);
                }
            }
        }
        let cascade = b"(lines 5)\n(mct (0 1 2) 3)\n";
        let circuit = b"(lines 3)\n(cn 0 1)\n(v 1 2)\n";
        let malformed = b"(lines 3)\n(cn 0 1)\n(v 1 2)";
        for list_len in [
            0, 1, 2, 14, 4_094, 4_095, 4_096, 4_097, 5_000, 65_536, 70_000,
        ] {
            for text in [&cascade[..], circuit, malformed, b""] {
                for job in JOBS {
                    for answer_len in [0, 9, 27, 28, 200] {
                        self.case(job, text, list_len, answer_len);
                    }
                }
            }
        }
    }

    fn limits(&mut self) {
        for round in 0..24 {
            let signs = [Signs::None, Signs::Some, Signs::All][round % 3];
            // 255 to 258 mct lines, the last perhaps against an earlier rule.
            for count in 255..=258 {
                let text = texts::cascade_of_lines(&mut self.random, count, signs);
                self.any_job(&text);
                self.areas(Job::Map, &text);
                let last = text[..text.len() - 1]
                    .iter()
                    .rposition(|&b| b == b'\n')
                    .unwrap()
                    + 1;
                for line in [
                    "(mct (0 0) 1)\n",
                    "(mct (0 40) 1)\n",
                    "(mct (0) 0)\n",
                    "(mct () 0)",
                    "(mct ()  0)\n",
                    "(mct (-0 -0) 1)\n",
                    "(mct (-40) 1)\n",
                    "(mct (-0) 0)\n",
                    "(mct (--0) 1)\n",
                    "(mct (-0) 1)\n",
                ] {
                    self.any_job(&[&text[..last], line.as_bytes()].concat());
                }
            }
            // Expansions around the limit.
            for total in 4_090..=4_100 {
                let text = texts::cascade_of_total(&mut self.random, total, signs);
                self.any_job(&text);
                self.areas(Job::Map, &text);
                let text = texts::damaged(&mut self.random, &text);
                self.any_job(&text);
            }
        }
        let wide = "(mct (0 1 2 3 4 5 6 7 8 9 10 11 12 13 14) 15)\n";
        for (count, rest) in [
            (10, 0),
            (11, 0),
            (12, 0),
            (13, 0),
            (11, 4),
            (11, 5),
            (11, 6),
            (10, 256),
            (11, 256),
        ] {
            let text =
                "(lines 17)\n".to_string() + &wide.repeat(count) + &"(mct () 3)\n".repeat(rest);
            self.areas(Job::Map, text.as_bytes());
            self.any_job(text.as_bytes());
        }
        // The same with the first so many controls of the first gate negated, and
        // so many of the last: two NOTs for each.
        for (first, last) in [
            (1, 0),
            (0, 1),
            (1, 1),
            (2, 0),
            (0, 2),
            (3, 0),
            (0, 3),
            (15, 15),
        ] {
            for rest in [0, 1, 2, 3] {
                let mut gates = vec![wide.to_string(); 11];
                for (gate, negated) in [(0, first), (10, last)] {
                    let signs =
                        (0..15).map(|c| format!("{}{c}", if c < negated { "-" } else { "" }));
                    let controls: Vec<String> = signs.collect();
                    gates[gate] = format!("(mct ({}) 15)\n", controls.join(" "));
                }
                let text =
                    "(lines 17)\n".to_string() + &gates.concat() + &"(mct () 3)\n".repeat(rest);
                self.areas(Job::Map, text.as_bytes());
            }
        }
        // Every number of controls on every number of lines, with no sign, one on
        // every other control, and one on each.
        for lines in 1..=33u8 {
            for k in 0..=lines.min(32) {
                for every in [0, 2, 1] {
                    let sign = |c| if every > 0 && c % every == 0 { "-" } else { "" };
                    let controls: Vec<String> = (0..k).map(|c| format!("{}{c}", sign(c))).collect();
                    for target in [k, lines.saturating_sub(1), lines] {
                        let text =
                            format!("(lines {lines})\n(mct ({}) {target})\n", controls.join(" "));
                        self.areas(Job::Map, text.as_bytes());
                    }
                }
            }
        }
        // 4,095 to 4,098 gates, the last perhaps against an earlier rule.
        for _ in 0..4 {
            for count in 4_095..=4_098 {
                let text = texts::circuit_of(&mut self.random, count);
                self.any_job(&text);
                self.circuit_areas(&text);
                let last = text[..text.len() - 1]
                    .iter()
                    .rposition(|&b| b == b'\n')
                    .unwrap()
                    + 1;
                for line in ["(not 32)\n", "(cn 0 0)\n", "(not 0)", "(not  0)\n", "\n"] {
                    let changed = [&text[..last], line.as_bytes()].concat();
                    for job in CIRCUIT_JOBS {
                        self.case(job, &changed, 4_096, 50_000);
                    }
                }
            }
        }
        // A circuit that keeps all its 4,096 gates: the longest answers.
        let mut text = b"(lines 32)\n".to_vec();
        for _ in 0..2_048 {
            text.extend_from_slice(b"(vp 30 31)\n(vp 31 30)\n");
        }
        self.circuit_areas(&text);
        // Gates that all vanish, from the inside out.
        let text = b"(lines 2)\n".to_vec();
        let there = b"(cn 0 1)\n(v 1 0)\n".repeat(1_024);
        let back = b"(vp 1 0)\n(cn 0 1)\n".repeat(1_024);
        self.circuit_areas(&[text, there, back].concat());
    }

    fn long(&mut self) {
        for case in 0..180 {
            let most = if case % 3 == 0 { 4_096 } else { 1_500 };
            let count = self.random.between(most / 2, most);
            let text = texts::circuit_of(&mut self.random, count);
            self.circuit_areas(&text);
            let damaged = texts::damaged(&mut self.random, &text);
            self.any_job(&damaged);
            let total = self.random.between(most / 2, most);
            let signs = Signs::any(&mut self.random);
            let text = texts::cascade_of_total(&mut self.random, total, signs);
            self.areas(Job::Map, &text);
            let damaged = texts::damaged(&mut self.random, &text);
            self.any_job(&damaged);
        }
    }

    /// What the order says of negated controls, by the answers of the library alone.
    fn negated(&mut self) {
        let mut ask = |program: Program, text: &[u8]| Ok(program_answer(program, text));
        negated::run(&mut self.report, &mut self.random, NEGATED, &mut ask);
    }

    /// What the order says of the spares, by the answers of the library, the peer and
    /// an expansion and a reduction of its own.
    fn spares(&mut self) {
        let mut ask = |program: Program, text: &[u8]| Ok(program_answer(program, text));
        spares::run(&mut self.report, &mut self.random, SPARES, &mut ask);
    }

    /// Gates of every number of controls on every number of lines, and two of them
    /// together, with areas around their answers: rule 10 goes by the list.
    fn spares_areas(&mut self) {
        for (k, lines) in spares::shapes() {
            let mcts = [0, 1].map(|_| {
                let which = self.random.below(16);
                spares::placed(&mut self.random, k, lines, which)
            });
            self.areas(Job::Map, &texts::cascade_text(lines, &mcts[..1]));
            self.areas(Job::Map, &texts::cascade_text(lines, &mcts));
        }
    }

    /// What the order says of rules 7 and 8, each text with several lists and areas. In
    /// a circuit no mct line is in form.
    fn wide(&mut self) {
        let mut tally = Tally::default();
        for (turn, case) in wide::cases(&mut self.random, WIDE).iter().enumerate() {
            let text = case.text();
            let areas = [(4_096, 0), (4_096, LONGEST[turn % 2])];
            let given = areas.map(|lengths| self.wide_case(case, &text, lengths));
            self.agree(Job::Map, &text, &given);
            self.wide_case(case, &text, OTHER_AREAS[turn % OTHER_AREAS.len()]);
            if turn % 16 == 0 {
                self.no_circuit(CIRCUIT_JOBS[turn / 16 % 2], &text);
            }
            tally.add(case);
        }
        tally.tell(&mut self.report, WIDE);
        // The longest text with such a gate first, and one byte more.
        for (lines, k, number) in [(17, 16, 8), (18, 16, 7), (32, 31, 8), (32, 30, 7)] {
            let mut text = texts::cascade_text(lines, &[spares::first_lines(k)]);
            for (size, due) in [(60_000, (number, 2)), (60_001, (1, 0))] {
                text.resize(size, b'\n');
                for answer_len in [0, 50_000] {
                    let got = self.case(Job::Map, &text, 4_096, answer_len).outcome;
                    self.report.case((got.number, got.line) == due, || {
                        format!("Map: got {got:?}, not {due:?}; text {}", shown(&text))
                    });
                }
            }
        }
    }

    /// A cascade to a job over circuits, for which its line 2 is not in form.
    fn no_circuit(&mut self, job: Job, text: &[u8]) {
        let answer_len = self.random.pick(&[0, 9, 50_000]);
        let got = self.case(job, text, 4_096, answer_len).outcome;
        self.report.case((got.number, got.line) == (3, 2), || {
            format!(
                "{job:?}: got {got:?}, not 3 at line 2; text {}",
                shown(text)
            )
        });
    }

    fn wide_case(&mut self, case: &Case, text: &[u8], lengths: (usize, usize)) -> Given {
        self.due_case(text, lengths, case.due, case.quote(), || {
            format!("{:?}, before order 6 {:?}", case.kind, case.before)
        })
    }

    /// Map on a list and an answer area of these lengths: number and line are those that
    /// are due, and the gates where they are known.
    fn due_case(
        &mut self,
        text: &[u8],
        (list_len, answer_len): (usize, usize),
        due: Option<Refusal>,
        gates: Option<usize>,
        what: impl FnOnce() -> String,
    ) -> Given {
        let given = self.case(Job::Map, text, list_len, answer_len);
        let got = given.outcome;
        let due = match due {
            _ if list_len < 4_096 => (2, 0),
            Some(refusal) => refusal,
            // Line 1 alone is longer than nine bytes.
            None if (1..=9).contains(&answer_len) => (10, 0),
            None => (0, 0),
        };
        let gates = gates.filter(|_| due.0 == 0);
        let right = (got.number, got.line) == due
            && got.gates == gates.map_or(got.gates, |gates| gates as u64)
            && (due.0 < 3 || holds(&given.list, &[]));
        self.report.case(right, || {
            format!(
                "{}, list of {list_len}, answer area of {answer_len}: got {got:?}, the rules say \
                 {due:?} and gates {gates:?}; text {}",
                what(),
                shown(text)
            )
        });
        given
    }

    /// What the order says of kept lines, each text with several lists and areas, and with
    /// the list that is worked out for it. In a circuit neither a keep line nor an mct line
    /// is in form.
    fn kept(&mut self) {
        let mut tally = kept::Tally::default();
        for (turn, case) in kept::cases(&mut self.random, KEPT).iter().enumerate() {
            let text = case.text();
            let areas = [(4_096, 0), (4_096, LONGEST[turn % 2])];
            let given = areas.map(|lengths| self.kept_case(case, &text, lengths));
            self.agree(Job::Map, &text, &given);
            if let Some(list) = case.list() {
                let records = circuit::records(&list);
                let right = given.iter().all(|given| holds(&given.list, &records));
                self.report.case(right, || {
                    format!("Map: another list; text {}", shown(&text))
                });
            }
            self.kept_case(case, &text, OTHER_AREAS[turn % OTHER_AREAS.len()]);
            if turn % 8 == 0 && !case.has_only_line_1() {
                self.no_circuit(CIRCUIT_JOBS[turn / 8 % 2], &text);
            }
            tally.add(case);
        }
        tally.tell(&mut self.report, KEPT);
        for (size, due) in [(59_999, (6, 2)), (60_000, (6, 2)), (60_001, (1, 0))] {
            let text = kept::long_text(size);
            for lengths in [(4_096, 0), (5_000, 50_000)] {
                self.due_case(&text, lengths, Some(due), None, || {
                    "a long line".to_string()
                });
            }
        }
    }

    fn kept_case(&mut self, case: &kept::Case, text: &[u8], lengths: (usize, usize)) -> Given {
        self.due_case(text, lengths, case.due, case.quote(), || {
            format!("{:?}", case.kind)
        })
    }

    /// Every single change of small texts with a keep line, and random changes of others.
    fn kept_changed(&mut self) {
        for text in kept::SMALL {
            let job = if text.contains("cn") {
                Job::Reduce
            } else {
                Job::Map
            };
            for changed in texts::every_change(text.as_bytes()) {
                self.with_and_without(job, &changed, 4_096, 300);
            }
        }
        let size = kept::Size {
            whole: false,
            random: KEPT_DAMAGED,
            laws: 0,
        };
        for case in kept::cases(&mut self.random, size) {
            let text = texts::damaged(&mut self.random, &case.text());
            self.any_job(&text);
        }
    }

    /// What the order says of kept lines, by the answers of the library alone.
    fn kept_laws(&mut self) {
        let mut ask = |program: Program, text: &[u8]| Ok(program_answer(program, text));
        kept::laws(&mut self.report, &mut self.random, KEPT.laws, &mut ask);
    }

    /// Two linked circuits get one list, and one list for their inverses.
    fn linked(&mut self) {
        for _ in 0..1_500 {
            let lines = self.random.between(1, 9) as u8;
            let count = self.random.below(20);
            let start = texts::gates(&mut self.random, lines, count);
            let steps = self.random.between(1, 400);
            let end = circuit::linked(&mut self.random, lines, &start, steps, 4_096);
            let texts = [circuit::text(lines, &start), circuit::text(lines, &end)];
            for job in CIRCUIT_JOBS {
                let lists = texts.each_ref().map(|text| {
                    let mut list = Area::filled(4_096, 0xffff);
                    let mut answer = Area::filled(50_000, 0);
                    let outcome = call(job, &Area::holding(text, 0), &mut list, &mut answer);
                    (outcome, list.inside().to_vec(), answer.inside().to_vec())
                });
                let gates = lists[0].0.gates;
                self.report
                    .case(lists[0] == lists[1] && lists[0].0.number == 0, || {
                        format!(
                            "{job:?}, two linked circuits: {} and {}, {gates} gates",
                            shown(&texts[0]),
                            shown(&texts[1])
                        )
                    });
                self.case(job, &texts[1], 4_096, 50_000);
            }
        }
    }

    /// Long circuits of each kind get the list that the definitions give them, and
    /// so do their redrawings.
    fn built(&mut self) {
        for lines in built::LINES {
            for (name, kind) in built::KINDS {
                for round in 0..60 {
                    let full = round == 0;
                    for drawn in built::drawn_twice(&mut self.random, kind, lines, full) {
                        let Drawn { gates, list } = drawn;
                        self.listed(Job::Reduce, name, lines, &gates, &list);
                        // The inverse of the inverse has the circuit's list.
                        let inverse = circuit::undone(&gates);
                        self.listed(Job::Invert, name, lines, &inverse, &list);
                    }
                }
            }
        }
    }

    fn listed(&mut self, job: Job, name: &str, lines: u8, gates: &[Gate], list: &[Gate]) {
        let (text, answer) = (circuit::text(lines, gates), circuit::text(lines, list));
        let given = self.case(job, &text, 4_096, 50_000);
        let expected = Outcome {
            number: 0,
            line: 0,
            gates: list.len() as u64,
            bytes: answer.len() as u64,
        };
        let right = given.outcome == expected && holds(&given.list, &circuit::records(list));
        self.report.case(right, || {
            format!(
                "{job:?}, {name}, {} gates: got {:?}, expected {expected:?}, or another list; \
                 text {}, expected {}",
                gates.len(),
                given.outcome,
                shown(&text),
                shown(&answer)
            )
        });
    }

    /// Any long circuit and its redrawing by passes get one list.
    fn redrawn(&mut self) {
        for lines in built::LINES {
            for _ in 0..80 {
                let count = self.random.pick(&[1_000, 2_000, 4_096]);
                let gates = texts::gates(&mut self.random, lines, count);
                let again = circuit::carried(&mut self.random, &gates, 2 * count);
                let texts = [gates, again].map(|gates| circuit::text(lines, &gates));
                let job = self.random.pick(&CIRCUIT_JOBS);
                let given = texts
                    .each_ref()
                    .map(|text| self.case(job, text, 4_096, 50_000));
                let right = given[0].outcome == given[1].outcome
                    && given[0].list.inside() == given[1].list.inside()
                    && given[0].outcome.number == 0;
                self.report.case(right, || {
                    let outcomes = given.each_ref().map(|given| given.outcome);
                    format!(
                        "{job:?}, a circuit and its redrawing: {outcomes:?}, or other lists; {} \
                         and {}",
                        shown(&texts[0]),
                        shown(&texts[1])
                    )
                });
            }
        }
    }

    /// Every number is read as the peer reads it, and as a table of all gates on
    /// 32 lines has it; kind 0 if no gate has it.
    fn records(&mut self) {
        let mut table = vec![[0; 3]; 1 << 16];
        for gate in circuit::every_gate(32) {
            table[usize::from(gate.record())] = match gate {
                Gate::Not { target } => [4, 0, target],
                Gate::Powered {
                    power,
                    control,
                    target,
                } => [power, control, target],
            };
        }
        for (record, expected) in (0..=u16::MAX).zip(table) {
            let got = read_record(record);
            let read = match peer::gate::Gate::of_number(record) {
                None => [0; 3],
                Some(gate) => match gate.control() {
                    None => [4, 0, gate.target()],
                    Some(control) => [gate.power(), control, gate.target()],
                },
            };
            self.report.case(got == expected && got == read, || {
                format!("record {record}: got {got:?}, expected {expected:?}, the peer {read:?}")
            });
        }
    }
}

/// What the library answers, as its program over one text would write it.
fn program_answer(program: Program, text: &[u8]) -> Vec<u8> {
    let (job, answer_len) = match program {
        Program::Map => (Job::Map, LONGEST[0]),
        Program::Reduce => (Job::Reduce, LONGEST[0]),
        Program::Invert => (Job::Invert, LONGEST[0]),
        Program::Quote => (Job::Map, 0),
    };
    let mut list = Area::filled(4_096, 0xffff);
    let mut answer = Area::filled(answer_len, b'?');
    let Outcome {
        number,
        line,
        gates,
        bytes,
    } = call(job, &Area::holding(text, b'?'), &mut list, &mut answer);
    match (number, program) {
        (0, Program::Quote) => format!("(quote {gates})\n").into_bytes(),
        (0, _) => answer.inside()[..bytes as usize].to_vec(),
        _ => format!("(turned-away {number} {line})\n").into_bytes(),
    }
}

/// Whether line 2 of a text begins like a keep line.
fn has_keep_line(text: &[u8]) -> bool {
    let end = text.iter().position(|&byte| byte == b'\n');
    end.is_some_and(|end| text[end + 1..].starts_with(b"(keep"))
}

/// What the papers say of gates and bytes, whatever the text: a refusal has 0 for
/// both, a text that is written has a line for each gate and line 1; an empty area
/// is never short for map, which writes nothing to it, and always for the others.
fn counts_hold(job: Job, outcome: Outcome, answer: &[u8]) -> bool {
    let Outcome {
        number,
        gates,
        bytes,
        ..
    } = outcome;
    let lines = |text: &[u8]| text.iter().filter(|&&byte| byte == b'\n').count() as u64;
    match (number, job, answer.len()) {
        (0, Job::Map, 0) => bytes == 0,
        (0, Job::Reduce | Job::Invert, 0) | (10, Job::Map, 0) => false,
        (0, _, _) => answer
            .get(..bytes as usize)
            .is_some_and(|text| lines(text) == gates + 1),
        _ => (gates, bytes) == (0, 0),
    }
}

/// Whether answers of one text differ only as their answer areas make them: a
/// refusal by rules 1 to 9 is the same for all, and where the text is accepted,
/// its gates and its list are.
fn differ_by_area_only(given: &[Given]) -> bool {
    if given.iter().any(|g| (1..=9).contains(&g.outcome.number)) {
        return given.iter().all(|g| g.outcome == given[0].outcome);
    }
    let accepted: Vec<&Given> = given.iter().filter(|g| g.outcome.number == 0).collect();
    accepted.windows(2).all(|two| {
        two[0].outcome.gates == two[1].outcome.gates && two[0].list.inside() == two[1].list.inside()
    })
}
