//! The programs against the peer: those over one text from standard input to
//! standard output, nothing on standard error, exit status 0; these and those over
//! two texts and three through files (see `files`). Long circuits whose list the definitions
//! give (see `built`), and what order 4 says of negated controls (see `negated`),
//! are asserted without the peer; what order 5 says of spares (see `spares`), order 6 of
//! rules 7 and 8 (see `wide`), and order 8 of kept lines (see `kept`), beside it.

use crate::built;
use crate::circuit;
use crate::files;
use crate::kept;
use crate::negated::{self, Ask};
use crate::random::Random;
use crate::report::{shown, Report};
use crate::spares::{self, Size};
use crate::texts::{self, Signs};
use crate::wide::{self, Kind, Tally};
use peer::Program;
use std::ffi::OsString;
use std::io::{Read, Write};
use std::path::Path;
use std::process::{Child, Command, ExitStatus, Stdio};

pub const PROGRAMS: [(Program, &str); 4] = [
    (Program::Map, "map"),
    (Program::Reduce, "reduce"),
    (Program::Invert, "invert"),
    (Program::Quote, "quote"),
];
/// Those over a circuit text.
const CIRCUIT_PROGRAMS: [Program; 2] = [Program::Reduce, Program::Invert];

/// How often, at least, map and quote together are expected to give each of the
/// numbers 0 to 9 to a text with a minus sign in it.
const FEWEST_SIGNED: [u64; 10] = [150, 0, 0, 60, 20, 15, 15, 5, 3, 8];
/// Random cascades with negated controls that are held to what the order says,
/// without the peer.
const NEGATED: usize = 120;
/// What is run of the order of the spares.
const SPARES: Size = Size {
    placements: 1,
    narrow_lines: 6,
    judged: 150,
};
/// What is run of the order of rules 7 and 8.
const WIDE: wide::Size = wide::Size {
    whole: false,
    random: 120,
};

/// What is run of the order of kept lines.
const KEPT: kept::Size = kept::Size {
    whole: false,
    random: 120,
    laws: 60,
};

pub fn run(directory: &Path, scratch: &Path) -> Report {
    let mut report = Report::new("programs");
    let mut random = Random::seeded(4_711);
    let mut numbers = [0u64; 11];
    let mut signed = [0u64; 11];
    for (program, name) in PROGRAMS {
        let before = report.passed + report.failed;
        for text in all_texts(&mut random, program) {
            // Every fourth text comes in pieces.
            let piece = if random.one_in(4) {
                random.between(1, 1 + text.len() / 3)
            } else {
                text.len().max(1)
            };
            let expected = peer::program_answer(program, &text);
            let got = Written::by(&directory.join(name), &[], &text, piece)
                .and_then(|written| written.answer());
            let number = match expected.strip_prefix(b"(turned-away ") {
                None => 0,
                Some(rest) => rest
                    .iter()
                    .take_while(|b| b.is_ascii_digit())
                    .fold(0, |n, b| 10 * n + usize::from(b - b'0')),
            };
            numbers[number] += 1;
            if !CIRCUIT_PROGRAMS.contains(&program) && text.contains(&b'-') {
                signed[number] += 1;
            }
            let passed = got.as_ref() == Ok(&expected);
            report.case(passed, || {
                let got = match &got {
                    Ok(answer) => shown(answer),
                    Err(what) => what.clone(),
                };
                format!(
                    "{name}: got {got}, expected {}; text {}",
                    shown(&expected),
                    shown(&text)
                )
            });
        }
        println!(
            "programs: {name}: {} cases",
            report.passed + report.failed - before
        );
    }
    known_lists(&mut report, &mut random, directory);
    println!(
        "programs: numbers 0 to 9 expected so often: {:?}",
        &numbers[..10]
    );
    println!(
        "programs: of these for a text with a sign, by map or quote: {:?}",
        &signed[..10]
    );
    for (number, fewest) in FEWEST_SIGNED.into_iter().enumerate() {
        let times = signed[number];
        report.case(times >= fewest, || {
            format!("number {number} was expected {times} times for a text with a sign")
        });
    }
    let mut ask = |program, text: &[u8]| {
        let named = PROGRAMS.iter().find(|(known, _)| *known == program);
        let (_, name) = named.ok_or("no such program")?;
        let written = Written::by(&directory.join(name), &[], text, text.len().max(1))?;
        written.answer()
    };
    negated::run(&mut report, &mut random, NEGATED, &mut ask);
    spares::run(&mut report, &mut random, SPARES, &mut ask);
    wide_gates(&mut report, &mut random, &mut ask);
    kept_lines(&mut report, &mut random, &mut ask);
    kept::laws(&mut report, &mut random, KEPT.laws, &mut ask);
    files::run(&mut report, directory, scratch);
    report
}

/// Reduce on long circuits whose list the definitions give, and invert on their
/// inverses.
fn known_lists(report: &mut Report, random: &mut Random, directory: &Path) {
    let before = report.passed + report.failed;
    for lines in built::LINES {
        for (name, kind) in built::KINDS {
            for drawn in built::drawn_twice(random, kind, lines, true) {
                let inverse = circuit::undone(&drawn.gates);
                let expected = circuit::text(lines, &drawn.list);
                for (program, gates) in [("reduce", &drawn.gates), ("invert", &inverse)] {
                    let text = circuit::text(lines, gates);
                    let got = Written::by(&directory.join(program), &[], &text, text.len())
                        .and_then(|written| written.answer());
                    report.case(got.as_ref() == Ok(&expected), || {
                        let got = got
                            .as_ref()
                            .map_or_else(String::clone, |answer| shown(answer));
                        format!(
                            "{program}, {name}: got {got}, expected {}; text {}",
                            shown(&expected),
                            shown(&text)
                        )
                    });
                }
            }
        }
    }
    println!(
        "programs: reduce and invert, long circuits of known lists: {} cases",
        report.passed + report.failed - before
    );
}

/// What the order says of rules 7 and 8: the answers that are due, which are the peer's
/// too, of map and quote, or where there are many cases of one of them in turn.
fn wide_gates(report: &mut Report, random: &mut Random, ask: &mut Ask) {
    let before = report.passed + report.failed;
    let mut tally = Tally::default();
    for (turn, case) in wide::cases(random, WIDE).iter().enumerate() {
        let text = case.text();
        let programs = match case.kind {
            Kind::Pairs => &[Program::Map, Program::Quote][turn % 2..][..1],
            _ => &[Program::Map, Program::Quote],
        };
        for &program in programs {
            let got = ask(program, &text);
            let peer = peer::program_answer(program, &text);
            let right = got.as_ref() == Ok(&peer)
                && match (case.due, case.quote()) {
                    (Some((number, line)), _) => {
                        peer == format!("(turned-away {number} {line})\n").into_bytes()
                    }
                    (None, Some(gates)) if program == Program::Quote => {
                        peer == format!("(quote {gates})\n").into_bytes()
                    }
                    (None, None) if program == Program::Quote => peer.starts_with(b"(quote "),
                    (None, gates) => circuit::read(&peer).is_some_and(|(lines, list)| {
                        lines == case.lines && list.len() == gates.unwrap_or(list.len())
                    }),
                };
            report.case(right, || {
                let got = got.as_ref().map(|answer| shown(answer));
                format!(
                    "{program:?}: got {got:?}, the rules say {:?}, before order 6 {:?}, the peer {}; \
                     text {}",
                    case.due,
                    case.before,
                    shown(&peer),
                    shown(&text)
                )
            });
        }
        tally.add(case);
    }
    tally.tell(report, WIDE);
    println!(
        "programs: too wide against no spare: {} cases",
        report.passed + report.failed - before
    );
}

/// What the order says of kept lines: the answers that are due, which are the peer's too,
/// of map and of quote in turn.
fn kept_lines(report: &mut Report, random: &mut Random, ask: &mut Ask) {
    let before = report.passed + report.failed;
    let mut tally = kept::Tally::default();
    for (turn, case) in kept::cases(random, KEPT).iter().enumerate() {
        let text = case.text();
        let program = [Program::Map, Program::Quote][turn % 2];
        let due = match (case.due, case.list(), program) {
            (Some((number, line)), _, _) => Some(format!("(turned-away {number} {line})\n")),
            (None, Some(list), Program::Quote) => Some(format!("(quote {})\n", list.len())),
            (None, Some(list), _) => String::from_utf8(circuit::text(case.lines, &list)).ok(),
            (None, None, _) => None,
        };
        let got = ask(program, &text);
        let peer = peer::program_answer(program, &text);
        let right =
            got.as_ref() == Ok(&peer) && !due.as_ref().is_some_and(|due| peer != due.as_bytes());
        report.case(right, || {
            let got = got.as_ref().map(|answer| shown(answer));
            format!(
                "{program:?}: got {got:?}, due {due:?}, the peer {}; text {}",
                shown(&peer),
                shown(&text)
            )
        });
        tally.add(case);
    }
    tally.tell(report, KEPT);
    println!(
        "programs: kept lines: {} cases",
        report.passed + report.failed - before
    );
}

fn all_texts(random: &mut Random, program: Program) -> Vec<Vec<u8>> {
    let cascade = !CIRCUIT_PROGRAMS.contains(&program);
    let mut texts: Vec<Vec<u8>> = texts::SMALL
        .iter()
        .chain(&kept::SMALL)
        .map(|text| text.as_bytes().to_vec())
        .collect();
    texts.push(Vec::new());
    texts.push(b"\n".to_vec());
    texts.push(b"(lines 4)\n(mct (0 1 2) 3)\n".to_vec());
    texts.push(b"(lines 3)\n(mct (0 1) 2)\n(mct (0 1) 2)\n".to_vec());
    texts.push(b"(lines 4)\n(mct (-0 1 -2) 3)\n".to_vec());
    texts.push(b"(lines 3)\n(mct (-0 1) 2)\n(mct (0 -1) 2)\n".to_vec());
    let valid = |random: &mut Random, most| {
        if cascade {
            texts::cascade(random, 12, most)
        } else {
            texts::circuit(random, most)
        }
    };
    for _ in 0..150 {
        texts.push(valid(random, 150));
    }
    for _ in 0..120 {
        let text = valid(random, 60);
        texts.push(texts::damaged(random, &text));
    }
    for _ in 0..120 {
        texts.push(texts::wild(random, cascade));
    }
    for size in [59_999, 60_000, 60_001, 60_002, 100_000, 1_000_000] {
        texts.push(texts::of_size(random, size));
    }
    for signs in [Signs::None, Signs::Some, Signs::All] {
        for count in [256, 257] {
            texts.push(texts::cascade_of_lines(random, count, signs));
        }
        for total in [4_092, 4_096, 4_097, 4_098] {
            texts.push(texts::cascade_of_total(random, total, signs));
        }
    }
    for count in [1_000, 4_095, 4_096, 4_097] {
        texts.push(texts::circuit_of(random, count));
    }
    // The longest answer there is.
    texts.push(
        [
            &b"(lines 32)\n"[..],
            &b"(vp 30 31)\n(vp 31 30)\n".repeat(2_048),
        ]
        .concat(),
    );
    texts
}

/// What a program wrote, and how it ended.
pub struct Written {
    output: Vec<u8>,
    complaint: Vec<u8>,
    status: ExitStatus,
}

impl Written {
    /// Runs a program with these arguments on an input that comes in pieces of
    /// this size.
    pub fn by(
        program: &Path,
        arguments: &[OsString],
        input: &[u8],
        piece: usize,
    ) -> Result<Written, String> {
        let mut child = Command::new(program)
            .args(arguments)
            .stdin(Stdio::piped())
            .stdout(Stdio::piped())
            .stderr(Stdio::piped())
            .spawn()
            .map_err(|error| format!("{}: {error}", program.display()))?;
        feed(&mut child, input, piece);
        let mut output = Vec::new();
        let mut complaint = Vec::new();
        child
            .stdout
            .take()
            .unwrap()
            .read_to_end(&mut output)
            .map_err(|e| e.to_string())?;
        child
            .stderr
            .take()
            .unwrap()
            .read_to_end(&mut complaint)
            .map_err(|e| e.to_string())?;
        let status = child.wait().map_err(|e| e.to_string())?;
        Ok(Written {
            output,
            complaint,
            status,
        })
    }

    /// What is on standard output, if nothing else is to be said.
    pub fn answer(&self) -> Result<Vec<u8>, String> {
        if self.status.success() && self.complaint.is_empty() {
            Ok(self.output.clone())
        } else {
            Err(self.shown())
        }
    }

    /// Whether it is one line on standard error and nothing on standard output,
    /// from a program that ended by itself.
    pub fn is_one_line_of_complaint(&self) -> bool {
        let lines = self.complaint.iter().filter(|&&byte| byte == b'\n').count();
        self.status.code().is_some()
            && self.output.is_empty()
            && self.complaint.len() > 1
            && self.complaint.ends_with(b"\n")
            && lines == 1
    }

    /// Whether it is these bytes on standard error and nothing on standard output.
    pub fn is_complaint(&self, line: &[u8]) -> bool {
        self.is_one_line_of_complaint() && self.complaint == line
    }

    pub fn shown(&self) -> String {
        format!(
            "{}, standard output {}, standard error {}",
            self.status,
            shown(&self.output),
            shown(&self.complaint)
        )
    }
}

/// Writes the text and closes the pipe. A program may stop reading a text that
/// is too long, so an error in writing is none.
fn feed(child: &mut Child, text: &[u8], piece: usize) {
    let mut input = child.stdin.take().unwrap();
    for (place, part) in text.chunks(piece).enumerate() {
        if input.write_all(part).is_err() {
            return;
        }
        if piece < text.len() && place < 4 {
            std::thread::sleep(std::time::Duration::from_millis(1));
        }
    }
}
