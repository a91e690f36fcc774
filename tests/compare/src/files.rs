//! The programs through files against the peer's. Where the peer answers, the same
//! answer has to stand on standard output and nothing on standard error; where it
//! complains (a file that can't be opened or read, wrong arguments), one line on
//! standard error and nothing on standard output.

use crate::chain::{redrawn, STEPS};
use crate::circuit;
use crate::programs::{Written, PROGRAMS};
use crate::random::Random;
use crate::report::{shown, Report};
use crate::steps;
use crate::texts;
use peer::files::{self, Pairing, LONGEST_NAME};
use peer::Program;
use std::collections::BTreeMap;
use std::ffi::OsString;
use std::fs;
use std::os::unix::ffi::OsStringExt;
use std::path::{Path, PathBuf};

/// What a program over one text finds on standard input where it has to read a file:
/// accepted by none.
const OTHER_INPUT: &[u8] = b"(lines 40)\n";

struct Files<'a> {
    report: &'a mut Report,
    directory: PathBuf,
    random: Random,
    /// How often each answer of each program was expected, refusals without their
    /// line.
    expected: BTreeMap<String, u64>,
}

/// Runs the programs of a directory in the directory `scratch`, which has to be
/// empty.
pub fn run(report: &mut Report, directory: &Path, scratch: &Path) {
    let before = report.passed + report.failed;
    let directory = directory.canonicalize().unwrap_or(directory.to_path_buf());
    let mut files = Files {
        report,
        directory,
        random: Random::seeded(47_110),
        expected: BTreeMap::new(),
    };
    match std::env::set_current_dir(scratch).and_then(|()| files.all()) {
        Ok(()) => files.tell(),
        Err(error) => files
            .report
            .case(false, || format!("{}: {error}", scratch.display())),
    }
    println!(
        "programs: through files: {} cases",
        report.passed + report.failed - before
    );
}

impl Files<'_> {
    fn all(&mut self) -> std::io::Result<()> {
        let mut compared = pairs(&mut self.random);
        for [first, second] in &compared {
            self.two_texts(Pairing::Compare, [first, second])?;
            self.two_texts(Pairing::Compare, [second, first])?;
        }
        compared.extend(joins(&mut self.random));
        for [first, second] in &compared {
            self.two_texts(Pairing::Join, [first, second])?;
            self.two_texts(Pairing::Join, [second, first])?;
        }
        for [first, slip, second] in &slips(&mut self.random) {
            self.texts("slip", [first, slip, second], files::three_texts)?;
        }
        let names = made_files()?;
        for program in [Pairing::Compare, Pairing::Join] {
            self.two_names(program, &names);
        }
        self.three_names(&names);
        for (program, name) in PROGRAMS {
            self.one_name(program, name, &names)?;
        }
        Ok(())
    }

    /// Tells how often each answer was expected; one that never was has failed.
    fn tell(&mut self) {
        println!("programs: expected so often: {:?}", self.expected);
        let own: [(&str, &[&str]); 7] = [
            ("compare", &["less", "equal", "greater"]),
            ("join", &["circuit", "turned-away 11 0"]),
            (
                "slip",
                &[
                    "accepted",
                    "turned-away 11 0",
                    "turned-away 12 2",
                    "turned-away 13 0",
                ],
            ),
            ("map", &["circuit"]),
            ("reduce", &["circuit"]),
            ("invert", &["circuit"]),
            ("quote", &["quote"]),
        ];
        let mut due = Vec::new();
        for (program, answers) in own {
            due.extend(answers.iter().map(|answer| format!("{program} {answer}")));
            due.push(format!("{program} complaint"));
        }
        for number in [1, 3, 4, 5, 9] {
            for text in [1, 2] {
                due.extend(
                    ["compare", "join"]
                        .map(|program| format!("{program} turned-away {number} {text}")),
                );
            }
            due.extend([1, 3].map(|text| format!("slip turned-away {number} {text}")));
        }
        due.extend([1, 3, 9].map(|number| format!("slip turned-away {number} 2")));
        for answer in due {
            self.report.case(self.expected.contains_key(&answer), || {
                format!("{answer} was never expected")
            });
        }
    }

    fn two_texts(&mut self, program: Pairing, texts: [&[u8]; 2]) -> std::io::Result<()> {
        let expected = |names: &[OsString]| files::two_texts(program, names);
        self.texts(program.name(), texts, expected)
    }

    /// Texts in files of their own. Every fourth time one of them comes in pieces by
    /// standard input, which has a name too.
    fn texts<const TEXTS: usize>(
        &mut self,
        program: &str,
        texts: [&[u8]; TEXTS],
        expected: impl Fn(&[OsString]) -> files::Written,
    ) -> std::io::Result<()> {
        let names: [OsString; TEXTS] = std::array::from_fn(|at| format!("text {at}").into());
        for (name, text) in names.iter().zip(texts) {
            fs::write(name, text)?;
        }
        let mut given = names.clone();
        let mut piped: &[u8] = b"";
        if self.random.one_in(4) {
            let which = self.random.below(TEXTS);
            given[which] = OsString::from("/dev/stdin");
            piped = texts[which];
        }
        let piece = self.random.between(1, 1 + piped.len() / 3);
        self.case(program, expected(&names), &given, (piped, piece), || {
            texts.map(shown).join(" and ")
        });
        Ok(())
    }

    /// One run of the program with these arguments, and an input that comes in pieces
    /// of a size.
    fn case(
        &mut self,
        program: &str,
        expected: files::Written,
        given: &[OsString],
        (piped, piece): (&[u8], usize),
        what: impl FnOnce() -> String,
    ) {
        let kind = format!("{program} {}", kind_of(&expected));
        *self.expected.entry(kind).or_default() += 1;
        let got = Written::by(&self.directory.join(program), given, piped, piece);
        // a file whose name is not text can't be opened, since the paths of Rattle's library
        // are text: the complaint of the first such name stands in place of the answer
        let unopened = given.iter().find(|name| name.to_str().is_none());
        let right = match (&got, &expected) {
            (Ok(written), Ok(_)) if unopened.is_some() => {
                let name = unopened.map(|name| name.as_encoded_bytes().escape_ascii());
                let line = format!("{}: not text in UTF-8\n", name.unwrap());
                written.is_complaint(line.as_bytes())
            }
            (Ok(written), Ok(answer)) => written.answer().as_ref() == Ok(answer),
            (Ok(written), Err(_)) => written.is_one_line_of_complaint(),
            (Err(_), _) => false,
        };
        self.report.case(right, || {
            let got = match &got {
                Ok(written) => written.shown(),
                Err(error) => error.clone(),
            };
            let expected = match expected {
                Ok(answer) => shown(&answer),
                Err(_) => "one line on standard error only".to_string(),
            };
            format!("{program}: got {got}, expected {expected}; {}", what())
        });
    }

    /// Every two of these names, and other numbers of arguments.
    fn two_names(&mut self, program: Pairing, all: &[OsString]) {
        for first in all {
            for second in all {
                self.two_arguments(program, &[first, second]);
            }
        }
        let [less, more] = ["less", "more"].map(OsString::from);
        for few_or_many in [
            &[][..],
            &[&less],
            &[&less, &more, &less],
            &[&less, &more, &OsString::new()],
            &[&less, &more, &less, &more],
        ] {
            self.two_arguments(program, few_or_many);
        }
    }

    fn two_arguments(&mut self, program: Pairing, names: &[&OsString]) {
        let expected = |names: &[OsString]| files::two_texts(program, names);
        self.arguments(program.name(), names, expected);
    }

    /// Each of these names as each of the three, beside good ones, and other numbers of
    /// arguments.
    fn three_names(&mut self, all: &[OsString]) {
        let [less, more, no_steps] = ["less", "more", "no steps"].map(OsString::from);
        for name in all {
            for given in [
                [name, &no_steps, &less],
                [&less, name, &less],
                [&less, &no_steps, name],
                [name, name, name],
            ] {
                self.arguments("slip", &given, files::three_texts);
            }
        }
        let nothing = OsString::new();
        for given in [
            &[][..],
            &[&less],
            &[&less, &no_steps],
            &[&less, &less],
            &[&more, &no_steps, &more],
            &[&less, &no_steps, &less, &less],
            &[&less, &no_steps, &less, &nothing],
            &[&nothing, &less, &no_steps, &less],
            &[&less, &no_steps, &less, &no_steps, &less],
        ] {
            self.arguments("slip", given, files::three_texts);
        }
    }

    fn arguments(
        &mut self,
        program: &str,
        names: &[&OsString],
        expected: impl Fn(&[OsString]) -> files::Written,
    ) {
        let names: Vec<OsString> = names.iter().map(|&name| name.clone()).collect();
        self.case(program, expected(&names), &names, (b"", 1), || {
            shown_names(&names)
        });
    }

    /// Each of these names, with another text on standard input; no name, and several
    /// names; and standard input by its name.
    fn one_name(&mut self, program: Program, name: &str, all: &[OsString]) -> std::io::Result<()> {
        let [less, more, cascade] = ["less", "more", "cascade"].map(OsString::from);
        let mut given: Vec<Vec<OsString>> = all.iter().map(|name| vec![name.clone()]).collect();
        given.push(vec![]);
        given.push(vec![less.clone(), more.clone()]);
        given.push(vec![less.clone(), OsString::new()]);
        given.push(vec![OsString::new(), less.clone()]);
        given.push(vec![less.clone(), more.clone(), less.clone()]);
        for names in given {
            let expected = files::one_text(program, &names, OTHER_INPUT);
            self.case(name, expected, &names, (OTHER_INPUT, 20), || {
                shown_names(&names)
            });
        }
        for text in [less, more, cascade] {
            let piped = fs::read(&text)?;
            let expected = files::one_text(program, &[text], &b""[..]);
            let names = [OsString::from("/dev/stdin")];
            self.case(name, expected, &names, (&piped, 7), || {
                format!("{} by the name of standard input", shown(&piped))
            });
        }
        Ok(())
    }
}

fn shown_names(names: &[OsString]) -> String {
    let names: Vec<String> = names
        .iter()
        .map(|name| shown(name.as_encoded_bytes()))
        .collect();
    format!("arguments {}", names.join(" and "))
}

/// Names of all kinds: odd ones that are good, and files that can't be opened or
/// read.
fn made_files() -> std::io::Result<Vec<OsString>> {
    fs::write("less", "(lines 2)\n")?;
    fs::write("more", "(lines 2)\n(not 0)\n")?;
    fs::write("no steps", "")?;
    fs::write("cascade", "(lines 2)\n(mct (0) 1)\n")?;
    fs::write("malformed", "(lines 2)")?;
    fs::write("overlong", [b'x'; 60_001])?;
    fs::create_dir("folder")?;
    std::os::unix::fs::symlink("nowhere", "dangling")?;
    let odd = [
        &b"a b  c"[..],
        b"-name",
        b"line\nend",
        b"\xff\xfe",
        b"folder/x",
    ];
    let odd = odd.map(|name| OsString::from_vec(name.to_vec()));
    for name in &odd {
        fs::write(name, "(lines 2)\n(v 0 1)\n")?;
    }
    let mut all: Vec<OsString> = [
        "less",
        "more",
        "malformed",
        "overlong",
        "./-name",
        "-",
        "--",
        "-x",
        "--help",
        "",
        "none",
        "folder",
        "less/x",
        "dangling",
        "/proc/self/mem",
        "none/less",
    ]
    .map(OsString::from)
    .to_vec();
    all.extend(odd);
    for length in [LONGEST_NAME - 1, LONGEST_NAME, LONGEST_NAME + 1, 5_000] {
        all.push(long_name("less", length));
        all.push(long_name("none", length));
    }
    Ok(all)
}

/// The name of a file made longer by steps that lead nowhere else.
fn long_name(name: &str, length: usize) -> OsString {
    let more = length - name.len();
    let slash = ["", "/"][more % 2];
    OsString::from(format!("./{slash}{}{name}", "./".repeat(more / 2 - 1)))
}

/// An answer without the line of a refusal, and no more than the kind of a circuit
/// or a quote.
fn kind_of(expected: &files::Written) -> String {
    let Ok(answer) = expected else {
        return "complaint".to_string();
    };
    let answer = String::from_utf8_lossy(answer);
    let words: Vec<&str> = answer.trim_matches(['(', ')', '\n']).split(' ').collect();
    match words[..] {
        ["turned-away", number, _] => format!("turned-away {number}"),
        ["turned-away", number, _, text] => format!("turned-away {number} {text}"),
        ["lines", ..] => "circuit".to_string(),
        ["quote", ..] => "quote".to_string(),
        _ => words.join(" "),
    }
}

/// A circuit of at most so many gates, and a redrawing of it, perhaps without its
/// last gate.
fn drawings(random: &mut Random, shorter: bool, most: usize, tries: usize) -> [Vec<u8>; 2] {
    let lines = texts::some_lines(random);
    let count = random.below(most + 1);
    let mut gates = texts::gates(random, lines, count);
    let first = circuit::text(lines, &gates);
    if shorter {
        gates.pop();
    }
    let other = redrawn(random, lines, &gates, tries, 4_096, &mut [0; STEPS.len()]);
    [first, circuit::text(lines, &other)]
}

/// Pairs of texts of all kinds.
fn pairs(random: &mut Random) -> Vec<[Vec<u8>; 2]> {
    let good = b"(lines 3)\n(cn 0 2)\n(cn 1 2)\n(cn 0 2)\n".to_vec();
    let mut pairs = vec![
        [good.clone(), b"(lines 3)\n(cn 1 2)\n".to_vec()],
        [good.clone(), b"(lines 3)\n".to_vec()],
        [good.clone(), b"(lines 33)\n".to_vec()],
        [good.clone(), b"(lines 3)\n(cn 0 1)\n(not 3)\n".to_vec()],
        [good.clone(), b"(lines 3)\n(v 1 1)\n".to_vec()],
        [good.clone(), b"(lines 3)\n(keep 2)\n(cn 1 2)\n".to_vec()],
        [good.clone(), texts::circuit_of(random, 4_097)],
        [good.clone(), Vec::new()],
        [good.clone(), good[..good.len() - 1].to_vec()],
        [Vec::new(), Vec::new()],
    ];
    for case in 0..60 {
        pairs.push(drawings(random, case % 3 == 0, 60, 100));
    }
    for _ in 0..60 {
        pairs.push([0, 1].map(|_| texts::circuit(random, 6)));
        let text = texts::circuit(random, 20);
        pairs.push([texts::damaged(random, &text), texts::wild(random, false)]);
    }
    for size in [59_999, 60_000, 60_001, 60_002, 1_000_000] {
        pairs.push([texts::of_size(random, size), good.clone()]);
        pairs.push([texts::of_size(random, size), texts::of_size(random, 60_001)]);
    }
    for count in [4_095, 4_096, 4_097] {
        let text = texts::circuit_of(random, count);
        pairs.push([text.clone(), good.clone()]);
        pairs.push([text, texts::circuit_of(random, count)]);
    }
    for shorter in [false, true, false] {
        pairs.push(drawings(random, shorter, 4_096, 3_000));
    }
    pairs
}

/// Pairs for join alone: circuits and their inverses, circuits that are redrawn, and
/// gates that are together near the most that there may be.
fn joins(random: &mut Random) -> Vec<[Vec<u8>; 2]> {
    let mut pairs = Vec::new();
    for most in [12, 12, 60, 60, 400, 2_000] {
        for _ in 0..12 {
            let lines = texts::some_lines(random);
            let count = random.below(most + 1);
            let gates = texts::gates(random, lines, count);
            let inverse = circuit::undone(&gates);
            let steps = &mut [0; STEPS.len()];
            let drawn = redrawn(
                random,
                lines,
                &inverse,
                2 * most,
                4_096 - gates.len(),
                steps,
            );
            let count = random.below(most + 1);
            let other = texts::gates(random, lines, count);
            let first = circuit::text(lines, &gates);
            for second in [inverse, drawn, other] {
                pairs.push([first.clone(), circuit::text(lines, &second)]);
            }
        }
    }
    for total in 4_094..=4_098 {
        for first in [0, 1, 2, 1_000, 2_048, 4_094, 4_095, 4_096] {
            if first <= total && total - first <= 4_096 {
                let lines = random.between(2, 32) as u8;
                pairs.push([first, total - first].map(|count| {
                    let gates = texts::gates_of(random, lines, count);
                    circuit::text(lines, &gates)
                }));
            }
        }
    }
    for [lines, other_lines] in [[2, 3], [31, 32]] {
        let gates = [lines, other_lines].map(|lines| texts::gates_of(random, lines, 4_096));
        pairs.push([
            circuit::text(lines, &gates[0]),
            circuit::text(other_lines, &gates[1]),
        ]);
    }
    pairs
}

/// A circuit, a slip and a second circuit of all kinds: chains, the same with one of the
/// three texts changed, and what is at the limits.
fn slips(random: &mut Random) -> Vec<[Vec<u8>; 3]> {
    let mut triples = Vec::new();
    for case in 0..120 {
        let lines = texts::some_lines(random);
        let most = if case % 10 == 0 { 400 } else { 16 };
        let count = random.below(most + 1);
        let gates = texts::gates(random, lines, count);
        let chain = match case % 3 {
            0 => steps::forwards(random, &gates, most, 2),
            1 => steps::backwards(random, lines, &gates, most, 4_096),
            _ => steps::reducing(&gates[..gates.len().min(60)]),
        };
        let good = [
            circuit::text(lines, &chain.first),
            steps::text(&chain.steps),
            circuit::text(lines, &chain.last),
        ];
        triples.push(good.clone());
        let mut changed = good.clone();
        let which = case / 3 % 3;
        changed[which] = texts::damaged(random, &good[which]);
        triples.push(changed);
        // Another second circuit, other lines, a step more or fewer.
        let mut changed = good.clone();
        match case % 4 {
            0 => changed[2] = circuit::text(lines, &chain.first),
            1 => changed[2] = circuit::text(lines % 32 + 1, &[]),
            2 => changed[1].extend(b"(merge 0)\n"),
            _ => changed[1] = steps::text(chain.steps.get(1..).unwrap_or_default()),
        }
        triples.push(changed);
    }
    let good = b"(lines 3)\n(cn 0 2)\n(cn 1 2)\n(cn 0 2)\n".to_vec();
    let slip = b"(pass 1)\n(merge 2)\n".to_vec();
    let end = b"(lines 3)\n(cn 1 2)\n".to_vec();
    triples.push([good.clone(), slip.clone(), end.clone()]);
    for bad in [
        b"".to_vec(),
        b"(lines 33)\n".to_vec(),
        b"(lines 3)\n(cn 0 1)\n(not 3)\n".to_vec(),
        b"(lines 3)\n(v 1 1)\n".to_vec(),
        b"(lines 3)\n(cn 1 2)".to_vec(),
        texts::circuit_of(random, 4_097),
        texts::of_size(random, 60_000),
        texts::of_size(random, 60_001),
        texts::of_size(random, 1_000_000),
    ] {
        triples.push([bad.clone(), slip.clone(), end.clone()]);
        triples.push([good.clone(), slip.clone(), bad.clone()]);
        triples.push([good.clone(), bad.clone(), end.clone()]);
        triples.push([bad.clone(), bad.clone(), bad]);
    }
    for bad in [
        "(pass 0)\n",
        "(merge 9999)\n",
        "(pass 10000)\n",
        "(pass 1)",
        "\n",
    ] {
        triples.push([good.clone(), bad.into(), end.clone()]);
    }
    let nots = circuit::text(1, &vec![circuit::Gate::Not { target: 0 }; 4_096]);
    for count in [4_095, 4_096, 4_097] {
        let slip = steps::text(&vec![steps::passing(4_095); count]);
        triples.push([nots.clone(), slip, nots.clone()]);
    }
    triples
}
