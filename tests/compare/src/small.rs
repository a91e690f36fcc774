//! Reduce and invert on all small circuits, map on small cascades with negated
//! controls and with kept lines, and compare and join on all pairs of smaller circuits,
//! against their whole link classes; every step of a slip at every place of small circuits,
//! and the circuits that slips lead to; and small circuits with a minus sign or a keep line,
//! which are malformed.
//!
//! For some lines and some length L, all circuits of at most L gates are nodes,
//! and each pass and each merge between two of them joins two classes (a step
//! backwards joins the same two). In each class the expected list is the first
//! in dictionary order of the shortest; the library has to give it for every
//! circuit of at most C gates, C < L, and to invert for its inverse, which has as many
//! gates. Two circuits are equal exactly if they are of one class, and else in the
//! order of the lists of their classes. Those of a pair have together at most L gates,
//! so their join is a node too.
//!
//! Chains may lead over circuits longer than L. That these join no further
//! classes is the confluence of passes and forward merges: a chain over a
//! longer circuit can be replaced by two chains of forward steps, which never
//! get longer, into one circuit. It isn't taken on trust alone: the classes are
//! computed with bound C and with bound L > C, and have to be the same on the
//! circuits of at most C gates.
//!
//! The expansion of a cascade is longer than that. By the same confluence the
//! shortest circuits linked to it are all reached from it by passes and forward
//! merges, so the first of the shortest that are reached is the list expected.

use crate::circuit::{self, merge, pass, records, text, Gate};
use crate::expansion;
use crate::report::{shown, Report};
use crate::rules::{self, Row};
use crate::spares;
use crate::steps::{self, merging, passing, Due, Step};
use crate::subject::{call, compare, holds, join, slip, Area};
use crate::texts::{cascade_text, Control, Mct};
use peer::Job;
use std::cmp::Ordering;
use std::collections::{BTreeMap, HashMap, HashSet};

/// Lines, C and L.
const SPACES: [(u8, usize, usize); 4] = [(1, 12, 14), (2, 6, 7), (3, 4, 5), (4, 3, 4)];
/// The same for the pairs, L being twice C or more.
const PAIRS: [(u8, usize, usize); 4] = [(1, 6, 12), (2, 3, 6), (3, 2, 4), (4, 1, 3)];
/// Lines, gates of a cascade and gates of its expansion, each at most so many.
const CASCADES: [(u8, usize, usize); 4] = [(1, 3, 3), (2, 4, 12), (3, 2, 14), (4, 1, 9)];
/// Cascades with a negated control, and circuits with a minus sign.
const FEWEST_SIGNED: [usize; 2] = [1_000, 300];
/// Gates of three controls on five and six lines with kept lines: those accepted, and those
/// that have no spare. On n lines there are 4 (n over 4) gates and 2^n - 1 kept sets, of
/// which 16 have all unnamed lines.
const KEPT: [usize; 2] = [20 * 15 + 60 * 47, 20 * 16 + 60 * 16];
/// Circuits with a keep line.
const FEWEST_KEPT: usize = 300;
/// Lines and gates, at most so many, of circuits with every step at every place.
const STEPPED: [(u8, usize); 5] = [(1, 12), (2, 4), (3, 3), (4, 2), (5, 2)];
/// How often, at least, a pass and a merge are allowed, and are not.
const FEWEST_STEPS: [[usize; 2]; 2] = [[15_000, 35_000], [4_000, 50_000]];
/// The same, and the steps of a slip, of circuits with every slip and every second circuit.
const SLIPPED: [(u8, usize, usize); 2] = [(1, 4, 3), (2, 2, 2)];
/// Lines and gates of circuits with a slip to every circuit that steps lead to.
const REACHED: [(u8, usize); 3] = [(1, 12), (2, 4), (3, 3)];
const FEWEST_REACHED: usize = 50_000;

pub fn run() -> Report {
    let mut report = Report::new("small");
    all_circuits(&mut report);
    all_pairs(&mut report);
    cascades(&mut report);
    kept_cascades(&mut report);
    every_step(&mut report);
    every_slip(&mut report);
    every_circuit_reached(&mut report);
    signed_circuits(&mut report);
    kept_circuits(&mut report);
    report
}

fn all_circuits(report: &mut Report) {
    for (lines, compared, bound) in SPACES {
        let before = report.passed + report.failed;
        let space = Space::new(lines);
        let narrow = space.classes(compared);
        let wide = space.classes(bound);
        let circuits = space.circuits_up_to(compared);
        let same = (0..circuits).all(|node| narrow.first(node) == wide.first(node));
        report.case(same, || {
            format!("{lines} lines: longer circuits join further classes")
        });
        let mut classes = 0;
        for node in 0..circuits {
            let gates = space.gates(node);
            classes += usize::from(wide.first(node) == node);
            let expected = space.gates(wide.first(node));
            one_text(report, Job::Reduce, lines, &gates, &expected);
            let inverse = space.node(&circuit::undone(&gates));
            let expected = space.gates(wide.first(inverse));
            one_text(report, Job::Invert, lines, &gates, &expected);
        }
        println!(
            "small: {lines} lines, up to {compared} gates: {} cases in {classes} classes (chains over up to {bound} gates)",
            report.passed + report.failed - before
        );
    }
}

/// A job on a circuit, with the list that is expected.
fn one_text(report: &mut Report, job: Job, lines: u8, gates: &[Gate], expected: &[Gate]) {
    let circuit_text = text(lines, gates);
    let expected_text = text(lines, expected);
    let mut list = Area::filled(4_096, 0xffff);
    let mut answer = Area::filled(200, b'?');
    let outcome = call(
        job,
        &Area::holding(&circuit_text, 0),
        &mut list,
        &mut answer,
    );
    let passed = outcome.number == 0
        && outcome.line == 0
        && outcome.gates as usize == expected.len()
        && outcome.bytes as usize == expected_text.len()
        && written(&answer, &expected_text)
        && holds(&list, &records(expected));
    report.case(passed, || {
        let written = (outcome.bytes as usize).min(200);
        format!(
            "{job:?}: {} gives {outcome:?} {}, expected {}",
            shown(&circuit_text),
            shown(&answer.inside()[..written]),
            shown(&expected_text)
        )
    });
}

/// Whether an answer area of junk holds this text first and is else unchanged.
fn written(answer: &Area<u8>, expected: &[u8]) -> bool {
    let (front, rest) = answer.inside().split_at(expected.len());
    front == expected && rest.iter().all(|&byte| byte == b'?')
}

/// A circuit and the list of its class.
struct Listed {
    gates: Vec<Gate>,
    text: Area<u8>,
    list: Vec<u16>,
}

fn all_pairs(report: &mut Report) {
    for (lines, compared, bound) in PAIRS {
        let before = report.passed + report.failed;
        let space = Space::new(lines);
        let classes = space.classes(bound);
        let circuits: Vec<Listed> = (0..space.circuits_up_to(compared))
            .map(|node| Listed {
                gates: space.gates(node),
                text: Area::holding(&text(lines, &space.gates(node)), 0),
                list: records(&space.gates(classes.first(node))),
            })
            .collect();
        for first in &circuits {
            for second in &circuits {
                pair(report, first, second);
                let whole = space.node(&[&first.gates[..], &second.gates].concat());
                let expected = space.gates(classes.first(whole));
                joined(report, lines, first, second, &expected);
            }
        }
        println!(
            "small: {lines} lines, all pairs of up to {compared} gates: {} cases",
            report.passed + report.failed - before
        );
    }
}

fn pair(report: &mut Report, first: &Listed, second: &Listed) {
    let mut lists = [0, 1].map(|_| Area::filled(4_096, 0xffff));
    let outcome = compare([&first.text, &second.text], lists.each_mut());
    let expected = match first.list.cmp(&second.list) {
        Ordering::Less => 0,
        Ordering::Equal => 1,
        Ordering::Greater => 2,
    };
    let passed = (outcome.number, outcome.line, outcome.text) == (0, 0, 0)
        && outcome.count == expected
        && holds(&lists[0], &first.list)
        && holds(&lists[1], &second.list);
    report.case(passed, || {
        format!(
            "{} and {} give {outcome:?}, expected {expected}, or another list than expected",
            shown(first.text.inside()),
            shown(second.text.inside())
        )
    });
}

fn joined(report: &mut Report, lines: u8, first: &Listed, second: &Listed, expected: &[Gate]) {
    let expected_text = text(lines, expected);
    let mut list = Area::filled(4_096, 0xffff);
    let mut answer = Area::filled(200, b'?');
    let outcome = join([&first.text, &second.text], &mut list, &mut answer);
    let passed = (outcome.number, outcome.line, outcome.text) == (0, 0, 0)
        && outcome.count as usize == expected_text.len()
        && written(&answer, &expected_text)
        && holds(&list, &records(expected));
    report.case(passed, || {
        format!(
            "join: {} and {} give {outcome:?}, expected {}, or another list or text",
            shown(first.text.inside()),
            shown(second.text.inside()),
            shown(&expected_text)
        )
    });
}

/// Map on all cascades of few gates of up to two controls, of either sign, whose
/// expansion is short.
fn cascades(report: &mut Report) {
    let mut signed = 0;
    for (lines, most, bound) in CASCADES {
        let before = report.passed + report.failed;
        let alphabet = every_mct(lines);
        let mut all: Vec<Vec<Mct>> = vec![Vec::new()];
        let mut longest = all.clone();
        for _ in 0..most {
            longest = longest
                .iter()
                .flat_map(|mcts| {
                    alphabet
                        .iter()
                        .map(move |mct| [&mcts[..], std::slice::from_ref(mct)].concat())
                })
                .filter(|mcts| mcts.iter().map(Mct::gates).sum::<usize>() <= bound)
                .collect();
            all.extend(longest.clone());
        }
        let mut reached = 0;
        for mcts in all {
            let negated = mcts.iter().any(|mct| mct.negated().next().is_some());
            signed += usize::from(negated);
            let class = forward(&expansion::of_all(lines, &mcts));
            reached += class.len();
            let text = cascade_text(lines, &mcts);
            cascade(report, lines, &text, &first_of_the_shortest(&class));
        }
        println!(
            "small: {lines} lines, cascades of up to {most} gates: {} cases, {reached} circuits reached",
            report.passed + report.failed - before
        );
    }
    println!("small: {signed} of the cascades with a negated control");
    report.case(signed >= FEWEST_SIGNED[0], || {
        format!("only {signed} cascades with a negated control")
    });
}

/// The first, in dictionary order, of the shortest; the order of the records is that of
/// the gates.
fn first_of_the_shortest(class: &HashSet<Vec<Gate>>) -> Vec<Gate> {
    let shortest = class
        .iter()
        .min_by_key(|gates| (gates.len(), records(gates)));
    shortest.cloned().unwrap_or_default()
}

/// Map on all gates of three controls on five and six lines, with all kept sets.
fn kept_cascades(report: &mut Report) {
    let mut counts = [0; 2];
    for lines in [5, 6] {
        let all = 0..1u32 << lines;
        for named in all.clone().filter(|named| named.count_ones() == 4) {
            for target in lines_of(named) {
                let mct = spares::plain(&lines_of(named & !(1 << target)), target);
                let lists = lists_by_spare(lines, &mct);
                for kept in all.clone().skip(1).map(lines_of) {
                    let spare = mct.spares(lines, &kept).first().copied();
                    let text = rules::text(lines, &[Row::Keep(kept), Row::Gate(mct.clone())]);
                    match spare {
                        Some(spare) => cascade(report, lines, &text, &lists[&spare]),
                        None => no_spare(report, &text),
                    }
                    counts[usize::from(spare.is_none())] += 1;
                }
            }
        }
    }
    println!("small: {counts:?} gates with kept lines, accepted and without a spare");
    report.case(counts == KEPT, || {
        format!("{counts:?} gates with kept lines, and not {KEPT:?}")
    });
}

/// The lines of a set, a bit for each.
fn lines_of(set: u32) -> Vec<u8> {
    (0..32).filter(|line| set >> line & 1 == 1).collect()
}

/// For each line that a gate does not name, the list by its whole class if that line is
/// the only one not kept.
fn lists_by_spare(lines: u8, mct: &Mct) -> BTreeMap<u8, Vec<Gate>> {
    let unnamed = mct.unnamed(lines);
    let list = |spare: &u8| {
        let kept: Vec<u8> = unnamed.iter().copied().filter(|l| l != spare).collect();
        let class = forward(&expansion::keeping(lines, &kept, std::slice::from_ref(mct)));
        (*spare, first_of_the_shortest(&class))
    };
    unnamed.iter().map(list).collect()
}

/// A gate at line 3 that has no spare.
fn no_spare(report: &mut Report, text: &[u8]) {
    let mut list = Area::filled(4_096, 0xffff);
    let mut answer = Area::filled(200, b'?');
    let outcome = call(Job::Map, &Area::holding(text, 0), &mut list, &mut answer);
    let passed = (outcome.number, outcome.line, outcome.gates, outcome.bytes) == (8, 3, 0, 0)
        && written(&answer, &[])
        && holds(&list, &[]);
    report.case(passed, || {
        format!("{} gives {outcome:?}, expected 8 at line 3", shown(text))
    });
}

fn cascade(report: &mut Report, lines: u8, cascade_text: &[u8], expected: &[Gate]) {
    let expected_text = text(lines, expected);
    let mut list = Area::filled(4_096, 0xffff);
    let mut answer = Area::filled(200, b'?');
    let outcome = call(
        Job::Map,
        &Area::holding(cascade_text, 0),
        &mut list,
        &mut answer,
    );
    let passed = (outcome.number, outcome.line) == (0, 0)
        && outcome.gates as usize == expected.len()
        && outcome.bytes as usize == expected_text.len()
        && answer.inside()[..expected_text.len()] == expected_text
        && holds(&list, &records(expected));
    report.case(passed, || {
        let written = (outcome.bytes as usize).min(200);
        format!(
            "{} gives {outcome:?} {}, expected {}",
            shown(cascade_text),
            shown(&answer.inside()[..written]),
            shown(&expected_text)
        )
    });
}

/// Every mct of up to two controls, of either sign, on so many lines.
fn every_mct(lines: u8) -> Vec<Mct> {
    let controls = |line| [false, true].map(|negated| Control { line, negated });
    let mut mcts = Vec::new();
    for target in 0..lines {
        let mut add = |controls: Vec<Control>| mcts.push(Mct { controls, target });
        add(Vec::new());
        let others: Vec<u8> = (0..lines).filter(|&line| line != target).collect();
        for (place, &first) in others.iter().enumerate() {
            for one in controls(first) {
                add(vec![one]);
                for &second in &others[place + 1..] {
                    for other in controls(second) {
                        add(vec![one, other]);
                    }
                }
            }
        }
    }
    mcts
}

/// All circuits that passes and forward merges lead to.
fn forward(start: &[Gate]) -> HashSet<Vec<Gate>> {
    let mut known = HashSet::from([start.to_vec()]);
    let mut due = vec![start.to_vec()];
    while let Some(gates) = due.pop() {
        for place in 1..gates.len() {
            let (a, b) = (gates[place - 1], gates[place]);
            let passed = pass(a, b).then(|| vec![b, a]);
            for middle in passed.into_iter().chain(merge(a, b)) {
                let next = [&gates[..place - 1], &middle, &gates[place + 1..]].concat();
                if known.insert(next.clone()) {
                    due.push(next);
                }
            }
        }
    }
    known
}

/// A slip between two circuits on so many lines, with what is due; whether it is accepted.
fn slipped(
    report: &mut Report,
    lines: u8,
    [first, second]: [&[Gate]; 2],
    taken: &[Step],
    due: Due,
) -> bool {
    let texts = [text(lines, first), steps::text(taken), text(lines, second)];
    let areas = texts.each_ref().map(|text| Area::holding(text, 0));
    let mut lists = [0, 1].map(|_| Area::filled(4_096, 0xffff));
    let outcome = slip(areas.each_ref(), lists.each_mut());
    let left = if due.0 == 0 {
        records(second)
    } else {
        Vec::new()
    };
    let passed = (outcome.number, outcome.line, outcome.text) == due
        && outcome.count == 0
        && lists.iter().all(|list| holds(list, &left));
    report.case(passed, || {
        format!(
            "slip: {} give {outcome:?}, expected {due:?}, or other lists",
            texts.each_ref().map(|text| shown(text)).join(" and ")
        )
    });
    outcome.number == 0
}

/// Every step at every place of all small circuits, and at place 0 and two after the last:
/// allowed exactly if there are two neighbours that pass, or merge. Where it is allowed
/// it ends at that circuit and no other that is tried.
fn every_step(report: &mut Report) {
    let mut counts = [[0; 2]; 2];
    for (lines, most) in STEPPED {
        let space = Space::new(lines);
        for node in 0..space.circuits_up_to(most) {
            let gates = space.gates(node);
            for place in 0..=gates.len() + 2 {
                for (word, step) in [passing(place), merging(place)].into_iter().enumerate() {
                    let Some(next) = steps::taken(&gates, step) else {
                        counts[word][1] += 1;
                        slipped(report, lines, [&gates, &gates], &[step], (12, 1, 2));
                        continue;
                    };
                    counts[word][0] += 1;
                    slipped(report, lines, [&gates, &next], &[step], (0, 0, 0));
                    let two = [&gates, &next[..next.len().saturating_sub(1)]];
                    for other in two.into_iter().filter(|&other| *other != next) {
                        slipped(report, lines, [&gates, other], &[step], (13, 0, 0));
                    }
                }
            }
        }
    }
    println!("small: {counts:?} passes and merges that are allowed and that are not");
    for (times, fewest) in counts.iter().zip(FEWEST_STEPS) {
        report.case(times[0] >= fewest[0] && times[1] >= fewest[1], || {
            format!("only {times:?} steps allowed and not")
        });
    }
}

/// All slips of few steps between all small circuits. The circuits that they lead to are
/// exactly those of the forward steps.
fn every_slip(report: &mut Report) {
    for (lines, most, longest) in SLIPPED {
        let before = report.passed + report.failed;
        let space = Space::new(lines);
        let circuits: Vec<Vec<Gate>> = (0..space.circuits_up_to(most))
            .map(|node| space.gates(node))
            .collect();
        let every_step = (0..=most).flat_map(|place| [passing(place), merging(place)]);
        let every_step: Vec<Step> = every_step.collect();
        let mut slips: Vec<Vec<Step>> = vec![Vec::new()];
        let mut shorter = slips.clone();
        for _ in 0..longest {
            shorter = shorter
                .iter()
                .flat_map(|slip| every_step.iter().map(|&step| [&slip[..], &[step]].concat()))
                .collect();
            slips.extend(shorter.clone());
        }
        for first in &circuits {
            let mut reached = HashSet::new();
            for slip in &slips {
                for second in &circuits {
                    let due = steps::due(first, slip, second);
                    if slipped(report, lines, [first, second], slip, due) {
                        reached.insert(second.clone());
                    }
                }
            }
            report.case(reached == forward(first), || {
                format!(
                    "slips from {} lead to other circuits",
                    shown(&text(lines, first))
                )
            });
        }
        println!(
            "small: {lines} lines, all slips of up to {longest} steps between circuits of up to {most} gates: {} cases",
            report.passed + report.failed - before
        );
    }
}

/// From all small circuits a slip to each circuit that forward steps lead to; the reduced
/// list, by the whole class, is one of them.
fn every_circuit_reached(report: &mut Report) {
    let mut slips = 0;
    for (lines, most) in REACHED {
        let space = Space::new(lines);
        let classes = space.classes(most);
        for node in 0..space.circuits_up_to(most) {
            let first = space.gates(node);
            let reached = slips_from(&first);
            slips += reached.len();
            for (second, slip) in &reached {
                slipped(report, lines, [&first, second], slip, (0, 0, 0));
            }
            let list = space.gates(classes.first(node));
            let whole = reached.len() == forward(&first).len() && reached.contains_key(&list);
            report.case(whole, || {
                format!(
                    "no slip from {} to its reduced list, or to some other circuit",
                    shown(&text(lines, &first))
                )
            });
        }
    }
    println!("small: {slips} slips to circuits that steps lead to");
    report.case(slips >= FEWEST_REACHED, || format!("only {slips} slips"));
}

/// A shortest slip to each circuit that steps lead to.
fn slips_from(first: &[Gate]) -> HashMap<Vec<Gate>, Vec<Step>> {
    let mut known = HashMap::from([(first.to_vec(), Vec::new())]);
    let mut due = vec![first.to_vec()];
    while !due.is_empty() {
        let mut next_due = Vec::new();
        for gates in due {
            let slip = known[&gates].clone();
            for place in 1..gates.len() {
                for step in [passing(place), merging(place)] {
                    let Some(next) = steps::taken(&gates, step) else {
                        continue;
                    };
                    if !known.contains_key(&next) {
                        known.insert(next.clone(), [&slip[..], &[step]].concat());
                        next_due.push(next);
                    }
                }
            }
        }
        due = next_due;
    }
    known
}

/// Small circuits with a minus sign before any of their numbers: malformed at that
/// line, for reduce and invert, and for compare and join as either text.
fn signed_circuits(report: &mut Report) {
    let mut signed = 0;
    for (lines, most) in [(1, 3), (2, 2), (3, 1)] {
        let space = Space::new(lines);
        for node in 0..space.circuits_up_to(most) {
            let circuit_text = text(lines, &space.gates(node));
            // No number here has two digits.
            for place in (0..circuit_text.len()).filter(|&p| circuit_text[p].is_ascii_digit()) {
                let mut with_sign = circuit_text.clone();
                with_sign.insert(place, b'-');
                signed += 1;
                let before = &circuit_text[..place];
                let line = 1 + before.iter().filter(|&&byte| byte == b'\n').count() as u64;
                malformed(report, &circuit_text, &with_sign, line);
            }
        }
    }
    println!("small: {signed} circuits with a minus sign");
    report.case(signed >= FEWEST_SIGNED[1], || {
        format!("only {signed} circuits with a minus sign")
    });
}

/// Small circuits with a keep line before any of their lines or after the last: malformed
/// at that line, for the same jobs.
fn kept_circuits(report: &mut Report) {
    let mut kept = 0;
    for (lines, most) in [(1, 2), (2, 2), (3, 1)] {
        let space = Space::new(lines);
        for node in 0..space.circuits_up_to(most) {
            let circuit_text = text(lines, &space.gates(node));
            let rows: Vec<&[u8]> = circuit_text
                .split_inclusive(|&byte| byte == b'\n')
                .collect();
            for place in 0..=rows.len() {
                let keep = format!("(keep {})\n", kept % usize::from(lines));
                let mut with_keep = rows.clone();
                with_keep.insert(place, keep.as_bytes());
                kept += 1;
                malformed(report, &circuit_text, &with_keep.concat(), place as u64 + 1);
            }
        }
    }
    println!("small: {kept} circuits with a keep line");
    report.case(kept >= FEWEST_KEPT, || {
        format!("only {kept} circuits with a keep line")
    });
}

/// One text that is malformed at a line, beside one that is good.
fn malformed(report: &mut Report, good: &[u8], text: &[u8], line: u64) {
    let [good, area] = [good, text].map(|text| Area::holding(text, 0));
    let mut answer = Area::filled(200, b'?');
    let alone = [Job::Reduce, Job::Invert].map(|job| {
        let mut list = Area::filled(4_096, 0xffff);
        let outcome = call(job, &area, &mut list, &mut answer);
        let four = (outcome.number, outcome.line, outcome.gates, outcome.bytes);
        (four, holds(&list, &[]))
    });
    let pairs = [[&area, &good], [&good, &area]].map(|texts| {
        let mut lists = [0, 1].map(|_| Area::filled(4_096, 0xffff));
        let mut list = Area::filled(4_096, 0xffff);
        let outcomes = [
            compare(texts, lists.each_mut()),
            join(texts, &mut list, &mut answer),
        ];
        let fours = outcomes.map(|o| (o.number, o.line, o.text, o.count));
        let [first, second] = &lists;
        (fours, [first, second, &list].map(|list| holds(list, &[])))
    });
    let in_text = |which| ([(3, line, which, 0); 2], [true; 3]);
    let passed = alone == [((3, line, 0, 0), true); 2]
        && pairs == [in_text(1), in_text(2)]
        && answer.inside().iter().all(|&byte| byte == b'?');
    report.case(passed, || {
        format!(
            "{} gives {alone:?}, to compare and join {pairs:?}; expected 3 at line {line}",
            shown(text)
        )
    });
}

/// All circuits on some lines, numbered by length and then in dictionary order:
/// the least number of a class is the list expected for all of it.
struct Space {
    /// All gates on these lines, in gate order.
    alphabet: Vec<Gate>,
}

/// A forest in which each tree is a class, with its least number at the root.
struct Classes {
    parent: Vec<u32>,
}

impl Space {
    fn new(lines: u8) -> Space {
        let alphabet = circuit::every_gate(lines);
        assert!(alphabet
            .windows(2)
            .all(|pair| pair[0].record() < pair[1].record()));
        Space { alphabet }
    }

    fn circuits_up_to(&self, length: usize) -> usize {
        (0..=length as u32)
            .map(|l| self.alphabet.len().pow(l))
            .sum()
    }

    /// The circuit of a number, as places in the alphabet.
    fn places(&self, node: usize) -> Vec<usize> {
        let mut length = 0;
        let mut rest = node;
        while rest >= self.alphabet.len().pow(length) {
            rest -= self.alphabet.len().pow(length);
            length += 1;
        }
        let mut places = vec![0; length as usize];
        for place in places.iter_mut().rev() {
            *place = rest % self.alphabet.len();
            rest /= self.alphabet.len();
        }
        places
    }

    fn gates(&self, node: usize) -> Vec<Gate> {
        self.places(node)
            .iter()
            .map(|&place| self.alphabet[place])
            .collect()
    }

    /// The number of a circuit.
    fn node(&self, gates: &[Gate]) -> usize {
        let place = |gate: &Gate| {
            let found = self
                .alphabet
                .binary_search_by_key(&gate.record(), |g| g.record());
            found.expect("a gate on these lines")
        };
        self.number(gates.iter().map(place))
    }

    fn number(&self, places: impl ExactSizeIterator<Item = usize>) -> usize {
        let shorter: usize = (0..places.len() as u32)
            .map(|l| self.alphabet.len().pow(l))
            .sum();
        shorter + places.fold(0, |number, place| number * self.alphabet.len() + place)
    }

    /// The classes under all passes and merges between circuits of at most so
    /// many gates.
    fn classes(&self, bound: usize) -> Classes {
        let circuits = self.circuits_up_to(bound);
        let mut classes = Classes {
            parent: (0..circuits as u32).collect(),
        };
        let size = self.alphabet.len();
        let passes: Vec<bool> = (0..size * size)
            .map(|pair| pass(self.alphabet[pair / size], self.alphabet[pair % size]))
            .collect();
        // What two places merge into, as places.
        let merges: Vec<Option<Vec<usize>>> = (0..size * size)
            .map(|pair| {
                let merged = merge(self.alphabet[pair / size], self.alphabet[pair % size])?;
                Some(
                    merged
                        .iter()
                        .map(|gate| self.alphabet.iter().position(|g| g == gate).unwrap())
                        .collect(),
                )
            })
            .collect();
        for node in 0..circuits {
            let places = self.places(node);
            for at in 1..places.len() {
                let (before, pair, after) = (
                    &places[..at - 1],
                    (places[at - 1], places[at]),
                    &places[at + 1..],
                );
                let mut linked = |middle: &[usize]| {
                    let whole: Vec<usize> = [before, middle, after].concat();
                    classes.join(node, self.number(whole.into_iter()));
                };
                if passes[pair.0 * size + pair.1] {
                    linked(&[pair.1, pair.0]);
                }
                if let Some(merged) = &merges[pair.0 * size + pair.1] {
                    linked(merged);
                }
            }
        }
        for node in 0..circuits {
            let first = classes.first(node);
            classes.parent[node] = first as u32;
        }
        classes
    }
}

impl Classes {
    /// The least number of a circuit's class.
    fn first(&self, node: usize) -> usize {
        let mut node = node;
        while self.parent[node] as usize != node {
            node = self.parent[node] as usize;
        }
        node
    }

    /// Joins two classes under the least of their numbers.
    fn join(&mut self, a: usize, b: usize) {
        let (first_a, first_b) = (self.first(a), self.first(b));
        let least = first_a.min(first_b);
        for node in [first_a, first_b, a, b] {
            self.parent[node] = least as u32;
        }
    }
}
