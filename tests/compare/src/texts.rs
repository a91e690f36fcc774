//! Texts for the comparisons: valid ones of many shapes, ones at the limits,
//! and damaged ones.

use crate::circuit::{self, Gate};
use crate::random::Random;
use std::ops::RangeInclusive;

/// Gates of an expansion by number of controls.
pub const EXPANSION: [usize; 16] = [
    1, 1, 5, 16, 24, 46, 68, 84, 100, 144, 188, 232, 276, 308, 340, 372,
];

/// Numbers of lines on which rules 7 and 8 meet: 14 to 18 controls name all of them, or
/// all but one or two.
const MEETING: RangeInclusive<usize> = 15..=21;

/// A control, met when its line is 1, or when it is 0 if negated.
#[derive(Clone, Copy)]
pub struct Control {
    pub line: u8,
    pub negated: bool,
}

#[derive(Clone)]
pub struct Mct {
    pub controls: Vec<Control>,
    pub target: u8,
}

impl Mct {
    /// The lines of the controls.
    pub fn lines(&self) -> Vec<u8> {
        self.controls.iter().map(|control| control.line).collect()
    }

    /// The lines of the negated controls.
    pub fn negated(&self) -> impl Iterator<Item = u8> + '_ {
        let negated = self.controls.iter().filter(|control| control.negated);
        negated.map(|control| control.line)
    }

    /// All lines below this number that it names neither as control nor as target,
    /// rising.
    pub fn unnamed(&self, lines: u8) -> Vec<u8> {
        let named = self.lines();
        (0..lines)
            .filter(|line| *line != self.target && !named.contains(line))
            .collect()
    }

    /// Those of its unnamed lines that are not kept.
    pub fn spares(&self, lines: u8, kept: &[u8]) -> Vec<u8> {
        let mut spares = self.unnamed(lines);
        spares.retain(|line| !kept.contains(line));
        spares
    }

    /// Whether it names a line, as control or as target.
    pub fn names(&self, line: u8) -> bool {
        line == self.target || self.lines().contains(&line)
    }

    /// The gates of its expansion, two of them NOTs for each negated control.
    pub fn gates(&self) -> usize {
        EXPANSION[self.controls.len()] + 2 * self.negated().count()
    }

    pub fn set_signs(&mut self, random: &mut Random, signs: Signs) {
        for control in &mut self.controls {
            control.negated = signs.next(random);
        }
    }
}

/// How many controls of a cascade are negated.
#[derive(Clone, Copy, PartialEq)]
pub enum Signs {
    None,
    Some,
    All,
}

impl Signs {
    /// Of three cascades one has none, one some and one all.
    pub fn any(random: &mut Random) -> Signs {
        random.pick(&[Signs::None, Signs::Some, Signs::All])
    }

    /// Whether the next control is negated.
    fn next(self, random: &mut Random) -> bool {
        match self {
            Signs::None => false,
            Signs::Some => random.one_in(2),
            Signs::All => true,
        }
    }
}

/// A valid mct gate with k controls on so many lines (which leave a spare line
/// where one is needed).
pub fn mct(random: &mut Random, lines: u8, k: usize, signs: Signs) -> Mct {
    let mut named: Vec<u8> = (0..lines).collect();
    random.shuffle(&mut named);
    named.truncate(k + 1);
    let target = named.pop().unwrap();
    named.sort();
    let controls = named.into_iter().map(|line| Control {
        line,
        negated: signs.next(random),
    });
    Mct {
        controls: controls.collect(),
        target,
    }
}

/// A number as a control is written.
fn control_word(number: impl std::fmt::Display, negated: bool) -> String {
    format!("{}{number}", if negated { "-" } else { "" })
}

pub fn mct_line(mct: &Mct) -> String {
    let controls = mct.controls.iter();
    let words: Vec<String> = controls.map(|c| control_word(c.line, c.negated)).collect();
    format!("(mct ({}) {})\n", words.join(" "), mct.target)
}

pub fn keep_line(numbers: &[u8]) -> String {
    let words: Vec<String> = numbers.iter().map(u8::to_string).collect();
    format!("(keep {})\n", words.join(" "))
}

pub fn cascade_text(lines: u8, mcts: &[Mct]) -> Vec<u8> {
    let mut text = format!("(lines {lines})\n");
    for mct in mcts {
        text += &mct_line(mct);
    }
    text.into_bytes()
}

/// The most controls that a gate on so many lines may have.
pub fn most_controls(lines: u8) -> usize {
    match lines {
        1..=3 => usize::from(lines) - 1,
        4 => 2,
        _ => (usize::from(lines) - 2).min(15),
    }
}

pub fn some_lines(random: &mut Random) -> u8 {
    (if random.one_in(3) {
        random.between(1, 32)
    } else {
        random.between(1, 8)
    }) as u8
}

/// A valid cascade with at most so many gates in its expansion.
pub fn cascade(random: &mut Random, most_mcts: usize, most_gates: usize) -> Vec<u8> {
    let lines = some_lines(random);
    let signs = Signs::any(random);
    cascade_text(lines, &mcts(random, lines, most_mcts, most_gates, signs))
}

/// The gates of such a cascade.
pub fn mcts(
    random: &mut Random,
    lines: u8,
    most_mcts: usize,
    most_gates: usize,
    signs: Signs,
) -> Vec<Mct> {
    let mut left = most_gates;
    let mut mcts: Vec<Mct> = Vec::new();
    for _ in 0..random.below(most_mcts + 1) {
        // Some gates are taken again, perhaps with other signs.
        let new = if random.one_in(5) && !mcts.is_empty() {
            let known = random.below(mcts.len());
            let mut again = mcts[known].clone();
            if random.one_in(2) {
                again.set_signs(random, signs);
            }
            again
        } else {
            let k = random.below(most_controls(lines) + 1);
            mct(random, lines, k, signs)
        };
        if new.gates() > left {
            break;
        }
        left -= new.gates();
        mcts.push(new);
    }
    mcts
}

/// A cascade whose expansion has exactly so many gates, in a random order. A
/// total past 4,096 is passed with its last line only.
pub fn cascade_of_total(random: &mut Random, total: usize, signs: Signs) -> Vec<u8> {
    let lines = random.between(17, 32) as u8;
    let mut left = total;
    let mut mcts = Vec::new();
    while left > 0 {
        let fitting = EXPANSION.iter().filter(|&&gates| gates <= left).count();
        let k = fitting - 1 - random.below(fitting.min(4));
        let mut new = mct(random, lines, k, signs);
        // Signs for which no gates are left are dropped.
        for control in 0..k {
            if new.gates() > left {
                new.controls[control].negated = false;
            }
        }
        left -= new.gates();
        mcts.push(new);
    }
    random.shuffle(&mut mcts);
    cascade_text(lines, &mcts)
}

/// So many mct lines, all of few controls, so that the number of lines is the
/// limit and not the expansion.
pub fn cascade_of_lines(random: &mut Random, count: usize, signs: Signs) -> Vec<u8> {
    let lines = random.between(5, 32) as u8;
    let mcts: Vec<Mct> = (0..count)
        .map(|_| {
            let k = random.pick(&[0, 1, 1, 2, 2, 2, 3]);
            mct(random, lines, k, signs)
        })
        .collect();
    cascade_text(lines, &mcts)
}

/// The gates of a valid circuit, of one of several shapes.
pub fn gates(random: &mut Random, lines: u8, count: usize) -> Vec<Gate> {
    let mut gates: Vec<Gate> = match random.below(5) {
        // Any gates.
        0 => (0..count).map(|_| Gate::random(random, lines)).collect(),
        // A handful of gates again and again: many merges.
        1 => {
            let handful: Vec<Gate> = (0..random.between(1, 6))
                .map(|_| Gate::random(random, lines))
                .collect();
            (0..count).map(|_| random.pick(&handful)).collect()
        }
        // A circuit and its undoing, perhaps with some gates in the middle:
        // each vanished pair opens the next.
        2 => {
            let half: Vec<Gate> = (0..count / 2)
                .map(|_| Gate::random(random, lines))
                .collect();
            let mut whole = half.clone();
            if random.one_in(2) {
                whole.extend((0..random.below(4)).map(|_| Gate::random(random, lines)));
            }
            whole.extend(half.iter().rev().map(|gate| gate.undone()));
            whole
        }
        // Blocks with one set of targets and one of controls: many passes.
        3 => {
            let mut block = Vec::new();
            while block.len() < count {
                let split = random.next() as u32;
                for _ in 0..random.between(1, 60) {
                    let gate = Gate::random(random, lines);
                    let fits = match gate {
                        Gate::Not { target } => split >> target & 1 == 1,
                        Gate::Powered {
                            control, target, ..
                        } => split >> target & 1 == 1 && split >> control & 1 == 0,
                    };
                    if fits {
                        block.push(gate);
                    }
                }
                // Where no line is a target no gate fits.
                if split.trailing_zeros() >= u32::from(lines) {
                    block.push(Gate::random(random, lines));
                }
            }
            block
        }
        // A short circuit led away from itself by random steps.
        _ => {
            let start: Vec<Gate> = (0..count / 4)
                .map(|_| Gate::random(random, lines))
                .collect();
            circuit::linked(random, lines, &start, 2 * count, count)
        }
    };
    gates.truncate(count);
    gates
}

pub fn circuit(random: &mut Random, most: usize) -> Vec<u8> {
    let lines = some_lines(random);
    let count = random.below(most + 1);
    circuit::text(lines, &gates(random, lines, count))
}

/// A circuit with exactly so many gates.
pub fn circuit_of(random: &mut Random, count: usize) -> Vec<u8> {
    let lines = random.between(1, 32) as u8;
    circuit::text(lines, &gates_of(random, lines, count))
}

/// Exactly so many gates of a valid circuit.
pub fn gates_of(random: &mut Random, lines: u8, count: usize) -> Vec<Gate> {
    let mut gates = gates(random, lines, count);
    while gates.len() < count {
        gates.push(Gate::random(random, lines));
    }
    gates
}

/// A text with one to three random changes.
pub fn damaged(random: &mut Random, text: &[u8]) -> Vec<u8> {
    let mut text = text.to_vec();
    for _ in 0..random.pick(&[1, 1, 1, 2, 3]) {
        damage(random, &mut text);
    }
    text
}

fn damage(random: &mut Random, text: &mut Vec<u8>) {
    if text.is_empty() {
        text.push(random.next() as u8);
        return;
    }
    let place = random.below(text.len());
    match random.below(22) {
        // Any byte in the place of one, or put in, or one taken away.
        0 => text[place] = random.next() as u8,
        1 => text.insert(place, random.next() as u8),
        2 => {
            text.remove(place);
        }
        // Bytes that the texts are made of.
        3 => text[place] = random.pick(b"()0123456789 \n-linesmctovp"),
        4 => text.insert(place, random.pick(b"()0123456789 \n-linesmctovp")),
        // Cut, at either end.
        5 => text.truncate(place),
        6 => {
            text.drain(..place);
        }
        7 => {
            text.pop();
        }
        // A number changed: leading zero, three digits, other values.
        8..=11 => {
            let digits: Vec<usize> = (0..text.len())
                .filter(|&p| text[p].is_ascii_digit())
                .collect();
            if let Some(&first) = digits.get(random.below(digits.len().max(1))) {
                match random.below(4) {
                    0 => text.insert(first, b'0'),
                    1 => {
                        text.splice(
                            first..=first,
                            random.between(0, 40).to_string().into_bytes(),
                        );
                    }
                    2 => {
                        text.splice(
                            first..=first,
                            random.between(95, 110).to_string().into_bytes(),
                        );
                    }
                    _ => text[first] = b'0' + random.below(10) as u8,
                }
            }
        }
        // Line ends: CR before, an empty line, a doubled or dropped line end.
        12 | 13 => {
            let ends: Vec<usize> = (0..text.len()).filter(|&p| text[p] == b'\n').collect();
            if let Some(&end) = ends.get(random.below(ends.len().max(1))) {
                match random.below(4) {
                    0 => text.insert(end, b'\r'),
                    1 => text.insert(end, b'\n'),
                    2 => text[end] = b'\r',
                    _ => {
                        text.remove(end);
                    }
                }
            }
        }
        // Spaces.
        14 => text.insert(place, b' '),
        15 => {
            let spaces: Vec<usize> = (0..text.len()).filter(|&p| text[p] == b' ').collect();
            if let Some(&space) = spaces.get(random.below(spaces.len().max(1))) {
                match random.below(3) {
                    0 => text[space] = b'\t',
                    1 => text.insert(space, b' '),
                    _ => {
                        text.remove(space);
                    }
                }
            }
        }
        // Upper case.
        16 => text[place] = text[place].to_ascii_uppercase(),
        // Minus signs.
        17..=20 => damage_sign(random, text, place),
        // A line twice, or two lines exchanged.
        _ => {
            let mut lines: Vec<Vec<u8>> = text
                .split_inclusive(|&b| b == b'\n')
                .map(<[u8]>::to_vec)
                .collect();
            let (a, b) = (random.below(lines.len()), random.below(lines.len()));
            if random.one_in(2) {
                lines.swap(a, b);
            } else {
                lines.insert(a, lines[b].clone());
            }
            *text = lines.concat();
        }
    }
}

/// A minus sign put in, taken away, doubled, moved or written otherwise.
fn damage_sign(random: &mut Random, text: &mut Vec<u8>, place: usize) {
    let places = |of: &dyn Fn(usize) -> bool| -> Vec<usize> {
        (0..text.len()).filter(|&place| of(place)).collect()
    };
    let numbers = places(&|p| text[p].is_ascii_digit() && !(p > 0 && text[p - 1].is_ascii_digit()));
    let signs = places(&|p| text[p] == b'-');
    let change = if signs.is_empty() {
        random.below(5)
    } else {
        random.below(10)
    };
    match change {
        // Before any number: of line 1, of a control, of a target, of a gate.
        0..=3 if !numbers.is_empty() => text.insert(random.pick(&numbers), b'-'),
        5 => {
            text.remove(random.pick(&signs));
        }
        6 => text.insert(random.pick(&signs), b'-'),
        7 => {
            text.remove(random.pick(&signs));
            text.insert(place.min(text.len()), b'-');
        }
        8 | 9 => {
            let sign = random.pick(&signs);
            let otherwise: &[u8] = random.pick(&[
                b"+" as &[u8],
                b"- ",
                b" -",
                b"-0",
                b"-+",
                b"~",
                b"\xe2\x88\x92",
            ]);
            text.splice(sign..=sign, otherwise.iter().copied());
        }
        // Anywhere.
        _ => text.insert(place, b'-'),
    }
}

/// An mct line in form that may break any of the rules 4 to 8, several at once.
fn wild_mct(random: &mut Random, lines: u8) -> String {
    let width = usize::from(lines);
    let k = match random.below(4) {
        _ if MEETING.contains(&width) && !random.one_in(4) => width - 1 - random.below(3),
        0 => random.below(4),
        1 => random.below(width),
        2 => random.between(12, 20),
        _ => width - 1,
    };
    let mut controls: Vec<usize> = if k < width {
        let mut named: Vec<usize> = (0..width).collect();
        random.shuffle(&mut named);
        named.truncate(k);
        named
    } else {
        (0..k).map(|_| random.below(width)).collect()
    };
    if !random.one_in(8) {
        controls.sort();
    }
    let free: Vec<usize> = (0..width).filter(|line| !controls.contains(line)).collect();
    let mut target = if free.is_empty() || random.one_in(8) {
        random.below(width)
    } else {
        random.pick(&free)
    };
    let foreign = [width, width + 1, 32, 33, 99];
    for _ in 0..2 {
        match random.below(12) {
            0 => target = random.pick(&foreign).min(99),
            1 if k > 0 => controls[random.below(k)] = random.pick(&foreign),
            2 if k > 1 => controls.swap(random.below(k), random.below(k)),
            3 if k > 1 => controls[random.below(k)] = controls[random.below(k)],
            4 if k > 0 => target = random.pick(&controls),
            _ => {}
        }
    }
    let signs = Signs::any(random);
    let controls: Vec<String> = controls
        .iter()
        .map(|control| control_word(control, signs.next(random)))
        .collect();
    format!("(mct ({}) {target})\n", controls.join(" "))
}

/// A circuit line in form that may break rules 4 and 5; seldom one with a sign,
/// which no circuit has in form.
fn wild_gate(random: &mut Random, lines: u8) -> String {
    let bound = usize::from(lines) + random.pick(&[0, 0, 0, 1, 3]);
    let [control, target] = [0, 1].map(|_| {
        let negated = random.one_in(60);
        control_word(random.below(bound), negated)
    });
    match random.below(4) {
        0 => format!("(not {target})\n"),
        1 => format!("(cn {control} {target})\n"),
        2 => format!("(v {control} {target})\n"),
        _ => format!("(vp {control} {target})\n"),
    }
}

/// Valid lines with wild ones among them.
pub fn wild(random: &mut Random, cascade: bool) -> Vec<u8> {
    let lines = match random.below(6) {
        0..=2 => random.between(1, 32),
        3 | 4 if cascade => random.between(*MEETING.start(), *MEETING.end()),
        _ => random.between(1, 6),
    } as u8;
    let header = if random.one_in(60) {
        random.between(0, 40)
    } else {
        usize::from(lines)
    };
    let mut text = format!("(lines {header})\n");
    for _ in 0..random.pick(&[1, 1, 2, 3, 6, 12, 40]) {
        let wild = random.one_in(3);
        if cascade && wild {
            text += &wild_mct(random, lines);
        } else if cascade {
            let most = most_controls(lines);
            let k = if MEETING.contains(&usize::from(lines)) && random.one_in(4) {
                most - random.below(2)
            } else {
                random.below(most + 1).min(random.between(1, 15))
            };
            let signs = Signs::any(random);
            text += &mct_line(&mct(random, lines, k, signs));
        } else if wild {
            text += &wild_gate(random, lines);
        } else {
            let line = circuit::text(lines, &[Gate::random(random, lines)]);
            text += std::str::from_utf8(&line)
                .unwrap()
                .split_once('\n')
                .unwrap()
                .1;
        }
        if random.one_in(50) {
            text += random.pick(&[
                "\n",
                "(mct () 0)\r\n",
                "()\n",
                "(not 0)",
                "(mct () 00)\n",
                "(v 0)\n",
                "(mct () -0)\n",
                "(mct (--0) 1)\n",
                "(mct (- 0) 1)\n",
                "(mct (-00) 1)\n",
                "(not -0)\n",
                "(cn -0 1)\n",
            ]);
        }
    }
    text.into_bytes()
}

/// How many controls each line after line 1 has, by its form alone, and how many lines
/// the circuit; none if line 1 is not in form.
pub fn shapes(text: &[u8]) -> Vec<(usize, usize)> {
    let text = String::from_utf8_lossy(text);
    let header = |line: &str| {
        line.strip_prefix("(lines ")?
            .strip_suffix(')')?
            .parse()
            .ok()
    };
    let mut rows = text.lines();
    let Some(lines) = rows.next().and_then(header) else {
        return Vec::new();
    };
    let controls = |row: &str| match row.split_once(')').unwrap_or((row, "")).0 {
        "(mct (" => 0,
        front => front.matches(' ').count(),
    };
    rows.map(|row| (controls(row), lines)).collect()
}

/// Texts of exactly so many bytes: lines, garbage or one endless mct line after
/// a valid front.
pub fn of_size(random: &mut Random, size: usize) -> Vec<u8> {
    let mut text = b"(lines 32)\n".to_vec();
    match random.below(9) {
        // One line of garbage, with and without its end.
        0 => {
            text.resize(size, b'x');
            if random.one_in(2) {
                text[size - 1] = b'\n';
            }
        }
        // Line ends only.
        1 => text = vec![b'\n'; size],
        // Any bytes.
        2 => text.resize_with(size, || random.next() as u8),
        // One mct line of thousands of controls, in form: rules 4, 5 and 6.
        kind @ 3..=5 => {
            let control = ["99", "0", "1"][kind - 3];
            text.extend_from_slice(b"(mct (");
            text.extend_from_slice(control.as_bytes());
            while text.len() + 5 < size {
                text.push(b' ');
                text.extend_from_slice(control.as_bytes());
            }
            // The last numbers are set to fit the size.
            while text.len() + 5 > size || text.last() == Some(&b' ') {
                text.pop();
            }
            while text.len() + 5 < size {
                if text.len() + 6 == size
                    && text[text.len() - 2] == b' '
                    && text[text.len() - 1] != b'0'
                {
                    text.push(b'1');
                } else if text.len() + 7 <= size {
                    text.extend_from_slice(b" 1");
                } else {
                    text.truncate(text.len() - 2);
                    text.extend_from_slice(b" 11");
                }
            }
            text.extend_from_slice(b") 0)\n");
            assert_eq!(text.len(), size);
            // A sign and one digit are as long as two digits: with all of them so,
            // rule 6 answers and not rule 4.
            let signs = Signs::any(random);
            for place in 1..text.len() {
                if text[place - 1..=place] == *b"99" && signs.next(random) {
                    text[place - 1] = b'-';
                }
            }
        }
        // Circuit lines, more than 4,096 where they are short, the last cut.
        6 => {
            let line: &[u8] =
                random.pick(&[b"(not 10)\n" as &[u8], b"(cn 10 11)\n", b"(vp 31 30)\n"]);
            while text.len() < size {
                text.extend_from_slice(line);
            }
            text.truncate(size);
        }
        // A full circuit and then one malformed line to the end.
        7 => {
            text = circuit_of(random, 4_096);
            text.resize(size - 1, b' ');
            text.push(b'\n');
        }
        // A full cascade and then one malformed line to the end.
        _ => {
            let signs = Signs::any(random);
            text = cascade_of_lines(random, 256, signs);
            text.resize(size - 1, b'(');
            text.push(b'\n');
        }
    }
    text
}

/// Small valid texts from which every single change is tried.
pub const SMALL: [&str; 11] = [
    "(lines 3)\n(mct (0 1) 2)\n",
    "(lines 5)\n(mct (0 1 2) 3)\n(mct () 4)\n",
    "(lines 17)\n(mct (9 10 11 16) 0)\n(mct (3) 12)\n",
    "(lines 32)\n(mct (30) 31)\n",
    "(lines 2)\n(mct (-0) 1)\n",
    "(lines 3)\n(mct (0 -1) 2)\n(mct (-0 -2) 1)\n",
    "(lines 14)\n(mct (-0 1 -12) 5)\n(mct (-10) 0)\n",
    "(lines 2)\n(v 0 1)\n(v 0 1)\n",
    "(lines 3)\n(cn 0 2)\n(not 2)\n(vp 1 2)\n",
    "(lines 12)\n(not 10)\n(cn 11 0)\n(v 1 10)\n",
    "(lines 1)\n",
];

/// Every single change of a text: each byte value in each place, each byte
/// taken away, each cut, each of some bytes put in at each place.
pub fn every_change(text: &[u8]) -> Vec<Vec<u8>> {
    let mut texts = Vec::new();
    for place in 0..text.len() {
        for value in 0..=255 {
            let mut changed = text.to_vec();
            changed[place] = value;
            texts.push(changed);
        }
        let mut shorter = text.to_vec();
        shorter.remove(place);
        texts.push(shorter);
        texts.push(text[..place].to_vec());
        texts.push(text[place..].to_vec());
    }
    for place in 0..=text.len() {
        for value in b"()0123456789 \n\r\t\0-+lmncvpx\x7f\x80\xff" {
            let mut longer = text.to_vec();
            longer.insert(place, *value);
            texts.push(longer);
        }
    }
    texts
}
