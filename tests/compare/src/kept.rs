//! Kept lines (order 8).
//!
//! `cases` are cascades with a keep line, each with the refusal that the papers' table
//! gives it (see `rules`) and, where it is accepted and short, with its list by the
//! expansion and the plain reduction here. None of it comes from the peer.
//!
//! `laws` holds answers of the subject to others of its own, given without a keep line:
//! - no gate touches a kept line that no mct names, and the circuit does what the cascade
//!   means;
//! - a gate has the circuit of the same gate on fewer lines, without the kept lines that
//!   it does not name; a cascade has the reduced circuit of its gates' one after another;
//! - kept lines that no gate names: the circuit of the cascade on the other lines alone;
//! - kept lines that every gate names: the circuit of the cascade without the keep line.
//!
//! On the other lines these are numbered in the same order. So the order of the gates
//! stays, that of the spares too, and a list stays the first of the shortest.

use crate::cases::Cases;
use crate::circuit::{self, Gate};
use crate::expansion;
use crate::meaning;
use crate::negated::Ask;
use crate::random::Random;
use crate::report::{shown, Report};
use crate::rules::{self, Refusal, Row};
use crate::spares;
use crate::texts::{self, Mct, Signs};
use peer::Program;

/// What a cascade is made for.
#[derive(Clone, Copy, Debug, PartialEq)]
pub enum Kind {
    /// Kept sets of every size on every number of lines, all accepted.
    Sets,
    /// One gate, with so many of its unnamed lines not kept.
    Spares,
    /// Keep lines in form, for or against rules 4 and 6, and other lines after them.
    Heads,
    /// Keep lines that are not in form, or not on line 2.
    Forms,
    /// 255 to 258 gates, and expansions around 4,096 gates.
    Limits,
    /// Any lines.
    Random,
}

const KINDS: [Kind; 6] = [
    Kind::Sets,
    Kind::Spares,
    Kind::Heads,
    Kind::Forms,
    Kind::Limits,
    Kind::Random,
];
const SIGNS: [Signs; 3] = [Signs::None, Signs::Some, Signs::All];

/// The most gates of an expansion whose list is worked out here.
const MOST_LISTED: usize = 450;
/// The most lines on which patterns are run.
const MOST_LINES: u8 = 6;

/// Small texts with a keep line, of which every single change is tried.
pub const SMALL: [&str; 4] = [
    "(lines 5)\n(keep 3 4)\n(mct (0 1) 2)\n",
    "(lines 6)\n(keep 4)\n(mct (0 1 2) 3)\n",
    "(lines 12)\n(keep 0 3 11)\n",
    "(lines 3)\n(keep 0)\n(cn 0 1)\n",
];

/// Lines that are no keep line in form; the last is one without its end.
const NO_FORM: [&str; 32] = [
    "(keep)\n",
    "(keep )\n",
    "(keep  0)\n",
    "(keep 0 )\n",
    "(keep 0  1)\n",
    "( keep 0)\n",
    "(keep -0)\n",
    "(keep -1)\n",
    "(keep 0 -1)\n",
    "(keep +1)\n",
    "(keep 00)\n",
    "(keep 01)\n",
    "(keep 0 01)\n",
    "(keep 100)\n",
    "(keep 0 123)\n",
    "(keep 0 a)\n",
    "(keep 0,1)\n",
    "(keep (0))\n",
    "(keep (0 1))\n",
    "(keep () 0)\n",
    "(Keep 0)\n",
    "(kept 0)\n",
    "(kee 0)\n",
    "(keeps 0)\n",
    "(keep0)\n",
    "(keep\t0)\n",
    "(keep 0))\n",
    "(keep 0) \n",
    "(keep 0)\r\n",
    "(keep 0\n",
    "keep 0)\n",
    "(keep 0)",
];

/// A text of so many bytes, with a keep line that is in form and not sorted.
pub fn long_text(size: usize) -> Vec<u8> {
    let front = "(lines 32)\n(keep ";
    let first = ["0", "31"][size % 2];
    let more = (size - front.len() - first.len() - 2) / 2;
    let text = format!("{front}{first}{})\n", " 0".repeat(more));
    assert_eq!(text.len(), size);
    text.into_bytes()
}

/// How much is run.
#[derive(Clone, Copy)]
pub struct Size {
    /// Every size and shape, or some of them.
    pub whole: bool,
    /// Random cascades.
    pub random: usize,
    /// Cascades for each of the laws.
    pub laws: usize,
}

/// A cascade, and what is due to it.
pub struct Case {
    pub kind: Kind,
    pub lines: u8,
    rows: Vec<Row>,
    pub due: Option<Refusal>,
}

impl Case {
    pub fn text(&self) -> Vec<u8> {
        rules::text(self.lines, &self.rows)
    }

    pub fn has_only_line_1(&self) -> bool {
        self.rows.is_empty()
    }

    /// The list, if the cascade is accepted and short.
    pub fn list(&self) -> Option<Vec<Gate>> {
        let mcts = mcts(&self.rows);
        if self.due.is_some() || mcts.iter().map(Mct::gates).sum::<usize>() > MOST_LISTED {
            return None;
        }
        let expanded = expansion::keeping(self.lines, kept(&self.rows), &mcts);
        Some(circuit::reduced(&expanded))
    }

    /// The quote of one gate that is accepted, by its number of spares.
    pub fn quote(&self) -> Option<usize> {
        match (&self.rows[..], self.due) {
            ([Row::Keep(kept), Row::Gate(mct)], None) => {
                let spares = mct.spares(self.lines, kept).len();
                Some(spares::quote_with(spares, mct))
            }
            _ => None,
        }
    }
}

/// The kept lines of a cascade.
fn kept(rows: &[Row]) -> &[u8] {
    match rows.first() {
        Some(Row::Keep(kept)) => kept,
        _ => &[],
    }
}

fn mcts(rows: &[Row]) -> Vec<Mct> {
    let mct = |row: &Row| match row {
        Row::Gate(mct) => Some(mct.clone()),
        _ => None,
    };
    rows.iter().filter_map(mct).collect()
}

/// A keep line, if any line is kept, and the gates.
fn with_keep(kept: &[u8], mcts: &[Mct]) -> Vec<Row> {
    let keep = (!kept.is_empty()).then(|| Row::Keep(kept.to_vec()));
    keep.into_iter().chain(gates(mcts)).collect()
}

fn gates(mcts: &[Mct]) -> impl Iterator<Item = Row> + '_ {
    mcts.iter().cloned().map(Row::Gate)
}

/// A kept set of this size: the lowest lines, the highest, or any.
fn kept_set(random: &mut Random, lines: u8, size: usize) -> Vec<u8> {
    let mut all: Vec<u8> = (0..lines).collect();
    match random.below(4) {
        0 => {}
        1 => all.reverse(),
        _ => random.shuffle(&mut all),
    }
    all.truncate(size);
    all.sort();
    all
}

/// Which lines the gates of a cascade name first.
#[derive(Clone, Copy)]
enum Lean {
    Kept,
    Unkept,
    Either,
}

const LEANS: [Lean; 3] = [Lean::Kept, Lean::Unkept, Lean::Either];

/// A gate of k controls, from three on with a spare that is not kept.
fn fitting(random: &mut Random, lines: u8, kept: &[u8], k: usize, lean: Lean, signs: Signs) -> Mct {
    let mut from: Vec<u8> = (0..lines).collect();
    random.shuffle(&mut from);
    if k >= 3 {
        let spare = from.iter().position(|line| !kept.contains(line));
        from.remove(spare.expect("a line that is not kept"));
    }
    match lean {
        Lean::Kept => from.sort_by_key(|line| !kept.contains(line)),
        Lean::Unkept => from.sort_by_key(|line| kept.contains(line)),
        Lean::Either => {}
    }
    from.truncate(k + 1);
    naming(random, from, signs)
}

/// The most controls of a gate that fits.
fn most_fitting(lines: u8, kept: &[u8]) -> usize {
    let most = texts::most_controls(lines);
    match kept.len() == usize::from(lines) {
        true => most.min(2),
        false => most,
    }
}

/// A gate that names these lines, any of them as target.
fn naming(random: &mut Random, mut named: Vec<u8>, signs: Signs) -> Mct {
    let target = named.swap_remove(random.below(named.len()));
    named.sort();
    let mut mct = spares::plain(&named, target);
    mct.set_signs(random, signs);
    mct
}

/// A gate that names every line that is not kept, and perhaps others.
fn without_spare(random: &mut Random, lines: u8, kept: &[u8], signs: Signs) -> Mct {
    let width = usize::from(lines);
    let count = random.between((width - kept.len()).max(1), width);
    let mut named: Vec<u8> = (0..lines).collect();
    random.shuffle(&mut named);
    named.sort_by_key(|line| kept.contains(line));
    named.truncate(count);
    naming(random, named, signs)
}

/// One to four gates that fit, half of them nearly as wide as may be.
fn fitting_gates(random: &mut Random, lines: u8, kept: &[u8], lean: Lean) -> Vec<Mct> {
    let signs = Signs::any(random);
    let most = most_fitting(lines, kept);
    let mut left = MOST_LISTED;
    let mut all = Vec::new();
    for _ in 0..random.between(1, 4) {
        let k = match random.below(2) {
            0 => random.below(most + 1),
            _ => most - random.below(most.min(3) + 1),
        };
        let mct = fitting(random, lines, kept, k, lean, signs);
        if mct.gates() <= left {
            left -= mct.gates();
            all.push(mct);
        }
    }
    all
}

/// Of each gate that has no spare left one unnamed line is no more kept.
fn loosen(lines: u8, kept: &mut Vec<u8>, mcts: &[Mct]) {
    for mct in mcts.iter().filter(|mct| mct.controls.len() >= 3) {
        if mct.spares(lines, kept).is_empty() {
            let unnamed = mct.unnamed(lines);
            kept.retain(|line| *line != unnamed[0]);
        }
    }
}

/// All cases of this size.
pub fn cases(random: &mut Random, size: Size) -> Vec<Case> {
    let mut cases = Cases::new(random, size.whole);
    cases.sets();
    cases.spares();
    cases.heads();
    cases.forms();
    cases.limits();
    for _ in 0..size.random {
        cases.random();
    }
    cases.all
}

impl Cases<'_, Case> {
    fn add(&mut self, kind: Kind, lines: u8, rows: Vec<Row>, due: Option<Refusal>) {
        // The rules, one by one, say the same.
        assert_eq!(rules::refusal(rules::NOW, lines, &rows), due);
        self.all.push(Case {
            kind,
            lines,
            rows,
            due,
        });
    }

    /// Kept sets of every size on every number of lines, with gates that name kept lines
    /// first, others first, or either; or of some sizes, with one of these.
    fn sets(&mut self) {
        for lines in 1..=32u8 {
            let width = usize::from(lines);
            for size in 0..=width {
                self.turn += 1;
                let some = [1, width / 2, width - 1, width].contains(&size);
                let leans = match self.whole {
                    true => [&LEANS[..], &LEANS].concat(),
                    false if some => vec![LEANS[self.turn % 3]],
                    false => vec![],
                };
                for lean in leans {
                    let kept = kept_set(self.random, lines, size);
                    let mcts = fitting_gates(self.random, lines, &kept, lean);
                    self.add(Kind::Sets, lines, with_keep(&kept, &mcts), None);
                }
            }
        }
    }

    /// 0 to 31 controls on one line more to 32, with none of the unnamed lines left as
    /// spares, one to three, and all; of the named lines none, some or all are kept.
    fn spares(&mut self) {
        for lines in 1..=32u8 {
            for k in 0..usize::from(lines) {
                let unnamed = usize::from(lines) - k - 1;
                if !self.whole && unnamed > 2 && lines < 32 {
                    continue;
                }
                let mut left = vec![0, 1, 2, 3, unnamed];
                left.retain(|&spares| spares <= unnamed);
                left.sort();
                left.dedup();
                for spares in left {
                    self.gate(lines, k, spares);
                }
            }
        }
    }

    /// One gate with so many spares, at line 3.
    fn gate(&mut self, lines: u8, k: usize, spares: usize) {
        self.turn += 1;
        let mct = spares::placed(self.random, k, lines, self.turn % 16);
        let mut free = mct.unnamed(lines);
        self.random.shuffle(&mut free);
        free.truncate(spares);
        let of_named = self.turn % 3;
        let mut kept: Vec<u8> = (0..lines)
            .filter(|line| match mct.names(*line) {
                true => of_named == 2 || (of_named == 1 && self.random.one_in(2)),
                false => !free.contains(line),
            })
            .collect();
        if kept.is_empty() {
            kept.push(mct.target);
        }
        let due = rules::by_8_then_7(k, spares).map(|number| (number, 3));
        self.add(Kind::Spares, lines, with_keep(&kept, &[mct]), due);
    }

    /// Keep lines in form, alone and before other lines: they come first.
    fn heads(&mut self) {
        let whole = self.whole;
        let some = [1, 3, 12, 32];
        for lines in (1..=32).filter(|lines| whole || some.contains(lines)) {
            for (numbers, number) in heads_of(lines) {
                let refused = number.map(|number| (number, 2));
                let keep = || Row::Keep(numbers.clone());
                let not = Row::Gate(spares::plain(&[], 0));
                let foreign = Row::Gate(spares::plain(&[0], lines));
                let malformed = Row::Malformed("(mct () 0\n".to_string());
                for (row, due) in [
                    (None, None),
                    (Some(not), None),
                    (Some(foreign), Some((4, 3))),
                    (Some(malformed), Some((3, 3))),
                    (Some(keep()), Some((3, 3))),
                ] {
                    let rows = [keep()].into_iter().chain(row).collect();
                    self.add(Kind::Heads, lines, rows, refused.or(due));
                }
            }
        }
    }

    /// Lines that are not in form in the place of a keep line, and keep lines in other
    /// places.
    fn forms(&mut self) {
        let not = || Row::Gate(spares::plain(&[], 0));
        let all = [14, 3, 32];
        for &lines in if self.whole { &all[..] } else { &all[..1] } {
            for wrong in NO_FORM {
                let row = Row::Malformed(wrong.to_string());
                self.add(Kind::Forms, lines, vec![row.clone()], Some((3, 2)));
                // A line without its end can't have another after it.
                if wrong.ends_with('\n') {
                    self.add(Kind::Forms, lines, vec![row, not()], Some((3, 2)));
                }
            }
            for numbers in [vec![0], vec![0, 2], vec![2, 0], vec![lines]] {
                for before in [1, 2, 7, 255, 256] {
                    let mut rows = vec![not(); before];
                    rows.push(Row::Keep(numbers.clone()));
                    let due = Some((3, before as u64 + 2));
                    self.add(Kind::Forms, lines, rows.clone(), due);
                    rows[0] = Row::Keep(vec![1]);
                    self.add(Kind::Forms, lines, rows, due);
                }
            }
        }
    }

    /// Gates at the limits after a keep line, which is not counted among them.
    fn limits(&mut self) {
        let rounds = if self.whole { 6 } else { 1 };
        for _ in 0..rounds {
            for count in 255..=258 {
                self.around_256(count);
            }
            self.around_4_096();
        }
    }

    /// So many gates, of which the last may be against an earlier rule.
    fn around_256(&mut self, count: usize) {
        let lines = self.random.between(5, 32) as u8;
        let size = self.random.between(1, usize::from(lines));
        let kept = kept_set(self.random, lines, size);
        let mut rows = vec![Row::Keep(kept.clone())];
        rows.extend(self.narrow(lines, count));
        let past = (count > 256).then_some((9, 259));
        self.add(Kind::Limits, lines, rows.clone(), past);
        let last = count as u64 + 2;
        for (row, number) in against(lines, &kept) {
            *rows.last_mut().expect("a gate") = row;
            let due = match past {
                Some((_, line)) if line < last => past,
                _ => Some((number, last)),
            };
            self.add(Kind::Limits, lines, rows.clone(), due);
        }
    }

    fn around_4_096(&mut self) {
        // 256 gates of three controls are 4,096; one sign in any of them is too many.
        let three = vec![spares::plain(&[0, 1, 3], 5); 256];
        let rows = with_keep(&[1, 2], &three);
        self.add(Kind::Limits, 7, rows.clone(), None);
        let mut signed = rows;
        let place = self.random.between(1, 256);
        if let Row::Gate(mct) = &mut signed[place] {
            mct.controls[2].negated = true;
        }
        self.add(Kind::Limits, 7, signed, Some((9, 258)));
        // Eleven of fifteen controls are 4,092.
        let mut rows = with_keep(&[3, 16, 18], &vec![spares::first_lines(15); 11]);
        let not = spares::plain(&[], 18);
        for more in 0..=5 {
            let due = (more == 5).then_some((9, 18));
            self.add(Kind::Limits, 19, rows.clone(), due);
            rows.push(Row::Gate(not.clone()));
        }
        // Any gates near the limit.
        let lines = self.random.between(6, 32) as u8;
        let mcts = spares::near_the_limit(self.random, lines);
        let size = self.random.between(1, usize::from(lines));
        let mut kept = kept_set(self.random, lines, size);
        loosen(lines, &mut kept, &mcts);
        let rows = with_keep(&kept, &mcts);
        let due = rules::refusal(rules::NOW, lines, &rows);
        self.add(Kind::Limits, lines, rows, due);
    }

    /// A keep line or none, for or against a rule or not in form, and any lines after it.
    fn random(&mut self) {
        let lines = match self.random.below(4) {
            0 => self.random.between(15, 21),
            1 => self.random.between(4, 8),
            _ => self.random.between(4, 32),
        } as u8;
        let size = self.random.between(1, usize::from(lines));
        let kept = kept_set(self.random, lines, size);
        let mut rows: Vec<Row> = self.random_head(lines, &kept).into_iter().collect();
        let count = match self.random.below(30) {
            0 => self.random.between(250, 257),
            _ => self.random.below(5),
        };
        rows.extend(self.narrow(lines, count));
        for _ in 0..self.random.between(1, 4) {
            let row = self.random_row(lines, &kept);
            rows.push(row);
        }
        let due = rules::refusal(rules::NOW, lines, &rows);
        self.add(Kind::Random, lines, rows, due);
    }

    fn random_head(&mut self, lines: u8, kept: &[u8]) -> Option<Row> {
        let mut numbers = kept.to_vec();
        let place = self.random.below(numbers.len());
        let other = self.random.below(numbers.len());
        match self.random.below(24) {
            0 => return None,
            1 => {
                let wrong = self.random.pick(&NO_FORM[..NO_FORM.len() - 1]);
                return Some(Row::Malformed(wrong.to_string()));
            }
            2 => numbers[place] = self.random.between(usize::from(lines), 99) as u8,
            3 => numbers.swap(place, other),
            4 => numbers[place] = numbers[other],
            5 => numbers.push(self.random.pick(kept)),
            _ => {}
        }
        Some(Row::Keep(numbers))
    }

    fn random_row(&mut self, lines: u8, kept: &[u8]) -> Row {
        let width = usize::from(lines);
        let signs = Signs::any(self.random);
        match self.random.below(16) {
            0 => Row::Gate(spares::against_a_rule(self.random, lines.max(5))),
            1 => Row::Keep(kept.to_vec()),
            2 => Row::Malformed(
                self.random
                    .pick(&["\n", "(mct () -0)\n", "(keep)\n"])
                    .to_string(),
            ),
            3..=5 => Row::Gate(without_spare(self.random, lines, kept, signs)),
            // Sixteen or more controls.
            6 if width > 17 => {
                let k = self.random.between(16, width - 1);
                Row::Gate(texts::mct(self.random, lines, k, signs))
            }
            _ => {
                let k = self.random.below(most_fitting(lines, kept) + 1);
                let lean = self.random.pick(&LEANS);
                Row::Gate(fitting(self.random, lines, kept, k, lean, signs))
            }
        }
    }
}

/// Numbers of a keep line on so many lines, and the rule that is against them.
fn heads_of(lines: u8) -> Vec<(Vec<u8>, Option<u64>)> {
    let all: Vec<u8> = (0..lines).collect();
    let last = lines - 1;
    let odd: Vec<u8> = all.iter().copied().filter(|line| line % 2 == 1).collect();
    let mut heads = vec![
        (vec![0], None),
        (vec![last], None),
        (all.clone(), None),
        (vec![lines], Some(4)),
        (vec![99], Some(4)),
        (vec![0, lines], Some(4)),
        // Unsorted as well.
        (vec![lines, 0], Some(4)),
        (vec![0, 0, 99], Some(4)),
        (vec![lines, lines], Some(4)),
        ([&all[..], &all, &[lines]].concat(), Some(4)),
        (vec![0, 0], Some(6)),
        (vec![last, last], Some(6)),
        ([&all[..], &[last]].concat(), Some(6)),
        ([&all[..], &all].concat(), Some(6)),
        (vec![last; 300], Some(6)),
    ];
    if lines > 1 {
        let mut swapped = all.clone();
        swapped.swap(usize::from(last) / 2, usize::from(last) / 2 + 1);
        heads.push((odd, None));
        heads.push((vec![0, last], None));
        heads.push((vec![last, 0], Some(6)));
        heads.push((swapped, Some(6)));
        heads.push((all.into_iter().rev().collect(), Some(6)));
    }
    heads
}

/// Lines of a cascade against a rule, and the number of each. Gates of three controls have
/// no spare where all lines are kept.
fn against(lines: u8, kept: &[u8]) -> Vec<(Row, u64)> {
    let gate = |controls: &[u8], target: u8| Row::Gate(spares::plain(controls, target));
    let mut all = vec![
        (Row::Keep(vec![0]), 3),
        (Row::Malformed("(mct ()  0)\n".to_string()), 3),
        (gate(&[0], lines), 4),
        (gate(&[0], 0), 5),
        (gate(&[1, 0], 2), 6),
        (Row::Gate(spares::first_lines(usize::from(lines) - 1)), 8),
    ];
    if kept.len() == usize::from(lines) {
        all.push((gate(&[0, 1, 2], 3), 8));
    }
    all
}

/// How many cases of each kind had each number due; and of the accepted ones, in how many
/// the keep line changes the expansion, and in how many a smaller gate borrows a kept line.
#[derive(Default)]
pub struct Tally {
    numbers: [[usize; 10]; KINDS.len()],
    changed: usize,
    borrowed: usize,
}

impl Tally {
    /// A case that was run.
    pub fn add(&mut self, case: &Case) {
        let number = case.due.map_or(0, |(number, _)| number as usize);
        self.numbers[case.kind as usize][number] += 1;
        if number == 0 {
            let (lines, kept, mcts) = (case.lines, kept(&case.rows), mcts(&case.rows));
            self.changed += usize::from(changes(lines, kept, &mcts));
            self.borrowed += usize::from(borrows(lines, kept, &mcts));
        }
    }

    /// Tells them, and holds them to how many there have to be at least.
    pub fn tell(&self, report: &mut Report, size: Size) {
        let (fewest, [changed, borrowed]) = if size.whole { WHOLE } else { SOME };
        for (kind, fewest) in KINDS.into_iter().zip(fewest) {
            let numbers = self.numbers[kind as usize];
            println!("kept: {kind:?}: numbers 0 to 9 {numbers:?}");
            let enough = numbers.iter().zip(fewest).all(|(times, due)| *times >= due);
            report.case(enough, || {
                format!("kept lines, {kind:?}: {numbers:?} cases, and not {fewest:?}")
            });
        }
        println!(
            "kept: {} accepted ones that the keep line changes, {} that borrow a kept line",
            self.changed, self.borrowed
        );
        report.case(self.changed >= changed && self.borrowed >= borrowed, || {
            "too few cascades that a keep line changes".to_string()
        });
    }
}

/// For each kind how many cases there are at least with each of the numbers 0 to 9; and how
/// many that the keep line changes, and that borrow a kept line.
type Counts = ([[usize; 10]; KINDS.len()], [usize; 2]);

/// - Sets: six for each of the 560 sizes.
/// - Spares: for each of 528 shapes none to three spares, and all. 8 without a spare, from
///   three controls on: 435. 7 from 16 on, with one spare 120, with two 105, with three 91,
///   and with more 78.
/// - Heads: on one line 3 that are good, 7 against rule 4 and 5 against rule 6, on more
///   lines 5, 7 and 8; each with five endings. Of a good one two are accepted, one is 4 and
///   two are 3.
/// - Forms: on three numbers of lines 32 lines, all but one with another after it, and 40
///   keep lines elsewhere.
/// - Limits: in each of six rounds 8 and 10 of known texts are accepted and refused by 9, 15
///   by an earlier rule.
const WHOLE: Counts = (
    [
        [3_360, 0, 0, 0, 0, 0, 0, 0, 0, 0],
        [1_501, 0, 0, 0, 0, 0, 0, 394, 435, 0],
        [316, 0, 0, 316, 1_278, 0, 1_265, 0, 0, 0],
        [0, 0, 0, 309, 0, 0, 0, 0, 0, 0],
        [48, 0, 0, 36, 18, 18, 18, 0, 18, 60],
        [1_500, 0, 0, 1_100, 350, 50, 550, 90, 1_200, 20],
    ],
    [2_700, 700],
);

/// The same with fewer shapes and lines, one round and one of the six sets.
const SOME: Counts = (
    [
        [123, 0, 0, 0, 0, 0, 0, 0, 0, 0],
        [124, 0, 0, 0, 0, 0, 0, 94, 110, 0],
        [36, 0, 0, 36, 158, 0, 145, 0, 0, 0],
        [0, 0, 0, 103, 0, 0, 0, 0, 0, 0],
        [8, 0, 0, 6, 3, 3, 3, 0, 3, 10],
        [20, 0, 0, 12, 2, 0, 4, 1, 20, 0],
    ],
    [80, 40],
);

/// Whether the expansion is another without the keep line.
fn changes(lines: u8, kept: &[u8], mcts: &[Mct]) -> bool {
    mcts.iter().any(|mct| {
        let one = std::slice::from_ref(mct);
        expansion::keeping(lines, kept, one) != expansion::of_all(lines, one)
    })
}

/// Whether a smaller gate borrows a kept line for certain: with five or more controls and
/// one spare, M1 takes the first of C0.
fn borrows(lines: u8, kept: &[u8], mcts: &[Mct]) -> bool {
    mcts.iter().any(|mct| {
        mct.controls.len() >= 5
            && mct.spares(lines, kept).len() == 1
            && kept.contains(&mct.controls[0].line)
    })
}

struct Laws<'a> {
    report: &'a mut Report,
    random: &'a mut Random,
    ask: &'a mut Ask<'a>,
    /// Cascades put together from their gates, those of them that the keep line changes,
    /// and those that were run on all patterns.
    pieces: usize,
    changed: usize,
    patterns: usize,
    /// Accepted and refused cascades whose kept lines no gate names, and every gate.
    unnamed: [usize; 2],
    named: [usize; 2],
}

/// So many cascades for each law.
pub fn laws<'a>(
    report: &'a mut Report,
    random: &'a mut Random,
    count: usize,
    ask: &'a mut Ask<'a>,
) {
    let mut laws = Laws {
        report,
        random,
        ask,
        pieces: 0,
        changed: 0,
        patterns: 0,
        unnamed: [0; 2],
        named: [0; 2],
    };
    for turn in 0..count {
        laws.any(turn);
        laws.named_by_none();
        laws.named_by_all();
    }
    let Laws {
        pieces,
        changed,
        patterns,
        unnamed,
        named,
        ..
    } = laws;
    println!(
        "kept: {pieces} cascades put together from their gates, {changed} of them changed by the \
         keep line, {patterns} run on all patterns; accepted and refused ones with kept lines \
         that no gate names {unnamed:?}, that every gate names {named:?}"
    );
    let enough = pieces == count
        && changed >= count / 8
        && patterns >= count / 3
        && [unnamed, named].iter().all(|[accepted, refused]| {
            *accepted >= count / 2 && *refused >= count / 20 && accepted + refused == count
        });
    report.case(enough, || {
        "too few cases for the laws of kept lines".to_string()
    });
}

impl Laws<'_> {
    /// Any accepted cascade, every third one on few lines.
    fn any(&mut self, turn: usize) {
        let (fewest, most) = [(5, MOST_LINES), (1, 32), (5, 12)][turn % 3];
        let lines = self.random.between(fewest, usize::from(most)) as u8;
        let size = self.random.between(1, usize::from(lines));
        let kept = kept_set(self.random, lines, size);
        let lean = self.random.pick(&LEANS);
        let mcts = fitting_gates(self.random, lines, &kept, lean);
        let text = rules::text(lines, &with_keep(&kept, &mcts));
        let got = (self.ask)(Program::Map, &text);
        let read = got.as_ref().ok().and_then(|answer| circuit::read(answer));
        let gates = read
            .filter(|(read, _)| *read == lines)
            .map(|(_, gates)| gates);
        let touched = |gates: &[Gate]| {
            let alone = |line: &&u8| !mcts.iter().any(|mct| mct.names(**line));
            let mut alone = kept.iter().filter(alone);
            alone.any(|&line| gates.iter().any(|gate| gate.touches(line)))
        };
        self.right(
            "a kept line that no gate names is touched",
            &text,
            &got,
            || gates.as_deref().is_some_and(|gates| !touched(gates)),
        );
        let whole = self.put_together(lines, &kept, &mcts);
        self.right(
            "another circuit than that of its gates",
            &text,
            &got,
            || whole.is_some() && got.as_ref().ok() == whole.as_ref(),
        );
        self.pieces += 1;
        self.changed += usize::from(changes(lines, &kept, &mcts));
        if lines <= MOST_LINES {
            self.patterns += 1;
            self.right("another pattern", &text, &got, || {
                gates.is_some_and(|gates| {
                    (0..1 << lines).all(|start| {
                        let end = meaning::cascade(&mcts, start);
                        meaning::circuit(lines, &gates, start) == Some(end)
                    })
                })
            });
        }
    }

    /// What reduce makes of the circuits that map gives to each gate on the lines that it
    /// names and those that are not kept, without a keep line.
    fn put_together(&mut self, lines: u8, kept: &[u8], mcts: &[Mct]) -> Option<Vec<u8>> {
        let mut all = Vec::new();
        for mct in mcts {
            let left = |line: &u8| mct.names(*line) || !kept.contains(line);
            let onto: Vec<u8> = (0..lines).filter(left).collect();
            let text = texts::cascade_text(onto.len() as u8, &[on_places(mct, &onto)]);
            let (_, gates) = circuit::read(&(self.ask)(Program::Map, &text).ok()?)?;
            all.extend(gates.iter().map(|gate| gate.moved(&onto)));
        }
        (self.ask)(Program::Reduce, &circuit::text(lines, &all)).ok()
    }

    /// A cascade on some of the lines, all others kept.
    fn named_by_none(&mut self) {
        let own = self.random.between(1, 31) as u8;
        let lines = self.random.between(usize::from(own) + 1, 32) as u8;
        let kept = kept_set(self.random, lines, usize::from(lines - own));
        let onto: Vec<u8> = (0..lines).filter(|line| !kept.contains(line)).collect();
        let mcts = self.perhaps_refused(own);
        let moved: Vec<Mct> = mcts.iter().map(|mct| on_lines(mct, &onto)).collect();
        let refused = self.as_without(lines, &kept, &moved, (own, &mcts), &onto);
        self.unnamed[usize::from(refused)] += 1;
    }

    /// Gates on so many lines; in one of four cases the last has no spare or is too wide, or
    /// they are around 4,096 gates.
    fn perhaps_refused(&mut self, lines: u8) -> Vec<Mct> {
        let width = usize::from(lines);
        let signs = Signs::any(self.random);
        let mut mcts = texts::mcts(self.random, lines, 4, 300, signs);
        match self.random.below(16) {
            0 if width >= 5 => mcts = spares::near_the_limit(self.random, lines),
            1 | 2 if width >= 4 => mcts.push(texts::mct(self.random, lines, width - 1, signs)),
            3 if width >= 18 => {
                let k = self.random.between(16, width - 2);
                mcts.push(texts::mct(self.random, lines, k, signs));
            }
            _ => {}
        }
        mcts
    }

    /// Gates that all name some lines, of which some are kept.
    fn named_by_all(&mut self) {
        let lines = self.random.between(2, 32) as u8;
        let width = usize::from(lines);
        let mut all: Vec<u8> = (0..lines).collect();
        self.random.shuffle(&mut all);
        let common = self.random.between(1, width.min(16));
        let size = self.random.between(1, common);
        let mut kept = all[..size].to_vec();
        kept.sort();
        let mcts: Vec<Mct> = (0..self.random.between(1, 3))
            .map(|turn| {
                let most = (width.min(16) - usize::from(turn > 0)).max(common);
                let named = match self.random.below(6) {
                    0 => most,
                    _ => self.random.between(common, most),
                };
                self.random.shuffle(&mut all[common..]);
                naming(self.random, all[..named].to_vec(), SIGNS[turn])
            })
            .collect();
        let onto: Vec<u8> = (0..lines).collect();
        let refused = self.as_without(lines, &kept, &mcts, (lines, &mcts), &onto);
        self.named[usize::from(refused)] += 1;
    }

    /// Whether map answers the cascade with the keep line as it answers the other without
    /// one, moved onto these lines. Gives whether the rules refuse it.
    fn as_without(
        &mut self,
        lines: u8,
        kept: &[u8],
        mcts: &[Mct],
        (other_lines, others): (u8, &[Mct]),
        onto: &[u8],
    ) -> bool {
        let rows = with_keep(kept, mcts);
        let refusal = rules::refusal(rules::NOW, lines, &rows);
        let text = rules::text(lines, &rows);
        let other = (self.ask)(Program::Map, &texts::cascade_text(other_lines, others));
        let due = other.ok().and_then(|other| moved(&other, lines, onto));
        let got = (self.ask)(Program::Map, &text);
        self.right(
            "another answer than without the keep line",
            &text,
            &got,
            || {
                let read = got.as_ref().ok().and_then(|answer| circuit::read(answer));
                let by_the_rules = match refusal {
                    Some((number, line)) => {
                        due == Some(format!("(turned-away {number} {line})\n").into_bytes())
                    }
                    None => read.is_some(),
                };
                by_the_rules && got.as_ref().ok() == due.as_ref()
            },
        );
        refusal.is_some()
    }

    fn right(
        &mut self,
        wrong: &str,
        text: &[u8],
        got: &Result<Vec<u8>, String>,
        holds: impl FnOnce() -> bool,
    ) {
        self.report.case(holds(), || {
            let got = got.as_ref().map(|answer| shown(answer));
            format!("map: {wrong}; got {got:?}; text {}", shown(text))
        });
    }
}

/// A gate with each line changed.
fn with_lines(mct: &Mct, changed: impl Fn(u8) -> u8) -> Mct {
    let mut other = mct.clone();
    other.target = changed(mct.target);
    for control in &mut other.controls {
        control.line = changed(control.line);
    }
    other
}

/// The gate on the lines at the places that its own lines name.
fn on_lines(mct: &Mct, lines: &[u8]) -> Mct {
    with_lines(mct, |line| lines[usize::from(line)])
}

/// The gate whose lines are the places of its own among these.
fn on_places(mct: &Mct, lines: &[u8]) -> Mct {
    with_lines(mct, |line| {
        let place = lines.iter().position(|&other| other == line);
        place.expect("a line of the gate") as u8
    })
}

/// An answer of map on other lines, or a refusal with its line one later.
fn moved(answer: &[u8], lines: u8, onto: &[u8]) -> Option<Vec<u8>> {
    if let Some((_, gates)) = circuit::read(answer) {
        let gates: Vec<Gate> = gates.iter().map(|gate| gate.moved(onto)).collect();
        return Some(circuit::text(lines, &gates));
    }
    let answer = std::str::from_utf8(answer).ok()?;
    let form = answer.strip_prefix("(turned-away ")?.strip_suffix(")\n")?;
    let (number, line) = form.split_once(' ')?;
    let line: u64 = line.parse().ok()?;
    Some(format!("(turned-away {number} {})\n", line + 1).into_bytes())
}
