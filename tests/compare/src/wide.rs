//! Too wide against no spare (order 6): of a line that passes rules 3 to 6, rule 8 is
//! tried before rule 7. Cascades around 16 controls and around all lines named, each
//! with its refusal, which the number of controls k and that of lines n give by
//! themselves; and random ones, whose refusal is the one of before but where the order
//! changes it. None of it comes from the peer.

use crate::cases::Cases;
use crate::random::Random;
use crate::report::Report;
use crate::rules::{self, Refusal, Row};
use crate::spares;
use crate::texts::{self, Mct, Signs};

/// What a cascade is made for.
#[derive(Clone, Copy, Debug, PartialEq)]
pub enum Kind {
    /// 14 to 18 controls that name every line, or all but one.
    Few,
    /// 14 to 18 controls that name all lines but two.
    Pairs,
    /// Any number of controls and of lines.
    Shapes,
    /// Also against one of the rules 3 to 6.
    Within,
    /// Other lines before and after.
    Places,
    /// The 257th gate, and past 4,096 gates.
    Limits,
    /// Any lines around the limits.
    Random,
}

const KINDS: [Kind; 7] = [
    Kind::Few,
    Kind::Pairs,
    Kind::Shapes,
    Kind::Within,
    Kind::Places,
    Kind::Limits,
    Kind::Random,
];
const SIGNS: [Signs; 3] = [Signs::None, Signs::Some, Signs::All];

/// How much is run.
#[derive(Clone, Copy)]
pub struct Size {
    /// Every gate with every target and each kind of signs, or with one of them.
    pub whole: bool,
    /// Random cascades.
    pub random: usize,
}

/// A cascade, and what is due to it.
pub struct Case {
    pub kind: Kind,
    pub lines: u8,
    pub rows: Vec<Row>,
    /// The refusal, and the one before order 6.
    pub due: Option<Refusal>,
    pub before: Option<Refusal>,
}

impl Case {
    pub fn text(&self) -> Vec<u8> {
        rules::text(self.lines, &self.rows)
    }

    /// The line that is refused, or else the last.
    fn answering(&self) -> Option<&Row> {
        match self.due {
            Some((_, line)) => self.rows.get(line as usize - 2),
            None => self.rows.last(),
        }
    }

    /// The gates of the list, where there is one gate and it is accepted.
    pub fn quote(&self) -> Option<usize> {
        match (&self.rows[..], self.due) {
            ([Row::Gate(mct)], None) => Some(spares::quote_of(self.lines, mct)),
            _ => None,
        }
    }
}

/// The number that k controls on n lines get, none of them kept, where rules 3 to 6 pass.
fn number(k: usize, n: u8) -> Option<u64> {
    rules::by_8_then_7(k, usize::from(n) - k - 1)
}

/// All cases of this size.
pub fn cases(random: &mut Random, size: Size) -> Vec<Case> {
    let mut cases = Cases::new(random, size.whole);
    cases.around();
    cases.shapes();
    cases.within();
    cases.places();
    cases.limits();
    for _ in 0..size.random {
        cases.random();
    }
    cases.all
}

impl Cases<'_, Case> {
    fn add(&mut self, kind: Kind, lines: u8, rows: Vec<Row>, due: Option<Refusal>) {
        let before = rules::refusal(rules::BEFORE, lines, &rows);
        // The rules, one by one, say the same; and only the order of the two changes.
        assert_eq!(rules::refusal(rules::NOW, lines, &rows), due);
        assert!(due == before || due.zip(before).is_some_and(from_7_to_8));
        self.all.push(Case {
            kind,
            lines,
            rows,
            due,
            before,
        });
    }

    /// One gate, at line 2.
    fn gate(&mut self, kind: Kind, lines: u8, mct: &Mct) {
        let due = number(mct.controls.len(), lines).map(|number| (number, 2));
        for mct in self.signed(mct) {
            self.add(kind, lines, vec![Row::Gate(mct)], due);
        }
    }

    /// A gate with each kind of signs, or with one in turn.
    fn signed(&mut self, mct: &Mct) -> Vec<Mct> {
        let signs = if self.whole {
            SIGNS.to_vec()
        } else {
            self.turn += 1;
            vec![SIGNS[self.turn % SIGNS.len()]]
        };
        let with = |signs| {
            let mut mct = mct.clone();
            mct.set_signs(self.random, signs);
            mct
        };
        signs.into_iter().map(with).collect()
    }

    /// 14 to 18 controls with none, one and two lines unnamed, whichever these are,
    /// and every target or one.
    fn around(&mut self) {
        for k in 14..=18 {
            for unnamed in 0..=2 {
                let lines = (k + 1 + unnamed) as u8;
                for (turn, without) in choices(lines, unnamed).iter().enumerate() {
                    let named: Vec<u8> =
                        (0..lines).filter(|line| !without.contains(line)).collect();
                    for place in 0..=k {
                        if !self.whole && unnamed > 0 && place != turn % (k + 1) {
                            continue;
                        }
                        let kind = if unnamed < 2 { Kind::Few } else { Kind::Pairs };
                        let mut controls = named.clone();
                        let target = controls.remove(place);
                        self.gate(kind, lines, &spares::plain(&controls, target));
                    }
                }
            }
        }
    }

    /// 0 to 31 controls on one line more to 32, or on one more, two more and 32.
    fn shapes(&mut self) {
        for lines in 1..=32u8 {
            for k in 0..usize::from(lines) {
                let few = usize::from(lines) <= k + 2 || lines == 32;
                let placements = match number(k, lines) {
                    Some(_) if self.whole => 4,
                    _ if self.whole || few => 1,
                    _ => 0,
                };
                for which in 0..placements {
                    // Each layout, and the target first, last and between.
                    let which = which + 4 * (k % 3);
                    let mct = spares::placed(self.random, k, lines, which);
                    self.gate(Kind::Shapes, lines, &mct);
                }
            }
        }
    }

    /// Gates that name every line, or all but one, but for what one of the rules 3 to 6
    /// is against: these come before 8 and 7.
    fn within(&mut self) {
        let shapes: &[(u8, usize)] = if self.whole {
            &[
                (4, 3),
                (16, 15),
                (17, 16),
                (18, 16),
                (18, 17),
                (19, 17),
                (32, 31),
                (32, 30),
            ]
        } else {
            &[(17, 16), (18, 16), (32, 31)]
        };
        for &(lines, k) in shapes {
            for right in self.signed(&spares::first_lines(k)) {
                for wrong in malformed(&texts::mct_line(&right)) {
                    let rows = vec![Row::Malformed(wrong)];
                    self.add(Kind::Within, lines, rows, Some((3, 2)));
                }
                for (number, mct) in against_4_to_6(&right, lines, self.whole) {
                    let rows = vec![Row::Gate(mct)];
                    self.add(Kind::Within, lines, rows, Some((number, 2)));
                }
            }
        }
    }

    /// The gate at a later line, and before or after another line that is refused: the
    /// first such line answers, whatever its number.
    fn places(&mut self) {
        let (shapes, counts): (&[(u8, usize)], &[usize]) = if self.whole {
            (
                &[
                    (16, 15),
                    (17, 16),
                    (18, 16),
                    (18, 17),
                    (19, 17),
                    (32, 31),
                    (32, 30),
                    (32, 16),
                ],
                &[0, 1, 2, 7, 100, 255],
            )
        } else {
            (&[(17, 16), (18, 16), (32, 31)], &[0, 3])
        };
        for &(lines, k) in shapes {
            for &count in counts {
                let line = count as u64 + 2;
                let due = number(k, lines).map(|number| (number, line));
                for wide in self.signed(&spares::first_lines(k)) {
                    let front = self.narrow(lines, count);
                    let wide = [Row::Gate(wide)];
                    let rows = [&front[..], &wide].concat();
                    self.add(Kind::Places, lines, rows, due);
                    for (other, number) in others(lines) {
                        let ends = !matches!(&other, Row::Malformed(row) if !row.ends_with('\n'));
                        let other = [other];
                        let rows = [&front[..], &wide, &other].concat();
                        self.add(Kind::Places, lines, rows, due);
                        // A line without its end has none after it.
                        if ends {
                            let rows = [&front[..], &other, &wide].concat();
                            self.add(Kind::Places, lines, rows, Some((number, line)));
                        }
                    }
                }
            }
        }
    }

    /// Rule 9 comes after both.
    fn limits(&mut self) {
        for (lines, k) in [
            (16, 15),
            (17, 15),
            (17, 16),
            (18, 16),
            (18, 17),
            (19, 17),
            (32, 31),
            (32, 30),
            (32, 16),
        ] {
            for wide in self.signed(&spares::first_lines(k)) {
                let wide = Row::Gate(wide);
                let number = number(k, lines).unwrap_or(9);
                // The 257th gate, and the one after it.
                let mut rows = self.narrow(lines, 256);
                let later = [&rows[..], &self.narrow(lines, 1), &[wide.clone()]].concat();
                rows.push(wide.clone());
                self.add(Kind::Limits, lines, rows, Some((number, 258)));
                self.add(Kind::Limits, lines, later, Some((9, 258)));
                // Eleven gates of 15 controls, or twelve of 14 where no more can be, are
                // 4,092 and 4,080 gates: the next goes past.
                let (count, width) = if lines > 16 { (11, 15) } else { (12, 14) };
                let mut rows = vec![Row::Gate(spares::first_lines(width)); count];
                let line = count as u64 + 2;
                let later = [&rows[..], &rows[..1], &[wide.clone()]].concat();
                rows.push(wide);
                self.add(Kind::Limits, lines, rows, Some((number, line)));
                self.add(Kind::Limits, lines, later, Some((9, line)));
            }
        }
    }

    /// A cascade of any lines around the limits. What was due before is what is due, but
    /// for 7 at a gate that names every line.
    fn random(&mut self) {
        let lines = match self.random.below(8) {
            0 => 32,
            1 => self.random.between(22, 31) as u8,
            2 => self.random.between(4, 14) as u8,
            _ => self.random.between(15, 21) as u8,
        };
        let mut rows = match self.random.below(24) {
            0 => {
                let mcts = spares::near_the_limit(self.random, lines);
                mcts.into_iter().map(Row::Gate).collect()
            }
            1 | 2 => {
                let count = self.random.between(252, 257);
                self.narrow(lines, count)
            }
            _ => {
                let count = self.random.below(5);
                self.narrow(lines, count)
            }
        };
        for _ in 0..self.random.between(1, 4) {
            let row = self.random_row(lines);
            rows.push(row);
        }
        let before = rules::refusal(rules::BEFORE, lines, &rows);
        let due = match before {
            Some((7, line)) if rows[line as usize - 2].names_every_line(lines) => Some((8, line)),
            _ => before,
        };
        self.add(Kind::Random, lines, rows, due);
    }

    fn random_row(&mut self, lines: u8) -> Row {
        let width = usize::from(lines);
        let signs = Signs::any(self.random);
        let k = match self.random.below(8) {
            0 => self.random.below(width),
            1 | 2 => self.random.below(texts::most_controls(lines) + 1),
            _ => width - 1 - self.random.below(3),
        };
        let mct = texts::mct(self.random, lines, k, signs);
        if !self.random.one_in(3) {
            return Row::Gate(mct);
        }
        if self.random.one_in(4) {
            let wrong = malformed(&texts::mct_line(&mct));
            // Not the one without its end, since more may follow.
            return Row::Malformed(wrong[self.random.below(wrong.len() - 1)].clone());
        }
        let wrong = against_4_to_6(&mct, lines, true);
        Row::Gate(wrong[self.random.below(wrong.len())].1.clone())
    }
}

impl Row {
    /// Whether it is a gate of so many controls that n = k + 1.
    fn names_every_line(&self, lines: u8) -> bool {
        matches!(self, Row::Gate(mct) if usize::from(lines) == mct.controls.len() + 1)
    }
}

fn from_7_to_8((due, before): (Refusal, Refusal)) -> bool {
    due.0 == 8 && before == (7, due.1)
}

/// All choices of so many of the lines below n, at most two.
fn choices(n: u8, count: usize) -> Vec<Vec<u8>> {
    match count {
        0 => vec![vec![]],
        1 => (0..n).map(|line| vec![line]).collect(),
        _ => (0..n)
            .flat_map(|low| (low + 1..n).map(move |high| vec![low, high]))
            .collect(),
    }
}

/// An mct line with something in it that no form has; in the last one its end is missing.
fn malformed(line: &str) -> [String; 9] {
    [
        line.replace(") ", ")  "),
        line.replace(") ", ") -"),
        line.replace(") ", ") 00"),
        line.replace("mct", "Mct"),
        line.replace("(mct (", "(mct ( "),
        line.replace(") ", " ) "),
        line.replace(")\n", "))\n"),
        line.replace(")\n", ")\r\n"),
        line.replace(")\n", ")"),
    ]
}

/// A gate with a number changed, or two exchanged, so that one of the rules 4 to 6 is
/// against it: at every control, or at the first, a middle and the last.
fn against_4_to_6(right: &Mct, lines: u8, every: bool) -> Vec<(u64, Mct)> {
    let k = right.controls.len();
    let mut all = Vec::new();
    let mut add = |number, change: &dyn Fn(&mut Mct)| {
        let mut mct = right.clone();
        change(&mut mct);
        all.push((number, mct));
    };
    for foreign in [lines, 99] {
        add(4, &|mct| mct.target = foreign);
    }
    for place in 0..k {
        if !every && ![0, k / 2, k - 1].contains(&place) {
            continue;
        }
        let line = right.controls[place].line;
        add(4, &|mct| mct.controls[place].line = lines);
        // Crossed as well.
        add(4, &|mct| {
            mct.controls[place].line = 99;
            mct.target = 99;
        });
        add(5, &|mct| mct.target = line);
        if place > 0 {
            add(6, &|mct| mct.controls.swap(place - 1, place));
            add(6, &|mct| mct.controls[place - 1].line = line);
            // Unsorted as well.
            add(5, &|mct| {
                mct.controls.swap(place - 1, place);
                mct.target = line;
            });
        }
    }
    all
}

/// Other lines against a rule, and the number of each; the last without its end.
fn others(lines: u8) -> Vec<(Row, u64)> {
    let gate = |controls: &[u8], target: u8| Row::Gate(spares::plain(controls, target));
    let bytes = |bytes: &str| Row::Malformed(bytes.to_string());
    let mut all = vec![
        (bytes("(mct (0 1) -2)\n"), 3),
        (bytes("\n"), 3),
        (gate(&[0, 1], lines), 4),
        (gate(&[0, lines], 1), 4),
        (gate(&[0, 1], 1), 5),
        (gate(&[1, 0], 2), 6),
        (gate(&[1, 1], 2), 6),
        (Row::Gate(spares::first_lines(usize::from(lines) - 1)), 8),
    ];
    if lines > 17 {
        all.push((Row::Gate(spares::first_lines(16)), 7));
    }
    all.push((bytes("(mct () 0)"), 3));
    all
}

/// How many cases of each kind had each number due, and how many of them another one
/// before.
#[derive(Default)]
pub struct Tally {
    numbers: [[usize; 10]; KINDS.len()],
    changed: [usize; KINDS.len()],
    /// Gates that answer without a negated control, with some, and with all negated.
    signs: [[usize; 3]; KINDS.len()],
}

impl Tally {
    /// A case that was run.
    pub fn add(&mut self, case: &Case) {
        let kind = case.kind as usize;
        let number = case.due.map_or(0, |(number, _)| number as usize);
        self.numbers[kind][number] += 1;
        self.changed[kind] += usize::from(case.due != case.before);
        if let Some(Row::Gate(mct)) = case.answering() {
            let signs = match mct.negated().count() {
                0 => 0,
                negated if negated < mct.controls.len() => 1,
                _ => 2,
            };
            self.signs[kind][signs] += 1;
        }
    }

    /// Tells them, and holds them to how many there have to be.
    pub fn tell(&self, report: &mut Report, size: Size) {
        let due = if size.whole { &WHOLE } else { &SOME };
        for kind in KINDS {
            let [numbers, signs] = [&self.numbers[kind as usize][..], &self.signs[kind as usize]];
            let changed = self.changed[kind as usize];
            let all: usize = numbers.iter().sum();
            println!(
                "wide: {kind:?}: numbers 0 to 9 {numbers:?}, {changed} of them 7 before; with no \
                 signs, some and all {signs:?}"
            );
            let enough = match due.get(kind as usize) {
                Some((due, due_changed)) => numbers == due && changed == *due_changed,
                None => {
                    let fewest = size.random / 100;
                    let often = |number: usize| numbers[number] > fewest;
                    all == size.random
                        && [0, 3, 4, 5, 6, 7, 8, 9].into_iter().all(often)
                        && changed > fewest
                        && numbers[8] > changed + fewest
                }
            };
            let signed = signs.iter().all(|times| 12 * times > all);
            report.case(enough && signed, || {
                format!("{kind:?}: not as many cases as there have to be")
            });
        }
    }
}

/// For each kind but the random one how many cases have each of the numbers 0 to 9, and
/// how many of them had 7 before.
type Counts = [([usize; 10], usize); KINDS.len() - 1];

/// Every case with three kinds of signs.
/// - Few: on k + 1 lines each as target, so 85; on one line more, for each unnamed line
///   each other as target, so 512 up to 15 controls and 1,028 above. Pairs: the same for
///   each pair of lines, so 4,488 and 10,317.
/// - Shapes: 29 from 3 controls on 4 lines to 31 on 32, and 120 from 16 on 18 to 30 on 32,
///   in four places each; 379 others.
/// - Within: 145 controls of 8 gates, and nine lines for each gate that are not in form.
///   Each target is out of range twice, and each control; each is the target; and each
///   but the first of a gate is unsorted twice, and once crossed as well.
/// - Places: 8 gates after 6 numbers of lines, alone and before 9 other lines, or 10 from
///   18 lines on; and after all of these but one.
/// - Limits: four texts for each of nine gates, two of them 9. One gate has a spare and is
///   not too wide.
const WHOLE: Counts = [
    ([1_536, 0, 0, 0, 0, 0, 0, 3_084, 255, 0], 162),
    ([13_464, 0, 0, 0, 0, 0, 0, 30_951, 0, 0], 0),
    ([1_137, 0, 0, 0, 0, 0, 0, 1_440, 348, 0], 192),
    ([0, 0, 0, 216, 918, 846, 822, 0, 0, 0], 0),
    ([0, 0, 0, 288, 288, 144, 288, 900, 900, 0], 702),
    ([0, 0, 0, 0, 0, 0, 0, 24, 24, 60], 18),
];

/// Every case with one kind of signs; one target for each choice of the unnamed lines, and
/// fewer shapes and places.
const SOME: Counts = [
    ([33, 0, 0, 0, 0, 0, 0, 57, 85, 0], 54),
    ([289, 0, 0, 0, 0, 0, 0, 571, 0, 0], 0),
    ([35, 0, 0, 0, 0, 0, 0, 29, 29, 0], 16),
    ([0, 0, 0, 27, 24, 15, 12, 0, 0, 0], 0),
    ([0, 0, 0, 12, 12, 6, 12, 26, 48, 0], 48),
    ([0, 0, 0, 0, 0, 0, 0, 8, 8, 20], 6),
];
