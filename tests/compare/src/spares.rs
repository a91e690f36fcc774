//! The order of the spares (order 5): gates of every number of controls on every
//! number of lines, held to the peer and to the expansion and the plain reduction
//! here, which share nothing with it; what stays as it was before; refusals by the
//! rules alone; and the quotes beside document 001's Table I.

use crate::circuit::{self, Gate};
use crate::expansion;
use crate::meaning;
use crate::negated::Ask;
use crate::random::Random;
use crate::report::{shown, Report};
use crate::rules::{self, Row};
use crate::texts::{self, Control, Mct, Signs, EXPANSION};
use peer::Program;

const MOST_LINES: u8 = 32;
const MOST_CONTROLS: usize = 15;
/// Numbers of controls and lines that go together: 0 to 15 controls, from one line
/// more than these (two more from three controls on) to 32.
const SHAPES: usize = 379;
/// Gates of five to nine controls with one to three unnamed lines, on up to twelve.
const PATTERNS: usize = 14;
/// From so many controls on the list can differ from the one of before.
const FEWEST_DIFFERING: usize = 5;

/// Where the lines that a gate does not name lie.
const LAYOUTS: [Layout; 4] = [Layout::Low, Layout::High, Layout::Around, Layout::Scattered];

#[derive(Clone, Copy)]
enum Layout {
    Low,
    High,
    /// Half of them low, half of them high.
    Around,
    Scattered,
}

/// How much is run.
pub struct Size {
    /// Gates of each shape.
    pub placements: usize,
    /// Every gate of at most four controls, on so many lines and fewer.
    pub narrow_lines: u8,
    /// Random cascades that are judged by the rules alone.
    pub judged: usize,
}

struct Spares<'a> {
    report: &'a mut Report,
    random: &'a mut Random,
    ask: &'a mut Ask<'a>,
    /// How many lists of gates with five or more controls differ from the one of
    /// before, and how many do not.
    differing: usize,
    equal: usize,
}

pub fn run<'a>(report: &'a mut Report, random: &'a mut Random, size: Size, ask: &'a mut Ask<'a>) {
    let mut spares = Spares {
        report,
        random,
        ask,
        differing: 0,
        equal: 0,
    };
    let wide = spares.every_shape(size.placements);
    let narrow = spares.every_narrow_gate(size.narrow_lines);
    spares.named();
    let patterns = spares.patterns();
    let numbers = spares.judged(size.judged);
    let cells = spares.table();
    let Spares {
        differing, equal, ..
    } = spares;
    println!(
        "spares: {wide} gates of every shape, {differing} of those with five or more controls \
         with another list than before, {equal} with the same; {narrow} gates of at most four \
         controls, all with the same; {patterns} gates run on patterns; {cells} quotes of the table"
    );
    println!("spares: numbers 0 to 9 by the rules alone: {numbers:?}");
    let rules = [0, 4, 5, 6, 7, 8, 9].map(|number| numbers[number]);
    let fewest = size.judged as u64 / 60;
    let enough = wide == SHAPES * size.placements
        && narrow == narrow_gates(size.narrow_lines)
        && differing > 2 * equal
        && equal > 0
        && patterns == PATTERNS
        && cells == QUOTES.len() * QUOTES[0].len() + ELEVEN.len()
        && rules.iter().all(|&times| times > fewest);
    report.case(enough, || {
        "too few cases of one kind for the spares".to_string()
    });
}

/// The shapes: controls and lines.
pub fn shapes() -> impl Iterator<Item = (usize, u8)> {
    (0..=MOST_CONTROLS).flat_map(|k| {
        let fewest = if k < 3 { k + 1 } else { k + 2 };
        (fewest as u8..=MOST_LINES).map(move |lines| (k, lines))
    })
}

/// A gate of a shape. The first twelve have each layout with the target the first,
/// the last and the middle one of the named lines; of three gates one has no signs,
/// one some and one all. Later ones are placed at random.
pub fn placed(random: &mut Random, k: usize, lines: u8, which: usize) -> Mct {
    let signs = [Signs::None, Signs::Some, Signs::All][which / 2 % 3];
    let unnamed = usize::from(lines) - k - 1;
    let mut all: Vec<u8> = (0..lines).collect();
    match LAYOUTS[which % LAYOUTS.len()] {
        Layout::Low => all.rotate_left(unnamed),
        Layout::High => {}
        Layout::Around => all.rotate_left(unnamed / 2),
        Layout::Scattered => random.shuffle(&mut all),
    }
    let mut named = all[..k + 1].to_vec();
    named.sort();
    let place = match which / LAYOUTS.len() {
        0 => 0,
        1 => k,
        2 => k / 2,
        _ => random.below(k + 1),
    };
    let target = named.remove(place);
    let mut mct = plain(&named, target);
    mct.set_signs(random, signs);
    mct
}

/// So many gates of 0 to 4 controls are there on the numbers of lines up to this
/// one: for each number of controls that may be, the choices of the named lines, and
/// of the target among them.
fn narrow_gates(most: u8) -> usize {
    let choices = |n: usize, k: usize| (0..k).fold(1, |some, i| some * (n - i) / (i + 1));
    let narrow = shapes().filter(|&(k, lines)| k <= 4 && lines <= most);
    narrow
        .map(|(k, lines)| (k + 1) * choices(usize::from(lines), k + 1))
        .sum()
}

/// A gate without signs.
pub fn plain(controls: &[u8], target: u8) -> Mct {
    let negated = false;
    let controls = controls.iter().map(|&line| Control { line, negated });
    Mct {
        controls: controls.collect(),
        target,
    }
}

/// The first k lines as controls, the next as target.
pub fn first_lines(k: usize) -> Mct {
    let controls: Vec<u8> = (0..k as u8).collect();
    plain(&controls, k as u8)
}

impl Spares<'_> {
    fn every_shape(&mut self, placements: usize) -> usize {
        let mut cases = 0;
        for (k, lines) in shapes() {
            for which in 0..placements {
                // With fewer than twelve, other ones for each shape.
                let which = if placements < 12 {
                    (5 * k + 7 * usize::from(lines) + which) % 12
                } else {
                    which
                };
                let mct = placed(self.random, k, lines, which);
                self.gate(lines, &mct);
                cases += 1;
            }
        }
        cases
    }

    /// One gate: map's answer and quote's are the peer's, and those of the expansion
    /// here, reduced. With at most four controls they are those of before too.
    fn gate(&mut self, lines: u8, mct: &Mct) {
        let text = texts::cascade_text(lines, std::slice::from_ref(mct));
        let expanded = expansion::of_all(lines, std::slice::from_ref(mct));
        let list = circuit::reduced(&expanded);
        let answer = self.answered(&text, lines, &list);
        let before = circuit::reduced(&expansion::before(mct));
        let same = answer == circuit::text(lines, &before);
        if mct.controls.len() >= FEWEST_DIFFERING {
            self.differing += usize::from(!same);
            self.equal += usize::from(same);
        } else {
            self.report.case(same, || {
                format!("another list than before; text {}", shown(&text))
            });
        }
        let (count, quote) = (mct.gates(), quote_of(lines, mct));
        self.report
            .case(expanded.len() == count && list.len() == quote, || {
                format!(
                    "{} gates expanded, {} in the list, expected {count} and {quote}; text {}",
                    expanded.len(),
                    list.len(),
                    shown(&text)
                )
            });
    }

    /// Map answers a text with this list, and quote with its count; the peer too. Gives
    /// map's answer.
    fn answered(&mut self, text: &[u8], lines: u8, list: &[Gate]) -> Vec<u8> {
        let mapped = circuit::text(lines, list);
        let quoted = format!("(quote {})\n", list.len()).into_bytes();
        let mut given = Vec::new();
        for (program, expected) in [(Program::Quote, quoted), (Program::Map, mapped)] {
            let got = (self.ask)(program, text);
            let peer = peer::program_answer(program, text);
            let right = got.as_ref() == Ok(&expected) && peer == expected;
            self.report.case(right, || {
                let got = got.as_ref().map(|answer| shown(answer));
                format!(
                    "{program:?}: got {got:?}, expected {}, the peer {}; text {}",
                    shown(&expected),
                    shown(&peer),
                    shown(text)
                )
            });
            given = got.unwrap_or_default();
        }
        given
    }

    /// Every gate of at most four controls, without signs: map's answer is, byte for
    /// byte, what the lowest-line rule gives.
    fn every_narrow_gate(&mut self, most: u8) -> usize {
        let mut cases = 0;
        for lines in 1..=most {
            for named in 1..1u32 << lines {
                let all: Vec<u8> = (0..lines).filter(|line| named >> line & 1 == 1).collect();
                let k = all.len() - 1;
                if k > 4 || (k >= 3 && usize::from(lines) == k + 1) {
                    continue;
                }
                for place in 0..=k {
                    self.narrow(lines, &all, place);
                    cases += 1;
                }
            }
        }
        cases
    }

    fn narrow(&mut self, lines: u8, named: &[u8], place: usize) {
        let mut controls = named.to_vec();
        let target = controls.remove(place);
        let mct = plain(&controls, target);
        let text = texts::cascade_text(lines, std::slice::from_ref(&mct));
        let before = circuit::reduced(&expansion::before(&mct));
        let expected = circuit::text(lines, &before);
        let got = (self.ask)(Program::Map, &text);
        self.report.case(got.as_ref() == Ok(&expected), || {
            let got = got.as_ref().map(|answer| shown(answer));
            format!(
                "map: got {got:?}, before {}; text {}",
                shown(&expected),
                shown(&text)
            )
        });
    }

    /// Gates of five or more controls whose list is another than before, and some
    /// whose list is not.
    fn named(&mut self) {
        let gate = |lines: u8, controls: &[u8], target: u8| (lines, plain(controls, target));
        let range = |first: u8, last: u8| (first..=last).collect::<Vec<u8>>();
        for (differs, (lines, mct)) in [
            // M1, of 2 3 4 on 6, takes 7 and no more 0.
            (true, gate(8, &[0, 1, 2, 3, 4], 5)),
            (true, gate(32, &[0, 1, 2, 3, 4], 5)),
            // Low and high lines unnamed: M1, of 3 4 5 on 0, takes 7 and no more 1.
            (true, gate(9, &[1, 2, 3, 4, 5], 6)),
            // One spare: M0, of 0 1 2 on 7, takes 6, the target, and no more 3.
            (true, gate(8, &[0, 1, 2, 3, 4, 5], 6)),
            (true, gate(14, &range(0, 8), 9)),
            (true, gate(17, &range(0, 14), 15)),
            (true, gate(32, &range(0, 14), 15)),
            // One spare: M1, of 2 3 4 on 6, takes 0, which is the lowest line too.
            (false, gate(7, &[0, 1, 2, 3, 4], 5)),
            // The spares 0 and 1: M1, of 4 5 6 on 0, takes 1, the lowest too.
            (false, gate(8, &[2, 3, 4, 5, 6], 7)),
        ] {
            self.gate(lines, &mct);
            let text = texts::cascade_text(lines, std::slice::from_ref(&mct));
            let before = circuit::text(lines, &circuit::reduced(&expansion::before(&mct)));
            let got = (self.ask)(Program::Map, &text);
            let right = got.as_ref().is_ok_and(|got| (*got != before) == differs);
            self.report.case(right, || {
                let than = if differs {
                    "the list of"
                } else {
                    "another list than"
                };
                let got = got.as_ref().map(|answer| shown(answer));
                format!("map: got {got:?}, {than} before; text {}", shown(&text))
            });
        }
    }

    /// Gates of five to nine controls with one to three unnamed lines: from all
    /// controls met, from all but one, and from others, the answer ends in the pattern
    /// that the gate means.
    fn patterns(&mut self) -> usize {
        let mut cases = 0;
        for k in 5..=9 {
            for unnamed in 1..=3 {
                let lines = (k + 1 + unnamed) as u8;
                if lines > 12 {
                    continue;
                }
                let which = 3 + 4 * self.random.below(4);
                let mct = placed(self.random, k, lines, which);
                self.pattern(lines, &mct);
                cases += 1;
            }
        }
        cases
    }

    fn pattern(&mut self, lines: u8, mct: &Mct) {
        let text = texts::cascade_text(lines, std::slice::from_ref(mct));
        let got = (self.ask)(Program::Map, &text);
        let read = got.as_ref().ok().and_then(|answer| circuit::read(answer));
        let right = read.is_some_and(|(read_lines, gates)| {
            read_lines == lines
                && (0..24).all(|which| {
                    let mut start = self.random.below(1 << lines);
                    if which % 3 < 2 {
                        start = met(mct, start);
                    }
                    if which % 3 == 1 {
                        start ^= 1 << self.random.pick(&mct.lines());
                    }
                    let end = meaning::cascade(std::slice::from_ref(mct), start);
                    let flipped = start ^ end == 1 << mct.target;
                    (which % 3 != 0 || flipped)
                        && (which % 3 != 1 || start == end)
                        && meaning::circuit(lines, &gates, start) == Some(end)
                })
        });
        self.report.case(right, || {
            let got = got.as_ref().map(|answer| shown(answer));
            format!("map: another pattern; got {got:?}; text {}", shown(&text))
        });
    }

    /// Random cascades whose expansions come near 4,096 gates, half of them with a line
    /// against some rule: the refusal is the one that the rules give to them.
    fn judged(&mut self, count: usize) -> [u64; 10] {
        let mut numbers = [0; 10];
        for _ in 0..count {
            let lines = self.random.between(5, 32) as u8;
            let mut mcts = near_the_limit(self.random, lines);
            if self.random.one_in(2) {
                let place = self.random.below(mcts.len() + 1);
                mcts.insert(place, against_a_rule(self.random, lines));
            }
            let rows: Vec<Row> = mcts.into_iter().map(Row::Gate).collect();
            let text = rules::text(lines, &rows);
            let due = rules::refusal(rules::NOW, lines, &rows);
            numbers[due.map_or(0, |(number, _)| number as usize)] += 1;
            for program in [Program::Map, Program::Quote] {
                let got = (self.ask)(program, &text);
                let peer = peer::program_answer(program, &text);
                let right = got.as_ref() == Ok(&peer)
                    && match due {
                        Some((number, line)) => {
                            peer == format!("(turned-away {number} {line})\n").into_bytes()
                        }
                        None if program == Program::Quote => peer.starts_with(b"(quote "),
                        None => circuit::read(&peer).is_some_and(|(read, _)| read == lines),
                    };
                self.report.case(right, || {
                    let got = got.as_ref().map(|answer| shown(answer));
                    format!(
                        "{program:?}: got {got:?}, the rules say {due:?}, the peer {}; text {}",
                        shown(&peer),
                        shown(&text)
                    )
                });
            }
        }
        numbers
    }

    /// The quotes of the table, and how they stand beside document 001's.
    fn table(&mut self) -> usize {
        let mut cells = 0;
        for (k, (row, paper)) in (3..).zip(QUOTES.into_iter().zip(TABLE_I)) {
            let quotes: Vec<Option<usize>> = (1..)
                .zip(row)
                .map(|(unnamed, due)| self.cell(k, (k + 1 + unnamed) as u8, due))
                .collect();
            cells += quotes.len();
            // More lines change nothing.
            for lines in [k as u8 + 8, MOST_LINES] {
                self.cell(k, lines, row[row.len() - 1]);
            }
            // Up to nine controls the fewest gates are those of document 001.
            let fewest = quotes.iter().copied().min().flatten();
            let paper_fewest = paper.iter().copied().min();
            let right = fewest.is_some() && (fewest == paper_fewest) == (k <= 9);
            self.report.case(right, || {
                format!("{k} controls: {fewest:?} gates, in document 001 {paper_fewest:?}")
            });
            let equal: Vec<usize> = (1..)
                .zip(paper.iter().zip(quotes))
                .filter(|&(_, (&paper, quote))| quote == Some(paper))
                .map(|(unnamed, _)| unnamed)
                .collect();
            let due = EQUAL_CELLS[k - 3];
            self.report.case(equal == due, || {
                format!("{k} controls: as in document 001 with {equal:?} unnamed, expected {due:?}")
            });
        }
        cells + self.eleven()
    }

    /// The quote of the gate on the first lines: the subject's, which has to be this
    /// one, as has the peer's and that of the list here.
    fn cell(&mut self, k: usize, lines: u8, due: usize) -> Option<usize> {
        let mct = [first_lines(k)];
        let text = texts::cascade_text(lines, &mct);
        let list = circuit::reduced(&expansion::of_all(lines, &mct));
        let peer = peer::program_answer(Program::Quote, &text);
        let got = (self.ask)(Program::Quote, &text);
        let answer = format!("(quote {due})\n").into_bytes();
        let right = got.as_ref() == Ok(&answer) && peer == answer && list.len() == due;
        self.report.case(right, || {
            let got = got.as_ref().map(|answer| shown(answer));
            format!(
                "quote: got {got:?}, expected {due}, the peer {}, the list here {}; text {}",
                shown(&peer),
                list.len(),
                shown(&text)
            )
        });
        let number = String::from_utf8(got.ok()?).ok()?;
        let number = number.strip_prefix("(quote ")?.strip_suffix(")\n")?;
        number.parse().ok()
    }

    /// Eleven gates of 15 controls on 17 lines, without signs and with two.
    fn eleven(&mut self) -> usize {
        let mut mcts = vec![first_lines(MOST_CONTROLS); 11];
        for due in ELEVEN {
            let list = circuit::reduced(&expansion::of_all(17, &mcts));
            self.report.case(list.len() == due, || {
                format!("eleven gates of 15 controls: {} and not {due}", list.len())
            });
            self.answered(&texts::cascade_text(17, &mcts), 17, &list);
            for place in [0, 14] {
                mcts[0].controls[place].negated = true;
            }
        }
        ELEVEN.len()
    }
}

/// The quote of `(mct (0 1 .. k-1) k)` with one to six further lines, for k from 3
/// to 15: by the peer, and by the expansion and the plain reduction of this program,
/// which agree.
const QUOTES: [[usize; 6]; 13] = [
    [14, 14, 14, 14, 14, 14],
    [20, 20, 20, 20, 20, 20],
    [42, 32, 32, 32, 32, 32],
    [52, 44, 44, 44, 44, 44],
    [64, 56, 56, 56, 56, 56],
    [76, 68, 68, 68, 68, 68],
    [100, 98, 80, 80, 80, 80],
    [130, 132, 132, 132, 132, 132],
    [154, 156, 156, 156, 156, 156],
    [178, 180, 180, 180, 180, 180],
    [202, 204, 204, 204, 204, 204],
    [226, 228, 228, 228, 228, 228],
    [250, 252, 252, 252, 252, 252],
];

/// The quotes of eleven gates of 15 controls on 17 lines, without signs and with two,
/// worked out in the same way.
const ELEVEN: [usize; 2] = [2_750, 2_754];

/// Document 001's Table I: the best values found there with 1, 2, .. ancillary lines;
/// more than shown reduce nothing.
const TABLE_I: [&[usize]; 13] = [
    &[14],
    &[20],
    &[32],
    &[44],
    &[64, 56],
    &[76, 68],
    &[96, 88, 80],
    &[108, 100, 92],
    &[132, 120, 112, 104],
    &[156, 132, 124, 116],
    &[180, 156, 148, 136, 128],
    &[204, 180, 172, 148, 140],
    &[228, 204, 198, 172, 160, 152],
];

/// For each number of controls from 3 on, with how many unnamed lines the quote is that
/// of Table I.
const EQUAL_CELLS: [&[usize]; 13] = [
    &[1],
    &[1],
    &[],
    &[],
    &[1, 2],
    &[1, 2],
    &[3],
    &[],
    &[],
    &[],
    &[],
    &[],
    &[],
];

/// The quote of one gate, wherever its lines lie: controls and spares are named by
/// their places in their lists, and other lines in these places give the same list on
/// other lines. The NOTs of a sign stay, since the line between them is a control.
pub fn quote_of(lines: u8, mct: &Mct) -> usize {
    quote_with(mct.unnamed(lines).len(), mct)
}

/// The same by the number of spares, of which more than six change nothing.
pub fn quote_with(spares: usize, mct: &Mct) -> usize {
    let quote = match mct.controls.len() {
        0 | 1 => 1,
        2 => 5,
        k => QUOTES[k - 3][spares.min(6) - 1],
    };
    quote + 2 * mct.negated().count()
}

/// The pattern with all controls of a gate met.
fn met(mct: &Mct, pattern: usize) -> usize {
    mct.controls
        .iter()
        .fold(pattern, |pattern, control| match control.negated {
            true => pattern & !(1 << control.line),
            false => pattern | 1 << control.line,
        })
}

/// Valid gates, most of them wide, with 4,070 to 4,120 gates in their expansions or
/// with up to 258 lines.
pub fn near_the_limit(random: &mut Random, lines: u8) -> Vec<Mct> {
    let signs = Signs::any(random);
    let most = texts::most_controls(lines);
    let total = random.between(4_070, 4_120);
    let mut left = total;
    let mut mcts = Vec::new();
    while left > 0 && mcts.len() < 258 {
        let fitting = EXPANSION[..=most]
            .iter()
            .filter(|&&gates| gates <= left)
            .count();
        let k = fitting - 1 - random.below(fitting.min(6));
        let mut new = texts::mct(random, lines, k, signs);
        if new.gates() > left {
            new.set_signs(random, Signs::None);
        }
        left -= new.gates();
        mcts.push(new);
    }
    random.shuffle(&mut mcts);
    mcts
}

/// A gate that some of the rules 4 to 8 refuses.
pub fn against_a_rule(random: &mut Random, lines: u8) -> Mct {
    let signs = Signs::any(random);
    let width = usize::from(lines);
    loop {
        let k = random.between(1, texts::most_controls(lines));
        let mut mct = texts::mct(random, lines, k, signs);
        let control = random.below(k);
        match random.below(6) {
            0 => mct.target = lines,
            1 => mct.controls[control].line = random.between(width, 99) as u8,
            2 => mct.target = mct.controls[control].line,
            3 => mct.controls[control].line = mct.controls[random.below(k)].line,
            // As many controls as may be, and one more than that.
            4 => mct = texts::mct(random, lines, width - 1, signs),
            _ => mct = texts::mct(random, lines, (width - 1).min(16), signs),
        }
        let row = Row::Gate(mct.clone());
        if rules::refusal(rules::NOW, lines, &[row]).is_some() {
            return mct;
        }
    }
}
