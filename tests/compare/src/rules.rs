//! The refusal that rules 3 to 9 give to a cascade: what each rule says of a line, and
//! the order in which they are tried, now and before order 6. It is worked out from the
//! papers' table and order 8 alone; nothing here is shared with the peer.

use crate::texts::{self, Mct};

/// The rules in the order in which a line is tried against them: 8 before 7.
pub const NOW: [u64; 7] = [3, 4, 5, 6, 8, 7, 9];
/// The same before order 6.
pub const BEFORE: [u64; 7] = [3, 4, 5, 6, 7, 8, 9];

/// Number and line.
pub type Refusal = (u64, u64);

/// A line of a cascade after line 1.
#[derive(Clone)]
pub enum Row {
    /// A keep line in form, whatever its numbers and wherever it stands.
    Keep(Vec<u8>),
    /// An mct line in form, whatever the other rules say of it.
    Gate(Mct),
    /// Bytes that are no line in form.
    Malformed(String),
}

/// A cascade with a line 1 of 1 to 32 lines.
pub fn text(lines: u8, rows: &[Row]) -> Vec<u8> {
    let mut text = format!("(lines {lines})\n");
    for row in rows {
        match row {
            Row::Keep(numbers) => text += &texts::keep_line(numbers),
            Row::Gate(mct) => text += &texts::mct_line(mct),
            Row::Malformed(bytes) => text += bytes,
        }
    }
    text.into_bytes()
}

/// The number that k controls with so many spares get, where the rules before 8 pass.
pub fn by_8_then_7(k: usize, spares: usize) -> Option<u64> {
    if k >= 3 && spares == 0 {
        Some(8)
    } else if k > 15 {
        Some(7)
    } else {
        None
    }
}

/// What the lines before one have given: the kept lines, how many mct lines, and how many
/// gates of their expansions.
#[derive(Default)]
struct Before {
    kept: Vec<u8>,
    mcts: usize,
    expanded: usize,
}

/// The first rule, in this order, that the first failing line fails.
pub fn refusal(order: [u64; 7], lines: u8, rows: &[Row]) -> Option<Refusal> {
    let mut before = Before::default();
    for (line, row) in (2..).zip(rows) {
        let failed = order.into_iter().find(|&rule| match row {
            Row::Malformed(_) => rule == 3,
            Row::Keep(numbers) => keep_fails(rule, lines, numbers, line),
            Row::Gate(mct) => fails(rule, lines, mct, &before),
        });
        if let Some(number) = failed {
            return Some((number, line));
        }
        match row {
            Row::Malformed(_) => {}
            Row::Keep(numbers) => before.kept = numbers.clone(),
            Row::Gate(mct) => {
                before.mcts += 1;
                before.expanded += mct.gates();
            }
        }
    }
    None
}

/// Whether a keep line, at this line of the text, is against a rule.
fn keep_fails(rule: u64, lines: u8, numbers: &[u8], line: u64) -> bool {
    match rule {
        3 => line != 2 || numbers.is_empty(),
        4 => numbers.iter().any(|&number| number >= lines),
        6 => falls(numbers),
        _ => false,
    }
}

/// Whether numbers do not strictly rise.
fn falls(numbers: &[u8]) -> bool {
    numbers.windows(2).any(|pair| pair[0] >= pair[1])
}

/// Whether a gate, after these lines, is against a rule. How many gates its expansion has
/// depends on its number of controls and of signs alone.
fn fails(rule: u64, lines: u8, mct: &Mct, before: &Before) -> bool {
    let controls = mct.lines();
    let k = controls.len();
    match rule {
        3 => false,
        4 => mct.target >= lines || controls.iter().any(|&control| control >= lines),
        5 => controls.contains(&mct.target),
        6 => falls(&controls),
        7 => k > 15,
        8 => k >= 3 && mct.spares(lines, &before.kept).is_empty(),
        _ => before.mcts >= 256 || before.expanded + mct.gates() > 4_096,
    }
}
