//! The reader of both texts, with rules 3 to 9 tried on each whole line, in the
//! order of their numbers but for 8, which comes before 7. Line 2 of a cascade may be
//! a keep line.

use crate::gate::Gate;
use crate::{expansion, Circuit, Kind, Refusal, MOST_GATES, MOST_MCTS};

const MALFORMED: u64 = 3;
const NO_SUCH_LINE: u64 = 4;
const CROSSED: u64 = 5;
const UNSORTED: u64 = 6;
const TOO_WIDE: u64 = 7;
const NO_SPARE: u64 = 8;
const TOO_MANY: u64 = 9;

/// Reads a whole text; a cascade is expanded on the way.
pub fn read(kind: Kind, text: &[u8]) -> Result<Circuit, Refusal> {
    let mut rest = text;
    let mut line_number = 1;
    let header = next_line(&mut rest).and_then(header_form);
    let lines = match header {
        None => {
            return Err(Refusal {
                number: MALFORMED,
                line: 1,
            })
        }
        Some(lines @ 1..=32) => lines,
        Some(_) => {
            return Err(Refusal {
                number: NO_SUCH_LINE,
                line: 1,
            })
        }
    };
    let mut circuit = Circuit {
        lines,
        gates: Vec::new(),
    };
    let mut cascade = Cascade::new();
    while !rest.is_empty() {
        line_number += 1;
        let tried = match next_line(&mut rest) {
            None => Err(MALFORMED),
            Some(line) => match kind {
                Kind::Cascade => {
                    let keep = keep_form(line).filter(|_| line_number == 2);
                    match keep {
                        Some(numbers) => cascade.read_keep(lines, &numbers),
                        None => cascade.read_mct(line, &mut circuit),
                    }
                }
                Kind::Circuit => read_gate(line, &mut circuit),
            },
        };
        tried.map_err(|number| Refusal {
            number,
            line: line_number,
        })?;
    }
    Ok(circuit)
}

/// What is known of a cascade beside its lines and its expansion.
struct Cascade {
    /// The kept lines, a bit for each.
    kept: u32,
    /// How many mct lines were read.
    mcts: usize,
    /// Room for the controls of one line.
    controls: Controls,
}

/// The controls of one mct line, in the order of the text.
struct Controls {
    /// The line of each, whatever its sign: all that rules 4 to 8 see.
    lines: Vec<u8>,
    /// The lines of those with a minus sign.
    negated: Vec<u8>,
}

impl Cascade {
    fn new() -> Cascade {
        Cascade {
            kept: 0,
            mcts: 0,
            controls: Controls {
                lines: Vec::with_capacity(16),
                negated: Vec::with_capacity(16),
            },
        }
    }

    /// The numbers of a keep line in form, rules 4 and 6.
    fn read_keep(&mut self, lines: u8, numbers: &[u8]) -> Result<(), u64> {
        if numbers.iter().any(|&number| number >= lines) {
            return Err(NO_SUCH_LINE);
        }
        if !rise(numbers) {
            return Err(UNSORTED);
        }
        self.kept = numbers.iter().fold(0, |kept, &line| kept | 1 << line);
        Ok(())
    }

    /// One mct line, rules 3 to 6, 8, 7 and 9.
    fn read_mct(&mut self, line: &[u8], circuit: &mut Circuit) -> Result<(), u64> {
        let lines = circuit.lines;
        let target = mct_form(line, &mut self.controls).ok_or(MALFORMED)?;
        let Controls {
            lines: controls,
            negated,
        } = &self.controls;
        if target >= lines || controls.iter().any(|&control| control >= lines) {
            return Err(NO_SUCH_LINE);
        }
        if controls.contains(&target) {
            return Err(CROSSED);
        }
        if !rise(controls) {
            return Err(UNSORTED);
        }
        let spares = expansion::spares(lines, self.kept, controls, target);
        if controls.len() >= 3 && spares.is_empty() {
            return Err(NO_SPARE);
        }
        if controls.len() > 15 {
            return Err(TOO_WIDE);
        }
        if self.mcts >= MOST_MCTS {
            return Err(TOO_MANY);
        }
        self.mcts += 1;
        expansion::expand_mct(controls, negated, target, &spares, &mut circuit.gates);
        if circuit.gates.len() > MOST_GATES {
            return Err(TOO_MANY);
        }
        Ok(())
    }
}

/// Whether numbers rise strictly.
fn rise(numbers: &[u8]) -> bool {
    numbers.windows(2).all(|pair| pair[0] < pair[1])
}

/// One gate line of a circuit, rules 3, 4, 5 and 9.
fn read_gate(line: &[u8], circuit: &mut Circuit) -> Result<(), u64> {
    let lines = circuit.lines;
    let gate = gate_form(line).ok_or(MALFORMED)?;
    if gate.target() >= lines || gate.control().is_some_and(|control| control >= lines) {
        return Err(NO_SUCH_LINE);
    }
    if gate.control() == Some(gate.target()) {
        return Err(CROSSED);
    }
    if circuit.gates.len() >= MOST_GATES {
        return Err(TOO_MANY);
    }
    circuit.gates.push(gate);
    Ok(())
}

/// Takes the next line, without its byte 10; none if no byte 10 is left.
pub fn next_line<'a>(rest: &mut &'a [u8]) -> Option<&'a [u8]> {
    let end = rest.iter().position(|&byte| byte == b'\n')?;
    let line = &rest[..end];
    *rest = &rest[end + 1..];
    Some(line)
}

/// `(lines n)`
fn header_form(line: &[u8]) -> Option<u8> {
    let (lines, rest) = number(line.strip_prefix(b"(lines ")?)?;
    (rest == b")").then_some(lines)
}

/// `(keep a b ..)`, of at least one number; gives the numbers.
fn keep_form(line: &[u8]) -> Option<Vec<u8>> {
    let mut rest = line.strip_prefix(b"(keep")?;
    let mut numbers = Vec::new();
    while let Some(next) = rest.strip_prefix(b" ") {
        let (kept, after) = number(next)?;
        numbers.push(kept);
        rest = after;
    }
    (rest == b")" && !numbers.is_empty()).then_some(numbers)
}

/// `(mct (c1 c2 .. ck) t)`, where each control may have a minus sign directly
/// before it; gives the target, and the controls into what is lent for them.
fn mct_form(line: &[u8], controls: &mut Controls) -> Option<u8> {
    controls.lines.clear();
    controls.negated.clear();
    let mut rest = line.strip_prefix(b"(mct (")?;
    if rest.first() != Some(&b')') {
        loop {
            let unsigned = rest.strip_prefix(b"-");
            let (control, after) = number(unsigned.unwrap_or(rest))?;
            controls.lines.push(control);
            if unsigned.is_some() {
                controls.negated.push(control);
            }
            match after.strip_prefix(b" ") {
                Some(next) => rest = next,
                None => {
                    rest = after;
                    break;
                }
            }
        }
    }
    let (target, rest) = number(rest.strip_prefix(b") ")?)?;
    (rest == b")").then_some(target)
}

/// `(not t)`, `(cn c t)`, `(v c t)` or `(vp c t)`
fn gate_form(line: &[u8]) -> Option<Gate> {
    if let Some(rest) = line.strip_prefix(b"(not ") {
        let (target, rest) = number(rest)?;
        return (rest == b")").then_some(Gate::not(target));
    }
    let (power, rest) = if let Some(rest) = line.strip_prefix(b"(cn ") {
        (2, rest)
    } else if let Some(rest) = line.strip_prefix(b"(v ") {
        (1, rest)
    } else {
        (3, line.strip_prefix(b"(vp ")?)
    };
    let (control, rest) = number(rest)?;
    let (target, rest) = number(rest.strip_prefix(b" ")?)?;
    (rest == b")").then_some(Gate::powered(power, control, target))
}

/// One or two digits, without a leading zero except 0 itself. What follows is
/// given back; a further digit there can't be the bracket or space due.
fn number(text: &[u8]) -> Option<(u8, &[u8])> {
    match *text {
        [b'0', ref rest @ ..] => Some((0, rest)),
        [tens @ b'1'..=b'9', ones @ b'0'..=b'9', ref rest @ ..] => {
            Some(((tens - b'0') * 10 + (ones - b'0'), rest))
        }
        [ones @ b'1'..=b'9', ref rest @ ..] => Some((ones - b'0', rest)),
        _ => None,
    }
}
