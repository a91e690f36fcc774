//! A second implementation of the jobs (map, reduce, invert, join, compare, slip),
//! written from the scope document and the orders alone, in plain Rust. The comparisons
//! take it as the expected answer, the benchmark as the peer in speed.
//!
//! Modules: `gate` (gates, their numbers and when two pass), `reader` (the two
//! texts and rules 3 to 9), `expansion` (from mct gates to NCV gates),
//! `reduction` (merge to a fixed point, then order by selection), `joining` and
//! `comparison` (the jobs over two texts), `slips` (the job over three), `several` (the
//! outcome of such a job), `files` (names of files, and the programs). This file holds
//! the jobs over one text, with the lent memory and rules 1, 2 and 10.

pub mod comparison;
pub mod expansion;
pub mod files;
pub mod gate;
pub mod joining;
pub mod reader;
pub mod reduction;
pub mod several;
pub mod slips;

use gate::Gate;

/// The longest text, in bytes (rule 1).
pub const LONGEST_TEXT: usize = 60_000;
/// The shortest gate list, in records (rule 2).
pub const SHORTEST_LIST: usize = 4_096;
/// The most gates a circuit or an expansion may have (rule 9).
pub const MOST_GATES: usize = 4_096;
/// The most mct lines of a cascade (rule 9).
pub const MOST_MCTS: usize = 256;
/// The longest answer text, in bytes: no line of it has more than 11.
pub const LONGEST_ANSWER: usize = 11 * (MOST_GATES + 1);

/// What a job over one text returns: the number 0 to 10, the line, the gates of
/// the reduced list and the bytes written.
#[derive(Clone, Copy, Debug, PartialEq, Eq)]
pub struct Outcome {
    pub number: u64,
    pub line: u64,
    pub gates: u64,
    pub bytes: u64,
}

/// A refusal: its number and its line (0 where the rule has no line).
#[derive(Clone, Copy, Debug, PartialEq, Eq)]
pub struct Refusal {
    pub number: u64,
    pub line: u64,
}

impl Refusal {
    /// Numbers 1 and 2 leave every lent list unchanged, the others leave `not 0`
    /// in every record.
    fn clears(self) -> bool {
        self.number > 2
    }
}

/// The number of lines and the gates of a text, expanded where it is a cascade.
/// The fields stand in the order in which circuits compare: the number of lines,
/// then the gates in dictionary order, a list that ends sooner first.
#[derive(PartialEq, Eq, PartialOrd, Ord)]
pub struct Circuit {
    pub lines: u8,
    pub gates: Vec<Gate>,
}

impl Circuit {
    /// The reduced list on the same lines.
    fn reduced(self) -> Circuit {
        Circuit {
            lines: self.lines,
            gates: reduction::reduce(&self.gates),
        }
    }

    /// The gates reversed, with v and vp exchanged.
    fn inverse(self) -> Circuit {
        Circuit {
            lines: self.lines,
            gates: self.gates.iter().rev().map(|gate| gate.undone()).collect(),
        }
    }
}

#[derive(Clone, Copy, Debug, PartialEq, Eq)]
pub enum Kind {
    Cascade,
    Circuit,
}

/// The jobs over one text.
#[derive(Clone, Copy, Debug, PartialEq, Eq)]
pub enum Job {
    Map,
    Reduce,
    Invert,
}

impl Job {
    pub fn run(self, text: &[u8], list: &mut [u16], answer: &mut [u8]) -> Outcome {
        match self {
            Job::Map => map(text, list, answer),
            Job::Reduce => reduce(text, list, answer),
            Job::Invert => invert(text, list, answer),
        }
    }
}

/// Map a cascade text to a circuit text. An answer area of length 0 asks for the
/// gates and the list alone, and no text is written.
pub fn map(text: &[u8], list: &mut [u16], answer: &mut [u8]) -> Outcome {
    let circuit = judged(Kind::Cascade, text, Some(list.len()));
    let area = (!answer.is_empty()).then_some(answer);
    reduced_into(circuit, list, area)
}

/// Reduce a circuit text.
pub fn reduce(text: &[u8], list: &mut [u16], answer: &mut [u8]) -> Outcome {
    let circuit = judged(Kind::Circuit, text, Some(list.len()));
    reduced_into(circuit, list, Some(answer))
}

/// Reverse a circuit, exchange v and vp, then reduce it.
pub fn invert(text: &[u8], list: &mut [u16], answer: &mut [u8]) -> Outcome {
    let circuit = judged(Kind::Circuit, text, Some(list.len()));
    reduced_into(circuit.map(Circuit::inverse), list, Some(answer))
}

/// The reduced list of a circuit, if there was no refusal, into the list and, if
/// there is one, the area.
fn reduced_into(
    circuit: Result<Circuit, Refusal>,
    list: &mut [u16],
    area: Option<&mut [u8]>,
) -> Outcome {
    match circuit.and_then(|circuit| answered(circuit, area)) {
        Err(refusal) => {
            if refusal.clears() {
                fill(list, &[]);
            }
            Outcome {
                number: refusal.number,
                line: refusal.line,
                gates: 0,
                bytes: 0,
            }
        }
        Ok((gates, bytes)) => {
            fill(list, &gates);
            Outcome {
                number: 0,
                line: 0,
                gates: gates.len() as u64,
                bytes: bytes as u64,
            }
        }
    }
}

/// The reduced list, and how many bytes of the area, if there is one, its text
/// takes.
fn answered(circuit: Circuit, area: Option<&mut [u8]>) -> Result<(Vec<Gate>, usize), Refusal> {
    let circuit = circuit.reduced();
    let bytes = match area {
        None => 0,
        Some(area) => write_text(&circuit, area)?,
    };
    Ok((circuit.gates, bytes))
}

/// Rule 10: the text of a circuit at the front of the area, and its length.
fn write_text(circuit: &Circuit, area: &mut [u8]) -> Result<usize, Refusal> {
    let text = circuit_text(circuit);
    let front = area.get_mut(..text.len()).ok_or(Refusal {
        number: 10,
        line: 0,
    })?;
    front.copy_from_slice(&text);
    Ok(text.len())
}

/// Rules 1 to 9: the circuit of a text, and of the list that is judged with it, if
/// there is one, the number of its records.
fn judged(kind: Kind, text: &[u8], list_len: Option<usize>) -> Result<Circuit, Refusal> {
    if text.len() > LONGEST_TEXT {
        return Err(Refusal { number: 1, line: 0 });
    }
    if list_len.is_some_and(|records| records < SHORTEST_LIST) {
        return Err(Refusal { number: 2, line: 0 });
    }
    reader::read(kind, text)
}

/// Puts the gates first and `not 0` in every later record.
fn fill(list: &mut [u16], gates: &[Gate]) {
    let (front, rest) = list.split_at_mut(gates.len());
    for (record, gate) in front.iter_mut().zip(gates) {
        *record = gate.number();
    }
    rest.fill(Gate::not(0).number());
}

/// The text of a circuit.
pub fn circuit_text(circuit: &Circuit) -> Vec<u8> {
    let mut text = Vec::with_capacity(11 * (circuit.gates.len() + 1));
    text.extend_from_slice(b"(lines ");
    put_number(&mut text, circuit.lines);
    text.extend_from_slice(b")\n");
    for gate in &circuit.gates {
        match gate.control() {
            None => text.extend_from_slice(b"(not "),
            Some(control) => {
                text.extend_from_slice(match gate.power() {
                    1 => b"(v ",
                    2 => b"(cn ",
                    _ => b"(vp ",
                });
                put_number(&mut text, control);
                text.push(b' ');
            }
        }
        put_number(&mut text, gate.target());
        text.extend_from_slice(b")\n");
    }
    text
}

fn put_number(text: &mut Vec<u8>, number: u8) {
    if number >= 10 {
        text.push(b'0' + number / 10);
    }
    text.push(b'0' + number % 10);
}

/// The programs over one text.
#[derive(Clone, Copy, Debug, PartialEq, Eq)]
pub enum Program {
    Map,
    Reduce,
    Invert,
    Quote,
}

/// What a program over one text writes: the answer, or the form
/// `(turned-away r l)`.
pub fn program_answer(program: Program, text: &[u8]) -> Vec<u8> {
    let (job, answer_len) = match program {
        Program::Map => (Job::Map, LONGEST_ANSWER),
        Program::Reduce => (Job::Reduce, LONGEST_ANSWER),
        Program::Invert => (Job::Invert, LONGEST_ANSWER),
        Program::Quote => (Job::Map, 0),
    };
    let mut list = [0u16; SHORTEST_LIST];
    let mut answer = vec![0u8; answer_len];
    let outcome = job.run(text, &mut list, &mut answer);
    if outcome.number != 0 {
        return format!("(turned-away {} {})\n", outcome.number, outcome.line).into_bytes();
    }
    match program {
        Program::Quote => format!("(quote {})\n", outcome.gates).into_bytes(),
        _ => {
            answer.truncate(outcome.bytes as usize);
            answer
        }
    }
}

#[cfg(test)]
mod examples;
#[cfg(test)]
mod inverse;
#[cfg(test)]
mod kept;
#[cfg(test)]
mod negated;
#[cfg(test)]
mod spares;
#[cfg(test)]
mod wide;
