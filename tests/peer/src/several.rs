//! What a job over several texts returns.

use crate::Refusal;

/// The number, the line, the text whose rule or line refuses (0 on success and with
/// the numbers 10, 11 and 13), and the count, which each job has its own of.
#[derive(Clone, Copy, Debug, PartialEq, Eq)]
pub struct Outcome {
    pub number: u64,
    pub line: u64,
    pub text: u64,
    pub count: u64,
}

impl Outcome {
    pub fn success(count: u64) -> Outcome {
        Outcome {
            number: 0,
            line: 0,
            text: 0,
            count,
        }
    }

    /// The form in which a program writes a refusal.
    pub fn turned_away(self) -> Vec<u8> {
        let Outcome {
            number, line, text, ..
        } = self;
        format!("(turned-away {number} {line} {text})\n").into_bytes()
    }
}

/// A refusal with the number of its text.
#[derive(Clone, Copy, Debug, PartialEq, Eq)]
pub struct Refused {
    pub text: u64,
    pub refusal: Refusal,
}

impl Refused {
    pub fn outcome(self) -> Outcome {
        Outcome {
            number: self.refusal.number,
            line: self.refusal.line,
            text: self.text,
            count: 0,
        }
    }
}

/// Makes a refusal one of the text with this number.
pub fn of_text(text: u64) -> impl Fn(Refusal) -> Refused {
    move |refusal| Refused { text, refusal }
}

/// Texts for the tests of these jobs.
#[cfg(test)]
pub mod texts {
    /// A circuit text.
    pub fn circuit(lines: u8, gates: &[&str]) -> String {
        format!("(lines {lines})\n{}", forms(gates))
    }

    /// Forms, one a line.
    pub fn forms(words: &[&str]) -> String {
        words.iter().map(|word| format!("({word})\n")).collect()
    }

    /// Circuit texts that are turned away, each with its number and its line.
    pub fn turned_away() -> Vec<(String, u64, u64)> {
        let overlong = "x".repeat(60_001);
        vec![
            ("(lines 3)\n(cn 0 1)\n(not 2)".to_string(), 3, 3),
            (circuit(3, &["cn 0 1", "not 2", "not 3"]), 4, 4),
            (circuit(3, &["v 1 1"]), 5, 2),
            (circuit(3, &["not 2"; 4_097]), 9, 4_098),
            (overlong[..60_000].to_string(), 3, 1),
            (overlong, 1, 0),
            (String::new(), 3, 1),
            ("(lines 33)\n".to_string(), 4, 1),
        ]
    }
}
