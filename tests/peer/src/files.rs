//! The programs: what each writes for the names of files that it is given.
//!
//! A program over one text reads the file that is named, else standard input; one
//! over several takes a name for each.

use crate::{comparison, joining, slips, Program, LONGEST_TEXT};
use std::ffi::OsString;
use std::fs::File;
use std::io::{self, Read, Write};

/// The longest name of a file that a program takes, in bytes.
pub const LONGEST_NAME: usize = 4_095;

/// What a program writes: the answer to standard output, or one line to standard
/// error.
pub type Written = Result<Vec<u8>, String>;

/// The programs over two texts.
#[derive(Clone, Copy, Debug, PartialEq, Eq)]
pub enum Pairing {
    Compare,
    Join,
}

impl Pairing {
    pub fn name(self) -> &'static str {
        match self {
            Pairing::Compare => "compare",
            Pairing::Join => "join",
        }
    }

    /// What the program writes for two texts.
    fn answer(self, first: &[u8], second: &[u8]) -> Vec<u8> {
        match self {
            Pairing::Compare => comparison::answer(first, second),
            Pairing::Join => joining::answer(first, second),
        }
    }
}

/// What a program over one text writes for its arguments and its standard input.
pub fn one_text(program: Program, names: &[OsString], input: impl Read) -> Written {
    let text = match names {
        [] => whole_text(input).map_err(|error| format!("standard input: {error}"))?,
        [name] if is_name(name) => text_of(name)?,
        _ => return Err("usage: [FILE]".to_string()),
    };
    Ok(crate::program_answer(program, &text))
}

/// What a program over two texts writes for its arguments.
pub fn two_texts(program: Pairing, names: &[OsString]) -> Written {
    match names {
        [first, second] if is_name(first) && is_name(second) => {
            Ok(program.answer(&text_of(first)?, &text_of(second)?))
        }
        _ => Err(format!("usage: peer-{} FIRST SECOND", program.name())),
    }
}

/// What the program over three texts writes for its arguments.
pub fn three_texts(names: &[OsString]) -> Written {
    match names {
        [first, slip, second] if names.iter().all(is_name) => Ok(slips::answer(
            &text_of(first)?,
            &text_of(slip)?,
            &text_of(second)?,
        )),
        _ => Err("usage: peer-slip CIRCUIT SLIP SECOND".to_string()),
    }
}

/// The whole of a program over one text.
pub fn run_one(program: Program) -> io::Result<()> {
    write(one_text(program, &arguments(), io::stdin().lock()))
}

/// The whole of a program over two texts.
pub fn run_two(program: Pairing) -> io::Result<()> {
    write(two_texts(program, &arguments()))
}

/// The whole of the program over three texts.
pub fn run_three() -> io::Result<()> {
    write(three_texts(&arguments()))
}

fn arguments() -> Vec<OsString> {
    std::env::args_os().skip(1).collect()
}

fn write(written: Written) -> io::Result<()> {
    match written {
        Ok(answer) => io::stdout().lock().write_all(&answer),
        Err(complaint) => writeln!(io::stderr(), "{complaint}"),
    }
}

/// A name that begins with `-` is taken for an option, and there is none.
fn is_name(name: &OsString) -> bool {
    let bytes = name.as_encoded_bytes();
    (1..=LONGEST_NAME).contains(&bytes.len()) && bytes[0] != b'-'
}

/// The text in a file. The name is quoted, so that the complaint is one line.
fn text_of(name: &OsString) -> Result<Vec<u8>, String> {
    File::open(name)
        .and_then(whole_text)
        .map_err(|error| format!("{name:?}: {error}"))
}

/// The text that a program reads: one byte past the longest is enough to refuse
/// it.
fn whole_text(source: impl Read) -> io::Result<Vec<u8>> {
    let mut text = Vec::with_capacity(LONGEST_TEXT + 1);
    source
        .take(LONGEST_TEXT as u64 + 1)
        .read_to_end(&mut text)?;
    Ok(text)
}

#[cfg(test)]
mod tests {
    use super::*;

    fn named(names: &[&str]) -> Vec<OsString> {
        names.iter().map(OsString::from).collect()
    }

    /// The complaint, which has to be one line.
    fn complaint(written: Written) -> String {
        let complaint = written.unwrap_err();
        assert!(!complaint.is_empty() && !complaint.contains('\n'));
        complaint
    }

    #[test]
    fn arguments_that_are_no_two_names() {
        let long = "x".repeat(LONGEST_NAME + 1);
        let wrong: [&[&str]; 7] = [
            &[],
            &["/dev/null"],
            &["/dev/null", "/dev/null", "/dev/null"],
            &["/dev/null", ""],
            &["-", "/dev/null"],
            &["/dev/null", "-x"],
            &[&long, "/dev/null"],
        ];
        for program in [Pairing::Compare, Pairing::Join] {
            for names in wrong {
                let usage = format!("usage: peer-{} FIRST SECOND", program.name());
                assert_eq!(complaint(two_texts(program, &named(names))), usage);
            }
            for names in [["/dev/null", "/"], ["/none\nsuch", "/dev/null"]] {
                assert!(complaint(two_texts(program, &named(&names))).starts_with('"'));
            }
            assert_eq!(
                two_texts(program, &named(&["/dev/null", "/dev/null"])),
                Ok(b"(turned-away 3 1 1)\n".to_vec())
            );
        }
    }

    #[test]
    fn arguments_that_are_no_three_names() {
        let long = "x".repeat(LONGEST_NAME + 1);
        let null = "/dev/null";
        let wrong: [&[&str]; 9] = [
            &[],
            &[null],
            &[null, null],
            &[null, null, null, null],
            &[null, null, ""],
            &[null, "", null],
            &["-", null, null],
            &[null, "-x", null],
            &[null, null, &long],
        ];
        for names in wrong {
            let usage = "usage: peer-slip CIRCUIT SLIP SECOND";
            assert_eq!(complaint(three_texts(&named(names))), usage);
        }
        for names in [
            [null, null, "/"],
            [null, "/none\nsuch", null],
            ["/", null, null],
        ] {
            assert!(complaint(three_texts(&named(&names))).starts_with('"'));
        }
        assert_eq!(
            three_texts(&named(&[null; 3])),
            Ok(b"(turned-away 3 1 1)\n".to_vec())
        );
    }

    #[test]
    fn a_file_that_is_named_else_standard_input() {
        let input = b"(lines 2)\n(v 0 1)\n";
        let run = |names: &[&str]| one_text(Program::Invert, &named(names), &input[..]);
        assert_eq!(run(&[]), Ok(b"(lines 2)\n(vp 0 1)\n".to_vec()));
        assert_eq!(run(&["/dev/null"]), Ok(b"(turned-away 3 1)\n".to_vec()));
        let long = "x".repeat(LONGEST_NAME + 1);
        for names in [
            &[""][..],
            &["-"],
            &["--"],
            &[&long],
            &["/dev/null", "/dev/null"],
        ] {
            assert_eq!(complaint(run(names)), "usage: [FILE]");
        }
        for name in ["/", "/none\nsuch"] {
            assert!(complaint(run(&[name])).starts_with('"'));
        }
    }
}
