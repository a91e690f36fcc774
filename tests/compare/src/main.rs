//! Compares the programs and the static library with the peer.
//!
//! `compare library`     the C functions over one text, on many thousands
//! `compare pairs`       the C function that compares two, on many thousands of pairs
//! `compare joins`       the C function that joins two, on many thousands of pairs
//! `compare slips`       the C function that follows a slip, on many thousands of triples
//! `compare programs DIRECTORY SCRATCH`
//!                       the programs map, reduce, invert, quote, compare, join
//!                       and slip in DIRECTORY, with files in SCRATCH
//! `compare small`       reduce and invert on all small circuits, map on small
//!                       cascades with negated controls and with kept lines, and
//!                       compare and join on all pairs of smaller circuits, against
//!                       their whole link classes; every step of a slip on them
//!
//! Each part prints what it ran; its last line is `N passed, M failed`. The
//! exit status is 0 only if N is not 0 and M is 0.

mod built;
mod cases;
mod chain;
mod circuit;
mod expansion;
mod files;
mod joins;
mod kept;
mod known;
mod library;
mod meaning;
mod negated;
mod pairs;
mod programs;
mod random;
mod report;
mod rules;
mod slips;
mod small;
mod spares;
mod steps;
mod subject;
mod texts;
mod wide;

fn main() -> std::process::ExitCode {
    let arguments: Vec<String> = std::env::args().skip(1).collect();
    let arguments: Vec<&str> = arguments.iter().map(String::as_str).collect();
    let report = match arguments[..] {
        ["library"] => library::run(),
        ["pairs"] => pairs::run(),
        ["joins"] => joins::run(),
        ["slips"] => slips::run(),
        ["programs", directory, scratch] => programs::run(directory.as_ref(), scratch.as_ref()),
        ["small"] => small::run(),
        _ => {
            eprintln!(
                "usage: compare library | pairs | joins | slips | programs DIRECTORY SCRATCH | small"
            );
            return std::process::ExitCode::from(2);
        }
    };
    report.finish()
}
