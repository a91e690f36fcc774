//! Counts of passed and failed cases; the first failures are shown. Parts that are run
//! one after the other.

use std::process::ExitCode;
use std::time::Instant;

const MOST_SHOWN: u64 = 10;

pub struct Report {
    part: &'static str,
    pub passed: u64,
    pub failed: u64,
}

impl Report {
    pub fn new(part: &'static str) -> Report {
        Report {
            part,
            passed: 0,
            failed: 0,
        }
    }

    /// Counts one case; `what` tells it if it failed.
    pub fn case(&mut self, passed: bool, what: impl FnOnce() -> String) {
        if passed {
            self.passed += 1;
        } else {
            self.failed += 1;
            if self.failed <= MOST_SHOWN {
                println!("{}: FAILED: {}", self.part, what());
            }
        }
    }

    fn cases(&self) -> u64 {
        self.passed + self.failed
    }

    pub fn finish(self) -> ExitCode {
        println!("{} passed, {} failed", self.passed, self.failed);
        if self.passed > 0 && self.failed == 0 {
            ExitCode::SUCCESS
        } else {
            ExitCode::FAILURE
        }
    }
}

/// What parts of a comparison are run on.
pub trait Parts: Sized {
    fn report(&mut self) -> &mut Report;

    /// How many pairs, or others, were given so far, and what they are called; nothing
    /// where cases alone are counted.
    fn given(&self) -> Option<(u64, &'static str)>;

    /// Runs the parts and tells what each of them did; one in which no case ran has
    /// failed.
    fn run_parts(&mut self, parts: &[(&str, fn(&mut Self))]) {
        for &(name, part) in parts {
            let given = self.given();
            let cases = self.report().cases();
            let start = Instant::now();
            part(self);
            let seconds = start.elapsed().as_secs_f64();
            let given = given.zip(self.given());
            let more = given.map_or(String::new(), |((before, what), (now, _))| {
                format!("{} {what}, ", now - before)
            });
            let report = self.report();
            let cases = report.cases() - cases;
            println!(
                "{}: {name}: {more}{cases} cases, {seconds:.1} s",
                report.part
            );
            report.case(cases > 0, || format!("{name}: no case ran"));
        }
    }
}

/// A text on one line of output, cut if it is long.
pub fn shown(text: &[u8]) -> String {
    const MOST: usize = 400;
    let cut = &text[..text.len().min(MOST)];
    let dots = if text.len() > MOST { ".." } else { "" };
    format!("\"{}\"{dots} ({} bytes)", cut.escape_ascii(), text.len())
}
