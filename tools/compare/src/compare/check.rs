//! Both programs on the same script, and their lines side by side.

use crate::replay::{self, Expected};
use crate::script;
use crate::tally::Tally;
use std::io::{self, Write};
use std::path::PathBuf;
use std::process::{Command, Output, Stdio};
use std::thread;

/// How many differences are made small and shown; the rest is only counted.
const SHOWN_DIFFERENCES: u64 = 5;
/// How many differing lines of one script are shown.
const SHOWN_LINES: usize = 6;
/// How many scripts are tried to make one smaller.
const SHRINK_ATTEMPTS: usize = 3_000;

/// Compares scripts, one after another, and counts.
pub struct Checker {
    sheet: PathBuf,
    scripts: u64,
    /// Scripts that have a fault, as both programs find.
    faulty: u64,
    lines: u64,
    differences: u64,
    tally: Tally,
}

/// Two lines that should agree.
struct Difference {
    /// What the rules and the Rust ask for; absent where nothing should be printed.
    expected: Option<String>,
    /// What `sheet` printed.
    printed: Option<String>,
}

/// What a script should lead to.
enum Outcome {
    /// Only a complaint about this line.
    Fault(usize),
    Lines(Vec<Expected>),
}

impl Checker {
    pub fn new(sheet: PathBuf) -> Self {
        Self {
            sheet,
            scripts: 0,
            faulty: 0,
            lines: 0,
            differences: 0,
            tally: Tally::default(),
        }
    }

    /// Compares one script. `name` is how it is called where it differs.
    pub fn check(&mut self, name: &str, text: &[u8]) -> io::Result<()> {
        self.scripts += 1;
        let (outcome, tally) = outcome(text);
        self.tally.add_all(&tally);
        match &outcome {
            Outcome::Fault(_) => self.faulty += 1,
            Outcome::Lines(lines) => self.lines += lines.len() as u64,
        }
        if differences(&outcome, &self.run(text)?).is_empty() {
            return Ok(());
        }
        self.differences += 1;
        if self.differences <= SHOWN_DIFFERENCES {
            self.show(name, text)?;
        }
        Ok(())
    }

    /// Says what was compared, and whether all of it agreed.
    pub fn finish(&self) -> bool {
        println!("calls compared, by their words and refusals:");
        print!("{}", self.tally);
        println!(
            "{} calls, {} lines side by side, {} faulty scripts",
            self.tally.calls(),
            self.lines,
            self.faulty
        );
        println!("{} scripts, {} differences", self.scripts, self.differences);
        self.differences == 0
    }

    /// Runs `sheet` on a script. A thread hands the script over, since either program may wait for the other.
    fn run(&self, text: &[u8]) -> io::Result<Output> {
        let mut child = Command::new(&self.sheet)
            .stdin(Stdio::piped())
            .stdout(Stdio::piped())
            .stderr(Stdio::piped())
            .spawn()?;
        let input = child.stdin.take();
        thread::scope(|scope| {
            scope.spawn(move || {
                // A program that ends before it has read all shows it by what it printed.
                input.map(|mut input| input.write_all(text))
            });
            child.wait_with_output()
        })
    }

    /// Whether a script differs, and is faulty or not as asked for: a script that is made small must not differ in
    /// another way than at first.
    fn differs(&self, text: &[u8], faulty: bool) -> io::Result<bool> {
        let (outcome, _) = outcome(text);
        let alike = matches!(outcome, Outcome::Fault(_)) == faulty;
        Ok(alike && !differences(&outcome, &self.run(text)?).is_empty())
    }

    fn show(&self, name: &str, text: &[u8]) -> io::Result<()> {
        let small = self.shrink(text)?;
        println!("{name} differs; made small:");
        for line in String::from_utf8_lossy(&small).lines() {
            println!("    {line}");
        }
        let (outcome, _) = outcome(&small);
        let differences = differences(&outcome, &self.run(&small)?);
        for Difference { expected, printed } in differences.iter().take(SHOWN_LINES) {
            println!("  expected: {}", expected.as_deref().unwrap_or("(nothing)"));
            println!("  printed:  {}", printed.as_deref().unwrap_or("(nothing)"));
        }
        if differences.len() > SHOWN_LINES {
            println!("  and {} more lines", differences.len() - SHOWN_LINES);
        }
        Ok(())
    }

    /// A script with fewer lines that still differs: parts are left out, large ones first, while that is so.
    fn shrink(&self, text: &[u8]) -> io::Result<Vec<u8>> {
        let faulty = script::read(text).is_err();
        let mut lines: Vec<&[u8]> = text.split_inclusive(|byte| *byte == b'\n').collect();
        let mut size = lines.len().div_ceil(2);
        let mut attempts = 0;
        while size > 0 && attempts < SHRINK_ATTEMPTS {
            let mut at = 0;
            let before = lines.len();
            while at < lines.len() && attempts < SHRINK_ATTEMPTS {
                let end = lines.len().min(at + size);
                let rest = [&lines[..at], &lines[end..]].concat();
                attempts += 1;
                if self.differs(&rest.concat(), faulty)? {
                    lines = rest;
                } else {
                    at = end;
                }
            }
            if size > 1 || lines.len() == before {
                size /= 2;
            }
        }
        Ok(lines.concat())
    }
}

/// What a script should lead to, and the calls that are compared by it.
fn outcome(text: &[u8]) -> (Outcome, Tally) {
    match script::read(text) {
        Ok(script) => {
            let replayed = replay::replay(&script);
            (Outcome::Lines(replayed.lines), replayed.tally)
        }
        Err(fault) => (Outcome::Fault(fault.line), Tally::default()),
    }
}

fn differences(outcome: &Outcome, output: &Output) -> Vec<Difference> {
    let mut differences = Vec::new();
    let complaint = String::from_utf8_lossy(&output.stderr);
    let (status, lines) = match outcome {
        Outcome::Fault(line) => {
            let start = format!("line {line}: ");
            if !complaint.starts_with(&start) || complaint.trim_end().contains('\n') {
                differences.push(Difference {
                    expected: Some(format!("{start}REASON, on standard error")),
                    printed: Some(complaint.trim_end().to_string()),
                });
            }
            (1, &[][..])
        }
        Outcome::Lines(lines) => {
            if !complaint.is_empty() {
                differences.push(Difference {
                    expected: None,
                    printed: Some(complaint.trim_end().to_string()),
                });
            }
            (0, &lines[..])
        }
    };
    if output.status.code() != Some(status) {
        differences.push(Difference {
            expected: Some(format!("exit status {status}")),
            printed: Some(output.status.to_string()),
        });
    }
    differences.extend(line_differences(lines, &output.stdout));
    differences
}

/// Each printed line has to be ended, and to be the expected one in its place.
fn line_differences(expected: &[Expected], printed: &[u8]) -> Vec<Difference> {
    let printed = String::from_utf8_lossy(printed);
    let mut lines = printed.split_inclusive('\n');
    let mut differences = Vec::new();
    for expected in expected {
        let line = lines.next();
        let ended = line.and_then(|line| line.strip_suffix('\n'));
        if !ended.is_some_and(|line| expected.allows(line)) {
            differences.push(Difference {
                expected: Some(expected.text().to_string()),
                printed: line.map(|line| line.trim_end().to_string()),
            });
        }
    }
    differences.extend(lines.map(|line| Difference {
        expected: None,
        printed: Some(line.trim_end().to_string()),
    }));
    differences
}
