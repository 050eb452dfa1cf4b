//! Holds the program `sheet` against the recorder of the Rust crate vello_common, call by call.
//!
//! One side is the program. The other is made here: the script is read, the calls that the rules refuse are struck
//! out, the others are made on the Rust's recorder, and what `sheet` has to print is read off it.

mod check;
mod draws;
mod floats;
mod lists;
mod make;
mod random;
mod refusal;
mod replay;
mod report;
mod script;
mod spoil;
mod tally;
#[cfg(test)]
mod tests;
mod walks;

use check::Checker;
use lists::ALPHABETS;
use make::{Family, Options};
use std::env;
use std::fs;
use std::io::{self, Read, Write};
use std::path::PathBuf;
use std::process::ExitCode;

const USAGE: &str = "\
usage: compare random SHEET [--scripts N] [--seed S] [--family F] [--tiles]
           N scripts by chance
       compare lists SHEET [--length L] [--tiles]
           all lists of up to L calls over a few calls
       compare draws SHEET
           one script with more draws than a recorder takes
       compare files SHEET FILE...
           the given scripts
       compare make [--seed S] [--script I] [--family F] [--tiles]
           prints script I of those with seed S
       compare replay
           prints what the Rust does with the script on standard input, in the form of `sheet`
SHEET is the program; with --tiles, scripts have lines `tile` and `hit`; with --family they are all
of one family: small, limits, deep, wide, short, opacities or faulty.";

/// What is asked for on the command line.
struct Command {
    word: String,
    /// The words that are no options: a program, or files.
    names: Vec<PathBuf>,
    scripts: u64,
    seed: u64,
    script: u64,
    length: u32,
    options: Options,
}

fn main() -> ExitCode {
    replay::keep_caught_panics_quiet();
    let Some(command) = read_command(env::args().skip(1)) else {
        eprintln!("{USAGE}");
        return ExitCode::from(2);
    };
    match run(&command) {
        Ok(true) => ExitCode::SUCCESS,
        Ok(false) => ExitCode::FAILURE,
        Err(fault) => {
            eprintln!("compare: {fault}");
            ExitCode::from(2)
        }
    }
}

fn read_command(mut words: impl Iterator<Item = String>) -> Option<Command> {
    let mut command = Command {
        word: words.next()?,
        names: Vec::new(),
        scripts: 1_000,
        seed: 1,
        script: 0,
        length: 5,
        options: Options {
            tiles: false,
            family: None,
        },
    };
    while let Some(word) = words.next() {
        match word.as_str() {
            "--scripts" => command.scripts = words.next()?.parse().ok()?,
            "--seed" => command.seed = words.next()?.parse().ok()?,
            "--script" => command.script = words.next()?.parse().ok()?,
            "--length" => command.length = words.next()?.parse().ok()?,
            "--family" => command.options.family = Some(Family::named(&words.next()?)?),
            "--tiles" => command.options.tiles = true,
            _ if word.starts_with("--") => return None,
            _ => command.names.push(PathBuf::from(word)),
        }
    }
    let names = match command.word.as_str() {
        "random" | "lists" | "draws" => 1..=1,
        "files" => 2..=usize::MAX,
        "make" | "replay" => 0..=0,
        _ => return None,
    };
    names.contains(&command.names.len()).then_some(command)
}

/// Does what is asked for, and says whether all agreed.
fn run(command: &Command) -> io::Result<bool> {
    match command.word.as_str() {
        "make" => {
            let text = make::script(command.seed, command.script, command.options);
            io::stdout().write_all(&text)?;
            Ok(true)
        }
        "replay" => print_replay(),
        _ => compare(command),
    }
}

fn compare(command: &Command) -> io::Result<bool> {
    let mut checker = Checker::new(command.names[0].clone());
    match command.word.as_str() {
        "random" => check_random(&mut checker, command)?,
        "lists" => check_lists(&mut checker, command)?,
        "draws" => checker.check("the script of many draws", &make::many_draws())?,
        _ => {
            for file in &command.names[1..] {
                checker.check(&file.display().to_string(), &fs::read(file)?)?;
            }
        }
    }
    Ok(checker.finish())
}

fn check_random(checker: &mut Checker, command: &Command) -> io::Result<()> {
    for index in 0..command.scripts {
        let text = make::script(command.seed, index, command.options);
        let name = format!("script {index} of seed {}", command.seed);
        checker.check(&name, &text)?;
    }
    Ok(())
}

fn check_lists(checker: &mut Checker, command: &Command) -> io::Result<()> {
    for alphabet in &ALPHABETS {
        let scripts = alphabet.scripts(command.length, command.options);
        for (index, text) in scripts.enumerate() {
            checker.check(&format!("list {index} of {}", alphabet.name), &text)?;
        }
    }
    Ok(())
}

fn print_replay() -> io::Result<bool> {
    let mut text = Vec::new();
    io::stdin().read_to_end(&mut text)?;
    match script::read(&text) {
        Ok(script) => {
            let mut out = io::stdout().lock();
            for line in replay::replay(&script).lines {
                writeln!(out, "{}", line.text())?;
            }
            Ok(true)
        }
        Err(fault) => {
            eprintln!("line {}: {}", fault.line, fault.reason);
            Ok(false)
        }
    }
}
