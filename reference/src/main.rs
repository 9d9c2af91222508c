//! A plain second program that plays scripts and station inputs.
//!
//!     reference [run LAYOUT RULE INPUT..] [station LAYOUT INPUT..] ..
//!
//! INPUT is a file name, or `-` for standard input. A command line or an input
//! that cannot be used ends the program with status 2, a run that breaks the
//! law with status 3.

mod frames;
mod items;
mod law;
mod layout;
mod naming;
mod script;
mod service;
mod station;
mod stores;
mod text;

use std::io::{Read, Write};
use std::process::ExitCode;

use layout::Layout;
use naming::{Rule, ALL_RULES};

const USAGE: &str = "usage: reference [run LAYOUT RULE INPUT..] [station LAYOUT INPUT..] ..";

enum Command {
    Run { layout: Layout, rules: Vec<Rule> },
    Station { layout: Layout },
}

/// Why the program ends early: its status and what it says.
struct Stop {
    status: u8,
    message: String,
}

fn unusable(message: String) -> Stop {
    Stop { status: 2, message }
}

fn read_layout(word: Option<String>) -> Result<Layout, Stop> {
    let word = word.ok_or_else(|| unusable(format!("a layout is missing\n{USAGE}")))?;
    Layout::read(&word).ok_or_else(|| unusable(format!("{word} is no layout")))
}

fn read_rules(word: Option<String>) -> Result<Vec<Rule>, Stop> {
    let word = word.ok_or_else(|| unusable(format!("a rule is missing\n{USAGE}")))?;
    if word == "all" {
        return Ok(ALL_RULES.to_vec());
    }
    let rule = ALL_RULES.into_iter().find(|rule| rule.name() == word);
    rule.map(|rule| vec![rule])
        .ok_or_else(|| unusable(format!("{word} is no rule")))
}

fn read_input(input: &str) -> Result<String, Stop> {
    let text = if input == "-" {
        let mut text = String::new();
        std::io::stdin().read_to_string(&mut text).map(|_| text)
    } else {
        std::fs::read_to_string(input)
    };
    text.map_err(|error| unusable(format!("{input}: {error}")))
}

fn play(command: &Command, input: &str) -> Result<String, Stop> {
    let text = read_input(input)?;
    let name = if input == "-" {
        "standard input"
    } else {
        input
    };
    match command {
        Command::Run { layout, rules } => {
            script::play(name, &text, layout, rules).map_err(|broken| Stop {
                status: 3,
                message: format!("the law is broken: {broken}"),
            })
        }
        Command::Station { layout } => Ok(station::play(name, &text, layout)),
    }
}

fn run(mut words: impl Iterator<Item = String>, out: &mut impl Write) -> Result<(), Stop> {
    let mut command = None;
    while let Some(word) = words.next() {
        match (word.as_str(), &command) {
            ("run", _) => {
                let layout = read_layout(words.next())?;
                command = Some(Command::Run {
                    layout,
                    rules: read_rules(words.next())?,
                });
            }
            ("station", _) => {
                command = Some(Command::Station {
                    layout: read_layout(words.next())?,
                });
            }
            (input, Some(command)) => {
                let printed = play(command, input)?;
                out.write_all(printed.as_bytes())
                    .map_err(|error| unusable(error.to_string()))?;
            }
            (_, None) => return Err(unusable(USAGE.to_string())),
        }
    }
    if command.is_none() {
        return Err(unusable(USAGE.to_string()));
    }
    Ok(())
}

fn main() -> ExitCode {
    let mut out = std::io::BufWriter::new(std::io::stdout().lock());
    let result = run(std::env::args().skip(1), &mut out);
    let flushed = out.flush();
    match result {
        Err(stop) => {
            eprintln!("reference: {}", stop.message);
            ExitCode::from(stop.status)
        }
        Ok(()) if flushed.is_err() => ExitCode::from(2),
        Ok(()) => ExitCode::SUCCESS,
    }
}
