//! The words of the command line.

use crate::transfer::Analysis;
use std::ffi::OsString;

#[derive(Clone, Copy, PartialEq, Eq)]
pub enum Show {
    Report,
    List,
    Table(Analysis),
}

pub struct Options {
    pub workers: usize,
    /// None where it is not given: the program then takes the width that is quick.
    pub cut: Option<usize>,
    pub show: Show,
}

pub const HELP: &str = "Reads a program of three-address code from standard input, and writes what is asked for to standard output.

Usage: tacflow-plain [OPTIONS]

Options:
      --workers <N>  How many threads work, 1 to 64 [default: 1]
      --cut <N>      How many bits a thread solves at a time, 1 to 4096 [default: 1024, of several threads 512]
      --show <KIND>  What to write [default: report] [possible values: report, list, reach, live, avail, busy]
  -h, --help         Print help
";

pub enum Words {
    Help,
    Run(Options),
}

pub fn read(words: impl Iterator<Item = OsString>) -> Result<Words, String> {
    let words: Option<Vec<String>> = words.map(|word| word.into_string().ok()).collect();
    let mut words = words.ok_or("a word is no text")?.into_iter();
    let (mut workers, mut cut, mut show) = (None, None, None);
    while let Some(word) = words.next() {
        let (name, value) = match word.split_once('=') {
            Some((name, value)) if name.starts_with("--") => (name, Some(value.to_string())),
            _ => (word.as_str(), None),
        };
        match (name, &value) {
            ("--help", None) => return Ok(Words::Help),
            (short, _) if short.starts_with("-h") => return Ok(Words::Help),
            ("--", None) => match words.next() {
                None => break,
                Some(word) => return Err(format!("unexpected argument '{word}'")),
            },
            ("--workers" | "--cut" | "--show", _) => (),
            _ => return Err(format!("unexpected argument '{word}'")),
        }
        let value = value.or_else(|| words.next()).ok_or(format!("a value is required for '{name}'"))?;
        let is_twice = match name {
            "--workers" => workers.replace(number(name, &value, 64)?).is_some(),
            "--cut" => cut.replace(number(name, &value, 4096)?).is_some(),
            _ => show.replace(kind(&value)?).is_some(),
        };
        if is_twice {
            return Err(format!("the argument '{name}' cannot be used twice"));
        }
    }
    Ok(Words::Run(Options { workers: workers.unwrap_or(1), cut, show: show.unwrap_or(Show::Report) }))
}

fn number(name: &str, value: &str, most: usize) -> Result<usize, String> {
    match value.parse() {
        Ok(number) if (1..=most).contains(&number) => Ok(number),
        _ => Err(format!("invalid value '{value}' for '{name}': it is not in 1..={most}")),
    }
}

fn kind(value: &str) -> Result<Show, String> {
    Ok(match value {
        "report" => Show::Report,
        "list" => Show::List,
        "reach" => Show::Table(Analysis::Reach),
        "live" => Show::Table(Analysis::Live),
        "avail" => Show::Table(Analysis::Available),
        "busy" => Show::Table(Analysis::Busy),
        _ => return Err(format!("invalid value '{value}' for '--show'")),
    })
}
