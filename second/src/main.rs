//! A second, independent judge of pointer logs, written from documents 01
//! and 02 and the outside vectors alone, to compare the first with.

#[cfg(test)]
mod cases;
mod check;
mod compare;
mod fault;
mod field;
mod heap;
mod hex;
mod judge;
mod lines;
mod plain;
mod random;
mod records;
mod refusal;
mod replay;
mod show;
mod shows;
mod vectors;

use crate::heap::Heap;
use crate::judge::{Judge, Tally};
use crate::show::{line_of, Choice, Request};
use std::env;
use std::fs;
use std::io::{self, BufReader, BufWriter, Read, Write};
use std::process::ExitCode;
use std::str::FromStr;

const USAGE: &str = "usage: second [--fault NAME] COMMAND
  judge < log                       print the log's one line
  make SEED COUNT > records         make random logs
  lines < records > lines           print each log's verdict, replay and heap
  show N [replay] < log             print a field's bytes, of the log or its replay
  compare SEED COUNT COMMAND ARG..  compare with another program's lines
  shows SEED COUNT COMMAND ARG..    compare with what another program shows
  check SEED COUNT                  check properties on random logs
  vectors FILE                      compare with a file of vectors
faults: live_now cleared_selectors unset_selectors copy_races replay_copies
  uncounted_free uncounted_reuse unset_passes";

/// Why the program does not succeed.
enum Trouble {
    /// It was called wrongly.
    Usage,
    /// It could not read or write.
    Broken(io::Error),
    /// A comparison or check failed: that is a result, so it is printed.
    Finding(String),
}

impl From<String> for Trouble {
    fn from(what: String) -> Trouble {
        Trouble::Finding(what)
    }
}

impl From<io::Error> for Trouble {
    fn from(error: io::Error) -> Trouble {
        Trouble::Broken(error)
    }
}

fn main() -> ExitCode {
    let arguments: Vec<String> = env::args().skip(1).collect();
    match split_fault(&arguments).and_then(|(judge, rest)| dispatch(&judge, rest)) {
        Ok(()) => ExitCode::SUCCESS,
        Err(Trouble::Usage) => {
            eprintln!("{USAGE}");
            ExitCode::from(2)
        }
        Err(Trouble::Broken(error)) => {
            eprintln!("second: {error}");
            ExitCode::FAILURE
        }
        Err(Trouble::Finding(what)) => {
            let _ = print_line(&what);
            ExitCode::FAILURE
        }
    }
}

/// The flag stands first only, so that a compared command may have its own.
fn split_fault(arguments: &[String]) -> Result<(Judge, &[String]), Trouble> {
    match arguments {
        [flag, name, rest @ ..] if flag == "--fault" => {
            let fault = fault::fault_named(name).ok_or(Trouble::Usage)?;
            let fault = Some(fault);
            Ok((Judge { fault }, rest))
        }
        rest => Ok((Judge::default(), rest)),
    }
}

fn dispatch(judge: &Judge, arguments: &[String]) -> Result<(), Trouble> {
    let words: Vec<&str> = arguments.iter().map(String::as_str).collect();
    match words[..] {
        ["judge"] => print_verdict(judge),
        ["show", field] => print_field(judge, field, Choice::Recording),
        ["show", field, "replay"] => print_field(judge, field, Choice::Replay),
        ["make", seed, count] => {
            let (seed, count) = (number(seed)?, number(count)?);
            Ok(records::write_made(seed, count, io::stdout().lock())?)
        }
        ["lines"] => print_lines(judge),
        ["compare", seed, count, _, ..] => {
            let (seed, count) = (number(seed)?, number(count)?);
            let summary = compare::compare(judge, seed, count, &arguments[3..])?;
            print_line(&format!("no difference in {summary}"))
        }
        ["shows", seed, count, _, ..] => {
            let (seed, count) = (number(seed)?, number(count)?);
            let outcomes = shows::compare_shows(judge, seed, count, &arguments[3..])?;
            print_line(&format!("no difference in {outcomes}"))
        }
        ["check", seed, count] => {
            let summary = check::check(judge, number(seed)?, number(count)?)?;
            print_line(&format!("all properties hold for {summary}"))
        }
        ["vectors", file] => {
            let text = fs::read_to_string(file)?;
            let compared = vectors::compare_vectors(judge, &text)?;
            print_line(&format!("{compared} vectors agree"))
        }
        _ => Err(Trouble::Usage),
    }
}

fn number<N: FromStr>(text: &str) -> Result<N, Trouble> {
    text.parse().map_err(|_| Trouble::Usage)
}

/// Unlike `println!`, no panic where nobody reads on.
fn print_line(text: &str) -> Result<(), Trouble> {
    Ok(writeln!(io::stdout().lock(), "{text}")?)
}

fn read_log() -> Result<Vec<u8>, Trouble> {
    let mut log = Vec::new();
    io::stdin().lock().read_to_end(&mut log)?;
    Ok(log)
}

fn print_verdict(judge: &Judge) -> Result<(), Trouble> {
    let log = read_log()?;
    let verdict = judge.run(&log, &mut Heap::fresh(), &mut Tally::default());
    print_line(&verdict.to_string())
}

fn print_field(judge: &Judge, field: &str, choice: Choice) -> Result<(), Trouble> {
    let number = number(field)?;
    let request = Request { number, choice };
    print_line(&line_of(request.shown(judge, &read_log()?)))
}

fn print_lines(judge: &Judge) -> Result<(), Trouble> {
    let mut input = BufReader::new(io::stdin().lock());
    let mut output = BufWriter::new(io::stdout().lock());
    while let Some(log) = records::read_record(&mut input)? {
        let (_, line) = lines::judged_line(judge, &log);
        writeln!(output, "{line}")?;
    }
    output.flush()?;
    Ok(())
}
