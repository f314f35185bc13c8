//! Comparing with another program, line by line.

use crate::hex::to_hex;
use crate::judge::Judge;
use crate::lines::{judged_line, Kind, Summary};
use crate::random::make_log;
use crate::records::write_made;
use std::io::{self, BufRead, BufReader};
use std::process::{Child, Command, Stdio};
use std::thread::{self, JoinHandle};

/// Feeds the logs of a seed to a command and compares its lines with ours.
pub fn compare(
    judge: &Judge,
    seed: u64,
    count: u64,
    command: &[String],
) -> Result<Summary, String> {
    let mut child = start(command)?;
    let input = child.stdin.take().expect("the input is a pipe");
    let output = child.stdout.take().expect("the output is a pipe");
    // From a thread, or both sides could wait for the other to read. The logs
    // are made twice, here and there, rather than kept: a count has no bound.
    let feeder = thread::spawn(move || write_made(seed, count, input));
    let outcome = compare_lines(judge, seed, count, &mut BufReader::new(output));
    match outcome {
        Ok(summary) => finish(child, feeder).map(|()| summary),
        Err(difference) => {
            // Neither the child nor the feeder is needed any longer.
            let _ = child.kill();
            let _ = child.wait();
            Err(difference)
        }
    }
}

/// Starts a command whose input and output are pipes.
pub fn start(command: &[String]) -> Result<Child, String> {
    Command::new(&command[0])
        .args(&command[1..])
        .stdin(Stdio::piped())
        .stdout(Stdio::piped())
        .spawn()
        .map_err(|error| format!("cannot start {}: {error}", command[0]))
}

fn finish(mut child: Child, feeder: JoinHandle<io::Result<()>>) -> Result<(), String> {
    let status = child.wait().map_err(|error| error.to_string())?;
    if !status.success() {
        return Err(format!("the command failed: {status}"));
    }
    let fed = feeder.join().map_err(|_| "the feeder panicked")?;
    fed.map_err(|error| format!("the command did not read all records: {error}"))
}

fn compare_lines(
    judge: &Judge,
    seed: u64,
    count: u64,
    theirs: &mut impl BufRead,
) -> Result<Summary, String> {
    let mut summary = Summary::default();
    for index in 0..count {
        let log = make_log(seed, index);
        let (verdict, own) = judged_line(judge, &log);
        let their = next_line(theirs)?;
        let their = their.ok_or_else(|| format!("the command printed only {index} lines"))?;
        if their != own.as_bytes() {
            return Err(difference(seed, index, &log, &own, &their));
        }
        summary.add(Kind::of(&log, &verdict));
    }
    match next_line(theirs)? {
        None => Ok(summary),
        Some(_) => Err(format!("the command printed more than {count} lines")),
    }
}

fn next_line(input: &mut impl BufRead) -> Result<Option<Vec<u8>>, String> {
    let mut line = Vec::new();
    let read = input.read_until(b'\n', &mut line);
    read.map_err(|error| format!("cannot read the command's output: {error}"))?;
    if line.is_empty() {
        return Ok(None);
    }
    if line.last() == Some(&b'\n') {
        line.pop();
    }
    Ok(Some(line))
}

pub fn difference(seed: u64, index: u64, log: &[u8], own: &str, their: &[u8]) -> String {
    let log = to_hex(log);
    let their = String::from_utf8_lossy(their);
    format!("difference at log {index} of seed {seed}\nlog: {log}\nown: {own}\ntheirs: {their}")
}

#[cfg(test)]
mod tests {
    use super::*;
    use crate::fault::FAULTS;

    fn lines_of(judge: &Judge, seed: u64, count: u64) -> String {
        let line = |index| judged_line(judge, &make_log(seed, index)).1 + "\n";
        (0..count).map(line).collect()
    }

    fn compare_with(theirs: &str, count: u64) -> Result<Summary, String> {
        compare_lines(&Judge::default(), 1, count, &mut theirs.as_bytes())
    }

    #[test]
    fn equal_lines_pass_and_too_few_or_many_do_not() {
        let lines = lines_of(&Judge::default(), 1, 30);
        assert!(compare_with(&lines, 30).is_ok());
        assert!(compare_with(&lines, 29).is_err());
        assert!(compare_with(&lines, 31).is_err());
    }

    #[test]
    fn every_fault_is_found() {
        for (name, fault) in FAULTS {
            let faulty = Judge { fault: Some(fault) };
            let lines = lines_of(&faulty, 1, 200);
            assert!(compare_with(&lines, 200).is_err(), "{name}");
        }
    }
}
