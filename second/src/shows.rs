//! Comparing what another program shows of random logs' fields.

use crate::compare::{difference, start};
use crate::heap::Heap;
use crate::judge::{Cursor, Judge, Tally, MAX_FIELDS};
use crate::random::{make_log, Random};
use crate::show::{line_of, Choice, Request};
use std::fmt;
use std::io::Write;

/// How many requests showed a field, and how many were refused.
#[derive(Default)]
pub struct Outcomes {
    shown: usize,
    refused: usize,
}

impl Outcomes {
    fn add(&mut self, is_shown: bool) {
        let count = if is_shown {
            &mut self.shown
        } else {
            &mut self.refused
        };
        *count += 1;
    }
}

impl fmt::Display for Outcomes {
    fn fmt(&self, out: &mut fmt::Formatter) -> fmt::Result {
        let Outcomes { shown, refused } = self;
        write!(out, "{shown} fields shown and {refused} requests refused")
    }
}

/// Asks a command for one field of each log of a seed, by
/// `COMMAND show N [replay] < log`, and compares what it prints with ours.
pub fn compare_shows(
    judge: &Judge,
    seed: u64,
    count: u64,
    command: &[String],
) -> Result<Outcomes, String> {
    let mut outcomes = Outcomes::default();
    for index in 0..count {
        let log = make_log(seed, index);
        // Another stream than the log's own numbers.
        let request = any_request(judge, &log, &mut Random::new(!seed, index));
        let words = request.words();
        let shown = request.shown(judge, &log);
        outcomes.add(shown.is_ok());
        let own = line_of(shown);
        let theirs = printed(&[command, &words].concat(), &log)?;
        if theirs != format!("{own}\n").as_bytes() {
            let what = difference(seed, index, &log, &own, &theirs);
            return Err(format!("{}: {what}", words.join(" ")));
        }
    }
    Ok(outcomes)
}

/// A field to ask for: one that can be read, one at a stop, or one too far.
fn any_request(judge: &Judge, log: &[u8], random: &mut Random) -> Request {
    let readable = readable_fields(log);
    let number = match random.below(10) {
        0..=4 => random.below(readable.max(1)),
        5..=6 => stopped_field(judge, log).unwrap_or(0),
        7 => readable.saturating_sub(1),
        8 => readable,
        _ => random.one_of(&[0, 1, MAX_FIELDS - 1, MAX_FIELDS, 65_535]),
    };
    let choice = random.one_of(&[Choice::Recording, Choice::Replay]);
    Request { number, choice }
}

fn readable_fields(log: &[u8]) -> usize {
    let mut cursor = Cursor::new(log);
    let mut fields = 0;
    while let Ok(Some(_)) = cursor.next_field() {
        fields += 1;
    }
    fields
}

fn stopped_field(judge: &Judge, log: &[u8]) -> Option<usize> {
    let verdict = judge.run(log, &mut Heap::fresh(), &mut Tally::default());
    verdict.place().map(|place| place.field)
}

/// What a command prints for a log.
fn printed(command: &[String], log: &[u8]) -> Result<Vec<u8>, String> {
    let mut child = start(command)?;
    let mut input = child.stdin.take().expect("the input is a pipe");
    // A command may leave off at a log that is too long: what it printed tells.
    let _ = input.write_all(log);
    drop(input);
    let done = child
        .wait_with_output()
        .map_err(|error| error.to_string())?;
    if !done.status.success() {
        return Err(format!("{} failed: {}", command.join(" "), done.status));
    }
    Ok(done.stdout)
}

#[cfg(test)]
mod tests {
    use super::*;

    #[test]
    fn requests_of_all_kinds_are_made() {
        let judge = Judge::default();
        let answer = |index| {
            let log = make_log(1, index);
            let request = any_request(&judge, &log, &mut Random::new(!1, index));
            (request.choice, line_of(request.shown(&judge, &log)))
        };
        let answers: Vec<(Choice, String)> = (0..400).map(answer).collect();
        for choice in [Choice::Recording, Choice::Replay] {
            for start in ["0", "refused 1 ", "refused 16 "] {
                let wanted =
                    |(made, line): &(Choice, String)| *made == choice && line.starts_with(start);
                assert!(answers.iter().any(wanted), "{choice:?}: {start}");
            }
        }
        assert!(answers.iter().any(|(_, line)| line.starts_with("race ")));
    }

    #[test]
    fn a_command_that_says_something_else_is_found() {
        let echo = ["echo".to_string()];
        let difference = compare_shows(&Judge::default(), 1, 1, &echo).err().unwrap();
        assert!(difference.contains("theirs: show "), "{difference}");
        assert!(compare_shows(&Judge::default(), 1, 1, &["false".to_string()]).is_err());
    }
}
