//! What is said of a log in one line: columns 2 to 4 of the vectors.

use crate::field::row_of;
use crate::heap::{Heap, UNSET};
use crate::hex::to_hex;
use crate::judge::{Judge, Tally, Verdict};
use crate::refusal::ASSERTION_FAILS;
use crate::replay::replay_of;
use std::collections::BTreeMap;
use std::fmt;
use std::fmt::Write;

/// A log's verdict and its line.
pub fn judged_line(judge: &Judge, log: &[u8]) -> (Verdict, String) {
    let mut heap = Heap::fresh();
    let mut tally = Tally::default();
    let verdict = judge.run(log, &mut heap, &mut tally);
    let replay = replay_column(judge, log);
    let state = state_column(&verdict, &heap, &tally);
    (verdict, format!("{verdict}\t{replay}\t{state}"))
}

fn replay_column(judge: &Judge, log: &[u8]) -> String {
    match replay_of(judge, log) {
        Err(_) => "-".to_string(),
        Ok(replay) if replay.is_empty() => "empty".to_string(),
        Ok(replay) => to_hex(&replay),
    }
}

fn state_column(verdict: &Verdict, heap: &Heap, tally: &Tally) -> String {
    if let Verdict::RefusedOutright(_) = verdict {
        return "untouched".to_string();
    }
    let Tally {
        fields,
        mallocs,
        live,
    } = tally;
    let mut text = format!("fields={fields} mallocs={mallocs} live={live}");
    add_changes(&mut text, 'p', &heap.pointers, UNSET);
    add_changes(&mut text, 's', &heap.selectors, UNSET);
    add_changes(&mut text, 'x', &heap.data_variables, 0);
    add_changes(&mut text, 'd', &heap.cell_data, 0);
    add_changes(&mut text, 'c', &heap.statuses, 0);
    text
}

fn add_changes<T: PartialEq + fmt::Display>(text: &mut String, letter: char, now: &[T], start: T) {
    for (place, value) in now.iter().enumerate() {
        if *value != start {
            write!(text, " {letter}{place}={value}").expect("a string takes all");
        }
    }
}

/// The kinds of verdict a summary tells apart.
#[derive(Clone, Copy, PartialEq, Eq, PartialOrd, Ord, Debug)]
pub enum Kind {
    Accepted,
    RaceBy(u8),
    Refused(u8),
    FailsBy(u8),
}

impl Kind {
    pub fn of(log: &[u8], verdict: &Verdict) -> Kind {
        match *verdict {
            Verdict::Accepted { .. } => Kind::Accepted,
            Verdict::Race { place, .. } => Kind::RaceBy(log[place.offset]),
            Verdict::Refused {
                number: ASSERTION_FAILS,
                place,
            } => Kind::FailsBy(log[place.offset]),
            Verdict::Refused { number, .. } | Verdict::RefusedOutright(number) => {
                Kind::Refused(number)
            }
        }
    }

    #[cfg(test)]
    pub fn of_log(judge: &Judge, log: &[u8]) -> Kind {
        let verdict = judge.run(log, &mut Heap::fresh(), &mut Tally::default());
        Kind::of(log, &verdict)
    }
}

impl fmt::Display for Kind {
    fn fmt(&self, out: &mut fmt::Formatter) -> fmt::Result {
        match self {
            Kind::Accepted => write!(out, "accepted"),
            Kind::RaceBy(tag) => write!(out, "race by {}", named(*tag)),
            Kind::Refused(number) => write!(out, "refused {number}"),
            Kind::FailsBy(tag) => write!(out, "refused {ASSERTION_FAILS} by {}", named(*tag)),
        }
    }
}

fn named(tag: u8) -> String {
    let command = row_of(tag).map_or("no command", |row| row.command);
    format!("tag {tag} ({command})")
}

/// How many logs of each kind there were.
#[derive(Default)]
pub struct Summary {
    logs: usize,
    counts: BTreeMap<Kind, usize>,
}

impl Summary {
    pub fn add(&mut self, kind: Kind) {
        self.logs += 1;
        *self.counts.entry(kind).or_insert(0) += 1;
    }
}

impl fmt::Display for Summary {
    fn fmt(&self, out: &mut fmt::Formatter) -> fmt::Result {
        write!(out, "{} logs", self.logs)?;
        for (kind, count) in &self.counts {
            write!(out, "\n{kind}: {count}")?;
        }
        Ok(())
    }
}
