//! One field's own bytes, of a recording or of its replay.

use crate::field::MALLOC;
use crate::hex::to_spaced_hex;
use crate::judge::{Cursor, Judge, Verdict, MAX_LOG_BYTES, MAX_MALLOCS};
use crate::refusal::{FIELD_NOT_READ, LOG_TOO_LONG};
use crate::replay::replay_of;

/// Which of the two logs.
#[derive(Clone, Copy, PartialEq, Eq, Debug)]
pub enum Choice {
    Recording,
    Replay,
}

/// The bytes of the numbered field of the chosen log; refusals 1 and 16 have
/// field number 0 and nothing to show.
pub fn show<'log>(
    recording: &'log [u8],
    replay: &'log [u8],
    choice: Choice,
    number: usize,
) -> Result<&'log [u8], Verdict> {
    let chosen = match choice {
        Choice::Recording => recording,
        Choice::Replay => replay,
    };
    if chosen.len() > MAX_LOG_BYTES {
        return Err(Verdict::RefusedOutright(LOG_TOO_LONG));
    }
    find(chosen, number).ok_or(Verdict::RefusedOutright(FIELD_NOT_READ))
}

/// Reads the log up to the numbered field with checks 3 to 11. What the fields
/// do plays no part, so neither a race nor a later refusal ends it.
fn find(log: &[u8], number: usize) -> Option<&[u8]> {
    let mut cursor = Cursor::new(log);
    let mut mallocs = 0;
    loop {
        let (field, place) = cursor.next_field().ok()??;
        mallocs += usize::from(field.tag == MALLOC);
        if mallocs > MAX_MALLOCS {
            return None;
        }
        if place.field == number {
            return Some(&log[place.offset..][..field.size()]);
        }
    }
}

/// What is asked of the program: a field of a log or of its replay.
#[derive(Clone, Copy, Debug)]
pub struct Request {
    pub number: usize,
    pub choice: Choice,
}

impl Request {
    /// The field's bytes in hexadecimal, or why there are none: a log that is
    /// not accepted has no replay, and then its own verdict stands for it.
    pub fn shown(&self, judge: &Judge, log: &[u8]) -> Result<String, Verdict> {
        let replay = match self.choice {
            Choice::Recording => Vec::new(),
            Choice::Replay => replay_of(judge, log)?,
        };
        show(log, &replay, self.choice, self.number).map(to_spaced_hex)
    }

    /// The words that ask the program for it.
    pub fn words(&self) -> Vec<String> {
        let mut words = vec!["show".to_string(), self.number.to_string()];
        if self.choice == Choice::Replay {
            words.push("replay".to_string());
        }
        words
    }
}

/// The line the program prints of an answer, without its newline.
pub fn line_of(shown: Result<String, Verdict>) -> String {
    shown.unwrap_or_else(|verdict| verdict.to_string())
}

#[cfg(test)]
mod tests {
    use super::*;
    use crate::field::{encode, row_of, Field, FREE, GET_DATA};
    use crate::judge::MAX_FIELDS;

    const NOT_READ: Result<&[u8], Verdict> = Err(Verdict::RefusedOutright(16));
    const TOO_LONG: Result<&[u8], Verdict> = Err(Verdict::RefusedOutright(1));

    fn bytes(tag: u8, numbers: &[u32]) -> Vec<u8> {
        encode(row_of(tag).unwrap(), &Field::of(tag, numbers))
    }

    fn recorded(log: &[u8], number: usize) -> Result<&[u8], Verdict> {
        show(log, &[], Choice::Recording, number)
    }

    fn answer(log: &[u8], number: usize, choice: Choice) -> String {
        line_of(Request { number, choice }.shown(&Judge::default(), log))
    }

    /// Case L.
    fn case_l() -> Vec<u8> {
        let begin = [bytes(MALLOC, &[0, 0, 5, 7]), bytes(FREE, &[0, 0])].concat();
        let end = [bytes(MALLOC, &[0, 0, 5, 9]), bytes(GET_DATA, &[0, 0, 0])].concat();
        [begin, end].concat()
    }

    #[test]
    fn every_field_is_shown_and_none_past_the_end() {
        let log = case_l();
        let parts: Vec<&[u8]> = (0..4).map(|n| recorded(&log, n).unwrap()).collect();
        assert_eq!(parts.concat(), log);
        assert_eq!(parts[1], [2, 2, 0, 0, 0]);
        for number in [4, 5, 4096, usize::MAX] {
            assert_eq!(recorded(&log, number), NOT_READ);
        }
        assert_eq!(recorded(&[], 0), NOT_READ);
    }

    #[test]
    fn the_choice_is_of_one_log_alone() {
        let (free, long) = (bytes(FREE, &[0, 0]), vec![0; MAX_LOG_BYTES + 1]);
        assert_eq!(show(&free, &long, Choice::Recording, 0), Ok(&free[..]));
        assert_eq!(show(&free, &long, Choice::Replay, 0), TOO_LONG);
        assert_eq!(show(&long, &free, Choice::Replay, 0), Ok(&free[..]));
        assert_eq!(show(&long, &free, Choice::Recording, 0), TOO_LONG);
    }

    #[test]
    fn a_field_that_stops_by_what_it_does_is_shown() {
        let free = bytes(FREE, &[0, 0]);
        let get = bytes(GET_DATA, &[0, 0, 0]);
        let log = [bytes(MALLOC, &[0, 0, 5, 7]), free.clone(), free, get].concat();
        assert_eq!(recorded(&log, 2), Ok(&log[16..21]));
        assert_eq!(recorded(&log, 3), Ok(&log[21..]));
    }

    #[test]
    fn a_field_that_does_not_read_well_is_not_shown() {
        let free = bytes(FREE, &[0, 0]);
        for bad in [&[2, 2, 0, 8, 0][..], &[16, 0, 0], &[2, 2], &[2, 2, 0, 0]] {
            let log = [&free, bad, &free].concat();
            assert_eq!(recorded(&log, 0), Ok(&free[..]));
            let cut = [&free, bad].concat();
            assert_eq!(recorded(&cut, 1), NOT_READ);
            assert_eq!(recorded(&log, 2), NOT_READ);
        }
    }

    #[test]
    fn the_limits_of_fields_and_mallocs_count() {
        let log = bytes(FREE, &[0, 0]).repeat(MAX_FIELDS + 1);
        assert_eq!(recorded(&log, MAX_FIELDS - 1), Ok(&[2, 2, 0, 0, 0][..]));
        assert_eq!(recorded(&log, MAX_FIELDS), NOT_READ);
        // Live or not: only how many there are is a reading check.
        let mut log = bytes(MALLOC, &[0, 0, 5, 7]).repeat(MAX_MALLOCS + 1);
        log.extend(bytes(FREE, &[0, 0]));
        assert!(recorded(&log, MAX_MALLOCS - 1).is_ok());
        assert_eq!(recorded(&log, MAX_MALLOCS), NOT_READ);
        assert_eq!(recorded(&log, MAX_MALLOCS + 1), NOT_READ);
    }

    #[test]
    fn the_program_prints_bytes_or_a_line() {
        let log = case_l();
        let recording = answer(&log, 2, Choice::Recording);
        assert_eq!(recording, "01 08 00 00 00 05 00 09 00 00 00");
        let replay = answer(&log, 2, Choice::Replay);
        assert_eq!(replay, "01 08 00 00 00 01 00 07 00 00 00");
        assert_eq!(answer(&log, 4, Choice::Recording), "refused 16 0");
        assert_eq!(answer(&log, 4, Choice::Replay), "refused 16 0");
    }

    #[test]
    fn what_is_not_accepted_has_no_replay() {
        let log = bytes(GET_DATA, &[0, 0, 0]);
        assert_eq!(answer(&log, 0, Choice::Recording), "06 03 00 00 00 00");
        assert_eq!(answer(&log, 0, Choice::Replay), "refused 12 0 0");
        let long = vec![0; MAX_LOG_BYTES + 1];
        assert_eq!(answer(&long, 0, Choice::Recording), "refused 1 0");
        assert_eq!(answer(&long, 0, Choice::Replay), "refused 1 0");
    }
}
