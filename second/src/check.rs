//! Properties that documents 01 and 02 demand, checked on random logs.

use crate::field::{self, Field, Slot::*, HEADER, MALLOC};
use crate::heap::*;
use crate::hex::to_hex;
use crate::judge::{Cursor, Judge, Tally, Verdict, MAX_FIELDS};
use crate::lines::{Kind, Summary};
use crate::plain::{judge_plainly, PlainHeap};
use crate::random::{edge_field, make_log, Random};
use crate::refusal::*;
use crate::replay::{replay_of, write_replay};
use crate::show::{show, Choice};

type Checked = Result<(), String>;

fn ensure(holds: bool, what: &str) -> Checked {
    if holds {
        Ok(())
    } else {
        Err(what.to_string())
    }
}

/// Checks every property on the logs of a seed.
pub fn check(judge: &Judge, seed: u64, count: u64) -> Result<Summary, String> {
    let mut summary = Summary::default();
    for index in 0..count {
        let log = make_log(seed, index);
        // Another stream than the log's own numbers.
        let mut random = Random::new(!seed, index);
        let verdict = check_log(judge, &log, &mut random).map_err(|what| {
            let log = to_hex(&log);
            format!("log {index} of seed {seed}: {what}\nlog: {log}")
        })?;
        summary.add(Kind::of(&log, &verdict));
    }
    Ok(summary)
}

fn check_log(judge: &Judge, log: &[u8], random: &mut Random) -> Result<Verdict, String> {
    let mut recording = Judged::of(judge, log, Heap::fresh());
    let verdict = recording.verdict;
    check_live_count(&recording)?;
    check_fields(log)?;
    check_written_field(random)?;
    check_place(log, &verdict)?;
    check_shown_stop(log, &verdict)?;
    check_shown_pair(judge, log, random)?;
    check_replay(judge, log, &recording)?;
    check_short_output(judge, log, random)?;
    check_without_marks(judge, log, &recording)?;
    check_longer_buffers(judge, log, &mut recording, random)?;
    check_short_buffer(judge, log, random)?;
    Ok(verdict)
}

/// What judging leaves.
struct Judged {
    verdict: Verdict,
    heap: Heap,
    tally: Tally,
}

/// A tally no run can leave, to see whether it is touched.
const FOREIGN_TALLY: Tally = Tally {
    fields: 77_777,
    mallocs: 88_888,
    live: 99_999,
};

impl Judged {
    fn of(judge: &Judge, log: &[u8], mut heap: Heap) -> Judged {
        let mut tally = FOREIGN_TALLY;
        let verdict = judge.run(log, &mut heap, &mut tally);
        Judged {
            verdict,
            heap,
            tally,
        }
    }
}

/// Order 2: the tally's live count is that of the statuses, at every exit but
/// the outright refusals, which leave the tally.
fn check_live_count(recording: &Judged) -> Checked {
    let Judged { heap, tally, .. } = recording;
    let right = *tally == FOREIGN_TALLY || tally.live == heap.live_cells();
    ensure(right, "the live count is wrong")
}

/// Fields read and written again give the same bytes.
fn check_fields(log: &[u8]) -> Checked {
    let mut rest = log;
    while let Ok(field) = field::read(rest) {
        let mut bytes = vec![0; field.size()];
        let written = field::write(&field, &mut bytes);
        ensure(written == Ok(field.size()), "a field read is not written")?;
        ensure(rest.starts_with(&bytes), "a field is written otherwise")?;
        rest = &rest[field.size()..];
    }
    Ok(())
}

/// A written field reads back as itself; a refused one leaves the output.
fn check_written_field(random: &mut Random) -> Checked {
    let field = edge_field(random);
    let mut output = vec![0xEE; random.below(16)];
    let before = output.clone();
    match field::write(&field, &mut output) {
        Ok(size) => {
            ensure(size == field.size(), "a wrong size was written")?;
            ensure(field::read(&output) == Ok(field), "a field reads otherwise")?;
            ensure(output[size..] == before[size..], "the rest was changed")
        }
        Err(number) => {
            ensure(output == before, "a refusal changed the output")?;
            let row = field::row_of(field.tag).ok_or("an edge field without a row")?;
            let read = field::read(&field::encode(row, &field));
            let same = read == Err(number) || (number == OUTPUT_TOO_SHORT && read.is_ok());
            ensure(same, "reader and writer refuse differently")
        }
    }
}

/// Order 3: a stop's offset is where the lengths of the fields before end.
fn check_place(log: &[u8], verdict: &Verdict) -> Checked {
    verdict.place().map_or(Ok(()), |place| {
        let past = |start: usize, _| start + HEADER + usize::from(log[start + 1]);
        let right = (0..place.field).fold(0, past) == place.offset;
        ensure(right, "a stop is not at its offset")
    })
}

/// The field of a stop is shown from the stop's offset on, unless it was a
/// reading check that stopped there.
fn check_shown_stop(log: &[u8], verdict: &Verdict) -> Checked {
    let place = match verdict.place() {
        Some(place) => place,
        None => return Ok(()),
    };
    let shown = show(log, &[], Choice::Recording, place.field);
    match *verdict {
        Verdict::Refused { number, .. } if number <= TOO_MANY_MALLOCS => {
            let refused = shown == Err(Verdict::RefusedOutright(FIELD_NOT_READ));
            ensure(refused, "a field that is not read is shown")
        }
        _ => {
            let part = shown.map_err(|stop| format!("a stop's field is {stop}"))?;
            let starts_there = log[place.offset..].starts_with(part);
            ensure(starts_there && is_one_field(part), "a stop's part is wrong")
        }
    }
}

fn is_one_field(part: &[u8]) -> bool {
    field::read(part).map_or(false, |field| field.size() == part.len())
}

/// The parts of one field number, of an accepted log and its replay, are equal
/// but for a malloc's cell and data.
fn check_shown_pair(judge: &Judge, log: &[u8], random: &mut Random) -> Checked {
    let replay = match replay_of(judge, log) {
        Ok(replay) => replay,
        Err(_) => return Ok(()),
    };
    let number = random.below(MAX_FIELDS.min(log.len() / 4 + 1));
    let part = |choice| show(log, &replay, choice, number);
    match (part(Choice::Recording), part(Choice::Replay)) {
        (Ok(recorded), Ok(copied)) => {
            let own = if recorded[0] == MALLOC {
                HEADER + 2
            } else {
                recorded.len()
            };
            let alike = recorded.len() == copied.len() && recorded[..own] == copied[..own];
            ensure(
                alike && is_one_field(recorded),
                "the parts of a pair differ",
            )
        }
        (recorded, copied) => ensure(recorded == copied, "only one part of a pair is shown"),
    }
}

fn check_replay(judge: &Judge, log: &[u8], recording: &Judged) -> Checked {
    let mut heap = Heap::fresh();
    let mut tally = FOREIGN_TALLY;
    let mut output = vec![0xEE; log.len() + 3];
    let before = output.clone();
    let verdict = write_replay(judge, log, &mut heap, &mut tally, &mut output);
    ensure(verdict == recording.verdict, "the replay's answer differs")?;
    ensure(heap == recording.heap, "the replay leaves another heap")?;
    ensure(tally == recording.tally, "the replay leaves another tally")?;
    if !verdict.is_accepted() {
        return ensure(output == before, "a stop changed the output");
    }
    let (replay, past) = output.split_at(log.len());
    ensure(past == [0xEE; 3], "bytes past the log were changed")?;
    let replayed = Judged::of(judge, replay, Heap::fresh());
    ensure(replayed.verdict == verdict, "the replay's verdict differs")?;
    let mut again = vec![0; replay.len()];
    write_replay(judge, replay, &mut heap, &mut tally, &mut again);
    ensure(again == replay, "the replay's replay is another")?;
    check_matching(judge, log, replay)
}

/// Demand 3: the recording and the replay match after each field.
fn check_matching(judge: &Judge, log: &[u8], replay: &[u8]) -> Checked {
    let mut recorded = Side::new(log);
    let mut replayed = Side::new(replay);
    let mut matching = vec![None; CELLS];
    loop {
        let fields = (recorded.next(judge)?, replayed.next(judge)?);
        let (field, copy) = match fields {
            (Some(field), Some(copy)) => (field, copy),
            (None, None) => return Ok(()),
            _ => return Err("the replay has another length".to_string()),
        };
        let expected = expected_copy(&field, &recorded);
        ensure(copy == expected, "the replay has another field")?;
        if field.tag == MALLOC {
            matching[field.at(Cell)] = Some(copy.at(Cell));
        }
        compare_live_counts(&recorded, &replayed)
            .and_then(|()| compare_states(&recorded.heap, &replayed.heap, &matching))
            .map_err(|what| format!("after field {}: {what}", recorded.tally.fields - 1))?;
    }
}

/// The replay's copy of a field as the state after it shows it: the k-th
/// malloc names cell k, with the data that the recorded cell now has.
fn expected_copy(field: &Field, recorded: &Side) -> Field {
    let mut copy = *field;
    if field.tag == MALLOC {
        copy[Cell] = recorded.tally.mallocs as u32 - 1;
        copy[Number] = recorded.heap.cell_data[field.at(Cell)];
    }
    copy
}

/// One of the two logs run side by side.
struct Side<'log> {
    cursor: Cursor<'log>,
    heap: Heap,
    tally: Tally,
}

impl<'log> Side<'log> {
    fn new(log: &'log [u8]) -> Side<'log> {
        Side {
            cursor: Cursor::new(log),
            heap: Heap::fresh(),
            tally: Tally::default(),
        }
    }

    fn next(&mut self, judge: &Judge) -> Result<Option<Field>, String> {
        let stopped = |stop: Verdict| format!("stopped with {stop}");
        let next = self.cursor.next_field().map_err(stopped)?;
        if let Some((field, place)) = &next {
            let stepped = judge.step(field, &mut self.heap, &mut self.tally);
            stepped.map_err(|stop| stopped(stop.at(*place)))?;
        }
        Ok(next.map(|(field, _)| field))
    }
}

fn compare_live_counts(recorded: &Side, replayed: &Side) -> Checked {
    let (here, there) = (recorded.tally.live, replayed.tally.live);
    ensure(here == there, "there are more live cells on one side")?;
    let counted = here == recorded.heap.live_cells() && there == replayed.heap.live_cells();
    ensure(counted, "the live count is wrong")
}

fn compare_states(recorded: &Heap, replayed: &Heap, matching: &[Option<usize>]) -> Checked {
    let same_data = recorded.data_variables == replayed.data_variables;
    ensure(same_data, "a data variable differs")?;
    let pointers = recorded.pointers.iter().zip(&replayed.pointers);
    for (&word, &copy) in pointers {
        compare_words(word, copy, matching)?;
    }
    let mut taken = vec![false; CELLS];
    for cell in (0..CELLS).filter(|&cell| recorded.statuses[cell] == LIVE) {
        let partner = matching[cell].ok_or("a live cell without a match")?;
        ensure(!taken[partner], "two live cells match one")?;
        taken[partner] = true;
        ensure(replayed.statuses[partner] == LIVE, "the match is not live")?;
        let same = recorded.cell_data[cell] == replayed.cell_data[partner];
        ensure(same, "a live cell's data differs")?;
        for selector in 0..2 {
            let word = recorded.selectors[selector_place(cell, selector)];
            let copy = replayed.selectors[selector_place(partner, selector)];
            compare_words(word, copy, matching)?;
        }
    }
    Ok(())
}

/// A valid word is matched by a valid one: unset, or at the matching cell.
/// Invalid words need not match (case E).
fn compare_words(word: u16, copy: u16, matching: &[Option<usize>]) -> Checked {
    if !is_valid(word) {
        return Ok(());
    }
    ensure(is_valid(copy), "a valid word is invalid in the replay")?;
    let expected = match cell_of(word) {
        Some(cell) => Some(matching[cell].ok_or("a word at a cell without a match")?),
        None => None,
    };
    ensure(cell_of(copy) == expected, "a valid word does not match")
}

/// An output one byte short refuses with 15, and 1 comes before it.
fn check_short_output(judge: &Judge, log: &[u8], random: &mut Random) -> Checked {
    if log.is_empty() {
        return Ok(());
    }
    let foreign = foreign_heap(random);
    let mut heap = foreign.clone();
    let mut tally = FOREIGN_TALLY;
    let mut output = vec![0xEE; log.len() - 1];
    let verdict = write_replay(judge, log, &mut heap, &mut tally, &mut output);
    let is_outright = [LOG_TOO_LONG, OUTPUT_TOO_SHORT]
        .iter()
        .any(|&number| verdict == Verdict::RefusedOutright(number));
    ensure(is_outright, "a short output is not refused")?;
    ensure(heap == foreign, "a short output changed the heap")?;
    ensure(tally == FOREIGN_TALLY, "a short output changed the tally")?;
    ensure(output.iter().all(|&b| b == 0xEE), "a short output changed")
}

/// Where no cell is reused the marks make no difference.
fn check_without_marks(judge: &Judge, log: &[u8], recording: &Judged) -> Checked {
    if reuses_a_cell(judge, log) {
        return Ok(());
    }
    let (verdict, plain) = judge_plainly(log);
    let same = verdict == recording.verdict;
    ensure(same, "the reading without marks answers otherwise")?;
    let outright = recording.tally == FOREIGN_TALLY;
    let same = outright || is_unmarked(&recording.heap, &plain);
    ensure(same, "the reading without marks leaves another heap")
}

/// Whether a freed cell is given out again before the log stops.
fn reuses_a_cell(judge: &Judge, log: &[u8]) -> bool {
    let mut side = Side::new(log);
    let mut ever_given = [false; CELLS];
    while let Ok(Some(field)) = side.next(judge) {
        if field.tag == MALLOC {
            if ever_given[field.at(Cell)] {
                return true;
            }
            ever_given[field.at(Cell)] = true;
        }
    }
    false
}

fn is_unmarked(heap: &Heap, plain: &PlainHeap) -> bool {
    let pointers = heap.pointers.iter().map(|&word| cell_of(word));
    let selectors = heap.selectors.iter().map(|&word| cell_of(word));
    pointers.eq(plain.pointers.iter().copied())
        && selectors.eq(plain.selectors.concat())
        && heap.data_variables == plain.data_variables
        && heap.cell_data == plain.cell_data
        && heap.statuses == plain.statuses
}

/// A heap of longer buffers that hold what no run would leave there.
fn foreign_heap(random: &mut Random) -> Heap {
    let mut longer = |size: usize| size + random.below(4);
    Heap {
        pointers: vec![0xABCD; longer(POINTERS)],
        selectors: vec![0xBCDE; longer(SELECTORS)],
        data_variables: vec![0xCDEF_0123; longer(DATA_VARIABLES)],
        cell_data: vec![0xDEF0_1234; longer(CELLS)],
        statuses: vec![0xEF; longer(CELLS)],
    }
}

/// Longer buffers, whatever they held, end alike and keep what lies past.
fn check_longer_buffers(
    judge: &Judge,
    log: &[u8],
    recording: &mut Judged,
    random: &mut Random,
) -> Checked {
    let foreign = foreign_heap(random);
    let judged = Judged::of(judge, log, foreign.clone());
    let same = judged.verdict == recording.verdict && judged.tally == recording.tally;
    ensure(same, "longer buffers change the verdict or tally")?;
    if judged.tally == FOREIGN_TALLY {
        return ensure(
            judged.heap == foreign,
            "an outright refusal changed the heap",
        );
    }
    append_past(&mut recording.heap.pointers, &foreign.pointers);
    append_past(&mut recording.heap.selectors, &foreign.selectors);
    append_past(&mut recording.heap.data_variables, &foreign.data_variables);
    append_past(&mut recording.heap.cell_data, &foreign.cell_data);
    append_past(&mut recording.heap.statuses, &foreign.statuses);
    ensure(
        judged.heap == recording.heap,
        "longer buffers end otherwise",
    )
}

fn append_past<T: Copy>(exact: &mut Vec<T>, longer: &[T]) {
    exact.extend_from_slice(&longer[exact.len()..]);
}

/// One buffer too short refuses with 2, after 1, and touches nothing.
fn check_short_buffer(judge: &Judge, log: &[u8], random: &mut Random) -> Checked {
    let mut short = foreign_heap(random);
    match random.below(5) {
        0 => short.pointers.truncate(random.below(POINTERS)),
        1 => short.selectors.truncate(random.below(SELECTORS)),
        2 => short.data_variables.truncate(random.below(DATA_VARIABLES)),
        3 => short.cell_data.truncate(random.below(CELLS)),
        _ => short.statuses.truncate(random.below(CELLS)),
    }
    let judged = Judged::of(judge, log, short.clone());
    let is_outright = [LOG_TOO_LONG, HEAP_TOO_SHORT]
        .iter()
        .any(|&number| judged.verdict == Verdict::RefusedOutright(number));
    ensure(is_outright, "a short buffer is not refused")?;
    ensure(judged.heap == short, "a short buffer's heap is changed")?;
    ensure(
        judged.tally == FOREIGN_TALLY,
        "a short buffer's tally is changed",
    )
}

#[cfg(test)]
mod tests {
    use super::*;

    #[test]
    fn the_judge_has_the_properties() {
        assert!(check(&Judge::default(), 2, 150).is_ok());
    }

    #[test]
    fn faults_that_break_a_property_are_found() {
        use crate::fault::Fault::*;
        let breaking = [
            LiveNow,
            ReplayCopies,
            UncountedFree,
            UncountedReuse,
            UnsetPasses,
        ];
        for fault in breaking {
            let faulty = Judge { fault: Some(fault) };
            assert!(check(&faulty, 2, 200).is_err(), "{fault:?}");
        }
    }
}
