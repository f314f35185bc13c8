//! The replay: the log again with a fresh cell for every malloc.

use crate::fault::Fault;
use crate::field::{self, Field, Slot::*, MALLOC};
use crate::heap::{Heap, NEVER_USED};
use crate::judge::{each_field, outright_refusal, Judge, Tally, Verdict};
use crate::refusal::OUTPUT_TOO_SHORT;

/// Judges a log and, where it is accepted, writes its replay at the front of
/// the output. The heap and tally become those of the recording.
pub fn write_replay(
    judge: &Judge,
    log: &[u8],
    heap: &mut Heap,
    tally: &mut Tally,
    output: &mut [u8],
) -> Verdict {
    if let Some(number) = outright_refusal(log, heap) {
        return Verdict::RefusedOutright(number);
    }
    if output.len() < log.len() {
        return Verdict::RefusedOutright(OUTPUT_TOO_SHORT);
    }
    heap.reset();
    *tally = Tally::default();
    match replay_bytes(judge, log, heap, tally) {
        Ok(replay) => {
            output[..log.len()].copy_from_slice(&replay);
            tally.accepted()
        }
        // The bytes made so far are dropped: the output stays untouched.
        Err(stop) => stop,
    }
}

/// The replay of a log, or the verdict of one that has none.
pub fn replay_of(judge: &Judge, log: &[u8]) -> Result<Vec<u8>, Verdict> {
    let mut output = vec![0; log.len()];
    let mut heap = Heap::fresh();
    match write_replay(judge, log, &mut heap, &mut Tally::default(), &mut output) {
        Verdict::Accepted { .. } => Ok(output),
        stop => Err(stop),
    }
}

fn replay_bytes(
    judge: &Judge,
    log: &[u8],
    heap: &mut Heap,
    tally: &mut Tally,
) -> Result<Vec<u8>, Verdict> {
    let mut replay = log.to_vec();
    each_field(log, |field, place| {
        if field.tag == MALLOC && judge.fault != Some(Fault::ReplayCopies) {
            let copy = replayed_malloc(field, heap, tally);
            overwrite(&copy, &mut replay[place.offset..]);
        }
        judge.step(field, heap, tally)
    })?;
    Ok(replay)
}

/// The replay's copy of a malloc, made from the state before it: the cell is
/// the number of the malloc, the data what the recorded cell has afterwards.
fn replayed_malloc(field: &Field, heap: &Heap, tally: &Tally) -> Field {
    let recorded = field.at(Cell);
    let mut copy = *field;
    copy[Cell] = tally.mallocs as u32;
    if heap.statuses[recorded] != NEVER_USED {
        copy[Number] = heap.cell_data[recorded];
    }
    copy
}

/// A malloc too many has no replay cell and the writer refuses it. That
/// field is about to be refused with 11, and the replay with it.
fn overwrite(field: &Field, place: &mut [u8]) {
    let _ = field::write(field, place);
}
