//! Logs at the edges of every limit, on either side.

use super::guided::clean_log;
use super::Random;
use crate::field::{
    encode, owned, row_of, Field, Slot, FREE, LAST_TAG, LAST_THREAD, LOAD, MALLOC, STORE,
};
use crate::judge::{MAX_FIELDS, MAX_LOG_BYTES, MAX_MALLOCS};

pub fn edge_log(random: &mut Random) -> Vec<u8> {
    match random.below(40) {
        0 => Vec::new(),
        1 => same_bytes(random),
        2..=3 => padded_log(random),
        4..=6 => full_of_fields(random),
        7..=9 => full_of_mallocs(random),
        10..=19 => with_edge_header(random),
        _ => with_edge_field(random),
    }
}

/// Case T and its like.
fn same_bytes(random: &mut Random) -> Vec<u8> {
    let lengths = [1, 2, 3, MAX_LOG_BYTES, MAX_LOG_BYTES + 1, 60_000];
    let length = random.one_of(&lengths);
    vec![random.one_of(&[0, 0, 2, 255]); length]
}

/// A good log drawn out to the last byte allowed, or past it.
fn padded_log(random: &mut Random) -> Vec<u8> {
    let mut log = clean_log(random, 300);
    let length = MAX_LOG_BYTES + random.one_of(&[0, 0, 0, 1]);
    let padding: &[u8] = random.one_of(&[&[0][..], &[2, 2, 0, 0, 0], &[11, 3, 0, 0, 1, 1]]);
    let mut bytes = padding.iter().cycle();
    while log.len() < length {
        log.extend(bytes.next());
    }
    log
}

/// Case S and its like: as many fields as are allowed, one fewer or more.
fn full_of_fields(random: &mut Random) -> Vec<u8> {
    let free = [FREE, 2, 0, 0, 0];
    let mut log = free.repeat(MAX_FIELDS - random.below(2));
    let tails: [&[u8]; 8] = [
        &[],
        &[0],
        &free[..1],
        &free[..4],
        &free,
        &[LAST_TAG + 1, 0, 0],
        &[2, 2, 0, 8, 0],
        &[6, 3, 0, 0, 0, 0],
    ];
    log.extend_from_slice(random.one_of(&tails));
    log
}

/// Case N and its like: all mallocs used, of one cell or of all of them, and
/// then one more, of a cell that would be refused for other reasons too.
fn full_of_mallocs(random: &mut Random) -> Vec<u8> {
    let one_cell = random.percent(50);
    let count = MAX_MALLOCS - random.below(2);
    let mut log = Vec::new();
    for index in 0..count {
        let cell = if one_cell { 5 } else { index as u32 };
        append(&mut log, MALLOC, &[0, 0, cell, index as u32]);
        if one_cell {
            append(&mut log, FREE, &[0, 0]);
        }
    }
    for _ in 0..random.below(3) {
        let cell = random.one_of(&[0, 5, 1023, 1024]);
        append(&mut log, MALLOC, &[0, 0, cell, 9]);
    }
    if random.percent(30) {
        append(&mut log, FREE, &[0, 0]);
    }
    log
}

fn with_edge_header(random: &mut Random) -> Vec<u8> {
    let mut log = prefix(random);
    let field = edge_field(random);
    let row = row_of(field.tag).expect("edge fields have rows");
    let mut bytes = encode(row, &field);
    match random.below(5) {
        0 => bytes[0] = random.one_of(&[0, LAST_TAG, LAST_TAG + 1, 255]),
        1 => bytes[1] = bytes[1].wrapping_add(random.one_of(&[1, 255])),
        2 => bytes[2] = random.one_of(&[1, 255]),
        3 => bytes[1..3].fill(0),
        _ => {}
    }
    // The cut may fall anywhere, or not at all.
    bytes.truncate(random.below(bytes.len() + 1));
    log.extend_from_slice(&bytes);
    log
}

fn with_edge_field(random: &mut Random) -> Vec<u8> {
    let mut log = prefix(random);
    for _ in 0..random.between(1, 3) {
        let field = edge_field(random);
        let row = row_of(field.tag).expect("edge fields have rows");
        log.extend_from_slice(&encode(row, &field));
    }
    log
}

fn prefix(random: &mut Random) -> Vec<u8> {
    let most_fields = random.one_of(&[0, 3, 40]);
    clean_log(random, most_fields)
}

/// A field whose numbers lie at the edges: all on the right side, all but
/// one, or some on either side.
pub fn edge_field(random: &mut Random) -> Field {
    // Few commands have a selector or a cell, so these are favoured.
    let tag = if random.percent(40) {
        random.one_of(&[MALLOC, MALLOC, LOAD, STORE])
    } else {
        random.tag()
    };
    let row = row_of(tag).expect("random tags have rows");
    let manner = random.below(3);
    let only_wrong = random.below(row.slots.len());
    let mut field = Field::blank(tag);
    for (place, &slot) in row.slots.iter().enumerate() {
        let wrong = match manner {
            0 => false,
            1 => place == only_wrong,
            _ => random.percent(50),
        };
        field[slot] = edge_number(random, slot, field[Slot::Thread], wrong);
    }
    field
}

/// A number just on the right or the wrong side of an edge.
fn edge_number(random: &mut Random, slot: Slot, thread: u32, wrong: bool) -> u32 {
    let first_owned = owned(thread.min(LAST_THREAD), 0);
    let right_variables = [0, 15, first_owned, first_owned + 7];
    // Some are right after all: 15, just below thread 0's own, is shared, and
    // 79 is thread 7's.
    let wrong_variables = [first_owned - 1, first_owned + 8, 79, 80, 255];
    match (slot, wrong) {
        (Slot::Thread, false) => random.one_of(&[0, 1, 6, 7]),
        (Slot::Thread, true) => random.one_of(&[8, 128, 255]),
        (Slot::Sel, false) => random.one_of(&[0, 1]),
        (Slot::Sel, true) => random.one_of(&[2, 255]),
        (Slot::Cell, false) => random.one_of(&[0, 1022, 1023]),
        (Slot::Cell, true) => random.one_of(&[1024, 1025, 2048, 65_535]),
        (Slot::Number, _) => random.number(),
        (_, false) => random.one_of(&right_variables),
        (_, true) => random.one_of(&wrong_variables),
    }
}

fn append(log: &mut Vec<u8>, tag: u8, numbers: &[u32]) {
    let row = row_of(tag).expect("only known tags are appended");
    log.extend_from_slice(&encode(row, &Field::of(tag, numbers)));
}
