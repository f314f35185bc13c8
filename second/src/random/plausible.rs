//! Random bytes with plausible tags: mostly framed, little else considered.

use super::Random;
use crate::field::{encode, row_of, Field, Row, Slot, LAST_TAG};

pub fn plausible_log(random: &mut Random) -> Vec<u8> {
    if random.percent(10) {
        return raw_bytes(random);
    }
    let spread = random.one_of(&[1, 2, 4, 16]);
    let mut log = Vec::new();
    for _ in 0..random.between(1, 40) {
        let row = row_of(random.tag()).expect("random tags have rows");
        let mut bytes = encode(row, &plausible_field(random, row, spread));
        if random.percent(2) {
            let header = random.below(3);
            bytes[header] = random.byte();
        }
        log.extend_from_slice(&bytes);
    }
    if random.percent(20) {
        log.truncate(random.below(log.len() + 1));
    }
    log
}

fn raw_bytes(random: &mut Random) -> Vec<u8> {
    let length = random.below(40);
    (0..length)
        .map(|_| random.byte() % (LAST_TAG + 2))
        .collect()
}

fn plausible_field(random: &mut Random, row: &Row, spread: usize) -> Field {
    let mut field = Field::blank(row.tag);
    for &slot in row.slots {
        field[slot] = match slot {
            Slot::Thread => random.below(8) as u32,
            Slot::Sel => random.below(2) as u32,
            Slot::Cell => random.below(2 * spread) as u32,
            Slot::Number => random.number(),
            _ if random.percent(2) => random.below(82) as u32,
            _ => random.below(spread) as u32,
        };
    }
    field
}
