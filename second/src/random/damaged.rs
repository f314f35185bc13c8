//! Damaged logs: guided ones with bytes or whole fields put wrong.

use super::guided::{clean_log, guided_log};
use super::Random;
use crate::field::HEADER;
use crate::judge::Cursor;

/// Damage to a very long log mostly falls where no reader comes.
const MOST_FIELDS: usize = 200;

pub fn damaged_log(random: &mut Random) -> Vec<u8> {
    let mut log = if random.percent(80) {
        clean_log(random, MOST_FIELDS)
    } else {
        guided_log(random)
    };
    for _ in 0..random.between(1, 3) {
        if random.percent(50) {
            damage_bytes(random, &mut log);
        } else {
            damage_fields(random, &mut log);
        }
    }
    log
}

fn damage_bytes(random: &mut Random, log: &mut Vec<u8>) {
    let at = random.below(log.len() + 1);
    let byte = random.byte();
    if at == log.len() {
        log.push(byte);
        return;
    }
    match random.below(6) {
        0 => log[at] ^= 1 << random.below(8),
        1 => log[at] = byte,
        2 => log[at] = log[at].wrapping_add(random.one_of(&[1, 255])),
        3 => log.truncate(at),
        4 => log.insert(at, byte),
        _ => drop(log.remove(at)),
    }
}

/// Leaves whole fields, so that what goes wrong is in their meaning.
fn damage_fields(random: &mut Random, log: &mut Vec<u8>) {
    let mut fields = split_fields(log);
    if fields.is_empty() {
        return;
    }
    let at = random.below(fields.len());
    let other = random.below(fields.len());
    match random.below(5) {
        0 => drop(fields.remove(at)),
        1 => fields.insert(at, fields[other].clone()),
        2 => fields.swap(at, other),
        3 => {
            let value = 3 + random.below(fields[at].len() - 3);
            fields[at][value] = random.below(24) as u8;
        }
        // Commands of one length change places: = with ≠, load with store, cas
        // done with cas failed.
        _ => change_tag(random, &mut fields[at]),
    }
    *log = fields.concat();
}

fn change_tag(random: &mut Random, field: &mut [u8]) {
    field[0] = match field[1] {
        3 => random.one_of(&[3, 6, 7, 9, 10, 11, 12]),
        4 => random.one_of(&[4, 5, 13, 14, 15]),
        _ => field[0],
    };
}

/// The bytes of each field; a rest that cannot be read counts as one more.
fn split_fields(log: &[u8]) -> Vec<Vec<u8>> {
    let mut cursor = Cursor::new(log);
    let mut fields = Vec::new();
    let mut rest = log;
    while let Ok(Some((field, _))) = cursor.next_field() {
        let (bytes, after) = rest.split_at(field.size());
        fields.push(bytes.to_vec());
        rest = after;
    }
    if rest.len() > HEADER {
        fields.push(rest.to_vec());
    }
    fields
}
