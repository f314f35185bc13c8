//! One field of a log: the table of tags, and reading and writing by it.

use crate::refusal::*;
use std::ops::{Index, IndexMut};
use Slot::*;

/// A place in a field's value. Its name is the one document 01's table uses,
/// and order 1 of document 02 for tags 14 and 15; `Number` is the data of a
/// malloc and the constant of tag 8.
#[derive(Clone, Copy, PartialEq, Eq, Debug)]
pub enum Slot {
    Thread,
    P,
    Q,
    R,
    Sel,
    X,
    Y,
    Z,
    Cell,
    Number,
}

const SLOTS: usize = 10;

pub const MALLOC: u8 = 1;
pub const FREE: u8 = 2;
pub const COPY: u8 = 3;
pub const LOAD: u8 = 4;
pub const STORE: u8 = 5;
pub const GET_DATA: u8 = 6;
pub const SET_DATA: u8 = 7;
pub const CONSTANT: u8 = 8;
pub const SAME_CELL: u8 = 9;
pub const OTHER_CELL: u8 = 10;
pub const SAME_NUMBER: u8 = 11;
pub const OTHER_NUMBER: u8 = 12;
pub const SUM: u8 = 13;
pub const CAS_DONE: u8 = 14;
pub const CAS_FAILED: u8 = 15;

/// One line of the table.
pub struct Row {
    pub tag: u8,
    pub command: &'static str,
    pub slots: &'static [Slot],
    pub length: usize,
}

pub const LAST_TAG: u8 = 15;
pub const TAGS: usize = LAST_TAG as usize;

pub const TABLE: [Row; TAGS] = [
    row(1, "p := malloc", &[Thread, P, Cell, Number], 8),
    row(2, "p := free", &[Thread, P], 2),
    row(3, "p := q", &[Thread, P, Q], 3),
    row(4, "p := q.sel", &[Thread, P, Q, Sel], 4),
    row(5, "p.sel := q", &[Thread, P, Sel, Q], 4),
    row(6, "x := p.data", &[Thread, X, P], 3),
    row(7, "p.data := x", &[Thread, P, X], 3),
    row(8, "x := constant", &[Thread, X, Number], 6),
    row(9, "assert p = q", &[Thread, P, Q], 3),
    row(10, "assert p ≠ q", &[Thread, P, Q], 3),
    row(11, "assert x = y", &[Thread, X, Y], 3),
    row(12, "assert x ≠ y", &[Thread, X, Y], 3),
    row(13, "x := y + z", &[Thread, X, Y, Z], 4),
    row(14, "cas done", &[Thread, P, Q, R], 4),
    row(15, "cas failed", &[Thread, P, Q, R], 4),
];

const fn row(tag: u8, command: &'static str, slots: &'static [Slot], length: usize) -> Row {
    Row {
        tag,
        command,
        slots,
        length,
    }
}

/// The line of a tag, `None` where the tag is not 1 to 15.
pub fn row_of(tag: u8) -> Option<&'static Row> {
    TABLE.iter().find(|row| row.tag == tag)
}

pub const HEADER: usize = 3;
pub const LAST_THREAD: u32 = 7;
pub const LAST_SELECTOR: u32 = 1;
pub const LAST_CELL: u32 = 1023;
pub const LAST_VARIABLE: u32 = 79;
pub const SHARED_VARIABLES: u32 = 16;
pub const OWNED_VARIABLES: u32 = 8;

impl Slot {
    fn width(self) -> usize {
        match self {
            Cell => 2,
            Number => 4,
            _ => 1,
        }
    }

    fn is_variable(self) -> bool {
        matches!(self, P | Q | R | X | Y | Z)
    }
}

/// A tag with its numbers; the numbers its row lacks are 0 in a field read.
#[derive(Clone, Copy, PartialEq, Eq, Debug)]
pub struct Field {
    pub tag: u8,
    numbers: [u32; SLOTS],
}

impl Index<Slot> for Field {
    type Output = u32;
    fn index(&self, slot: Slot) -> &u32 {
        &self.numbers[slot as usize]
    }
}

impl IndexMut<Slot> for Field {
    fn index_mut(&mut self, slot: Slot) -> &mut u32 {
        &mut self.numbers[slot as usize]
    }
}

impl Field {
    pub fn blank(tag: u8) -> Field {
        let numbers = [0; SLOTS];
        Field { tag, numbers }
    }

    /// A field by its numbers in the order of its row.
    pub fn of(tag: u8, numbers: &[u32]) -> Field {
        let mut field = Field::blank(tag);
        let slots = row_of(tag).map_or(&[][..], |row| row.slots);
        for (&slot, &number) in slots.iter().zip(numbers) {
            field[slot] = number;
        }
        field
    }

    /// The bytes the field takes in a log.
    pub fn size(&self) -> usize {
        HEADER + row_of(self.tag).map_or(0, |row| row.length)
    }

    /// The number as a place in a table.
    pub fn at(&self, slot: Slot) -> usize {
        self[slot] as usize
    }
}

/// One of a thread's own variables, by its place among them.
pub fn owned(thread: u32, place: u32) -> u32 {
    SHARED_VARIABLES + OWNED_VARIABLES * thread + place
}

/// Whether a thread may name a variable: the shared ones and its own.
pub fn may_name(thread: u32, variable: u32) -> bool {
    let own = owned(thread, 0)..owned(thread, OWNED_VARIABLES);
    variable < SHARED_VARIABLES || (variable <= LAST_VARIABLE && own.contains(&variable))
}

/// Checks 7 to 10, the same for the reader and the writer. Only the numbers
/// of the row count: the writer has to ignore all others.
fn check_numbers(row: &Row, field: &Field) -> Result<(), u8> {
    let some = |is_bad: &dyn Fn(Slot) -> bool| row.slots.iter().any(|&slot| is_bad(slot));
    if field[Thread] > LAST_THREAD {
        Err(BAD_THREAD)
    } else if some(&|slot| slot.is_variable() && !may_name(field[Thread], field[slot])) {
        Err(BAD_VARIABLE)
    } else if some(&|slot| slot == Sel && field[Sel] > LAST_SELECTOR) {
        Err(BAD_SELECTOR)
    } else if some(&|slot| slot == Cell && field[Cell] > LAST_CELL) {
        Err(BAD_CELL)
    } else {
        Ok(())
    }
}

/// Reads the field at the front of a part of a log, or gives the refusal's
/// number (its field number is 0 here).
pub fn read(part: &[u8]) -> Result<Field, u8> {
    if part.len() < HEADER {
        return Err(CUT_SHORT);
    }
    let (header, rest) = part.split_at(HEADER);
    let row = row_of(header[0]).ok_or(BAD_TAG)?;
    if usize::from(u16::from_le_bytes([header[1], header[2]])) != row.length {
        return Err(BAD_LENGTH);
    }
    let value = rest.get(..row.length).ok_or(CUT_SHORT)?;
    let field = read_value(row, value);
    check_numbers(row, &field)?;
    Ok(field)
}

fn read_value(row: &Row, value: &[u8]) -> Field {
    let mut field = Field::blank(row.tag);
    let mut rest = value;
    for &slot in row.slots {
        let (bytes, after) = rest.split_at(slot.width());
        let low_byte_first = bytes.iter().rev();
        field[slot] = low_byte_first.fold(0, |sum, &byte| sum << 8 | u32::from(byte));
        rest = after;
    }
    field
}

/// Writes a field at the front of the output and says how many bytes that
/// took, or gives the refusal's number with the output untouched.
pub fn write(field: &Field, output: &mut [u8]) -> Result<usize, u8> {
    let row = row_of(field.tag).ok_or(BAD_TAG)?;
    check_numbers(row, field)?;
    let bytes = encode(row, field);
    let room = output.get_mut(..bytes.len()).ok_or(OUTPUT_TOO_SHORT)?;
    room.copy_from_slice(&bytes);
    Ok(bytes.len())
}

/// The bytes of a field unchecked: the makers of bad logs need these too.
pub fn encode(row: &Row, field: &Field) -> Vec<u8> {
    let length = row.length as u16;
    let mut bytes = vec![row.tag];
    bytes.extend_from_slice(&length.to_le_bytes());
    for &slot in row.slots {
        bytes.extend_from_slice(&field[slot].to_le_bytes()[..slot.width()]);
    }
    bytes
}

#[cfg(test)]
mod tests {
    use super::*;

    #[test]
    fn lengths_are_the_sums_of_widths() {
        for (index, row) in TABLE.iter().enumerate() {
            let width: usize = row.slots.iter().map(|slot| slot.width()).sum();
            assert_eq!(width, row.length, "{}", row.command);
            assert_eq!(usize::from(row.tag), index + 1);
        }
    }

    #[test]
    fn named_tags_stand_by_their_commands() {
        let command = |tag: u8| row_of(tag).unwrap().command;
        assert_eq!(command(MALLOC), "p := malloc");
        assert_eq!(command(FREE), "p := free");
        assert_eq!(command(COPY), "p := q");
        assert_eq!(command(LOAD), "p := q.sel");
        assert_eq!(command(STORE), "p.sel := q");
        assert_eq!(command(GET_DATA), "x := p.data");
        assert_eq!(command(SET_DATA), "p.data := x");
        assert_eq!(command(CONSTANT), "x := constant");
        assert_eq!(command(SAME_CELL), "assert p = q");
        assert_eq!(command(OTHER_CELL), "assert p ≠ q");
        assert_eq!(command(SAME_NUMBER), "assert x = y");
        assert_eq!(command(OTHER_NUMBER), "assert x ≠ y");
        assert_eq!(command(SUM), "x := y + z");
        assert_eq!(command(CAS_DONE), "cas done");
        assert_eq!(command(CAS_FAILED), "cas failed");
    }

    #[test]
    fn reading_refuses_in_order() {
        assert_eq!(read(&[]), Err(4));
        assert_eq!(read(&[16]), Err(4));
        assert_eq!(read(&[16, 0]), Err(4));
        assert_eq!(read(&[16, 0, 0]), Err(5));
        assert_eq!(read(&[0, 0, 0]), Err(5));
        assert_eq!(read(&[2, 3, 0]), Err(6));
        assert_eq!(read(&[2, 2, 1, 0, 0]), Err(6));
        assert_eq!(read(&[2, 2, 0, 8]), Err(4));
        assert_eq!(read(&[4, 4, 0, 8, 80, 80, 2]), Err(7));
        assert_eq!(read(&[4, 4, 0, 7, 80, 80, 2]), Err(8));
        assert_eq!(read(&[4, 4, 0, 7, 79, 71, 2]), Err(8));
        assert_eq!(read(&[4, 4, 0, 7, 79, 72, 2]), Err(9));
        assert_eq!(read(&[1, 8, 0, 0, 24, 0, 4, 0, 0, 0, 0]), Err(8));
        assert_eq!(read(&[1, 8, 0, 0, 23, 0, 4, 0, 0, 0, 0]), Err(10));
    }

    #[test]
    fn every_variable_of_a_cas_counts() {
        for tag in [CAS_DONE, CAS_FAILED] {
            let good = Field::of(tag, &[1, 15, 24, 31]);
            assert_eq!(read(&[tag, 4, 0, 1, 15, 24, 31]), Ok(good));
            assert_eq!(read(&[tag, 4, 0, 1, 16, 24, 31]), Err(8));
            assert_eq!(read(&[tag, 4, 0, 1, 15, 23, 31]), Err(8));
            assert_eq!(read(&[tag, 4, 0, 1, 15, 24, 32]), Err(8));
            assert_eq!(read(&[tag, 4, 0, 8, 80, 80, 80]), Err(7));
            assert_eq!(read(&[tag, 3, 0, 1, 15, 24, 31]), Err(6));
            assert_eq!(read(&[tag, 4, 0, 1, 15, 24]), Err(4));
        }
    }

    #[test]
    fn reading_leaves_lacking_numbers_at_0_and_ignores_what_follows() {
        let field = read(&[4, 4, 0, 7, 79, 72, 1, 99, 99]).unwrap();
        assert_eq!(field, Field::of(LOAD, &[7, 79, 72, 1]));
        assert_eq!((field[X], field[Cell], field[Number]), (0, 0, 0));
    }

    #[test]
    fn writing_refuses_in_order_and_leaves_the_output() {
        let mut output = [0xEE; 10];
        let cases = [
            (Field::of(0, &[]), 5),
            (Field::of(16, &[]), 5),
            (Field::of(CAS_FAILED, &[0, 0, 0, 80]), 8),
            (Field::of(LOAD, &[8, 80, 80, 2]), 7),
            (Field::of(LOAD, &[0, 24, 0, 2]), 8),
            (Field::of(LOAD, &[0, 23, 15, 2]), 9),
            (Field::of(MALLOC, &[0, 0, 1024, 0]), 10),
            (Field::of(MALLOC, &[0, 0, 1023, 0]), 15),
        ];
        for (field, number) in cases {
            assert_eq!(write(&field, &mut output), Err(number));
            assert_eq!(output, [0xEE; 10]);
        }
    }

    #[test]
    fn writing_ignores_numbers_the_row_lacks_and_keeps_the_rest() {
        let mut field = Field::of(FREE, &[7, 79]);
        field[Sel] = 99;
        field[Cell] = 5000;
        field[Q] = 80;
        let mut output = [0xEE; 6];
        assert_eq!(write(&field, &mut output), Ok(5));
        assert_eq!(output, [2, 2, 0, 7, 79, 0xEE]);
    }
}
