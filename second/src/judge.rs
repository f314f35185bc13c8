//! The rules: what stops a field, what it does, and the run over a log.

use crate::fault::Fault;
use crate::field::{self, Field, Slot, Slot::*, *};
use crate::heap::*;
use crate::refusal::*;
use std::fmt;

pub const MAX_LOG_BYTES: usize = 45_056;
pub const MAX_FIELDS: usize = 4096;
pub const MAX_MALLOCS: usize = 1024;

/// What was done so far, and how many cells are live.
#[derive(Clone, Copy, PartialEq, Eq, Debug, Default)]
pub struct Tally {
    pub fields: usize,
    pub mallocs: usize,
    pub live: usize,
}

impl Tally {
    /// The verdict of a log whose every field is done.
    pub fn accepted(&self) -> Verdict {
        Verdict::Accepted {
            fields: self.fields,
            mallocs: self.mallocs,
            live: self.live,
        }
    }
}

/// Where a field stands in its log.
#[derive(Clone, Copy, PartialEq, Eq, Debug, Default)]
pub struct Place {
    /// The field's number, from 0.
    pub field: usize,
    /// How many bytes of the log come before it.
    pub offset: usize,
}

/// Why a field stops the run.
#[derive(Clone, Copy, PartialEq, Eq, Debug)]
pub enum Stop {
    Race { thread: u32, variable: u32 },
    Refused(u8),
}

impl Stop {
    pub fn at(self, place: Place) -> Verdict {
        match self {
            Stop::Race { thread, variable } => Verdict::Race {
                place,
                thread,
                variable,
            },
            Stop::Refused(number) => Verdict::Refused { number, place },
        }
    }
}

#[derive(Clone, Copy, PartialEq, Eq, Debug)]
pub enum Verdict {
    Accepted {
        fields: usize,
        mallocs: usize,
        live: usize,
    },
    Race {
        place: Place,
        thread: u32,
        variable: u32,
    },
    Refused {
        number: u8,
        place: Place,
    },
    /// A refusal met at no field; its field number is 0.
    RefusedOutright(u8),
}

/// The line the program prints, without its newline.
impl fmt::Display for Verdict {
    fn fmt(&self, out: &mut fmt::Formatter) -> fmt::Result {
        match self {
            Verdict::Accepted {
                fields,
                mallocs,
                live,
            } => write!(out, "accepted {fields} {mallocs} {live}"),
            Verdict::Race {
                place: Place { field, offset },
                thread,
                variable,
            } => write!(out, "race {field} {thread} {variable} {offset}"),
            Verdict::Refused {
                number,
                place: Place { field, offset },
            } => write!(out, "refused {number} {field} {offset}"),
            Verdict::RefusedOutright(number) => write!(out, "refused {number} 0"),
        }
    }
}

impl Verdict {
    pub fn is_accepted(&self) -> bool {
        matches!(self, Verdict::Accepted { .. })
    }

    /// Where the run stopped, where that was at a field.
    pub fn place(&self) -> Option<Place> {
        match *self {
            Verdict::Race { place, .. } | Verdict::Refused { place, .. } => Some(place),
            Verdict::Accepted { .. } | Verdict::RefusedOutright(_) => None,
        }
    }
}

/// The pointers whose validity a command needs, in the order looked at.
pub fn looked_at(tag: u8) -> &'static [Slot] {
    match tag {
        LOAD => &[Q],
        FREE | STORE | GET_DATA | SET_DATA => &[P],
        _ if asserts_equal(tag).is_some() => &[P, Q],
        _ => &[],
    }
}

/// Whether a command asserts that p and q are equal or that they differ. A cas
/// done starts as the one assertion, a cas failed is the other.
pub fn asserts_equal(tag: u8) -> Option<bool> {
    match tag {
        SAME_CELL | CAS_DONE => Some(true),
        OTHER_CELL | CAS_FAILED => Some(false),
        _ => None,
    }
}

/// The pointer a command goes through.
pub fn gone_through(tag: u8) -> Option<Slot> {
    match tag {
        LOAD => Some(Q),
        STORE | GET_DATA | SET_DATA => Some(P),
        _ => None,
    }
}

/// Hands out the fields of a log one after the other, with checks 3 to 10.
pub struct Cursor<'log> {
    log: &'log [u8],
    next: Place,
}

impl<'log> Cursor<'log> {
    pub fn new(log: &'log [u8]) -> Cursor<'log> {
        let next = Place::default();
        Cursor { log, next }
    }

    /// The next field and its place, `None` at the end of the log.
    pub fn next_field(&mut self) -> Result<Option<(Field, Place)>, Verdict> {
        let place = self.next;
        let refused = |number| Stop::Refused(number).at(place);
        let rest = &self.log[place.offset..];
        if rest.is_empty() {
            return Ok(None);
        }
        if place.field >= MAX_FIELDS {
            return Err(refused(TOO_MANY_FIELDS));
        }
        let field = field::read(rest).map_err(refused)?;
        self.next.field += 1;
        self.next.offset += field.size();
        Ok(Some((field, place)))
    }
}

/// Goes through the fields of a log with checks 3 to 10, up to the first stop,
/// which may be one of the action's.
pub fn each_field(
    log: &[u8],
    mut action: impl FnMut(&Field, Place) -> Result<(), Stop>,
) -> Result<(), Verdict> {
    let mut cursor = Cursor::new(log);
    while let Some((field, place)) = cursor.next_field()? {
        action(&field, place).map_err(|stop| stop.at(place))?;
    }
    Ok(())
}

/// The judge, right or with one known fault.
#[derive(Clone, Copy, Debug, Default)]
pub struct Judge {
    pub fault: Option<Fault>,
}

impl Judge {
    /// Judges a whole log and leaves the heap and tally before the stop.
    pub fn run(&self, log: &[u8], heap: &mut Heap, tally: &mut Tally) -> Verdict {
        if let Some(number) = outright_refusal(log, heap) {
            return Verdict::RefusedOutright(number);
        }
        heap.reset();
        *tally = Tally::default();
        match each_field(log, |field, _| self.step(field, heap, tally)) {
            Ok(()) => tally.accepted(),
            Err(stop) => stop,
        }
    }

    /// One field already read: checks 11 to 14 and the race, then its effect.
    pub fn step(&self, field: &Field, heap: &mut Heap, tally: &mut Tally) -> Result<(), Stop> {
        if let Some(stop) = self.stop(field, heap, tally) {
            return Err(stop);
        }
        self.apply(field, heap, tally);
        tally.fields += 1;
        Ok(())
    }

    /// What stops the field in this state, in the order 11, race, 12, 13, 14.
    pub fn stop(&self, field: &Field, heap: &Heap, tally: &Tally) -> Option<Stop> {
        if field.tag == MALLOC && tally.mallocs >= MAX_MALLOCS {
            return Some(Stop::Refused(TOO_MANY_MALLOCS));
        }
        if let Some(variable) = self.racing_variable(field, heap) {
            let thread = field[Thread];
            return Some(Stop::Race { thread, variable });
        }
        let unset = |slot: Slot| cell_of(heap.pointers[field.at(slot)]).is_none();
        if gone_through(field.tag).map_or(false, unset) {
            return Some(Stop::Refused(UNSET_POINTER));
        }
        if field.tag == MALLOC && heap.statuses[field.at(Cell)] == LIVE {
            return Some(Stop::Refused(CELL_IS_LIVE));
        }
        if !self.assertion_holds(field, heap) {
            return Some(Stop::Refused(ASSERTION_FAILS));
        }
        None
    }

    fn racing_variable(&self, field: &Field, heap: &Heap) -> Option<u32> {
        let word = |slot: Slot| heap.pointers[field.at(slot)];
        let mut slots = looked_at(field.tag).iter();
        let racing = slots.find(|&&slot| self.races(word(slot), heap));
        match racing {
            Some(&slot) => Some(field[slot]),
            None if self.fault == Some(Fault::CopyRaces) => racing_copy(field, heap),
            None => None,
        }
    }

    fn races(&self, word: u16, heap: &Heap) -> bool {
        match self.fault {
            Some(Fault::LiveNow) => cell_of(word).map_or(false, |cell| heap.statuses[cell] != LIVE),
            _ => !is_valid(word),
        }
    }

    fn assertion_holds(&self, field: &Field, heap: &Heap) -> bool {
        let cell = |slot: Slot| cell_of(heap.pointers[field.at(slot)]);
        let number = |slot: Slot| heap.data_variables[field.at(slot)];
        if let Some(wanted) = asserts_equal(field.tag) {
            // Order 4: unset is equal to unset, and differs from every cell.
            return (cell(P) == cell(Q)) == wanted || self.lets_unset_pass(cell(P), cell(Q));
        }
        match field.tag {
            SAME_NUMBER => number(X) == number(Y),
            OTHER_NUMBER => number(X) != number(Y),
            _ => true,
        }
    }

    /// Fault `unset_passes`: document 01's rule, which order 4 replaced.
    fn lets_unset_pass(&self, p: Option<usize>, q: Option<usize>) -> bool {
        self.fault == Some(Fault::UnsetPasses) && (p.is_none() || q.is_none())
    }

    fn apply(&self, field: &Field, heap: &mut Heap, tally: &mut Tally) {
        let (p, q, x) = (field.at(P), field.at(Q), field.at(X));
        match field.tag {
            MALLOC => self.malloc(field, heap, tally),
            FREE => self.free(p, heap, tally),
            COPY => heap.pointers[p] = heap.pointers[q],
            CAS_DONE => heap.pointers[p] = heap.pointers[field.at(R)],
            LOAD => heap.pointers[p] = heap.selectors[selector_through(field, Q, heap)],
            STORE => {
                let place = selector_through(field, P, heap);
                heap.selectors[place] = heap.pointers[q];
            }
            GET_DATA => heap.data_variables[x] = heap.cell_data[cell_through(field, P, heap)],
            SET_DATA => {
                let cell = cell_through(field, P, heap);
                heap.cell_data[cell] = heap.data_variables[x];
            }
            CONSTANT => heap.data_variables[x] = field[Number],
            SUM => {
                let (y, z) = (field.at(Y), field.at(Z));
                // Version counters wrap, so the sum is modulo 2 to the 32nd.
                heap.data_variables[x] =
                    heap.data_variables[y].wrapping_add(heap.data_variables[z]);
            }
            _ => {}
        }
    }

    /// The cell is not live here, or the field would have been refused.
    fn malloc(&self, field: &Field, heap: &mut Heap, tally: &mut Tally) {
        let cell = field.at(Cell);
        let first_use = heap.statuses[cell] == NEVER_USED;
        if first_use {
            heap.cell_data[cell] = field[Number];
        }
        if first_use || self.fault == Some(Fault::ClearedSelectors) {
            heap.selectors[selector_place(cell, 0)] = UNSET;
            heap.selectors[selector_place(cell, 1)] = UNSET;
        }
        heap.statuses[cell] = LIVE;
        heap.pointers[field.at(P)] = cell as u16;
        tally.mallocs += 1;
        if first_use || self.fault != Some(Fault::UncountedReuse) {
            tally.live += 1;
        }
    }

    /// The pointer is valid here, or the field would have been a race. So its
    /// cell, if it has one, is live.
    fn free(&self, pointer: usize, heap: &mut Heap, tally: &mut Tally) {
        let cell = match cell_of(heap.pointers[pointer]) {
            Some(cell) => cell,
            None => return,
        };
        heap.statuses[cell] = FREED;
        if self.fault != Some(Fault::UncountedFree) {
            // Only after a planted fault can the count be 0 here.
            tally.live = tally.live.saturating_sub(1);
        }
        heap.invalidate_words_at(cell);
        for selector in 0..2 {
            let word = &mut heap.selectors[selector_place(cell, selector)];
            let forgotten = self.fault == Some(Fault::UnsetSelectors) && cell_of(*word).is_none();
            if !forgotten {
                *word |= INVALID;
            }
        }
    }
}

/// Refusals 1 and 2, which leave everything untouched.
pub fn outright_refusal(log: &[u8], heap: &Heap) -> Option<u8> {
    if log.len() > MAX_LOG_BYTES {
        Some(LOG_TOO_LONG)
    } else if !heap.has_room() {
        Some(HEAP_TOO_SHORT)
    } else {
        None
    }
}

/// The cell behind a pointer that a command goes through. Refusal 12 came
/// before, so the word is set.
fn cell_through(field: &Field, slot: Slot, heap: &Heap) -> usize {
    cell_of(heap.pointers[field.at(slot)]).expect("an unset pointer is refused before")
}

fn selector_through(field: &Field, slot: Slot, heap: &Heap) -> usize {
    selector_place(cell_through(field, slot, heap), field.at(Sel))
}

/// Fault `copy_races`: the variable named is the one the word comes through.
fn racing_copy(field: &Field, heap: &Heap) -> Option<u32> {
    let source = if field.tag == CAS_DONE { R } else { Q };
    let through = heap.pointers[field.at(source)];
    let copied = match field.tag {
        COPY | STORE | CAS_DONE => through,
        LOAD => heap.selectors[selector_place(cell_of(through)?, field.at(Sel))],
        _ => return None,
    };
    (!is_valid(copied)).then_some(field[source])
}
