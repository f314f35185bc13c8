//! The reading without marks: the same cells and data, and a pointer is a
//! race where it holds a freed cell at the moment.

use crate::field::{Field, Slot, Slot::*, *};
use crate::heap::{CELLS, DATA_VARIABLES, FREED, LIVE, NEVER_USED, POINTERS, SELECTORS};
use crate::judge::{
    each_field, gone_through, looked_at, Stop, Verdict, MAX_LOG_BYTES, MAX_MALLOCS,
};
use crate::refusal::*;

type Word = Option<usize>;

/// The heap without marks; `None` is an unset word.
pub struct PlainHeap {
    pub pointers: Vec<Word>,
    pub selectors: Vec<[Word; 2]>,
    pub data_variables: Vec<u32>,
    pub cell_data: Vec<u32>,
    pub statuses: Vec<u8>,
    fields: usize,
    mallocs: usize,
}

/// Judges a whole log by the reading without marks.
pub fn judge_plainly(log: &[u8]) -> (Verdict, PlainHeap) {
    let mut heap = PlainHeap::fresh();
    if log.len() > MAX_LOG_BYTES {
        return (Verdict::RefusedOutright(LOG_TOO_LONG), heap);
    }
    let verdict = match heap.run(log) {
        Ok(()) => heap.accepted(),
        Err(stop) => stop,
    };
    (verdict, heap)
}

impl PlainHeap {
    fn fresh() -> PlainHeap {
        PlainHeap {
            pointers: vec![None; POINTERS],
            selectors: vec![[None; 2]; SELECTORS / 2],
            data_variables: vec![0; DATA_VARIABLES],
            cell_data: vec![0; CELLS],
            statuses: vec![NEVER_USED; CELLS],
            fields: 0,
            mallocs: 0,
        }
    }

    fn accepted(&self) -> Verdict {
        Verdict::Accepted {
            fields: self.fields,
            mallocs: self.mallocs,
            live: self.statuses.iter().filter(|&&s| s == LIVE).count(),
        }
    }

    fn run(&mut self, log: &[u8]) -> Result<(), Verdict> {
        each_field(log, |field, _| {
            self.check(field)?;
            self.apply(field);
            self.fields += 1;
            self.mallocs += usize::from(field.tag == MALLOC);
            Ok(())
        })
    }

    fn check(&self, field: &Field) -> Result<(), Stop> {
        let is_malloc = field.tag == MALLOC;
        let word = |slot: Slot| self.pointers[field.at(slot)];
        let holds_freed = |slot: Slot| word(slot).map_or(false, |a| self.statuses[a] == FREED);
        let refuse_if = |stops: bool, number: u8| {
            if stops {
                Err(Stop::Refused(number))
            } else {
                Ok(())
            }
        };
        refuse_if(is_malloc && self.mallocs >= MAX_MALLOCS, TOO_MANY_MALLOCS)?;
        if let Some(&slot) = looked_at(field.tag).iter().find(|&&s| holds_freed(s)) {
            return Err(Stop::Race {
                thread: field[Thread],
                variable: field[slot],
            });
        }
        let through = gone_through(field.tag);
        refuse_if(through.map_or(false, |s| word(s).is_none()), UNSET_POINTER)?;
        let is_live = is_malloc && self.statuses[field.at(Cell)] == LIVE;
        refuse_if(is_live, CELL_IS_LIVE)?;
        refuse_if(!self.assertion_holds(field), ASSERTION_FAILS)
    }

    fn assertion_holds(&self, field: &Field) -> bool {
        let (p, q) = (self.pointers[field.at(P)], self.pointers[field.at(Q)]);
        let x = self.data_variables[field.at(X)];
        let y = self.data_variables[field.at(Y)];
        match field.tag {
            SAME_CELL | CAS_DONE => p == q,
            OTHER_CELL | CAS_FAILED => p != q,
            SAME_NUMBER => x == y,
            OTHER_NUMBER => x != y,
            _ => true,
        }
    }

    fn apply(&mut self, field: &Field) {
        let (p, q, x, sel) = (field.at(P), field.at(Q), field.at(X), field.at(Sel));
        let word_of_p = self.pointers[p];
        let word_of_q = self.pointers[q];
        match (field.tag, word_of_p, word_of_q) {
            (MALLOC, _, _) => self.malloc(p, field.at(Cell), field[Number]),
            (FREE, Some(cell), _) => self.statuses[cell] = FREED,
            (COPY, _, source) => self.pointers[p] = source,
            (CAS_DONE, _, _) => self.pointers[p] = self.pointers[field.at(R)],
            (LOAD, _, Some(cell)) => self.pointers[p] = self.selectors[cell][sel],
            (STORE, Some(cell), source) => self.selectors[cell][sel] = source,
            (GET_DATA, Some(cell), _) => self.data_variables[x] = self.cell_data[cell],
            (SET_DATA, Some(cell), _) => self.cell_data[cell] = self.data_variables[x],
            (CONSTANT, _, _) => self.data_variables[x] = field[Number],
            (SUM, _, _) => {
                let y = self.data_variables[field.at(Y)];
                let z = self.data_variables[field.at(Z)];
                self.data_variables[x] = y.wrapping_add(z);
            }
            // Assertions, a cas failed, and the free of an unset pointer.
            _ => {}
        }
    }

    fn malloc(&mut self, p: usize, cell: usize, data: u32) {
        if self.statuses[cell] == NEVER_USED {
            self.cell_data[cell] = data;
        }
        self.statuses[cell] = LIVE;
        self.pointers[p] = Some(cell);
    }
}
