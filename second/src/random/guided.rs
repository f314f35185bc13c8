//! Guided logs: each next field is chosen with an eye on the heap, so that
//! the log goes on; the last one may be chosen to stop it.

use super::style::Style;
use super::Random;
use crate::field::{self, may_name, Field, *};
use crate::heap::{cell_of, is_valid, selector_place, Heap, CELLS, LIVE, POINTERS};
use crate::judge::{asserts_equal, Judge, Tally, MAX_FIELDS, MAX_MALLOCS};

/// How a guided log ends.
#[derive(Clone, Copy)]
enum Ending {
    Clean,
    TooManyMallocs,
    Race(u8),
    UnsetPointer,
    LiveCell,
    FailingAssertion,
}

const THREADS: u32 = LAST_THREAD + 1;

/// An ending may need a few fields to prepare it.
const ROOM_TO_END: usize = 5;

pub fn guided_log(random: &mut Random) -> Vec<u8> {
    let length = match random.below(20) {
        0..=4 => random.between(1, 12),
        5..=11 => random.between(13, 100),
        12..=16 => random.between(101, 800),
        17..=18 => random.between(801, MAX_FIELDS),
        _ => MAX_FIELDS,
    };
    let ending = any_ending(random);
    let mut guide = Guide::new(random);
    if matches!(ending, Ending::Clean) {
        guide.extend_to(length);
        return guide.log;
    }
    guide.extend_to(length.min(MAX_FIELDS - ROOM_TO_END));
    guide.end_with(ending);
    guide.log
}

/// A guided log that is accepted, of at most so many fields.
pub fn clean_log(random: &mut Random, most_fields: usize) -> Vec<u8> {
    let length = random.below(most_fields + 1);
    let mut guide = Guide::new(random);
    guide.extend_to(length);
    guide.log
}

/// The commands that can race; each kind of cas counts for two.
const RACING: [u8; 11] = [
    FREE, LOAD, STORE, GET_DATA, SET_DATA, SAME_CELL, OTHER_CELL, CAS_DONE, CAS_DONE, CAS_FAILED,
    CAS_FAILED,
];

/// The assertions; each kind of cas counts for two.
const ASSERTING: [u8; 8] = [
    SAME_CELL,
    OTHER_CELL,
    SAME_NUMBER,
    OTHER_NUMBER,
    CAS_DONE,
    CAS_DONE,
    CAS_FAILED,
    CAS_FAILED,
];

fn any_ending(random: &mut Random) -> Ending {
    match random.below(100) {
        0..=49 => Ending::Clean,
        50..=52 => Ending::TooManyMallocs,
        53..=81 => Ending::Race(random.one_of(&RACING)),
        82..=85 => Ending::UnsetPointer,
        86..=89 => Ending::LiveCell,
        _ => Ending::FailingAssertion,
    }
}

struct Guide<'r> {
    random: &'r mut Random,
    style: Style,
    heap: Heap,
    tally: Tally,
    log: Vec<u8>,
}

/// The steps of a guided log.
impl<'r> Guide<'r> {
    fn new(random: &'r mut Random) -> Guide<'r> {
        let style = Style::any(random);
        Guide {
            random,
            style,
            heap: Heap::fresh(),
            tally: Tally::default(),
            log: Vec::new(),
        }
    }

    fn extend_to(&mut self, length: usize) {
        while self.tally.fields < length {
            let field = self.next_field();
            self.push(&field);
        }
    }

    fn next_field(&mut self) -> Field {
        // A style may leave few commands possible; then a constant goes on.
        for _ in 0..40 {
            let tag = self.weighted_tag();
            if let Some(field) = self.propose(tag).filter(|field| self.passes(field)) {
                return field;
            }
        }
        let thread = self.thread();
        let x = self.name(thread);
        Field::of(CONSTANT, &[thread, x, self.random.number()])
    }

    fn weighted_tag(&mut self) -> u8 {
        let total = self.style.weights.iter().sum();
        let mut left = self.random.below(total);
        for (index, &weight) in self.style.weights.iter().enumerate() {
            if left < weight {
                return index as u8 + 1;
            }
            left -= weight;
        }
        unreachable!("the number left is below the sum of the weights")
    }

    fn passes(&self, field: &Field) -> bool {
        let judge = Judge::default();
        judge.stop(field, &self.heap, &self.tally).is_none()
    }

    /// Adds the field to the log and, where it passes, to the state.
    fn push(&mut self, field: &Field) {
        let mut bytes = vec![0; field.size()];
        field::write(field, &mut bytes).expect("guided fields have good numbers");
        self.log.extend_from_slice(&bytes);
        let _ = Judge::default().step(field, &mut self.heap, &mut self.tally);
    }

    /// A field of the tag that has good chances, `None` where there is none.
    fn propose(&mut self, tag: u8) -> Option<Field> {
        let t = self.thread();
        let numbers = match tag {
            MALLOC => vec![t, self.target(t), self.idle_cell()?, self.random.number()],
            FREE => vec![t, self.freeable(t)?],
            COPY => vec![t, self.target(t), self.source(t)],
            LOAD => {
                let (q, selector) = self.loadable(t)?;
                vec![t, self.target(t), q, selector]
            }
            STORE => vec![t, self.solid(t)?, self.selector(), self.source(t)],
            GET_DATA => vec![t, self.name(t), self.solid(t)?],
            SET_DATA => vec![t, self.solid(t)?, self.name(t)],
            CONSTANT => vec![t, self.name(t), self.random.number()],
            SAME_CELL | OTHER_CELL | CAS_DONE | CAS_FAILED => {
                let p = self.valid(t)?;
                let q = self.partner(t, p, asserts_equal(tag) == Some(true))?;
                // Only a cas takes the third variable.
                vec![t, p, q, self.source(t)]
            }
            SAME_NUMBER | OTHER_NUMBER => {
                let x = self.name(t);
                vec![t, x, self.number_partner(t, x, tag == SAME_NUMBER)?]
            }
            _ => vec![t, self.name(t), self.name(t), self.name(t)],
        };
        Some(Field::of(tag, &numbers))
    }
}

/// The choice of threads, variables and cells.
impl<'r> Guide<'r> {
    fn thread(&mut self) -> u32 {
        self.random.below(self.style.threads) as u32
    }

    fn name(&mut self, thread: u32) -> u32 {
        let place = self.random.below(self.style.names());
        self.style.name(thread, place)
    }

    fn selector(&mut self) -> u32 {
        self.random.below(2) as u32
    }

    /// Some variable of the thread that is as wanted.
    fn pick(&mut self, thread: u32, wanted: impl Fn(&Heap, u32) -> bool) -> Option<u32> {
        let names = self.style.names();
        let first = self.random.below(names);
        (first..first + names)
            .map(|place| self.style.name(thread, place % names))
            .find(|&name| wanted(&self.heap, name))
    }

    fn solid(&mut self, thread: u32) -> Option<u32> {
        self.pick(thread, is_solid)
    }

    fn valid(&mut self, thread: u32) -> Option<u32> {
        let solid = self.solid(thread).filter(|_| self.random.percent(85));
        solid.or_else(|| self.pick(thread, |heap, name| is_valid(word(heap, name))))
    }

    /// A pointer to free: at best one whose cell other words hold too.
    fn freeable(&mut self, thread: u32) -> Option<u32> {
        match self.random.below(10) {
            0 => self.pick(thread, is_blank),
            1..=4 => self.solid(thread),
            _ => {
                let shared = |heap: &Heap, name| is_solid(heap, name) && is_doubled(heap, name);
                self.pick(thread, shared).or_else(|| self.solid(thread))
            }
        }
    }

    /// A pointer to overwrite: rarely the last that holds its cell, or the
    /// log would soon have live cells nobody can reach.
    fn target(&mut self, thread: u32) -> u32 {
        let spare = |heap: &Heap, name| !is_solid(heap, name) || is_doubled(heap, name);
        let chosen = if self.random.percent(85) {
            self.pick(thread, spare)
        } else {
            None
        };
        chosen.unwrap_or_else(|| self.name(thread))
    }

    /// A pointer to copy, at times a stale one.
    fn source(&mut self, thread: u32) -> u32 {
        let chosen = if self.random.percent(self.style.stale_share) {
            self.pick(thread, is_stale)
        } else {
            self.solid(thread).filter(|_| self.random.percent(80))
        };
        chosen.unwrap_or_else(|| self.name(thread))
    }

    /// A pointer and a selector to load, at times with a stale word behind.
    fn loadable(&mut self, thread: u32) -> Option<(u32, u32)> {
        let selector = self.selector();
        let stale_behind = |heap: &Heap, name| {
            let cell = cell_of(word(heap, name)).filter(|_| is_solid(heap, name));
            cell.map_or(false, |cell| {
                !is_valid(heap.selectors[selector_place(cell, selector as usize)])
            })
        };
        let stale = if self.random.percent(self.style.stale_share) {
            self.pick(thread, stale_behind)
        } else {
            None
        };
        let q = stale.or_else(|| self.solid(thread))?;
        Some((q, selector))
    }

    /// A second side for a pointer assertion that then holds.
    fn partner(&mut self, thread: u32, p: u32, same: bool) -> Option<u32> {
        let cell = cell_of(word(&self.heap, p));
        let fits = |heap: &Heap, name| {
            let alike = cell_of(word(heap, name)) == cell;
            is_valid(word(heap, name)) && alike == same
        };
        let set = |heap: &Heap, name| is_solid(heap, name) && fits(heap, name);
        let set_partner = self.pick(thread, set).filter(|_| self.random.percent(70));
        set_partner.or_else(|| self.pick(thread, fits))
    }

    fn number_partner(&mut self, thread: u32, x: u32, same: bool) -> Option<u32> {
        let number = self.heap.data_variables[x as usize];
        self.pick(thread, |heap, name| {
            (heap.data_variables[name as usize] == number) == same
        })
    }

    /// A cell that is not live: of the style's, rarely any.
    fn idle_cell(&mut self) -> Option<u32> {
        let window = self.style.cells;
        let first = self.random.below(window.size);
        let idle = (first..first + window.size)
            .map(|place| window.at(place % window.size))
            .find(|&cell| self.heap.statuses[cell] != LIVE);
        match idle {
            Some(cell) => Some(cell as u32),
            None if self.random.percent(10) => self.any_cell(|status| status != LIVE),
            None => None,
        }
    }

    fn any_cell(&mut self, wanted: impl Fn(u8) -> bool) -> Option<u32> {
        let first = self.random.below(CELLS);
        (first..first + CELLS)
            .map(|place| place % CELLS)
            .find(|&cell| wanted(self.heap.statuses[cell]))
            .map(|cell| cell as u32)
    }
}

/// The last fields of a log that is to stop.
impl<'r> Guide<'r> {
    fn end_with(&mut self, ending: Ending) {
        let last = match ending {
            Ending::Clean => None,
            Ending::TooManyMallocs => self.malloc_too_many(),
            Ending::Race(tag) => self.racing_field(tag),
            Ending::UnsetPointer => self.through_unset(),
            Ending::LiveCell => self.malloc_of_live(),
            Ending::FailingAssertion => self.failing_assertion(),
        };
        if let Some(field) = last {
            self.push(&field);
        }
        // What follows the stop must not matter.
        if self.random.percent(25) {
            for _ in 0..self.random.between(1, 4) {
                let field = self.next_field();
                self.push(&field);
            }
        }
        if self.random.percent(10) {
            let byte = self.random.byte();
            self.log.push(byte);
        }
    }

    /// Some thread with a pointer it may name that is as wanted. Here all
    /// variables count: the style's few may not hold what is needed.
    fn anywhere(&mut self, wanted: impl Fn(&Heap, u32) -> bool) -> Option<(u32, u32)> {
        let first = self.random.below(POINTERS);
        let name = (first..first + POINTERS)
            .map(|place| (place % POINTERS) as u32)
            .find(|&name| wanted(&self.heap, name))?;
        let first_thread = self.random.below(THREADS as usize) as u32;
        (first_thread..first_thread + THREADS)
            .map(|thread| thread % THREADS)
            .find(|&thread| may_name(thread, name))
            .map(|thread| (thread, name))
    }

    /// A stale pointer, at best one that looks sound without its mark.
    fn stale_anywhere(&mut self) -> Option<(u32, u32)> {
        let hidden = |heap: &Heap, name| {
            let cell = cell_of(word(heap, name));
            is_stale(heap, name) && cell.map_or(true, |cell| heap.statuses[cell] == LIVE)
        };
        let found = if self.random.percent(70) {
            self.anywhere(hidden)
        } else {
            None
        };
        found.or_else(|| self.anywhere(is_stale))
    }

    /// Makes a stale pointer where there is none: malloc, copy, free, and at
    /// times malloc of the same cell again.
    fn plant_stale(&mut self) {
        let thread = self.thread();
        let cell = match self.any_cell(|status| status != LIVE) {
            Some(cell) if self.tally.mallocs + 2 <= MAX_MALLOCS => cell,
            _ => return,
        };
        let shared = self.random.below(SHARED_VARIABLES as usize) as u32;
        self.push(&Field::of(MALLOC, &[thread, owned(thread, 0), cell, 3]));
        self.push(&Field::of(COPY, &[thread, shared, owned(thread, 0)]));
        self.push(&Field::of(FREE, &[thread, owned(thread, 0)]));
        if self.random.percent(60) {
            self.push(&Field::of(MALLOC, &[thread, owned(thread, 1), cell, 4]));
        }
    }

    fn racing_field(&mut self, tag: u8) -> Option<Field> {
        if self.anywhere(is_stale).is_none() {
            self.plant_stale();
        }
        let (t, stale) = self.stale_anywhere()?;
        let sound = self.valid(t).filter(|_| self.random.percent(50));
        let numbers = match (tag, sound) {
            (FREE, _) => vec![t, stale],
            (LOAD, _) => vec![t, self.name(t), stale, self.selector()],
            (STORE, _) => vec![t, stale, self.selector(), self.source(t)],
            (GET_DATA, _) => vec![t, self.name(t), stale],
            (SET_DATA, _) => vec![t, stale, self.name(t)],
            // In an assertion or a cas either side may be the stale one, or both.
            (_, Some(p)) => vec![t, p, stale, self.source(t)],
            (_, None) => vec![t, stale, self.source(t), self.source(t)],
        };
        Some(Field::of(tag, &numbers))
    }

    fn through_unset(&mut self) -> Option<Field> {
        let (t, unset) = self.anywhere(is_blank)?;
        let tag = self.random.one_of(&[LOAD, STORE, GET_DATA, SET_DATA]);
        let numbers = match tag {
            LOAD => vec![t, self.name(t), unset, self.selector()],
            STORE => vec![t, unset, self.selector(), self.source(t)],
            GET_DATA => vec![t, self.name(t), unset],
            _ => vec![t, unset, self.name(t)],
        };
        Some(Field::of(tag, &numbers))
    }

    fn malloc_of_live(&mut self) -> Option<Field> {
        let thread = self.thread();
        let p = self.name(thread);
        if self.tally.live == 0 {
            let cell = self.any_cell(|status| status != LIVE)?;
            self.push(&Field::of(MALLOC, &[thread, p, cell, 0]));
        }
        let cell = self.any_cell(|status| status == LIVE)?;
        Some(Field::of(MALLOC, &[thread, p, cell, self.random.number()]))
    }

    /// An assertion that fails; that of a number against itself always can.
    fn failing_assertion(&mut self) -> Option<Field> {
        let t = self.thread();
        let x = self.name(t);
        let tag = self.random.one_of(&ASSERTING);
        let numbers = match asserts_equal(tag) {
            Some(same) => self.unlike_wanted(t, same),
            None => self
                .number_partner(t, x, tag == OTHER_NUMBER)
                .map(|y| vec![t, x, y]),
        };
        let field = numbers.map(|numbers| Field::of(tag, &numbers));
        let failing = field.filter(|field| !self.passes(field));
        Some(failing.unwrap_or_else(|| Field::of(OTHER_NUMBER, &[t, x, x])))
    }

    /// Two sides that are not as a pointer assertion wants them, and what a
    /// cas would copy. Where the style's variables have no such sides, two
    /// cells are given out for it.
    fn unlike_wanted(&mut self, t: u32, same: bool) -> Option<Vec<u32>> {
        let unset = self.pick(t, is_blank).filter(|_| self.random.percent(50));
        let p = unset.or_else(|| self.solid(t));
        let found = p.and_then(|p| Some((p, self.partner(t, p, !same)?)));
        let (p, q) = match found {
            Some(sides) => sides,
            None => {
                let (first, second) = self.plant_pair(t)?;
                (first, if same { second } else { first })
            }
        };
        Some(vec![t, p, q, self.source(t)])
    }

    /// Gives out two cells, to two pointers of the thread.
    fn plant_pair(&mut self, thread: u32) -> Option<(u32, u32)> {
        if self.tally.mallocs + 2 > MAX_MALLOCS {
            return None;
        }
        let pair = (owned(thread, 0), owned(thread, 1));
        for p in [pair.0, pair.1] {
            let cell = self.any_cell(|status| status != LIVE)?;
            self.push(&Field::of(MALLOC, &[thread, p, cell, 0]));
        }
        Some(pair)
    }

    /// Uses up all mallocs, with frees between where the style's cells run
    /// out, and gives one more.
    fn malloc_too_many(&mut self) -> Option<Field> {
        while self.tally.mallocs < MAX_MALLOCS {
            if self.tally.fields + ROOM_TO_END > MAX_FIELDS {
                return None;
            }
            let freed = self.propose(FREE).filter(|_| self.random.percent(40));
            let idle = self.any_cell(|status| status != LIVE)?;
            let made = self.propose(MALLOC);
            let last_resort = Field::of(MALLOC, &[0, 0, idle, 0]);
            let field = freed.or(made).filter(|field| self.passes(field));
            self.push(&field.unwrap_or(last_resort));
        }
        let thread = self.thread();
        let cell = self.random.below(CELLS) as u32;
        Some(Field::of(MALLOC, &[thread, self.name(thread), cell, 0]))
    }
}

fn word(heap: &Heap, name: u32) -> u16 {
    heap.pointers[name as usize]
}

/// Valid and set.
fn is_solid(heap: &Heap, name: u32) -> bool {
    is_valid(word(heap, name)) && cell_of(word(heap, name)).is_some()
}

/// Valid and unset.
fn is_blank(heap: &Heap, name: u32) -> bool {
    is_valid(word(heap, name)) && cell_of(word(heap, name)).is_none()
}

fn is_stale(heap: &Heap, name: u32) -> bool {
    !is_valid(word(heap, name))
}

/// Whether a second pointer variable holds the same word.
fn is_doubled(heap: &Heap, name: u32) -> bool {
    let same = heap.pointers.iter().filter(|&&w| w == word(heap, name));
    same.count() > 1
}
