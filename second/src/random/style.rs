//! What a guided log keeps to: how many threads, which variables and cells,
//! how often each command. Narrow styles bring words to meet often.

use super::Random;
use crate::field::{owned, OWNED_VARIABLES, SHARED_VARIABLES, TAGS};
use crate::heap::CELLS;

const ALL_SHARED: usize = SHARED_VARIABLES as usize;
const ALL_OWNED: usize = OWNED_VARIABLES as usize;

pub struct Style {
    pub threads: usize,
    shared: Window,
    owned: Window,
    pub cells: Window,
    /// How often each tag is chosen, tag 1 at place 0.
    pub weights: [usize; TAGS],
    /// How often, in percent, a copy looks for a stale word first.
    pub stale_share: usize,
}

/// Some neighbours of a circle of numbers.
#[derive(Clone, Copy)]
pub struct Window {
    first: usize,
    pub size: usize,
    circle: usize,
}

impl Window {
    fn any(random: &mut Random, size: usize, circle: usize) -> Window {
        let first = random.below(circle);
        Window {
            first,
            size,
            circle,
        }
    }

    pub fn at(&self, place: usize) -> usize {
        (self.first + place) % self.circle
    }
}

impl Style {
    pub fn any(random: &mut Random) -> Style {
        let shared = random.one_of(&[1, 2, 3, 4, 8, 16]);
        let owned = random.one_of(&[0, 1, 2, 3, 8]);
        let cells = random.one_of(&[1, 2, 3, 4, 6, 8, 32, CELLS]);
        Style {
            threads: random.one_of(&[1, 2, 3, 8, 8]),
            shared: Window::any(random, shared, ALL_SHARED),
            owned: Window::any(random, owned, ALL_OWNED),
            cells: Window::any(random, cells, CELLS),
            weights: any_weights(random),
            stale_share: random.one_of(&[10, 40, 70]),
        }
    }

    /// How many variables of a kind one thread names.
    pub fn names(&self) -> usize {
        self.shared.size + self.owned.size
    }

    /// One of the variables a thread names, by its place among them.
    pub fn name(&self, thread: u32, place: usize) -> u32 {
        if place < self.shared.size {
            self.shared.at(place) as u32
        } else {
            owned(thread, self.owned.at(place - self.shared.size) as u32)
        }
    }
}

fn any_weights(random: &mut Random) -> [usize; TAGS] {
    let mut weights = [14, 8, 8, 12, 12, 5, 5, 5, 4, 4, 3, 3, 4, 8, 6];
    for weight in weights.iter_mut() {
        *weight = (*weight * random.one_of(&[1, 2, 2, 2, 4])) / 2;
    }
    // Some logs do little else than malloc and free.
    if random.percent(15) {
        weights[0] *= 6;
        weights[1] *= 8;
    }
    weights
}
