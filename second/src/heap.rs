//! The heap a caller lends, and the pointer words it is made of.

/// A word that points to no cell.
pub const UNSET: u16 = 1024;
/// Added to a word that is not valid.
pub const INVALID: u16 = 2048;

pub const NEVER_USED: u8 = 0;
pub const LIVE: u8 = 1;
pub const FREED: u8 = 2;

pub const POINTERS: usize = 80;
pub const SELECTORS: usize = 2048;
pub const DATA_VARIABLES: usize = 80;
pub const CELLS: usize = 1024;

pub fn is_valid(word: u16) -> bool {
    word & INVALID == 0
}

/// The cell a word holds, `None` where it is unset; the mark plays no part.
pub fn cell_of(word: u16) -> Option<usize> {
    let bare = word & !INVALID;
    (bare != UNSET).then_some(usize::from(bare))
}

/// Where a cell's selector lies among the selector words.
pub fn selector_place(cell: usize, selector: usize) -> usize {
    2 * cell + selector
}

/// The five buffers. They may have any length: shorter than their size gives
/// a refusal, and what lies past it is never changed.
#[derive(Clone, PartialEq, Eq, Debug)]
pub struct Heap {
    pub pointers: Vec<u16>,
    pub selectors: Vec<u16>,
    pub data_variables: Vec<u32>,
    pub cell_data: Vec<u32>,
    pub statuses: Vec<u8>,
}

impl Heap {
    /// Buffers of just the right sizes, as at the start.
    pub fn fresh() -> Heap {
        Heap {
            pointers: vec![UNSET; POINTERS],
            selectors: vec![UNSET; SELECTORS],
            data_variables: vec![0; DATA_VARIABLES],
            cell_data: vec![0; CELLS],
            statuses: vec![NEVER_USED; CELLS],
        }
    }

    /// Whether every buffer has its size at least.
    pub fn has_room(&self) -> bool {
        self.pointers.len() >= POINTERS
            && self.selectors.len() >= SELECTORS
            && self.data_variables.len() >= DATA_VARIABLES
            && self.cell_data.len() >= CELLS
            && self.statuses.len() >= CELLS
    }

    /// Puts the named sizes as at the start; the lent buffers may hold anything.
    pub fn reset(&mut self) {
        self.pointers[..POINTERS].fill(UNSET);
        self.selectors[..SELECTORS].fill(UNSET);
        self.data_variables[..DATA_VARIABLES].fill(0);
        self.cell_data[..CELLS].fill(0);
        self.statuses[..CELLS].fill(NEVER_USED);
    }

    pub fn live_cells(&self) -> usize {
        let statuses = self.statuses[..CELLS].iter();
        statuses.filter(|&&status| status == LIVE).count()
    }

    /// Takes validity from every word that holds the cell.
    pub fn invalidate_words_at(&mut self, cell: usize) {
        let pointers = self.pointers[..POINTERS].iter_mut();
        let selectors = self.selectors[..SELECTORS].iter_mut();
        // Only valid words can still lose validity, so one comparison will do.
        let valid_word = cell as u16;
        for word in pointers.chain(selectors) {
            if *word == valid_word {
                *word |= INVALID;
            }
        }
    }
}
