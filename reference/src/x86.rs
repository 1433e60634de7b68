//! The x86-64 board: page tables of four levels (docs/x86-64.md).

use crate::pmap::*;

const WORDS: usize = 8_192;
const TABLE_WORDS: usize = 512;
/// Table t lies at this physical page + t.
const FIRST_TABLE_PAGE: usize = 256;
const PDPT: usize = 1;
const FIRST_DIRECTORY: usize = 2;
const FIRST_LEAF: usize = 6;
const TABLES: usize = 16;
const LEAVES: usize = 10;
const LEAF_WORDS: std::ops::Range<usize> = FIRST_LEAF * TABLE_WORDS..WORDS;

const PRESENT: u64 = 1 << 0;
const WRITABLE: u64 = 1 << 1;
const USER: u64 = 1 << 2;
const ACCESSED: u64 = 1 << 5;
const DIRTY: u64 = 1 << 6;
const WIRED: u64 = 1 << 9;

pub struct X86 {
    words: Vec<u64>,
    marks: Vec<bool>,
    /// The leaf to look at first when one is taken.
    counter: usize,
}

/// The physical page that a word names.
fn page_in(word: u64) -> usize {
    (word >> 12) as usize
}

fn pointer_to(table: usize) -> u64 {
    ((FIRST_TABLE_PAGE + table) as u64) << 12 | USER | WRITABLE | PRESENT
}

fn leaf_word(mapping: Mapping) -> u64 {
    let mut word = (mapping.frame as u64) << 12 | USER | PRESENT;
    if mapping.protection == READ_WRITE {
        word |= WRITABLE;
    }
    if mapping.wired {
        word |= WIRED;
    }
    word
}

fn mapping_in(word: u64) -> Mapping {
    Mapping {
        frame: page_in(word),
        protection: if word & WRITABLE != 0 { READ_WRITE } else { READ },
        wired: word & WIRED != 0,
    }
}

fn maps(word: u64, frame: usize) -> bool {
    word & PRESENT != 0 && page_in(word) == frame
}

impl X86 {
    pub fn new() -> X86 {
        let mut board =
            X86 { words: vec![0; WORDS], marks: vec![false; FRAMES], counter: FIRST_LEAF };
        board.clear();
        board
    }

    /// The table that the word at a position points to, if it is present.
    fn table_below(&self, position: usize) -> Option<usize> {
        let word = self.words[position];
        if word & PRESENT == 0 {
            return None;
        }
        Some(page_in(word) - FIRST_TABLE_PAGE)
    }

    /// The positions of the four words that the walk reads, the leaf word
    /// last. None if the place has no leaf.
    fn walk(&self, place: Place) -> Option<[usize; 4]> {
        let pml4 = 0;
        let pdpt = self.table_below(pml4)? * TABLE_WORDS + place.space as usize;
        let directory = self.table_below(pdpt)? * TABLE_WORDS + place.page as usize / 512;
        let leaf = self.table_below(directory)? * TABLE_WORDS + place.page as usize % 512;
        Some([pml4, pdpt, directory, leaf])
    }

    /// The position of the leaf word that maps the place.
    fn position(&self, place: Place) -> Option<usize> {
        assert_place(place);
        let leaf = self.walk(place)?[3];
        if self.words[leaf] & PRESENT == 0 {
            return None;
        }
        Some(leaf)
    }

    /// Empties a leaf word; its modified bit goes into its frame's mark.
    fn empty(&mut self, position: usize) {
        let word = self.words[position];
        if word & DIRTY != 0 {
            self.marks[page_in(word)] = true;
        }
        self.words[position] = 0;
    }

    fn has_wired(&self, leaf: usize) -> bool {
        let start = leaf * TABLE_WORDS;
        self.words[start..start + TABLE_WORDS].iter().any(|word| word & WIRED != 0)
    }

    /// Takes the first leaf from the counter on without a wired mapping.
    fn take_leaf(&mut self) -> usize {
        let mut leaf = self.counter;
        for _ in 0..LEAVES {
            if !self.has_wired(leaf) {
                break;
            }
            leaf = leaf_after(leaf);
        }
        assert!(!self.has_wired(leaf));
        for position in leaf * TABLE_WORDS..(leaf + 1) * TABLE_WORDS {
            self.empty(position);
        }
        for position in FIRST_DIRECTORY * TABLE_WORDS..FIRST_LEAF * TABLE_WORDS {
            if self.table_below(position) == Some(leaf) {
                self.words[position] = 0;
            }
        }
        self.counter = leaf_after(leaf);
        leaf
    }

    fn wired_elsewhere(&self, own: Option<usize>) -> usize {
        LEAF_WORDS.filter(|&p| Some(p) != own && self.words[p] & WIRED != 0).count()
    }
}

fn leaf_after(leaf: usize) -> usize {
    if leaf + 1 == TABLES {
        FIRST_LEAF
    } else {
        leaf + 1
    }
}

impl Pmap for X86 {
    fn clear(&mut self) {
        self.words.fill(0);
        self.words[0] = pointer_to(PDPT);
        for space in 0..SPACES as usize {
            self.words[PDPT * TABLE_WORDS + space] = pointer_to(FIRST_DIRECTORY + space);
        }
        self.marks.fill(false);
        self.counter = FIRST_LEAF;
    }

    fn enter(&mut self, place: Place, mapping: Mapping) {
        assert_mapping(mapping);
        let own = self.position(place);
        if mapping.wired {
            assert!(self.wired_elsewhere(own) < MOST_WIRED, "refusal 16");
        }
        if self.walk(place).is_none() {
            let leaf = self.take_leaf();
            let directory = FIRST_DIRECTORY + place.space as usize;
            self.words[directory * TABLE_WORDS + place.page as usize / 512] = pointer_to(leaf);
        }
        let position = self.walk(place).expect("the place has a leaf now")[3];
        self.empty(position);
        self.words[position] = leaf_word(mapping);
    }

    fn remove(&mut self, place: Place) {
        if let Some(position) = self.position(place) {
            self.empty(position);
        }
    }

    fn lower(&mut self, place: Place) {
        if let Some(position) = self.position(place) {
            self.words[position] &= !WRITABLE;
        }
    }

    fn drop_frame(&mut self, frame: usize) {
        for position in LEAF_WORDS {
            if maps(self.words[position], frame) {
                self.empty(position);
            }
        }
    }

    fn unwire(&mut self, place: Place) {
        if let Some(position) = self.position(place) {
            self.words[position] &= !WIRED;
        }
    }

    fn access(&mut self, place: Place, write: bool) -> Option<usize> {
        let mapping = self.find(place)?;
        if !mapping.allows(write) {
            return None;
        }
        let walk = self.walk(place)?;
        for position in walk {
            self.words[position] |= ACCESSED;
        }
        if write {
            self.words[walk[3]] |= DIRTY;
        }
        Some(mapping.frame)
    }

    fn find(&self, place: Place) -> Option<Mapping> {
        let position = self.position(place)?;
        Some(mapping_in(self.words[position]))
    }

    fn modified(&self, frame: usize) -> bool {
        let dirty = |word: &u64| word & DIRTY != 0 && maps(*word, frame);
        self.marks[frame] || self.words[LEAF_WORDS].iter().any(dirty)
    }

    fn clear_modified(&mut self, frame: usize) {
        self.marks[frame] = false;
        for position in LEAF_WORDS {
            if maps(self.words[position], frame) {
                self.words[position] &= !DIRTY;
            }
        }
    }
}

#[cfg(test)]
mod tests {
    use super::*;

    const PLACE: Place = Place { space: 1, page: 0x12345 };
    const MAPPING: Mapping = Mapping { frame: 5, protection: READ_WRITE, wired: false };

    fn walked(board: &X86) -> [u64; 4] {
        board.walk(PLACE).unwrap().map(|position| board.words[position])
    }

    #[test]
    fn the_worked_words() {
        let mut board = X86::new();
        board.enter(PLACE, MAPPING);
        assert_eq!(board.walk(PLACE), Some([0, 512 + 1, 3 * 512 + 145, 6 * 512 + 325]));
        assert_eq!(walked(&board)[3], 0x5007);
        assert_eq!(board.access(PLACE, false), Some(5));
        assert_eq!(walked(&board), [0x101027, 0x103027, 0x106027, 0x5027]);
        assert_eq!(board.access(PLACE, true), Some(5));
        assert_eq!(walked(&board)[3], 0x5067);
    }

    #[test]
    fn the_eleventh_leaf_takes_the_first() {
        let mut board = X86::new();
        board.enter(PLACE, MAPPING);
        board.access(PLACE, true);
        for directory in 0..9 {
            board.enter(Place { space: 0, page: 512 * directory }, MAPPING);
        }
        assert_eq!(board.find(PLACE), Some(MAPPING));
        board.enter(Place { space: 2, page: 0 }, Mapping { frame: 6, ..MAPPING });
        assert_eq!(board.find(PLACE), None);
        assert!(board.modified(5));
        assert!(!board.modified(6));
        assert_eq!(board.counter, 7);
    }

    #[test]
    fn a_leaf_with_a_wired_mapping_is_passed_over() {
        let mut board = X86::new();
        board.enter(PLACE, Mapping { wired: true, ..MAPPING });
        for directory in 0..10 {
            board.enter(Place { space: 0, page: 512 * directory }, MAPPING);
        }
        assert!(board.find(PLACE).is_some());
        assert_eq!(board.find(Place { space: 0, page: 0 }), None);
    }
}
