//! The PowerPC board: a hashed page table (docs/powerpc.md).

use crate::pmap::*;

const WORDS: usize = 16_384;
const SLOTS: usize = 8_192;
const GROUPS: u32 = 1_024;
const GROUP_SLOTS: usize = 8;

// The first word of a slot.
const VALID: u32 = 1 << 31;
const SECONDARY: u32 = 1 << 6;
// The second word of a slot.
const REFERENCED: u32 = 1 << 8;
const CHANGED: u32 = 1 << 7;
const PP: u32 = 3;
const PP_READ_WRITE: u32 = 2;
const PP_READ: u32 = 3;

pub struct PowerPc {
    words: Vec<u32>,
    /// A modified mark for each frame.
    marks: Vec<bool>,
    /// A wired mark for each slot.
    wired: Vec<bool>,
    /// Where in a group the next forgetting begins to look.
    counter: usize,
}

fn vsid(place: Place) -> u32 {
    16 * place.space + place.page / 65_536
}

fn primary_group(place: Place) -> u32 {
    (vsid(place) ^ (place.page % 65_536)) % GROUPS
}

fn secondary_group(place: Place) -> u32 {
    GROUPS - 1 - primary_group(place)
}

/// The first word of a place's entry in its primary group.
fn first_word(place: Place) -> u32 {
    VALID | (vsid(place) << 7) | ((place.page % 65_536) / 1_024)
}

fn second_word(mapping: Mapping) -> u32 {
    let pp = if mapping.protection == READ_WRITE { PP_READ_WRITE } else { PP_READ };
    (mapping.frame as u32) << 12 | pp
}

fn slots_of(group: u32) -> std::ops::Range<usize> {
    let start = group as usize * GROUP_SLOTS;
    start..start + GROUP_SLOTS
}

impl PowerPc {
    pub fn new() -> PowerPc {
        PowerPc {
            words: vec![0; WORDS],
            marks: vec![false; FRAMES],
            wired: vec![false; SLOTS],
            counter: 0,
        }
    }

    fn first(&self, slot: usize) -> u32 {
        self.words[2 * slot]
    }

    fn second(&self, slot: usize) -> u32 {
        self.words[2 * slot + 1]
    }

    fn in_use(&self, slot: usize) -> bool {
        self.first(slot) & VALID != 0
    }

    fn frame(&self, slot: usize) -> usize {
        (self.second(slot) >> 12) as usize
    }

    fn maps(&self, slot: usize, frame: usize) -> bool {
        self.in_use(slot) && self.frame(slot) == frame
    }

    /// The slot that the hardware finds for the place.
    fn look_up(&self, place: Place) -> Option<usize> {
        assert_place(place);
        let word = first_word(place);
        let primary = slots_of(primary_group(place)).find(|&slot| self.first(slot) == word);
        primary.or_else(|| {
            slots_of(secondary_group(place)).find(|&slot| self.first(slot) == word | SECONDARY)
        })
    }

    /// Empties a slot; its modified bit goes into its frame's mark.
    fn empty(&mut self, slot: usize) {
        if self.second(slot) & CHANGED != 0 {
            let frame = self.frame(slot);
            self.marks[frame] = true;
        }
        self.words[2 * slot] = 0;
        self.words[2 * slot + 1] = 0;
        self.wired[slot] = false;
    }

    fn unused_in(&self, group: u32) -> Option<usize> {
        slots_of(group).find(|&slot| !self.in_use(slot))
    }

    /// The first unwired slot of a group from the counter on, round the group.
    fn unwired_in(&self, group: u32) -> Option<usize> {
        let start = slots_of(group).start;
        (0..GROUP_SLOTS)
            .map(|step| start + (self.counter + step) % GROUP_SLOTS)
            .find(|&slot| !self.wired[slot])
    }

    /// Forgets a mapping to make room for the place, and gives its slot.
    fn forget_for(&mut self, place: Place) -> usize {
        let slot = self
            .unwired_in(primary_group(place))
            .or_else(|| self.unwired_in(secondary_group(place)))
            .expect("at most eight of the sixteen slots are wired");
        self.empty(slot);
        self.counter = (slot % GROUP_SLOTS + 1) % GROUP_SLOTS;
        slot
    }

    fn wired_elsewhere(&self, own: Option<usize>) -> usize {
        (0..SLOTS).filter(|&slot| Some(slot) != own && self.wired[slot]).count()
    }
}

impl Pmap for PowerPc {
    fn clear(&mut self) {
        self.words.fill(0);
        self.marks.fill(false);
        self.wired.fill(false);
        self.counter = 0;
    }

    fn enter(&mut self, place: Place, mapping: Mapping) {
        assert_mapping(mapping);
        let own = self.look_up(place);
        if mapping.wired {
            assert!(self.wired_elsewhere(own) < MOST_WIRED, "refusal 16");
        }
        if let Some(slot) = own {
            self.empty(slot);
        }
        let unused =
            self.unused_in(primary_group(place)).or_else(|| self.unused_in(secondary_group(place)));
        let slot = match unused {
            Some(slot) => slot,
            None => self.forget_for(place),
        };
        let in_primary = slots_of(primary_group(place)).contains(&slot);
        self.words[2 * slot] = first_word(place) | if in_primary { 0 } else { SECONDARY };
        self.words[2 * slot + 1] = second_word(mapping);
        self.wired[slot] = mapping.wired;
    }

    fn remove(&mut self, place: Place) {
        if let Some(slot) = self.look_up(place) {
            self.empty(slot);
        }
    }

    fn lower(&mut self, place: Place) {
        if let Some(slot) = self.look_up(place) {
            let second = self.second(slot);
            self.words[2 * slot + 1] = (second & !PP) | PP_READ;
        }
    }

    fn drop_frame(&mut self, frame: usize) {
        for slot in 0..SLOTS {
            if self.maps(slot, frame) {
                self.empty(slot);
            }
        }
    }

    fn unwire(&mut self, place: Place) {
        if let Some(slot) = self.look_up(place) {
            self.wired[slot] = false;
        }
    }

    fn access(&mut self, place: Place, write: bool) -> Option<usize> {
        let mapping = self.find(place)?;
        if !mapping.allows(write) {
            return None;
        }
        let slot = self.look_up(place)?;
        self.words[2 * slot + 1] |= REFERENCED;
        if write {
            self.words[2 * slot + 1] |= CHANGED;
        }
        Some(mapping.frame)
    }

    fn find(&self, place: Place) -> Option<Mapping> {
        let slot = self.look_up(place)?;
        let writable = self.second(slot) & PP == PP_READ_WRITE;
        Some(Mapping {
            frame: self.frame(slot),
            protection: if writable { READ_WRITE } else { READ },
            wired: self.wired[slot],
        })
    }

    fn modified(&self, frame: usize) -> bool {
        let changed = |slot| self.second(slot) & CHANGED != 0 && self.maps(slot, frame);
        self.marks[frame] || (0..SLOTS).any(changed)
    }

    fn clear_modified(&mut self, frame: usize) {
        self.marks[frame] = false;
        for slot in 0..SLOTS {
            if self.maps(slot, frame) {
                self.words[2 * slot + 1] &= !CHANGED;
            }
        }
    }
}

#[cfg(test)]
mod tests {
    use super::*;

    const PLACE: Place = Place { space: 1, page: 0x12345 };
    const MAPPING: Mapping = Mapping { frame: 5, protection: READ_WRITE, wired: false };

    /// Another page with the same two groups.
    fn neighbour(number: u32) -> Place {
        Place { space: 1, page: 0x10345 + 1_024 * (9 + number) }
    }

    #[test]
    fn the_worked_words() {
        assert_eq!(vsid(PLACE), 17);
        assert_eq!((primary_group(PLACE), secondary_group(PLACE)), (852, 171));
        assert_eq!(first_word(PLACE), 0x8000_0888);
        assert_eq!(first_word(PLACE) | SECONDARY, 0x8000_08C8);
        let mut board = PowerPc::new();
        board.enter(PLACE, MAPPING);
        let slot = board.look_up(PLACE).unwrap();
        assert_eq!(slot, 852 * 8);
        assert_eq!(board.second(slot), 0x5002);
        assert_eq!(board.access(PLACE, false), Some(5));
        assert_eq!(board.second(slot), 0x5102);
        assert_eq!(board.access(PLACE, true), Some(5));
        assert_eq!(board.second(slot), 0x5182);
    }

    #[test]
    fn the_seventeenth_entry_forgets_the_first() {
        let mut board = PowerPc::new();
        board.enter(PLACE, MAPPING);
        board.access(PLACE, true);
        for number in 0..15 {
            board.enter(neighbour(number), Mapping { frame: 4, ..MAPPING });
        }
        assert!(board.find(PLACE).is_some());
        assert_eq!(board.counter, 0);
        board.enter(neighbour(15), Mapping { frame: 4, ..MAPPING });
        assert_eq!(board.find(PLACE), None);
        assert!(board.modified(5));
        assert!(!board.modified(4));
        assert_eq!(board.counter, 1);
    }

    #[test]
    fn a_group_of_wired_slots_sends_forgetting_to_the_other() {
        let mut board = PowerPc::new();
        for number in 0..8 {
            board.enter(neighbour(number), Mapping { wired: true, ..MAPPING });
        }
        for number in 8..17 {
            board.enter(neighbour(number), MAPPING);
        }
        assert_eq!(board.find(neighbour(8)), None);
        assert_eq!(board.look_up(neighbour(16)), Some(171 * 8));
        assert_eq!(board.counter, 1);
        assert!((0..8).all(|number| board.find(neighbour(number)).is_some()));
    }
}
