//! The layers over any pmap (docs/layers.md).

use crate::pmap::*;

/// Page v above is page (v + shift) mod 262,144 below.
pub struct Offset<P> {
    below: P,
    shift: u32,
}

impl<P: Pmap> Offset<P> {
    pub fn new(below: P, shift: u32) -> Offset<P> {
        assert!(shift < PAGES, "refusal 15");
        Offset { below, shift }
    }

    fn shifted(&self, place: Place) -> Place {
        assert_place(place);
        Place { space: place.space, page: (place.page + self.shift) % PAGES }
    }
}

impl<P: Pmap> Pmap for Offset<P> {
    fn clear(&mut self) {
        self.below.clear();
    }

    fn enter(&mut self, place: Place, mapping: Mapping) {
        self.below.enter(self.shifted(place), mapping);
    }

    fn remove(&mut self, place: Place) {
        self.below.remove(self.shifted(place));
    }

    fn lower(&mut self, place: Place) {
        self.below.lower(self.shifted(place));
    }

    fn drop_frame(&mut self, frame: usize) {
        self.below.drop_frame(frame);
    }

    fn unwire(&mut self, place: Place) {
        self.below.unwire(self.shifted(place));
    }

    fn access(&mut self, place: Place, write: bool) -> Option<usize> {
        self.below.access(self.shifted(place), write)
    }

    fn find(&self, place: Place) -> Option<Mapping> {
        self.below.find(self.shifted(place))
    }

    fn modified(&self, frame: usize) -> bool {
        self.below.modified(frame)
    }

    fn clear_modified(&mut self, frame: usize) {
        self.below.clear_modified(frame);
    }
}

/// Two copies of one pmap, each of which may forget on its own.
pub struct Replica<A, B> {
    first: A,
    second: B,
}

impl<A: Pmap, B: Pmap> Replica<A, B> {
    pub fn new(mut first: A, mut second: B) -> Replica<A, B> {
        first.clear();
        second.clear();
        Replica { first, second }
    }
}

impl<A: Pmap, B: Pmap> Pmap for Replica<A, B> {
    fn clear(&mut self) {
        self.first.clear();
        self.second.clear();
    }

    fn enter(&mut self, place: Place, mapping: Mapping) {
        self.first.enter(place, mapping);
        self.second.enter(place, mapping);
    }

    fn remove(&mut self, place: Place) {
        self.first.remove(place);
        self.second.remove(place);
    }

    fn lower(&mut self, place: Place) {
        self.first.lower(place);
        self.second.lower(place);
    }

    fn drop_frame(&mut self, frame: usize) {
        self.first.drop_frame(frame);
        self.second.drop_frame(frame);
    }

    /// Goes to both halves, but only where the replica holds the place.
    fn unwire(&mut self, place: Place) {
        if self.find(place).is_some() {
            self.first.unwire(place);
            self.second.unwire(place);
        }
    }

    /// A hit goes to the first half for an even space, else to the second.
    fn access(&mut self, place: Place, write: bool) -> Option<usize> {
        if !self.find(place)?.allows(write) {
            return None;
        }
        if place.space % 2 == 0 {
            self.first.access(place, write)
        } else {
            self.second.access(place, write)
        }
    }

    /// What both halves hold, if it is the same.
    fn find(&self, place: Place) -> Option<Mapping> {
        let first = self.first.find(place)?;
        let second = self.second.find(place)?;
        if first == second {
            Some(first)
        } else {
            None
        }
    }

    fn modified(&self, frame: usize) -> bool {
        self.first.modified(frame) || self.second.modified(frame)
    }

    fn clear_modified(&mut self, frame: usize) {
        self.first.clear_modified(frame);
        self.second.clear_modified(frame);
    }
}

#[cfg(test)]
mod tests {
    use super::*;
    use crate::powerpc::PowerPc;
    use crate::x86::X86;

    const MAPPING: Mapping = Mapping { frame: 9, protection: READ_WRITE, wired: false };

    #[test]
    fn an_offset_wraps() {
        let mut offset = Offset::new(X86::new(), 3);
        let last = Place { space: 2, page: PAGES - 1 };
        offset.enter(last, MAPPING);
        assert_eq!(offset.find(last), Some(MAPPING));
        assert_eq!(offset.below.find(Place { space: 2, page: 2 }), Some(MAPPING));
    }

    #[test]
    fn a_replica_holds_what_both_hold() {
        let mut replica = Replica::new(X86::new(), PowerPc::new());
        let place = Place { space: 1, page: 7 };
        replica.enter(place, MAPPING);
        assert_eq!(replica.access(place, true), Some(9));
        assert!(replica.modified(9));
        assert!(!replica.first.modified(9)); // space 1 is served by the second
        replica.first.remove(place);
        assert_eq!(replica.find(place), None);
        assert_eq!(replica.access(place, false), None);
        assert!(replica.second.find(place).is_some());
    }
}
