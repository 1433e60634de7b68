//! What every pmap does (docs/pmap.md).
//!
//! The memory never gives a pmap a number out of range, nor a ninth wired
//! mapping. So refusals 15 and 16 are assertions here, not answers.

pub const SPACES: u32 = 4;
pub const PAGES: u32 = 262_144;
pub const FRAMES: usize = 256;
pub const MOST_WIRED: usize = 8;

/// The two protections.
pub const READ: u32 = 1;
pub const READ_WRITE: u32 = 3;

#[derive(Clone, Copy, Debug, PartialEq, Eq)]
pub struct Place {
    pub space: u32,
    pub page: u32,
}

#[derive(Clone, Copy, Debug, PartialEq, Eq)]
pub struct Mapping {
    pub frame: usize,
    pub protection: u32,
    pub wired: bool,
}

impl Mapping {
    pub fn allows(&self, write: bool) -> bool {
        !write || self.protection == READ_WRITE
    }
}

pub trait Pmap {
    /// Leaves no mapping and no modified frame.
    fn clear(&mut self);
    /// Afterwards the place holds exactly this mapping.
    fn enter(&mut self, place: Place, mapping: Mapping);
    /// Afterwards the place holds nothing.
    fn remove(&mut self, place: Place);
    /// Protection 3 at the place becomes 1.
    fn lower(&mut self, place: Place);
    /// Takes away every mapping of the frame.
    fn drop_frame(&mut self, frame: usize);
    /// Takes the wired mark off at the place.
    fn unwire(&mut self, place: Place);
    /// A read or write by the machine: the frame on a hit, none on a miss.
    fn access(&mut self, place: Place, write: bool) -> Option<usize>;
    /// What is held at the place.
    fn find(&self, place: Place) -> Option<Mapping>;
    /// Whether the frame is modified.
    fn modified(&self, frame: usize) -> bool;
    /// The frame is modified no more.
    fn clear_modified(&mut self, frame: usize);
}

pub fn assert_place(place: Place) {
    assert!(place.space < SPACES && place.page < PAGES, "refusal 15");
}

pub fn assert_mapping(mapping: Mapping) {
    assert!(mapping.frame < FRAMES, "refusal 15");
    assert!(mapping.protection == READ || mapping.protection == READ_WRITE, "refusal 15");
}
