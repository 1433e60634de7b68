//! The calls of a memory, and the ranges of their numbers (docs/memory.md).

use crate::pmap::{Place, PAGES, READ, READ_WRITE, SPACES};
use crate::refusal::{self, Refusal};

pub const OBJECTS: u32 = 8;
pub const OBJECT_PAGES: u32 = 256;

#[derive(Clone, Copy, Debug, PartialEq, Eq)]
pub enum Call {
    Map(Region),
    Unmap(Place),
    Protect(Place, u32),
    Read(Place),
    Write(Place, u32),
    Wire(Place),
    Unwire(Place),
    Sync(u32),
}

#[derive(Clone, Copy, Debug, PartialEq, Eq)]
pub struct Region {
    pub space: u32,
    pub first: u32,
    pub count: u32,
    pub object: u32,
    pub offset: u32,
    pub protection: u32,
}

impl Region {
    pub fn begins_at(&self, place: Place) -> bool {
        place == Place { space: self.space, page: self.first }
    }

    pub fn covers(&self, place: Place) -> bool {
        let end = self.first + self.count;
        place.space == self.space && self.first <= place.page && place.page < end
    }

    pub fn overlaps(&self, other: &Region) -> bool {
        self.space == other.space
            && self.first < other.first + other.count
            && other.first < self.first + self.count
    }

    pub fn places(&self) -> impl Iterator<Item = Place> {
        let space = self.space;
        (self.first..self.first + self.count).map(move |page| Place { space, page })
    }

    /// The number of the object page that a page of the region stands for.
    pub fn object_page(&self, page: u32) -> usize {
        (OBJECT_PAGES * self.object + self.offset + page - self.first) as usize
    }
}

/// Refusal 6 unless the condition holds.
fn in_range(condition: bool) -> Result<(), Refusal> {
    if condition {
        Ok(())
    } else {
        Err(refusal::RANGE)
    }
}

pub fn check_place(place: Place) -> Result<(), Refusal> {
    in_range(place.space < SPACES && place.page < PAGES)
}

pub fn check_object(object: u32) -> Result<(), Refusal> {
    in_range(object < OBJECTS)
}

pub fn check_protection(protection: u32) -> Result<(), Refusal> {
    in_range(protection == READ || protection == READ_WRITE)
}

pub fn check_region(region: &Region) -> Result<(), Refusal> {
    check_place(Place { space: region.space, page: region.first })?;
    check_object(region.object)?;
    check_protection(region.protection)?;
    in_range(region.count > 0)?;
    in_range(region.first + region.count <= PAGES)?;
    in_range(region.offset + region.count <= OBJECT_PAGES)
}
