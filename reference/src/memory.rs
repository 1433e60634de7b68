//! The memory over any pmap (docs/memory.md).

use crate::call::*;
use crate::pmap::{Mapping, Place, Pmap, MOST_WIRED, READ};
use crate::refusal::{self, Refusal};

const OBJECT_PAGE_NUMBERS: usize = (OBJECTS * OBJECT_PAGES) as usize;
const MOST_REGIONS: usize = 64;
const MOST_CALLS: u64 = 1_000_000;

#[derive(Default)]
pub struct Counts {
    pub calls: u64,
    pub hits: u64,
    pub soft: u64,
    pub hard: u64,
    pub loads: u64,
    pub evicted: u64,
    pub written: u64,
}

pub struct Memory<P> {
    pmap: P,
    regions: Vec<Region>,
    /// The backing store: a word for each object page.
    store: Vec<u32>,
    /// The frame in which an object page lies, if it is resident.
    frame_of: Vec<Option<usize>>,
    /// The word in each frame.
    frames: Vec<u32>,
    /// The resident object pages, the one loaded longest ago first.
    queue: Vec<usize>,
    /// The wired places, each with its frame.
    wired: Vec<(Place, usize)>,
    pub counts: Counts,
}

impl<P: Pmap> Memory<P> {
    pub fn new(mut pmap: P, frames: usize) -> Memory<P> {
        pmap.clear();
        Memory {
            pmap,
            regions: Vec::new(),
            store: (0..OBJECT_PAGE_NUMBERS as u32).collect(),
            frame_of: vec![None; OBJECT_PAGE_NUMBERS],
            frames: vec![0; frames],
            queue: Vec::new(),
            wired: Vec::new(),
            counts: Counts::default(),
        }
    }

    /// Makes a call: a read's word, or the smallest refusal that fits.
    pub fn call(&mut self, call: Call) -> Result<Option<u32>, Refusal> {
        if self.counts.calls == MOST_CALLS {
            return Err(refusal::CALL_LIMIT);
        }
        self.counts.calls += 1;
        match call {
            Call::Map(region) => self.map(region)?,
            Call::Unmap(place) => self.unmap(place)?,
            Call::Protect(place, protection) => self.protect(place, protection)?,
            Call::Read(place) => return self.read(place).map(Some),
            Call::Write(place, word) => self.write(place, word)?,
            Call::Wire(place) => self.wire(place)?,
            Call::Unwire(place) => self.unwire(place)?,
            Call::Sync(object) => self.sync(object)?,
        }
        Ok(None)
    }

    /// The numbers of the modified pages, rising.
    pub fn modified_pages(&self) -> Vec<usize> {
        (0..OBJECT_PAGE_NUMBERS)
            .filter(|&page| match self.frame_of[page] {
                Some(frame) => self.pmap.modified(frame),
                None => false,
            })
            .collect()
    }

    fn map(&mut self, new: Region) -> Result<(), Refusal> {
        check_region(&new)?;
        if self.regions.iter().any(|region| region.overlaps(&new)) {
            return Err(refusal::OVERLAP);
        }
        if self.regions.len() == MOST_REGIONS {
            return Err(refusal::REGIONS_FULL);
        }
        self.regions.push(new);
        Ok(())
    }

    fn unmap(&mut self, place: Place) -> Result<(), Refusal> {
        check_place(place)?;
        let index = self.unwired_region_at(place)?;
        let region = self.regions.remove(index);
        for place in region.places() {
            self.pmap.remove(place);
        }
        Ok(())
    }

    fn protect(&mut self, place: Place, protection: u32) -> Result<(), Refusal> {
        check_place(place)?;
        check_protection(protection)?;
        let index = self.unwired_region_at(place)?;
        self.regions[index].protection = protection;
        if protection == READ {
            for place in self.regions[index].places() {
                self.pmap.lower(place);
            }
        }
        Ok(())
    }

    /// The index of the region that begins at the place and has no wired place.
    fn unwired_region_at(&self, place: Place) -> Result<usize, Refusal> {
        let index = self.regions.iter().position(|region| region.begins_at(place));
        let index = index.ok_or(refusal::NO_REGION)?;
        let region = self.regions[index];
        if self.wired.iter().any(|(wired, _)| region.covers(*wired)) {
            return Err(refusal::WIRED);
        }
        Ok(index)
    }

    fn region_over(&self, place: Place) -> Result<Region, Refusal> {
        let region = self.regions.iter().find(|region| region.covers(place));
        region.copied().ok_or(refusal::NO_REGION)
    }

    fn read(&mut self, place: Place) -> Result<u32, Refusal> {
        check_place(place)?;
        let region = self.region_over(place)?;
        let frame = self.access(place, region, false)?;
        Ok(self.frames[frame])
    }

    fn write(&mut self, place: Place, word: u32) -> Result<(), Refusal> {
        check_place(place)?;
        let region = self.region_over(place)?;
        if region.protection == READ {
            return Err(refusal::READ_ONLY);
        }
        let frame = self.access(place, region, true)?;
        self.frames[frame] = word;
        Ok(())
    }

    /// The steps of a read or write up to the frame that the pmap gives.
    fn access(&mut self, place: Place, region: Region, write: bool) -> Result<usize, Refusal> {
        let page = region.object_page(place.page);
        self.check_frame_for(page)?;
        if let Some(frame) = self.pmap.access(place, write) {
            self.counts.hits += 1;
            return Ok(frame);
        }
        let frame = match self.frame_of[page] {
            Some(frame) => {
                self.counts.soft += 1;
                frame
            }
            None => {
                self.counts.hard += 1;
                self.load(page)
            }
        };
        let mapping = Mapping { frame, protection: region.protection, wired: false };
        self.pmap.enter(place, mapping);
        Ok(self.pmap.access(place, write).expect("the mapping was just entered"))
    }

    fn wire(&mut self, place: Place) -> Result<(), Refusal> {
        check_place(place)?;
        let region = self.region_over(place)?;
        if self.wired.iter().any(|(wired, _)| *wired == place) {
            return Err(refusal::WIRED);
        }
        if self.wired.len() == MOST_WIRED {
            return Err(refusal::WIRED_FULL);
        }
        let page = region.object_page(place.page);
        self.check_frame_for(page)?;
        let frame = match self.frame_of[page] {
            Some(frame) => frame,
            None => self.load(page),
        };
        let mapping = Mapping { frame, protection: region.protection, wired: true };
        self.pmap.enter(place, mapping);
        self.wired.push((place, frame));
        Ok(())
    }

    fn unwire(&mut self, place: Place) -> Result<(), Refusal> {
        check_place(place)?;
        let index = self.wired.iter().position(|(wired, _)| *wired == place);
        self.wired.remove(index.ok_or(refusal::NOT_WIRED)?);
        self.pmap.unwire(place);
        Ok(())
    }

    fn sync(&mut self, object: u32) -> Result<(), Refusal> {
        check_object(object)?;
        let first = (OBJECT_PAGES * object) as usize;
        for page in first..first + OBJECT_PAGES as usize {
            if let Some(frame) = self.frame_of[page] {
                self.store_if_modified(page, frame);
            }
        }
        Ok(())
    }

    fn store_if_modified(&mut self, page: usize, frame: usize) {
        if self.pmap.modified(frame) {
            self.store[page] = self.frames[frame];
            self.pmap.clear_modified(frame);
            self.counts.written += 1;
        }
    }

    /// Refusal 14 if the page needs a frame and none can be had.
    fn check_frame_for(&self, page: usize) -> Result<(), Refusal> {
        let resident = self.frame_of[page].is_some();
        let unused = self.queue.len() < self.frames.len();
        if resident || unused || self.page_to_evict().is_some() {
            Ok(())
        } else {
            Err(refusal::NO_FRAME)
        }
    }

    /// The page loaded longest ago among those with no wired mapping.
    fn page_to_evict(&self) -> Option<usize> {
        let has_wired = |frame| self.wired.iter().any(|(_, wired)| Some(*wired) == frame);
        self.queue.iter().copied().find(|&page| !has_wired(self.frame_of[page]))
    }

    /// Brings a page into a frame, and gives the frame.
    fn load(&mut self, page: usize) -> usize {
        // Frames are used from 0 upwards, and an evicted one at once again.
        let frame =
            if self.queue.len() < self.frames.len() { self.queue.len() } else { self.evict() };
        self.frames[frame] = self.store[page];
        self.frame_of[page] = Some(frame);
        self.queue.push(page);
        self.counts.loads += 1;
        frame
    }

    /// Evicts a page, and gives the frame that it lay in.
    fn evict(&mut self) -> usize {
        let page = self.page_to_evict().expect("a frame can be had");
        let frame = self.frame_of[page].expect("the page is resident");
        self.pmap.drop_frame(frame);
        self.store_if_modified(page, frame);
        self.frame_of[page] = None;
        self.queue.retain(|&resident| resident != page);
        self.counts.evicted += 1;
        frame
    }
}
