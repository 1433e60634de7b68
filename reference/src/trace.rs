//! Reading a trace (docs/trace-format.md).

use crate::call::{Call, Region};
use crate::pmap::Place;
use crate::refusal::{self, Refusal};

const MOST_BYTES: usize = 65_534;
const RECORD_BYTES: usize = 12;

/// A field of the 96 bits of a record.
struct Field {
    lowest: u32,
    bits: u32,
}

const OPERATION: Field = Field { lowest: 92, bits: 4 };
const SPACE: Field = Field { lowest: 88, bits: 4 };
const PAGE: Field = Field { lowest: 70, bits: 18 };
const COUNT: Field = Field { lowest: 61, bits: 9 };
const OBJECT: Field = Field { lowest: 57, bits: 4 };
const OFFSET: Field = Field { lowest: 49, bits: 8 };
const PROTECTION: Field = Field { lowest: 47, bits: 2 };
const WORD: Field = Field { lowest: 0, bits: 32 };

impl Field {
    fn of(&self, record: u128) -> u32 {
        ((record >> self.lowest) & ((1 << self.bits) - 1)) as u32
    }

    /// The record with this field put to zero.
    fn erased(&self, record: u128) -> u128 {
        record & !(((1 << self.bits) - 1) << self.lowest)
    }
}

pub struct Trace {
    pub frames: usize,
    /// Each record's call, or the refusal that it gets from the reader.
    pub records: Vec<Result<Call, Refusal>>,
}

pub fn read(file: &[u8]) -> Result<Trace, Refusal> {
    if file.len() > MOST_BYTES {
        return Err(refusal::SIZE);
    }
    if file.len() < 2 {
        return Err(refusal::CUT);
    }
    let frames = 256 * file[0] as usize + file[1] as usize;
    if !(1..=256).contains(&frames) {
        return Err(refusal::SIZE);
    }
    let rest = &file[2..];
    if rest.len() % RECORD_BYTES != 0 {
        return Err(refusal::CUT);
    }
    let records = rest.chunks(RECORD_BYTES).map(read_record).collect();
    Ok(Trace { frames, records })
}

fn read_record(bytes: &[u8]) -> Result<Call, Refusal> {
    let mut record: u128 = 0;
    for byte in bytes {
        record = 256 * record + *byte as u128;
    }
    let fields = used_fields(OPERATION.of(record)).ok_or(refusal::OPERATION)?;
    // With the used fields erased, all the rest has to be zero.
    let mut rest = OPERATION.erased(record);
    for field in fields {
        rest = field.erased(rest);
    }
    if rest != 0 {
        return Err(refusal::FIELD);
    }
    Ok(call(record))
}

/// The fields that an operation uses, or none if there is no such operation.
fn used_fields(operation: u32) -> Option<&'static [Field]> {
    match operation {
        1 => Some(&[SPACE, PAGE, COUNT, OBJECT, OFFSET, PROTECTION]),
        3 => Some(&[SPACE, PAGE, PROTECTION]),
        5 => Some(&[SPACE, PAGE, WORD]),
        2 | 4 | 6 | 7 => Some(&[SPACE, PAGE]),
        8 => Some(&[OBJECT]),
        _ => None,
    }
}

fn call(record: u128) -> Call {
    let place = Place { space: SPACE.of(record), page: PAGE.of(record) };
    match OPERATION.of(record) {
        1 => Call::Map(Region {
            space: place.space,
            first: place.page,
            count: COUNT.of(record),
            object: OBJECT.of(record),
            offset: OFFSET.of(record),
            protection: PROTECTION.of(record),
        }),
        2 => Call::Unmap(place),
        3 => Call::Protect(place, PROTECTION.of(record)),
        4 => Call::Read(place),
        5 => Call::Write(place, WORD.of(record)),
        6 => Call::Wire(place),
        7 => Call::Unwire(place),
        _ => Call::Sync(OBJECT.of(record)),
    }
}

#[cfg(test)]
mod tests {
    use super::*;

    const EXAMPLE: [u8; 12] = [0x10, 0, 4, 0, 0x40, 1, 0x80, 0, 0, 0, 0, 0];

    fn refusal_of(file: &[u8]) -> Option<Refusal> {
        read(file).err()
    }

    #[test]
    fn the_example_is_a_map() {
        let region = Region { space: 0, first: 16, count: 2, object: 0, offset: 0, protection: 3 };
        assert_eq!(read_record(&EXAMPLE), Ok(Call::Map(region)));
    }

    #[test]
    fn files_are_turned_away() {
        assert_eq!(refusal_of(&[]), Some(2));
        assert_eq!(refusal_of(&[0]), Some(2));
        assert_eq!(refusal_of(&[0, 0]), Some(1));
        assert_eq!(refusal_of(&[1, 1]), Some(1));
        assert_eq!(refusal_of(&[0, 0, 7]), Some(1));
        assert_eq!(refusal_of(&[0, 1, 7]), Some(2));
        assert_eq!(refusal_of(&[0, 1]), None);
        assert_eq!(refusal_of(&[1, 0]), None);
        assert_eq!(refusal_of(&[1; 65_535]), Some(1));
    }

    #[test]
    fn records_are_turned_away() {
        let mut record = EXAMPLE;
        record[11] = 1; // a map uses no word
        assert_eq!(read_record(&record), Err(4));
        record[0] = 0x90; // and there is no operation 9
        assert_eq!(read_record(&record), Err(3));
        assert_eq!(read_record(&[0; 12]), Err(3));
        let mut zero = EXAMPLE;
        zero[7] = 1; // a bit of the zero field
        assert_eq!(read_record(&zero), Err(4));
    }
}
