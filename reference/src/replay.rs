//! The replay of a trace on the three machines, and its text (docs/replay.md).

use crate::call::{Call, OBJECT_PAGES};
use crate::layers::{Offset, Replica};
use crate::memory::Memory;
use crate::pmap::Pmap;
use crate::powerpc::PowerPc;
use crate::refusal::layer;
use crate::trace::{self, Trace};
use crate::x86::X86;

/// The whole text for a file.
pub fn replay(file: &[u8]) -> String {
    match trace::read(file) {
        Err(refusal) => format!("file {refusal}\n"),
        Ok(trace) => {
            let pile = Offset::new(Replica::new(X86::new(), PowerPc::new()), 3);
            block("x86-64", X86::new(), &trace)
                + &block("powerpc", PowerPc::new(), &trace)
                + &block("pile", pile, &trace)
        }
    }
}

/// The text of one machine.
fn block<P: Pmap>(name: &str, pmap: P, trace: &Trace) -> String {
    let mut memory = Memory::new(pmap, trace.frames);
    let mut text = format!("machine {name}\n");
    let mut accesses = 0;
    for (number, record) in trace.records.iter().enumerate() {
        // A record that the reader turned away does not reach the memory.
        let reply = record.and_then(|call| memory.call(call));
        match reply {
            Ok(Some(word)) => text += &format!("read {number} {word}\n"),
            Ok(None) => {}
            Err(refusal) => {
                text += &format!("refused {number} {refusal} {}\n", layer(refusal));
            }
        }
        if reply.is_ok() && matches!(record, Ok(Call::Read(..) | Call::Write(..))) {
            accesses += 1;
        }
    }
    text + &last_lines(&memory, accesses)
}

fn last_lines<P: Pmap>(memory: &Memory<P>, accesses: u64) -> String {
    let counts = &memory.counts;
    let mut text = format!(
        "accesses {accesses} hits {} soft {} hard {} loads {} evicted {} written {}\n",
        counts.hits, counts.soft, counts.hard, counts.loads, counts.evicted, counts.written
    );
    for page in memory.modified_pages() {
        let object = page / OBJECT_PAGES as usize;
        let index = page % OBJECT_PAGES as usize;
        text += &format!("dirty {object} {index}\n");
    }
    text
}

#[cfg(test)]
mod tests {
    use super::*;

    /// A record of twelve bytes with a place and a word.
    fn record(operation: u128, space: u128, page: u128, word: u128) -> Vec<u8> {
        let number: u128 = operation << 92 | space << 88 | page << 70 | word;
        number.to_be_bytes()[4..].to_vec()
    }

    #[test]
    fn a_file_turned_away() {
        assert_eq!(replay(&[]), "file 2\n");
        assert_eq!(replay(&[0, 0]), "file 1\n");
    }

    #[test]
    fn a_file_without_records() {
        let text = replay(&[0, 1]);
        let counts = "accesses 0 hits 0 soft 0 hard 0 loads 0 evicted 0 written 0";
        let lines = ["machine x86-64", counts, "machine powerpc", counts, "machine pile", counts];
        assert_eq!(text, lines.join("\n") + "\n");
    }

    #[test]
    fn a_page_comes_and_goes() {
        // One frame; the example's region stands for pages 0 and 1 of object 0.
        let mut file = vec![0, 1, 0x10, 0, 4, 0, 0x40, 1, 0x80, 0, 0, 0, 0, 0];
        file.extend(record(5, 0, 16, 7)); // 1: write, hard
        file.extend(record(4, 0, 16, 0)); // 2: read, a hit
        file.extend(record(4, 0, 17, 0)); // 3: read, evicts a written page
        file.extend(record(6, 0, 17, 0)); // 4: wire
        file.extend(record(4, 0, 16, 0)); // 5: no frame
        file.extend(record(5, 0, 17, 9)); // 6: write, a hit
        file.extend(record(0, 0, 0, 0)); // 7: no such operation
        let block = "read 2 7\nread 3 1\nrefused 5 14 M\nrefused 7 3 F\n\
             accesses 4 hits 2 soft 0 hard 2 loads 2 evicted 1 written 1\ndirty 0 1\n";
        let machines = ["x86-64", "powerpc", "pile"];
        let whole: String = machines.map(|name| format!("machine {name}\n{block}")).concat();
        assert_eq!(replay(&file), whole);
    }
}
