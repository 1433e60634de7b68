//! A plain replay of memory traces, written from the documents alone. It
//! reads a trace on standard input and prints what docs/replay.md says.

mod call;
mod layers;
mod memory;
mod pmap;
mod powerpc;
mod refusal;
mod replay;
mod trace;
mod x86;

use std::io::{self, Read, Write};

fn main() -> io::Result<()> {
    let mut file = Vec::new();
    io::stdin().read_to_end(&mut file)?;
    io::stdout().write_all(replay::replay(&file).as_bytes())
}
