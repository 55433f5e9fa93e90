//! Calls whose answers can be told from the documents by hand, a file a request.
mod catalogue;
mod codes;
mod marks;
mod policy;
mod rehearsal;
mod report;
mod shelf;

use plain::{Memory, Options, Plain, Sizes};

/// A store on a new chip.
fn opened(sizes: [u32; 6], options: [u32; 4]) -> (Plain, Memory) {
    let (sizes, options) = (Sizes::from(sizes), Options::from(options));
    let mut memory = Memory::new(&sizes, &options);
    let store = Plain::open(sizes, options, &memory.lend()).unwrap();
    (store, memory)
}
