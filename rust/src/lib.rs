//! The proved page store and its catalogue of runs for Rust programs: safe calls over the archives of the crates `clash_c`,
//! `catalogue_c`, `rehearsal_c` and, for tests of what a power loss leaves, `cut_c`.
//!
//! [`Store`] is an open store: it keeps the record and is lent the buffers call by call ([`Buffers`]). Each call answers an
//! [`Answer`], or the [`Refusal`] that the documents name; a refused call changes nothing. [`Catalogue`] keeps runs in an open store.
//! [`rehearse`] tries sizes against an imagined class.
//!
//! In debug builds `Store` asserts that what is lent has the lengths that the sizes ask for, since a wrong length is a mistake of
//! the program. In release builds, and always in the calls of the record itself ([`Cache`]), the store's own refusal 2 says so.
//!
//! ```
//! use clash::{Answer, Memory, Options, Sizes, Store};
//!
//! // 256 bytes a page, 16 pages a block, 64 blocks, 32 slots, 4 frames, at most 100,000 erasures of a block
//! let sizes = Sizes::from([256, 16, 64, 32, 4, 100_000]);
//! let mut memory = Memory::new(&sizes);
//! let mut store = Store::open(sizes, Options::default(), &memory.lend())?;
//! let mut page = [7; 256];
//! store.write(&mut memory.lend(), 5, &page)?;
//! assert_eq!(store.read(&memory.lend(), 5, &mut page)?, Answer::Read { way: 1, mended: 0 });
//! assert_eq!(store.flush(&mut memory.lend())?, Answer::Flush { rewrites: 1, merged: 15, mended: 0 });
//! # Ok::<(), clash::Refusal>(())
//! ```
mod answer;
mod calls;
mod catalogue;
mod cut;
mod memory;
mod record;
mod rehearsal;
mod runs;
mod store;

pub use answer::{Answer, Refusal, Report};
pub use catalogue::{Added, Catalogue, Listed, Looked, NewRun, Role, Sheet};
pub use memory::{Buffers, Memory};
pub use record::{Cache, Directory, Opened, Options, Sizes, FIFO, LFU, LRU, VACANT};
pub use rehearsal::{rehearse, Setting, Tallies};
pub use store::Store;
