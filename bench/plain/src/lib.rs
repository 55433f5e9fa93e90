//! A plain Rust store of documents 01 and 02, with the same checks: what the proved one is measured beside and compared with on random
//! histories. It has types of its own, of the same fields as those of the crate `clash`, and needs no archive: its tests replay the
//! outside vectors on it alone. The record is changed in place.
mod answer;
mod by_value;
mod catalogue;
mod chip;
pub mod codes;
mod cut;
mod flush;
mod look;
mod marks;
mod memory;
mod part;
pub mod policy;
mod record;
mod rehearsal;
mod report;
mod roles;
mod room;
mod sheets;
mod shelf;
mod sound;
mod store;
mod write;

pub use answer::{Answer, Refusal, Said};
pub use catalogue::{Catalogue, Looked, NewRun};
pub use memory::{Buffers, Memory};
pub use record::{Cache, Directory, Options, Sizes, VACANT};
pub use rehearsal::{Rehearsal, Tallies};
pub use report::Report;
pub use roles::{Caller, Role};
pub use sheets::Sheet;
pub use store::Plain;
