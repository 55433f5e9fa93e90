//! What the soundness test and the victim search take of a record: all but the entries of the shelf, which the calls look at.
use super::{Cache, Directory, Options, Sizes};

/// What an opening sets.
#[repr(C)]
#[derive(Clone, Copy)]
pub struct Opening {
    pub sizes: Sizes,
    pub options: Options,
}

#[repr(C)]
#[derive(Clone, Copy)]
pub struct Numbers {
    pub opening: Opening,
    pub directory: Directory,
}

const _: () = assert!(std::mem::size_of::<Numbers>() == 688);

impl From<Cache> for Numbers {
    fn from(c: Cache) -> Numbers {
        Numbers { opening: Opening { sizes: c.sizes, options: c.options }, directory: c.directory }
    }
}
