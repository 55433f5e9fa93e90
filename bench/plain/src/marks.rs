//! Marks (A12): a byte for each page, 255 after the erasure and 0 with the program.
use crate::{Buffers, Plain};

impl Plain {
    /// The blocks with a mark that is not 0: what an opening answers beside the store.
    pub fn torn(&self, lent: &Buffers) -> u32 {
        let k = self.0.sizes.pages_per_block as usize;
        lent.marks.chunks(k).filter(|marks| marks.iter().any(|&mark| mark != 0)).count() as u32
    }

    /// Whether flash page n was erased and not programmed again.
    pub(crate) fn is_torn(&self, lent: &Buffers, n: u32) -> bool {
        self.0.options.marked != 0 && lent.marks[n as usize] != 0
    }
}
