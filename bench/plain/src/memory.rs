//! What a store is lent.
use crate::{Options, Sizes};

/// The buffers of a store, lent for the time of a call.
#[derive(Default)]
pub struct Buffers<'a> {
    pub flash: &'a mut [u8],
    pub codes: &'a mut [u8],
    pub marks: &'a mut [u8],
    /// how often each block was erased
    pub wear: &'a mut [u32],
    pub pspace: &'a mut [u8],
    pub bspace: &'a mut [u8],
    pub shelf: &'a mut [u8],
}

impl Buffers<'_> {
    /// Whether each has the length that sizes and options ask for.
    pub fn fit(&self, sizes: &Sizes, options: &Options) -> bool {
        self.flash.len() == sizes.flash_len()
            && self.wear.len() == sizes.blocks as usize
            && self.pspace.len() == sizes.pspace_len()
            && self.bspace.len() == sizes.bspace_len()
            && self.codes.len() == options.codes_len(sizes)
            && self.marks.len() == options.marks_len(sizes)
            && self.shelf.len() == options.shelf_len(sizes)
    }
}

/// Buffers on the heap.
#[derive(Clone, Debug, Default, PartialEq, Eq)]
pub struct Memory {
    pub flash: Vec<u8>,
    pub codes: Vec<u8>,
    pub marks: Vec<u8>,
    pub wear: Vec<u32>,
    pub pspace: Vec<u8>,
    pub bspace: Vec<u8>,
    pub shelf: Vec<u8>,
}

impl Memory {
    /// A new chip: flash bytes and codes 255, marks 0 and no wear.
    pub fn new(sizes: &Sizes, options: &Options) -> Memory {
        Memory {
            flash: vec![255; sizes.flash_len()],
            codes: vec![255; options.codes_len(sizes)],
            marks: vec![0; options.marks_len(sizes)],
            wear: vec![0; sizes.blocks as usize],
            pspace: vec![0; sizes.pspace_len()],
            bspace: vec![0; sizes.bspace_len()],
            shelf: vec![0; options.shelf_len(sizes)],
        }
    }

    pub fn lend(&mut self) -> Buffers<'_> {
        Buffers {
            flash: &mut self.flash,
            codes: &mut self.codes,
            marks: &mut self.marks,
            wear: &mut self.wear,
            pspace: &mut self.pspace,
            bspace: &mut self.bspace,
            shelf: &mut self.shelf,
        }
    }
}
