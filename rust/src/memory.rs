use crate::{Options, Sizes};

/// The buffers of a store, lent for the time of a call. Those of options that the store does not have are empty.
///
/// ```
/// use clash::{Buffers, Options, Sizes, Store};
///
/// // a byte a page, 2 pages a block, 3 blocks, 2 slots, 1 frame
/// let (mut flash, mut wear, mut pspace, mut bspace) = ([255; 6], [0; 3], [0; 2], [0; 2]);
/// let mut lent =
///     Buffers { flash: &mut flash, wear: &mut wear, pspace: &mut pspace, bspace: &mut bspace, ..Default::default() };
/// let mut store = Store::open(Sizes::from([1, 2, 3, 2, 1, 9]), Options::default(), &lent)?;
/// store.write(&mut lent, 3, &[10])?;
/// store.flush(&mut lent)?;
/// assert_eq!(flash, [255, 255, 255, 10, 255, 255]);
/// # Ok::<(), clash::Refusal>(())
/// ```
#[derive(Default)]
pub struct Buffers<'a> {
    pub flash: &'a mut [u8],
    /// of a coded store: 3 bytes for each 256 of flash
    pub codes: &'a mut [u8],
    /// of a marked store: a byte for each page, 0 where it is programmed, 255 where it was erased and not programmed since
    pub marks: &'a mut [u8],
    /// how often each block was erased
    pub wear: &'a mut [u32],
    pub pspace: &'a mut [u8],
    pub bspace: &'a mut [u8],
    /// of a store with shelf pages: their bytes
    pub shelf: &'a mut [u8],
}

impl Buffers<'_> {
    /// Whether each has the length that sizes and options ask for.
    pub fn fit(&self, sizes: &Sizes, options: &Options) -> bool {
        self.flash.len() == sizes.flash_len()
            && self.wear.len() == sizes.wear_len()
            && self.pspace.len() == sizes.pspace_len()
            && self.bspace.len() == sizes.bspace_len()
            && self.codes.len() == options.codes_len(sizes)
            && self.marks.len() == options.marks_len(sizes)
            && self.shelf.len() == options.shelf_len(sizes)
    }
}

/// Buffers on the heap, for programs that have one.
#[derive(Clone, Debug, Default, PartialEq, Eq)]
pub struct Memory {
    pub flash: Vec<u8>,
    pub codes: Vec<u8>,
    pub marks: Vec<u8>,
    pub wear: Vec<u32>,
    pub pspace: Vec<u8>,
    pub bspace: Vec<u8>,
    pub shelf: Vec<u8>,
}

impl Memory {
    /// A new chip of these sizes for a store without options: flash bytes 255 and no wear.
    pub fn new(sizes: &Sizes) -> Memory {
        Memory {
            flash: vec![255; sizes.flash_len()],
            wear: vec![0; sizes.wear_len()],
            pspace: vec![0; sizes.pspace_len()],
            bspace: vec![0; sizes.bspace_len()],
            ..Memory::default()
        }
    }

    /// The same for a store with these options, which an opening takes: codes, where they ask for them, are those of erased pages, marks
    /// are 0, as a chip is delivered, and a shelf has bytes 0.
    pub fn with_options(sizes: &Sizes, options: &Options) -> Memory {
        Memory {
            codes: vec![255; options.codes_len(sizes)],
            marks: vec![0; options.marks_len(sizes)],
            shelf: vec![0; options.shelf_len(sizes)],
            ..Memory::new(sizes)
        }
    }

    pub fn lend(&mut self) -> Buffers<'_> {
        Buffers {
            flash: &mut self.flash,
            codes: &mut self.codes,
            marks: &mut self.marks,
            wear: &mut self.wear,
            pspace: &mut self.pspace,
            bspace: &mut self.bspace,
            shelf: &mut self.shelf,
        }
    }
}
