//! A chip in a mapped file: wear, flash, codes and marks. What power loss takes away is in `Ram`.
use crate::mapped::Mapped;
use clash::{Buffers, Options, Sizes};
use std::io;
use std::path::Path;

/// What a store is opened with, and how many sheets its catalogue has, 0 for none.
#[derive(Clone, Copy, Debug)]
pub struct Setup {
    pub sizes: Sizes,
    pub options: Options,
    pub sheets: u32,
}

impl Setup {
    pub fn pages(&self) -> u32 {
        self.sizes.pages()
    }

    pub fn page_len(&self) -> usize {
        self.sizes.page_size as usize
    }

    /// The pages of a block.
    pub fn block(&self, b: u32) -> std::ops::Range<u32> {
        b * self.sizes.pages_per_block..(b + 1) * self.sizes.pages_per_block
    }

    /// As words of a command line, and back.
    pub fn words(&self) -> Vec<String> {
        let (z, o) = (&self.sizes, &self.options);
        let sizes = [z.page_size, z.pages_per_block, z.blocks, z.slots, z.frames, z.wear_limit];
        let numbers = sizes.into_iter().chain([o.policy, o.coded, o.shelf_pages, o.marked, self.sheets]);
        numbers.map(|x| x.to_string()).collect()
    }

    pub fn of(words: &[String]) -> Setup {
        let x: Vec<u32> = words.iter().map(|word| word.parse().expect("a number")).collect();
        Setup { sizes: Sizes::from([x[0], x[1], x[2], x[3], x[4], x[5]]), options: Options::from([x[6], x[7], x[8], x[9]]), sheets: x[10] }
    }
}

pub struct Chip {
    file: Mapped,
    setup: Setup,
}

/// What a chip holds.
pub struct Parts<'a> {
    pub wear: &'a mut [u32],
    pub flash: &'a mut [u8],
    pub codes: &'a mut [u8],
    pub marks: &'a mut [u8],
}

impl Chip {
    /// A new chip: bytes and codes 255, marks and wear 0.
    pub fn create(path: &Path, setup: Setup) -> io::Result<Chip> {
        let Setup { sizes, options, .. } = setup;
        let len = 4 * sizes.wear_len() + sizes.flash_len() + options.codes_len(&sizes) + options.marks_len(&sizes);
        let mut chip = Chip { file: Mapped::create(path, len)?, setup };
        let parts = chip.parts();
        parts.flash.fill(255);
        parts.codes.fill(255);
        Ok(chip)
    }

    /// The chip as it was left.
    pub fn open(path: &Path, setup: Setup) -> io::Result<Chip> {
        Ok(Chip { file: Mapped::open(path)?, setup })
    }

    pub fn parts(&mut self) -> Parts<'_> {
        let Setup { sizes, options, .. } = self.setup;
        let (wear, rest) = self.file.bytes().split_at_mut(4 * sizes.wear_len());
        let (flash, rest) = rest.split_at_mut(sizes.flash_len());
        let (codes, marks) = rest.split_at_mut(options.codes_len(&sizes));
        // a mapping starts at a page of the machine, and any four bytes are a number
        let (_, wear, _) = unsafe { wear.align_to_mut::<u32>() };
        Parts { wear, flash, codes, marks }
    }

    /// All of it, to be laid back by `restore`.
    pub fn copy(&mut self) -> Vec<u8> {
        self.file.bytes().to_vec()
    }

    pub fn restore(&mut self, copy: &[u8]) {
        self.file.bytes().copy_from_slice(copy);
    }
}

/// What is gone when the power is.
#[derive(Clone)]
pub struct Ram {
    pspace: Vec<u8>,
    bspace: Vec<u8>,
    shelf: Vec<u8>,
}

impl Ram {
    pub fn new(setup: &Setup) -> Ram {
        let Setup { sizes, options, .. } = setup;
        Ram { pspace: vec![0; sizes.pspace_len()], bspace: vec![0; sizes.bspace_len()], shelf: vec![0; options.shelf_len(sizes)] }
    }

    pub fn lend<'a>(&'a mut self, chip: &'a mut Chip) -> Buffers<'a> {
        let Parts { wear, flash, codes, marks } = chip.parts();
        Buffers { wear, flash, codes, marks, pspace: &mut self.pspace, bspace: &mut self.bspace, shelf: &mut self.shelf }
    }
}
