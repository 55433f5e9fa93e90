//! Calls that are cut off, as `include/clash_cut.h` declares them: for tests of what a power loss leaves.
use crate::calls::call;
use crate::{Buffers, Cache, Catalogue, NewRun};

#[rustfmt::skip]
extern "C" {
    fn clash_cut_write(
        cache: Cache,
        flash: *mut u8, flash_bytes: usize, codes: *mut u8, codes_bytes: usize, marks: *mut u8, marks_bytes: usize,
        wear: *mut u32, wear_count: usize, pspace: *mut u8, pspace_bytes: usize, bspace: *mut u8, bspace_bytes: usize,
        shelf: *mut u8, shelf_bytes: usize, n: u32, page: *const u8, page_bytes: usize, operations: u32,
    ) -> Cache;
    fn clash_cut_part(
        cache: Cache,
        flash: *mut u8, flash_bytes: usize, codes: *mut u8, codes_bytes: usize, marks: *mut u8, marks_bytes: usize,
        wear: *mut u32, wear_count: usize, pspace: *mut u8, pspace_bytes: usize, bspace: *mut u8, bspace_bytes: usize,
        shelf: *mut u8, shelf_bytes: usize, n: u32, first: u32, bytes: *const u8, byte_count: usize, page: *mut u8, page_bytes: usize,
        operations: u32,
    ) -> Cache;
    fn clash_cut_take_back(
        cache: Cache,
        flash: *mut u8, flash_bytes: usize, codes: *mut u8, codes_bytes: usize, marks: *mut u8, marks_bytes: usize,
        wear: *mut u32, wear_count: usize, pspace: *mut u8, pspace_bytes: usize, bspace: *mut u8, bspace_bytes: usize,
        shelf: *const u8, shelf_bytes: usize, operations: u32,
    ) -> Cache;
    fn clash_cut_step(
        cache: Cache,
        flash: *mut u8, flash_bytes: usize, codes: *mut u8, codes_bytes: usize, marks: *mut u8, marks_bytes: usize,
        wear: *mut u32, wear_count: usize, pspace: *const u8, pspace_bytes: usize, bspace: *mut u8, bspace_bytes: usize,
        shelf: *const u8, shelf_bytes: usize, operations: u32,
    ) -> Cache;
    fn clash_cut_flush(
        cache: Cache,
        flash: *mut u8, flash_bytes: usize, codes: *mut u8, codes_bytes: usize, marks: *mut u8, marks_bytes: usize,
        wear: *mut u32, wear_count: usize, pspace: *const u8, pspace_bytes: usize, bspace: *mut u8, bspace_bytes: usize,
        shelf: *const u8, shelf_bytes: usize, operations: u32,
    ) -> Cache;
    fn clash_cut_run_add(
        cache: Cache,
        flash: *mut u8, flash_bytes: usize, codes: *mut u8, codes_bytes: usize, marks: *mut u8, marks_bytes: usize,
        wear: *mut u32, wear_count: usize, pspace: *mut u8, pspace_bytes: usize, bspace: *mut u8, bspace_bytes: usize,
        shelf: *mut u8, shelf_bytes: usize, sheets: u32, role: u32, trainee: u32, sample: u32, first: u32, count: u32,
        page: *mut u8, page_bytes: usize, operations: u32,
    ) -> Cache;
    fn clash_cut_run_replace(
        cache: Cache,
        flash: *mut u8, flash_bytes: usize, codes: *mut u8, codes_bytes: usize, marks: *mut u8, marks_bytes: usize,
        wear: *mut u32, wear_count: usize, pspace: *mut u8, pspace_bytes: usize, bspace: *mut u8, bspace_bytes: usize,
        shelf: *mut u8, shelf_bytes: usize, sheets: u32, role: u32, trainee: u32, run: u32, sample: u32, first: u32, count: u32,
        page: *mut u8, page_bytes: usize, operations: u32,
    ) -> Cache;
    fn clash_cut_run_mark(
        cache: Cache,
        flash: *mut u8, flash_bytes: usize, codes: *mut u8, codes_bytes: usize, marks: *mut u8, marks_bytes: usize,
        wear: *mut u32, wear_count: usize, pspace: *mut u8, pspace_bytes: usize, bspace: *mut u8, bspace_bytes: usize,
        shelf: *mut u8, shelf_bytes: usize, sheets: u32, role: u32, trainee: u32, run: u32, grade: u32,
        page: *mut u8, page_bytes: usize, operations: u32,
    ) -> Cache;
}

/// Calls that are cut off after so many operations of the chip, for tests of what a power loss leaves. A rewrite is K + 1 operations: the
/// erasure, then each page; the operations of all rewrites of the call count, in order, and a call that needs no more is done whole.
///
/// The record is lost: each takes it and gives the blank one, and no answer. What p-space, b-space, shelf and page buffer hold then is left
/// free.
///
/// ```
/// use clash::{Cache, Memory, Options, Sizes, Store};
///
/// let (sizes, options) = (Sizes::from([1, 2, 3, 2, 1, 9]), Options { marked: 1, ..Options::default() });
/// let mut memory = Memory::with_options(&sizes, &options);
/// let mut store = Store::open(sizes, options, &memory.lend())?;
/// store.write(&mut memory.lend(), 2, &[7])?;
/// let lost = store.record().cut_flush(&mut memory.lend(), 2); // of 3: page 3 is not programmed
/// assert_eq!(lost, Cache::blank());
/// assert_eq!((&memory.flash[2..4], &memory.marks[2..4], memory.wear[1]), (&[7, 255][..], &[0, 255][..], 1));
/// assert_eq!(Store::open(sizes, options, &memory.lend())?.torn(), 1);
/// # Ok::<(), clash::Refusal>(())
/// ```
impl Cache {
    pub fn cut_write(self, lent: &mut Buffers, n: u32, page: &[u8], operations: u32) -> Cache {
        call!(clash_cut_write(self; lent.as_mut_ptr; n, page.as_ptr(), page.len(), operations))
    }

    pub fn cut_part(self, lent: &mut Buffers, n: u32, first: u32, bytes: &[u8], page: &mut [u8], operations: u32) -> Cache {
        call!(clash_cut_part(
            self; lent.as_mut_ptr;
            n, first, bytes.as_ptr(), bytes.len(), page.as_mut_ptr(), page.len(), operations
        ))
    }

    pub fn cut_take_back(self, lent: &mut Buffers, operations: u32) -> Cache {
        call!(clash_cut_take_back(self; lent.as_mut_ptr; operations))
    }

    pub fn cut_step(self, lent: &mut Buffers, operations: u32) -> Cache {
        call!(clash_cut_step(self; lent.as_mut_ptr; operations))
    }

    pub fn cut_flush(self, lent: &mut Buffers, operations: u32) -> Cache {
        call!(clash_cut_flush(self; lent.as_mut_ptr; operations))
    }

    pub fn cut_run_add(self, lent: &mut Buffers, who: &Catalogue, new: NewRun, page: &mut [u8], operations: u32) -> Cache {
        call!(clash_cut_run_add(
            self; lent.as_mut_ptr;
            who.sheets, who.role as u32, who.trainee, new.sample, new.first, new.count, page.as_mut_ptr(), page.len(), operations
        ))
    }

    pub fn cut_run_replace(self, lent: &mut Buffers, who: &Catalogue, run: u32, new: NewRun, page: &mut [u8], operations: u32) -> Cache {
        call!(clash_cut_run_replace(
            self; lent.as_mut_ptr;
            who.sheets, who.role as u32, who.trainee, run, new.sample, new.first, new.count, page.as_mut_ptr(), page.len(), operations
        ))
    }

    pub fn cut_run_mark(self, lent: &mut Buffers, who: &Catalogue, run: u32, mark: u32, page: &mut [u8], operations: u32) -> Cache {
        call!(clash_cut_run_mark(
            self; lent.as_mut_ptr;
            who.sheets, who.role as u32, who.trainee, run, mark, page.as_mut_ptr(), page.len(), operations
        ))
    }
}
