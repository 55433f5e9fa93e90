//! The rewrite of a block: merge reads, erasure, programs.
use crate::store::{page_at, page_at_mut};
use crate::{codes, Buffers, Cache};

/// Rewrites a block, which is not worn, from frame f, with so many chip operations left: the erasure is one, and each program. Gives the
/// number of merge reads, none where it was stopped. Of the merge pages, these are flawed.
pub fn rewrite(c: &Cache, lent: &mut Buffers, block: u32, f: usize, flawed: u64, left: &mut u32) -> Option<u32> {
    let (s, k) = (c.sizes.page_size as usize, c.sizes.pages_per_block as usize);
    let stretch = page_at_mut(lent.bspace, f, k * s);
    let flash = page_at_mut(lent.flash, block as usize, k * s);
    let valid = c.directory.valid[f];
    for offset in (0..k).filter(|offset| valid >> offset & 1 == 0) {
        page_at_mut(stretch, offset, s).copy_from_slice(page_at(flash, offset, s));
    }
    if flawed != 0 {
        mend(c, stretch, lent.codes, block, flawed);
    }
    let operations = (*left).min(k as u32 + 1);
    *left -= operations;
    let programs = operations.checked_sub(1)? as usize;
    flash.fill(255);
    lent.wear[block as usize] += 1;
    for offset in 0..programs {
        page_at_mut(flash, offset, s).copy_from_slice(page_at(stretch, offset, s));
    }
    if c.options.coded != 0 {
        encode(page_at_mut(lent.codes, block as usize, k * c.sizes.code_len()), &stretch[..programs * s]);
    }
    if c.options.marked != 0 {
        mark(page_at_mut(lent.marks, block as usize, k), programs);
    }
    (programs == k).then_some(k as u32 - valid.count_ones())
}

/// The flawed pages of a block as they were read.
#[inline(never)]
fn mend(c: &Cache, stretch: &mut [u8], codes: &[u8], block: u32, mut flawed: u64) {
    let (s, k) = (c.sizes.page_size as usize, c.sizes.pages_per_block as usize);
    while flawed != 0 {
        let offset = flawed.trailing_zeros() as usize;
        codes::mend(page_at_mut(stretch, offset, s), page_at(codes, block as usize * k + offset, c.sizes.code_len()));
        flawed &= flawed - 1;
    }
}

/// The codes of a block that was erased, and of the pages programmed.
#[inline(never)]
fn encode(codes: &mut [u8], pages: &[u8]) {
    codes.fill(255);
    codes::encode(codes, pages);
}

/// The marks, likewise.
fn mark(marks: &mut [u8], programs: usize) {
    marks[..programs].fill(0);
    marks[programs..].fill(255);
}
