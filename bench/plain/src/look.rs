//! Looking at the flash pages that a call will read, before anything changes (A6, A7, A12): refusal 7, then 14, and how many chunks are
//! mended. A page with a chunk to mend is flawed.
use crate::store::page_at;
use crate::write::Plan;
use crate::{codes, Buffers, Plain, Refusal};

/// What a write finds: the chunks to mend, which merge pages are flawed, and whether the page itself is, read before it is written.
#[derive(Clone, Copy, Default)]
pub(crate) struct Found {
    pub mended: u32,
    pub flawed: u64,
    pub page: bool,
}

/// As many blocks can have a page cached: one for each frame and each slot.
const BLOCKS: usize = 136;

/// Pages looked at one after the other.
#[derive(Default)]
struct Look {
    /// the mends of pages below are counted already
    counted: u32,
    mended: u32,
    torn: bool,
}

impl Look {
    /// Whether page n is flawed.
    fn page(&mut self, store: &Plain, lent: &Buffers, n: u32) -> Result<bool, Refusal> {
        let mended = store.mends(lent, n)?;
        self.mended += if n < self.counted { 0 } else { mended };
        self.torn |= store.is_torn(lent, n);
        Ok(mended > 0)
    }

    /// The flawed pages of those that a rewrite of this block through frame f reads.
    fn merges(&mut self, store: &Plain, lent: &Buffers, block: u32, f: usize) -> Result<u64, Refusal> {
        let k = store.0.sizes.pages_per_block;
        let cached = store.0.directory.valid[f] | store.in_slots(block);
        let mut flawed = 0;
        for offset in (0..k).filter(|offset| cached >> offset & 1 == 0) {
            flawed |= (self.page(store, lent, block * k + offset)? as u64) << offset;
        }
        Ok(flawed)
    }

    /// How many chunks are mended, now that all pages have been looked at.
    fn end(self) -> Result<u32, Refusal> {
        match self.torn {
            true => Err(Refusal::Torn),
            false => Ok(self.mended),
        }
    }
}

impl Plain {
    /// Fills a page buffer from flash, and gives how many chunks were mended.
    pub(crate) fn load(&self, lent: &Buffers, n: u32, page: &mut [u8]) -> Result<u32, Refusal> {
        let mended = self.look_at(lent, n)?;
        page.copy_from_slice(page_at(lent.flash, n as usize, page.len()));
        if mended > 0 {
            self.mend(lent, n, page);
        }
        Ok(mended)
    }

    /// Looks at one page: how many chunks are mended when it is read.
    pub(crate) fn look_at(&self, lent: &Buffers, n: u32) -> Result<u32, Refusal> {
        let mended = self.mends(lent, n)?;
        match self.is_torn(lent, n) {
            true => Err(Refusal::Torn),
            false => Ok(mended),
        }
    }

    /// Looks at what a write of page n reads: the merges of way 7, and the page itself where `reads` says so. The mends of pages below
    /// `counted` are counted already.
    #[inline(always)]
    pub(crate) fn look_for_write(&self, lent: &Buffers, plan: &Plan, n: u32, reads: bool, counted: u32) -> Result<Found, Refusal> {
        if !self.0.options.watched() {
            return Ok(Found::default());
        }
        self.find_for_write(lent, plan, n, reads, counted)
    }

    fn find_for_write(&self, lent: &Buffers, plan: &Plan, n: u32, reads: bool, counted: u32) -> Result<Found, Refusal> {
        let (mut look, mut flawed, mut page) = (Look { counted, ..Look::default() }, 0, None);
        if let Some((block, f)) = plan.rewritten() {
            flawed = look.merges(self, lent, block, f)?;
            let offset = n.wrapping_sub(block * self.0.sizes.pages_per_block);
            page = (offset < self.0.sizes.pages_per_block).then(|| flawed >> offset & 1 == 1);
        }
        if reads && plan.is_miss() && page.is_none() {
            page = Some(look.page(self, lent, n)?);
        }
        Ok(Found { mended: look.end()?, flawed, page: page == Some(true) })
    }

    /// Looks at the merges of a step: the chunks to mend and the flawed pages.
    pub(crate) fn look_for_step(&self, lent: &Buffers, block: u32, f: usize) -> Result<(u32, u64), Refusal> {
        if !self.0.options.watched() {
            return Ok((0, 0));
        }
        let mut look = Look::default();
        let flawed = look.merges(self, lent, block, f)?;
        Ok((look.end()?, flawed))
    }

    /// Looks at the merges of a flush: the chunks to mend, and the flawed pages of each rewrite in its turn.
    pub(crate) fn look_for_flush(&self, lent: &Buffers) -> Result<(u32, [u64; BLOCKS]), Refusal> {
        let (mut look, mut flawed) = (Look::default(), [0; BLOCKS]);
        if !self.0.options.watched() {
            return Ok((0, flawed));
        }
        let mut rest = *self;
        for pages in &mut flawed {
            let Some((block, f)) = rest.due() else { break };
            *pages = look.merges(&rest, lent, block, f)?;
            rest.forget(block, f);
        }
        Ok((look.end()?, flawed))
    }

    /// How many chunks of page n of flash are mended when it is read.
    fn mends(&self, lent: &Buffers, n: u32) -> Result<u32, Refusal> {
        if self.0.options.coded == 0 {
            return Ok(0);
        }
        let page = page_at(lent.flash, n as usize, self.0.sizes.page_size as usize);
        codes::mends(page, self.codes_of(lent, n)).ok_or(Refusal::Unreadable)
    }

    /// Mends a copy of page n of flash.
    pub(crate) fn mend(&self, lent: &Buffers, n: u32, copy: &mut [u8]) {
        codes::mend(copy, self.codes_of(lent, n));
    }

    fn codes_of<'a>(&self, lent: &'a Buffers, n: u32) -> &'a [u8] {
        page_at(lent.codes, n as usize, self.0.sizes.code_len())
    }

    /// The offsets of a block's pages in slots.
    fn in_slots(&self, block: u32) -> u64 {
        let k = self.0.sizes.pages_per_block;
        let offsets = self.slots().iter().map(|n| n.wrapping_sub(block * k));
        offsets.filter(|&offset| offset < k).fold(0, |set, offset| set | 1 << offset)
    }
}
