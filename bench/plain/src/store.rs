//! The store: opening and reading, and what every call looks up.
use crate::{sound, Answer, Buffers, Cache, Options, Refusal, Said, Sizes, VACANT};

#[repr(transparent)]
#[derive(Clone, Copy, Debug)]
pub struct Plain(pub Cache);

impl Plain {
    pub fn open(sizes: Sizes, options: Options, lent: &Buffers) -> Result<Plain, Refusal> {
        if !sizes.in_limits() || !options.in_limits(&sizes) {
            return Err(Refusal::Size);
        }
        if !lent.fit(&sizes, &options) {
            return Err(Refusal::Buffer);
        }
        if lent.wear.iter().any(|&worn| worn > sizes.wear_limit) {
            return Err(Refusal::Overworn);
        }
        Ok(Plain(Cache { sizes, options, ..Cache::blank() }))
    }

    /// Whether all but the entries of the shelf is sound, as the proved test has it.
    #[inline(never)]
    pub fn sound(&self) -> bool {
        sound::sound(&self.0.sizes, &self.0.options, &self.0.directory)
    }

    #[inline(never)]
    pub fn read(&mut self, lent: &Buffers, n: u32, page: &mut [u8]) -> Said {
        self.check(lent)?;
        self.check_page(n, page.len())?;
        self.read_checked(lent, n, page)
    }

    #[inline(always)]
    pub(crate) fn read_checked(&mut self, lent: &Buffers, n: u32, page: &mut [u8]) -> Said {
        let s = page.len();
        if let Some(i) = self.slot_of(n) {
            page.copy_from_slice(page_at(lent.pspace, i, s));
            return Ok(Answer::Read { way: 1, mended: 0 });
        }
        if let Some((f, at)) = self.frame_with(n) {
            page.copy_from_slice(page_at(lent.bspace, at, s));
            self.used(f);
            return Ok(Answer::Read { way: 2, mended: 0 });
        }
        let mended = self.load(lent, n, page)?;
        Ok(Answer::Read { way: 3, mended })
    }

    /// Page n as a read would give it, as no use, and how many chunks were mended: where it stands, or in the copy where some were.
    pub(crate) fn peek<'a>(&self, lent: &'a Buffers, n: u32, copy: &'a mut [u8]) -> Result<(&'a [u8], u32), Refusal> {
        let s = copy.len();
        if let Some(i) = self.slot_of(n) {
            return Ok((page_at(lent.pspace, i, s), 0));
        }
        if let Some((_, at)) = self.frame_with(n) {
            return Ok((page_at(lent.bspace, at, s), 0));
        }
        match self.look_at(lent, n)? {
            0 => Ok((page_at(lent.flash, n as usize, s), 0)),
            mended => {
                copy.copy_from_slice(page_at(lent.flash, n as usize, s));
                self.mend(lent, n, copy);
                Ok((copy, mended))
            }
        }
    }

    /// Checks 4 and 2.
    pub(crate) fn check(&self, lent: &Buffers) -> Result<(), Refusal> {
        let c = &self.0;
        let entries_ok = || c.entries == [VACANT; 8] || self.entries_ok();
        if !sound::sound(&c.sizes, &c.options, &c.directory) || !entries_ok() {
            return Err(Refusal::Record);
        }
        if !lent.fit(&c.sizes, &c.options) {
            return Err(Refusal::Buffer);
        }
        Ok(())
    }

    /// Check 2 of a page buffer's length, and 5.
    pub(crate) fn check_page(&self, n: u32, len: usize) -> Result<(), Refusal> {
        if len != self.0.sizes.page_size as usize {
            return Err(Refusal::Buffer);
        }
        if n >= self.0.sizes.pages() {
            return Err(Refusal::Page);
        }
        Ok(())
    }

    /// The slots in use.
    pub(crate) fn slots(&self) -> &[u32] {
        &self.0.directory.slots[..self.0.sizes.slots as usize]
    }

    pub(crate) fn frames(&self) -> &[u32] {
        &self.0.directory.frames[..self.0.sizes.frames as usize]
    }

    /// The frames by their use, least recent first.
    pub(crate) fn by_use(&self) -> &[u8] {
        &self.0.directory.recency[..self.0.sizes.frames as usize]
    }

    pub(crate) fn slot_of(&self, n: u32) -> Option<usize> {
        self.slots().iter().position(|&x| x == n)
    }

    pub(crate) fn frame_of(&self, block: u32) -> Option<usize> {
        self.frames().iter().position(|&x| x == block)
    }

    /// The frame that has page n valid, and the page's place in b-space.
    pub(crate) fn frame_with(&self, n: u32) -> Option<(usize, usize)> {
        let k = self.0.sizes.pages_per_block;
        let (block, offset) = (n / k, n % k);
        let f = self.frame_of(block)?;
        let valid = self.0.directory.valid[f] >> offset & 1 == 1;
        valid.then_some((f, f * k as usize + offset as usize))
    }
}

pub(crate) fn page_at(bytes: &[u8], i: usize, s: usize) -> &[u8] {
    &bytes[i * s..(i + 1) * s]
}

pub(crate) fn page_at_mut(bytes: &mut [u8], i: usize, s: usize) -> &mut [u8] {
    &mut bytes[i * s..(i + 1) * s]
}
