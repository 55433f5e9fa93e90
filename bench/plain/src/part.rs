//! Writing part of a page (A1): a read that counts as no use, then a write of the page with the bytes laid in.
use crate::cut::{whole, Within};
use crate::{Answer, Buffers, Plain, Refusal, Said};

impl Plain {
    #[inline(never)]
    pub fn part(&mut self, lent: &mut Buffers, n: u32, first: u32, bytes: &[u8], page: &mut [u8]) -> Said {
        whole(|left| self.part_within(lent, n, first, bytes, page, left))
    }

    /// With so many chip operations left.
    #[inline(always)]
    pub(crate) fn part_within(&mut self, lent: &mut Buffers, n: u32, first: u32, bytes: &[u8], page: &mut [u8], left: &mut u32) -> Within {
        self.check(lent)?;
        self.check_page(n, page.len())?;
        let first = first as usize;
        if first > page.len() || bytes.len() > page.len() - first {
            return Err(Refusal::Buffer);
        }
        if bytes.is_empty() {
            return Ok(Some(Answer::Write { way: 0, erased: None, merged: 0, mended: 0 }));
        }
        let plan = self.plan(lent, n)?;
        let found = self.look_for_write(lent, &plan, n, true, 0)?;
        self.shelve(lent, &plan, n, found.page);
        page.copy_from_slice(self.earlier(lent, &plan, n));
        if found.page {
            self.mend(lent, n, page);
        }
        page[first..first + bytes.len()].copy_from_slice(bytes);
        Ok(self.carry_out(lent, plan, n, page, found, left))
    }
}
