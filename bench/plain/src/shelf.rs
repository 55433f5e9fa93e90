//! The shelf (A8): earlier contents of pages that were written, and taking the latest write back.
use crate::cut::{whole, Within};
use crate::store::{page_at, page_at_mut};
use crate::write::Plan;
use crate::{Buffers, Plain, Refusal, Said, VACANT};
use std::mem::take;

impl Plain {
    /// Writes the latest shelved page, without shelving, and drops its entry.
    #[inline(never)]
    pub fn take_back(&mut self, lent: &mut Buffers) -> Said {
        whole(|left| self.take_back_within(lent, left))
    }

    /// With so many chip operations left.
    #[inline(always)]
    pub(crate) fn take_back_within(&mut self, lent: &mut Buffers, left: &mut u32) -> Within {
        self.check(lent)?;
        let latest = self.shelved().checked_sub(1).ok_or(Refusal::EmptyShelf)?;
        let n = self.0.entries[latest];
        let plan = self.plan(lent, n)?;
        let found = self.look_for_write(lent, &plan, n, false, 0)?;
        self.0.entries[latest] = VACANT;
        let shelf = take(&mut lent.shelf);
        let answer = self.carry_out(lent, plan, n, page_at(shelf, latest, self.0.sizes.page_size as usize), found, left);
        lent.shelf = shelf;
        Ok(answer)
    }

    /// Shelves what page n holds before it is written, in a store with a shelf. Where all entries are in use the oldest leaves.
    #[inline(always)]
    pub(crate) fn shelve(&mut self, lent: &mut Buffers, plan: &Plan, n: u32, flawed: bool) {
        if self.0.options.shelf_pages > 0 {
            self.put_on_shelf(lent, plan, n, flawed);
        }
    }

    fn put_on_shelf(&mut self, lent: &mut Buffers, plan: &Plan, n: u32, flawed: bool) {
        let (s, most) = (self.0.sizes.page_size as usize, self.0.options.shelf_pages as usize);
        let shelf = take(&mut lent.shelf);
        let mut i = self.shelved();
        if i == most {
            shelf.copy_within(s.., 0);
            self.0.entries.copy_within(1..most, 0);
            i -= 1;
        }
        let page = page_at_mut(shelf, i, s);
        page.copy_from_slice(self.earlier(lent, plan, n));
        if flawed {
            self.mend(lent, n, page);
        }
        self.0.entries[i] = n;
        lent.shelf = shelf;
    }

    /// Of a shelf in use: the entries are page numbers, no more than there are shelf pages, and then vacant.
    #[inline(never)]
    pub(crate) fn entries_ok(&self) -> bool {
        let (used, vacant) = self.0.entries.split_at(self.shelved());
        used.len() <= self.0.options.shelf_pages as usize
            && used.iter().all(|&n| n < self.0.sizes.pages())
            && vacant.iter().all(|&n| n == VACANT)
    }

    /// How many entries are in use.
    fn shelved(&self) -> usize {
        self.0.entries.iter().position(|&n| n == VACANT).unwrap_or(8)
    }
}
