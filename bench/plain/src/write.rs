//! A write: how it goes is decided from numbers alone, and then carried out.
use crate::cut::{whole, Within};
use crate::look::Found;
use crate::room::Room;
use crate::store::{page_at, page_at_mut};
use crate::{Answer, Buffers, Plain, Refusal, Said, VACANT};

pub(crate) enum Plan {
    /// way 1: over the page in a slot
    Slot(usize),
    /// way 2: over the page in a frame, with its place in b-space
    Frame(usize, usize),
    /// way 3: into a vacant slot
    Vacant(usize),
    /// ways 4 to 7: a block's pages leave the slots, and the page takes one
    Room(Room),
}

impl Plan {
    /// Whether the page is not cached.
    pub fn is_miss(&self) -> bool {
        matches!(self, Plan::Vacant(_) | Plan::Room(_))
    }

    /// The block that is rewritten, and the frame that it goes through.
    pub fn rewritten(&self) -> Option<(u32, usize)> {
        match self {
            Plan::Room(Room { erased: Some(block), frame, .. }) => Some((*block, *frame)),
            _ => None,
        }
    }
}

impl Plain {
    #[inline(never)]
    pub fn write(&mut self, lent: &mut Buffers, n: u32, page: &[u8]) -> Said {
        whole(|left| self.write_within(lent, n, page, left))
    }

    /// With so many chip operations left.
    #[inline(always)]
    pub(crate) fn write_within(&mut self, lent: &mut Buffers, n: u32, page: &[u8], left: &mut u32) -> Within {
        self.check(lent)?;
        self.check_page(n, page.len())?;
        self.write_checked(lent, n, page, 0, left)
    }

    /// The mends of pages below `counted` are counted already.
    #[inline(always)]
    pub(crate) fn write_checked(&mut self, lent: &mut Buffers, n: u32, page: &[u8], counted: u32, left: &mut u32) -> Within {
        let plan = self.plan(lent, n)?;
        let found = self.look_for_write(lent, &plan, n, self.0.options.shelf_pages > 0, counted)?;
        self.shelve(lent, &plan, n, found.page);
        Ok(self.carry_out(lent, plan, n, page, found, left))
    }

    /// Refused where a rewrite is due for a worn block.
    #[inline(always)]
    pub(crate) fn plan(&self, lent: &Buffers, n: u32) -> Result<Plan, Refusal> {
        if let Some(i) = self.slot_of(n) {
            return Ok(Plan::Slot(i));
        }
        if let Some((f, at)) = self.frame_with(n) {
            return Ok(Plan::Frame(f, at));
        }
        if let Some(i) = self.slot_of(VACANT) {
            return Ok(Plan::Vacant(i));
        }
        self.room(lent).map(Plan::Room)
    }

    /// No answer where the call was stopped.
    #[inline(always)]
    pub(crate) fn carry_out(
        &mut self,
        lent: &mut Buffers,
        plan: Plan,
        n: u32,
        page: &[u8],
        found: Found,
        left: &mut u32,
    ) -> Option<Answer> {
        let (s, mended) = (page.len(), found.mended);
        Some(match plan {
            Plan::Slot(i) => {
                page_at_mut(lent.pspace, i, s).copy_from_slice(page);
                Answer::Write { way: 1, erased: None, merged: 0, mended }
            }
            Plan::Frame(f, at) => {
                page_at_mut(lent.bspace, at, s).copy_from_slice(page);
                self.used(f);
                Answer::Write { way: 2, erased: None, merged: 0, mended }
            }
            Plan::Vacant(i) => {
                self.enter(lent, i, n, page);
                Answer::Write { way: 3, erased: None, merged: 0, mended }
            }
            Plan::Room(room) => {
                let merged = self.make_room(lent, &room, found.flawed, left)?;
                let i = self.slot_of(VACANT).expect("room was made");
                self.enter(lent, i, n, page);
                Answer::Write { way: room.way, erased: room.erased, merged, mended }
            }
        })
    }

    fn enter(&mut self, lent: &mut Buffers, i: usize, n: u32, page: &[u8]) {
        page_at_mut(lent.pspace, i, page.len()).copy_from_slice(page);
        self.0.directory.slots[i] = n;
    }

    /// Where page n stands before the write.
    pub(crate) fn earlier<'a>(&self, lent: &'a Buffers, plan: &Plan, n: u32) -> &'a [u8] {
        let s = self.0.sizes.page_size as usize;
        match plan {
            Plan::Slot(i) => page_at(lent.pspace, *i, s),
            Plan::Frame(_, at) => page_at(lent.bspace, *at, s),
            Plan::Vacant(_) | Plan::Room(_) => page_at(lent.flash, n as usize, s),
        }
    }
}
