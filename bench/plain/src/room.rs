//! Ways 4 to 7 of a write: the pages of the victim block leave the slots.
use crate::store::{page_at, page_at_mut};
use crate::{Buffers, Plain, Refusal, VACANT};

/// The block whose pages leave the slots, the frame that takes them, the way, and the block that is erased by way 7.
pub(crate) struct Room {
    pub way: u32,
    pub victim: u32,
    pub frame: usize,
    pub erased: Option<u32>,
}

impl Plain {
    /// How the slots of the block with the most pages there come to be vacated. All slots are in use.
    #[inline(never)]
    pub(crate) fn room(&self, lent: &Buffers) -> Result<Room, Refusal> {
        let (victim, pages) = self.victim();
        let (way, frame) = self.frame_for(lent, victim, pages);
        let block = self.0.directory.frames[frame];
        if way == 7 && self.is_worn(lent, block) {
            return Err(Refusal::Worn(block));
        }
        Ok(Room { way, victim, frame, erased: (way == 7).then_some(block) })
    }

    /// Gives the merge reads, none where the call was stopped. Of the merge pages, these are flawed.
    #[inline(always)]
    pub(crate) fn make_room(&mut self, lent: &mut Buffers, room: &Room, flawed: u64, left: &mut u32) -> Option<u32> {
        let &Room { way, victim, frame, erased } = room;
        let merged = match erased {
            Some(block) => self.clean(lent, block, frame, flawed, left)?,
            None => 0,
        };
        match way {
            6 => self.exchange(lent, victim, frame),
            _ => self.join(lent, victim, frame),
        }
        match way {
            4 => self.used(frame),
            _ => self.filled(frame),
        }
        Some(merged)
    }

    /// The block with the most pages in slots, the lowest among equals, and how many. All slots are in use.
    fn victim(&self) -> (u32, u32) {
        let k = self.0.sizes.pages_per_block;
        let mut counts = [0u8; 4096];
        let (mut best, mut most) = (0, 0);
        for &n in self.slots() {
            let block = n / k;
            let count = &mut counts[block as usize];
            *count += 1;
            if *count > most || (*count == most && block < best) {
                (best, most) = (block, *count);
            }
        }
        (best, most as u32)
    }

    /// The way, and the frame that takes the victim's pages.
    fn frame_for(&self, lent: &Buffers, victim: u32, pages: u32) -> (u32, usize) {
        if let Some(f) = self.frame_of(victim) {
            return (4, f);
        }
        if let Some(f) = self.frame_of(VACANT) {
            return (5, f);
        }
        match self.fewest() {
            (f, valid) if valid < pages => (6, f),
            _ => (7, self.evict_frame(lent)),
        }
    }

    /// The oldest frame whose block has wear below the limit; where every frame holds a worn block, the oldest.
    fn evict_frame(&self, lent: &Buffers) -> usize {
        let below = |f: usize| !self.is_worn(lent, self.0.directory.frames[f]);
        self.oldest(below).or_else(|| self.oldest(|_| true)).expect("there is a frame")
    }

    /// The pages of a block in slots go into frame f, which is the block's or vacant.
    pub(crate) fn join(&mut self, lent: &mut Buffers, block: u32, f: usize) {
        let (s, k, p) = (self.0.sizes.page_size as usize, self.0.sizes.pages_per_block, self.0.sizes.slots as usize);
        let stretch = page_at_mut(lent.bspace, f, k as usize * s);
        let d = &mut self.0.directory;
        for (i, n) in d.slots[..p].iter_mut().enumerate() {
            let offset = n.wrapping_sub(block * k);
            if offset < k {
                page_at_mut(stretch, offset as usize, s).copy_from_slice(page_at(lent.pspace, i, s));
                d.valid[f] |= 1 << offset;
                *n = VACANT;
            }
        }
        d.frames[f] = block;
    }

    /// They change places with the old pages of frame f: where offsets meet the bytes are exchanged, the other victims are copied in,
    /// and the other old pages go to the slots so vacated.
    fn exchange(&mut self, lent: &mut Buffers, block: u32, f: usize) {
        let (s, k, p) = (self.0.sizes.page_size as usize, self.0.sizes.pages_per_block, self.0.sizes.slots as usize);
        let stretch = page_at_mut(lent.bspace, f, k as usize * s);
        let d = &mut self.0.directory;
        let (first, old) = (d.frames[f] * k, d.valid[f]);
        let (mut new, mut vacated) = (0u64, 0u128);
        for (i, n) in d.slots[..p].iter_mut().enumerate() {
            let offset = n.wrapping_sub(block * k);
            if offset >= k {
                continue;
            }
            new |= 1 << offset;
            let (page, slot) = (page_at_mut(stretch, offset as usize, s), page_at_mut(lent.pspace, i, s));
            if old >> offset & 1 == 1 {
                page.swap_with_slice(slot);
                *n = first + offset;
            } else {
                page.copy_from_slice(slot);
                *n = VACANT;
                vacated |= 1 << i;
            }
        }
        (d.frames[f], d.valid[f]) = (block, new);
        let mut left = old & !new;
        while left != 0 && vacated != 0 {
            let (offset, i) = (left.trailing_zeros(), vacated.trailing_zeros() as usize);
            page_at_mut(lent.pspace, i, s).copy_from_slice(page_at(stretch, offset as usize, s));
            d.slots[i] = first + offset;
            left &= left - 1;
            vacated &= vacated - 1;
        }
    }

    /// Drops a block from the record, as its rewrite through frame f does.
    pub(crate) fn forget(&mut self, block: u32, f: usize) {
        let (k, p) = (self.0.sizes.pages_per_block, self.0.sizes.slots as usize);
        for n in self.0.directory.slots[..p].iter_mut().filter(|n| n.wrapping_sub(block * k) < k) {
            *n = VACANT;
        }
        self.vacate(f);
    }

    pub(crate) fn vacate(&mut self, f: usize) {
        self.0.directory.frames[f] = VACANT;
        self.0.directory.valid[f] = 0;
        self.0.directory.uses[f] = 0;
    }
}
