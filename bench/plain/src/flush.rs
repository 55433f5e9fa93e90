//! A flush step and a flush.
use crate::cut::{whole, Within};
use crate::{chip, Answer, Buffers, Plain, Refusal, Said, VACANT};

impl Plain {
    #[inline(never)]
    pub fn step(&mut self, lent: &mut Buffers) -> Said {
        whole(|left| self.step_within(lent, left))
    }

    /// With so many chip operations left.
    #[inline(always)]
    pub(crate) fn step_within(&mut self, lent: &mut Buffers, left: &mut u32) -> Within {
        self.check(lent)?;
        let Some((block, f)) = self.due() else { return Ok(Some(Answer::Clean)) };
        if self.is_worn(lent, block) {
            return Err(Refusal::Worn(block));
        }
        let (mended, flawed) = self.look_for_step(lent, block, f)?;
        let merged = self.clean(lent, block, f, flawed, left);
        Ok(merged.map(|merged| Answer::Step { block, merged, mended }))
    }

    #[inline(never)]
    pub fn flush(&mut self, lent: &mut Buffers) -> Said {
        whole(|left| self.flush_within(lent, left))
    }

    /// With so many chip operations left.
    #[inline(always)]
    pub(crate) fn flush_within(&mut self, lent: &mut Buffers, left: &mut u32) -> Within {
        self.check(lent)?;
        if let Some(block) = self.lowest_worn(lent) {
            return Err(Refusal::Worn(block));
        }
        let (mended, flawed) = self.look_for_flush(lent)?;
        let (mut rewrites, mut merged) = (0, 0);
        while let Some((block, f)) = self.due() {
            let Some(reads) = self.clean(lent, block, f, flawed[rewrites as usize], left) else { return Ok(None) };
            merged += reads;
            rewrites += 1;
        }
        Ok(Some(Answer::Flush { rewrites, merged, mended }))
    }

    /// The block that a step rewrites, and the frame that it goes through.
    pub(crate) fn due(&self) -> Option<(u32, usize)> {
        let d = &self.0.directory;
        if let Some(f) = self.oldest(|f| d.frames[f] != VACANT) {
            return Some((d.frames[f], f));
        }
        let lowest = self.slots().iter().copied().min().filter(|&n| n != VACANT)?;
        Some((lowest / self.0.sizes.pages_per_block, 0))
    }

    /// The block's pages in slots join the frame, which is rewritten and vacated. Gives the merge reads, none where the call was stopped.
    /// Of the merge pages, these are flawed.
    pub(crate) fn clean(&mut self, lent: &mut Buffers, block: u32, f: usize, flawed: u64, left: &mut u32) -> Option<u32> {
        self.join(lent, block, f);
        let merged = chip::rewrite(&self.0, lent, block, f, flawed, left)?;
        self.vacate(f);
        Some(merged)
    }

    pub(crate) fn is_worn(&self, lent: &Buffers, block: u32) -> bool {
        lent.wear[block as usize] >= self.0.sizes.wear_limit
    }

    /// The lowest worn block with a page cached.
    fn lowest_worn(&self, lent: &Buffers) -> Option<u32> {
        let k = self.0.sizes.pages_per_block;
        let in_slots = self.slots().iter().filter(|&&n| n != VACANT).map(|&n| n / k);
        let in_frames = self.frames().iter().copied().filter(|&block| block != VACANT);
        in_slots.chain(in_frames).filter(|&block| self.is_worn(lent, block)).min()
    }
}
