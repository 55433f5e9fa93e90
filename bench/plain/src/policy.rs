//! Which frame is old (A5): the least recent, where FIFO lets only a filling make a frame recent, or of those with the fewest uses.
use crate::Plain;

pub const LRU: u32 = 0;
pub const FIFO: u32 = 1;
pub const LFU: u32 = 2;

impl Plain {
    /// A read hit, a write hit or a join.
    pub(crate) fn used(&mut self, f: usize) {
        let uses = &mut self.0.directory.uses[f];
        *uses = uses.saturating_add(1);
        if self.0.options.policy != FIFO {
            self.touch(f);
        }
    }

    /// Ways 5, 6 and 7.
    pub(crate) fn filled(&mut self, f: usize) {
        self.0.directory.uses[f] = 1;
        self.touch(f);
    }

    /// Of the frames that a rule leaves open, the one that the policy would evict.
    pub(crate) fn oldest(&self, open: impl Fn(usize) -> bool) -> Option<usize> {
        let mut frames = self.by_use().iter().map(|&f| f as usize).filter(|&f| open(f));
        if self.0.options.policy == LFU {
            // the first of equals is the least recent
            return frames.min_by_key(|&f| self.0.directory.uses[f]);
        }
        frames.next()
    }

    /// Of the frames with the fewest pages, the one that the policy would evict, and how many pages those are.
    pub(crate) fn fewest(&self) -> (usize, u32) {
        let d = &self.0.directory;
        let by_uses = self.0.options.policy == LFU;
        let rank = |f: usize| (d.valid[f].count_ones(), if by_uses { d.uses[f] } else { 0 });
        let f = self.by_use().iter().map(|&f| f as usize).min_by_key(|&f| rank(f)).expect("there is a frame");
        (f, d.valid[f].count_ones())
    }

    /// Frame f becomes most recent.
    fn touch(&mut self, f: usize) {
        let b = self.0.sizes.frames as usize;
        let order = &mut self.0.directory.recency[..b];
        let at = order.iter().position(|&x| x as usize == f).expect("the order lists each frame");
        order[at..].rotate_left(1);
    }
}
