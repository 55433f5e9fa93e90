//! Calls that do no more than so many chip operations (A12). They lose the record, and say whether they were done whole.
use crate::{Answer, Buffers, Plain, Refusal};

/// What a call comes to that may be stopped: then it has no answer.
pub(crate) type Within<T = Answer> = Result<Option<T>, Refusal>;

/// An ordinary call: it has more chip operations left than any call needs.
#[inline(always)]
pub(crate) fn whole<T>(call: impl FnOnce(&mut u32) -> Within<T>) -> Result<T, Refusal> {
    call(&mut { u32::MAX }).map(|answer| answer.expect("no call needs so many operations"))
}

/// Whether a call with so many chip operations was done whole.
pub(crate) fn cut<T>(mut operations: u32, call: impl FnOnce(&mut u32) -> Within<T>) -> Result<bool, Refusal> {
    call(&mut operations).map(|answer| answer.is_some())
}

impl Plain {
    pub fn cut_write(mut self, operations: u32, lent: &mut Buffers, n: u32, page: &[u8]) -> Result<bool, Refusal> {
        cut(operations, |left| self.write_within(lent, n, page, left))
    }

    pub fn cut_part(
        mut self,
        operations: u32,
        lent: &mut Buffers,
        n: u32,
        first: u32,
        bytes: &[u8],
        page: &mut [u8],
    ) -> Result<bool, Refusal> {
        cut(operations, |left| self.part_within(lent, n, first, bytes, page, left))
    }

    pub fn cut_take_back(mut self, operations: u32, lent: &mut Buffers) -> Result<bool, Refusal> {
        cut(operations, |left| self.take_back_within(lent, left))
    }

    pub fn cut_step(mut self, operations: u32, lent: &mut Buffers) -> Result<bool, Refusal> {
        cut(operations, |left| self.step_within(lent, left))
    }

    pub fn cut_flush(mut self, operations: u32, lent: &mut Buffers) -> Result<bool, Refusal> {
        cut(operations, |left| self.flush_within(lent, left))
    }
}
