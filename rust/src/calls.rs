//! The calls of the store's archive, as `include/clash.h` declares them. Here, in `runs`, `cut` and `rehearsal` is all unsafe code: a slice
//! crosses as its pointer and its length, and Rust's borrows say that the buffers do not overlap.
use crate::{Answer, Buffers, Cache, Opened, Options, Refusal, Report, Sizes, VACANT};

#[repr(C)]
pub(crate) struct RawAnswer {
    pub refusal: u32,
    pub way: u32,
    pub block: u32,
    pub rewrites: u32,
    pub merged: u32,
    pub mended: u32,
    pub torn: u32,
}

#[repr(C)]
struct Reply {
    cache: Cache,
    answer: RawAnswer,
}

#[repr(C)]
struct ReportReply {
    cache: Cache,
    refusal: u32,
    largest: u32,
    total: u64,
    spread: u64,
}

const _: () = assert!(std::mem::size_of::<ReportReply>() == 744);
const _: () = assert!(std::mem::size_of::<RawAnswer>() == 28 && std::mem::size_of::<Reply>() == 752);

#[rustfmt::skip]
extern "C" {
    fn clash_open(
        sizes: Sizes, options: Options,
        flash: *const u8, flash_bytes: usize, codes: *const u8, codes_bytes: usize, marks: *const u8, marks_bytes: usize,
        wear: *const u32, wear_count: usize, pspace: *const u8, pspace_bytes: usize, bspace: *const u8, bspace_bytes: usize,
        shelf: *const u8, shelf_bytes: usize,
    ) -> Reply;
    fn clash_read(
        cache: Cache,
        flash: *const u8, flash_bytes: usize, codes: *const u8, codes_bytes: usize, marks: *const u8, marks_bytes: usize,
        wear: *const u32, wear_count: usize, pspace: *const u8, pspace_bytes: usize, bspace: *const u8, bspace_bytes: usize,
        shelf: *const u8, shelf_bytes: usize, n: u32, page: *mut u8, page_bytes: usize,
    ) -> Reply;
    fn clash_write(
        cache: Cache,
        flash: *mut u8, flash_bytes: usize, codes: *mut u8, codes_bytes: usize, marks: *mut u8, marks_bytes: usize,
        wear: *mut u32, wear_count: usize, pspace: *mut u8, pspace_bytes: usize, bspace: *mut u8, bspace_bytes: usize,
        shelf: *mut u8, shelf_bytes: usize, n: u32, page: *const u8, page_bytes: usize,
    ) -> Reply;
    fn clash_part(
        cache: Cache,
        flash: *mut u8, flash_bytes: usize, codes: *mut u8, codes_bytes: usize, marks: *mut u8, marks_bytes: usize,
        wear: *mut u32, wear_count: usize, pspace: *mut u8, pspace_bytes: usize, bspace: *mut u8, bspace_bytes: usize,
        shelf: *mut u8, shelf_bytes: usize, n: u32, first: u32, bytes: *const u8, byte_count: usize, page: *mut u8, page_bytes: usize,
    ) -> Reply;
    fn clash_take_back(
        cache: Cache,
        flash: *mut u8, flash_bytes: usize, codes: *mut u8, codes_bytes: usize, marks: *mut u8, marks_bytes: usize,
        wear: *mut u32, wear_count: usize, pspace: *mut u8, pspace_bytes: usize, bspace: *mut u8, bspace_bytes: usize,
        shelf: *const u8, shelf_bytes: usize,
    ) -> Reply;
    fn clash_step(
        cache: Cache,
        flash: *mut u8, flash_bytes: usize, codes: *mut u8, codes_bytes: usize, marks: *mut u8, marks_bytes: usize,
        wear: *mut u32, wear_count: usize, pspace: *const u8, pspace_bytes: usize, bspace: *mut u8, bspace_bytes: usize,
        shelf: *const u8, shelf_bytes: usize,
    ) -> Reply;
    fn clash_flush(
        cache: Cache,
        flash: *mut u8, flash_bytes: usize, codes: *mut u8, codes_bytes: usize, marks: *mut u8, marks_bytes: usize,
        wear: *mut u32, wear_count: usize, pspace: *const u8, pspace_bytes: usize, bspace: *mut u8, bspace_bytes: usize,
        shelf: *const u8, shelf_bytes: usize,
    ) -> Reply;
    fn clash_report(
        cache: Cache,
        flash: *const u8, flash_bytes: usize, codes: *const u8, codes_bytes: usize, marks: *const u8, marks_bytes: usize,
        wear: *const u32, wear_count: usize, pspace: *const u8, pspace_bytes: usize, bspace: *const u8, bspace_bytes: usize,
        shelf: *const u8, shelf_bytes: usize,
    ) -> ReportReply;
}

/// Calls a function of the archive: what stands before the buffers, each buffer's pointer and length, and what stands after them.
#[rustfmt::skip]
macro_rules! call {
    ($function:ident($($before:expr),*; $lent:ident.$pointer:ident; $($after:expr),*)) => {
        unsafe {
            $function(
                $($before,)*
                $lent.flash.$pointer(), $lent.flash.len(),
                $lent.codes.$pointer(), $lent.codes.len(),
                $lent.marks.$pointer(), $lent.marks.len(),
                $lent.wear.$pointer(), $lent.wear.len(),
                $lent.pspace.$pointer(), $lent.pspace.len(),
                $lent.bspace.$pointer(), $lent.bspace.len(),
                $lent.shelf.$pointer(), $lent.shelf.len(),
                $($after),*
            )
        }
    };
}

pub(crate) use call;

/// The calls on the record itself, with whatever is lent: nothing is asserted, and what does not fit is refused.
impl Cache {
    /// The record of an open store, and the number of torn blocks.
    pub fn open(sizes: Sizes, options: Options, lent: &Buffers) -> Result<Opened, Refusal> {
        let reply = call!(clash_open(sizes, options; lent.as_ptr;));
        accepted(&reply.answer)?;
        Ok(Opened { cache: reply.cache, torn: reply.answer.torn })
    }

    /// Fills `page` with page `n`.
    pub fn read(&mut self, lent: &Buffers, n: u32, page: &mut [u8]) -> Result<Answer, Refusal> {
        let reply = call!(clash_read(*self; lent.as_ptr; n, page.as_mut_ptr(), page.len()));
        let a = self.next(&reply)?;
        Ok(Answer::Read { way: a.way, mended: a.mended })
    }

    /// Stores `page` as page `n`. Refused as worn only where every frame holds a worn block.
    pub fn write(&mut self, lent: &mut Buffers, n: u32, page: &[u8]) -> Result<Answer, Refusal> {
        let reply = call!(clash_write(*self; lent.as_mut_ptr; n, page.as_ptr(), page.len()));
        Ok(written(self.next(&reply)?))
    }

    /// Stores `bytes` in page `n`, from its byte `first` on, and fills `page` with the page that comes of it. Without bytes nothing is
    /// read or changed.
    pub fn part(&mut self, lent: &mut Buffers, n: u32, first: u32, bytes: &[u8], page: &mut [u8]) -> Result<Answer, Refusal> {
        let reply = call!(clash_part(*self; lent.as_mut_ptr; n, first, bytes.as_ptr(), bytes.len(), page.as_mut_ptr(), page.len()));
        Ok(written(self.next(&reply)?))
    }

    /// Takes the latest write or part write back whose earlier page is on the shelf.
    pub fn take_back(&mut self, lent: &mut Buffers) -> Result<Answer, Refusal> {
        let reply = call!(clash_take_back(*self; lent.as_mut_ptr;));
        Ok(written(self.next(&reply)?))
    }

    /// Rewrites one block that has pages cached.
    pub fn step(&mut self, lent: &mut Buffers) -> Result<Answer, Refusal> {
        let reply = call!(clash_step(*self; lent.as_mut_ptr;));
        let a = self.next(&reply)?;
        if a.rewrites == 0 {
            return Ok(Answer::Clean);
        }
        Ok(Answer::Step { block: a.block, merged: a.merged, mended: a.mended })
    }

    /// Rewrites every block that has pages cached, or none where one of them is worn or has a page to merge that cannot be read.
    pub fn flush(&mut self, lent: &mut Buffers) -> Result<Answer, Refusal> {
        let reply = call!(clash_flush(*self; lent.as_mut_ptr;));
        let a = self.next(&reply)?;
        Ok(Answer::Flush { rewrites: a.rewrites, merged: a.merged, mended: a.mended })
    }

    /// The wear in whole figures.
    pub fn report(&self, lent: &Buffers) -> Result<Report, Refusal> {
        let reply = call!(clash_report(*self; lent.as_ptr;));
        debug_assert_eq!(reply.cache, *self, "a report changes nothing");
        match reply.refusal {
            0 => Ok(Report { total: reply.total, largest: reply.largest, spread: reply.spread }),
            2 => Err(Refusal::Buffer),
            3 => Err(Refusal::Overworn),
            4 => Err(Refusal::Record),
            other => unreachable!("a report has no refusal {other}"),
        }
    }

    /// Takes the record of a reply, and gives the answer where the call was accepted.
    #[inline]
    fn next<'a>(&mut self, reply: &'a Reply) -> Result<&'a RawAnswer, Refusal> {
        *self = reply.cache;
        accepted(&reply.answer)?;
        Ok(&reply.answer)
    }
}

/// The answer of a write, of a page, of part of one or of one taken back.
#[inline]
pub(crate) fn written(a: &RawAnswer) -> Answer {
    let erased = if a.block == VACANT { None } else { Some(a.block) };
    Answer::Write { way: a.way, erased, merged: a.merged, mended: a.mended }
}

#[inline]
pub(crate) fn accepted(a: &RawAnswer) -> Result<(), Refusal> {
    match a.refusal {
        0 => Ok(()),
        1 => Err(Refusal::Size),
        2 => Err(Refusal::Buffer),
        3 => Err(Refusal::Overworn),
        4 => Err(Refusal::Record),
        5 => Err(Refusal::Page),
        6 => Err(Refusal::Worn(a.block)),
        7 => Err(Refusal::Unreadable),
        8 => Err(Refusal::Empty),
        9 => Err(Refusal::Full),
        10 => Err(Refusal::Unknown),
        11 => Err(Refusal::Pages),
        12 => Err(Refusal::Role),
        13 => Err(Refusal::Replaced),
        14 => Err(Refusal::Torn),
        other => unreachable!("the store has no refusal {other}"),
    }
}
