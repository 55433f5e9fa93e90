//! The calls of the catalogue's archive, as `include/clash_runs.h` declares them.
use crate::calls::{accepted, call, written, RawAnswer};
use crate::{Added, Answer, Buffers, Cache, Catalogue, Listed, Looked, NewRun, Refusal, Sheet};

#[repr(C)]
struct RunAnswer {
    answer: RawAnswer,
    run: u32,
    current: u32,
    sheet: Sheet,
}

#[repr(C)]
struct RunReply {
    cache: Cache,
    answer: RunAnswer,
}

const _: () = assert!(std::mem::size_of::<RunAnswer>() == 64 && std::mem::size_of::<RunReply>() == 784);

#[rustfmt::skip]
extern "C" {
    fn clash_run_look(
        cache: Cache,
        flash: *const u8, flash_bytes: usize, codes: *const u8, codes_bytes: usize, marks: *const u8, marks_bytes: usize,
        wear: *const u32, wear_count: usize, pspace: *const u8, pspace_bytes: usize, bspace: *const u8, bspace_bytes: usize,
        shelf: *const u8, shelf_bytes: usize, sheets: u32, role: u32, trainee: u32, run: u32, page: *mut u8, page_bytes: usize,
    ) -> RunReply;
    fn clash_run_list(
        cache: Cache,
        flash: *const u8, flash_bytes: usize, codes: *const u8, codes_bytes: usize, marks: *const u8, marks_bytes: usize,
        wear: *const u32, wear_count: usize, pspace: *const u8, pspace_bytes: usize, bspace: *const u8, bspace_bytes: usize,
        shelf: *const u8, shelf_bytes: usize, sheets: u32, role: u32, trainee: u32, position: u32, page: *mut u8, page_bytes: usize,
    ) -> RunReply;
    fn clash_run_read(
        cache: Cache,
        flash: *const u8, flash_bytes: usize, codes: *const u8, codes_bytes: usize, marks: *const u8, marks_bytes: usize,
        wear: *const u32, wear_count: usize, pspace: *const u8, pspace_bytes: usize, bspace: *const u8, bspace_bytes: usize,
        shelf: *const u8, shelf_bytes: usize, sheets: u32, role: u32, trainee: u32, run: u32, index: u32,
        page: *mut u8, page_bytes: usize,
    ) -> RunReply;
    fn clash_run_add(
        cache: Cache,
        flash: *mut u8, flash_bytes: usize, codes: *mut u8, codes_bytes: usize, marks: *mut u8, marks_bytes: usize,
        wear: *mut u32, wear_count: usize, pspace: *mut u8, pspace_bytes: usize, bspace: *mut u8, bspace_bytes: usize,
        shelf: *mut u8, shelf_bytes: usize, sheets: u32, role: u32, trainee: u32, sample: u32, first: u32, count: u32,
        page: *mut u8, page_bytes: usize,
    ) -> RunReply;
    fn clash_run_replace(
        cache: Cache,
        flash: *mut u8, flash_bytes: usize, codes: *mut u8, codes_bytes: usize, marks: *mut u8, marks_bytes: usize,
        wear: *mut u32, wear_count: usize, pspace: *mut u8, pspace_bytes: usize, bspace: *mut u8, bspace_bytes: usize,
        shelf: *mut u8, shelf_bytes: usize, sheets: u32, role: u32, trainee: u32, run: u32, sample: u32, first: u32, count: u32,
        page: *mut u8, page_bytes: usize,
    ) -> RunReply;
    fn clash_run_mark(
        cache: Cache,
        flash: *mut u8, flash_bytes: usize, codes: *mut u8, codes_bytes: usize, marks: *mut u8, marks_bytes: usize,
        wear: *mut u32, wear_count: usize, pspace: *mut u8, pspace_bytes: usize, bspace: *mut u8, bspace_bytes: usize,
        shelf: *mut u8, shelf_bytes: usize, sheets: u32, role: u32, trainee: u32, run: u32, grade: u32,
        page: *mut u8, page_bytes: usize,
    ) -> RunReply;
}

/// Calls a function of the archive: the caller stands before what is asked for, the page buffer after it.
#[rustfmt::skip]
macro_rules! ask {
    ($function:ident($cache:expr; $lent:ident.$pointer:ident; $who:ident; $($asked:expr),*; $page:ident)) => {
        call!($function(
            $cache; $lent.$pointer;
            $who.sheets, $who.role as u32, $who.trainee, $($asked,)* $page.as_mut_ptr(), $page.len()
        ))
    };
}

/// The calls of a catalogue on the record itself, with whatever is lent: nothing is asserted, and what does not fit is refused.
impl Cache {
    /// The sheet of a run as the caller sees it, and the current run.
    pub fn run_look(&self, lent: &Buffers, who: &Catalogue, run: u32, page: &mut [u8]) -> Result<Looked, Refusal> {
        let reply = ask!(clash_run_look(*self; lent.as_ptr; who; run; page));
        let a = said(&reply)?;
        Ok(Looked { sheet: a.sheet, current: a.current, mended: a.answer.mended })
    }

    /// The run at a position, from 0 in the order of the sheets.
    pub fn run_list(&self, lent: &Buffers, who: &Catalogue, position: u32, page: &mut [u8]) -> Result<Listed, Refusal> {
        let reply = ask!(clash_run_list(*self; lent.as_ptr; who; position; page));
        let a = said(&reply)?;
        Ok(Listed { run: a.run, mended: a.answer.mended })
    }

    /// Fills `page` with the run's page of this index.
    pub fn run_read(&mut self, lent: &Buffers, who: &Catalogue, run: u32, index: u32, page: &mut [u8]) -> Result<Answer, Refusal> {
        let reply = ask!(clash_run_read(*self; lent.as_ptr; who; run, index; page));
        *self = reply.cache;
        let a = &said(&reply)?.answer;
        Ok(Answer::Read { way: a.way, mended: a.mended })
    }

    /// Adds a run, and leaves its sheet in `page`.
    pub fn run_add(&mut self, lent: &mut Buffers, who: &Catalogue, new: NewRun, page: &mut [u8]) -> Result<Added, Refusal> {
        let reply = ask!(clash_run_add(*self; lent.as_mut_ptr; who; new.sample, new.first, new.count; page));
        *self = reply.cache;
        added(&reply)
    }

    /// Adds a run that replaces another, and leaves its sheet in `page`.
    pub fn run_replace(&mut self, lent: &mut Buffers, who: &Catalogue, run: u32, new: NewRun, page: &mut [u8]) -> Result<Added, Refusal> {
        let reply = ask!(clash_run_replace(*self; lent.as_mut_ptr; who; run, new.sample, new.first, new.count; page));
        *self = reply.cache;
        added(&reply)
    }

    /// Marks a run, and leaves its sheet in `page`.
    pub fn run_mark(&mut self, lent: &mut Buffers, who: &Catalogue, run: u32, mark: u32, page: &mut [u8]) -> Result<Answer, Refusal> {
        let reply = ask!(clash_run_mark(*self; lent.as_mut_ptr; who; run, mark; page));
        *self = reply.cache;
        Ok(written(&said(&reply)?.answer))
    }
}

/// The answer where the call was accepted.
fn said(reply: &RunReply) -> Result<&RunAnswer, Refusal> {
    accepted(&reply.answer.answer)?;
    Ok(&reply.answer)
}

fn added(reply: &RunReply) -> Result<Added, Refusal> {
    let a = said(reply)?;
    Ok(Added { run: a.run, answer: written(&a.answer) })
}
