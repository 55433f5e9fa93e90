use crate::{Answer, Buffers, Refusal, Store};

/// Who calls. Each may add, look, list and read; a tutor may replace too, and an examiner may do all six.
#[derive(Clone, Copy, Debug, PartialEq, Eq)]
pub enum Role {
    /// looks at the sheet of another trainee with trainee 0 and [`Sheet::UNMARKED`]
    Trainee,
    Tutor,
    Examiner,
}

/// One run, on a page: seven numbers of 32 bits, low byte first, and 0 for the rest.
#[repr(C)]
#[derive(Clone, Copy, Debug, PartialEq, Eq)]
pub struct Sheet {
    /// 1 to 4,294,967,294
    pub run: u32,
    pub trainee: u32,
    pub sample: u32,
    /// the first data page
    pub first: u32,
    /// how many pages it has from there on
    pub count: u32,
    /// 0 to 100, or [`Sheet::UNMARKED`]
    pub mark: u32,
    /// the run that it replaces, 0 for none; one not below its own counts as none
    pub replaces: u32,
}

const _: () = assert!(std::mem::size_of::<Sheet>() == 28);

impl Sheet {
    /// The mark of a run that has none.
    pub const UNMARKED: u32 = 255;
}

/// A run to add: `count` pages from page `first` on.
#[derive(Clone, Copy, Debug, PartialEq, Eq)]
pub struct NewRun {
    pub sample: u32,
    pub first: u32,
    pub count: u32,
}

/// What adding or replacing answers: the new run, and what writing its sheet answers, with the mends of the whole call.
#[derive(Clone, Copy, Debug, PartialEq, Eq)]
pub struct Added {
    pub run: u32,
    pub answer: Answer,
}

/// What a look answers: the sheet as the caller sees it, and the run that counts, found by following replacements upward.
#[derive(Clone, Copy, Debug, PartialEq, Eq)]
pub struct Looked {
    pub sheet: Sheet,
    pub current: u32,
    pub mended: u32,
}

/// What a listing answers.
#[derive(Clone, Copy, Debug, PartialEq, Eq)]
pub struct Listed {
    pub run: u32,
    pub mended: u32,
}

/// A catalogue of runs, for someone who calls. Pages 0 to `sheets` - 1 of the store hold a sheet each, and nothing else is kept: `sheets`
/// is the same in each call, and no other call writes these pages. An added run takes the trainee number.
///
/// Each call is lent a page buffer. An accepted add, replace or mark leaves its sheet there, an accepted read its page; nothing else
/// changes it.
///
/// ```
/// use clash::{Catalogue, Memory, NewRun, Options, Refusal, Role, Sizes, Store};
///
/// let sizes = Sizes::from([32, 4, 4, 2, 1, 9]);
/// let mut memory = Memory::new(&sizes);
/// let mut store = Store::open(sizes, Options::default(), &memory.lend())?;
/// let trainee = Catalogue { sheets: 2, role: Role::Trainee, trainee: 7 };
/// let examiner = Catalogue { role: Role::Examiner, trainee: 0, ..trainee };
///
/// let mut page = [0; 32];
/// let run = trainee.add(&mut store, &mut memory.lend(), NewRun { sample: 5, first: 2, count: 3 }, &mut page)?.run;
/// assert_eq!(trainee.mark(&mut store, &mut memory.lend(), run, 100, &mut page), Err(Refusal::Role));
/// examiner.mark(&mut store, &mut memory.lend(), run, 80, &mut page)?;
/// let looked = trainee.look(&store, &memory.lend(), run, &mut page)?;
/// assert_eq!((looked.sheet.mark, looked.current), (80, run));
/// # Ok::<(), clash::Refusal>(())
/// ```
#[derive(Clone, Copy, Debug, PartialEq, Eq)]
pub struct Catalogue {
    /// 1 to 256, and fewer than the chip has pages
    pub sheets: u32,
    pub role: Role,
    pub trainee: u32,
}

impl Catalogue {
    /// The sheet of a run as the caller sees it, and the current run.
    pub fn look(&self, store: &Store, lent: &Buffers, run: u32, page: &mut [u8]) -> Result<Looked, Refusal> {
        expect(store, lent, page);
        store.cache.run_look(lent, self, run, page)
    }

    /// The run at a position, from 0 in the order of the sheets.
    pub fn list(&self, store: &Store, lent: &Buffers, position: u32, page: &mut [u8]) -> Result<Listed, Refusal> {
        expect(store, lent, page);
        store.cache.run_list(lent, self, position, page)
    }

    /// Fills `page` with the run's page of this index. Any role may read any run.
    pub fn read(&self, store: &mut Store, lent: &Buffers, run: u32, index: u32, page: &mut [u8]) -> Result<Answer, Refusal> {
        expect(store, lent, page);
        store.cache.run_read(lent, self, run, index, page)
    }

    /// Adds a run, unmarked, with the largest number in use plus 1, on the first empty sheet. Its pages are not written.
    pub fn add(&self, store: &mut Store, lent: &mut Buffers, new: NewRun, page: &mut [u8]) -> Result<Added, Refusal> {
        expect(store, lent, page);
        store.cache.run_add(lent, self, new, page)
    }

    /// Adds a run that replaces another, which keeps its sheet and its pages.
    pub fn replace(&self, store: &mut Store, lent: &mut Buffers, run: u32, new: NewRun, page: &mut [u8]) -> Result<Added, Refusal> {
        expect(store, lent, page);
        store.cache.run_replace(lent, self, run, new, page)
    }

    /// Marks a run, which no other replaces: 0 to 100.
    pub fn mark(&self, store: &mut Store, lent: &mut Buffers, run: u32, mark: u32, page: &mut [u8]) -> Result<Answer, Refusal> {
        expect(store, lent, page);
        store.cache.run_mark(lent, self, run, mark, page)
    }
}

/// What is lent has the lengths that the store's sizes ask for.
fn expect(store: &Store, lent: &Buffers, page: &[u8]) {
    store.expect(lent);
    store.expect_page(page);
}
