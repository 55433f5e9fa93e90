//! A catalogue of runs above the store (A9 to A11). Each call first reads all sheets, as no use.
use crate::cut::{cut, whole, Within};
use crate::roles::Operation;
use crate::sheets::Table;
use crate::{Answer, Buffers, Caller, Plain, Refusal, Said, Sheet};

/// The catalogue for someone who calls: pages 0 to `sheets` - 1 hold a sheet each.
#[derive(Clone, Copy, Debug, PartialEq, Eq)]
pub struct Catalogue {
    pub sheets: u32,
    /// whether sheets name the run that they replace (A11); else that number is read as 0
    pub repeats: bool,
    pub caller: Caller,
}

/// A run to add.
#[derive(Clone, Copy, Debug, PartialEq, Eq)]
pub struct NewRun {
    pub sample: u32,
    pub first: u32,
    pub count: u32,
}

/// What a look answers: the sheet as the caller sees it, and the current run.
#[derive(Clone, Copy, Debug, PartialEq, Eq)]
pub struct Looked {
    pub sheet: Sheet,
    pub current: u32,
    pub mended: u32,
}

/// The number of a run, and what the last step of a call answers, or the mends of one that has none.
type Numbered<T> = (u32, T);

/// The calls. An accepted add, replace or mark leaves its sheet in the page buffer, a read its page; nothing else changes it.
impl Catalogue {
    pub fn add(&self, store: &mut Plain, lent: &mut Buffers, page: &mut [u8], new: NewRun) -> Result<Numbered<Answer>, Refusal> {
        whole(|left| self.add_within(store, lent, page, None, new, left))
    }

    pub fn replace(
        &self,
        store: &mut Plain,
        lent: &mut Buffers,
        page: &mut [u8],
        run: u32,
        new: NewRun,
    ) -> Result<Numbered<Answer>, Refusal> {
        whole(|left| self.add_within(store, lent, page, Some(run), new, left))
    }

    #[inline(never)]
    pub fn look(&self, store: &Plain, lent: &Buffers, page: &[u8], run: u32) -> Result<Looked, Refusal> {
        let table = self.enter(store, lent, page, Operation::Look)?;
        let i = table.find(run).ok_or(Refusal::Unknown)?;
        Ok(Looked { sheet: self.caller.sees(table.sheets[i]), current: table.current(run), mended: table.mended })
    }

    pub fn list(&self, store: &Plain, lent: &Buffers, page: &[u8], position: u32) -> Result<Numbered<u32>, Refusal> {
        let table = self.enter(store, lent, page, Operation::List)?;
        let run = table.run_at(position).ok_or(Refusal::Unknown)?;
        Ok((run, table.mended))
    }

    pub fn read(&self, store: &mut Plain, lent: &Buffers, page: &mut [u8], run: u32, index: u32) -> Said {
        let table = self.enter(store, lent, page, Operation::Read)?;
        let sheet = table.sheets[table.find(run).ok_or(Refusal::Unknown)?];
        let n = sheet.first.checked_add(index).filter(|&n| index < sheet.count && n >= self.sheets && n < store.0.sizes.pages());
        let answer = store.read_checked(lent, n.ok_or(Refusal::Pages)?, page)?;
        Ok(answer.and_mended(table.mended))
    }

    pub fn mark(&self, store: &mut Plain, lent: &mut Buffers, page: &mut [u8], run: u32, mark: u32) -> Said {
        whole(|left| self.mark_within(store, lent, page, run, mark, left))
    }

    pub fn cut_add(&self, operations: u32, mut store: Plain, lent: &mut Buffers, page: &mut [u8], new: NewRun) -> Result<bool, Refusal> {
        cut(operations, |left| self.add_within(&mut store, lent, page, None, new, left))
    }

    pub fn cut_replace(
        &self,
        operations: u32,
        mut store: Plain,
        lent: &mut Buffers,
        page: &mut [u8],
        run: u32,
        new: NewRun,
    ) -> Result<bool, Refusal> {
        cut(operations, |left| self.add_within(&mut store, lent, page, Some(run), new, left))
    }

    pub fn cut_mark(
        &self,
        operations: u32,
        mut store: Plain,
        lent: &mut Buffers,
        page: &mut [u8],
        run: u32,
        mark: u32,
    ) -> Result<bool, Refusal> {
        cut(operations, |left| self.mark_within(&mut store, lent, page, run, mark, left))
    }
}

impl Catalogue {
    /// Checks 12, 4, 2 and 1, and reads all sheets: the lowest that is refused decides.
    fn enter(&self, store: &Plain, lent: &Buffers, page: &[u8], operation: Operation) -> Result<Table, Refusal> {
        self.caller.check(operation)?;
        store.check(lent)?;
        store.check_page(0, page.len())?;
        if page.len() < Sheet::LEN || !(1..=256).contains(&self.sheets) || self.sheets >= store.0.sizes.pages() {
            return Err(Refusal::Size);
        }
        let mut table = Table::new(self.sheets as usize);
        let mut copy = [0; 2048];
        for n in 0..self.sheets {
            let (bytes, mended) = store.peek(lent, n, &mut copy[..page.len()])?;
            let sheet = Sheet::read(bytes.first_chunk().expect("a page holds a sheet"));
            table.sheets[n as usize] = if self.repeats { sheet } else { Sheet { replaces: 0, ..sheet } };
            table.mended += mended;
        }
        Ok(table)
    }

    /// Adds a run, which may replace one.
    fn add_within(
        &self,
        store: &mut Plain,
        lent: &mut Buffers,
        page: &mut [u8],
        replaced: Option<u32>,
        new: NewRun,
        left: &mut u32,
    ) -> Within<Numbered<Answer>> {
        let operation = if replaced.is_some() { Operation::Replace } else { Operation::Add };
        let table = self.enter(store, lent, page, operation)?;
        let (i, run) = table.room().ok_or(Refusal::Full)?;
        if let Some(run) = replaced {
            unreplaced(&table, run)?;
        }
        let end = new.first as u64 + new.count as u64;
        let fits = new.count >= 1 && new.first >= self.sheets && end <= store.0.sizes.pages() as u64;
        if !fits || table.shares(new.first, new.count) {
            return Err(Refusal::Pages);
        }
        let NewRun { sample, first, count } = new;
        let (trainee, replaces) = (self.caller.trainee, replaced.unwrap_or(0));
        let sheet = Sheet { run, trainee, sample, first, count, mark: Sheet::UNMARKED, replaces };
        let answer = self.put(store, lent, page, i, sheet, left)?;
        Ok(answer.map(|answer| (run, answer.and_mended(table.mended))))
    }

    fn mark_within(&self, store: &mut Plain, lent: &mut Buffers, page: &mut [u8], run: u32, mark: u32, left: &mut u32) -> Within {
        let table = self.enter(store, lent, page, Operation::Mark)?;
        let i = unreplaced(&table, run)?;
        if mark > 100 {
            return Err(Refusal::Pages);
        }
        let answer = self.put(store, lent, page, i, Sheet { mark, ..table.sheets[i] }, left)?;
        Ok(answer.map(|answer| answer.and_mended(table.mended)))
    }

    /// Writes sheet i, and leaves it in the page buffer.
    fn put(&self, store: &mut Plain, lent: &mut Buffers, page: &mut [u8], i: usize, sheet: Sheet, left: &mut u32) -> Within {
        let mut bytes = [0; 2048];
        let bytes = &mut bytes[..page.len()];
        sheet.fill(bytes);
        let answer = store.write_checked(lent, i as u32, bytes, self.sheets, left)?;
        if answer.is_some() {
            page.copy_from_slice(bytes);
        }
        Ok(answer)
    }
}

/// The sheet of a run that no other replaces.
fn unreplaced(table: &Table, run: u32) -> Result<usize, Refusal> {
    let i = table.find(run).ok_or(Refusal::Unknown)?;
    match table.replacer(run) {
        Some(_) => Err(Refusal::Replaced),
        None => Ok(i),
    }
}
