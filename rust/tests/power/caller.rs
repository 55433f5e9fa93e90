//! Who makes calls on a chip, and says in the ledger what it is about to do.
use crate::chip::{Chip, Ram, Setup};
use crate::ledger::Ledger;
use crate::sheets;
use clash::{Cache, Catalogue, NewRun, Options, Refusal, Role, VACANT};

#[derive(Clone, Debug)]
pub enum Call {
    Read(u32),
    Write(u32, Vec<u8>),
    /// a page, a first byte and some bytes
    Part(u32, u32, Vec<u8>),
    TakeBack,
    Step,
    Flush,
    Add(NewRun),
    Replace(u32, NewRun),
    Mark(u32, u32),
}

pub struct Caller {
    pub setup: Setup,
    pub chip: Chip,
    pub ledger: Ledger,
    pub ram: Ram,
    pub cache: Cache,
    /// the pages that are on the shelf, and what they held
    pub shelved: Vec<(u32, Vec<u8>)>,
    page: Vec<u8>,
}

impl Caller {
    /// Opens the store. Its cache is empty.
    pub fn open(setup: Setup, mut chip: Chip, ledger: Ledger) -> Result<Caller, String> {
        let mut ram = Ram::new(&setup);
        let opened =
            Cache::open(setup.sizes, setup.options, &ram.lend(&mut chip)).map_err(|why| format!("the opening is refused: {why}"))?;
        Ok(Caller { setup, chip, ledger, ram, cache: opened.cache, shelved: Vec::new(), page: vec![0; setup.page_len()] })
    }

    /// Opens the store again with another number of shelf pages, which empties the cache.
    pub fn reopen(self, shelf_pages: u32) -> Result<Caller, String> {
        let Caller { setup, chip, ledger, .. } = self;
        let options = Options { shelf_pages, ..setup.options };
        Caller::open(Setup { options, ..setup }, chip, ledger)
    }

    pub fn who(&self) -> Catalogue {
        Catalogue { sheets: self.setup.sheets, role: Role::Examiner, trainee: 7 }
    }

    /// The page that a call puts into the page array where it is accepted, and its contents.
    pub fn meant(&mut self, call: &Call) -> Option<(u32, Vec<u8>)> {
        match call {
            Call::Read(_) | Call::Step | Call::Flush => None,
            Call::Write(n, page) => Some((*n, page.clone())),
            Call::Part(n, first, bytes) => {
                let mut page = self.ledger.page(*n).to_vec();
                page[*first as usize..][..bytes.len()].copy_from_slice(bytes);
                Some((*n, page))
            }
            Call::TakeBack => self.shelved.last().cloned(),
            Call::Add(new) => sheets::added(self, new, 0),
            Call::Replace(run, new) => sheets::added(self, new, *run),
            Call::Mark(run, mark) => sheets::marked(self, *run, *mark),
        }
    }

    /// Makes a call, and compares what it says with the ledger.
    pub fn perform(&mut self, call: &Call) -> Result<(), String> {
        let meant = self.meant(call);
        let earlier = meant.as_ref().map(|(n, _)| self.ledger.page(*n).to_vec());
        self.ledger.begin(matches!(call, Call::Flush), meant.as_ref());
        let said = self.call(call);
        self.ledger.end(said.is_ok(), self.chip.parts().wear);
        match (said, call) {
            (Err(why), _) => self.refused(call, why),
            (Ok(()), Call::Read(n)) if self.page != self.ledger.page(*n) => Err(format!("page {n} is read as something else")),
            (Ok(()), Call::TakeBack) => {
                self.shelved.pop();
                Ok(())
            }
            (Ok(()), _) => {
                if let (Some((n, _)), Some(earlier)) = (meant, earlier) {
                    self.shelve(n, earlier);
                }
                Ok(())
            }
        }
    }

    /// The call itself.
    pub fn call(&mut self, call: &Call) -> Result<(), Refusal> {
        let who = self.who();
        let (cache, page) = (&mut self.cache, &mut self.page);
        let lent = &mut self.ram.lend(&mut self.chip);
        match call {
            Call::Read(n) => cache.read(lent, *n, page).map(|_| ()),
            Call::Write(n, from) => cache.write(lent, *n, from).map(|_| ()),
            Call::Part(n, first, bytes) => cache.part(lent, *n, *first, bytes, page).map(|_| ()),
            Call::TakeBack => cache.take_back(lent).map(|_| ()),
            Call::Step => cache.step(lent).map(|_| ()),
            Call::Flush => cache.flush(lent).map(|_| ()),
            Call::Add(new) => cache.run_add(lent, &who, *new, page).map(|_| ()),
            Call::Replace(run, new) => cache.run_replace(lent, &who, *run, *new, page).map(|_| ()),
            Call::Mark(run, mark) => cache.run_mark(lent, &who, *run, *mark, page).map(|_| ()),
        }
    }

    /// The same with so many operations, which loses the record.
    pub fn cut(&mut self, call: &Call, operations: u32) {
        let (who, cache, page) = (self.who(), self.cache, &mut self.page);
        let lent = &mut self.ram.lend(&mut self.chip);
        self.cache = match call {
            Call::Read(_) => Cache::blank(),
            Call::Write(n, from) => cache.cut_write(lent, *n, from, operations),
            Call::Part(n, first, bytes) => cache.cut_part(lent, *n, *first, bytes, page, operations),
            Call::TakeBack => cache.cut_take_back(lent, operations),
            Call::Step => cache.cut_step(lent, operations),
            Call::Flush => cache.cut_flush(lent, operations),
            Call::Add(new) => cache.cut_run_add(lent, &who, *new, page, operations),
            Call::Replace(run, new) => cache.cut_run_replace(lent, &who, *run, *new, page, operations),
            Call::Mark(run, mark) => cache.cut_run_mark(lent, &who, *run, *mark, page, operations),
        };
    }

    fn shelve(&mut self, n: u32, earlier: Vec<u8>) {
        self.shelved.push((n, earlier));
        let over = self.shelved.len().saturating_sub(self.setup.options.shelf_pages as usize);
        self.shelved.drain(..over);
    }

    /// Only torn pages, an empty shelf and what the catalogue has no room for are reasons to turn a call down.
    fn refused(&mut self, call: &Call, why: Refusal) -> Result<(), String> {
        let is_torn = !self.ledger.torn().is_empty();
        match why {
            Refusal::Torn if is_torn => Ok(()),
            Refusal::Unreadable if is_torn && self.setup.options.coded == 1 => Ok(()),
            Refusal::Empty if self.shelved.is_empty() => Ok(()),
            Refusal::Full | Refusal::Unknown | Refusal::Pages | Refusal::Replaced => Ok(()),
            _ => Err(format!("{call:?} is refused: {why}")),
        }
    }

    /// Makes torn blocks whole, one after another: opened without a shelf, its torn pages are written, and a flush follows.
    pub fn repaired(self, contents: &mut dyn FnMut() -> Vec<u8>) -> Result<Caller, String> {
        let shelf_pages = self.setup.options.shelf_pages;
        let mut caller = self.reopen(0)?;
        while let Some(&first) = caller.ledger.torn().first() {
            let block = caller.setup.block(first / caller.setup.sizes.pages_per_block);
            for n in caller.ledger.torn().into_iter().filter(|n| block.contains(n)) {
                caller.perform(&Call::Write(n, contents()))?;
            }
            caller.perform(&Call::Flush)?;
            if caller.ledger.torn().first().is_some_and(|n| block.contains(n)) {
                return Err(format!("block {} is torn still", block.start / caller.setup.sizes.pages_per_block));
            }
        }
        let empty = caller.cache.directory;
        match empty.slots.iter().chain(&empty.frames).all(|&entry| entry == VACANT) {
            true => caller.reopen(shelf_pages),
            false => Err("something is cached after a flush".into()),
        }
    }
}
