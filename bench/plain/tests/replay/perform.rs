//! Carries a form out on the one store of a script.
use crate::crc32::crc32;
use crate::forms::{Call, Form};
use plain::{Answer, Cache, Catalogue, Looked, Memory, Options, Plain, Refusal, Report, Said, Sizes, Tallies};

/// The store, on the blank record before an opening, and the buffers.
pub struct State {
    pub store: Plain,
    pub memory: Memory,
}

/// What a form came to.
pub enum Reply {
    Nothing,
    /// with the number of torn blocks
    Opened(Result<u32, Refusal>),
    /// a call's answer, and the CRC-32 of the page buffer that a read or a part write left
    Called(Said, Option<u32>),
    Looked(Result<Looked, Refusal>),
    /// a run and its mends
    Listed(Result<(u32, u32), Refusal>),
    /// as a call, with the run
    Added(Result<(u32, Answer), Refusal>, u32),
    /// of a call by its word, whether it was done whole
    Cut(&'static str, Result<bool, Refusal>),
    Rehearsed(Result<Tallies, Refusal>),
    Reported(Result<Report, Refusal>),
    Dump,
}

/// A line that cannot be carried out.
pub struct Bad;

const MOST_FLASH: usize = 4 << 20;

/// No sound record has pages of more than 2,048 bytes: a longer page buffer, or more bytes of a part write, are refused whatever their
/// length, so they need not be made.
const TOO_LONG: u32 = 2049;

impl State {
    pub fn new() -> State {
        State { store: Plain(Cache::blank()), memory: Memory::default() }
    }

    pub fn perform(&mut self, form: Form) -> Result<Reply, Bad> {
        let page = self.page();
        match form {
            Form::Open(sizes, options) => self.open(sizes, options),
            Form::Reopen(sizes, options) => Ok(self.reopen(sizes, options)),
            Form::SetWear { block, wear } => set(&mut self.memory.wear, block, |entry| *entry = wear),
            Form::SetMark { n, mark } => {
                let mark = mark.try_into().map_err(|_| Bad)?;
                set(&mut self.memory.marks, n, |entry| *entry = mark)
            }
            Form::FlipFlash { byte, bit } => flip(&mut self.memory.flash, byte, bit),
            Form::FlipCode { byte, bit } => flip(&mut self.memory.codes, byte, bit),
            Form::Spoil { field, index, value } => {
                (field.set)(&mut self.store.0, index, value);
                Ok(Reply::Nothing)
            }
            Form::Read { n, len } => Ok(self.read(n, len)),
            Form::Look { by, run } => Ok(Reply::Looked(by.look(&self.store, &self.memory.lend(), &page, run))),
            Form::List { by, position } => Ok(Reply::Listed(by.list(&self.store, &self.memory.lend(), &page, position))),
            Form::ReadRun { by, run, index } => Ok(self.read_run(by, run, index)),
            Form::Call(call) => Ok(self.call(call)),
            Form::Cut { operations, word, call } => Ok(Reply::Cut(word, self.cut(operations, call))),
            Form::Rehearse(class) => Ok(Reply::Rehearsed(class.run())),
            Form::Report => Ok(Reply::Reported(self.store.report(&self.memory.lend()))),
            Form::Dump => Ok(Reply::Dump),
        }
    }

    /// An opening with buffers made afresh; a refused one keeps the store in use.
    fn open(&mut self, sizes: Sizes, options: Options) -> Result<Reply, Bad> {
        if !sizes.in_limits() || !options.in_limits(&sizes) {
            return Ok(Reply::Opened(Err(Refusal::Size)));
        }
        if sizes.flash_len() > MOST_FLASH {
            return Err(Bad);
        }
        let mut memory = Memory::new(&sizes, &options);
        let opened = Plain::open(sizes, options, &memory.lend());
        let torn = opened.map(|store| store.torn(&memory.lend()));
        if let Ok(store) = opened {
            *self = State { store, memory };
        }
        Ok(Reply::Opened(torn))
    }

    /// An opening with the buffers as they are.
    fn reopen(&mut self, sizes: Sizes, options: Options) -> Reply {
        let lent = self.memory.lend();
        let opened = Plain::open(sizes, options, &lent);
        Reply::Opened(opened.map(|store| {
            self.store = store;
            store.torn(&lent)
        }))
    }

    fn read(&mut self, n: u32, len: Option<u32>) -> Reply {
        let mut page = vec![0xA5; self.page_len(len)];
        let answer = self.store.read(&self.memory.lend(), n, &mut page);
        Reply::Called(answer, Some(crc32(&page)))
    }

    fn read_run(&mut self, by: Catalogue, run: u32, index: u32) -> Reply {
        let mut page = self.page();
        let answer = by.read(&mut self.store, &self.memory.lend(), &mut page, run, index);
        Reply::Called(answer, Some(crc32(&page)))
    }

    fn call(&mut self, call: Call) -> Reply {
        let mut page = self.page();
        let (store, lent) = (&mut self.store, &mut self.memory.lend());
        match call {
            Call::Write { n, seed, len: other } => {
                let page = pattern(seed, other.map_or(page.len(), |other| other.min(TOO_LONG) as usize));
                Reply::Called(store.write(lent, n, &page), None)
            }
            Call::Part { n, first, seed, len } => {
                let answer = store.part(lent, n, first, &pattern(seed, len.min(TOO_LONG) as usize), &mut page);
                Reply::Called(answer, Some(crc32(&page)))
            }
            Call::Step => Reply::Called(store.step(lent), None),
            Call::Flush => Reply::Called(store.flush(lent), None),
            Call::TakeBack => Reply::Called(store.take_back(lent), None),
            Call::Add { by, replaced, new } => {
                let answer = match replaced {
                    Some(run) => by.replace(store, lent, &mut page, run, new),
                    None => by.add(store, lent, &mut page, new),
                };
                Reply::Added(answer, crc32(&page))
            }
            Call::Mark { by, run, mark } => {
                let answer = by.mark(store, lent, &mut page, run, mark);
                Reply::Called(answer, Some(crc32(&page)))
            }
        }
    }

    /// A call with so many chip operations. The record is lost, also where the call is refused.
    fn cut(&mut self, operations: u32, call: Call) -> Result<bool, Refusal> {
        let mut page = self.page();
        let (store, lent) = (self.store, &mut self.memory.lend());
        self.store = Plain(Cache::blank());
        match call {
            Call::Write { n, seed, .. } => store.cut_write(operations, lent, n, &pattern(seed, page.len())),
            Call::Part { n, first, seed, len } => {
                store.cut_part(operations, lent, n, first, &pattern(seed, len.min(TOO_LONG) as usize), &mut page)
            }
            Call::Step => store.cut_step(operations, lent),
            Call::Flush => store.cut_flush(operations, lent),
            Call::TakeBack => store.cut_take_back(operations, lent),
            Call::Add { by, replaced: Some(run), new } => by.cut_replace(operations, store, lent, &mut page, run, new),
            Call::Add { by, replaced: None, new } => by.cut_add(operations, store, lent, &mut page, new),
            Call::Mark { by, run, mark } => by.cut_mark(operations, store, lent, &mut page, run, mark),
        }
    }

    /// A page buffer.
    fn page(&self) -> Vec<u8> {
        vec![0xA5; self.page_len(None)]
    }

    fn page_len(&self, len: Option<u32>) -> usize {
        len.unwrap_or(self.store.0.sizes.page_size).min(TOO_LONG) as usize
    }
}

/// Edits one entry of a buffer.
fn set<T>(buffer: &mut [T], index: u32, edit: impl FnOnce(&mut T)) -> Result<Reply, Bad> {
    edit(buffer.get_mut(index as usize).ok_or(Bad)?);
    Ok(Reply::Nothing)
}

fn flip(bytes: &mut [u8], byte: u32, bit: u32) -> Result<Reply, Bad> {
    let mask = 1u8.checked_shl(bit).ok_or(Bad)?;
    set(bytes, byte, |entry| *entry ^= mask)
}

/// The bytes of a page that is written.
fn pattern(seed: u32, len: usize) -> Vec<u8> {
    (0..len).map(|j| (seed as usize + 7 * j + j / 256) as u8).collect()
}
