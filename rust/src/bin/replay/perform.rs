//! Carries a form out on the one store of a script.
use crate::crc32::crc32;
use crate::forms::{Call, Form};
use clash::{rehearse, Added, Answer, Cache, Catalogue, Listed, Looked, Memory, Opened, Options, Refusal, Report, Sizes, Tallies};

/// The record, the blank one before an opening, and the buffers.
#[derive(Clone)]
pub struct State {
    pub cache: Cache,
    pub memory: Memory,
}

/// What a form came to.
pub enum Said {
    Nothing,
    /// with the number of torn blocks
    Opened(Result<u32, Refusal>),
    /// a call's answer, and the CRC-32 of the page buffer that it may have changed
    Called(Result<Answer, Refusal>, Option<u32>),
    /// the same with the run
    Added(Result<Added, Refusal>, u32),
    Looked(Result<Looked, Refusal>),
    Listed(Result<Listed, Refusal>),
    /// of a call by its word, whether it was done whole
    Cut(&'static str, Result<bool, Refusal>),
    Rehearsed(Result<Tallies, Refusal>),
    Reported(Result<Report, Refusal>),
    Dump,
}

/// A line that cannot be carried out.
pub struct Bad;

const MOST_FLASH: usize = 4 << 20;

/// No sound record has pages of more than 2,048 bytes: a longer page buffer, or more bytes of a part write, are refused whatever their
/// length, so they need not be made.
const TOO_LONG: u32 = 2049;

impl State {
    pub fn new() -> State {
        State { cache: Cache::blank(), memory: Memory::default() }
    }

    pub fn perform(&mut self, form: Form) -> Result<Said, Bad> {
        match form {
            Form::Open(sizes, options) => self.open(sizes, options),
            Form::Reopen(sizes, options) => Ok(self.reopen(sizes, options)),
            Form::SetWear { block, wear } => set(&mut self.memory.wear, block, |entry| *entry = wear),
            Form::SetMark { n, mark } => {
                let mark = mark.try_into().map_err(|_| Bad)?;
                set(&mut self.memory.marks, n, |entry| *entry = mark)
            }
            Form::FlipFlash { bit: 8.., .. } | Form::FlipCode { bit: 8.., .. } => Err(Bad),
            Form::FlipCode { byte, bit } => set(&mut self.memory.codes, byte, |entry| *entry ^= 1 << bit),
            Form::FlipFlash { byte, bit } => set(&mut self.memory.flash, byte, |entry| *entry ^= 1 << bit),
            Form::Spoil { field, index, value } => {
                (field.set)(&mut self.cache, index, value);
                Ok(Said::Nothing)
            }
            Form::Read { n, len } => Ok(self.read(n, len)),
            Form::Look { who, run } => {
                let page = &mut self.page();
                Ok(Said::Looked(self.cache.run_look(&self.memory.lend(), &who, run, page)))
            }
            Form::List { who, position } => {
                let page = &mut self.page();
                Ok(Said::Listed(self.cache.run_list(&self.memory.lend(), &who, position, page)))
            }
            Form::ReadRun { who, run, index } => Ok(self.read_run(&who, run, index)),
            Form::Call(call) => Ok(self.call(call)),
            Form::Cut { operations, word, call } => Ok(Said::Cut(word, self.cut(operations, call))),
            Form::Rehearse(class) => Ok(Said::Rehearsed(rehearse(class))),
            Form::Report => Ok(Said::Reported(self.cache.report(&self.memory.lend()))),
            Form::Dump => Ok(Said::Dump),
        }
    }

    /// An opening with buffers made afresh; a refused one keeps the store in use.
    fn open(&mut self, sizes: Sizes, options: Options) -> Result<Said, Bad> {
        if !sizes.in_limits() || !options.in_limits(&sizes) {
            return Ok(Said::Opened(Cache::open(sizes, options, &Memory::default().lend()).map(|opened| opened.torn)));
        }
        if sizes.flash_len() > MOST_FLASH {
            return Err(Bad);
        }
        let mut memory = Memory::with_options(&sizes, &options);
        let opened = Cache::open(sizes, options, &memory.lend());
        if let Ok(Opened { cache, .. }) = opened {
            *self = State { cache, memory };
        }
        Ok(Said::Opened(opened.map(|opened| opened.torn)))
    }

    /// An opening with the buffers as they are.
    fn reopen(&mut self, sizes: Sizes, options: Options) -> Said {
        let opened = Cache::open(sizes, options, &self.memory.lend());
        Said::Opened(opened.map(|Opened { cache, torn }| {
            self.cache = cache;
            torn
        }))
    }

    fn read(&mut self, n: u32, len: Option<u32>) -> Said {
        let mut page = vec![0xA5; self.page_len(len)];
        let answer = self.cache.read(&self.memory.lend(), n, &mut page);
        Said::Called(answer, Some(crc32(&page)))
    }

    fn read_run(&mut self, who: &Catalogue, run: u32, index: u32) -> Said {
        let mut page = self.page();
        let answer = self.cache.run_read(&self.memory.lend(), who, run, index, &mut page);
        Said::Called(answer, Some(crc32(&page)))
    }

    fn call(&mut self, call: Call) -> Said {
        let mut page = self.page();
        let (cache, lent, to) = (&mut self.cache, &mut self.memory.lend(), &mut page);
        match call {
            Call::Write { n, seed, len } => {
                let from = pattern(seed, len.map_or(to.len(), |len| len.min(TOO_LONG) as usize));
                Said::Called(cache.write(lent, n, &from), None)
            }
            Call::Part { n, first, seed, len } => {
                let answer = cache.part(lent, n, first, &pattern(seed, len.min(TOO_LONG) as usize), to);
                Said::Called(answer, Some(crc32(&page)))
            }
            Call::TakeBack => Said::Called(cache.take_back(lent), None),
            Call::Step => Said::Called(cache.step(lent), None),
            Call::Flush => Said::Called(cache.flush(lent), None),
            Call::Add { who, new } => {
                let answer = cache.run_add(lent, &who, new, to);
                Said::Added(answer, crc32(&page))
            }
            Call::Replace { who, run, new } => {
                let answer = cache.run_replace(lent, &who, run, new, to);
                Said::Added(answer, crc32(&page))
            }
            Call::Mark { who, run, mark } => {
                let answer = cache.run_mark(lent, &who, run, mark, to);
                Said::Called(answer, Some(crc32(&page)))
            }
        }
    }

    /// A call with so many operations of the chip, and whether it was done whole. It answers nothing, so the ordinary call is made on a
    /// copy: that says why it is refused, and by its erasures how many operations it needs. The record is lost, also where it is refused.
    fn cut(&mut self, operations: u32, call: Call) -> Result<bool, Refusal> {
        let mut copy = self.clone();
        let said = copy.call(call);
        let erased: u64 = copy.memory.wear.iter().zip(&self.memory.wear).map(|(after, before)| (after - before) as u64).sum();
        let needed = erased * (self.cache.sizes.pages_per_block as u64 + 1);
        self.cut_off(operations, call);
        match said {
            Said::Called(Err(why), _) | Said::Added(Err(why), _) => Err(why),
            _ => Ok(needed <= operations as u64),
        }
    }

    fn cut_off(&mut self, operations: u32, call: Call) {
        let mut page = self.page();
        let (cache, lent, to) = (self.cache, &mut self.memory.lend(), &mut page);
        self.cache = match call {
            Call::Write { n, seed, .. } => cache.cut_write(lent, n, &pattern(seed, to.len()), operations),
            Call::Part { n, first, seed, len } => {
                cache.cut_part(lent, n, first, &pattern(seed, len.min(TOO_LONG) as usize), to, operations)
            }
            Call::TakeBack => cache.cut_take_back(lent, operations),
            Call::Step => cache.cut_step(lent, operations),
            Call::Flush => cache.cut_flush(lent, operations),
            Call::Add { who, new } => cache.cut_run_add(lent, &who, new, to, operations),
            Call::Replace { who, run, new } => cache.cut_run_replace(lent, &who, run, new, to, operations),
            Call::Mark { who, run, mark } => cache.cut_run_mark(lent, &who, run, mark, to, operations),
        };
    }

    /// A page buffer.
    fn page(&self) -> Vec<u8> {
        vec![0xA5; self.page_len(None)]
    }

    fn page_len(&self, len: Option<u32>) -> usize {
        len.unwrap_or(self.cache.sizes.page_size).min(TOO_LONG) as usize
    }
}

/// Edits one entry of a buffer.
fn set<T>(buffer: &mut [T], index: u32, edit: impl FnOnce(&mut T)) -> Result<Said, Bad> {
    edit(buffer.get_mut(index as usize).ok_or(Bad)?);
    Ok(Said::Nothing)
}

/// The bytes of a page that is written.
fn pattern(seed: u32, len: usize) -> Vec<u8> {
    (0..len).map(|j| (seed as usize + 7 * j + j / 256) as u8).collect()
}
