//! What the chip has to hold, kept beside it in a mapped file by who makes the calls: it tells, after a kill, what the call under way may
//! have left. It knows nothing of places, frames and ways: only of page contents, of erasures by the chip's own wear, and that a block is
//! rewritten with its pages as they were accepted before the call.
use crate::chip::Setup;
use crate::mapped::Mapped;
use clash::VACANT;
use std::io;
use std::path::Path;
use std::sync::atomic::{fence, AtomicU32, Ordering::SeqCst};

/// No call is under way.
pub const IDLE: u32 = 0;
/// A call is under way, or it is done and the blocks that it rewrote are being noted.
pub const CALL: u32 = 1;
/// An accepted call is done, and its wear and its page are being noted.
pub const NOTE: u32 = 2;

/// The words before the lists: the phase, how many calls were made, whether the call may rewrite several blocks, the page that it changes.
const PHASE: usize = 0;
const CALLS: usize = 1;
const MANY: usize = 2;
const PAGE: usize = 3;
const WORDS: usize = 4;

pub struct Ledger {
    file: Mapped,
    setup: Setup,
}

/// What it says of the chip.
pub struct Lists<'a> {
    /// erasures of each block
    pub wear: &'a mut [u32],
    /// what the call under way makes of its page
    pub next: &'a mut [u8],
    /// the page array: what was last accepted for each page
    pub array: &'a mut [u8],
    /// what each page of flash holds
    pub flash: &'a mut [u8],
    /// whether the array has nothing for a page, since it is torn and was not written
    pub lost: &'a mut [u8],
    /// whether a page of flash is torn
    pub torn: &'a mut [u8],
}

impl Ledger {
    /// Of a new chip.
    pub fn create(path: &Path, setup: Setup) -> io::Result<Ledger> {
        let (flash, pages) = (setup.sizes.flash_len(), setup.pages() as usize);
        let len = 4 * (WORDS + setup.sizes.wear_len()) + setup.page_len() + 2 * flash + 2 * pages;
        let mut ledger = Ledger { file: Mapped::create(path, len)?, setup };
        let lists = ledger.lists();
        lists.array.fill(255);
        lists.flash.fill(255);
        Ok(ledger)
    }

    pub fn open(path: &Path, setup: Setup) -> io::Result<Ledger> {
        Ok(Ledger { file: Mapped::open(path)?, setup })
    }

    /// A number that the processes share. It is stored and loaded in order with all that stands around it.
    fn word(&mut self, i: usize) -> &AtomicU32 {
        let (_, words, _) = unsafe { self.file.bytes()[..4 * WORDS].align_to_mut::<u32>() };
        fence(SeqCst);
        unsafe { AtomicU32::from_ptr(&mut words[i]) }
    }

    pub fn phase(&mut self) -> u32 {
        self.word(PHASE).load(SeqCst)
    }

    fn enter(&mut self, phase: u32) {
        self.word(PHASE).store(phase, SeqCst);
        fence(SeqCst);
    }

    pub fn calls(&mut self) -> u32 {
        self.word(CALLS).load(SeqCst)
    }

    pub fn forget_calls(&mut self) {
        self.word(CALLS).store(0, SeqCst);
    }

    /// Whether the call under way may rewrite more than one block.
    pub fn is_of_many(&mut self) -> bool {
        self.word(MANY).load(SeqCst) == 1
    }

    pub fn lists(&mut self) -> Lists<'_> {
        let (sizes, page, pages) = (self.setup.sizes, self.setup.page_len(), self.setup.pages() as usize);
        let (wear, rest) = self.file.bytes()[4 * WORDS..].split_at_mut(4 * sizes.wear_len());
        let (next, rest) = rest.split_at_mut(page);
        let (array, rest) = rest.split_at_mut(sizes.flash_len());
        let (flash, rest) = rest.split_at_mut(sizes.flash_len());
        let (lost, torn) = rest.split_at_mut(pages);
        // the words before them are a multiple of 4 bytes from the start of the mapping
        let (_, wear, _) = unsafe { wear.align_to_mut::<u32>() };
        Lists { wear, next, array, flash, lost, torn }
    }

    /// A call begins, which puts this at this page where it is accepted.
    pub fn begin(&mut self, is_of_many: bool, meant: Option<&(u32, Vec<u8>)>) {
        if let Some((_, page)) = meant {
            self.lists().next.copy_from_slice(page);
        }
        self.word(PAGE).store(meant.map_or(VACANT, |(n, _)| *n), SeqCst);
        self.word(MANY).store(is_of_many as u32, SeqCst);
        self.enter(CALL);
    }

    /// The call is done: a block whose wear grew holds what the array had for it before the call.
    pub fn end(&mut self, is_accepted: bool, wear: &[u32]) {
        if is_accepted {
            for b in 0..self.setup.sizes.blocks {
                if self.lists().wear[b as usize] != wear[b as usize] {
                    self.rewritten(b);
                }
            }
            self.enter(NOTE);
            self.note(wear);
        }
        self.enter(IDLE);
        let calls = self.calls();
        self.word(CALLS).store(calls.wrapping_add(1), SeqCst);
    }

    /// The flash of block b is what the array has.
    pub fn rewritten(&mut self, b: u32) {
        let (pages, s) = (self.setup.block(b), self.setup.page_len());
        let (first, end) = (pages.start as usize, pages.end as usize);
        let lists = self.lists();
        lists.flash[first * s..end * s].copy_from_slice(&lists.array[first * s..end * s]);
        lists.torn[first..end].fill(0);
    }

    /// The wear, and the page that the call changed. Doing it again does no harm.
    pub fn note(&mut self, wear: &[u32]) {
        let (n, s) = (self.word(PAGE).load(SeqCst), self.setup.page_len());
        let lists = self.lists();
        lists.wear.copy_from_slice(wear);
        if n != VACANT {
            lists.array[n as usize * s..][..s].copy_from_slice(lists.next);
            lists.lost[n as usize] = 0;
        }
    }

    /// The power is off: what was cached is gone.
    pub fn power_off(&mut self) {
        let lists = self.lists();
        lists.array.copy_from_slice(lists.flash);
        lists.lost.copy_from_slice(lists.torn);
        self.enter(IDLE);
    }

    /// The page array's page n.
    pub fn page(&mut self, n: u32) -> &[u8] {
        let s = self.setup.page_len();
        &self.lists().array[n as usize * s..][..s]
    }

    /// All of it, to be laid back by `restore`.
    pub fn copy(&mut self) -> Vec<u8> {
        self.file.bytes().to_vec()
    }

    pub fn restore(&mut self, copy: &[u8]) {
        self.file.bytes().copy_from_slice(copy);
    }

    /// The torn pages of flash.
    pub fn torn(&mut self) -> Vec<u32> {
        (0..).zip(self.lists().torn.iter()).filter(|(_, &torn)| torn != 0).map(|(n, _)| n).collect()
    }
}
