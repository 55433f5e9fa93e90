//! The process that is killed: it makes random calls for as long as it lives.
use crate::caller::{Call, Caller};
use crate::chip::{Chip, Setup};
use crate::ledger::Ledger;
use crate::random::Random;
use crate::sheets;
use clash::NewRun;
use std::os::unix::process::parent_id;
use std::path::Path;

/// Calls for as long as the parent lives, which kills it. It repairs torn blocks first, or leaves them, as it is told.
pub fn live(setup: Setup, image: &Path, ledger: &Path, seed: u64, repairs: bool) -> Result<(), String> {
    let (chip, ledger) = (Chip::open(image, setup), Ledger::open(ledger, setup));
    let both = chip.and_then(|chip| ledger.map(|ledger| (chip, ledger))).map_err(|e| e.to_string())?;
    let mut caller = Caller::open(setup, both.0, both.1)?;
    let mut random = Random(seed);
    if repairs {
        caller = caller.repaired(&mut || random.bytes(setup.page_len()))?;
    }
    let mut near = Near { first: 0, steps: random.below(60) };
    let parent = parent_id();
    while parent_id() == parent {
        let call = near.call(&mut random, &mut caller);
        caller.perform(&call)?;
    }
    Ok(())
}

/// Most pages asked for are of a few blocks that follow one another, so that every way occurs. To 100 other calls come so many steps.
pub struct Near {
    pub first: u32,
    pub steps: u32,
}

impl Near {
    pub fn call(&mut self, random: &mut Random, caller: &mut Caller) -> Call {
        let (setup, s) = (caller.setup, caller.setup.sizes.page_size);
        if random.one_in(100) {
            self.first = random.below(setup.pages());
        }
        let n = match random.one_in(5) {
            true => random.below(setup.pages()),
            false => (self.first + random.below(6 * setup.sizes.pages_per_block)) % setup.pages(),
        };
        // the sheets are the catalogue's to write
        let n = n.max(setup.sheets);
        match random.below(100 + self.steps) {
            0..=7 => Call::Read(n),
            8..=27 => {
                let first = random.below(s);
                let many = random.below((s - first).min(40)) + 1;
                Call::Part(n, first, random.bytes(many as usize))
            }
            28..=33 if setup.options.shelf_pages > 0 => Call::TakeBack,
            34..=45 if setup.sheets > 0 => run(random, caller),
            46 => Call::Flush,
            47..=49 | 100.. => Call::Step,
            _ => Call::Write(n, vec![random.below(256) as u8; s as usize]),
        }
    }
}

/// A call of the catalogue: runs of one page, one after the other.
fn run(random: &mut Random, caller: &mut Caller) -> Call {
    let (last, end) = sheets::used(caller);
    let new = NewRun { sample: random.below(1000), first: end, count: 1 };
    match random.below(8) {
        0 | 1 => Call::Add(new),
        2 if last > 0 => Call::Replace(1 + random.below(last), new),
        _ => Call::Mark(1 + random.below(last.max(1)), random.below(101)),
    }
}
