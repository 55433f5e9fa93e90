//! Cut calls at every number of operations of a history, on a chip in a mapped file: each time the image is opened again, compared with
//! what the theorem allows, and made whole.
use crate::caller::{Call, Caller};
use crate::check::{self, Found};
use crate::child::Near;
use crate::chip::{Chip, Ram, Setup};
use crate::ledger::Ledger;
use crate::random::Random;
use clash::Cache;
use std::path::Path;

/// How many cuts there were, and how many of them tore a block.
#[derive(Default)]
pub struct Cuts {
    pub cuts: u32,
    pub torn: u32,
}

/// A history of so many calls, each cut at every number and then made.
pub fn history(setup: Setup, folder: &Path, random: &mut Random, calls: u32) -> Result<Cuts, String> {
    let (image, ledger) = (folder.join("cut.image"), folder.join("cut.ledger"));
    let (chip, ledger) = (Chip::create(&image, setup), Ledger::create(&ledger, setup));
    let (chip, ledger) = chip.and_then(|chip| ledger.map(|ledger| (chip, ledger))).map_err(|e| e.to_string())?;
    let mut caller = Caller::open(setup, chip, ledger)?;
    let (mut near, mut cuts) = (Near { first: 0, steps: 0 }, Cuts::default());
    for _ in 0..calls {
        let call = near.call(random, &mut caller);
        at_every_number(&mut caller, &call, &image, random, &mut cuts).map_err(|what| format!("{call:?}: {what}"))?;
        caller.perform(&call)?;
    }
    Ok(cuts)
}

/// What a cut starts from.
struct Before {
    chip: Vec<u8>,
    ledger: Vec<u8>,
    ram: Ram,
    cache: Cache,
    wear: u32,
}

fn at_every_number(caller: &mut Caller, call: &Call, image: &Path, random: &mut Random, cuts: &mut Cuts) -> Result<(), String> {
    let before = Before {
        chip: caller.chip.copy(),
        ledger: caller.ledger.copy(),
        ram: caller.ram.clone(),
        cache: caller.cache,
        wear: caller.chip.parts().wear.iter().sum(),
    };
    let accepted = caller.call(call).is_ok();
    let erased = caller.chip.parts().wear.iter().sum::<u32>() - before.wear;
    let needed = erased * (caller.setup.sizes.pages_per_block + 1);
    before.restore(caller);
    if !accepted || needed == 0 {
        return Ok(());
    }
    for operations in 0..=needed {
        let meant = caller.meant(call);
        caller.ledger.begin(matches!(call, Call::Flush), meant.as_ref());
        caller.cut(call, operations);
        cuts.cuts += 1;
        cuts.torn +=
            one(caller, image, random, operations, needed).map_err(|what| format!("{operations} operations of {needed}: {what}"))?;
        before.restore(caller);
    }
    Ok(())
}

impl Before {
    fn restore(&self, caller: &mut Caller) {
        caller.chip.restore(&self.chip);
        caller.ledger.restore(&self.ledger);
        caller.ram = self.ram.clone();
        caller.cache = self.cache;
    }
}

/// The image after a cut: opened again, compared, made whole and compared again. Gives the number of torn blocks.
fn one(caller: &mut Caller, image: &Path, random: &mut Random, operations: u32, needed: u32) -> Result<u32, String> {
    if caller.cache != Cache::blank() {
        return Err("the record is not lost".into());
    }
    let (setup, a_rewrite) = (caller.setup, caller.setup.sizes.pages_per_block + 1);
    let mut chip = Chip::open(image, setup).map_err(|e| e.to_string())?;
    let ledger = &mut caller.ledger;
    let found = check::blocks(&setup, &mut chip, ledger)?;
    let (whole, more) = (operations / a_rewrite, operations % a_rewrite);
    let rewritten = found.iter().filter(|found| **found == Found::New).count() as u32;
    let under_way: Vec<&Found> = found.iter().filter(|found| !matches!(found, Found::Old | Found::New)).collect();
    let is_exact = match under_way[..] {
        [] => more == 0,
        [Found::UnderWay(pages)] => more == pages + 1,
        _ => false,
    };
    if rewritten != whole || !is_exact {
        return Err(format!("{rewritten} blocks rewritten and {under_way:?} after {operations} operations of {needed}"));
    }
    check::settle(&setup, &mut chip, ledger, &found);
    check::store(&setup, &mut chip, ledger)?;
    repair(caller, image, random)?;
    Ok(under_way.len() as u32)
}

/// The torn block is made whole, and nothing else changes.
fn repair(caller: &mut Caller, image: &Path, random: &mut Random) -> Result<(), String> {
    let setup = caller.setup;
    let (chip, ledger) = (Chip::open(image, setup), Ledger::open(&image.with_extension("ledger"), setup));
    let (chip, ledger) = chip.and_then(|chip| ledger.map(|ledger| (chip, ledger))).map_err(|e| e.to_string())?;
    let mut again = Caller::open(setup, chip, ledger)?.repaired(&mut || random.bytes(setup.page_len()))?;
    let found = check::blocks(&setup, &mut again.chip, &mut again.ledger)?;
    check::settle(&setup, &mut again.chip, &mut again.ledger, &found);
    check::store(&setup, &mut again.chip, &mut again.ledger)
}
