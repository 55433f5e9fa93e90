//! What the theorem allows after a cut. Every other block is as before the call, or as after its own rewrite; in the block under way each
//! page marked 0 holds the bytes meant for it; before its erasure it is the old block. The wear is counted with the erasure.
//!
//! A kill may also come in the middle of an operation. Then the page that is being programmed is torn still, and the block that is being
//! erased has torn pages already, while each page of it that is marked 0 is as it was.
use crate::chip::{Chip, Setup};
use crate::ledger::{Ledger, CALL, NOTE};
use clash::{Answer, Cache, Opened, Options, Refusal};

/// What a block was found to be.
#[derive(Clone, Copy, Debug, PartialEq, Eq)]
pub enum Found {
    /// as before the call
    Old,
    /// in the middle of its erasure
    Erasing,
    /// erased, and so many of its pages programmed, but not all
    UnderWay(u32),
    /// as after its rewrite
    New,
}

/// One page of a block, beside what the ledger says of it.
struct Page {
    is_marked: bool,
    is_old: bool,
    is_new: bool,
    was_torn: bool,
}

fn page(setup: &Setup, chip: &mut Chip, ledger: &mut Ledger, n: u32) -> Page {
    let (s, n) = (setup.page_len(), n as usize);
    let (parts, lists) = (chip.parts(), ledger.lists());
    let bytes = &parts.flash[n * s..][..s];
    Page {
        is_marked: parts.marks[n] != 0,
        is_old: *bytes == lists.flash[n * s..][..s],
        is_new: *bytes == lists.array[n * s..][..s] && lists.lost[n] == 0,
        was_torn: lists.torn[n] != 0,
    }
}

/// What block b is, or what is wrong with it.
pub fn block(setup: &Setup, chip: &mut Chip, ledger: &mut Ledger, b: u32) -> Result<Found, String> {
    let pages: Vec<Page> = setup.block(b).map(|n| page(setup, chip, ledger, n)).collect();
    let erased = chip.parts().wear[b as usize].wrapping_sub(ledger.lists().wear[b as usize]);
    let programmed = pages.iter().take_while(|p| !p.is_marked && p.is_new).count();
    let rest_is_torn = pages[programmed..].iter().all(|p| p.is_marked);
    if erased == 0 && pages.iter().all(|p| p.is_marked == p.was_torn && (p.was_torn || p.is_old)) {
        return Ok(Found::Old);
    }
    if erased == 1 && programmed == pages.len() {
        return Ok(Found::New);
    }
    if erased == 1 && rest_is_torn {
        return Ok(Found::UnderWay(programmed as u32));
    }
    if erased == 0 && pages.iter().all(|p| p.is_marked || !p.was_torn && p.is_old) {
        return Ok(Found::Erasing);
    }
    let say = |p: &Page| match (p.is_marked, p.is_old, p.is_new) {
        (true, ..) => 't',
        (_, true, true) => 's',
        (_, true, _) => 'o',
        (_, _, true) => 'n',
        _ => '?',
    };
    let said: String = pages.iter().map(say).collect();
    Err(format!("block {b}, {erased} erasures more: {said} (t torn, o old, n new, s both, ? neither)"))
}

/// What every block is after a kill. Where a call was under way, one block may be half done, and others rewritten by a flush alone.
pub fn blocks(setup: &Setup, chip: &mut Chip, ledger: &mut Ledger) -> Result<Vec<Found>, String> {
    if ledger.phase() == NOTE {
        ledger.note(chip.parts().wear);
    }
    let found = (0..setup.sizes.blocks).map(|b| block(setup, chip, ledger, b)).collect::<Result<Vec<Found>, String>>()?;
    let changed = found.iter().filter(|found| **found != Found::Old).count();
    let half_done = found.iter().filter(|found| matches!(found, Found::Erasing | Found::UnderWay(_))).count();
    let most = if ledger.phase() != CALL {
        0
    } else if ledger.is_of_many() {
        usize::MAX
    } else {
        1
    };
    match changed <= most && half_done <= 1 {
        true => Ok(found),
        false => Err(format!("{changed} blocks changed, {half_done} of them half done, in phase {}: {found:?}", ledger.phase())),
    }
}

/// The ledger says of flash what was found, and that the power is off.
pub fn settle(setup: &Setup, chip: &mut Chip, ledger: &mut Ledger, found: &[Found]) {
    for (b, found) in (0..).zip(found) {
        match found {
            Found::Old => {}
            Found::New => ledger.rewritten(b),
            Found::Erasing | Found::UnderWay(_) => setup.block(b).for_each(|n| taken(setup, chip, ledger, n)),
        }
    }
    ledger.lists().wear.copy_from_slice(chip.parts().wear);
    ledger.power_off();
}

/// Page n of flash is as the chip has it.
fn taken(setup: &Setup, chip: &mut Chip, ledger: &mut Ledger, n: u32) {
    let (s, n) = (setup.page_len(), n as usize);
    let (parts, lists) = (chip.parts(), ledger.lists());
    lists.torn[n] = (parts.marks[n] != 0) as u8;
    lists.flash[n * s..][..s].copy_from_slice(&parts.flash[n * s..][..s]);
}

/// The store itself says the same: so many torn blocks, and of each page its bytes, or that it is torn. A torn page of a coded store may
/// be unreadable, since the bytes and the code of a page that is half programmed do not match, and 7 goes before 14.
pub fn store(setup: &Setup, chip: &mut Chip, ledger: &mut Ledger) -> Result<(), String> {
    let options = Options { shelf_pages: 0, ..setup.options };
    let mut ram = crate::chip::Ram::new(&Setup { options, ..*setup });
    let opened = Cache::open(setup.sizes, options, &ram.lend(chip));
    let Opened { mut cache, torn } = opened.map_err(|why| format!("the opening is refused: {why}"))?;
    let lists = ledger.lists();
    let blocks = lists.torn.chunks(setup.sizes.pages_per_block as usize).filter(|torn| torn.iter().any(|&torn| torn != 0)).count();
    if torn as usize != blocks {
        return Err(format!("the opening says {torn} torn blocks, and there are {blocks}"));
    }
    let s = setup.page_len();
    let mut page = vec![0; s];
    for n in 0..setup.pages() {
        let said = cache.read(&ram.lend(chip), n, &mut page);
        let is_right = match said {
            Ok(answer) => {
                let is_whole = answer == Answer::Read { way: 3, mended: 0 } && page == lists.flash[n as usize * s..][..s];
                is_whole && lists.torn[n as usize] == 0
            }
            Err(why) => lists.torn[n as usize] != 0 && (why == Refusal::Torn || options.coded == 1 && why == Refusal::Unreadable),
        };
        if !is_right {
            return Err(format!("page {n}: {said:?}, torn {}", lists.torn[n as usize]));
        }
    }
    Ok(())
}
