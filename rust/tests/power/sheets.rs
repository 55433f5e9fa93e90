//! What adding, replacing and marking a run write: the page of a sheet, by the page array.
use crate::caller::Caller;
use clash::{NewRun, Sheet};

/// The seven numbers of a sheet, or none where the page is empty.
fn sheet(page: &[u8]) -> Option<[u32; 7]> {
    let mut numbers = page.chunks_exact(4).map(|bytes| u32::from_le_bytes(bytes.try_into().expect("four bytes")));
    let sheet = std::array::from_fn(|_| numbers.next().expect("a sheet has 28 bytes"));
    (sheet[0] != 0 && sheet[0] != u32::MAX).then_some(sheet)
}

fn sheets(caller: &mut Caller) -> Vec<Option<[u32; 7]>> {
    (0..caller.setup.sheets).map(|n| sheet(caller.ledger.page(n))).collect()
}

fn page(caller: &Caller, numbers: [u32; 7]) -> Vec<u8> {
    let mut page = vec![0; caller.setup.page_len()];
    page.chunks_exact_mut(4).zip(numbers).for_each(|(bytes, number)| bytes.copy_from_slice(&number.to_le_bytes()));
    page
}

/// The first empty sheet gets the largest number in use plus 1.
pub fn added(caller: &mut Caller, new: &NewRun, replaces: u32) -> Option<(u32, Vec<u8>)> {
    let sheets = sheets(caller);
    let at = sheets.iter().position(Option::is_none)?;
    let run = sheets.iter().flatten().map(|sheet| sheet[0]).max().unwrap_or(0) + 1;
    let numbers = [run, caller.who().trainee, new.sample, new.first, new.count, Sheet::UNMARKED, replaces];
    Some((at as u32, page(caller, numbers)))
}

/// The run's sheet with another mark.
pub fn marked(caller: &mut Caller, run: u32, mark: u32) -> Option<(u32, Vec<u8>)> {
    let sheets = sheets(caller);
    let (at, mut numbers) =
        sheets.iter().enumerate().find_map(|(at, sheet)| sheet.filter(|sheet| sheet[0] == run).map(|sheet| (at, sheet)))?;
    numbers[5] = mark;
    Some((at as u32, page(caller, numbers)))
}

/// The largest run number in use, and the first page after all runs.
pub fn used(caller: &mut Caller) -> (u32, u32) {
    let sheets = sheets(caller);
    let (runs, ends) = (sheets.iter().flatten().map(|sheet| sheet[0]), sheets.iter().flatten().map(|sheet| sheet[3] + sheet[4]));
    (runs.max().unwrap_or(0), ends.max().unwrap_or(caller.setup.sheets))
}
