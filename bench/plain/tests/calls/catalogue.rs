//! The catalogue: sheets, ranges, roles and replacements (A9 to A11).
use crate::opened;
use plain::{Answer, Caller, Catalogue, Memory, NewRun, Plain, Refusal, Role, Sheet};

const EXAMINER: Caller = Caller { role: Role::Examiner, trainee: 9 };
const PAGE: [u8; 32] = [0xA5; 32];

/// Pages of 32 bytes, 4 a block, 8 blocks: pages 0 to 3 hold sheets.
struct Desk {
    store: Plain,
    memory: Memory,
    page: [u8; 32],
}

fn desk(options: [u32; 4]) -> Desk {
    let (store, memory) = opened([32, 4, 8, 3, 2, 9], options);
    Desk { store, memory, page: PAGE }
}

fn by(caller: Caller) -> Catalogue {
    Catalogue { sheets: 4, repeats: true, caller }
}

impl Desk {
    fn add(&mut self, caller: Caller, first: u32, count: u32) -> Result<u32, Refusal> {
        let new = NewRun { sample: 77, first, count };
        by(caller).add(&mut self.store, &mut self.memory.lend(), &mut self.page, new).map(|(run, _)| run)
    }

    fn replace(&mut self, caller: Caller, run: u32, first: u32) -> Result<u32, Refusal> {
        let new = NewRun { sample: 78, first, count: 1 };
        by(caller).replace(&mut self.store, &mut self.memory.lend(), &mut self.page, run, new).map(|(run, _)| run)
    }

    fn mark(&mut self, caller: Caller, run: u32, mark: u32) -> Result<Answer, Refusal> {
        by(caller).mark(&mut self.store, &mut self.memory.lend(), &mut self.page, run, mark)
    }

    fn look(&mut self, caller: Caller, run: u32) -> Result<(Sheet, u32), Refusal> {
        by(caller).look(&self.store, &self.memory.lend(), &self.page, run).map(|looked| (looked.sheet, looked.current))
    }

    fn runs(&mut self, caller: Caller) -> Vec<u32> {
        (0..).map_while(|i| by(caller).list(&self.store, &self.memory.lend(), &self.page, i).ok()).map(|(run, _)| run).collect()
    }

    fn read(&mut self, run: u32, index: u32) -> Result<Answer, Refusal> {
        by(EXAMINER).read(&mut self.store, &self.memory.lend(), &mut self.page, run, index)
    }

    /// A sheet that no catalogue wrote.
    fn foreign(&mut self, i: u32, numbers: [u32; 7]) {
        let bytes: Vec<u8> = numbers.iter().flat_map(|x| x.to_le_bytes()).chain([0; 4]).collect();
        self.store.write(&mut self.memory.lend(), i, &bytes).unwrap();
    }
}

#[test]
fn ranges_and_a_full_catalogue() {
    let mut d = desk([0, 0, 0, 0]);
    for (first, count) in [(3, 1), (4, 0), (4, 29), (32, 1), (u32::MAX, 2), (4, u32::MAX)] {
        assert_eq!(d.add(EXAMINER, first, count), Err(Refusal::Pages), "{first} {count}");
    }
    assert_eq!((d.page, d.store.0.directory.slots[0]), (PAGE, u32::MAX));
    assert_eq!(d.add(EXAMINER, 4, 3), Ok(1));
    assert_eq!(d.page[..8], [1, 0, 0, 0, 9, 0, 0, 0]);
    assert_eq!([d.add(EXAMINER, 6, 1), d.add(EXAMINER, 7, 25), d.add(EXAMINER, 8, 1)], [Err(Refusal::Pages), Ok(2), Err(Refusal::Pages)]);
    d.foreign(2, [u32::MAX - 2, 1, 1, 0, 0, 255, 0]);
    assert_eq!(d.add(EXAMINER, 6, 1), Err(Refusal::Pages));
    d.foreign(2, [u32::MAX - 1, 1, 1, 0, 0, 255, 0]);
    assert_eq!((d.add(EXAMINER, 0, 0), d.replace(EXAMINER, 77, 0)), (Err(Refusal::Full), Err(Refusal::Full)));
    assert_eq!(d.runs(EXAMINER), [1, 2, u32::MAX - 1]);
}

/// Of equal numbers the first counts; a later one is not empty and counts for nothing else.
#[test]
fn foreign_sheets() {
    let mut d = desk([0, 0, 0, 0]);
    d.foreign(0, [5, 1, 1, 10, 0, 50, 0]);
    d.foreign(1, [5, 2, 2, 12, 4, 60, 0]);
    d.foreign(2, [4, 3, 3, 3, u32::MAX, 70, 0]);
    assert_eq!(d.runs(EXAMINER), [5, 4]);
    assert_eq!(d.look(EXAMINER, 5).map(|(sheet, _)| sheet.mark), Ok(50));
    assert_eq!([d.look(EXAMINER, 0), d.look(EXAMINER, u32::MAX)], [Err(Refusal::Unknown); 2]);
    assert_eq!([d.read(5, 0), d.read(4, 0), d.read(4, 29), d.read(6, 0)].map(Result::unwrap_err).map(Refusal::number), [11, 11, 11, 10]);
    assert_eq!(d.read(4, 1), Ok(Answer::Read { way: 3, mended: 0 }));
    assert_eq!(d.add(EXAMINER, 12, 1), Err(Refusal::Pages));
    d.foreign(2, [0; 7]);
    assert_eq!(d.add(EXAMINER, 12, 1), Ok(6));
}

#[test]
fn the_grid() {
    for (role, allowed) in [(Role::Trainee, [false, false]), (Role::Tutor, [true, false]), (Role::Examiner, [true, true])] {
        let mut d = desk([0, 0, 0, 0]);
        let caller = Caller { role, trainee: 3 };
        assert_eq!((d.add(caller, 4, 1), d.runs(caller), d.look(caller, 1).map(|(sheet, _)| sheet.trainee)), (Ok(1), vec![1], Ok(3)));
        assert!(by(caller).read(&mut d.store, &d.memory.lend(), &mut d.page, 1, 0).is_ok());
        let said = [d.mark(caller, 1, 50).map(|_| ()), d.replace(caller, 1, 5).map(|_| ())];
        assert_eq!([said[1].is_ok(), said[0].is_ok()], allowed);
        assert!(said.into_iter().all(|said| said.is_ok() || said == Err(Refusal::Role)));
    }
    let mut d = desk([0, 0, 0, 0]);
    d.store.0.sizes.page_size = 0;
    assert_eq!(d.mark(Caller { role: Role::Tutor, trainee: 0 }, 1, 0), Err(Refusal::Role));
    assert_eq!(d.mark(EXAMINER, 1, 0), Err(Refusal::Record));
}

#[test]
fn others_are_masked_for_trainees() {
    let mut d = desk([0, 0, 0, 0]);
    d.add(EXAMINER, 4, 1).unwrap();
    d.mark(EXAMINER, 1, 100).unwrap();
    let mut seen = |role, trainee| d.look(Caller { role, trainee }, 1).map(|(sheet, _)| (sheet.trainee, sheet.mark));
    assert_eq!([seen(Role::Trainee, 8), seen(Role::Trainee, 9), seen(Role::Tutor, 8)], [Ok((0, 255)), Ok((9, 100)), Ok((9, 100))]);
    assert_eq!([d.mark(EXAMINER, 1, 101), d.mark(EXAMINER, 2, 101)], [Err(Refusal::Pages), Err(Refusal::Unknown)]);
}

/// Run 1 is replaced by 2 and by 3, and 3 by 4; a sheet that names a run not below its own replaces none.
#[test]
fn replacements_are_followed_upward() {
    let mut d = desk([0, 0, 0, 0]);
    d.foreign(0, [1, 0, 0, 4, 1, 255, 4]);
    d.foreign(1, [2, 0, 0, 5, 1, 255, 1]);
    d.foreign(2, [3, 0, 0, 6, 1, 255, 1]);
    assert_eq!(d.replace(EXAMINER, 3, 7), Ok(4));
    assert_eq!([1, 2, 3, 4].map(|run| d.look(EXAMINER, run).unwrap().1), [4, 2, 4, 4]);
    assert_eq!(d.look(EXAMINER, 1).unwrap().0.replaces, 4);
    assert_eq!([1, 2, 3, 4].map(|run| d.mark(EXAMINER, run, 7).is_ok()), [false, true, false, true]);
    assert_eq!(d.mark(EXAMINER, 1, 101), Err(Refusal::Replaced));
    d.foreign(1, [0; 7]);
    assert_eq!((d.replace(EXAMINER, 3, 99), d.replace(EXAMINER, 4, 99)), (Err(Refusal::Replaced), Err(Refusal::Pages)));
    let six = Catalogue { repeats: false, ..by(EXAMINER) };
    let looked = six.look(&d.store, &d.memory.lend(), &d.page, 1).unwrap();
    assert_eq!((looked.sheet.replaces, looked.current), (0, 1));
}

/// Sheets 0 and 1 are read from flash, and again as merge pages when sheet 0 is written by way 7.
#[test]
fn a_sheet_is_counted_once() {
    let (mut store, mut memory) = opened([256, 4, 4, 1, 1, 9], [0, 1, 1, 0]);
    for n in [3, 8] {
        store.write(&mut memory.lend(), n, &[0; 256]).unwrap();
    }
    memory.flash[0] ^= 1;
    memory.flash[256] ^= 2;
    let (book, mut page) = (Catalogue { sheets: 2, ..by(EXAMINER) }, [0; 256]);
    let added = book.add(&mut store, &mut memory.lend(), &mut page, NewRun { sample: 1, first: 4, count: 2 });
    assert_eq!(added, Ok((1, Answer::Write { way: 7, erased: Some(0), merged: 3, mended: 2 })));
    assert_eq!((&store.0.entries[..2], &memory.shelf[..]), (&[0, u32::MAX][..], &[255; 256][..]));
    memory.flash[256] ^= 3;
    assert_eq!(book.list(&store, &memory.lend(), &page, 0), Err(Refusal::Unreadable));
}

#[test]
fn sizes_of_a_catalogue() {
    let (mut store, mut memory) = opened([27, 4, 2, 2, 1, 9], [0; 4]);
    let mut list = |store: &Plain, sheets, len| Catalogue { sheets, ..by(EXAMINER) }.list(store, &memory.lend(), &vec![0; len], 0);
    assert_eq!([list(&store, 4, 27), list(&store, 4, 28)], [Err(Refusal::Size), Err(Refusal::Buffer)]);
    (store, memory) = opened([28, 4, 2, 2, 1, 9], [0; 4]);
    let mut list = |sheets| Catalogue { sheets, ..by(EXAMINER) }.list(&store, &memory.lend(), &[0; 28], 0);
    assert_eq!([0, 8, 1, 7].map(&mut list).map(Result::unwrap_err).map(Refusal::number), [1, 1, 10, 10]);
}

#[test]
fn cut_calls() {
    let mut d = desk([0, 0, 0, 1]);
    for n in [20, 21, 24, 25, 28, 29] {
        d.store.write(&mut d.memory.lend(), n, &[0; 32]).unwrap();
    }
    d.foreign(3, [1, 1, 1, 8, 1, 255, 0]);
    let (before, new) = (d.store, NewRun { sample: 1, first: 9, count: 1 });
    let operations = [0, 5];
    let add = operations.map(|k| by(EXAMINER).cut_add(k, before, &mut d.memory.clone().lend(), &mut d.page, new));
    let replace = operations.map(|k| by(EXAMINER).cut_replace(k, before, &mut d.memory.clone().lend(), &mut d.page, 1, new));
    let mark = operations.map(|k| by(EXAMINER).cut_mark(k, before, &mut d.memory.clone().lend(), &mut d.page, 1, 3));
    assert_eq!((add, replace, mark), ([Ok(false), Ok(true)], [Ok(false), Ok(true)], [Ok(true); 2]));
}
