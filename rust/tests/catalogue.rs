//! The catalogue's calls: what each answers, each refusal and their order, roles, masking, and chains of replacements.
use clash::{Added, Answer, Cache, Catalogue, Listed, Memory, NewRun, Options, Refusal, Role, Sheet, Sizes, Store, VACANT};

/// 32 bytes a page, 4 pages a block, 5 blocks; sheets on pages 0 to 3, data on pages 4 to 19.
const SIZES: [u32; 6] = [32, 4, 5, 3, 2, 50];
const SHEETS: u32 = 4;
const LENT: [u8; 32] = [0xA5; 32];

/// An open store with its memory.
struct Chip {
    store: Store,
    memory: Memory,
    page: Vec<u8>,
}

fn chip() -> Chip {
    with(Options::default())
}

fn with(options: Options) -> Chip {
    of(Sizes::from(SIZES), options)
}

fn of(sizes: Sizes, options: Options) -> Chip {
    let mut memory = Memory::with_options(&sizes, &options);
    let store = Store::open(sizes, options, &memory.lend()).unwrap();
    Chip { store, memory, page: vec![0xA5; sizes.page_size as usize] }
}

fn caller(role: Role, trainee: u32) -> Catalogue {
    Catalogue { sheets: SHEETS, role, trainee }
}

fn trainee(number: u32) -> Catalogue {
    caller(Role::Trainee, number)
}

fn examiner() -> Catalogue {
    caller(Role::Examiner, 0)
}

fn pages(first: u32, count: u32) -> NewRun {
    NewRun { sample: 5, first, count }
}

impl Chip {
    fn add(&mut self, who: Catalogue, new: NewRun) -> Result<u32, Refusal> {
        who.add(&mut self.store, &mut self.memory.lend(), new, &mut self.page).map(|added| added.run)
    }

    fn replace(&mut self, who: Catalogue, run: u32, new: NewRun) -> Result<u32, Refusal> {
        who.replace(&mut self.store, &mut self.memory.lend(), run, new, &mut self.page).map(|added| added.run)
    }

    fn mark(&mut self, who: Catalogue, run: u32, mark: u32) -> Result<Answer, Refusal> {
        who.mark(&mut self.store, &mut self.memory.lend(), run, mark, &mut self.page)
    }

    fn read(&mut self, who: Catalogue, run: u32, index: u32) -> Result<Answer, Refusal> {
        who.read(&mut self.store, &self.memory.lend(), run, index, &mut self.page)
    }

    fn list(&mut self, who: Catalogue, position: u32) -> Result<u32, Refusal> {
        who.list(&self.store, &self.memory.lend(), position, &mut self.page).map(|listed| listed.run)
    }

    /// The sheet and the current run.
    fn look(&mut self, who: Catalogue, run: u32) -> Result<(Sheet, u32), Refusal> {
        who.look(&self.store, &self.memory.lend(), run, &mut self.page).map(|looked| (looked.sheet, looked.current))
    }

    /// A sheet that another program wrote.
    fn foreign(&mut self, n: u32, sheet: [u32; 7]) {
        self.store.write(&mut self.memory.lend(), n, &bytes(sheet, self.page.len())).unwrap();
    }
}

fn bytes(sheet: [u32; 7], len: usize) -> Vec<u8> {
    let mut page: Vec<u8> = sheet.iter().flat_map(|number| number.to_le_bytes()).collect();
    page.resize(len, 0);
    page
}

#[test]
fn adding_and_looking() {
    let mut c = chip();
    let added = trainee(7).add(&mut c.store, &mut c.memory.lend(), pages(4, 2), &mut c.page).unwrap();
    assert_eq!(added, Added { run: 1, answer: Answer::Write { way: 3, erased: None, merged: 0, mended: 0 } });
    assert_eq!(c.page, bytes([1, 7, 5, 4, 2, 255, 0], 32), "the sheet is in the page buffer");
    let sheet = Sheet { run: 1, trainee: 7, sample: 5, first: 4, count: 2, mark: Sheet::UNMARKED, replaces: 0 };
    c.page.fill(0xA5);
    assert_eq!(c.look(trainee(7), 1), Ok((sheet, 1)));
    assert_eq!(c.page, LENT, "a look leaves the page buffer");
    let mut page = [0; 32];
    c.store.read(&c.memory.lend(), 0, &mut page).unwrap();
    assert_eq!(page[..], bytes([1, 7, 5, 4, 2, 255, 0], 32), "the sheet is on page 0");
}

#[test]
fn listing() {
    let mut c = chip();
    assert_eq!(c.list(trainee(0), 0), Err(Refusal::Unknown));
    c.foreign(1, [9, 0, 0, 19, 1, 3, 0]);
    c.foreign(3, [9, 1, 1, 4, 1, 3, 0]);
    assert_eq!(c.add(trainee(1), pages(4, 1)), Ok(10), "the largest number in use plus 1, on the first empty sheet");
    let runs: Vec<_> = (0..3).map(|position| c.list(trainee(1), position)).collect();
    assert_eq!(runs, [Ok(10), Ok(9), Err(Refusal::Unknown)], "of equal numbers the first sheet counts");
    let listed = trainee(1).list(&c.store, &c.memory.lend(), 0, &mut c.page);
    assert_eq!(listed, Ok(Listed { run: 10, mended: 0 }));
    assert_eq!(c.list(trainee(1), VACANT), Err(Refusal::Unknown));
}

#[test]
fn reading_a_page_of_a_run() {
    let mut c = chip();
    c.add(trainee(7), pages(4, 2)).unwrap();
    c.store.write(&mut c.memory.lend(), 5, &[9; 32]).unwrap();
    assert_eq!(c.read(trainee(8), 1, 1), Ok(Answer::Read { way: 1, mended: 0 }));
    assert_eq!(c.page, [9; 32], "reading is not restricted to one's own");
    c.page.fill(0xA5);
    for (run, index, why) in [(2, 0, Refusal::Unknown), (1, 2, Refusal::Pages), (1, VACANT, Refusal::Pages)] {
        assert_eq!(c.read(trainee(7), run, index), Err(why), "{run} {index}");
    }
    c.foreign(1, [2, 0, 0, 3, 2, 255, 0]);
    c.foreign(2, [3, 0, 0, 19, VACANT, 255, 0]);
    assert_eq!(c.read(trainee(7), 2, 0), Err(Refusal::Pages), "a page below the data");
    assert_eq!(c.read(trainee(7), 3, 1), Err(Refusal::Pages), "a page past the chip");
    assert_eq!(c.page, LENT);
    assert!(c.read(trainee(7), 2, 1).is_ok() && c.read(trainee(7), 3, 0).is_ok());
}

#[test]
fn marking() {
    let mut c = chip();
    c.add(trainee(7), pages(4, 2)).unwrap();
    assert_eq!(c.mark(examiner(), 1, 100), Ok(Answer::Write { way: 1, erased: None, merged: 0, mended: 0 }));
    assert_eq!(c.page, bytes([1, 7, 5, 4, 2, 100, 0], 32));
    assert!(c.mark(examiner(), 1, 0).is_ok(), "a marked run may be marked again");
    assert_eq!(c.look(trainee(7), 1).map(|(sheet, _)| sheet.mark), Ok(0));
    assert_eq!(c.mark(examiner(), 1, 101), Err(Refusal::Pages));
    assert_eq!(c.mark(examiner(), 1, Sheet::UNMARKED), Err(Refusal::Pages));
    assert_eq!(c.mark(examiner(), 2, 101), Err(Refusal::Unknown), "10 before 11");
}

#[test]
fn pages_at_their_ends() {
    let mut c = chip();
    for (first, count) in [(4, 0), (3, 1), (4, 17), (20, 1), (VACANT, 1), (VACANT, VACANT), (4, VACANT), (0, 4)] {
        assert_eq!(c.add(trainee(1), pages(first, count)), Err(Refusal::Pages), "{first} {count}");
    }
    assert_eq!(c.add(trainee(1), pages(8, 4)), Ok(1));
    for (first, count) in [(8, 1), (11, 1), (7, 2), (11, 9), (4, 16), (9, 2)] {
        assert_eq!(c.add(trainee(1), pages(first, count)), Err(Refusal::Pages), "{first} {count}");
    }
    assert_eq!(c.add(trainee(1), pages(4, 4)), Ok(2));
    assert_eq!(c.add(trainee(1), pages(12, 8)), Ok(3));
}

/// A sheet of another program may hold anything: pages that reach past 4,294,967,295, or none at all.
#[test]
fn foreign_ranges_do_not_wrap() {
    let mut c = chip();
    c.foreign(0, [1, 0, 0, 10, VACANT, 255, 0]);
    c.foreign(1, [2, 0, 0, 4, 0, 255, 0]);
    assert_eq!(c.add(trainee(1), pages(10, 1)), Err(Refusal::Pages));
    assert_eq!(c.add(trainee(1), pages(4, 6)), Ok(3), "a run of no page owns none");
    assert_eq!(c.read(trainee(1), 2, 0), Err(Refusal::Pages));
}

#[test]
fn full() {
    let mut c = chip();
    (0..SHEETS).for_each(|i| assert_eq!(c.add(trainee(1), pages(4 + i, 1)), Ok(i + 1)));
    assert_eq!(c.add(trainee(1), pages(0, 0)), Err(Refusal::Full), "9 before 11");
    assert_eq!(c.replace(caller(Role::Tutor, 1), 99, pages(0, 0)), Err(Refusal::Full), "9 before 10");
    c.foreign(2, [0, 1, 2, 3, 4, 5, 6]);
    assert_eq!(c.add(trainee(1), pages(9, 1)), Ok(5), "run 0 is an empty sheet");
    let mut c = chip();
    c.foreign(2, [VACANT - 1, 0, 0, 19, 1, 0, 0]);
    assert_eq!(c.add(trainee(1), pages(4, 1)), Err(Refusal::Full));
    c.foreign(2, [VACANT - 2, 0, 0, 19, 1, 0, 0]);
    assert_eq!(c.add(trainee(1), pages(4, 1)), Ok(VACANT - 1));
}

/// 12 stands before every other check, then 4, 2 and 1.
#[test]
fn the_first_checks() {
    let sizes = Sizes::from(SIZES);
    let mut memory = Memory::new(&sizes);
    let (who, none) = (examiner(), Catalogue { sheets: 0, ..examiner() });
    let mut blank = Cache::blank();
    let mut page = [0; 32];
    assert_eq!(blank.run_mark(&mut memory.lend(), &Catalogue { role: Role::Tutor, ..none }, 1, 0, &mut []), Err(Refusal::Role));
    assert_eq!(blank.run_mark(&mut memory.lend(), &none, 1, 0, &mut []), Err(Refusal::Record));
    let cache = Cache::open(sizes, Options::default(), &memory.lend()).unwrap().cache;
    assert_eq!(cache.run_look(&memory.lend(), &none, 1, &mut page[1..]), Err(Refusal::Buffer));
    assert_eq!(cache.run_look(&Memory::default().lend(), &none, 1, &mut page), Err(Refusal::Buffer));
    for sheets in [0, 20, 21, 257, VACANT] {
        assert_eq!(cache.run_look(&memory.lend(), &Catalogue { sheets, ..who }, 1, &mut page), Err(Refusal::Size), "{sheets}");
    }
    assert_eq!(cache.run_look(&memory.lend(), &Catalogue { sheets: 19, ..who }, 1, &mut page), Err(Refusal::Unknown));
}

/// A page of 28 bytes has room for a sheet; one of 27 has not. There are at most 256 sheets.
#[test]
fn sizes_of_a_catalogue() {
    let mut c = of(Sizes::from([28, 64, 5, 1, 1, 9]), Options::default());
    assert_eq!(c.add(Catalogue { sheets: 256, ..trainee(1) }, pages(256, 64)), Ok(1));
    assert_eq!(c.add(Catalogue { sheets: 257, ..trainee(1) }, pages(257, 1)), Err(Refusal::Size));
    let mut c = of(Sizes::from([27, 64, 5, 1, 1, 9]), Options::default());
    assert_eq!(c.add(trainee(1), pages(4, 1)), Err(Refusal::Size));
}

/// By role: which of add, look, list, read, replace and mark is turned down.
#[test]
fn the_grid() {
    let grid = [(Role::Trainee, [1, 1, 1, 1, 0, 0]), (Role::Tutor, [1, 1, 1, 1, 1, 0]), (Role::Examiner, [1; 6])];
    for (role, may) in grid {
        let (mut c, who) = (chip(), caller(role, 7));
        c.add(trainee(7), pages(4, 1)).unwrap();
        let refused = [
            c.add(who, pages(5, 1)).err(),
            c.look(who, 1).err(),
            c.list(who, 0).err(),
            c.read(who, 1, 0).err(),
            c.replace(who, 1, pages(6, 1)).err(),
            c.mark(who, 2, 50).err(),
        ];
        assert_eq!(refused, may.map(|may| (may == 0).then_some(Refusal::Role)), "{role:?}");
    }
}

#[test]
fn a_trainee_does_not_see_whose_a_run_is() {
    let mut c = chip();
    c.add(trainee(7), pages(4, 2)).unwrap();
    c.mark(examiner(), 1, 60).unwrap();
    let stored = Sheet { run: 1, trainee: 7, sample: 5, first: 4, count: 2, mark: 60, replaces: 0 };
    for who in [trainee(7), examiner(), caller(Role::Tutor, 8)] {
        assert_eq!(c.look(who, 1), Ok((stored, 1)), "{who:?}");
    }
    for other in [0, 8, VACANT] {
        assert_eq!(c.look(trainee(other), 1), Ok((Sheet { trainee: 0, mark: Sheet::UNMARKED, ..stored }, 1)), "{other}");
    }
    c.add(trainee(0), pages(6, 1)).unwrap();
    c.mark(examiner(), 2, 61).unwrap();
    assert_eq!(c.look(trainee(0), 2).map(|(sheet, _)| sheet.mark), Ok(61), "number 0 is a trainee as others are");
}

#[test]
fn a_chain_of_replacements() {
    let (mut c, tutor) = (chip(), caller(Role::Tutor, 7));
    c.add(trainee(7), pages(4, 1)).unwrap();
    for run in 1..SHEETS {
        assert_eq!(c.replace(tutor, run, pages(4 + run, 1)), Ok(run + 1));
        assert_eq!(c.page, bytes([run + 1, 7, 5, 4 + run, 1, 255, run], 32));
    }
    for run in 1..=SHEETS {
        let (sheet, current) = c.look(trainee(7), run).unwrap();
        assert_eq!((sheet.replaces, current), (run - 1, SHEETS), "three steps lead from run 1 to the last");
    }
    for run in 1..SHEETS {
        assert_eq!(c.mark(examiner(), run, 101), Err(Refusal::Replaced), "13 before 11");
    }
    assert!(c.mark(examiner(), SHEETS, 90).is_ok());
}

#[test]
fn replacing_what_is_replaced_or_not_there() {
    let (mut c, tutor) = (chip(), caller(Role::Tutor, 7));
    c.add(trainee(7), pages(4, 1)).unwrap();
    assert_eq!(c.replace(tutor, 2, pages(5, 0)), Err(Refusal::Unknown));
    assert_eq!(c.replace(tutor, 1, pages(4, 1)), Err(Refusal::Pages), "a replaced run keeps its pages");
    assert_eq!(c.replace(tutor, 1, pages(5, 1)), Ok(2));
    assert_eq!(c.replace(tutor, 1, pages(4, 1)), Err(Refusal::Replaced));
}

/// Where several name one run the highest counts; a sheet naming a run not below its own counts as replacing none.
#[test]
fn forks_and_foreign_names() {
    let mut c = chip();
    c.foreign(0, [3, 0, 0, 4, 1, 255, 8]);
    c.foreign(1, [8, 0, 0, 5, 1, 255, 3]);
    c.foreign(2, [5, 0, 0, 6, 1, 255, 3]);
    c.foreign(3, [9, 0, 0, 7, 1, 255, 9]);
    assert_eq!(c.look(examiner(), 3).map(|(sheet, current)| (sheet.replaces, current)), Ok((8, 8)));
    assert_eq!(c.look(examiner(), 5).map(|(_, current)| current), Ok(5));
    assert_eq!(c.look(examiner(), 9).map(|(sheet, current)| (sheet.replaces, current)), Ok((9, 9)));
    assert_eq!(c.mark(examiner(), 3, 1), Err(Refusal::Replaced));
    assert!(c.mark(examiner(), 8, 1).is_ok() && c.mark(examiner(), 9, 1).is_ok() && c.mark(examiner(), 5, 1).is_ok());
}

/// The store's own refusals: the lowest sheet that cannot be read decides, before 9 to 13; a worn block stops the last step.
#[test]
fn the_stores_refusals() {
    let mut c = of(Sizes::from([256, 4, 5, 3, 2, 50]), Options { coded: 1, ..Options::default() });
    c.add(trainee(7), pages(4, 1)).unwrap();
    c.store.flush(&mut c.memory.lend()).unwrap();
    c.memory.flash[0] ^= 1;
    let looked = trainee(7).look(&c.store, &c.memory.lend(), 1, &mut c.page).unwrap();
    assert_eq!((looked.sheet.run, looked.mended), (1, 1), "a flipped bit is mended");
    let answer = c.mark(examiner(), 1, 4).unwrap();
    assert_eq!(answer, Answer::Write { way: 3, erased: None, merged: 0, mended: 1 }, "the mends are those of the whole call");
    c.memory.flash[256 * 3] ^= 3;
    c.page.fill(0xA5);
    for refused in [c.look(trainee(7), 9).err(), c.mark(examiner(), 9, 101).err(), c.add(trainee(7), pages(0, 0)).err()] {
        assert_eq!(refused, Some(Refusal::Unreadable));
    }
    assert!(c.page.iter().all(|&byte| byte == 0xA5));
    let mut c = of(Sizes::from([32, 2, 5, 1, 1, 9]), Options::default());
    for n in [8, 6] {
        c.store.write(&mut c.memory.lend(), n, &LENT).unwrap();
    }
    c.memory.wear[4] = 9;
    assert_eq!(c.add(Catalogue { sheets: 1, ..trainee(7) }, pages(4, 1)), Err(Refusal::Worn(4)));
    assert_eq!(c.page, LENT);
}

/// Sheets are written through the store: an add can be taken back, and a flush keeps it for the next opening.
#[test]
fn sheets_are_pages() {
    let options = Options { shelf_pages: 1, ..Options::default() };
    let mut c = with(options);
    c.add(trainee(7), pages(4, 1)).unwrap();
    c.add(trainee(7), pages(5, 1)).unwrap();
    c.store.take_back(&mut c.memory.lend()).unwrap();
    assert_eq!(c.look(trainee(7), 2), Err(Refusal::Unknown));
    c.store.flush(&mut c.memory.lend()).unwrap();
    c.store = Store::open(Sizes::from(SIZES), options, &c.memory.lend()).unwrap();
    assert_eq!(c.list(trainee(7), 0), Ok(1));
}
