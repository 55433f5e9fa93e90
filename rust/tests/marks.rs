//! Marked stores (request A12): torn blocks at opening, refusal 14 wherever a call reads a torn page from flash, and how a torn block is
//! made whole. Two bytes a page, two pages a block, three blocks.
use clash::{Answer, Cache, Catalogue, Memory, NewRun, Opened, Options, Refusal, Role, Sizes, Store};

const SIZES: [u32; 6] = [2, 2, 3, 2, 1, 9];
const MARKED: Options = Options { policy: 0, coded: 0, shelf_pages: 0, marked: 1 };

/// A chip whose pages hold their number twice, with these marks.
fn chip(options: Options, marks: [u8; 6]) -> (Sizes, Memory) {
    let sizes = Sizes::from(SIZES);
    let mut memory = Memory::with_options(&sizes, &options);
    memory.flash = (0..12).map(|byte| byte / 2).collect();
    memory.marks.copy_from_slice(&marks);
    (sizes, memory)
}

fn opened(options: Options, marks: [u8; 6]) -> (Cache, Memory) {
    let (sizes, mut memory) = chip(options, marks);
    let cache = Cache::open(sizes, options, &memory.lend()).unwrap().cache;
    (cache, memory)
}

/// The call is refused 14, and leaves record and buffers as they were.
fn refused(b: &mut (Cache, Memory), call: impl FnOnce(&mut Cache, &mut Memory) -> Result<Answer, Refusal>) {
    let before = b.clone();
    assert_eq!(call(&mut b.0, &mut b.1), Err(Refusal::Torn));
    assert_eq!(*b, before);
}

#[test]
fn an_opening_counts_torn_blocks() {
    for (marks, torn) in [
        ([0; 6], 0),
        ([0, 0, 0, 255, 0, 0], 1),
        ([0, 0, 255, 255, 0, 0], 1),
        ([1, 0, 0, 7, 0, 0], 2),
        ([255; 6], 3),
        ([0, 0, 0, 0, 0, 128], 1),
    ] {
        let (sizes, mut memory) = chip(MARKED, marks);
        let before = memory.clone();
        let opening = Cache::open(sizes, MARKED, &memory.lend()).unwrap();
        assert_eq!(opening, Opened { cache: Cache { sizes, options: MARKED, ..Cache::blank() }, torn });
        assert_eq!(Store::open(sizes, MARKED, &memory.lend()).unwrap().torn(), torn);
        assert_eq!(memory, before);
    }
}

#[test]
fn a_new_chip_is_whole() {
    let sizes = Sizes::from([256, 64, 4096, 128, 8, 9]);
    let options = Options { coded: 1, ..MARKED };
    let mut memory = Memory::with_options(&sizes, &options);
    assert_eq!((memory.marks.len(), options.marks_len(&sizes)), (64 * 4096, 64 * 4096));
    assert_eq!(Store::open(sizes, options, &memory.lend()).unwrap().torn(), 0);
    memory.marks[64 * 4096 - 1] = 1;
    memory.marks[63] = 1;
    assert_eq!(Store::open(sizes, options, &memory.lend()).unwrap().torn(), 2);
}

#[test]
fn marks_have_a_byte_a_page() {
    let (sizes, memory) = chip(MARKED, [0; 6]);
    for marks in [vec![], vec![0], vec![0; 5], vec![0; 7], vec![0; 12]] {
        let mut memory = Memory { marks, ..memory.clone() };
        assert_eq!(Cache::open(sizes, MARKED, &memory.lend()), Err(Refusal::Buffer));
        let mut cache = Cache { sizes, options: MARKED, ..Cache::blank() };
        assert_eq!(cache.read(&memory.lend(), 0, &mut [0; 2]), Err(Refusal::Buffer));
        assert_eq!(cache.flush(&mut memory.lend()), Err(Refusal::Buffer));
    }
    let mut memory = memory;
    assert_eq!(Cache::open(sizes, Options::default(), &memory.lend()), Err(Refusal::Buffer));
    memory.marks.clear();
    assert_eq!(Cache::open(sizes, Options::default(), &memory.lend()).map(|opened| opened.torn), Ok(0));
}

/// Whatever the mark is, until the page is written; then it is read from its slot and from its frame.
#[test]
fn reads() {
    let mut b = opened(MARKED, [0, 1, 255, 255, 0, 0]);
    for n in [1, 2, 3] {
        let mut page = [7; 2];
        refused(&mut b, |cache, memory| cache.read(&memory.lend(), n, &mut page));
        assert_eq!(page, [7; 2]);
    }
    let (mut cache, mut memory) = b;
    let mut page = [7; 2];
    for n in [0, 4, 5] {
        assert_eq!(cache.read(&memory.lend(), n, &mut page), Ok(Answer::Read { way: 3, mended: 0 }));
        assert_eq!(page, [n as u8; 2]);
    }
    cache.write(&mut memory.lend(), 2, &[50; 2]).unwrap();
    cache.write(&mut memory.lend(), 3, &[51; 2]).unwrap();
    assert_eq!(cache.read(&memory.lend(), 2, &mut page), Ok(Answer::Read { way: 1, mended: 0 }));
    cache.write(&mut memory.lend(), 5, &[55; 2]).unwrap();
    assert_eq!(cache.read(&memory.lend(), 3, &mut page), Ok(Answer::Read { way: 2, mended: 0 }));
    assert_eq!(page, [51; 2]);
}

#[test]
fn merges() {
    let mut b = opened(MARKED, [0, 0, 0, 255, 0, 0]);
    b.0.write(&mut b.1.lend(), 2, &[50; 2]).unwrap();
    b.0.write(&mut b.1.lend(), 4, &[54; 2]).unwrap();
    refused(&mut b, |cache, memory| cache.flush(&mut memory.lend()));
    refused(&mut b, |cache, memory| cache.step(&mut memory.lend()));
    let (mut cache, mut memory) = b;
    cache.write(&mut memory.lend(), 0, &[60; 2]).unwrap();
    let mut b = (cache, memory);
    // block 1 is in the frame, and way 7 would merge page 3
    refused(&mut b, |cache, memory| cache.write(&mut memory.lend(), 1, &[61; 2]));
    refused(&mut b, |cache, memory| cache.write(&mut memory.lend(), 3, &[53; 2]));
}

/// A part write reads its page; without bytes it reads nothing.
#[test]
fn parts() {
    let mut b = opened(MARKED, [0, 0, 0, 7, 0, 0]);
    let mut page = [7; 2];
    refused(&mut b, |cache, memory| cache.part(&mut memory.lend(), 3, 1, &[9], &mut page));
    refused(&mut b, |cache, memory| cache.part(&mut memory.lend(), 3, 0, &[9, 9], &mut page));
    assert_eq!(page, [7; 2]);
    let (mut cache, mut memory) = b;
    assert!(matches!(cache.part(&mut memory.lend(), 3, 2, &[], &mut page), Ok(Answer::Write { way: 0, .. })));
    cache.write(&mut memory.lend(), 3, &[51; 2]).unwrap();
    cache.part(&mut memory.lend(), 3, 1, &[9], &mut page).unwrap();
    assert_eq!(page, [51, 9]);
}

/// Shelving reads the page, so that a torn one cannot be written until the store is opened without a shelf.
#[test]
fn a_shelf() {
    let options = Options { shelf_pages: 2, ..MARKED };
    let mut b = opened(options, [0, 0, 0, 255, 0, 0]);
    refused(&mut b, |cache, memory| cache.write(&mut memory.lend(), 3, &[51; 2]));
    let (mut cache, mut memory) = b;
    cache.write(&mut memory.lend(), 2, &[50; 2]).unwrap();
    let mut b = (cache, memory);
    refused(&mut b, |cache, memory| cache.flush(&mut memory.lend()));
    let (mut cache, mut memory) = b;
    assert!(cache.take_back(&mut memory.lend()).is_ok());
}

/// 2 and 5 before 6, 6 before 7, and 7 before 14: on one page, and over all pages that a call reads.
#[test]
fn order_of_the_checks() {
    use Refusal::{Page, Torn, Unreadable, Worn};
    let sizes = Sizes::from([256, 2, 3, 2, 1, 9]);
    let options = Options { coded: 1, ..MARKED };
    let mut memory = Memory::with_options(&sizes, &options);
    memory.marks = vec![0, 255, 255, 255, 0, 255];
    memory.flash[5 * 256] = 3; // page 5 is unreadable, and torn
    memory.flash[4 * 256] = 3; // page 4 is unreadable
    memory.flash[256] = 254; // page 1 could be mended, and is torn
    let mut cache = Cache::open(sizes, options, &memory.lend()).unwrap().cache;
    let mut page = vec![7; 256];
    let mut read = |n| cache.read(&memory.lend(), n, &mut page);
    assert_eq!([1, 2, 4, 5, 6].map(&mut read), [Torn, Torn, Unreadable, Unreadable, Page].map(Err));
    cache.write(&mut memory.lend(), 3, &page).unwrap();
    assert_eq!(cache.step(&mut memory.lend()), Err(Torn));
    cache.write(&mut memory.lend(), 5, &page).unwrap();
    assert_eq!(cache.flush(&mut memory.lend()), Err(Unreadable), "of block 1 a torn page is merged, of block 2 an unreadable one");
    memory.wear[2] = 9;
    assert_eq!(cache.flush(&mut memory.lend()), Err(Worn(2)));
}

/// A torn sheet stops every call of the catalogue, as the lowest that is refused.
#[test]
fn a_torn_sheet() {
    let sizes = Sizes::from([256, 2, 3, 2, 1, 9]);
    let options = Options { coded: 1, ..MARKED };
    let mut memory = Memory::with_options(&sizes, &options);
    memory.marks[0] = 255;
    memory.flash[256] = 3; // sheet 1 is unreadable
    let mut cache = Cache::open(sizes, options, &memory.lend()).unwrap().cache;
    let who = Catalogue { sheets: 2, role: Role::Examiner, trainee: 7 };
    let (new, page) = (NewRun { sample: 1, first: 2, count: 1 }, &mut [7; 256]);
    assert_eq!(cache.run_look(&memory.lend(), &who, 1, page), Err(Refusal::Torn));
    assert_eq!(cache.run_list(&memory.lend(), &who, 0, page), Err(Refusal::Torn));
    assert_eq!(cache.run_read(&memory.lend(), &who, 1, 0, page), Err(Refusal::Torn));
    assert_eq!(cache.run_add(&mut memory.lend(), &who, new, page), Err(Refusal::Torn));
    assert_eq!(cache.run_replace(&mut memory.lend(), &who, 1, new, page), Err(Refusal::Torn));
    assert_eq!(cache.run_mark(&mut memory.lend(), &who, 1, 50, page), Err(Refusal::Torn));
    memory.marks[0] = 0;
    assert_eq!(cache.run_list(&memory.lend(), &who, 0, page), Err(Refusal::Unreadable));
}

/// One torn block, no shelf, all other writes waiting: its torn pages are written, and a flush makes it whole. Its other page is kept.
#[test]
fn repair() {
    for torn in [vec![2], vec![3], vec![2, 3], vec![3, 2]] {
        let mut marks = [0; 6];
        torn.iter().for_each(|&n| marks[n as usize] = 255);
        let (mut cache, mut memory) = opened(MARKED, marks);
        let before = memory.clone();
        for &n in &torn {
            assert_eq!(
                cache.write(&mut memory.lend(), n, &[50 + n as u8; 2]),
                Ok(Answer::Write { way: 3, erased: None, merged: 0, mended: 0 })
            );
        }
        let merged = 2 - torn.len() as u32;
        assert_eq!(cache.flush(&mut memory.lend()), Ok(Answer::Flush { rewrites: 1, merged, mended: 0 }));
        assert_eq!((&memory.marks, &memory.wear), (&vec![0; 6], &vec![0, 1, 0]));
        for n in 0..6 {
            let byte = if torn.contains(&n) { 50 + n as u8 } else { n as u8 };
            assert_eq!(memory.flash[2 * n as usize..][..2], [byte; 2]);
        }
        assert_eq!(Store::open(cache.sizes, MARKED, &memory.lend()).unwrap().torn(), 0);
        assert_eq!(before.codes, memory.codes);
    }
}

/// An accepted rewrite leaves every mark of its block 0, and touches no other.
#[test]
fn marks_of_a_rewrite() {
    let (mut cache, mut memory) = opened(MARKED, [0, 0, 0, 0, 255, 9]);
    cache.write(&mut memory.lend(), 3, &[53; 2]).unwrap();
    cache.flush(&mut memory.lend()).unwrap();
    assert_eq!(memory.marks, [0, 0, 0, 0, 255, 9]);
    assert_eq!(memory.wear, [0, 1, 0]);
}
