//! Stores with a shelf (request A8): what a write replaces is kept, and the latest write is taken back. Two bytes a page, two pages a block,
//! three blocks, one slot, one frame, but for the last tests.
use clash::{Answer, Cache, Memory, Options, Refusal, Sizes, Store, VACANT};

const SIZES: [u32; 6] = [2, 2, 3, 1, 1, 9];

#[derive(Clone, Debug, PartialEq)]
struct Bench {
    cache: Cache,
    memory: Memory,
}

/// So many shelf pages, and pages 10, 11, ... in flash.
fn opened(shelf_pages: u32) -> Bench {
    opened_as(SIZES, Options { shelf_pages, ..Options::default() })
}

fn opened_as(sizes: [u32; 6], options: Options) -> Bench {
    let sizes = Sizes::from(sizes);
    let mut memory = Memory::with_options(&sizes, &options);
    let cache = Cache::open(sizes, options, &memory.lend()).unwrap().cache;
    let mut b = Bench { cache, memory };
    (0..sizes.pages()).for_each(|n| assert!(b.write(n, 10 + n as u8).is_ok()));
    assert!(b.cache.flush(&mut b.memory.lend()).is_ok());
    b.memory.wear.fill(0);
    b.memory.shelf.fill(0);
    b.cache.entries.fill(VACANT);
    b
}

impl Bench {
    fn write(&mut self, n: u32, byte: u8) -> Result<Answer, Refusal> {
        let page = vec![byte; self.cache.sizes.page_size as usize];
        self.cache.write(&mut self.memory.lend(), n, &page)
    }

    /// Lays one byte into byte 1 of page n.
    fn part(&mut self, n: u32, byte: u8) -> Result<Answer, Refusal> {
        let mut page = vec![0; self.cache.sizes.page_size as usize];
        self.cache.part(&mut self.memory.lend(), n, 1, &[byte], &mut page)
    }

    fn back(&mut self) -> Result<Answer, Refusal> {
        self.cache.take_back(&mut self.memory.lend())
    }

    fn page(&mut self, n: u32) -> Result<Vec<u8>, Refusal> {
        let mut page = vec![0; self.cache.sizes.page_size as usize];
        self.cache.read(&self.memory.lend(), n, &mut page).map(|_| page)
    }

    fn pages(&mut self) -> Vec<Result<Vec<u8>, Refusal>> {
        (0..self.cache.sizes.pages()).map(|n| self.page(n)).collect()
    }

    /// The entries in use.
    fn entries(&self) -> Vec<u32> {
        let used = self.cache.entries.iter().position(|&n| n == VACANT).unwrap_or(8);
        assert!(self.cache.entries[used..].iter().all(|&n| n == VACANT));
        self.cache.entries[..used].to_vec()
    }
}

fn way(way: u32) -> Result<Answer, Refusal> {
    Ok(Answer::Write { way, erased: None, merged: 0, mended: 0 })
}

fn rewrote(block: u32, merged: u32, mended: u32) -> Result<Answer, Refusal> {
    Ok(Answer::Write { way: 7, erased: Some(block), merged, mended })
}

#[test]
fn each_number_of_shelf_pages_opens_with_its_bytes() {
    let sizes = Sizes::from(SIZES);
    for shelf_pages in 0..=8 {
        let options = Options { shelf_pages, ..Options::default() };
        let mut memory = Memory::with_options(&sizes, &options);
        assert_eq!(memory.shelf.len(), 2 * shelf_pages as usize);
        let store = Store::open(sizes, options, &memory.lend()).unwrap();
        assert_eq!(*store.record(), Cache { sizes, options, ..Cache::blank() });
        memory.shelf.push(0);
        assert_eq!(Cache::open(sizes, options, &memory.lend()), Err(Refusal::Buffer));
        memory.shelf.resize((2 * shelf_pages as usize).saturating_sub(1), 0);
        assert_eq!(Cache::open(sizes, options, &memory.lend()).is_ok(), shelf_pages == 0);
        memory.wear[0] = 10;
        let wrong = if shelf_pages == 0 { Refusal::Overworn } else { Refusal::Buffer };
        assert_eq!(Cache::open(sizes, options, &memory.lend()), Err(wrong));
    }
    let options = Options { shelf_pages: 9, ..Options::default() };
    assert_eq!(Cache::open(sizes, options, &Memory::with_options(&sizes, &options).lend()), Err(Refusal::Size));
}

/// By ways 3, 5 and 1, then 7.
#[test]
fn a_write_shelves_what_the_page_was() {
    let mut b = opened(8);
    assert_eq!([b.write(0, 90), b.write(2, 92), b.write(2, 93), b.write(4, 94)], [way(3), way(5), way(1), rewrote(0, 1, 0)]);
    assert_eq!(b.entries(), [0, 2, 2, 4]);
    assert_eq!(b.memory.shelf, [10, 10, 12, 12, 92, 92, 14, 14, 0, 0, 0, 0, 0, 0, 0, 0]);
}

#[test]
fn the_oldest_leaves_and_the_rest_move_down() {
    let mut b = opened(3);
    (0..5).for_each(|i| assert!(b.write(i, 90 + i as u8).is_ok()));
    assert_eq!(b.entries(), [2, 3, 4]);
    assert_eq!(b.memory.shelf, [12, 12, 13, 13, 14, 14]);
    let mut b = opened(1);
    (0..5).for_each(|i| assert!(b.write(i, 90 + i as u8).is_ok()));
    assert_eq!((b.entries(), b.memory.shelf), (vec![4], vec![14, 14]));
}

/// Taking back leaves the bytes of the shelf, and shelves nothing.
#[test]
fn taking_back_undoes_one_write_after_the_other() {
    let mut b = opened(3);
    let mut before = vec![b.pages()];
    for (n, byte) in [(0, 90), (2, 91), (2, 92), (4, 93)] {
        assert!(b.write(n, byte).is_ok());
        before.push(b.pages());
    }
    for i in (1..=3).rev() {
        let shelf = b.memory.shelf.clone();
        assert!(b.back().is_ok());
        assert_eq!((b.pages(), b.entries().len(), &b.memory.shelf), (before[i].clone(), i - 1, &shelf));
    }
    let left = b.clone();
    assert_eq!(b.back(), Err(Refusal::Empty));
    assert_eq!(b, left);
}

#[test]
fn taking_back_goes_by_the_ordinary_ways() {
    let mut b = opened(8);
    assert_eq!([b.write(0, 90), b.write(2, 92), b.write(4, 94)], [way(3), way(5), rewrote(0, 1, 0)]);
    assert_eq!([b.back(), b.back(), b.back()], [way(1), way(2), rewrote(1, 1, 0)]);
    assert_eq!(b.memory.wear, [1, 1, 0]);
    assert_eq!(b.pages(), (10..16).map(|byte| Ok(vec![byte; 2])).collect::<Vec<_>>());
}

#[test]
fn part_writes_shelve_and_those_without_bytes_do_not() {
    let mut b = opened(2);
    assert_eq!([b.part(0, 90), b.part(0, 91)], [way(3), way(1)]);
    assert_eq!((b.entries(), &b.memory.shelf[..]), (vec![0, 0], &[10, 10, 10, 90][..]));
    let before = b.clone();
    assert_eq!(b.cache.part(&mut b.memory.lend(), 3, 2, &[], &mut [0; 2]), way(0));
    assert_eq!(b, before);
    assert_eq!([b.back(), b.back()], [way(1), way(1)]);
    assert_eq!(b.page(0), Ok(vec![10, 10]));
}

/// Reads, steps and flushes shelve nothing, and what is on the shelf stays there.
#[test]
fn nothing_else_shelves() {
    let mut b = opened(2);
    assert_eq!(b.write(0, 90), way(3));
    let shelf = (b.entries(), b.memory.shelf.clone());
    assert_eq!(b.page(0), Ok(vec![90; 2]));
    assert!(b.cache.step(&mut b.memory.lend()).is_ok() && b.cache.flush(&mut b.memory.lend()).is_ok());
    assert_eq!((b.entries(), b.memory.shelf.clone()), shelf);
    assert_eq!(b.back(), way(3));
    assert_eq!(b.page(0), Ok(vec![10; 2]));
}

#[test]
fn without_shelf_pages_nothing_is_shelved() {
    let mut b = opened(0);
    assert!(b.write(0, 90).is_ok() && b.part(0, 91).is_ok());
    let before = b.clone();
    assert_eq!(b.back(), Err(Refusal::Empty));
    assert_eq!(b, before);
}

/// Refused 2, 5, 2 for a part's reach, and 6, a write leaves the shelf; so does taking back that is refused 6, and its entry stays.
#[test]
fn a_refused_call_leaves_the_shelf() {
    let mut b = opened(2);
    assert_eq!([b.write(0, 90), b.write(2, 92)], [way(3), way(5)]);
    assert_eq!(b.write(4, 94), rewrote(0, 1, 0));
    b.memory.wear.fill(9);
    let before = b.clone();
    assert_eq!(b.write(0, 95), Err(Refusal::Worn(1)));
    assert_eq!(b.part(0, 95), Err(Refusal::Worn(1)));
    assert_eq!(b.write(6, 95), Err(Refusal::Page));
    assert_eq!(b.cache.write(&mut b.memory.lend(), 2, &[1]), Err(Refusal::Buffer));
    assert_eq!(b.cache.part(&mut b.memory.lend(), 2, 1, &[1, 2], &mut [0; 2]), Err(Refusal::Buffer));
    assert_eq!(b, before);
    assert_eq!(b.write(2, 95), way(2));
    b.cache.entries[1] = 0;
    let before = b.clone();
    assert_eq!(b.back(), Err(Refusal::Worn(1)));
    assert_eq!(b, before);
}

/// Entries are page numbers from the first on, no more than there are shelf pages, and then vacant.
#[test]
fn entries_that_are_not_sound_are_refused_and_before_an_empty_shelf() {
    let spoilt: [(u32, [u32; 8]); 5] = [
        (2, [0, 1, 2, VACANT, VACANT, VACANT, VACANT, VACANT]),
        (2, [VACANT, 1, VACANT, VACANT, VACANT, VACANT, VACANT, VACANT]),
        (2, [6, VACANT, VACANT, VACANT, VACANT, VACANT, VACANT, VACANT]),
        (7, [0; 8]),
        (0, [VACANT, VACANT, VACANT, VACANT, VACANT, VACANT, VACANT, 0]),
    ];
    for (pages, entries) in spoilt {
        let mut b = opened(pages);
        b.cache.entries = entries;
        let before = b.clone();
        assert_eq!([b.write(0, 90), b.part(0, 90), b.back()], [Err(Refusal::Record); 3]);
        assert_eq!(b.page(0), Err(Refusal::Record));
        assert_eq!([b.cache.step(&mut b.memory.lend()), b.cache.flush(&mut b.memory.lend())], [Err(Refusal::Record); 2]);
        assert_eq!(b, before);
    }
    let mut b = opened(8);
    b.cache.entries = [5; 8];
    assert!(b.back().is_ok());
    for longer in [true, false] {
        let mut b = opened(2);
        if longer {
            b.memory.shelf.push(0)
        } else {
            b.memory.shelf.truncate(2)
        }
        let before = b.clone();
        assert_eq!([b.write(0, 90), b.part(0, 90), b.back()], [Err(Refusal::Buffer); 3]);
        assert_eq!(b, before);
    }
}

/// Of a coded store shelving reads the earlier page through its code: its mends are the write's, and so is its refusal 7. Page 0 has a
/// flipped bit, page 1 has two.
#[test]
fn shelving_mends_and_refuses_as_a_read() {
    let options = Options { coded: 1, shelf_pages: 2, ..Options::default() };
    let mut b = opened_as([256, 2, 3, 1, 1, 9], options);
    b.memory.flash[5] ^= 1;
    b.memory.flash[256 + 5] ^= 3;
    let before = b.clone();
    assert_eq!([b.write(1, 90), b.part(1, 90)], [Err(Refusal::Unreadable); 2]);
    assert_eq!(b, before);
    assert_eq!(b.write(0, 90), Ok(Answer::Write { way: 3, erased: None, merged: 0, mended: 1 }));
    assert_eq!((b.entries(), &b.memory.shelf[..256]), (vec![0], &[10; 256][..]));
    assert_eq!(b.memory.flash[5], 10 ^ 1);
    assert_eq!(b.back(), way(1));
    assert_eq!(b.page(0), Ok(vec![10; 256]));
}

/// Of a coded store, taking back reads no flash but what its rewrite merges.
#[test]
fn taking_back_is_refused_7_by_its_merge_alone() {
    let options = Options { coded: 1, shelf_pages: 2, ..Options::default() };
    let mut b = opened_as([256, 2, 3, 1, 1, 9], options);
    assert_eq!([b.write(4, 90), b.write(0, 91), b.write(2, 92)], [way(3), way(5), rewrote(2, 1, 0)]);
    b.cache.entries = [4, VACANT, VACANT, VACANT, VACANT, VACANT, VACANT, VACANT];
    b.memory.flash[256 + 5] ^= 3;
    let before = b.clone();
    assert_eq!(b.back(), Err(Refusal::Unreadable));
    assert_eq!(b, before);
    b.memory.flash[256 + 5] ^= 2;
    assert_eq!(b.back(), rewrote(0, 1, 1));
    assert_eq!(b.entries(), []);
}
