//! Coded stores (requests A6 and A7): a flipped bit is mended and counted, a page with more of them in a chunk is refused 7, and a rewrite
//! programs clean pages and codes. Two chunks a page, two pages a block, three blocks, one slot, one frame.
use clash::{Answer, Cache, Memory, Options, Refusal, Sizes};

const SIZES: [u32; 6] = [512, 2, 3, 1, 1, 9];
const CODED: Options = Options { policy: 0, coded: 1, shelf_pages: 0, marked: 0 };

#[derive(Clone, Debug, PartialEq)]
struct Bench {
    cache: Cache,
    memory: Memory,
}

/// What page n holds.
fn page(n: u32) -> [u8; 512] {
    std::array::from_fn(|i| (i * i / 3 + 7 * n as usize) as u8)
}

/// Every page is programmed, and nothing cached.
fn programmed() -> Bench {
    let sizes = Sizes::from(SIZES);
    let mut memory = Memory::with_options(&sizes, &CODED);
    let cache = Cache::open(sizes, CODED, &memory.lend()).unwrap().cache;
    let mut b = Bench { cache, memory };
    (0..6).for_each(|n| assert!(b.write(n).is_ok()));
    assert!(b.flush().is_ok());
    b.memory.wear.fill(0);
    b
}

/// Page 1 is in the frame and page 2 in the slot: a write of page 0, 3, 4 or 5 rewrites block 0, and a flush blocks 0 and 1.
fn filled() -> Bench {
    let mut b = programmed();
    assert_eq!([b.write(1), b.write(2)], [3, 5].map(|way| Ok(Answer::Write { way, erased: None, merged: 0, mended: 0 })));
    b
}

impl Bench {
    fn read(&mut self, n: u32) -> Result<(Answer, [u8; 512]), Refusal> {
        let mut page = [7; 512];
        self.cache.read(&self.memory.lend(), n, &mut page).map(|answer| (answer, page))
    }

    fn write(&mut self, n: u32) -> Result<Answer, Refusal> {
        self.cache.write(&mut self.memory.lend(), n, &page(n))
    }

    /// Writes byte 5 of page n.
    fn part(&mut self, n: u32) -> Result<Answer, Refusal> {
        self.cache.part(&mut self.memory.lend(), n, 5, &[9], &mut [7; 512])
    }

    fn step(&mut self) -> Result<Answer, Refusal> {
        self.cache.step(&mut self.memory.lend())
    }

    fn flush(&mut self) -> Result<Answer, Refusal> {
        self.cache.flush(&mut self.memory.lend())
    }

    /// Flips bits of page n, by their addresses in the page.
    fn flip<const M: usize>(mut self, n: usize, bits: [usize; M]) -> Bench {
        bits.iter().for_each(|bit| self.memory.flash[n * 512 + bit / 8] ^= 1 << (bit % 8));
        self
    }

    /// Flips bits of the codes of page n.
    fn flip_codes<const M: usize>(mut self, n: usize, bits: [usize; M]) -> Bench {
        bits.iter().for_each(|bit| self.memory.codes[n * 6 + bit / 8] ^= 1 << (bit % 8));
        self
    }
}

/// Request A6's rule, bit by bit.
fn by_bits(chunk: &[u8]) -> [u8; 3] {
    let is_set = |address: usize| chunk[address / 8] >> (address % 8) & 1 == 1;
    let odd = |i: usize, bit: usize| (0..2048).filter(|&a| a >> i & 1 == bit && is_set(a)).count() % 2 == 1;
    let code = (0..22).filter(|bit| !odd(bit / 2, bit % 2)).fold(3u32 << 22, |code, bit| code | 1 << bit);
    [code as u8, (code >> 8) as u8, (code >> 16) as u8]
}

#[test]
fn codes_are_written_with_each_program() {
    let b = programmed();
    assert_eq!(b.memory.flash, (0..6).flat_map(page).collect::<Vec<u8>>());
    assert_eq!(b.memory.codes, b.memory.flash.chunks(256).flat_map(by_bits).collect::<Vec<u8>>());
    assert_eq!(by_bits(&[255; 256]), [255; 3]);
}

#[test]
fn a_read_mends_and_counts_and_leaves_flash() {
    let flipped = [
        (programmed(), 0),
        (programmed().flip(3, [1234]), 1),
        (programmed().flip(3, [4095]), 1),
        (programmed().flip_codes(3, [5]), 1),
        (programmed().flip_codes(3, [23]), 1),
        (programmed().flip(3, [0, 2048]), 2),
        (programmed().flip(3, [77]).flip_codes(3, [24]), 2),
    ];
    for (mut b, mended) in flipped {
        let before = b.clone();
        assert_eq!(b.read(3), Ok((Answer::Read { way: 3, mended }, page(3))));
        assert_eq!(b, before);
    }
}

#[test]
fn two_flips_in_a_chunk_are_refused_and_change_nothing() {
    for mut b in [filled().flip(0, [8, 9]), filled().flip(0, [8]).flip_codes(0, [0]), filled().flip_codes(0, [22, 23])] {
        let before = b.clone();
        assert_eq!(b.read(0), Err(Refusal::Unreadable));
        assert_eq!([b.write(0), b.write(4), b.part(0), b.part(4)], [Err(Refusal::Unreadable); 4]);
        assert_eq!([b.step(), b.flush()], [Err(Refusal::Unreadable); 2]);
        assert_eq!(b, before);
        assert_eq!(b.read(1), Ok((Answer::Read { way: 2, mended: 0 }, page(1))));
    }
}

/// Block 0, which is rewritten first, could be merged, and block 1 cannot.
#[test]
fn a_flush_looks_at_all_its_merges_first() {
    let mut b = filled().flip(0, [8]).flip(3, [8, 9]);
    let before = b.clone();
    assert_eq!(b.flush(), Err(Refusal::Unreadable));
    assert_eq!(b, before);
    assert_eq!(b.step(), Ok(Answer::Step { block: 0, merged: 1, mended: 1 }));
    assert_eq!(b.step(), Err(Refusal::Unreadable));
}

#[test]
fn worn_goes_before_unreadable() {
    let mut b = filled().flip(0, [8, 9]);
    b.memory.wear[0] = 9;
    assert_eq!([b.write(4), b.step(), b.flush()], [Err(Refusal::Worn(0)); 3]);
}

#[test]
fn a_merge_mends_and_programs_clean_codes() {
    let clean = programmed().memory;
    let calls: [(fn(&mut Bench) -> Result<Answer, Refusal>, Answer); 3] = [
        (|b| b.write(4), Answer::Write { way: 7, erased: Some(0), merged: 1, mended: 2 }),
        (Bench::step, Answer::Step { block: 0, merged: 1, mended: 2 }),
        (Bench::flush, Answer::Flush { rewrites: 2, merged: 2, mended: 2 }),
    ];
    for (call, answer) in calls {
        let mut b = filled().flip(0, [1234]).flip_codes(0, [24]).flip(4, [3]);
        let flipped = b.memory.flash[4 * 512];
        assert_eq!(call(&mut b), Ok(answer));
        assert_eq!((&b.memory.flash[..1024], &b.memory.codes), (&clean.flash[..1024], &clean.codes));
        assert_eq!(b.memory.flash[4 * 512], flipped);
        assert_eq!(b.read(0), Ok((Answer::Read { way: 3, mended: 0 }, page(0))));
    }
}

/// Page 0 is read by its part write, and merged by the rewrite that the same call makes; page 4 is read beside that merge.
#[test]
fn a_part_write_counts_a_page_once() {
    for (n, mended) in [(0, 1), (4, 2), (5, 1)] {
        let mut b = filled().flip(0, [8]).flip(4, [8]);
        assert_eq!(b.part(n), Ok(Answer::Write { way: 7, erased: Some(0), merged: 1, mended }));
    }
    let mut b = filled().flip(0, [8, 9]);
    let before = b.clone();
    assert_eq!(b.part(1), Ok(Answer::Write { way: 2, erased: None, merged: 0, mended: 0 }));
    b = before.clone();
    let way_0 = b.cache.part(&mut b.memory.lend(), 0, 0, &[], &mut [7; 512]);
    assert_eq!((way_0, b), (Ok(Answer::Write { way: 0, erased: None, merged: 0, mended: 0 }), before));
}

#[test]
fn a_page_of_a_coded_store_is_a_multiple_of_256_bytes() {
    let open = |s: u32, coded: u32| {
        let (sizes, options) = (Sizes::from([s, 2, 3, 1, 1, 9]), Options { coded, ..Options::default() });
        Cache::open(sizes, options, &Memory::with_options(&sizes, &options).lend()).map(|opened| opened.cache.options.coded)
    };
    assert_eq!([256, 512, 2048].map(|s| open(s, 1)), [Ok(1); 3]);
    assert_eq!([1, 128, 255, 257, 2047].map(|s| open(s, 1)), [Err(Refusal::Size); 5]);
    assert_eq!([2, 3, u32::MAX].map(|coded| open(256, coded)), [Err(Refusal::Size); 3]);
    let mut b = filled();
    b.cache.sizes.page_size = 511;
    assert_eq!(b.step(), Err(Refusal::Record));
}

#[test]
fn codes_are_3_bytes_for_each_chunk() {
    for wrong in [0, 3, 35, 37, 72] {
        let mut b = filled();
        b.memory.codes.resize(wrong, 255);
        let before = b.clone();
        assert_eq!(Cache::open(Sizes::from(SIZES), CODED, &b.memory.lend()), Err(Refusal::Buffer));
        assert_eq!(b.read(3), Err(Refusal::Buffer));
        assert_eq!([b.write(3), b.part(3), b.step(), b.flush()], [Err(Refusal::Buffer); 4]);
        assert_eq!(b, before);
    }
}

/// Flipped bits are read as they stand.
#[test]
fn a_store_without_codes_mends_nothing() {
    let sizes = Sizes::from(SIZES);
    let mut memory = Memory::new(&sizes);
    let cache = Cache::open(sizes, Options::default(), &memory.lend()).unwrap().cache;
    let mut b = Bench { cache, memory }.flip(0, [8, 9]);
    assert_eq!(b.read(0).map(|(answer, page)| (answer, page[1])), Ok((Answer::Read { way: 3, mended: 0 }, 252)));
    assert_eq!(b.write(1), Ok(Answer::Write { way: 3, erased: None, merged: 0, mended: 0 }));
    assert_eq!(b.flush(), Ok(Answer::Flush { rewrites: 1, merged: 1, mended: 0 }));
}
