//! Each refusal of document 01, and that it changes nothing; `codes.rs` has that of request A6, `shelf.rs` that of A8, `marks.rs` that of
//! A12. Wrong lengths go through the record's own calls, which assert nothing.
use clash::{Answer, Cache, Memory, Options, Refusal, Sizes, Store, FIFO, LFU, LRU, VACANT};

const SIZES: [u32; 6] = [2, 4, 3, 3, 1, 9];

fn opened() -> (Cache, Memory) {
    let sizes = Sizes::from(SIZES);
    let mut memory = Memory::new(&sizes);
    let cache = Cache::open(sizes, Options::default(), &memory.lend()).unwrap().cache;
    (cache, memory)
}

/// Slots 9, 4, 8 and the frame of block 0 with page 0.
fn filled() -> (Cache, Memory) {
    let (mut cache, mut memory) = opened();
    for n in [0, 4, 8, 9] {
        cache.write(&mut memory.lend(), n, &[n as u8, 7]).unwrap();
    }
    (cache, memory)
}

/// Each call but an opening is refused so, and leaves record, buffers and page as they were.
fn all_refused(mut cache: Cache, mut memory: Memory, n: u32, len: usize, why: Refusal) {
    let before = (cache, memory.clone());
    let mut page = vec![77; len];
    assert_eq!(cache.read(&memory.lend(), n, &mut page), Err(why));
    assert_eq!(page, vec![77; len]);
    assert_eq!(cache.write(&mut memory.lend(), n, &page), Err(why));
    assert_eq!(cache.part(&mut memory.lend(), n, 1, &[5], &mut page), Err(why));
    assert_eq!(cache.part(&mut memory.lend(), n, 0, &[], &mut page), Err(why));
    assert_eq!(page, vec![77; len]);
    if !matches!(why, Refusal::Page) && len == 2 {
        assert_eq!(cache.take_back(&mut memory.lend()), Err(why));
        assert_eq!(cache.step(&mut memory.lend()), Err(why));
        assert_eq!(cache.flush(&mut memory.lend()), Err(why));
    }
    assert_eq!((cache, memory), before);
}

#[test]
fn size() {
    let limits = [(1, 2048), (2, 64), (1, 4096), (1, 128), (1, 8), (1, 1_000_000)];
    for (i, (low, high)) in limits.into_iter().enumerate() {
        for wrong in [low - 1, high + 1, u32::MAX] {
            let mut sizes = SIZES;
            sizes[i] = wrong;
            assert_eq!(Store::open(Sizes::from(sizes), Options::default(), &Memory::default().lend()), Err(Refusal::Size));
        }
        for right in [low, high] {
            let mut sizes = SIZES;
            sizes[i] = right;
            let sizes = Sizes::from(sizes);
            assert!(Store::open(sizes, Options::default(), &Memory::new(&sizes).lend()).is_ok());
        }
    }
}

/// The policy is 0, 1 or 2, coded and marked are 0 or 1, and there are up to 8 shelf pages; else it is refused, whatever is lent.
#[test]
fn option() {
    let sizes = Sizes::from([256, 4, 3, 3, 1, 9]);
    for (i, wrongs) in [(0, [3, 4, 8, u32::MAX]), (1, NEITHER), (2, MANY), (3, NEITHER)] {
        for wrong in wrongs {
            let mut options = [0; 4];
            options[i] = wrong;
            let mut memory = Memory::new(&sizes);
            assert_eq!(Store::open(sizes, Options::from(options), &memory.lend()), Err(Refusal::Size));
            (memory.codes, memory.marks, memory.shelf) = (vec![255; 36], vec![0; 12], vec![0; 256]);
            assert_eq!(Store::open(sizes, Options::from(options), &memory.lend()), Err(Refusal::Size));
            assert_eq!(Store::open(sizes, Options::from(options), &Memory::default().lend()), Err(Refusal::Size));
        }
    }
    assert_eq!(Options::default(), Options { policy: LRU, coded: 0, shelf_pages: 0, marked: 0 });
    for policy in [LRU, FIFO, LFU] {
        let options = Options { policy, ..Options::default() };
        let store = Store::open(sizes, options, &Memory::new(&sizes).lend()).unwrap();
        assert_eq!(*store.record(), Cache { sizes, options, ..Cache::blank() });
    }
}

/// What coded and marked may not be, and shelf pages may not.
const NEITHER: [u32; 4] = [2, 3, 8, u32::MAX];
const MANY: [u32; 4] = [9, 10, 128, u32::MAX];

#[test]
fn buffer() {
    let shorten: [fn(&mut Memory); 4] =
        [|m| m.flash.truncate(23), |m| m.wear.truncate(2), |m| m.pspace.truncate(5), |m| m.bspace.truncate(7)];
    let lengthen: [fn(&mut Memory); 4] = [|m| m.flash.push(0), |m| m.wear.push(0), |m| m.pspace.push(0), |m| m.bspace.push(0)];
    let of_options: [fn(&mut Memory); 6] = [
        |m| m.codes.push(0),
        |m| m.marks.push(0),
        |m| m.shelf.push(0),
        |m| m.codes = vec![255; 3],
        |m| m.marks = vec![0; 12],
        |m| m.shelf = vec![0; 2],
    ];
    for spoil in shorten.into_iter().chain(lengthen).chain(of_options) {
        let (cache, mut memory) = filled();
        spoil(&mut memory);
        let before = memory.clone();
        assert_eq!(Cache::open(Sizes::from(SIZES), Options::default(), &memory.lend()), Err(Refusal::Buffer));
        assert_eq!(memory, before);
        all_refused(cache, memory, 0, 2, Refusal::Buffer);
    }
    for len in [0, 1, 3, 4096] {
        let (cache, memory) = filled();
        all_refused(cache, memory, 0, len, Refusal::Buffer);
    }
}

#[test]
fn bytes_past_the_page() {
    let (mut cache, mut memory) = filled();
    let before = (cache, memory.clone());
    let mut page = [77, 78];
    for (first, many) in [(1, 2), (0, 3), (2, 1), (3, 0), (u32::MAX, 0), (u32::MAX, 1)] {
        assert_eq!(cache.part(&mut memory.lend(), 0, first, &vec![1; many], &mut page), Err(Refusal::Buffer));
        assert_eq!(cache.part(&mut memory.lend(), 12, first, &vec![1; many], &mut page), Err(Refusal::Page));
    }
    assert_eq!(((cache, memory), page), (before, [77, 78]));
}

#[test]
fn overworn() {
    let (_, mut memory) = opened();
    memory.wear[2] = 9;
    assert!(Store::open(Sizes::from(SIZES), Options::default(), &memory.lend()).is_ok());
    memory.wear[2] = 10;
    assert_eq!(Store::open(Sizes::from(SIZES), Options::default(), &memory.lend()), Err(Refusal::Overworn));
}

#[test]
fn record() {
    all_refused(Cache::blank(), Memory::default(), 0, 2, Refusal::Record);
    let spoils: [fn(&mut Cache); 12] = [
        |c| c.sizes.page_size = 0,
        |c| c.sizes.frames = 9,
        |c| c.sizes.slots = 2,
        |c| c.directory.slots[0] = 12,
        |c| c.directory.slots[0] = 4,
        |c| c.directory.slots[0] = 0,
        |c| c.directory.slots[127] = 1,
        |c| c.directory.frames[0] = 3,
        |c| c.directory.frames[1] = 1,
        |c| c.directory.valid[0] = 0,
        |c| c.directory.valid[0] = 16,
        |c| c.directory.recency[0] = 1,
    ];
    for spoil in spoils {
        let (mut cache, memory) = filled();
        spoil(&mut cache);
        all_refused(cache, memory, 0, 2, Refusal::Record);
    }
}

/// What the options add to a record: the policy is up to 2, coded is 0 where a page has 2 bytes, marked is 0 or 1, there are up to 8 shelf
/// pages, a frame that is vacant has no use and any other one at least, and without shelf pages each entry of the shelf is vacant.
#[test]
fn record_of_options() {
    let spoilt = |option: fn(&mut Cache) -> &mut u32, wrong| {
        let (mut cache, memory) = filled();
        *option(&mut cache) = wrong;
        all_refused(cache, memory, 0, 2, Refusal::Record);
    };
    spoilt(|c| &mut c.options.coded, 1);
    NEITHER.iter().for_each(|&wrong| spoilt(|c| &mut c.options.coded, wrong));
    NEITHER.iter().for_each(|&wrong| spoilt(|c| &mut c.options.marked, wrong));
    [3, 4, u32::MAX].iter().for_each(|&wrong| spoilt(|c| &mut c.options.policy, wrong));
    MANY.iter().for_each(|&wrong| spoilt(|c| &mut c.options.shelf_pages, wrong));
    for i in 0..8 {
        let (cache, _) = filled();
        let wrongs: &[u32] = if cache.directory.frames[i] == VACANT { &[1, VACANT] } else { &[0] };
        for &wrong in wrongs {
            let (mut cache, memory) = filled();
            cache.directory.uses[i] = wrong;
            all_refused(cache, memory, 0, 2, Refusal::Record);
        }
        for wrong in [0, 11, 12, VACANT - 1] {
            let (mut cache, memory) = filled();
            cache.entries[i] = wrong;
            all_refused(cache, memory, 0, 2, Refusal::Record);
        }
    }
}

/// A record that is not sound goes before a buffer that does not fit, and that before a page that is not there.
#[test]
fn order_of_the_checks() {
    let lengthen: [fn(&mut Memory); 3] = [|m| m.codes.push(0), |m| m.marks.push(0), |m| m.shelf.push(0)];
    let spoils: [fn(&mut Cache); 3] = [|c| c.entries[7] = 0, |c| c.directory.slots[0] = 12, |c| c.options.marked = 2];
    for lengthen in lengthen {
        let (cache, mut memory) = filled();
        lengthen(&mut memory);
        all_refused(cache, memory.clone(), 12, 2, Refusal::Buffer);
        for spoil in spoils {
            let mut cache = cache;
            spoil(&mut cache);
            all_refused(cache, memory.clone(), 12, 2, Refusal::Record);
        }
    }
}

#[test]
fn page() {
    for n in [12, 13, u32::MAX] {
        let (cache, memory) = filled();
        all_refused(cache, memory, n, 2, Refusal::Page);
    }
    let (mut cache, mut memory) = filled();
    assert_eq!(cache.read(&memory.lend(), 11, &mut [0, 0]), Ok(Answer::Read { way: 3, mended: 0 }));
}

#[test]
fn worn() {
    let (mut cache, mut memory) = filled();
    cache.write(&mut memory.lend(), 5, &[1, 2]).unwrap();
    assert_eq!(cache.directory.frames[0], 2);
    memory.wear[2] = 9;
    let before = (cache, memory.clone());
    assert_eq!(cache.write(&mut memory.lend(), 6, &[3, 4]), Err(Refusal::Worn(2)));
    let mut page = [77, 78];
    assert_eq!(cache.part(&mut memory.lend(), 6, 1, &[4], &mut page), Err(Refusal::Worn(2)));
    assert_eq!(page, [77, 78]);
    assert_eq!(cache.step(&mut memory.lend()), Err(Refusal::Worn(2)));
    assert_eq!(cache.flush(&mut memory.lend()), Err(Refusal::Worn(2)));
    assert_eq!((cache, memory.clone()), before);
    memory.wear[0] = 9;
    assert_eq!(cache.flush(&mut memory.lend()), Err(Refusal::Worn(0)));
    memory.wear = vec![8; 3];
    assert_eq!(cache.flush(&mut memory.lend()), Ok(Answer::Flush { rewrites: 3, merged: 7, mended: 0 }));
}

/// The limit raised in the record: what was cached comes to flash, as `docs/INTEGRATING.md` says.
#[test]
fn the_limit_raised_in_place() {
    let (cache, mut memory) = filled();
    memory.wear = vec![9; 3];
    let mut store = cache;
    assert_eq!(store.flush(&mut memory.lend()), Err(Refusal::Worn(0)));
    store.sizes.wear_limit = 10;
    assert_eq!(store.flush(&mut memory.lend()), Ok(Answer::Flush { rewrites: 3, merged: 8, mended: 0 }));
    assert_eq!((memory.wear.as_slice(), &memory.flash[16..20]), (&[10; 3][..], &[8, 7, 9, 7][..]));
    let sizes = Sizes { wear_limit: 10, ..Sizes::from(SIZES) };
    assert!(Cache::open(sizes, Options::default(), &memory.lend()).is_ok());
    assert_eq!(Cache::open(Sizes::from(SIZES), Options::default(), &memory.lend()), Err(Refusal::Overworn));
}

/// Frames of blocks 2, 1 and 0, least recent that of block 1 and most recent that of block 2; pages 10 and 8 in slots.
fn three_frames(wear: [u32; 6]) -> (Cache, Memory) {
    let sizes = Sizes::from([1, 2, 6, 2, 3, 9]);
    let mut memory = Memory::new(&sizes);
    memory.wear = wear.to_vec();
    let mut cache = Cache::open(sizes, Options::default(), &memory.lend()).unwrap().cache;
    for n in [10, 4, 2, 0, 8] {
        cache.write(&mut memory.lend(), n, &[n as u8]).unwrap();
    }
    cache.read(&memory.lend(), 4, &mut [0]).unwrap();
    (cache, memory)
}

#[test]
fn a_write_passes_worn_blocks_over() {
    for (wear, block) in [([8, 0, 8, 0, 0, 0], 1), ([8, 9, 0, 0, 0, 0], 0), ([9, 9, 8, 0, 0, 0], 2)] {
        let (mut cache, mut memory) = three_frames(wear);
        if wear[1] == 9 {
            assert_eq!(cache.step(&mut memory.lend()), Err(Refusal::Worn(1)));
        }
        assert_eq!(cache.write(&mut memory.lend(), 6, &[6]), Ok(Answer::Write { way: 7, erased: Some(block), merged: 1, mended: 0 }));
        assert_eq!(memory.wear[block as usize], wear[block as usize] + 1);
    }
}

#[test]
fn with_all_blocks_worn_a_write_names_the_least_recent() {
    let (mut cache, mut memory) = three_frames([9; 6]);
    let before = (cache, memory.clone());
    assert_eq!(cache.write(&mut memory.lend(), 6, &[6]), Err(Refusal::Worn(1)));
    assert_eq!(cache.part(&mut memory.lend(), 6, 0, &[6], &mut [7]), Err(Refusal::Worn(1)));
    assert_eq!(cache.flush(&mut memory.lend()), Err(Refusal::Worn(0)));
    assert_eq!((cache, memory), before);
}

#[test]
fn numbers_are_the_documents() {
    let base = [Refusal::Size, Refusal::Buffer, Refusal::Overworn, Refusal::Record, Refusal::Page, Refusal::Worn(3)];
    assert_eq!(base.map(Refusal::number), [1, 2, 3, 4, 5, 6]);
    assert_eq!(Refusal::Unreadable.number(), 7);
}

#[cfg(debug_assertions)]
mod debug_builds_assert {
    use super::*;

    #[test]
    #[should_panic(expected = "a lent buffer has another length")]
    fn lent_buffers() {
        let (_, mut memory) = opened();
        let mut store = Store::open(Sizes::from(SIZES), Options::default(), &memory.lend()).unwrap();
        memory.pspace.push(0);
        let _ = store.step(&mut memory.lend());
    }

    #[test]
    #[should_panic(expected = "a lent buffer has another length")]
    fn buffers_of_options() {
        let (_, mut memory) = opened();
        let mut store = Store::open(Sizes::from(SIZES), Options::default(), &memory.lend()).unwrap();
        memory.marks.push(0);
        let _ = store.step(&mut memory.lend());
    }

    #[test]
    #[should_panic(expected = "the page buffer has another length")]
    fn the_page() {
        let (_, mut memory) = opened();
        let mut store = Store::open(Sizes::from(SIZES), Options::default(), &memory.lend()).unwrap();
        let _ = store.write(&mut memory.lend(), 0, &[1]);
    }
}

#[cfg(not(debug_assertions))]
#[test]
fn release_builds_refuse() {
    let (_, mut memory) = opened();
    let mut store = Store::open(Sizes::from(SIZES), Options::default(), &memory.lend()).unwrap();
    assert_eq!(store.write(&mut memory.lend(), 0, &[1]), Err(Refusal::Buffer));
}
