//! The shelf and taking back (A8).
use crate::opened;
use plain::{Answer, Memory, Options, Plain, Refusal, Sizes, VACANT};

/// A byte a page, 2 pages a block, 6 blocks, 2 slots, 1 frame, with a shelf of so many pages.
fn shelved(pages: u32) -> (Plain, Memory) {
    opened([1, 2, 6, 2, 1, 9], [0, 0, pages, 0])
}

fn write(store: &mut Plain, memory: &mut Memory, n: u32, byte: u8) {
    store.write(&mut memory.lend(), n, &[byte]).unwrap();
}

/// The pages as reads would give them, and the shelf.
fn pages(store: &Plain, memory: &mut Memory) -> Vec<u8> {
    let mut page = [0];
    let pages = (0..store.0.sizes.pages()).map(|n| Plain(store.0).read(&memory.lend(), n, &mut page).map(|_| page[0]).unwrap());
    pages.collect()
}

#[test]
fn earlier_contents_are_shelved_oldest_first() {
    let (mut store, mut memory) = shelved(3);
    for (n, byte) in [(0, 10), (3, 20), (0, 30), (0, 40)] {
        write(&mut store, &mut memory, n, byte);
    }
    assert_eq!((store.0.entries[..4].to_vec(), &memory.shelf[..]), (vec![3, 0, 0, VACANT], &[255, 10, 30][..]));
    assert_eq!(store.take_back(&mut memory.lend()), Ok(Answer::Write { way: 1, erased: None, merged: 0, mended: 0 }));
    assert_eq!((store.0.entries[..3].to_vec(), &memory.shelf[..]), (vec![3, 0, VACANT], &[255, 10, 30][..]));
    assert_eq!(pages(&store, &mut memory)[..4], [30, 255, 255, 20]);
}

#[test]
fn after_taking_back_the_pages_are_as_before() {
    for shelf in [1, 3, 8] {
        let (mut store, mut memory) = shelved(shelf);
        for (i, n) in [0, 2, 4, 3, 7, 2, 0, 9, 4, 1, 11, 3, 6].into_iter().enumerate() {
            let before = pages(&store, &mut memory);
            let (mut twin, mut lent) = (store, memory.clone());
            write(&mut twin, &mut lent, n, i as u8);
            twin.take_back(&mut lent.lend()).unwrap();
            assert_eq!(pages(&twin, &mut lent), before);
            write(&mut store, &mut memory, n, i as u8);
        }
        assert_eq!(store.0.entries.iter().filter(|&&n| n != VACANT).count(), shelf as usize);
    }
}

#[test]
fn what_shelves_nothing() {
    let (mut store, mut memory) = shelved(0);
    write(&mut store, &mut memory, 0, 1);
    assert_eq!(store.0.entries, [VACANT; 8]);
    assert_eq!(store.take_back(&mut memory.lend()), Err(Refusal::EmptyShelf));
    let (mut store, mut memory) = shelved(2);
    assert_eq!(store.take_back(&mut memory.lend()), Err(Refusal::EmptyShelf));
    store.part(&mut memory.lend(), 0, 1, &[], &mut [0]).unwrap();
    assert_eq!(store.write(&mut memory.lend(), 12, &[0]), Err(Refusal::Page));
    assert_eq!(store.0.entries, [VACANT; 8]);
    store.part(&mut memory.lend(), 0, 0, &[5], &mut [0]).unwrap();
    assert_eq!(store.0.entries[..2], [0, VACANT]);
}

/// Refused for wear: the entry stays, and a write shelves nothing.
#[test]
fn refused_calls_leave_the_shelf() {
    let (mut store, mut memory) = shelved(8);
    for n in [0, 2, 4] {
        write(&mut store, &mut memory, n, n as u8);
    }
    store.0.entries[2] = 6;
    memory.wear.fill(9);
    let before = (store.0, memory.clone());
    assert_eq!(store.take_back(&mut memory.lend()), Err(Refusal::Worn(0)));
    assert_eq!(store.write(&mut memory.lend(), 6, &[1]), Err(Refusal::Worn(0)));
    assert_eq!((store.0, memory.clone()), before);
    memory.wear.fill(8);
    let taken = store.take_back(&mut memory.lend());
    assert_eq!(taken, Ok(Answer::Write { way: 7, erased: Some(0), merged: 1, mended: 0 }));
    assert_eq!(store.0.entries[..3], [0, 2, VACANT]);
}

/// Shelving reads the page: its mends and its refusal are the write's.
#[test]
fn shelving_goes_by_the_codes() {
    let (mut store, mut memory) = opened([256, 2, 6, 2, 1, 9], [0, 1, 1, 0]);
    memory.flash[256] ^= 4;
    memory.flash[512] ^= 3;
    let answer = store.write(&mut memory.lend(), 1, &[7; 256]);
    assert_eq!(answer, Ok(Answer::Write { way: 3, erased: None, merged: 0, mended: 1 }));
    assert_eq!(memory.shelf, [255; 256]);
    assert_eq!(store.write(&mut memory.lend(), 2, &[7; 256]), Err(Refusal::Unreadable));
}

#[test]
fn entries_of_a_sound_record() {
    let (mut store, mut memory) = shelved(2);
    store.0.entries[..2].copy_from_slice(&[11, 11]);
    assert!(Plain(store.0).read(&memory.lend(), 0, &mut [0]).is_ok());
    for (i, entry) in [(0, VACANT), (1, 12), (2, 0), (7, 3)] {
        let mut store = store;
        store.0.entries[i] = entry;
        assert_eq!(store.read(&memory.lend(), 0, &mut [0]), Err(Refusal::Record), "{i}");
    }
    let (sizes, options) = (Sizes::from([1, 2, 6, 2, 1, 9]), Options::from([0, 0, 9, 0]));
    assert_eq!(Plain::open(sizes, options, &memory.lend()).map(|_| ()), Err(Refusal::Size));
    memory.shelf.pop();
    assert_eq!(store.take_back(&mut memory.lend()), Err(Refusal::Buffer));
}
