//! Marks, torn pages and cut calls (A12).
use crate::opened;
use plain::{Answer, Cache, Memory, Options, Plain, Refusal};

/// K+1 chip operations for each rewrite.
const REWRITE: u32 = 5;

/// 4 pages a block, 3 blocks, 3 slots, 1 frame: pages 0, 8 and 1 stand in slots, 4 and 5 in the frame.
fn marked(options: [u32; 4]) -> (Plain, Memory) {
    let (mut store, mut memory) = opened([256, 4, 3, 3, 1, 9], options);
    for n in [0, 4, 5, 8, 1] {
        store.write(&mut memory.lend(), n, &[n as u8; 256]).unwrap();
    }
    (store, memory)
}

/// What a cut may leave of a block: before its erasure the old one; then each page marked 0 holds the bytes meant for it.
fn allowed(block: usize, old: &Memory, new: &Memory, cut: &Memory) -> bool {
    let pages = block * 4..block * 4 + 4;
    let page = |m: &Memory, n: usize| (m.flash[n * 256..(n + 1) * 256].to_vec(), m.codes[n * 3..n * 3 + 3].to_vec());
    let is = |n: usize, m: &Memory| page(cut, n) == page(m, n);
    match cut.wear[block] - old.wear[block] {
        0 => pages.clone().all(|n| is(n, old) && cut.marks[n] == old.marks[n]),
        _ => pages.clone().all(|n| if cut.marks[n] == 0 { is(n, new) } else { page(cut, n) == (vec![255; 256], vec![255; 3]) }),
    }
}

#[test]
fn a_flush_cut_after_each_operation() {
    let (store, memory) = marked([0, 1, 0, 1]);
    let mut new = memory.clone();
    let mut flushed = store;
    assert_eq!(flushed.flush(&mut new.lend()), Ok(Answer::Flush { rewrites: 3, merged: 7, mended: 0 }));
    for operations in 0..=3 * REWRITE {
        let mut cut = memory.clone();
        let is_whole = operations == 3 * REWRITE;
        assert_eq!(store.cut_flush(operations, &mut cut.lend()), Ok(is_whole));
        assert!((0..3).all(|block| allowed(block, &memory, &new, &cut)), "{operations}");
        assert_eq!(cut.wear.iter().sum::<u32>(), operations.div_ceil(REWRITE));
        let torn = (operations % REWRITE != 0) as u32;
        assert_eq!(Plain::open(store.0.sizes, store.0.options, &cut.lend()).unwrap().torn(&cut.lend()), torn);
        assert!(!is_whole || cut == new);
    }
}

/// The calls that come to a rewrite: each is whole with as many operations as it needs, and stopped with fewer.
#[test]
fn calls_cut_short() {
    let (mut store, mut memory) = marked([0, 0, 2, 1]);
    store.0.entries[..2].copy_from_slice(&[9, 10]);
    type Call = fn(Plain, u32, &mut Memory) -> Result<bool, Refusal>;
    let calls: [Call; 5] = [
        |store, operations, m| store.cut_write(operations, &mut m.lend(), 9, &[3; 256]),
        |store, operations, m| store.cut_part(operations, &mut m.lend(), 9, 0, &[3], &mut [0; 256]),
        |store, operations, m| store.cut_take_back(operations, &mut m.lend()),
        |store, operations, m| store.cut_step(operations, &mut m.lend()),
        |store, operations, m| store.cut_write(operations, &mut m.lend(), 12, &[3; 256]),
    ];
    for operations in [0, 1, 2, REWRITE - 1, REWRITE, u32::MAX] {
        let said = calls.map(|call| call(store, operations, &mut memory.clone()));
        let is_whole = Ok(operations >= REWRITE);
        assert_eq!(said, [is_whole, is_whole, is_whole, is_whole, Err(Refusal::Page)], "{operations}");
    }
    assert_eq!(store.cut_write(0, &mut memory.lend(), 1, &[3; 256]), Ok(true));
    assert_eq!(Plain(Cache::blank()).cut_step(9, &mut memory.lend()), Err(Refusal::Record));
}

#[test]
fn torn_pages_are_refused_after_unreadable_ones() {
    let (mut store, mut memory) = opened([256, 4, 3, 3, 1, 9], [0, 1, 1, 1]);
    memory.marks[6] = 1;
    memory.marks[7] = 255;
    assert_eq!(store.torn(&memory.lend()), 1);
    assert_eq!(store.read(&memory.lend(), 6, &mut [0; 256]), Err(Refusal::Torn));
    assert_eq!(store.write(&mut memory.lend(), 6, &[0; 256]), Err(Refusal::Torn));
    assert_eq!(store.part(&mut memory.lend(), 7, 0, &[1], &mut [0; 256]), Err(Refusal::Torn));
    store.write(&mut memory.lend(), 4, &[0; 256]).unwrap();
    assert_eq!(store.step(&mut memory.lend()), Err(Refusal::Torn));
    memory.flash[5 * 256] ^= 3;
    assert_eq!(store.flush(&mut memory.lend()), Err(Refusal::Unreadable));
    memory.flash[6 * 256] ^= 3;
    assert_eq!(store.read(&memory.lend(), 6, &mut [0; 256]), Err(Refusal::Unreadable));
}

#[test]
fn writing_its_torn_pages_makes_a_block_whole() {
    let (store, mut memory) = marked([0, 0, 0, 1]);
    assert_eq!(store.cut_step(3, &mut memory.lend()), Ok(false));
    let mut store = Plain::open(store.0.sizes, Options::from([0, 0, 0, 1]), &memory.lend()).unwrap();
    assert_eq!((store.torn(&memory.lend()), &memory.marks[4..8]), (1, &[0, 0, 255, 255][..]));
    for n in [6, 7] {
        store.write(&mut memory.lend(), n, &[n as u8; 256]).unwrap();
    }
    assert_eq!(store.flush(&mut memory.lend()), Ok(Answer::Flush { rewrites: 1, merged: 2, mended: 0 }));
    assert_eq!((store.torn(&memory.lend()), memory.marks.iter().max()), (0, Some(&0)));
    assert_eq!(memory.flash[1024..2048].iter().step_by(256).copied().collect::<Vec<_>>(), [4, 5, 6, 7]);
}
