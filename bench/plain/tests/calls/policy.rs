//! What the three policies do where they differ (A5), and the use counts.
use plain::policy::{FIFO, LFU, LRU};
use plain::{Answer, Memory, Options, Plain, Refusal};

/// Two pages a block, 8 blocks, 2 slots, 3 frames; a block may be erased 9 times.
fn opened(policy: u32) -> (Plain, Memory) {
    crate::opened([1, 2, 8, 2, 3, 9], [policy, 0, 0, 0])
}

fn write(store: &mut Plain, memory: &mut Memory, n: u32) -> (u32, Option<u32>) {
    match store.write(&mut memory.lend(), n, &[n as u8]).unwrap() {
        Answer::Write { way, erased, .. } => (way, erased),
        other => panic!("{other:?}"),
    }
}

/// Frames 0, 1 and 2 hold blocks 0, 1 and 2 in the order of their filling, with page 0 of each; pages 6 and 8 stand in slots. Page 0 is
/// read twice, page 2 once.
fn three_frames(policy: u32) -> (Plain, Memory) {
    let (mut store, mut memory) = opened(policy);
    let mut ways = Vec::new();
    for n in [0, 2, 4, 6, 8] {
        ways.push(write(&mut store, &mut memory, n).0);
    }
    assert_eq!((ways, store.0.directory.frames[..3].to_vec()), (vec![3, 3, 5, 5, 5], vec![0, 1, 2]));
    for n in [0, 0, 2] {
        store.read(&memory.lend(), n, &mut [0]).unwrap();
    }
    assert_eq!(store.0.directory.uses[..4], [3, 2, 1, 0]);
    (store, memory)
}

#[test]
fn each_policy_rewrites_its_frame() {
    for (policy, order, block) in [(LRU, [2, 0, 1], 2), (FIFO, [0, 1, 2], 0), (LFU, [2, 0, 1], 2)] {
        let (mut store, mut memory) = three_frames(policy);
        assert_eq!(store.0.directory.recency[..3], order);
        assert_eq!(write(&mut store, &mut memory, 10), (7, Some(block)));
        assert_eq!(store.0.directory.uses[block as usize], 1);
    }
}

#[test]
fn equal_uses_go_by_recency_and_a_step_ignores_wear() {
    let (mut store, mut memory) = three_frames(LFU);
    store.read(&memory.lend(), 4, &mut [0]).unwrap();
    assert_eq!((&store.0.directory.uses[..3], &store.0.directory.recency[..3]), (&[3, 2, 2][..], &[0, 1, 2][..]));
    memory.wear[1] = 9;
    assert_eq!(store.step(&mut memory.lend()), Err(Refusal::Worn(1)));
    assert_eq!(write(&mut store, &mut memory, 10), (7, Some(2)));
    memory.wear.fill(9);
    assert_eq!(store.write(&mut memory.lend(), 12, &[0]), Err(Refusal::Worn(3)));
}

/// A join is one use, and under FIFO does not make recent.
#[test]
fn joins() {
    for (policy, most_recent) in [(LRU, 0), (FIFO, 1), (LFU, 0)] {
        let (mut store, mut memory) = opened(policy);
        let ways = [0, 2, 4, 1, 6].map(|n| write(&mut store, &mut memory, n).0);
        assert_eq!((ways, store.0.directory.valid[0]), ([3, 3, 5, 5, 4], 3));
        assert_eq!((store.0.directory.uses[..3].to_vec(), store.0.directory.recency[2]), (vec![2, 1, 0], most_recent));
    }
}

#[test]
fn counts_are_held_and_looked_at() {
    let (mut store, mut memory) = three_frames(LRU);
    store.0.directory.uses[0] = u32::MAX;
    store.read(&memory.lend(), 0, &mut [0]).unwrap();
    assert_eq!(store.0.directory.uses[0], u32::MAX);
    for (f, uses) in [(0, 0), (3, 1), (7, u32::MAX)] {
        let mut store = store;
        store.0.directory.uses[f] = uses;
        assert_eq!(store.read(&memory.lend(), 0, &mut [0]), Err(Refusal::Record));
    }
    assert_eq!(store.flush(&mut memory.lend()).map(|_| store.0.directory.uses), Ok([0; 8]));
}

#[test]
fn another_policy_is_refused() {
    let (mut store, mut memory) = opened(LFU);
    let options = Options { policy: 3, ..Options::default() };
    assert_eq!(Plain::open(store.0.sizes, options, &memory.lend()).map(|_| ()), Err(Refusal::Size));
    store.0.options.policy = 3;
    assert_eq!(store.step(&mut memory.lend()), Err(Refusal::Record));
}
