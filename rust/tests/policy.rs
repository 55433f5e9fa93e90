//! The three block policies where they differ (request A5), and the use counts.
use clash::{Answer, Cache, Memory, Options, Refusal, Sizes, FIFO, LFU, LRU};

/// Two pages a block, 8 blocks, 2 slots, 3 frames; a block may be erased 9 times.
fn opened(policy: u32) -> (Cache, Memory) {
    let sizes = Sizes::from([1, 2, 8, 2, 3, 9]);
    let mut memory = Memory::new(&sizes);
    let cache = Cache::open(sizes, Options { policy, ..Options::default() }, &memory.lend()).unwrap().cache;
    (cache, memory)
}

fn write(cache: &mut Cache, memory: &mut Memory, n: u32) -> (u32, Option<u32>) {
    match cache.write(&mut memory.lend(), n, &[n as u8]).unwrap() {
        Answer::Write { way, erased, .. } => (way, erased),
        other => panic!("{other:?}"),
    }
}

/// Frames 0, 1 and 2 hold blocks 0, 1 and 2 in the order of their filling, with one page each; pages 6 and 8 stand in slots. Page 0 is read
/// twice, page 2 once.
fn three_frames(policy: u32) -> (Cache, Memory) {
    let (mut cache, mut memory) = opened(policy);
    let ways = [0, 2, 4, 6, 8].map(|n| write(&mut cache, &mut memory, n).0);
    assert_eq!((ways, &cache.directory.frames[..3]), ([3, 3, 5, 5, 5], &[0, 1, 2][..]));
    for n in [0, 0, 2] {
        cache.read(&memory.lend(), n, &mut [0]).unwrap();
    }
    assert_eq!(cache.directory.uses, [3, 2, 1, 0, 0, 0, 0, 0]);
    (cache, memory)
}

#[test]
fn each_policy_rewrites_its_frame() {
    for (policy, order, block) in [(LRU, [2, 0, 1], 2), (FIFO, [0, 1, 2], 0), (LFU, [2, 0, 1], 2)] {
        let (mut cache, mut memory) = three_frames(policy);
        assert_eq!(cache.directory.recency[..3], order);
        assert_eq!(write(&mut cache, &mut memory, 10), (7, Some(block)));
        assert_eq!(cache.directory.uses[block as usize], 1);
    }
}

#[test]
fn a_join_is_one_use_and_makes_recent_but_under_fifo() {
    for (policy, most_recent) in [(LRU, 0), (FIFO, 1), (LFU, 0)] {
        let (mut cache, mut memory) = opened(policy);
        let ways = [0, 2, 4, 1, 6].map(|n| write(&mut cache, &mut memory, n).0);
        assert_eq!((ways, cache.directory.valid[0]), ([3, 3, 5, 5, 4], 3));
        assert_eq!((&cache.directory.uses[..3], cache.directory.recency[2]), (&[2, 1, 0][..], most_recent));
    }
}

/// Under LFU equal uses go by recency; a step does not pass a worn block over, a write does, and names its frame where all are worn.
#[test]
fn fewest_uses_then_least_recent() {
    let (mut cache, mut memory) = three_frames(LFU);
    cache.read(&memory.lend(), 4, &mut [0]).unwrap();
    assert_eq!((&cache.directory.uses[..3], &cache.directory.recency[..3]), (&[3, 2, 2][..], &[0, 1, 2][..]));
    memory.wear[1] = 9;
    assert_eq!(cache.step(&mut memory.lend()), Err(Refusal::Worn(1)));
    assert_eq!(write(&mut cache, &mut memory, 10), (7, Some(2)));
    memory.wear.fill(9);
    assert_eq!(cache.write(&mut memory.lend(), 12, &[0]), Err(Refusal::Worn(3)));
}

#[test]
fn counts_are_held_and_end_with_the_frame() {
    let (mut cache, mut memory) = three_frames(LRU);
    cache.directory.uses[0] = u32::MAX;
    cache.read(&memory.lend(), 0, &mut [0]).unwrap();
    assert_eq!(cache.directory.uses[0], u32::MAX);
    cache.flush(&mut memory.lend()).unwrap();
    assert_eq!(cache.directory.uses, [0; 8]);
}
