//! The wear in whole figures (request A14): total, largest and spread, what an erasure does to them, and the order of the refusals.
use clash::{Answer, Cache, Memory, Options, Refusal, Report, Sizes, Store};

fn opened(wear: Vec<u32>, limit: u32) -> (Store, Memory) {
    let sizes = Sizes::from([1, 2, wear.len() as u32, 2, 1, limit]);
    let mut memory = Memory::new(&sizes);
    memory.wear = wear;
    let store = Store::open(sizes, Options::default(), &memory.lend()).unwrap();
    (store, memory)
}

/// The figures in whole numbers.
fn figures(wear: &[u32]) -> Report {
    let (total, squares) = wear.iter().fold((0u128, 0u128), |(t, q), &w| (t + w as u128, q + w as u128 * w as u128));
    let spread = wear.len() as u128 * squares - total * total;
    Report { total: total as u64, largest: wear.iter().copied().max().unwrap(), spread: spread.try_into().expect("64 bits are enough") }
}

#[test]
fn figures_of_some_chips() {
    for (wear, total, largest, spread) in [
        (vec![0], 0, 0, 0),
        (vec![7], 7, 7, 0),
        (vec![5; 300], 1500, 5, 0),
        (vec![0, 1], 1, 1, 1),
        (vec![4, 0, 2], 6, 4, 24),
        (vec![1, 2, 3, 4], 10, 4, 20),
    ] {
        let (store, mut memory) = opened(wear, 9);
        let before = memory.clone();
        assert_eq!(store.report(&memory.lend()), Ok(Report { total, largest, spread }));
        assert_eq!(memory, before);
    }
}

/// The largest figures: half of 4,096 blocks at 1,000,000 erasures.
#[test]
fn the_widest_spread() {
    let wear: Vec<u32> = (0..4096).map(|b| if b % 2 == 0 { 0 } else { 1_000_000 }).collect();
    let (store, mut memory) = opened(wear.clone(), 1_000_000);
    let report = store.report(&memory.lend()).unwrap();
    assert_eq!((report, report.spread), (figures(&wear), 2048 * 2048 * 1_000_000_000_000));
    let all = vec![1_000_000; 4096];
    let (store, mut memory) = opened(all.clone(), 1_000_000);
    assert_eq!(store.report(&memory.lend()), Ok(figures(&all)));
}

/// Lists of every length, so that no pass over them leaves some out.
#[test]
fn figures_of_many_lists() {
    let mut state = 1u32;
    for blocks in (1..140).chain([255, 256, 257, 1000, 4095, 4096]) {
        let wear: Vec<u32> = (0..blocks)
            .map(|_| {
                state = state.wrapping_mul(1_664_525).wrapping_add(1_013_904_223);
                (state >> 8) % 1_000_001
            })
            .collect();
        let (store, mut memory) = opened(wear.clone(), 1_000_000);
        assert_eq!(store.report(&memory.lend()), Ok(figures(&wear)), "{blocks} blocks");
    }
}

/// One more erasure of a block with wear c changes the spread by N (2c + 1) - (2T + 1); a call that erases nothing leaves the report.
#[test]
fn an_erasure() {
    let (mut store, mut memory) = opened(vec![4, 0, 7, 7, 1], 1_000_000);
    let mut before = store.report(&memory.lend()).unwrap();
    let (mut state, mut erasures) = (5u32, 0);
    for _ in 0..600 {
        state = state.wrapping_mul(1_664_525).wrapping_add(1_013_904_223);
        let wear = memory.wear.clone();
        let answer = match state >> 30 {
            0 => store.step(&mut memory.lend()),
            1 => store.read(&memory.lend(), (state >> 8) % 10, &mut [0]),
            _ => store.write(&mut memory.lend(), (state >> 8) % 10, &[1]),
        };
        let after = store.report(&memory.lend()).unwrap();
        let erased = match answer.unwrap() {
            Answer::Step { block, .. } => Some(block),
            Answer::Write { erased, .. } => erased,
            _ => None,
        };
        let change = after.spread as i128 - before.spread as i128;
        match erased {
            None => assert_eq!(after, before),
            Some(block) => {
                let (n, c, total) = (5, wear[block as usize] as i128, before.total as i128);
                assert_eq!((change, after.total), (n * (2 * c + 1) - (2 * total + 1), before.total + 1));
                assert!(change.abs() <= n * (2 * before.largest as i128 + 1));
                erasures += 1;
            }
        }
        before = after;
    }
    assert!(erasures > 100);
}

/// 4, then 2, then 3 where an entry is above the limit; one at the limit is reported.
#[test]
fn refusals() {
    let (store, mut memory) = opened(vec![9, 0, 9], 9);
    assert_eq!(store.report(&memory.lend()), Ok(Report { total: 18, largest: 9, spread: 3 * 162 - 18 * 18 }));
    memory.wear[1] = 10;
    let cache = *store.record();
    assert_eq!(cache.report(&memory.lend()), Err(Refusal::Overworn));
    memory.wear[1] = u32::MAX;
    assert_eq!(cache.report(&memory.lend()), Err(Refusal::Overworn));
    let spoils: [fn(&mut Memory); 7] = [
        |m| m.flash.push(0),
        |m| m.codes.push(0),
        |m| m.marks.push(0),
        |m| m.wear.push(0),
        |m| m.pspace.push(0),
        |m| m.bspace.push(0),
        |m| m.shelf.push(0),
    ];
    for spoil in spoils {
        let mut memory = memory.clone();
        spoil(&mut memory);
        assert_eq!(cache.report(&memory.lend()), Err(Refusal::Buffer));
        for cache in [Cache::blank(), Cache { entries: [0; 8], ..cache }] {
            assert_eq!(cache.report(&memory.lend()), Err(Refusal::Record));
        }
    }
}

/// With all options, and something cached and on the shelf.
#[test]
fn options() {
    let sizes = Sizes::from([256, 2, 3, 2, 1, 9]);
    let options = Options { policy: 2, coded: 1, shelf_pages: 3, marked: 1 };
    let mut memory = Memory::with_options(&sizes, &options);
    let mut store = Store::open(sizes, options, &memory.lend()).unwrap();
    for n in 0..4 {
        store.write(&mut memory.lend(), n, &[n as u8; 256]).unwrap();
    }
    let before = (*store.record(), memory.clone());
    assert_eq!(store.report(&memory.lend()), Ok(figures(&memory.wear)));
    assert_eq!((*store.record(), memory), before);
}
