//! Wear in whole figures (A14).
use crate::opened;
use plain::{Refusal, Report};

#[test]
fn one_erasure_more() {
    let (mut store, mut memory) = opened([1, 2, 4, 2, 1, 9], [0; 4]);
    memory.wear = vec![3, 9, 0, 4];
    let before = store.report(&memory.lend()).unwrap();
    assert_eq!(before, Report { total: 16, largest: 9, spread: 4 * 106 - 256 });
    store.write(&mut memory.lend(), 1, &[7]).unwrap();
    store.step(&mut memory.lend()).unwrap();
    let after = store.report(&memory.lend()).unwrap();
    assert_eq!(after.spread as i64 - before.spread as i64, 4 * (2 * 3 + 1) - (2 * 16 + 1));
}

#[test]
fn the_largest_figures_fit() {
    let (store, mut memory) = opened([1, 2, 4096, 1, 1, 1_000_000], [0; 4]);
    memory.wear[..2048].fill(1_000_000);
    let half = 2048 * 1_000_000;
    assert_eq!(store.report(&memory.lend()), Ok(Report { total: half, largest: 1_000_000, spread: half * half }));
    memory.wear.fill(1_000_000);
    assert_eq!(store.report(&memory.lend()).map(|report| report.spread), Ok(0));
}

#[test]
fn refusals() {
    let (store, mut memory) = opened([1, 2, 4, 2, 1, 9], [0; 4]);
    memory.wear[3] = 10;
    assert_eq!(store.report(&memory.lend()), Err(Refusal::Overworn));
    memory.wear = vec![u32::MAX; 4];
    assert_eq!(store.report(&memory.lend()), Err(Refusal::Overworn));
    memory.pspace.push(0);
    assert_eq!(store.report(&memory.lend()), Err(Refusal::Buffer));
    let mut store = store;
    store.0.directory.recency[0] = 1;
    assert_eq!(store.report(&memory.lend()), Err(Refusal::Record));
}
