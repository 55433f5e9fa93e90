//! Both stores with calls that are cut off: the chip is the same after both, and whether the call was refused, stopped or done whole fits
//! with the ordinary call. What p-space, b-space and shelf hold then is free, and is not compared.
use crate::agree::{bytes, Call, Side, Tally};
use crate::both;
use crate::random::Random;
use clash::{Cache, Memory};
use plain::Refusal;

/// Cuts a call at some number of operations, on copies of the store.
pub fn agree(random: &mut Random, side: &Side, call: Call, tally: &mut Tally) {
    if matches!(call, Call::Read(_)) {
        return;
    }
    let operations = operations(random, side);
    let (mut proved, mut plain, mut whole) = (side.clone(), side.clone(), side.clone());
    let left = proved.cut(call, operations);
    let said = plain.cut_plain(call, operations);
    compare(side, [&proved, &plain], left, said, whole.proved(call).map(|_| &whole), operations);
    tally.cuts[match said {
        Ok(false) => 0,
        Ok(true) => 1,
        Err(_) => 2,
    }] += 1;
}

/// Mostly no more than two rewrites take.
pub fn operations(random: &mut Random, side: &Side) -> u32 {
    match random.one_in(8) {
        true => random.of(&[0, 1, 1000, u32::MAX]),
        false => random.below(2 * side.cache.sizes.pages_per_block.min(64) + 3),
    }
}

/// Both chips are alike; the record is lost; and the ordinary call says the same: a refusal, or by its erasures whether it needs more.
pub fn compare(
    before: &Side,
    [proved, plain]: [&Side; 2],
    left: Cache,
    said: Result<bool, Refusal>,
    ordinary: Result<&Side, Refusal>,
    operations: u32,
) {
    assert_eq!(left, Cache::blank());
    assert!(chip(&proved.memory) == chip(&plain.memory), "{operations} operations leave another chip");
    assert_eq!(said.map(|_| ()), ordinary.map(|_| ()));
    match (said, ordinary) {
        (Ok(is_whole), Ok(after)) => {
            let erased: u32 = after.memory.wear.iter().zip(&before.memory.wear).map(|(after, before)| after - before).sum();
            let needed = erased * (before.cache.sizes.pages_per_block + 1);
            assert_eq!(is_whole, needed <= operations);
            assert!(!is_whole || chip(&proved.memory) == chip(&after.memory), "a whole call leaves another chip than the ordinary one");
        }
        _ => assert!(chip(&proved.memory) == chip(&before.memory), "a refused call changes the chip"),
    }
}

fn chip(m: &Memory) -> (&[u8], &[u8], &[u8], &[u32]) {
    (&m.flash, &m.codes, &m.marks, &m.wear)
}

impl Side {
    pub fn cut(&mut self, call: Call, operations: u32) -> Cache {
        let (cache, lent, page) = (self.cache, &mut self.memory.lend(), &mut self.page);
        match call {
            Call::Flush => cache.cut_flush(lent, operations),
            Call::Step => cache.cut_step(lent, operations),
            Call::Write(n) => cache.cut_write(lent, n, page, operations),
            Call::Part { n, first, many } => cache.cut_part(lent, n, first, &bytes(first, many), page, operations),
            Call::TakeBack => cache.cut_take_back(lent, operations),
            Call::Read(_) => unreachable!("a read is not cut"),
        }
    }

    pub fn cut_plain(&mut self, call: Call, operations: u32) -> Result<bool, Refusal> {
        let (lent, page) = (&mut both::lent(self.memory.lend()), &mut self.page);
        let store = both::plain(self.cache);
        match call {
            Call::Flush => store.cut_flush(operations, lent),
            Call::Step => store.cut_step(operations, lent),
            Call::Write(n) => store.cut_write(operations, lent, n, page),
            Call::Part { n, first, many } => store.cut_part(operations, lent, n, first, &bytes(first, many), page),
            Call::TakeBack => store.cut_take_back(operations, lent),
            Call::Read(_) => unreachable!("a read is not cut"),
        }
    }
}
