//! The calls to time: records taken from a long random history of writes, each with a page for which the call goes the way wanted.
use crate::both;
use crate::random::Random;
use clash::{Cache, Options, Sizes, VACANT};
use plain::{Answer, Memory, Plain};

/// So many for each way.
pub const CASES: usize = 32;

/// A record of one side or the other, and the page.
#[derive(Clone, Copy)]
pub struct Case<R = Cache> {
    pub record: R,
    pub n: u32,
}

/// The cases by the way of a read and of a write. Those of a write's way 7 have every slot and frame in use: they serve for a step, a
/// flush and the soundness test too.
pub struct Cases {
    pub reads: [Vec<Case>; 3],
    pub writes: [Vec<Case>; 7],
}

pub fn cases(random: &mut Random, sizes: Sizes, options: Options) -> Cases {
    let writes = writes(random, sizes, options);
    let full: Vec<Cache> = writes[6].iter().map(|case| case.record).collect();
    let mut pick =
        |page: fn(&mut Random, &Cache) -> u32| full.iter().map(|&cache| Case { record: cache, n: page(random, &cache) }).collect();
    let reads = [pick(page_in_slot), pick(page_in_frame), pick(page_in_flash)];
    Cases { reads, writes }
}

/// A history with pages of one byte and no options: how long pages are and whether they have codes changes nothing else in the record. A
/// shelf is full, and each of its entries is the page: a write lets one leave, and taking back goes the way of the write.
fn writes(random: &mut Random, sizes: Sizes, options: Options) -> [Vec<Case>; 7] {
    let (small, none) = (both::sizes(Sizes { page_size: 1, ..sizes }), plain::Options::default());
    let mut memory = Memory::new(&small, &none);
    let mut store = Plain::open(small, none, &memory.lend()).expect("sizes within limits");
    let mut hot: Vec<u32> = (0..2 * sizes.frames + 8).map(|_| random.below(sizes.blocks)).collect();
    let mut found: [Vec<Case>; 7] = Default::default();
    for i in 0.. {
        let n = page(random, &sizes, &mut hot);
        let before = both::proved(store);
        if let Ok(Answer::Write { way, .. }) = store.write(&mut memory.lend(), n, &[0]) {
            let list = &mut found[way as usize - 1];
            if i > 2000 && list.len() < CASES && random.one_in(8) {
                let entries = std::array::from_fn(|i| if i < options.shelf_pages as usize { n } else { VACANT });
                list.push(Case { record: Cache { sizes, options, entries, ..before }, n });
            }
        }
        if random.one_in(60) {
            store.step(&mut memory.lend()).expect("no block is worn");
        }
        memory.wear.fill(0);
        if found.iter().all(|list| list.len() == CASES) {
            break;
        }
        assert!(i < 2_000_000, "some way hardly occurs: {:?}", found.map(|list| list.len()));
    }
    found
}

/// Three in four pages are of a few blocks that change slowly.
fn page(random: &mut Random, sizes: &Sizes, hot: &mut [u32]) -> u32 {
    if random.one_in(400) {
        hot[random.below(hot.len() as u32) as usize] = random.below(sizes.blocks);
    }
    let block = if random.one_in(4) { random.below(sizes.blocks) } else { random.of(hot) };
    block * sizes.pages_per_block + random.below(sizes.pages_per_block)
}

fn page_in_slot(random: &mut Random, c: &Cache) -> u32 {
    random.of(&c.directory.slots[..c.sizes.slots as usize])
}

fn page_in_frame(random: &mut Random, c: &Cache) -> u32 {
    let f = random.below(c.sizes.frames) as usize;
    let offsets: Vec<u32> = (0..64).filter(|o| c.directory.valid[f] >> o & 1 == 1).collect();
    c.directory.frames[f] * c.sizes.pages_per_block + random.of(&offsets)
}

fn page_in_flash(random: &mut Random, c: &Cache) -> u32 {
    loop {
        let n = random.below(c.sizes.pages());
        let block = n / c.sizes.pages_per_block;
        if n != VACANT && !c.directory.slots.contains(&n) && !c.directory.frames.contains(&block) {
            return n;
        }
    }
}
