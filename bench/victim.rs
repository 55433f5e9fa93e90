// Times the proved victim search, linked from the static library of the crate bench_victim, beside plain Rust searches: one that multiplies by
// reciprocals and one that divides. First all must agree, on records with all slots in use and on others.
#[path = "store/src/numbers.rs"]
mod numbers;
#[allow(dead_code)]
#[path = "store/src/random.rs"]
mod random;
#[allow(dead_code)]
#[path = "../rust/src/record.rs"]
mod record;

use numbers::Numbers;
use random::Random;
use record::{Cache, Directory, Options, Sizes, VACANT};
use std::hint::black_box;
use std::time::Instant;

#[repr(C)]
#[derive(Clone, Copy, Debug, PartialEq)]
struct Victim {
    block: u32,
    pages: u32,
}

extern "C" {
    fn record_victim(r: Numbers) -> Victim;
}

fn proved(r: Numbers) -> Victim {
    unsafe { record_victim(r) }
}

const fn reciprocals() -> [u32; 65] {
    let mut table = [0; 65];
    let mut k = 2;
    while k <= 64 {
        table[k] = u32::MAX / k as u32 + 1;
        k += 1;
    }
    table
}

const RECIPROCALS: [u32; 65] = reciprocals();

#[inline(never)]
fn by_value(r: Numbers) -> Victim {
    by_reference(&r)
}

#[inline(never)]
fn by_reference(r: &Numbers) -> Victim {
    let m = RECIPROCALS[r.opening.sizes.pages_per_block as usize] as u64;
    search(r, |n| (n as u64 * m >> 32) as u32)
}

#[inline(never)]
fn dividing(r: Numbers) -> Victim {
    search(&r, |n| n / r.opening.sizes.pages_per_block)
}

#[inline(always)]
fn search(r: &Numbers, block_of: impl Fn(u32) -> u32) -> Victim {
    let mut counts = [0u8; 4096];
    let (mut best, mut most) = (0, 0);
    for &n in &r.directory.slots[..r.opening.sizes.slots as usize] {
        if n == VACANT {
            continue;
        }
        let block = block_of(n);
        let count = &mut counts[block as usize];
        *count += 1;
        if *count > most || (*count == most && block < best) {
            (best, most) = (block, *count);
        }
    }
    Victim { block: best, pages: most as u32 }
}

// A sound record with no frame in use. Of 100 slots about `full` hold a page, any one that is not there yet.
fn filled(random: &mut Random, sizes: Sizes, full: u32) -> Numbers {
    let mut r = Numbers::from(Cache { sizes, ..Cache::blank() });
    for j in 0..sizes.slots as usize {
        let n = random.below(sizes.blocks * sizes.pages_per_block);
        if random.below(100) < full && !r.directory.slots.contains(&n) {
            r.directory.slots[j] = n;
        }
    }
    r
}

fn sizes(pages_per_block: u32, blocks: u32, slots: u32) -> Sizes {
    Sizes { page_size: 2048, pages_per_block, blocks, slots, frames: 8, wear_limit: 1000 }
}

fn agree(random: &mut Random) {
    let (mut all, mut none) = (0, 0);
    for _ in 0..100_000 {
        let (k, n, p) = (2 + random.below(63), 1 + random.below(4096) >> random.below(12), 1 + random.below(128));
        let full = 10 * random.below(11);
        let r = filled(random, sizes(k, n.max(1), p), full);
        let answer = proved(r);
        assert_eq!(answer, by_value(r));
        assert_eq!(answer, dividing(r));
        all += 1;
        none += (answer.pages == 0) as u32;
    }
    println!("{all} records, {none} of them with no page in a slot: all searches agree");
}

// Every page that a chip can have, alone in its slot. The product alone gives its block, so that the search never steps to another.
fn every_page() {
    for k in 2..=64 {
        let mut r = Numbers::from(Cache { sizes: sizes(k, 4096, 1), ..Cache::blank() });
        for n in 0..4096 * k {
            r.directory.slots[0] = n;
            assert_eq!(proved(r), Victim { block: n / k, pages: 1 });
            assert_eq!(by_reference(&r).block, n / k);
        }
    }
    println!("every page of 4,096 blocks, K = 2 to 64: the block that division gives");
}

// The time of one call in nanoseconds.
fn batch(records: &[Numbers], mut search: impl FnMut(&Numbers) -> Victim) -> f64 {
    let start = Instant::now();
    for _ in 0..8 {
        for r in records {
            black_box(search(black_box(r)));
        }
    }
    start.elapsed().as_nanos() as f64 / (8 * records.len()) as f64
}

fn median(mut times: Vec<f64>) -> f64 {
    times.sort_by(f64::total_cmp);
    times[times.len() / 2]
}

fn measure(random: &mut Random, pages_per_block: u32, blocks: u32, slots: u32) {
    let sizes = black_box(sizes(pages_per_block, blocks, slots));
    let records: Vec<Numbers> = (0..64).map(|_| filled(random, sizes, 100)).collect();
    let mut times = [vec![], vec![], vec![], vec![]];
    for _ in 0..1000 {
        times[0].push(batch(&records, |r| proved(*r)));
        times[1].push(batch(&records, |r| by_value(*r)));
        times[2].push(batch(&records, by_reference));
        times[3].push(batch(&records, |r| dividing(*r)));
    }
    let [a, b, c, d] = times.map(median);
    println!("K={pages_per_block:<2} N={blocks:<4} P={slots:<3}: proved {a:4.0} ns, Rust by value {b:4.0} ns, by reference {c:4.0} ns, dividing {d:4.0} ns; proved to by value {:.2}", a / b);
}

fn main() {
    let mut random = Random(88172645463325252);
    agree(&mut random);
    every_page();
    for (k, n) in [(64, 4096), (48, 4096), (64, 64), (3, 4096)] {
        for p in [8, 32, 128] {
            measure(&mut random, k, n, p);
        }
    }
}
