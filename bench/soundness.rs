// Times the proved soundness test, linked from the static library of the crate bench_sound, beside a plain Rust test. The proved one
// takes the record by value or is lent its directory, as in the store's calls; the other takes it by value or by reference. Both use a
// filter of 4,096 bits. First all must agree on sound and on spoilt records. The entries of the shelf are not in it: the calls look at them.
#[path = "store/src/numbers.rs"]
mod numbers;
#[allow(dead_code)]
#[path = "store/src/random.rs"]
mod random;
#[allow(dead_code)]
#[path = "plain/src/record.rs"]
mod record;
#[path = "plain/src/sound.rs"]
mod plain;

use numbers::{Numbers, Opening};
use random::Random;
use record::{Cache, Directory, Options, Sizes, VACANT};
use std::hint::black_box;
use std::time::Instant;

extern "C" {
    fn record_sound(r: Numbers) -> bool;
    fn directory_sound(opening: Opening, directory: &Directory) -> bool;
    fn lists_sound(opening: Opening, slots: &[u32; 128], frames: &[u32; 8], valid: &[u64; 8], recency: &[u8; 8], uses: &[u32; 8]) -> bool;
}

fn proved(r: Numbers) -> bool {
    unsafe { record_sound(r) }
}

fn lent(r: &Numbers) -> bool {
    unsafe { directory_sound(r.opening, &r.directory) }
}

fn lists(r: &Numbers) -> bool {
    let d = &r.directory;
    unsafe { lists_sound(r.opening, &d.slots, &d.frames, &d.valid, &d.recency, &d.uses) }
}

#[inline(never)]
fn by_value(r: Numbers) -> bool {
    plain::sound(&r.opening.sizes, &r.opening.options, &r.directory)
}

#[inline(never)]
fn by_reference(r: &Numbers) -> bool {
    plain::sound(&r.opening.sizes, &r.opening.options, &r.directory)
}

// A sound record, with every slot and frame that fits in use.
fn filled(random: &mut Random, sizes: Sizes) -> Numbers {
    let mut r = Numbers::from(Cache { sizes, ..Cache::blank() });
    for f in 0..sizes.frames as usize {
        r.directory.recency.swap(f, random.below(f as u32 + 1) as usize);
        let x = random.below(sizes.blocks);
        if !r.directory.frames.contains(&x) {
            r.directory.frames[f] = x;
            r.directory.valid[f] = (0..sizes.pages_per_block).fold(1, |v, o| v | (random.below(2) as u64) << o);
            r.directory.uses[f] = 1 + random.below(3);
        }
    }
    for j in 0..sizes.slots as usize {
        for _ in 0..100 {
            let mut next = r;
            next.directory.slots[j] = random.below(sizes.blocks * sizes.pages_per_block);
            if by_reference(&next) {
                r = next;
                break;
            }
        }
    }
    r
}

// One entry spoilt, perhaps.
fn spoilt(random: &mut Random, mut r: Numbers) -> Numbers {
    let (i, f, g) = (random.below(128) as usize, random.below(8) as usize, random.below(8) as usize);
    let (z, d) = (r.opening.sizes, &mut r.directory);
    match random.below(11) {
        0 => d.slots[i] = d.slots[random.below(128) as usize],
        1 => d.slots[i] = z.blocks * z.pages_per_block - random.below(2),
        2 => d.slots[i] = d.frames[f].wrapping_mul(z.pages_per_block).wrapping_add(random.below(64)),
        3 => d.frames[f] = d.frames[g],
        4 => d.frames[f] = z.blocks - random.below(2),
        5 => d.valid[f] = d.valid[g] & (random.below(2) as u64).wrapping_sub(1),
        6 => d.valid[f] = 1 << random.below(64),
        7 => d.recency[f] = random.below(10) as u8,
        8 => d.uses[f] = random.below(2),
        9 => r.opening.options = option(random),
        _ => d.slots[i] = VACANT,
    }
    r
}

// One of the four set, perhaps.
fn option(random: &mut Random) -> Options {
    let mut options = [0; 4];
    options[random.below(4) as usize] = random.below(3);
    Options::from(options)
}

fn agree(random: &mut Random) {
    let (mut all, mut unsound) = (0, 0);
    for _ in 0..200 {
        let sizes = Sizes {
            page_size: 1 + random.below(2048),
            pages_per_block: 2 + random.below(63),
            blocks: 1 + random.below(4096),
            slots: 1 + random.below(128),
            frames: 1 + random.below(8),
            wear_limit: 1 + random.below(1_000_000),
        };
        let r = filled(random, sizes);
        for _ in 0..500 {
            let next = spoilt(random, r);
            let answer = proved(next);
            assert_eq!(answer, lent(&next));
            assert_eq!(answer, lists(&next));
            assert_eq!(answer, by_value(next));
            assert_eq!(answer, by_reference(&next));
            all += 1;
            unsound += !answer as u32;
        }
    }
    println!("{all} records, {unsound} of them unsound: all five tests agree");
}

// The time of one call in nanoseconds.
fn batch(records: &[Numbers], mut test: impl FnMut(&Numbers) -> bool) -> f64 {
    let start = Instant::now();
    for _ in 0..32 {
        for r in records {
            assert!(test(black_box(r)));
        }
    }
    start.elapsed().as_nanos() as f64 / (32 * records.len()) as f64
}

fn measure(random: &mut Random, pages_per_block: u32, blocks: u32, slots: u32, frames: u32) {
    let sizes = black_box(Sizes { page_size: 2048, pages_per_block, blocks, slots, frames, wear_limit: 1000 });
    let records: Vec<Numbers> = (0..16).map(|_| filled(random, sizes)).collect();
    let mut best = [f64::MAX; 4];
    for _ in 0..1000 {
        best[0] = best[0].min(batch(&records, |r| proved(*r)));
        best[1] = best[1].min(batch(&records, |r| by_value(*r)));
        best[2] = best[2].min(batch(&records, lent));
        best[3] = best[3].min(batch(&records, by_reference));
    }
    println!(
        "K={pages_per_block} N={blocks} P={slots} B={frames}: by value {:.0} ns, Rust {:.0} ns, ratio {:.2}; lent {:.0} ns, Rust by reference {:.0} ns, ratio {:.2}",
        best[0], best[1], best[0] / best[1], best[2], best[3], best[2] / best[3]
    );
}

fn main() {
    let mut random = Random(88172645463325252);
    agree(&mut random);
    measure(&mut random, 64, 64, 128, 8);
    measure(&mut random, 64, 4096, 128, 8);
    measure(&mut random, 16, 256, 32, 4);
    measure(&mut random, 2, 3, 2, 1);
}
