// Times the proved figures of a list of wear, linked from the static library of the crate bench_wear, beside plain Rust: one pass without a
// branch, and one that leaves at the first entry above the limit. First all must agree, on lists with such an entry and without.
#[allow(dead_code)]
#[path = "store/src/random.rs"]
mod random;

use random::Random;
use std::hint::black_box;
use std::time::Instant;

#[repr(C)]
#[derive(Clone, Copy, Debug, PartialEq)]
struct Figures {
    accepted: u32,
    largest: u32,
    total: u64,
    spread: u64,
}

const REFUSED: Figures = Figures { accepted: 0, largest: 0, total: 0, spread: 0 };

extern "C" {
    fn wear_figures(wear: *const u32, length: usize, limit: u32) -> Figures;
}

fn proved(wear: &[u32], limit: u32) -> Figures {
    assert!(wear.len() <= 4096 && limit <= 1_000_000);
    unsafe { wear_figures(wear.as_ptr(), wear.len(), limit) }
}

#[inline(never)]
fn plain(wear: &[u32], limit: u32) -> Figures {
    let (mut total, mut squares, mut largest) = (0, 0u64, 0);
    for &worn in wear {
        total += worn as u64;
        // wraps only where an entry is above the limit
        squares = squares.wrapping_add(worn as u64 * worn as u64);
        largest = largest.max(worn);
    }
    if largest > limit {
        return REFUSED;
    }
    Figures { accepted: 1, largest, total, spread: wear.len() as u64 * squares - total * total }
}

#[inline(never)]
fn leaving(wear: &[u32], limit: u32) -> Figures {
    let (mut total, mut squares, mut largest) = (0, 0, 0);
    for &worn in wear {
        if worn > limit {
            return REFUSED;
        }
        total += worn as u64;
        squares += worn as u64 * worn as u64;
        largest = largest.max(worn);
    }
    Figures { accepted: 1, largest, total, spread: wear.len() as u64 * squares - total * total }
}

fn agree(random: &mut Random) {
    let (mut all, mut refused) = (0, 0);
    for _ in 0..20_000 {
        let blocks = random.below(4097) >> random.below(12);
        let limit = 1 + random.below(1_000_000);
        let mut wear: Vec<u32> = (0..blocks).map(|_| random.below(limit + 1)).collect();
        if blocks > 0 && random.below(4) == 0 {
            let b = random.below(blocks) as usize;
            wear[b] = [limit, limit + 1, u32::MAX][random.below(3) as usize];
        }
        let answer = proved(&wear, limit);
        assert_eq!(answer, plain(&wear, limit));
        assert_eq!(answer, leaving(&wear, limit));
        all += 1;
        refused += 1 - answer.accepted;
    }
    let worst = [1_000_000; 4096];
    assert_eq!(proved(&worst, 1_000_000), plain(&worst, 1_000_000));
    assert_eq!(proved(&[u32::MAX; 4096], 1_000_000), REFUSED);
    println!("{all} lists, {refused} of them refused: all agree");
}

// The time of one call in nanoseconds.
fn batch(wear: &[u32], figures: impl Fn(&[u32], u32) -> Figures) -> f64 {
    let start = Instant::now();
    for _ in 0..64 {
        black_box(figures(black_box(wear), black_box(1_000_000)));
    }
    start.elapsed().as_nanos() as f64 / 64.0
}

fn median(mut times: Vec<f64>) -> f64 {
    times.sort_by(f64::total_cmp);
    times[times.len() / 2]
}

fn main() {
    let mut random = Random(88172645463325252);
    agree(&mut random);
    for blocks in [16, 256, 4096] {
        let wear: Vec<u32> = (0..blocks).map(|_| random.below(1_000_001)).collect();
        let mut times = [vec![], vec![], vec![]];
        for _ in 0..1000 {
            times[0].push(batch(&wear, proved));
            times[1].push(batch(&wear, plain));
            times[2].push(batch(&wear, leaving));
        }
        let [a, b, c] = times.map(median);
        println!("N={blocks:<4}: proved {a:5.0} ns, Rust {b:5.0} ns, leaving early {c:5.0} ns; proved to Rust {:.2}", a / b);
    }
}
