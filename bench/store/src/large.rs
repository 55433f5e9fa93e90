//! Both stores at real sizes: pages to 2,048 bytes, blocks to 64 pages, more than 256 blocks, 128 slots and 8 frames. Each store has its own
//! buffers. After each call the answers, the records, the page buffers, wear, p-space, b-space and shelf must be equal, and flash, codes
//! and marks of the blocks that the call rewrote; all of them now and then. At the end a flush and a step are cut off, on copies.
use crate::agree::{reshelve, Call, Side, Tally};
use crate::both;
use crate::cuts;
use crate::random::Random;
use clash::{Memory, Options, Sizes};
use plain::codes;

/// The largest first: S, K, N, P, B, and coded. Every other one has marks.
const LARGEST: [([u32; 5], bool); 6] = [
    ([2048, 64, 257, 128, 8], false),
    ([2048, 64, 260, 128, 8], true),
    ([256, 64, 1024, 128, 8], true),
    ([512, 32, 1024, 128, 4], false),
    ([2048, 16, 300, 100, 1], true),
    ([16, 64, 4096, 128, 8], false),
];
const HISTORIES: usize = 40;
const CALLS: u32 = 2500;
/// How many bytes of flash a store of random sizes has at most.
const ROOM: u32 = 16 << 20;

pub fn agree(random: &mut Random) {
    let mut tally = Tally::default();
    for i in 0..HISTORIES {
        let (sizes, options) = sizes(random, i);
        history(random, &mut tally, sizes, options);
    }
    let Tally { calls, reads, writes, backs, mended, cuts, refused, .. } = tally;
    let [_, buffer, _, _, page, worn, unreadable, empty, .., torn] = refused;
    let met = [buffer, page, worn, unreadable, empty, torn, mended];
    assert!(reads.iter().chain(&writes).chain(&met).all(|&count| count > 40), "{reads:?} {writes:?} {met:?}");
    assert!(backs.iter().chain(&cuts).all(|&count| count > 0), "{backs:?} {cuts:?}");
    println!("{calls} calls in {HISTORIES} random histories at real sizes (N over 256, to S=2048, K=64, P=128, B=8): equal after each.");
    tally.say();
}

/// Sizes with more than 256 blocks, and options.
fn sizes(random: &mut Random, i: usize) -> (Sizes, Options) {
    let ([s, k, n, p, b], coded) = LARGEST.get(i).copied().unwrap_or_else(|| {
        let coded = random.one_in(2);
        let s = if coded { 256 * (1 + random.below(8)) } else { 1 + random.below(2048) };
        let k = 2 + random.below((ROOM / 257 / s).min(64) - 1);
        let n = 257 + random.below((ROOM / s / k).min(4096) - 256);
        ([s, k, n, 1 + random.below(128), 1 + random.below(8)], coded)
    });
    let limit = if random.one_in(2) { 1_000_000 } else { 4 + random.below(12) };
    let shelf_pages = if random.one_in(2) { 0 } else { 1 + random.below(8) };
    (Sizes::from([s, k, n, p, b, limit]), Options::from([random.below(3), coded as u32, shelf_pages, i as u32 % 2]))
}

fn history(random: &mut Random, tally: &mut Tally, sizes: Sizes, options: Options) {
    let mut proved = opened(random, sizes, options);
    let mut plain = proved.clone();
    let mut flips = Vec::new();
    let mut near = Near { last: 0, first: 0 };
    for i in 0..CALLS {
        if !proved.memory.codes.is_empty() && random.one_in(12) {
            disturb(random, near.last, &mut flips, &mut [&mut proved, &mut plain]);
        }
        if !proved.memory.marks.is_empty() && random.one_in(40) {
            tear(random, near.last, &mut [&mut proved, &mut plain]);
        }
        if random.one_in(8) {
            reshelve(random, &mut proved.cache);
            plain.cache = proved.cache;
        }
        let fill = random.below(256) as u8;
        proved.page.iter_mut().for_each(|byte| *byte = byte.wrapping_add(fill));
        plain.page.copy_from_slice(&proved.page);
        let call = near.call(random, &sizes);
        let before = proved.memory.wear.clone();
        let answer = proved.proved(call);
        assert_eq!(answer, plain.plain(call), "{call:?} at {sizes:?}, {options:?}");
        assert!(alike(&proved, &plain, &before), "{call:?} at {sizes:?}, {options:?} leaves another record or other bytes");
        if i % 400 == 399 {
            assert!(proved == plain, "{sizes:?}, {options:?}");
        }
        tally.count(call, answer);
    }
    cuts::agree(random, &proved, Call::Flush, tally);
    cuts::agree(random, &proved, Call::Step, tally);
}

/// A store on random flash, of which all codes match; the plain one opens alike.
fn opened(random: &mut Random, sizes: Sizes, options: Options) -> Side {
    let mut memory = Memory::with_options(&sizes, &options);
    memory.flash = random.bytes(memory.flash.len());
    memory.shelf = random.bytes(memory.shelf.len());
    codes::encode(&mut memory.codes, &memory.flash);
    let [proved, plain] = both::opened(sizes, options, &mut memory);
    assert_eq!(proved, plain);
    Side { cache: proved.expect("sizes within limits").cache, memory, page: random.bytes(sizes.page_size as usize) }
}

/// All that a call can change, but of flash, codes and marks the blocks alone that it rewrote.
fn alike(a: &Side, b: &Side, wear: &[u32]) -> bool {
    let (m, o) = (&a.memory, &b.memory);
    let cached = m.pspace == o.pspace && m.bspace == o.bspace && m.wear == o.wear && m.shelf == o.shelf;
    let blocks = wear.len();
    let block = |bytes: &[u8], b: usize| bytes[bytes.len() / blocks * b..bytes.len() / blocks * (b + 1)].to_vec();
    let of_chip = [(&m.flash, &o.flash), (&m.codes, &o.codes), (&m.marks, &o.marks)];
    let rewritten = |b: usize| m.wear[b] == wear[b] || of_chip.iter().all(|(m, o)| block(m, b) == block(o, b));
    a.cache == b.cache && a.page == b.page && cached && (0..blocks).all(rewritten)
}

/// A page near page n becomes torn in both stores, or all are whole again.
fn tear(random: &mut Random, n: u32, sides: &mut [&mut Side; 2]) {
    let page = ((n + random.below(64)) % sides[0].cache.sizes.pages()) as usize;
    let is_whole = random.one_in(3);
    for side in sides.iter_mut() {
        match is_whole {
            true => side.memory.marks.fill(0),
            false => side.memory.marks[page] = 255,
        }
    }
}

/// Flips a bit near page n in both stores, now and then two of one byte, or computes the codes of the pages anew in which bits were flipped.
fn disturb(random: &mut Random, n: u32, flips: &mut Vec<usize>, sides: &mut [&mut Side; 2]) {
    let s = sides[0].cache.sizes.page_size as usize;
    if random.one_in(10) {
        for page in flips.drain(..) {
            for side in sides.iter_mut() {
                let m = &mut side.memory;
                codes::encode(&mut m.codes[page * (s / 256 * 3)..][..s / 256 * 3], &m.flash[page * s..][..s]);
            }
        }
        return;
    }
    let page = ((n + random.below(4)) % sides[0].cache.sizes.pages()) as usize;
    let (at, bit) = (random.below(s as u32 + 24) as usize, 1 << random.below(8));
    let bit = if random.one_in(6) { 3 } else { bit };
    for side in sides.iter_mut() {
        let m = &mut side.memory;
        match at < s {
            true => m.flash[page * s + at] ^= bit,
            false => m.codes[page * (s / 256 * 3) + at % (s / 256 * 3)] ^= bit,
        }
    }
    flips.push(page);
}

/// Pages are asked for in runs, near one another, and anywhere.
struct Near {
    last: u32,
    first: u32,
}

impl Near {
    fn call(&mut self, random: &mut Random, sizes: &Sizes) -> Call {
        let pages = sizes.pages();
        if random.one_in(300) {
            self.first = random.below(pages);
        }
        self.last = match random.below(8) {
            0..=3 => (self.last + 1) % pages,
            4..=6 => (self.first + random.below(24 * sizes.pages_per_block)) % pages,
            _ => random.below(pages),
        };
        let n = if random.one_in(100) { pages + random.below(3) } else { self.last };
        match random.below(160) {
            0 => Call::Flush,
            1..=3 => Call::Step,
            4..=40 => Call::Read(n),
            41..=80 => {
                let first = random.below(sizes.page_size + 1);
                let many = random.of(&[0, 1, 40, sizes.page_size - first.min(sizes.page_size), sizes.page_size]);
                Call::Part { n, first, many: many as usize }
            }
            81..=92 => Call::TakeBack,
            _ => Call::Write(n),
        }
    }
}

#[cfg(test)]
mod tests {
    #[test]
    fn both_stores_agree_at_real_sizes() {
        super::agree(&mut super::Random(3));
    }
}
