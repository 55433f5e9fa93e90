// The proved page codes beside plain Rust by words of 64 bits (plain/src/codes.rs), in one run: for each page size given as an argument,
// batches of both sides in turn on the same pages, and of each side the best batch. Both sides are called through a function that is not
// inlined. Before that, both sides are compared on pages with no, one and several flipped bits.
#[path = "plain/src/codes.rs"]
mod codes;

use std::hint::black_box;
use std::time::Instant;

extern "C" {
    fn rt_encode_page(codes: *mut u8, codes_len: usize, flash: *const u8, flash_len: usize, n: usize, m: usize);
    fn rt_check_page(flash: *const u8, flash_len: usize, codes: *const u8, codes_len: usize, n: usize, m: usize) -> usize;
    fn rt_decode_page(
        dst: *mut u8, dst_len: usize, i: usize, flash: *const u8, flash_len: usize, codes: *const u8, codes_len: usize, n: usize, m: usize,
    ) -> usize;
}

const PAGES: usize = 8;
const CALLS: usize = 500;
const SECONDS: f64 = 0.7;
const UNREADABLE: usize = 4294967295;

#[inline(never)]
fn encode(codes: &mut [u8], flash: &[u8], n: usize, m: usize) {
    codes::encode(&mut codes[n * m * 3..(n + 1) * m * 3], &flash[n * m * 256..(n + 1) * m * 256]);
}

#[inline(never)]
fn check(flash: &[u8], codes: &[u8], n: usize, m: usize) -> usize {
    mends(&flash[n * m * 256..(n + 1) * m * 256], &codes[n * m * 3..(n + 1) * m * 3])
}

#[inline(always)]
fn mends(page: &[u8], codes: &[u8]) -> usize {
    codes::mends(page, codes).map_or(UNREADABLE, |n| n as usize)
}

#[inline(never)]
fn decode(dst: &mut [u8], i: usize, flash: &[u8], codes: &[u8], n: usize, m: usize) -> usize {
    let (page, codes) = (&flash[n * m * 256..(n + 1) * m * 256], &codes[n * m * 3..(n + 1) * m * 3]);
    let found = mends(page, codes);
    if found == UNREADABLE {
        return found;
    }
    let out = &mut dst[i * m * 256..(i + 1) * m * 256];
    out.copy_from_slice(page);
    if found > 0 {
        codes::mend(out, codes);
    }
    found
}

// Pages with their codes, and a buffer of pages to read into.
struct Chip {
    m: usize,
    flash: Vec<u8>,
    codes: Vec<u8>,
    out: Vec<u8>,
    answer: usize,
}

// A sequence of numbers that look like chance.
fn random(state: &mut u64) -> usize {
    *state ^= *state << 13;
    *state ^= *state >> 7;
    *state ^= *state << 17;
    *state as usize
}

fn chip(m: usize, state: &mut u64) -> Chip {
    let flash: Vec<u8> = (0..PAGES * m * 256).map(|_| random(state) as u8).collect();
    let mut codes = vec![0; PAGES * m * 3];
    for n in 0..PAGES {
        encode(&mut codes, &flash, n, m);
    }
    Chip { m, out: vec![7; flash.len()], flash, codes, answer: 0 }
}

// Flips a bit of page n or of its codes.
fn flip(c: &mut Chip, n: usize, bit: usize) {
    let data = c.m * 2048;
    let bit = bit % (data + c.m * 24);
    if bit < data {
        c.flash[n * c.m * 256 + bit / 8] ^= 1 << (bit % 8);
    } else {
        c.codes[n * c.m * 3 + (bit - data) / 8] ^= 1 << ((bit - data) % 8);
    }
}

type Call = fn(&mut Chip, usize);

fn encode_rust(c: &mut Chip, n: usize) {
    encode(&mut c.codes, &c.flash, n % PAGES, c.m);
}

fn encode_proved(c: &mut Chip, n: usize) {
    unsafe { rt_encode_page(c.codes.as_mut_ptr(), c.codes.len(), c.flash.as_ptr(), c.flash.len(), n % PAGES, c.m) }
}

fn check_rust(c: &mut Chip, n: usize) {
    c.answer = check(&c.flash, &c.codes, n % PAGES, c.m);
}

fn check_proved(c: &mut Chip, n: usize) {
    c.answer = unsafe { rt_check_page(c.flash.as_ptr(), c.flash.len(), c.codes.as_ptr(), c.codes.len(), n % PAGES, c.m) };
}

fn decode_rust(c: &mut Chip, n: usize) {
    c.answer = decode(&mut c.out, n * 3 % PAGES, &c.flash, &c.codes, n % PAGES, c.m);
}

fn decode_proved(c: &mut Chip, n: usize) {
    let (out, flash, codes) = (&mut c.out, &c.flash, &c.codes);
    let (i, n) = (n * 3 % PAGES, n % PAGES);
    c.answer = unsafe { rt_decode_page(out.as_mut_ptr(), out.len(), i, flash.as_ptr(), flash.len(), codes.as_ptr(), codes.len(), n, c.m) };
}

// Both sides give the same: of pages with all single flips of the first, and with 2 to 4 flips.
fn agree(m: usize) {
    let mut state = 12345;
    let same = |c: &mut Chip, n: usize| {
        let sides: [[Call; 2]; 2] = [[check_rust, check_proved], [decode_rust, decode_proved]];
        for [rust, proved] in sides {
            c.out.fill(7);
            rust(c, n);
            let (answer, out) = (c.answer, c.out.clone());
            c.out.fill(7);
            proved(c, n);
            assert!(answer == c.answer && out == c.out);
        }
        c.answer
    };
    let mut c = chip(m, &mut state);
    let codes = c.codes.clone();
    (0..PAGES).for_each(|n| encode_proved(&mut c, n));
    assert!(codes == c.codes);
    let page = c.flash[..m * 256].to_vec();
    assert!(same(&mut c, 0) == 0);
    for bit in 0..m * 2072 {
        flip(&mut c, 0, bit);
        assert!(same(&mut c, 0) == 1 && c.out[..m * 256] == page);
        flip(&mut c, 0, bit);
    }
    let mut unreadable = 0;
    for n in 0..2000 {
        let mut c = chip(m, &mut state);
        for _ in 0..2 + n % 3 {
            flip(&mut c, 0, random(&mut state));
        }
        unreadable += (same(&mut c, 0) == UNREADABLE) as usize;
    }
    println!("S = {}: {} single flips mended, 2000 pages with more alike, {unreadable} of them unreadable", m * 256, m * 2072);
}

// Nanoseconds for one call, over a batch of them.
#[inline(always)]
fn batch(call: impl Fn(&mut Chip, usize), c: &mut Chip) -> f64 {
    let start = Instant::now();
    for n in 0..CALLS {
        call(c, n);
    }
    start.elapsed().as_nanos() as f64 / CALLS as f64
}

macro_rules! measure {
    ($name:expr, $rust:ident, $proved:ident, $c:expr) => {{
        let c = $c;
        let (mut a, mut b) = (f64::MAX, f64::MAX);
        let start = Instant::now();
        while start.elapsed().as_secs_f64() < SECONDS {
            a = a.min(batch($rust, black_box(c)));
            b = b.min(batch($proved, black_box(c)));
        }
        println!("{:14} {:5} {:8.2} {:8.2} {:7.2}", $name, c.m * 256, a, b, b / a);
    }};
}

fn main() {
    let sizes: Vec<usize> = std::env::args().skip(1).map(|w| w.parse().expect("a page size")).collect();
    sizes.iter().for_each(|s| agree(s / 256));
    println!("{:14} {:>5} {:>8} {:>8} {:>7}", "call", "S", "Rust ns", "here ns", "ratio");
    for s in sizes {
        let mut c = chip(s / 256, &mut 54321);
        measure!("codes", encode_rust, encode_proved, &mut c);
        measure!("check", check_rust, check_proved, &mut c);
        measure!("read", decode_rust, decode_proved, &mut c);
        (0..PAGES).for_each(|n| flip(&mut c, n, 77 * 8 + n));
        measure!("read, one mend", decode_rust, decode_proved, &mut c);
    }
}
