// The proved page functions beside Rust's own, in one run: for each page size given as an argument, batches of both sides in
// turn on the same pages, and of each side the best batch. Both sides are called through a function that is not inlined.
use std::hint::black_box;
use std::time::Instant;

extern "C" {
    fn rt_copy_page(dst: *mut u8, dst_len: usize, di: usize, src: *const u8, src_len: usize, si: usize, s: usize);
    fn rt_copy_in_block(run: *mut u8, run_len: usize, f: usize, k: usize, o: usize, src: *const u8, src_len: usize, si: usize, s: usize);
    fn rt_exchange(x: *mut u8, x_len: usize, xi: usize, y: *mut u8, y_len: usize, yi: usize, s: usize);
    fn rt_fill_page(dst: *mut u8, dst_len: usize, di: usize, s: usize, b: u8);
}

const PAGES: usize = 8;
const PAGES_PER_BLOCK: usize = 4;
const CALLS: usize = 2000;
const SECONDS: f64 = 0.7;

#[inline(never)]
fn copy(dst: &mut [u8], di: usize, src: &[u8], si: usize, s: usize) {
    dst[di * s..di * s + s].copy_from_slice(&src[si * s..si * s + s]);
}

#[inline(never)]
fn copy_in_block(run: &mut [u8], f: usize, k: usize, o: usize, src: &[u8], si: usize, s: usize) {
    let block = &mut run[f * k * s..(f + 1) * k * s];
    block[o * s..o * s + s].copy_from_slice(&src[si * s..si * s + s]);
}

#[inline(never)]
fn exchange(x: &mut [u8], xi: usize, y: &mut [u8], yi: usize, s: usize) {
    x[xi * s..xi * s + s].swap_with_slice(&mut y[yi * s..yi * s + s]);
}

#[inline(never)]
fn fill(dst: &mut [u8], di: usize, s: usize, b: u8) {
    dst[di * s..di * s + s].fill(b);
}

// Two buffers of pages, each filled with bytes of its own.
struct Pages {
    s: usize,
    x: Vec<u8>,
    y: Vec<u8>,
}

fn pages(s: usize) -> Pages {
    let x = (0..PAGES * s).map(|i| (i * 7 + 1) as u8).collect();
    let y = (0..PAGES * s).map(|i| (i * 13 + 5) as u8).collect();
    Pages { s, x, y }
}

// Call number n goes to this page of x and this page of y.
fn indices(n: usize) -> (usize, usize) {
    (n * 3 % PAGES, n * 5 % PAGES)
}

type Call = fn(&mut Pages, usize);

fn copy_rust(p: &mut Pages, n: usize) {
    let (i, j) = indices(n);
    copy(&mut p.x, i, &p.y, j, p.s);
}

fn copy_proved(p: &mut Pages, n: usize) {
    let (i, j) = indices(n);
    unsafe { rt_copy_page(p.x.as_mut_ptr(), p.x.len(), i, p.y.as_ptr(), p.y.len(), j, p.s) }
}

fn block_rust(p: &mut Pages, n: usize) {
    let (i, j) = indices(n);
    copy_in_block(&mut p.x, i / PAGES_PER_BLOCK, black_box(PAGES_PER_BLOCK), i % PAGES_PER_BLOCK, &p.y, j, p.s);
}

fn block_proved(p: &mut Pages, n: usize) {
    let (i, j) = indices(n);
    let (f, k, o) = (i / PAGES_PER_BLOCK, black_box(PAGES_PER_BLOCK), i % PAGES_PER_BLOCK);
    unsafe { rt_copy_in_block(p.x.as_mut_ptr(), p.x.len(), f, k, o, p.y.as_ptr(), p.y.len(), j, p.s) }
}

fn exchange_rust(p: &mut Pages, n: usize) {
    let (i, j) = indices(n);
    exchange(&mut p.x, i, &mut p.y, j, p.s);
}

fn exchange_proved(p: &mut Pages, n: usize) {
    let (i, j) = indices(n);
    unsafe { rt_exchange(p.x.as_mut_ptr(), p.x.len(), i, p.y.as_mut_ptr(), p.y.len(), j, p.s) }
}

fn fill_rust(p: &mut Pages, n: usize) {
    let (i, j) = indices(n);
    fill(&mut p.x, i, p.s, j as u8);
}

fn fill_proved(p: &mut Pages, n: usize) {
    let (i, j) = indices(n);
    unsafe { rt_fill_page(p.x.as_mut_ptr(), p.x.len(), i, p.s, j as u8) }
}

// Nanoseconds for one call, over a batch of them.
#[inline(always)]
fn batch(call: impl Fn(&mut Pages, usize), p: &mut Pages) -> f64 {
    let start = Instant::now();
    for n in 0..CALLS {
        call(p, n);
    }
    start.elapsed().as_nanos() as f64 / CALLS as f64
}

// Both sides leave the same bytes.
fn agree(rust: Call, proved: Call, s: usize) {
    let (mut p, mut q) = (pages(s), pages(s));
    for n in 0..3 * PAGES {
        rust(&mut p, n);
        proved(&mut q, n);
        assert!(p.x == q.x && p.y == q.y);
    }
}

macro_rules! measure {
    ($name:expr, $rust:ident, $proved:ident, $s:expr) => {{
        agree($rust, $proved, $s);
        let mut p = pages($s);
        let (mut a, mut b) = (f64::MAX, f64::MAX);
        let start = Instant::now();
        while start.elapsed().as_secs_f64() < SECONDS {
            a = a.min(batch($rust, black_box(&mut p)));
            b = b.min(batch($proved, black_box(&mut p)));
        }
        println!("{:14} {:5} {:8.2} {:8.2} {:7.2}", $name, $s, a, b, b / a);
    }};
}

fn main() {
    println!("{:14} {:>5} {:>8} {:>8} {:>7}", "call", "S", "Rust ns", "here ns", "ratio");
    for word in std::env::args().skip(1) {
        let s: usize = word.parse().expect("a page size");
        measure!("copy_page", copy_rust, copy_proved, s);
        measure!("copy_in_block", block_rust, block_proved, s);
        measure!("exchange", exchange_rust, exchange_proved, s);
        measure!("fill_page", fill_rust, fill_proved, s);
    }
}
