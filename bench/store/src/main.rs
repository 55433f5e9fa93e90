//! The proved store beside a plain Rust one: first both must agree on random histories, then each call is timed at run-time sizes, the
//! sides in turn on the same records and buffers. Medians.
mod agree;
mod both;
mod cases;
mod catalogue;
mod cuts;
mod large;
mod numbers;
mod random;
mod rehearsals;
mod rows;
mod runs;
mod timing;

use clash::{Cache, Directory, Options, Sizes};
use random::Random;
use rows::{Bench, Row};

/// S, K, N, P, B and the wear limit.
const SIZES: [[u32; 6]; 3] = [[2048, 64, 64, 128, 8, 1_000_000], [256, 16, 256, 32, 4, 1_000_000], [16, 64, 4096, 128, 8, 1_000_000]];

/// One size at a time is changed from these.
const MIDDLE: [u32; 6] = [256, 16, 256, 32, 4, 1_000_000];

fn main() {
    let mut random = Random(88172645463325252);
    agree::agree(&mut random);
    large::agree(&mut random);
    runs::agree(&mut random);
    rehearsals::agree(&mut random);
    println!("Median ns for one call. The sides use the same buffers, which are filled before and not cleared between calls.");
    println!("Plain Rust changes the record in place; \"by value\" takes it and hands it back, as the proved calls do.");
    for sizes in SIZES {
        table(&mut random, sizes);
    }
    for sizes in &SIZES[..2] {
        coded(&mut random, *sizes);
    }
    for sizes in &SIZES[..2] {
        marked(&mut random, *sizes);
    }
    for sizes in &SIZES[..2] {
        for pages in [1, 8] {
            shelved(&mut random, *sizes, pages);
        }
    }
    looks(&mut random);
    println!("\nHow the cost grows from S=256 K=16 N=256 P=32 B=4: proved / plain in place");
    println!("{:8}{:>15}{:>15}{:>15}{:>15}{:>15}{:>15}", "", "soundness", "read 3", "write 3", "write 4", "write 7", "step");
    grow(&mut random, "P", 3, [8, 32, 128]);
    grow(&mut random, "K", 1, [4, 16, 64]);
    grow(&mut random, "S", 0, [16, 256, 2048]);
}

fn table(random: &mut Random, sizes: [u32; 6]) {
    let mut bench = Bench::new(random, Sizes::from(sizes), Options::default());
    head(sizes, "");
    line(bench.refused());
    line(bench.sound());
    (1..=3).for_each(|way| line(bench.read(way)));
    (1..=7).for_each(|way| line(bench.write(way)));
    line(bench.step());
    line(bench.flush());
    line(bench.report());
}

/// The calls that read or program flash, of a store with codes, all of which match.
fn coded(random: &mut Random, sizes: [u32; 6]) {
    let mut bench = Bench::new(random, Sizes::from(sizes), Options { coded: 1, ..Options::default() });
    head(sizes, ", coded");
    line(bench.read(3));
    line(bench.write(7));
    line(bench.step());
    line(bench.flush());
}

/// The calls that read or program flash, of a store with marks, all of them 0.
fn marked(random: &mut Random, sizes: [u32; 6]) {
    let mut bench = Bench::new(random, Sizes::from(sizes), Options { marked: 1, ..Options::default() });
    head(sizes, ", marked");
    line(bench.read(3));
    line(bench.write(7));
    line(bench.step());
    line(bench.flush());
}

/// Writes and taking back of a store whose shelf is full: a write moves all of it but a page down.
fn shelved(random: &mut Random, sizes: [u32; 6], pages: u32) {
    let mut bench = Bench::new(random, Sizes::from(sizes), Options { shelf_pages: pages, ..Options::default() });
    head(sizes, &format!(", shelf pages {pages}, all in use"));
    [1, 3, 7].into_iter().for_each(|way| line(bench.write(way)));
    [1, 3, 7].into_iter().for_each(|way| line(bench.take_back(way)));
}

/// Looks at a catalogue of 256 sheets, which is read whole each time.
fn looks(random: &mut Random) {
    for s in [32, 64, 256, 512, 1024, 2048] {
        let sizes = [s, 16, 64, 32, 4, 1_000_000];
        head(sizes, ", 256 sheets");
        catalogue::looks(random, Sizes::from(sizes), Options::default()).into_iter().for_each(line);
    }
    for s in [256, 2048] {
        let sizes = [s, 16, 64, 32, 4, 1_000_000];
        head(sizes, ", 256 sheets, coded");
        catalogue::looks(random, Sizes::from(sizes), Options { coded: 1, ..Options::default() }).into_iter().for_each(line);
    }
}

fn head([s, k, n, p, b, _]: [u32; 6], with: &str) {
    println!("\nS={s} K={k} N={n} P={p} B={b}{with}");
    println!("{:26}{:>10}{:>10}{:>8}{:>10}{:>8}", "call", "proved", "in place", "ratio", "by value", "ratio");
}

fn line(Row { name, times: t }: Row) {
    println!("{name:26}{:10.0}{:10.0}{:8.2}{:10.0}{:8.2}", t.proved, t.plain, t.proved / t.plain, t.by_value, t.proved / t.by_value);
}

fn grow(random: &mut Random, word: &str, which: usize, values: [u32; 3]) {
    for value in values {
        let mut sizes = MIDDLE;
        sizes[which] = value;
        let mut bench = Bench::new(random, Sizes::from(sizes), Options::default());
        let rows = [bench.sound(), bench.read(3), bench.write(3), bench.write(4), bench.write(7), bench.step()];
        let cells = rows.map(|row| format!("{:>15}", format!("{:.0} / {:.0}", row.times.proved, row.times.plain)));
        println!("{:8}{}", format!("{word}={value}"), cells.concat());
    }
}
