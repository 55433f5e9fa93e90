//! Both stores on the same random histories: after each call the answers, the records, all buffers and the page must be equal. Some
//! openings get a size or an option that is refused, some calls a record with an entry spoilt, a buffer of another length or a page that
//! is not there. Of coded stores bits of flash and codes flip between the calls, and of marked ones pages become torn and whole. Half of
//! the stores have 1 to 8 shelf pages. Some calls are cut off first, on copies. Now and then both report the wear.
use crate::both;
use crate::cuts;
use crate::random::Random;
use clash::{Cache, Memory, Options, Sizes, VACANT};
use plain::{codes, Answer, Said};

const HISTORIES: u32 = 1000;
const CALLS: u32 = 400;

/// One store with all that it is lent.
#[derive(Clone, PartialEq, Debug)]
pub struct Side {
    pub cache: Cache,
    pub memory: Memory,
    pub page: Vec<u8>,
}

/// What occurred, so that it can be said what was compared.
#[derive(Default)]
pub struct Tally {
    pub calls: u32,
    pub reads: [u32; 3],
    pub writes: [u32; 8],
    /// of taking back, by way from 1
    pub backs: [u32; 7],
    pub rewrites: u32,
    pub mended: u32,
    /// openings that find torn blocks
    pub torn: u32,
    /// cut calls that were stopped, that were done whole, and that were refused
    pub cuts: [u32; 3],
    pub reports: u32,
    pub refused: [u32; 14],
}

pub fn agree(random: &mut Random) {
    let mut tally = Tally::default();
    for _ in 0..HISTORIES {
        history(random, &mut tally);
    }
    let Tally { calls, reads, writes, backs, mended, torn, cuts, reports, refused, .. } = tally;
    let of_the_store = refused[..8].iter().chain(&refused[13..]);
    let met = reads.iter().chain(&writes).chain(&backs).chain(&cuts).chain(of_the_store).chain([&mended, &torn, &reports]);
    assert!(met.copied().all(|count| count > 40), "{reads:?} {writes:?} {backs:?} {cuts:?} {refused:?} {mended} {torn} {reports}");
    println!("{calls} calls in {HISTORIES} random histories: answers, records and buffers of both stores are equal after each.");
    tally.say();
}

fn history(random: &mut Random, tally: &mut Tally) {
    let Some(mut proved) = opened(random, tally) else { return };
    for _ in 0..CALLS {
        if random.one_in(8) {
            disturb(random, &mut proved.memory);
            reshelve(random, &mut proved.cache);
        }
        let before = random.one_in(30).then(|| proved.clone());
        if before.is_some() {
            spoil(random, &mut proved);
        }
        proved.page.iter_mut().enumerate().for_each(|(i, byte)| *byte = byte.wrapping_add((i * 3 + 1) as u8));
        let call = call(random, &proved.cache.sizes);
        if random.one_in(4) {
            cuts::agree(random, &proved, call, tally);
        }
        if random.one_in(8) {
            report(random, &mut proved, tally);
        }
        let mut plain = proved.clone();
        let answer = proved.proved(call);
        assert_eq!(answer, plain.plain(call), "{call:?}");
        assert!(proved == plain, "{call:?} leaves another record or other bytes");
        tally.count(call, answer);
        proved = before.unwrap_or(proved);
    }
}

/// The reports of both, perhaps with an entry above the wear limit.
fn report(random: &mut Random, side: &mut Side, tally: &mut Tally) {
    let before = side.memory.wear[0];
    if random.one_in(6) {
        side.memory.wear[0] = random.of(&[side.cache.sizes.wear_limit, side.cache.sizes.wear_limit.wrapping_add(1), u32::MAX]);
    }
    let said = side.cache.report(&side.memory.lend()).map(both::report).map_err(both::refused);
    assert_eq!(said, both::plain(side.cache).report(&both::lent(side.memory.lend())));
    side.memory.wear[0] = before;
    tally.calls += 1;
    match said {
        Ok(_) => tally.reports += 1,
        Err(why) => tally.refused[why.number() as usize - 1] += 1,
    }
}

fn opened(random: &mut Random, tally: &mut Tally) -> Option<Side> {
    let (limit, coded) = (1 + random.below(60), random.one_in(3));
    let s = if coded { 256 * (1 + random.below(2)) } else { 1 + random.below(20) };
    let mut sizes = [s, 2 + random.below(8), 1 + random.below(10), 1 + random.below(12), 1 + random.below(4), limit];
    let shelf_pages = if random.one_in(2) { 0 } else { 1 + random.below(8) };
    let mut options = [random.below(3), coded as u32, shelf_pages, random.below(2)];
    let mut memory = Memory::with_options(&Sizes::from(sizes), &Options::from(options));
    memory.flash = random.bytes(memory.flash.len());
    memory.shelf = random.bytes(memory.shelf.len());
    codes::encode(&mut memory.codes, &memory.flash);
    if random.one_in(2) {
        tear(random, &mut memory);
    }
    spoil_opening(random, &mut sizes, &mut options, &mut memory);
    let (sizes, options) = (Sizes::from(sizes), Options::from(options));
    let [proved, plain] = both::opened(sizes, options, &mut memory);
    assert_eq!(proved, plain);
    tally.calls += 1;
    match proved {
        Ok(opened) => {
            tally.torn += (opened.torn > 0) as u32;
            Some(Side { cache: opened.cache, memory, page: random.bytes(sizes.page_size as usize) })
        }
        Err(why) => {
            tally.refused[why.number() as usize - 1] += 1;
            None
        }
    }
}

/// Perhaps a size or an option is another, blocks have been erased, or a buffer has a length that only another option asks for.
fn spoil_opening(random: &mut Random, sizes: &mut [u32; 6], options: &mut [u32; 4], m: &mut Memory) {
    let limit = sizes[5];
    match random.below(6) {
        0 => sizes[random.below(6) as usize] = random.of(&[0, 1, 9, 65, 129, 2049, 4097, 1_000_001, u32::MAX]),
        1 => m.wear[0] = limit + random.below(2),
        2 => m.wear.iter_mut().for_each(|worn| *worn = random.below(limit + 1)),
        _ => {}
    }
    match random.below(16) {
        0 => options[random.below(2) as usize] = random.of(&[0, 1, 2, 8, u32::MAX]),
        1 => options[2] = random.of(&SHELVES),
        2 => options[3] = random.of(&MARKS),
        3 => of_an_option(random, m).push(0),
        4 => m.codes.truncate(m.codes.len().saturating_sub(1)),
        5 => m.shelf.truncate(m.shelf.len().saturating_sub(1)),
        _ => {}
    }
}

/// Marks, or what is none.
const MARKS: [u32; 5] = [0, 1, 2, 9, u32::MAX];

/// Shelf pages, or too many.
const SHELVES: [u32; 6] = [0, 1, 7, 8, 9, u32::MAX];

fn of_an_option<'a>(random: &mut Random, m: &'a mut Memory) -> &'a mut Vec<u8> {
    match random.below(3) {
        0 => &mut m.codes,
        1 => &mut m.marks,
        _ => &mut m.shelf,
    }
}

/// A page, of a store with marks, becomes torn, or all are whole.
fn tear(random: &mut Random, m: &mut Memory) {
    let pages = m.marks.len() as u32;
    match pages == 0 || random.one_in(2) {
        true => m.marks.fill(0),
        false => m.marks[random.below(pages) as usize] = random.of(&[1, 128, 255]),
    }
}

/// Flips a bit of flash or of the codes, of a store that has some, or lets all codes match again; the same of marks.
pub fn disturb(random: &mut Random, m: &mut Memory) {
    tear(random, m);
    if m.codes.is_empty() {
        return;
    }
    match random.below(8) {
        0 => codes::encode(&mut m.codes, &m.flash),
        1..=4 => flip(random, &mut m.flash),
        _ => flip(random, &mut m.codes),
    }
}

/// The latest entry of the shelf, if any, is some other page: one written lately is mostly cached, and taken back by way 1 or 2.
pub fn reshelve(random: &mut Random, cache: &mut Cache) {
    let used = cache.entries.iter().position(|&n| n == VACANT).unwrap_or(8);
    if used > 0 {
        cache.entries[used - 1] = random.below(cache.sizes.pages());
    }
}

fn flip(random: &mut Random, bytes: &mut [u8]) {
    bytes[random.below(bytes.len() as u32) as usize] ^= 1 << random.below(8);
}

pub fn spoil(random: &mut Random, side: &mut Side) {
    let (d, m, f) = (&mut side.cache.directory, &mut side.memory, random.below(8) as usize);
    match random.below(22) {
        0 => d.slots[random.below(128) as usize] = random.below(100),
        1 => d.slots[random.below(12) as usize] = d.slots[random.below(12) as usize],
        2 => d.frames[f] = random.below(12),
        3 => d.valid[f] ^= 1 << random.below(64),
        4 => d.recency.swap(f, random.below(8) as usize),
        5 => d.uses[f] = random.of(&[0, 1, 2, u32::MAX - 1, u32::MAX]),
        6 | 19 => side.cache.entries[f] = random.of(&[0, 5, VACANT - 1, VACANT]),
        7 => side.cache.sizes.pages_per_block += 1,
        8 => side.cache.sizes.slots = random.below(140),
        9 => side.cache.options.policy = random.below(4),
        10 => side.cache.options.coded = random.below(3),
        11 => side.cache.options.shelf_pages = random.of(&SHELVES),
        12 => side.cache.options.marked = random.of(&MARKS),
        13 => side.cache.sizes.page_size += 1,
        14 => m.flash.push(0),
        15 => m.wear.push(0),
        16 => m.pspace.push(0),
        17 => m.bspace.push(0),
        18 => of_an_option(random, m).push(0),
        20 => m.shelf.truncate(m.shelf.len().saturating_sub(1)),
        _ => side.page.push(0),
    }
}

#[derive(Clone, Copy, Debug)]
pub enum Call {
    Flush,
    Step,
    Read(u32),
    Write(u32),
    Part { n: u32, first: u32, many: usize },
    TakeBack,
}

/// Some pages are not there, and some bytes of a part write reach past the page.
pub fn call(random: &mut Random, sizes: &Sizes) -> Call {
    let n = random.below(sizes.pages().saturating_add(1).max(1));
    match random.below(40) {
        0 => Call::Flush,
        1 => Call::Step,
        2..=12 => Call::Read(n),
        13..=20 => {
            let first = random.below(sizes.page_size + 2);
            let many = random.below((sizes.page_size + 2).saturating_sub(first).max(1)) as usize;
            Call::Part { n, first, many }
        }
        21..=24 => Call::TakeBack,
        _ => Call::Write(n),
    }
}

/// What a part write lays in.
pub fn bytes(first: u32, many: usize) -> Vec<u8> {
    (0..many).map(|i| (first as usize + i * 5) as u8).collect()
}

impl Side {
    pub fn proved(&mut self, call: Call) -> Said {
        let (lent, page) = (&mut self.memory.lend(), &mut self.page);
        both::said(match call {
            Call::Flush => self.cache.flush(lent),
            Call::Step => self.cache.step(lent),
            Call::Read(n) => self.cache.read(lent, n, page),
            Call::Write(n) => self.cache.write(lent, n, page),
            Call::Part { n, first, many } => self.cache.part(lent, n, first, &bytes(first, many), page),
            Call::TakeBack => self.cache.take_back(lent),
        })
    }

    pub fn plain(&mut self, call: Call) -> Said {
        let (lent, page) = (&mut both::lent(self.memory.lend()), &mut self.page);
        let mut plain = both::plain(self.cache);
        let answer = match call {
            Call::Flush => plain.flush(lent),
            Call::Step => plain.step(lent),
            Call::Read(n) => plain.read(lent, n, page),
            Call::Write(n) => plain.write(lent, n, page),
            Call::Part { n, first, many } => plain.part(lent, n, first, &bytes(first, many), page),
            Call::TakeBack => plain.take_back(lent),
        };
        self.cache = both::proved(plain);
        answer
    }
}

impl Tally {
    pub fn say(&self) {
        let Tally { reads, writes, backs, rewrites, mended, torn, cuts, reports, refused, .. } = self;
        println!("reads by way {reads:?}, writes by way from 0 {writes:?}, taken back by way from 1 {backs:?},");
        println!("{rewrites} rewrites by steps and flushes, {mended} chunks mended, {torn} openings with torn blocks, {reports} reports,");
        println!("cut calls stopped, whole and refused {cuts:?}, refusals 1 to 8 {:?} and 14 {}\n", &refused[..8], refused[13]);
    }

    pub fn count(&mut self, call: Call, answer: Said) {
        self.calls += 1;
        match answer {
            Ok(Answer::Write { way, .. }) if matches!(call, Call::TakeBack) => self.backs[way as usize - 1] += 1,
            Ok(Answer::Read { way, .. }) => self.reads[way as usize - 1] += 1,
            Ok(Answer::Write { way, .. }) => self.writes[way as usize] += 1,
            Ok(Answer::Step { .. }) => self.rewrites += 1,
            Ok(Answer::Flush { rewrites, .. }) => self.rewrites += rewrites,
            Ok(Answer::Clean) => {}
            Err(why) => self.refused[why.number() as usize - 1] += 1,
        }
        self.mended += answer.map_or(0, mends);
    }
}

fn mends(answer: Answer) -> u32 {
    match answer {
        Answer::Read { mended, .. } | Answer::Write { mended, .. } | Answer::Step { mended, .. } | Answer::Flush { mended, .. } => mended,
        Answer::Clean => 0,
    }
}

#[cfg(test)]
mod tests {
    #[test]
    fn both_stores_agree_on_random_histories() {
        super::agree(&mut super::Random(1));
    }
}
