//! Calls that are cut off (request A12), at every number of operations: what is in flash, codes, marks and wear then is what the first of
//! the operations leave, in order. Two setups: plain but for its marks, and with all options.
use clash::{Cache, Catalogue, Memory, NewRun, Options, Refusal, Role, Sizes, VACANT};

const K: usize = 3;
const LIMIT: u32 = 100_000;
const PLAIN: Options = Options { policy: 0, coded: 0, shelf_pages: 0, marked: 1 };
const ALL: Options = Options { policy: 1, coded: 1, shelf_pages: 3, marked: 1 };
const UNMARKED: Options = Options { policy: 2, coded: 0, shelf_pages: 0, marked: 0 };

/// Record, buffers and page buffer.
#[derive(Clone, Debug, PartialEq)]
struct Bench {
    cache: Cache,
    memory: Memory,
    page: Vec<u8>,
}

#[derive(Clone, Copy, Debug)]
enum Call {
    Write(u32),
    Part(u32),
    TakeBack,
    Step,
    Flush,
    Add,
    Replace,
    Mark,
}

const WHO: Catalogue = Catalogue { sheets: 2, role: Role::Examiner, trainee: 7 };
const NEW: NewRun = NewRun { sample: 5, first: 10, count: 1 };

impl Bench {
    /// Six blocks, two slots, two frames; two sheets. Without marks no page but these looks as if it were erased.
    fn new(options: Options) -> Bench {
        let sizes = Sizes::from([256, K as u32, 6, 2, 2, LIMIT]);
        let mut memory = Memory::with_options(&sizes, &options);
        if options.marked == 0 {
            memory.flash[512..].fill(3);
        }
        let cache = Cache::open(sizes, options, &memory.lend()).unwrap().cache;
        Bench { cache, memory, page: vec![1; 256] }
    }

    /// The ordinary call. Each leaves another page in the buffer, so that no two writes are alike.
    fn call(&mut self, call: Call) -> Result<(), Refusal> {
        self.page.iter_mut().enumerate().for_each(|(i, byte)| *byte = byte.wrapping_add(i as u8 | 1));
        let (cache, lent, page) = (&mut self.cache, &mut self.memory.lend(), &mut self.page);
        match call {
            Call::Write(n) => cache.write(lent, n, page).map(|_| ()),
            Call::Part(n) => cache.part(lent, n, 40, &[9; 40], page).map(|_| ()),
            Call::TakeBack => cache.take_back(lent).map(|_| ()),
            Call::Step => cache.step(lent).map(|_| ()),
            Call::Flush => cache.flush(lent).map(|_| ()),
            Call::Add => cache.run_add(lent, &WHO, NEW, page).map(|_| ()),
            Call::Replace => cache.run_replace(lent, &WHO, 1, NewRun { first: 11, ..NEW }, page).map(|_| ()),
            Call::Mark => cache.run_mark(lent, &WHO, 1, 80, page).map(|_| ()),
        }
    }

    /// The same call with so many operations: the blank record comes back.
    fn cut(&mut self, call: Call, operations: u32) {
        self.page.iter_mut().enumerate().for_each(|(i, byte)| *byte = byte.wrapping_add(i as u8 | 1));
        let (cache, lent, page) = (self.cache, &mut self.memory.lend(), &mut self.page);
        let left = match call {
            Call::Write(n) => cache.cut_write(lent, n, page, operations),
            Call::Part(n) => cache.cut_part(lent, n, 40, &[9; 40], page, operations),
            Call::TakeBack => cache.cut_take_back(lent, operations),
            Call::Step => cache.cut_step(lent, operations),
            Call::Flush => cache.cut_flush(lent, operations),
            Call::Add => cache.cut_run_add(lent, &WHO, NEW, page, operations),
            Call::Replace => cache.cut_run_replace(lent, &WHO, 1, NewRun { first: 11, ..NEW }, page, operations),
            Call::Mark => cache.cut_run_mark(lent, &WHO, 1, 80, page, operations),
        };
        assert_eq!(left, Cache::blank());
    }
}

/// Bytes, codes, marks and wear of block b.
fn block(m: &Memory, b: usize) -> (&[u8], &[u8], &[u8], u32) {
    let part = |bytes, long| if long == 0 { &[][..] } else { block_of(bytes, b, long) };
    (part(&m.flash, 256), part(&m.codes, m.codes.len() / 18), part(&m.marks, m.marks.len() / 18), m.wear[b])
}

fn block_of(bytes: &[u8], b: usize, long: usize) -> &[u8] {
    &bytes[b * K * long..(b + 1) * K * long]
}

/// Block b is erased, and the first `pages` of its pages are those of the whole call.
fn is_under_way(cut: &Memory, before: &Memory, after: &Memory, b: usize, pages: usize) -> bool {
    let parts = [(&cut.flash, &after.flash), (&cut.codes, &after.codes), (&cut.marks, &after.marks)];
    let programmed = parts.iter().all(|(cut, after)| {
        let (cut, after) = (&cut[cut.len() / 6 * b..][..cut.len() / 6], &after[after.len() / 6 * b..][..after.len() / 6]);
        let done = cut.len() / K * pages;
        cut[..done] == after[..done] && cut[done..].iter().all(|&byte| byte == 255)
    });
    programmed && cut.wear[b] == before.wear[b] + 1
}

/// What so many operations leave: blocks that are rewritten, one under way, and the others as they were.
fn holds(cut: &Memory, before: &Memory, after: &Memory, operations: usize) {
    let rewritten: Vec<usize> = (0..6).filter(|&b| before.wear[b] != after.wear[b]).collect();
    let (whole, more) = (operations / (K + 1), operations % (K + 1));
    let changed: Vec<usize> = (0..6).filter(|&b| block(cut, b) != block(before, b)).collect();
    assert_eq!(changed.len(), rewritten.len().min(whole + (more > 0) as usize), "{operations} operations change {changed:?}");
    let (done, under_way): (Vec<usize>, Vec<usize>) = changed.into_iter().partition(|&b| block(cut, b) == block(after, b));
    assert_eq!(done.len(), rewritten.len().min(whole), "after {operations} operations {done:?} are rewritten");
    assert!(under_way.iter().all(|&b| is_under_way(cut, before, after, b, more - 1)), "after {operations} operations, block {under_way:?}");
}

/// Cuts a call at every number of operations, each time from the same state, and then makes it whole. Gives the blocks that it rewrites.
fn at_every_number(b: &mut Bench, call: Call) -> usize {
    let before = b.clone();
    if b.call(call).is_err() {
        return 0;
    }
    let erased: u32 = b.memory.wear.iter().zip(&before.memory.wear).map(|(after, before)| after - before).sum();
    let needed = erased as usize * (K + 1);
    for operations in (0..=needed + 1).chain([u32::MAX as usize]) {
        let mut cut = before.clone();
        cut.cut(call, operations as u32);
        holds(&cut.memory, &before.memory, &b.memory, operations);
        let Cache { sizes, options, .. } = before.cache;
        let torn = Cache::open(sizes, options, &cut.memory.lend()).unwrap().torn;
        let stopped = operations < needed && operations % (K + 1) != 0;
        assert_eq!(torn, (stopped && options.marked == 1) as u32, "{call:?} with {operations} operations");
    }
    erased as usize
}

/// A history of 2,000 calls. Of each kind, how many blocks it rewrote: each of those calls was cut at every number.
fn rewrites(options: Options) -> [usize; 8] {
    let mut b = Bench::new(options);
    let (mut state, mut count) = (1u32, [0; 8]);
    for _ in 0..2000 {
        state = state.wrapping_mul(1_664_525).wrapping_add(1_013_904_223);
        let n = 2 + (state >> 8) % 16;
        let kinds = [Call::Write(n), Call::Part(n), Call::TakeBack, Call::Step, Call::Flush, Call::Add, Call::Replace, Call::Mark];
        let kind = [0, 0, 0, 0, 0, 0, 1, 1, 1, 1, 2, 2, 5, 6, 7, 3 + (state >> 27 & 1) as usize][(state >> 28) as usize];
        count[kind] += at_every_number(&mut b, kinds[kind]);
        b.reshelve(n);
        if state >> 16 & 31 == 0 {
            b.forget_runs();
        }
    }
    count
}

impl Bench {
    /// The sheets are empty again in flash.
    fn forget_runs(&mut self) {
        self.call(Call::Flush).unwrap();
        let codes = self.memory.codes.len().min(6);
        self.memory.flash[..512].fill(255);
        self.memory.codes[..codes].fill(255);
    }

    /// The latest entry of the shelf is page n: one written lately is mostly cached, and taken back without a rewrite.
    fn reshelve(&mut self, n: u32) {
        if let Some(latest) = self.cache.entries.iter_mut().rev().find(|entry| **entry != VACANT) {
            *latest = n;
        }
    }
}

#[test]
fn every_call_at_every_number() {
    for options in [PLAIN, ALL, UNMARKED] {
        let count = rewrites(options);
        assert!((0..8).all(|kind| count[kind] > 0 || kind == 2 && options.shelf_pages == 0), "{count:?}");
    }
}

/// A cut call that would be refused changes nothing of the chip.
#[test]
fn refused_calls() {
    let mut b = Bench::new(ALL);
    for n in [6, 9, 12, 15] {
        b.call(Call::Write(n)).unwrap();
    }
    let mut torn = b.clone();
    torn.memory.marks.fill(9);
    let mut worn = b.clone();
    worn.memory.wear.fill(LIMIT);
    let mut blank = b.clone();
    blank.cache = Cache::blank();
    let mut short = b.clone();
    short.memory.bspace.pop();
    for spoilt in [torn, worn, blank, short] {
        for call in [Call::Write(3), Call::Part(3), Call::Step, Call::Flush, Call::Add, Call::Replace, Call::Mark, Call::Write(18)] {
            let mut made = spoilt.clone();
            assert!(made.call(call).is_err(), "{call:?}");
            let mut cut = spoilt.clone();
            cut.cut(call, u32::MAX);
            let (c, m) = (&cut.memory, &spoilt.memory);
            assert_eq!((&c.flash, &c.codes, &c.marks, &c.wear), (&m.flash, &m.codes, &m.marks, &m.wear), "{call:?}");
        }
    }
}
