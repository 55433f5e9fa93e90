//! A look at a catalogue of 256 sheets: every sheet is read from flash, one run is found, and replacements are followed from it.
use crate::both;
use crate::cases::{Case, CASES};
use crate::random::Random;
use crate::rows::{Lent, Row};
use crate::timing::{measure, Sides};
use clash::{Cache, Catalogue, Memory, Options, Refusal, Role, Sizes, VACANT};
use plain::Plain;
use std::hint::black_box;
use std::time::Duration;

const SHEETS: u32 = 256;
const WHO: Catalogue = Catalogue { sheets: SHEETS, role: Role::Trainee, trainee: 7 };
const TIME: Duration = Duration::from_secs(1);

/// What a look is lent, with a sheet on each of the first pages.
struct Lain {
    lent: Lent,
    page_size: usize,
    /// each run replaces the one before; else none is replaced
    chained: bool,
}

impl Lain {
    fn place(&mut self) {
        let (len, chained) = (self.page_size, self.chained);
        self.lent.place();
        self.lent.lay(|flash| {
            for (i, page) in flash.chunks_exact_mut(len).take(SHEETS as usize).enumerate() {
                lay(page, i as u32, chained);
            }
        });
    }
}

/// The sheet of run i + 1, of one page.
fn lay(page: &mut [u8], i: u32, chained: bool) {
    let sheet = [i + 1, i % 20, i, SHEETS + i, 1, 255, if chained { i } else { 0 }];
    page.fill(0);
    for (bytes, number) in page.chunks_exact_mut(4).zip(sheet) {
        bytes.copy_from_slice(&number.to_le_bytes());
    }
}

type Looks = Sides<Lain, Result<clash::Looked, Refusal>, Result<plain::Looked, plain::Refusal>>;

const LOOK: Looks = Sides {
    idle: |l| {
        black_box(l.lent.parts());
    },
    proved: |c, n, l| {
        let (lent, page) = l.lent.parts();
        c.run_look(&lent, &WHO, n, page)
    },
    plain: |c, n, l| {
        let (lent, page) = l.lent.plain_parts();
        both::catalogue(WHO).look(c, &lent, page, n)
    },
    by_value: |c, n, l| {
        let (lent, page) = l.lent.plain_parts();
        let (next, answer) = by_value(*c, &lent, page, n);
        *c = next;
        answer
    },
};

#[inline(never)]
fn by_value(store: Plain, lent: &plain::Buffers, page: &[u8], n: u32) -> (Plain, Result<plain::Looked, plain::Refusal>) {
    let answer = both::catalogue(WHO).look(&store, lent, page, n);
    (store, answer)
}

pub fn looks(random: &mut Random, sizes: Sizes, options: Options) -> Vec<Row> {
    let rows = [("look, nothing cached", false, false), ("look, all in use", true, false), ("look, 255 replacements", true, true)];
    rows.map(|(name, cached, chained)| row(random, sizes, options, name, cached, chained)).into()
}

fn row(random: &mut Random, sizes: Sizes, options: Options, name: &str, cached: bool, chained: bool) -> Row {
    let mut lain = Lain { lent: Lent::new(random, &sizes, &options), page_size: sizes.page_size as usize, chained };
    lain.place();
    let cases: Vec<Case> = (0..CASES).map(|_| case(random, sizes, options, cached, chained)).collect();
    for case in &cases {
        let answer = (LOOK.proved)(&mut { case.record }, case.n, &mut lain).map(both::looked).expect("the run is there");
        assert_eq!(Ok(answer), (LOOK.plain)(&mut both::plain(case.record), case.n, &mut lain));
        assert_eq!(answer.current, if chained { SHEETS } else { case.n });
    }
    Row { name: name.into(), times: measure(&cases, &mut lain, TIME, Lain::place, &LOOK) }
}

/// The first run of a chain, else some run. The cache has no page or, in every slot and frame, pages above the sheets.
fn case(random: &mut Random, sizes: Sizes, options: Options, cached: bool, chained: bool) -> Case {
    let mut memory = Memory::with_options(&sizes, &options);
    let mut record = Cache::open(sizes, options, &memory.lend()).expect("sizes within limits").cache;
    let page = vec![0; sizes.page_size as usize];
    while cached && !is_full(&record) {
        let n = SHEETS + random.below(sizes.pages() - SHEETS);
        record.write(&mut memory.lend(), n, &page).expect("no block is worn");
    }
    Case { record, n: if chained { 1 } else { 1 + random.below(SHEETS) } }
}

fn is_full(c: &Cache) -> bool {
    let (slots, frames) = (&c.directory.slots[..c.sizes.slots as usize], &c.directory.frames[..c.sizes.frames as usize]);
    slots.iter().chain(frames).all(|&held| held != VACANT)
}
