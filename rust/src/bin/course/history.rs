//! One history: what the benches of a course write, carried out on a store.
use clash::{Answer, Cache, Memory, Options, Refusal, Sizes, Store};

/// Bytes of a reading, as a detector hands them over.
pub const READING: u32 = 40;

/// Where the benches write. Block 0 is for sheets, and no reading goes there.
#[derive(Clone, Copy, PartialEq, Eq, Debug)]
pub enum Layout {
    /// each bench on its own stretch of the chip, all of one length
    Own,
    /// in runs of so many pages: whoever begins one gets the pages after the run that was begun last
    Runs(u32),
}

/// When the store is flushed; at the end of a history it always is.
#[derive(Clone, Copy, PartialEq, Eq, Debug)]
pub enum Flush {
    AtEnd,
    /// after each so many readings
    Every(u32),
    /// after the last reading of each run
    EachRun,
}

/// What a course writes.
#[derive(Clone, Copy, PartialEq, Eq, Debug)]
pub struct Course {
    pub layout: Layout,
    pub benches: u32,
    pub readings: u32,
    /// the benches write in turn; otherwise the next to write is drawn at random, each as likely as another
    pub in_turn: bool,
    pub flush: Flush,
    /// after each so many readings the bench that wrote it writes its sheet, a page of block 0; 0: there are no sheets
    pub sheets: u32,
}

/// A course on a store of these sizes and this policy.
#[derive(Clone, Copy, PartialEq, Eq, Debug)]
pub struct History {
    pub course: Course,
    pub sizes: Sizes,
    pub policy: u32,
}

/// What a history came to.
#[derive(Clone, Copy, PartialEq, Eq, Debug)]
pub struct Tally {
    /// the blocks that were written to: a page reaches flash by a rewrite of its block, so that each has to be erased once
    pub least: u32,
    pub erasures: u32,
    pub merge_reads: u64,
    /// the erasures of the block that has the most
    pub worst: u32,
}

/// Why a history could not be carried out.
#[derive(Clone, Copy, PartialEq, Eq, Debug)]
pub enum Trouble {
    Refused(Refusal),
    /// a stretch or the chip has no room for the readings
    Full,
}

impl From<Refusal> for Trouble {
    fn from(why: Refusal) -> Trouble {
        Trouble::Refused(why)
    }
}

impl Tally {
    /// Erasures over the least possible.
    pub fn over(&self) -> f64 {
        f64::from(self.erasures) / f64::from(self.least)
    }
}

impl History {
    /// Bytes of RAM: p-space, b-space, wear and record.
    pub fn ram(&self) -> usize {
        self.sizes.pspace_len() + self.sizes.bspace_len() + 4 * self.sizes.wear_len() + std::mem::size_of::<Cache>()
    }

    /// Carries the history out, on the chip that is lent, as if it were new.
    pub fn play(&self, memory: &mut Memory) -> Result<Tally, Trouble> {
        renew(memory, &self.sizes);
        let mut logs = Logs::new(&self.course, &self.sizes);
        let mut writing = Writing::new(self, memory)?;
        for i in 0..self.course.readings {
            let bench = logs.whose(i);
            let place = logs.place(bench)?;
            writing.put(place.page, place.first, i)?;
            if due(self.course.sheets, i) {
                writing.put(bench, 0, i)?;
            }
            let flushes = match self.course.flush {
                Flush::AtEnd => false,
                Flush::Every(readings) => due(readings, i),
                Flush::EachRun => place.ends_run,
            };
            if flushes {
                writing.flush()?;
            }
        }
        writing.flush()?;
        Ok(writing.tally())
    }
}

/// Whether something is to be done after reading `i`, from 0, that is done after each `every` of them, or never.
fn due(every: u32, i: u32) -> bool {
    every > 0 && (i + 1) % every == 0
}

/// Makes a chip new, and its cache memory that of these sizes. Only blocks that were erased hold anything.
fn renew(memory: &mut Memory, sizes: &Sizes) {
    let block_len = sizes.flash_len() / sizes.wear_len();
    for (block, wear) in memory.flash.chunks_mut(block_len).zip(&mut memory.wear) {
        if *wear > 0 {
            block.fill(255);
            *wear = 0;
        }
    }
    memory.pspace.resize(sizes.pspace_len(), 0);
    memory.bspace.resize(sizes.bspace_len(), 0);
}

/// Where the benches' next readings go.
struct Logs {
    layout: Layout,
    in_turn: bool,
    readings_per_page: u32,
    pages: u32,
    logs: Vec<Log>,
    /// the first page after the run that was begun last
    next_run: u32,
    /// of the generator of request A13
    state: u32,
}

/// Where a reading goes: a page, its byte, and whether the run is complete with it.
#[derive(Clone, Copy, PartialEq, Eq, Debug)]
struct Place {
    page: u32,
    first: u32,
    ends_run: bool,
}

/// A bench's page, the readings that it has, and the pages from it to the end of the bench's stretch or run.
#[derive(Clone, Copy)]
struct Log {
    page: u32,
    readings: u32,
    left: u32,
}

impl Logs {
    fn new(course: &Course, sizes: &Sizes) -> Logs {
        let first = sizes.pages_per_block;
        let stretch = match course.layout {
            Layout::Own => (sizes.blocks - 1) / course.benches * sizes.pages_per_block,
            Layout::Runs(_) => 0,
        };
        let logs = (0..course.benches).map(|bench| Log { page: first + bench * stretch, readings: 0, left: stretch });
        Logs {
            layout: course.layout,
            in_turn: course.in_turn,
            readings_per_page: sizes.page_size / READING,
            pages: sizes.pages(),
            logs: logs.collect(),
            next_run: first,
            state: 1,
        }
    }

    /// The bench whose reading is number `i`.
    fn whose(&mut self, i: u32) -> u32 {
        let benches = self.logs.len() as u32;
        if self.in_turn {
            return i % benches;
        }
        self.state = self.state.wrapping_mul(1_664_525).wrapping_add(1_013_904_223);
        ((u64::from(self.state) * u64::from(benches)) >> 32) as u32
    }

    /// Where the bench's next reading goes; it is taken then.
    fn place(&mut self, bench: u32) -> Result<Place, Trouble> {
        let mut log = self.logs[bench as usize];
        if log.left == 0 {
            log = self.begin()?;
        }
        let (page, first) = (log.page, log.readings * READING);
        log.readings += 1;
        if log.readings == self.readings_per_page {
            log = Log { page: log.page + 1, readings: 0, left: log.left - 1 };
        }
        self.logs[bench as usize] = log;
        Ok(Place { page, first, ends_run: log.left == 0 })
    }

    /// A new run, where there are runs and the chip has room for it.
    fn begin(&mut self) -> Result<Log, Trouble> {
        match self.layout {
            Layout::Runs(pages) if self.next_run + pages <= self.pages => {
                self.next_run += pages;
                Ok(Log { page: self.next_run - pages, readings: 0, left: pages })
            }
            _ => Err(Trouble::Full),
        }
    }
}

/// A store that is written to, and what is counted of it.
struct Writing<'a> {
    store: Store,
    memory: &'a mut Memory,
    page: Vec<u8>,
    pages_per_block: u32,
    is_written: Vec<bool>,
    merge_reads: u64,
}

impl Writing<'_> {
    fn new<'a>(history: &History, memory: &'a mut Memory) -> Result<Writing<'a>, Refusal> {
        let options = Options { policy: history.policy, ..Options::default() };
        let store = Store::open(history.sizes, options, &memory.lend())?;
        let page = vec![0; history.sizes.page_size as usize];
        let is_written = vec![false; history.sizes.wear_len()];
        Ok(Writing { store, memory, page, pages_per_block: history.sizes.pages_per_block, is_written, merge_reads: 0 })
    }

    /// Writes reading number `i` to a page, from its byte `first` on.
    fn put(&mut self, page: u32, first: u32, i: u32) -> Result<(), Refusal> {
        let mut reading = [0; READING as usize];
        reading[..4].copy_from_slice(&i.to_le_bytes());
        self.is_written[(page / self.pages_per_block) as usize] = true;
        let answer = self.store.part(&mut self.memory.lend(), page, first, &reading, &mut self.page)?;
        self.count(answer);
        Ok(())
    }

    fn flush(&mut self) -> Result<(), Refusal> {
        let answer = self.store.flush(&mut self.memory.lend())?;
        self.count(answer);
        Ok(())
    }

    fn count(&mut self, answer: Answer) {
        if let Answer::Write { merged, .. } | Answer::Flush { merged, .. } = answer {
            self.merge_reads += u64::from(merged);
        }
    }

    fn tally(&self) -> Tally {
        let least = self.is_written.iter().filter(|&&is_written| is_written).count() as u32;
        let wear = &self.memory.wear;
        let worst = wear.iter().copied().max().unwrap_or(0);
        Tally { least, erasures: wear.iter().sum(), merge_reads: self.merge_reads, worst }
    }
}

#[cfg(test)]
mod tests {
    use super::*;

    const COURSE: Course = Course { layout: Layout::Own, benches: 1, readings: 16, in_turn: true, flush: Flush::AtEnd, sheets: 0 };

    /// A chip of 16 blocks of 2 pages of 2 readings, a cache of 2 slots and a frame.
    fn history(course: Course) -> History {
        History { course, sizes: Sizes::from([80, 2, 16, 2, 1, 1_000_000]), policy: clash::LRU }
    }

    fn play(history: &History) -> (Result<Tally, Trouble>, Memory) {
        let mut memory = Memory::new(&history.sizes);
        (history.play(&mut memory), memory)
    }

    #[test]
    fn one_bench_erases_the_least_possible() {
        let (tally, memory) = play(&history(COURSE));
        assert_eq!(tally, Ok(Tally { least: 4, erasures: 4, merge_reads: 0, worst: 1 }));
        assert_eq!(memory.wear, [0, 1, 1, 1, 1, 0, 0, 0, 0, 0, 0, 0, 0, 0, 0, 0]);
        let logged: Vec<u8> = memory.flash[2 * 80..].chunks(40).take(16).map(|reading| reading[0]).collect();
        assert_eq!(logged, (0..16).collect::<Vec<u8>>());
    }

    /// The least counts a block once: begun and half full, the sheets' block, and however often a flush rewrites it.
    #[test]
    fn least_possible() {
        let least = |course| play(&history(course)).0.map(|tally| (tally.least, tally.least <= tally.erasures));
        assert_eq!(least(Course { readings: 17, ..COURSE }), Ok((5, true)));
        assert_eq!(least(Course { benches: 3, ..COURSE }), Ok((6, true)));
        assert_eq!(least(Course { sheets: 1, ..COURSE }), Ok((5, true)));
        assert_eq!(least(Course { flush: Flush::Every(1), ..COURSE }), Ok((4, true)));
        assert_eq!(least(Course { layout: Layout::Runs(1), benches: 2, ..COURSE }), Ok((4, true)));
    }

    /// A flush after every reading erases a block for each of them.
    #[test]
    fn flushes_are_counted() {
        let (tally, _) = play(&history(Course { flush: Flush::Every(1), ..COURSE }));
        assert_eq!(tally, Ok(Tally { least: 4, erasures: 16, merge_reads: 16, worst: 4 }));
        let runs = Course { layout: Layout::Runs(1), flush: Flush::EachRun, ..COURSE };
        assert_eq!(play(&history(runs)).0, Ok(Tally { least: 4, erasures: 8, merge_reads: 8, worst: 2 }));
    }

    #[test]
    fn runs_lie_one_after_another() {
        let course = Course { layout: Layout::Runs(2), benches: 2, ..COURSE };
        let mut logs = Logs::new(&course, &history(course).sizes);
        let places = [0, 1, 1, 0, 1, 1, 1].map(|bench| logs.place(bench).map(|place| (place.page, place.first, place.ends_run)));
        let expected = [(2, 0, false), (4, 0, false), (4, 40, false), (2, 40, false), (5, 0, false), (5, 40, true), (6, 0, false)];
        assert_eq!(places, expected.map(Ok));
    }

    #[test]
    fn no_room() {
        assert_eq!(play(&history(Course { readings: 61, ..COURSE })).0, Err(Trouble::Full));
        assert!(play(&history(Course { readings: 60, ..COURSE })).0.is_ok());
        let runs = Course { layout: Layout::Runs(7), ..COURSE };
        assert_eq!(play(&history(Course { readings: 57, ..runs })).0, Err(Trouble::Full));
        assert!(play(&history(Course { readings: 56, ..runs })).0.is_ok());
    }

    #[test]
    fn a_chip_is_made_new() {
        let (first, mut memory) = play(&history(Course { benches: 3, in_turn: false, ..COURSE }));
        let again = history(Course { benches: 3, in_turn: false, ..COURSE }).play(&mut memory);
        assert_eq!(first, again);
        assert_eq!(history(COURSE).play(&mut memory), play(&history(COURSE)).0);
        assert_eq!(memory.flash, play(&history(COURSE)).1.flash);
    }

    /// The figures of the table in docs/INTEGRATING.md, "Memory to lend", in tenths of a KiB.
    #[test]
    fn ram() {
        let tenths = |sizes: [u32; 6]| {
            let history = History { sizes: Sizes::from(sizes), ..history(COURSE) };
            (history.ram() as f64 / 102.4).round()
        };
        assert_eq!(tenths([512, 32, 1024, 8, 1, 9]), 247.0);
        assert_eq!(tenths([2048, 64, 1024, 32, 2, 9]), 3247.0);
        assert_eq!(tenths([2048, 64, 4096, 128, 8, 9]), 12967.0);
    }
}
