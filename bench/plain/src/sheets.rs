//! The sheets of a catalogue (A9, A11): a run on a page, and what a table of them says of runs.

/// One run: seven numbers of 32 bits, low byte first, at the start of a page whose rest is 0.
#[derive(Clone, Copy, Debug, PartialEq, Eq)]
pub struct Sheet {
    pub run: u32,
    pub trainee: u32,
    pub sample: u32,
    pub first: u32,
    pub count: u32,
    /// 0 to 100, or 255 for unmarked
    pub mark: u32,
    /// the run it replaces, 0 for none
    pub replaces: u32,
}

impl Sheet {
    pub const UNMARKED: u32 = 255;

    /// The bytes of seven numbers.
    pub(crate) const LEN: usize = 28;

    pub(crate) fn read(bytes: &[u8; Sheet::LEN]) -> Sheet {
        let number = |i: usize| u32::from_le_bytes([bytes[4 * i], bytes[4 * i + 1], bytes[4 * i + 2], bytes[4 * i + 3]]);
        let [run, trainee, sample, first, count, mark, replaces] = std::array::from_fn(number);
        Sheet { run, trainee, sample, first, count, mark, replaces }
    }

    pub(crate) fn fill(&self, page: &mut [u8]) {
        let numbers = [self.run, self.trainee, self.sample, self.first, self.count, self.mark, self.replaces];
        page.fill(0);
        for (bytes, number) in page.chunks_exact_mut(4).zip(numbers) {
            bytes.copy_from_slice(&number.to_le_bytes());
        }
    }

    /// Of an erased page, too.
    fn is_empty(&self) -> bool {
        self.run == 0 || self.run == u32::MAX
    }

    /// Whether it counts as replacing a run: one below its own.
    fn repeats(&self, run: u32) -> bool {
        self.replaces == run && run < self.run
    }

    /// Whether it has a page of these. Sums in whole numbers: a foreign sheet may hold anything.
    fn shares(&self, first: u32, count: u32) -> bool {
        let end = |first: u32, count: u32| first as u64 + count as u64;
        (first.max(self.first) as u64) < end(first, count).min(end(self.first, self.count))
    }
}

/// The sheets as they were read, and how many chunks were mended.
pub(crate) struct Table {
    pub sheets: [Sheet; 256],
    pub len: usize,
    pub mended: u32,
}

impl Table {
    pub fn new(len: usize) -> Table {
        let sheet = Sheet { run: 0, trainee: 0, sample: 0, first: 0, count: 0, mark: 0, replaces: 0 };
        Table { sheets: [sheet; 256], len, mended: 0 }
    }

    fn sheets(&self) -> &[Sheet] {
        &self.sheets[..self.len]
    }

    /// The sheet of a run: of equal numbers the first.
    pub fn find(&self, run: u32) -> Option<usize> {
        self.sheets().iter().position(|sheet| sheet.run == run && !sheet.is_empty())
    }

    /// Whether sheet i counts: it is not empty, and the first with its number.
    fn counts(&self, i: usize) -> bool {
        self.find(self.sheets[i].run) == Some(i)
    }

    /// The runs that such sheets hold, in their order.
    fn runs<'a>(&'a self, such: impl Fn(&Sheet) -> bool + 'a) -> impl Iterator<Item = u32> + 'a {
        self.sheets().iter().enumerate().filter(move |(i, sheet)| such(sheet) && self.counts(*i)).map(|(_, sheet)| sheet.run)
    }

    pub fn run_at(&self, position: u32) -> Option<u32> {
        self.runs(|_| true).nth(position as usize)
    }

    /// The first empty sheet and the number of a run to add, if there is room for one.
    pub fn room(&self) -> Option<(usize, u32)> {
        let i = self.sheets().iter().position(Sheet::is_empty)?;
        let largest = self.sheets().iter().filter(|sheet| !sheet.is_empty()).map(|sheet| sheet.run).max().unwrap_or(0);
        (largest < u32::MAX - 1).then_some((i, largest + 1))
    }

    /// Whether some run has a page of these.
    pub fn shares(&self, first: u32, count: u32) -> bool {
        self.runs(|sheet| sheet.shares(first, count)).next().is_some()
    }

    /// The highest run that replaces this one.
    pub fn replacer(&self, run: u32) -> Option<u32> {
        let mut highest = None;
        for (i, sheet) in self.sheets().iter().enumerate() {
            if sheet.repeats(run) && self.counts(i) {
                highest = highest.max(Some(sheet.run));
            }
        }
        highest
    }

    /// Replacements followed upward from a run.
    pub fn current(&self, run: u32) -> u32 {
        std::iter::successors(Some(run), |&run| self.replacer(run)).last().unwrap_or(run)
    }
}
