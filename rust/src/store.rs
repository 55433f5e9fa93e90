use crate::{Answer, Buffers, Cache, Opened, Options, Refusal, Report, Sizes};

/// An open store. It keeps the record; the buffers are the caller's and are lent to each call.
///
/// It cannot be copied: a copy would keep a record that the buffers have gone on from. Who wants that, as a test, takes the
/// [`Cache`](crate::Cache) of [`Store::record`].
///
/// ```compile_fail,E0599
/// use clash::{Memory, Options, Sizes, Store};
///
/// let sizes = Sizes::from([1, 2, 3, 2, 1, 9]);
/// let store = Store::open(sizes, Options::default(), &Memory::new(&sizes).lend()).unwrap();
/// let copy = store.clone();
/// ```
#[derive(Debug, PartialEq, Eq)]
pub struct Store {
    pub(crate) cache: Cache,
    torn: u32,
}

impl Store {
    /// Opens a store of these sizes and options on the buffers lent. Changes no buffer.
    pub fn open(sizes: Sizes, options: Options, lent: &Buffers) -> Result<Store, Refusal> {
        let in_limits = sizes.in_limits() && options.in_limits(&sizes);
        debug_assert!(!in_limits || lent.fit(&sizes, &options), "a lent buffer has another length than {sizes:?} ask for");
        let Opened { cache, torn } = Cache::open(sizes, options, lent)?;
        Ok(Store { cache, torn })
    }

    /// The number of blocks that were torn at opening: those with a page that was erased and not programmed again. Reads of such pages
    /// are refused 14, and so are merges, until they are written. 0 of a store without marks.
    ///
    /// ```
    /// use clash::{Memory, Options, Refusal, Sizes, Store};
    ///
    /// let (sizes, options) = (Sizes::from([1, 2, 3, 2, 1, 9]), Options { marked: 1, ..Options::default() });
    /// let mut memory = Memory::with_options(&sizes, &options);
    /// memory.marks[3] = 255; // the power failed between the erasure of block 1 and the program of page 3
    /// let mut store = Store::open(sizes, options, &memory.lend())?;
    /// assert_eq!(store.torn(), 1);
    /// assert_eq!(store.read(&memory.lend(), 3, &mut [0]), Err(Refusal::Torn));
    /// store.write(&mut memory.lend(), 3, &[7])?;
    /// store.flush(&mut memory.lend())?;
    /// assert_eq!(Store::open(sizes, options, &memory.lend())?.torn(), 0);
    /// # Ok::<(), Refusal>(())
    /// ```
    pub fn torn(&self) -> u32 {
        self.torn
    }

    /// Fills `page` with page `n`.
    pub fn read(&mut self, lent: &Buffers, n: u32, page: &mut [u8]) -> Result<Answer, Refusal> {
        self.expect(lent);
        self.expect_page(page);
        self.cache.read(lent, n, page)
    }

    /// Stores `page` as page `n`. Refused as worn only where every frame holds a worn block.
    pub fn write(&mut self, lent: &mut Buffers, n: u32, page: &[u8]) -> Result<Answer, Refusal> {
        self.expect(lent);
        self.expect_page(page);
        self.cache.write(lent, n, page)
    }

    /// Stores `bytes` in page `n`, from its byte `first` on, and fills `page` with the page that comes of it. Without bytes nothing is
    /// read or changed.
    pub fn part(&mut self, lent: &mut Buffers, n: u32, first: u32, bytes: &[u8], page: &mut [u8]) -> Result<Answer, Refusal> {
        self.expect(lent);
        self.expect_page(page);
        self.cache.part(lent, n, first, bytes, page)
    }

    /// Takes the latest write or part write back whose earlier page is on the shelf: stores that page, as a write does, and drops its
    /// entry.
    ///
    /// ```
    /// use clash::{Memory, Options, Refusal, Sizes, Store};
    ///
    /// let (sizes, options) = (Sizes::from([1, 2, 3, 2, 1, 9]), Options { shelf_pages: 1, ..Options::default() });
    /// let mut memory = Memory::with_options(&sizes, &options);
    /// let mut store = Store::open(sizes, options, &memory.lend())?;
    /// store.write(&mut memory.lend(), 3, &[10])?;
    /// store.write(&mut memory.lend(), 3, &[20])?;
    /// store.take_back(&mut memory.lend())?;
    /// let mut page = [0];
    /// store.read(&memory.lend(), 3, &mut page)?;
    /// assert_eq!(page, [10]);
    /// assert_eq!(store.take_back(&mut memory.lend()), Err(Refusal::Empty));
    /// # Ok::<(), Refusal>(())
    /// ```
    pub fn take_back(&mut self, lent: &mut Buffers) -> Result<Answer, Refusal> {
        self.expect(lent);
        self.cache.take_back(lent)
    }

    /// Rewrites one block that has pages cached.
    pub fn step(&mut self, lent: &mut Buffers) -> Result<Answer, Refusal> {
        self.expect(lent);
        self.cache.step(lent)
    }

    /// Rewrites every block that has pages cached, or none where one of them is worn or has a page to merge that cannot be read.
    pub fn flush(&mut self, lent: &mut Buffers) -> Result<Answer, Refusal> {
        self.expect(lent);
        self.cache.flush(lent)
    }

    /// The wear in whole figures. Refused as overworn where an entry is above the wear limit.
    ///
    /// ```
    /// use clash::{Memory, Options, Report, Sizes, Store};
    ///
    /// let sizes = Sizes::from([1, 2, 3, 2, 1, 9]);
    /// let mut memory = Memory::new(&sizes);
    /// memory.wear = vec![4, 0, 2];
    /// let store = Store::open(sizes, Options::default(), &memory.lend())?;
    /// assert_eq!(store.report(&memory.lend())?, Report { total: 6, largest: 4, spread: 3 * (16 + 0 + 4) - 6 * 6 });
    /// # Ok::<(), clash::Refusal>(())
    /// ```
    pub fn report(&self, lent: &Buffers) -> Result<Report, Refusal> {
        self.expect(lent);
        self.cache.report(lent)
    }

    /// The record, for who wants to look at it or to call it directly.
    pub fn record(&self) -> &Cache {
        &self.cache
    }

    pub(crate) fn expect(&self, lent: &Buffers) {
        debug_assert!(
            lent.fit(&self.cache.sizes, &self.cache.options),
            "a lent buffer has another length than {:?} ask for",
            self.cache.sizes
        );
    }

    pub(crate) fn expect_page(&self, page: &[u8]) {
        debug_assert_eq!(page.len(), self.cache.sizes.page_size as usize, "the page buffer has another length than a page");
    }
}
