/// No page, no block.
pub const VACANT: u32 = u32::MAX;

/// The five sizes and the wear limit that an opening sets.
#[repr(C)]
#[derive(Clone, Copy, Debug, PartialEq, Eq)]
pub struct Sizes {
    /// 1 to 2,048 bytes
    pub page_size: u32,
    /// 2 to 64
    pub pages_per_block: u32,
    /// 1 to 4,096
    pub blocks: u32,
    /// 1 to 128
    pub slots: u32,
    /// 1 to 8
    pub frames: u32,
    /// 1 to 1,000,000
    pub wear_limit: u32,
}

/// What an opening may set beside the sizes. The default is LRU and no other option.
#[repr(C)]
#[derive(Clone, Copy, Debug, Default, PartialEq, Eq)]
pub struct Options {
    /// which frame is old: [`LRU`], [`FIFO`] or [`LFU`]
    pub policy: u32,
    /// 1: pages have codes, and a page is a multiple of 256 bytes; 0: they have none
    pub coded: u32,
    /// 0 to 8: so many earlier pages are kept, for taking writes back; 0: none
    pub shelf_pages: u32,
    /// 1: pages have marks, by which an opening tells the blocks whose rewrite was cut; 0: they have none
    pub marked: u32,
}

/// The least recent frame is old; hits, joins and fillings make a frame recent.
pub const LRU: u32 = 0;
/// The same, where only being filled makes a frame recent.
pub const FIFO: u32 = 1;
/// The frame with the fewest uses is old, among equals the least recent.
pub const LFU: u32 = 2;

/// What stands where. Slots are document 01's places.
#[repr(C)]
#[derive(Clone, Copy, Debug, PartialEq, Eq)]
pub struct Directory {
    /// the frames by their use, least recent first
    pub recency: [u8; 8],
    /// the valid pages of each frame, bit i for offset i
    pub valid: [u64; 8],
    /// how often each frame was used since it was filled, 0 where it is vacant
    pub uses: [u32; 8],
    /// a block number or [`VACANT`] for each frame
    pub frames: [u32; 8],
    /// a page number or [`VACANT`] for each slot
    pub slots: [u32; 128],
}

/// The cache record as it crosses to the archive. Its fields may be set at will: a record that is not sound is refused.
#[repr(C)]
#[derive(Clone, Copy, Debug, PartialEq, Eq)]
pub struct Cache {
    pub sizes: Sizes,
    pub options: Options,
    /// the page whose earlier contents each shelf page has, oldest first, then [`VACANT`]
    pub entries: [u32; 8],
    pub directory: Directory,
}

/// What an accepted opening answers: the record, and the number of torn blocks, those with a mark that is not 0.
#[derive(Clone, Copy, Debug, PartialEq, Eq)]
pub struct Opened {
    pub cache: Cache,
    pub torn: u32,
}

const _: () = assert!(std::mem::size_of::<Cache>() == 720 && std::mem::align_of::<Cache>() == 8);

/// Document 01's S, K, N, P, B, W.
impl From<[u32; 6]> for Sizes {
    fn from([page_size, pages_per_block, blocks, slots, frames, wear_limit]: [u32; 6]) -> Sizes {
        Sizes { page_size, pages_per_block, blocks, slots, frames, wear_limit }
    }
}

impl Sizes {
    /// Whether each size and the wear limit are within their limits.
    pub fn in_limits(&self) -> bool {
        (1..=2048).contains(&self.page_size)
            && (2..=64).contains(&self.pages_per_block)
            && (1..=4096).contains(&self.blocks)
            && (1..=128).contains(&self.slots)
            && (1..=8).contains(&self.frames)
            && (1..=1_000_000).contains(&self.wear_limit)
    }

    /// The number of pages of the chip.
    pub fn pages(&self) -> u32 {
        self.blocks.saturating_mul(self.pages_per_block)
    }

    /// Bytes of flash.
    pub fn flash_len(&self) -> usize {
        self.block_len().saturating_mul(self.blocks as usize)
    }

    /// Numbers of wear.
    pub fn wear_len(&self) -> usize {
        self.blocks as usize
    }

    /// Bytes of p-space.
    pub fn pspace_len(&self) -> usize {
        self.slots as usize * self.page_size as usize
    }

    /// Bytes of b-space.
    pub fn bspace_len(&self) -> usize {
        self.block_len().saturating_mul(self.frames as usize)
    }

    fn block_len(&self) -> usize {
        self.pages_per_block as usize * self.page_size as usize
    }
}

/// Policy, coded, shelf pages and marked, in document 02's order.
impl From<[u32; 4]> for Options {
    fn from([policy, coded, shelf_pages, marked]: [u32; 4]) -> Options {
        Options { policy, coded, shelf_pages, marked }
    }
}

impl Options {
    /// Whether each is one that an opening with these sizes takes.
    pub fn in_limits(&self, sizes: &Sizes) -> bool {
        let chunks = self.coded == 0 || self.coded == 1 && sizes.page_size % 256 == 0;
        self.policy <= LFU && chunks && self.shelf_pages <= 8 && self.marked <= 1
    }

    /// Bytes of codes: 3 for each 256 of flash, or none.
    pub fn codes_len(&self, sizes: &Sizes) -> usize {
        match self.coded {
            1 => sizes.page_size as usize / 256 * 3 * sizes.pages() as usize,
            _ => 0,
        }
    }

    /// Bytes of marks: one for each page, or none.
    pub fn marks_len(&self, sizes: &Sizes) -> usize {
        match self.marked {
            1 => sizes.pages() as usize,
            _ => 0,
        }
    }

    /// Bytes of the shelf.
    pub fn shelf_len(&self, sizes: &Sizes) -> usize {
        self.shelf_pages as usize * sizes.page_size as usize
    }
}

impl Cache {
    /// The record before any opening: each call on it is refused 4.
    pub fn blank() -> Cache {
        let sizes = Sizes::from([0; 6]);
        let recency = [0, 1, 2, 3, 4, 5, 6, 7];
        let directory = Directory { recency, valid: [0; 8], uses: [0; 8], frames: [VACANT; 8], slots: [VACANT; 128] };
        Cache { sizes, options: Options::default(), entries: [VACANT; 8], directory }
    }
}
