//! The cache record.

/// No page, no block.
pub const VACANT: u32 = u32::MAX;

/// The five sizes and the wear limit that an opening sets.
#[repr(C)]
#[derive(Clone, Copy, Debug, PartialEq, Eq)]
pub struct Sizes {
    pub page_size: u32,
    pub pages_per_block: u32,
    pub blocks: u32,
    pub slots: u32,
    pub frames: u32,
    pub wear_limit: u32,
}

/// What an opening may set beside the sizes.
#[repr(C)]
#[derive(Clone, Copy, Debug, Default, PartialEq, Eq)]
pub struct Options {
    /// which frame is old, of [`crate::policy`]
    pub policy: u32,
    /// 1: pages have codes
    pub coded: u32,
    /// 0 to 8
    pub shelf_pages: u32,
    /// 1: pages have marks
    pub marked: u32,
}

/// What stands where. Slots are document 01's places.
#[repr(C)]
#[derive(Clone, Copy, Debug, PartialEq, Eq)]
pub struct Directory {
    /// the frames by their use, least recent first
    pub recency: [u8; 8],
    /// the valid pages of each frame, bit i for offset i
    pub valid: [u64; 8],
    /// the uses of each frame since it was filled, 0 where it is vacant
    pub uses: [u32; 8],
    /// a block number or [`VACANT`] for each frame
    pub frames: [u32; 8],
    /// a page number or [`VACANT`] for each slot
    pub slots: [u32; 128],
}

/// The cache record. Its fields may be set at will: a record that is not sound is refused.
#[repr(C)]
#[derive(Clone, Copy, Debug, PartialEq, Eq)]
pub struct Cache {
    pub sizes: Sizes,
    pub options: Options,
    /// the page numbers of the shelf, oldest first, then [`VACANT`]
    pub entries: [u32; 8],
    pub directory: Directory,
}

/// Document 01's S, K, N, P, B, W.
impl From<[u32; 6]> for Sizes {
    fn from([page_size, pages_per_block, blocks, slots, frames, wear_limit]: [u32; 6]) -> Sizes {
        Sizes { page_size, pages_per_block, blocks, slots, frames, wear_limit }
    }
}

impl Sizes {
    pub fn in_limits(&self) -> bool {
        (1..=2048).contains(&self.page_size)
            && (2..=64).contains(&self.pages_per_block)
            && (1..=4096).contains(&self.blocks)
            && (1..=128).contains(&self.slots)
            && (1..=8).contains(&self.frames)
            && (1..=1_000_000).contains(&self.wear_limit)
    }

    /// The number of pages of the chip.
    pub fn pages(&self) -> u32 {
        self.blocks.saturating_mul(self.pages_per_block)
    }

    pub fn flash_len(&self) -> usize {
        self.block_len().saturating_mul(self.blocks as usize)
    }

    pub fn pspace_len(&self) -> usize {
        self.slots as usize * self.page_size as usize
    }

    pub fn bspace_len(&self) -> usize {
        self.block_len().saturating_mul(self.frames as usize)
    }

    /// Bytes of a page's codes, of a store that has them.
    pub fn code_len(&self) -> usize {
        self.page_size as usize / 256 * 3
    }

    fn block_len(&self) -> usize {
        self.pages_per_block as usize * self.page_size as usize
    }
}

/// Policy, coded, shelf pages and marked, in document 02's order.
impl From<[u32; 4]> for Options {
    fn from([policy, coded, shelf_pages, marked]: [u32; 4]) -> Options {
        Options { policy, coded, shelf_pages, marked }
    }
}

impl Options {
    /// Whether each is one that an opening of these sizes takes.
    pub fn in_limits(&self, sizes: &Sizes) -> bool {
        let chunks_fit = self.coded <= 1 && self.coded * (sizes.page_size % 256) == 0;
        self.policy <= 2 && chunks_fit && self.shelf_pages <= 8 && self.marked <= 1
    }

    /// Whether a page of flash may be refused when it is read.
    pub(crate) fn watched(&self) -> bool {
        self.coded | self.marked != 0
    }

    pub fn codes_len(&self, sizes: &Sizes) -> usize {
        match self.coded {
            0 => 0,
            _ => sizes.flash_len() / 256 * 3,
        }
    }

    pub fn marks_len(&self, sizes: &Sizes) -> usize {
        match self.marked {
            0 => 0,
            _ => sizes.pages() as usize,
        }
    }

    pub fn shelf_len(&self, sizes: &Sizes) -> usize {
        self.shelf_pages as usize * sizes.page_size as usize
    }
}

impl Cache {
    /// The record before any opening: each call on it is refused 4.
    pub fn blank() -> Cache {
        let sizes = Sizes::from([0; 6]);
        let recency = [0, 1, 2, 3, 4, 5, 6, 7];
        let directory = Directory { recency, valid: [0; 8], uses: [0; 8], frames: [VACANT; 8], slots: [VACANT; 128] };
        Cache { sizes, options: Options::default(), entries: [VACANT; 8], directory }
    }
}
