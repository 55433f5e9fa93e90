use std::fmt;

/// What an accepted call answers. `mended` is the number of chunks that the codes mended, data or code, of the flash pages that the call
/// read, each page once: 0 of a store without codes.
#[derive(Clone, Copy, Debug, PartialEq, Eq)]
pub enum Answer {
    /// way 1 from a slot, 2 from a frame, 3 from flash
    Read { way: u32, mended: u32 },
    /// of a page, of part of one or of one taken back: way 1 to 7, the block erased if any, and the merge reads; way 0 of a part write
    /// without bytes
    Write { way: u32, erased: Option<u32>, merged: u32, mended: u32 },
    /// the block rewritten and its merge reads
    Step { block: u32, merged: u32, mended: u32 },
    /// a step that found nothing cached
    Clean,
    /// the blocks rewritten and the sum of their merge reads
    Flush { rewrites: u32, merged: u32, mended: u32 },
}

/// The wear in whole figures, which a report answers.
#[derive(Clone, Copy, Debug, PartialEq, Eq)]
pub struct Report {
    /// erasures of all blocks
    pub total: u64,
    /// the wear of the block that was erased most
    pub largest: u32,
    /// N times the sum of squares, minus the total squared: 0 where all blocks are worn alike. Its square root divided by N is the
    /// standard deviation of the blocks' wear
    pub spread: u64,
}

/// Why a call is turned down, by the documents' words.
#[derive(Clone, Copy, Debug, PartialEq, Eq)]
pub enum Refusal {
    /// 1, opening: a size, the wear limit or an option is beyond its limits; of a catalogue: a page has fewer than 28 bytes, or there are
    /// not 1 to 256 sheets, fewer than the chip has pages
    Size,
    /// 2: a lent buffer has another length than sizes and options ask for, or the bytes of a part write reach past the page
    Buffer,
    /// 3, opening and report: a wear entry is above the wear limit
    Overworn,
    /// 4: the record is not sound
    Record,
    /// 5: there is no such page
    Page,
    /// 6: a rewrite is due for this block, whose wear has reached the limit; of a write, the block of the least recent frame, where every
    /// frame holds a worn block
    Worn(u32),
    /// 7, of a coded store: a flash page that the call reads or merges cannot be read by its codes
    Unreadable,
    /// 8, taking back: no write is on the shelf
    Empty,
    /// 9, adding a run: no sheet is empty, or the largest run number is 4,294,967,294
    Full,
    /// 10, of a catalogue: there is no such run
    Unknown,
    /// 11, of a catalogue: pages to add that are none, below the data pages, past the chip or another run's; a page to read that the run
    /// does not have, or that is no data page; a mark above 100
    Pages,
    /// 12, of a catalogue: the role may not do this
    Role,
    /// 13, of a catalogue: another run replaces this one already
    Replaced,
    /// 14, of a marked store: a flash page that the call reads or merges was erased and not programmed again
    Torn,
}

impl Refusal {
    /// The documents' number.
    pub fn number(self) -> u32 {
        match self {
            Refusal::Size => 1,
            Refusal::Buffer => 2,
            Refusal::Overworn => 3,
            Refusal::Record => 4,
            Refusal::Page => 5,
            Refusal::Worn(_) => 6,
            Refusal::Unreadable => 7,
            Refusal::Empty => 8,
            Refusal::Full => 9,
            Refusal::Unknown => 10,
            Refusal::Pages => 11,
            Refusal::Role => 12,
            Refusal::Replaced => 13,
            Refusal::Torn => 14,
        }
    }
}

impl fmt::Display for Refusal {
    fn fmt(&self, out: &mut fmt::Formatter) -> fmt::Result {
        match self {
            Refusal::Size => out.write_str("a size, the wear limit, an option or the number of sheets is beyond its limits"),
            Refusal::Buffer => {
                out.write_str("a lent buffer has another length than sizes and options ask for, or a part write reaches past the page")
            }
            Refusal::Overworn => out.write_str("a wear entry is above the wear limit"),
            Refusal::Record => out.write_str("the record is not sound"),
            Refusal::Page => out.write_str("there is no such page"),
            Refusal::Worn(block) => write!(out, "block {block} is worn"),
            Refusal::Unreadable => out.write_str("a flash page cannot be read by its codes"),
            Refusal::Empty => out.write_str("there is no write on the shelf to take back"),
            Refusal::Full => out.write_str("there is no room for another run"),
            Refusal::Unknown => out.write_str("there is no such run"),
            Refusal::Pages => out.write_str("a page that the run cannot have, or a mark above 100"),
            Refusal::Role => out.write_str("the role may not do this"),
            Refusal::Replaced => out.write_str("another run replaces this one"),
            Refusal::Torn => out.write_str("a flash page was erased and not programmed again"),
        }
    }
}

impl std::error::Error for Refusal {}
