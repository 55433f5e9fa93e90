//! What a call answers.

/// What an accepted call answers. `mended` is how many chunks the code rule mended of the flash pages that the call read (A7).
#[derive(Clone, Copy, Debug, PartialEq, Eq)]
pub enum Answer {
    /// way 1 from a slot, 2 from a frame, 3 from flash
    Read { way: u32, mended: u32 },
    /// of a page or of part of one: way 1 to 7, the block erased if any, and the merge reads; way 0 of a part write without bytes
    Write { way: u32, erased: Option<u32>, merged: u32, mended: u32 },
    /// the block rewritten and its merge reads
    Step { block: u32, merged: u32, mended: u32 },
    /// a step that found nothing cached
    Clean,
    /// the blocks rewritten and the sum of their merge reads
    Flush { rewrites: u32, merged: u32, mended: u32 },
}

/// Why a call is turned down, by the documents' words.
#[derive(Clone, Copy, Debug, PartialEq, Eq)]
pub enum Refusal {
    Size,
    Buffer,
    Overworn,
    Record,
    Page,
    /// with the block
    Worn(u32),
    Unreadable,
    EmptyShelf,
    Full,
    Unknown,
    Pages,
    Role,
    Replaced,
    Torn,
}

pub type Said = Result<Answer, Refusal>;

impl Answer {
    /// With so many mends more, of pages read before.
    pub(crate) fn and_mended(mut self, more: u32) -> Answer {
        match &mut self {
            Answer::Read { mended, .. } | Answer::Write { mended, .. } => *mended += more,
            Answer::Step { mended, .. } | Answer::Flush { mended, .. } => *mended += more,
            Answer::Clean => {}
        }
        self
    }
}

impl Refusal {
    /// The documents' number.
    pub fn number(self) -> u32 {
        match self {
            Refusal::Size => 1,
            Refusal::Buffer => 2,
            Refusal::Overworn => 3,
            Refusal::Record => 4,
            Refusal::Page => 5,
            Refusal::Worn(_) => 6,
            Refusal::Unreadable => 7,
            Refusal::EmptyShelf => 8,
            Refusal::Full => 9,
            Refusal::Unknown => 10,
            Refusal::Pages => 11,
            Refusal::Role => 12,
            Refusal::Replaced => 13,
            Refusal::Torn => 14,
        }
    }
}
