//! What an opening sets and what a record holds: each with the release from which it is in force.
use crate::words::Words;
use clash::{Cache, Options, Sizes};

/// An option of an opening: 0 before its release, and never above `most`.
struct Choice {
    since: u32,
    most: u32,
}

const POLICY: Choice = Choice { since: 5, most: u32::MAX };
const CODED: Choice = Choice { since: 6, most: 1 };
const SHELF: Choice = Choice { since: 8, most: u32::MAX };
const MARKED: Choice = Choice { since: 12, most: 1 };

/// A field of the record: how many entries it has, the largest number that one holds, and how it is set.
pub struct Field {
    word: &'static str,
    since: u32,
    entries: usize,
    most: u64,
    pub set: fn(&mut Cache, usize, u64),
}

const WORD: u64 = u32::MAX as u64;

#[rustfmt::skip]
static FIELDS: &[Field] = &[
    Field { word: "s", since: 0, entries: 1, most: WORD, set: |c, _, v| c.sizes.page_size = v as u32 },
    Field { word: "k", since: 0, entries: 1, most: WORD, set: |c, _, v| c.sizes.pages_per_block = v as u32 },
    Field { word: "n", since: 0, entries: 1, most: WORD, set: |c, _, v| c.sizes.blocks = v as u32 },
    Field { word: "p", since: 0, entries: 1, most: WORD, set: |c, _, v| c.sizes.slots = v as u32 },
    Field { word: "b", since: 0, entries: 1, most: WORD, set: |c, _, v| c.sizes.frames = v as u32 },
    Field { word: "w", since: 0, entries: 1, most: WORD, set: |c, _, v| c.sizes.wear_limit = v as u32 },
    Field { word: "place", since: 0, entries: 128, most: WORD, set: |c, i, v| c.directory.slots[i] = v as u32 },
    Field { word: "frame", since: 0, entries: 8, most: WORD, set: |c, i, v| c.directory.frames[i] = v as u32 },
    Field { word: "valid", since: 0, entries: 8, most: u64::MAX, set: |c, i, v| c.directory.valid[i] = v },
    Field { word: "order", since: 0, entries: 8, most: 255, set: |c, i, v| c.directory.recency[i] = v as u8 },
    Field { word: "policy", since: 5, entries: 1, most: WORD, set: |c, _, v| c.options.policy = v as u32 },
    Field { word: "uses", since: 5, entries: 8, most: WORD, set: |c, i, v| c.directory.uses[i] = v as u32 },
    Field { word: "coded", since: 6, entries: 1, most: WORD, set: |c, _, v| c.options.coded = v as u32 },
    Field { word: "shelf", since: 8, entries: 1, most: WORD, set: |c, _, v| c.options.shelf_pages = v as u32 },
    Field { word: "shelfno", since: 8, entries: 8, most: WORD, set: |c, i, v| c.entries[i] = v as u32 },
    Field { word: "marked", since: 12, entries: 1, most: WORD, set: |c, _, v| c.options.marked = v as u32 },
];

pub fn sizes(words: &mut Words) -> Option<Sizes> {
    let mut sizes = [0; 6];
    for size in &mut sizes {
        *size = words.number()?;
    }
    Some(Sizes::from(sizes))
}

pub fn options(words: &mut Words) -> Option<Options> {
    Some(Options {
        policy: choice(words, POLICY)?,
        coded: choice(words, CODED)?,
        shelf_pages: choice(words, SHELF)?,
        marked: choice(words, MARKED)?,
    })
}

fn choice(words: &mut Words, choice: Choice) -> Option<u32> {
    let most = if words.release.has(choice.since) { choice.most } else { 0 };
    words.number().filter(|&x| x <= most)
}

/// A field with an index and a value to set.
pub fn spoilt(words: &mut Words) -> Option<(&'static Field, usize, u64)> {
    let name = words.next()?;
    let field = FIELDS.iter().find(|field| words.release.has(field.since) && field.word.as_bytes() == name)?;
    let index = words.number()? as usize;
    let value = words.wide()?;
    // the index of a field that is one number is ignored
    let fits = (field.entries == 1 || index < field.entries) && value <= field.most;
    fits.then_some((field, index, value))
}
