//! The types of the proved store and of the plain one: the same fields, in two crates.
use plain::{Plain, Said};

/// The plain store on a record.
pub fn plain(c: clash::Cache) -> Plain {
    let clash::Directory { recency, valid, uses, frames, slots } = c.directory;
    let directory = plain::Directory { recency, valid, uses, frames, slots };
    Plain(plain::Cache { sizes: sizes(c.sizes), options: options(c.options), entries: c.entries, directory })
}

/// The record of the plain store.
pub fn proved(store: Plain) -> clash::Cache {
    let plain::Cache { sizes: z, options: o, entries, directory } = store.0;
    let plain::Directory { recency, valid, uses, frames, slots } = directory;
    clash::Cache {
        sizes: clash::Sizes::from([z.page_size, z.pages_per_block, z.blocks, z.slots, z.frames, z.wear_limit]),
        options: clash::Options::from([o.policy, o.coded, o.shelf_pages, o.marked]),
        entries,
        directory: clash::Directory { recency, valid, uses, frames, slots },
    }
}

/// What both openings answer: the record and the torn blocks.
pub fn opened(sizes: clash::Sizes, options: clash::Options, memory: &mut clash::Memory) -> [Result<clash::Opened, plain::Refusal>; 2] {
    let said = clash::Cache::open(sizes, options, &memory.lend()).map_err(refused);
    let lent = &lent(memory.lend());
    let store = Plain::open(self::sizes(sizes), self::options(options), lent);
    [said, store.map(|store| clash::Opened { cache: proved(store), torn: store.torn(lent) })]
}

pub fn sizes(z: clash::Sizes) -> plain::Sizes {
    plain::Sizes::from([z.page_size, z.pages_per_block, z.blocks, z.slots, z.frames, z.wear_limit])
}

pub fn options(o: clash::Options) -> plain::Options {
    plain::Options::from([o.policy, o.coded, o.shelf_pages, o.marked])
}

#[inline]
pub fn lent(b: clash::Buffers) -> plain::Buffers {
    let clash::Buffers { flash, codes, marks, wear, pspace, bspace, shelf } = b;
    plain::Buffers { flash, codes, marks, wear, pspace, bspace, shelf }
}

/// What the proved store said, in the plain one's words.
pub fn said(answer: Result<clash::Answer, clash::Refusal>) -> Said {
    answer.map(accepted).map_err(refused)
}

pub fn accepted(answer: clash::Answer) -> plain::Answer {
    match answer {
        clash::Answer::Read { way, mended } => plain::Answer::Read { way, mended },
        clash::Answer::Write { way, erased, merged, mended } => plain::Answer::Write { way, erased, merged, mended },
        clash::Answer::Step { block, merged, mended } => plain::Answer::Step { block, merged, mended },
        clash::Answer::Clean => plain::Answer::Clean,
        clash::Answer::Flush { rewrites, merged, mended } => plain::Answer::Flush { rewrites, merged, mended },
    }
}

pub fn refused(why: clash::Refusal) -> plain::Refusal {
    match why {
        clash::Refusal::Size => plain::Refusal::Size,
        clash::Refusal::Buffer => plain::Refusal::Buffer,
        clash::Refusal::Overworn => plain::Refusal::Overworn,
        clash::Refusal::Record => plain::Refusal::Record,
        clash::Refusal::Page => plain::Refusal::Page,
        clash::Refusal::Worn(block) => plain::Refusal::Worn(block),
        clash::Refusal::Unreadable => plain::Refusal::Unreadable,
        clash::Refusal::Empty => plain::Refusal::EmptyShelf,
        clash::Refusal::Full => plain::Refusal::Full,
        clash::Refusal::Unknown => plain::Refusal::Unknown,
        clash::Refusal::Pages => plain::Refusal::Pages,
        clash::Refusal::Role => plain::Refusal::Role,
        clash::Refusal::Replaced => plain::Refusal::Replaced,
        clash::Refusal::Torn => plain::Refusal::Torn,
    }
}

/// Who calls a catalogue.
pub fn catalogue(c: clash::Catalogue) -> plain::Catalogue {
    let role = match c.role {
        clash::Role::Trainee => plain::Role::Trainee,
        clash::Role::Tutor => plain::Role::Tutor,
        clash::Role::Examiner => plain::Role::Examiner,
    };
    plain::Catalogue { sheets: c.sheets, repeats: true, caller: plain::Caller { role, trainee: c.trainee } }
}

pub fn new_run(new: clash::NewRun) -> plain::NewRun {
    plain::NewRun { sample: new.sample, first: new.first, count: new.count }
}

pub fn looked(l: clash::Looked) -> plain::Looked {
    let clash::Sheet { run, trainee, sample, first, count, mark, replaces } = l.sheet;
    let sheet = plain::Sheet { run, trainee, sample, first, count, mark, replaces };
    plain::Looked { sheet, current: l.current, mended: l.mended }
}

/// A class to rehearse.
pub fn rehearsal(c: clash::Setting) -> plain::Rehearsal {
    let clash::Setting { sizes: z, benches, turns, write_rate, run_rate, state } = c;
    plain::Rehearsal { sizes: sizes(z), benches, turns, write_rate, run_rate, state }
}

/// Way 0 is no way of a class.
pub fn tallies(t: clash::Tallies) -> plain::Tallies {
    let ([0, reads @ ..], [0, writes @ ..]) = (t.reads, t.writes) else { panic!("a call by way 0: {t:?}") };
    plain::Tallies { reads, writes, erased: t.erased, merged: t.merged, refused: t.refused }
}

pub fn report(r: clash::Report) -> plain::Report {
    plain::Report { total: r.total, largest: r.largest, spread: r.spread }
}
