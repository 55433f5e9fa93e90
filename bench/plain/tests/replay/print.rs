//! What is printed of a form, and the dump.
use crate::crc32::crc32;
use crate::perform::{Reply, State};
use crate::Release;
use plain::{Answer, Looked, Refusal, Tallies};
use std::fmt::Display;

/// The line of a form that was carried out, none where it prints nothing.
pub fn said(release: Release, word: &str, reply: &Reply, state: &State) -> Option<String> {
    match reply {
        Reply::Nothing => None,
        Reply::Opened(Ok(torn)) if release.has(12) => Some(format!("(open (done) (torn {torn}))")),
        Reply::Opened(Ok(_)) => Some("(open (done))".into()),
        Reply::Opened(Err(why)) => Some(format!("(open {})", refused(why))),
        Reply::Called(Ok(answer), page) => Some(format!("({word} {}{})", accepted(release, answer), with_page(page))),
        Reply::Added(Ok((run, answer)), page) => Some(format!("({word} {run} {}{})", accepted(release, answer), with_page(&Some(*page)))),
        Reply::Looked(Ok(looked)) => Some(format!("(look{}{})", sheet(release, looked), mends(release, looked.mended))),
        Reply::Listed(Ok((run, mended))) => Some(format!("(list {run}{})", mends(release, *mended))),
        Reply::Called(Err(why), _) | Reply::Added(Err(why), _) => Some(format!("({word} {})", refused(why))),
        Reply::Looked(Err(why)) | Reply::Listed(Err(why)) => Some(format!("({word} {})", refused(why))),
        Reply::Cut(_, Ok(true)) => Some("(cut whole)".into()),
        Reply::Cut(_, Ok(false)) => Some("(cut stopped)".into()),
        Reply::Cut(word, Err(why)) => Some(format!("({word} {})", refused(why))),
        Reply::Rehearsed(Ok(tallies)) => Some(rehearsed(tallies)),
        Reply::Reported(Ok(r)) => Some(format!("(report (total {}) (largest {}) (spread {}))", r.total, r.largest, r.spread)),
        Reply::Rehearsed(Err(why)) | Reply::Reported(Err(why)) => Some(format!("({word} {})", refused(why))),
        Reply::Dump => Some(dump(release, state)),
    }
}

fn accepted(release: Release, answer: &Answer) -> String {
    match *answer {
        Answer::Read { way, mended } => format!("(way {way}){}", mends(release, mended)),
        Answer::Write { way, erased, merged, mended } => {
            let erased = erased.map_or("none".into(), |block| block.to_string());
            format!("(way {way}) (erased {erased}) (merged {merged}){}", mends(release, mended))
        }
        Answer::Step { block, merged, mended } => format!("(block {block}) (merged {merged}){}", mends(release, mended)),
        Answer::Clean => "clean".into(),
        Answer::Flush { rewrites, merged, mended } => format!("(rewrites {rewrites}) (merged {merged}){}", mends(release, mended)),
    }
}

fn mends(release: Release, mended: u32) -> String {
    if release.has(7) {
        return format!(" (mended {mended})");
    }
    String::new()
}

fn sheet(release: Release, looked: &Looked) -> String {
    let s = looked.sheet;
    let numbers = [s.run, s.trainee, s.sample, s.first, s.count, s.mark, s.replaces, looked.current];
    let many = if release.has(11) { 8 } else { 6 };
    numbers[..many].iter().map(|number| format!(" {number}")).collect()
}

fn rehearsed(t: &Tallies) -> String {
    let ways = format!("{} {}", list("reads", &t.reads), list("writes", &t.writes));
    format!("(rehearse {ways} (erased {}) (merged {}) (refused {}))", t.erased, t.merged, t.refused)
}

fn with_page(crc: &Option<u32>) -> String {
    crc.map_or(String::new(), |crc| format!(" (page {crc:08x})"))
}

fn refused(why: &Refusal) -> String {
    match why {
        Refusal::Worn(block) => format!("(refused 6 {block})"),
        other => format!("(refused {})", other.number()),
    }
}

/// A part of the dump, with the release from which it is printed.
struct Part {
    since: u32,
    text: fn(&State) -> String,
}

#[rustfmt::skip]
const PARTS: &[Part] = &[
    Part { since: 0, text: sizes },
    Part { since: 0, text: |s| list("places", &s.store.0.directory.slots) },
    Part { since: 0, text: |s| list("frames", &s.store.0.directory.frames) },
    Part { since: 0, text: |s| list("valid", &s.store.0.directory.valid) },
    Part { since: 0, text: |s| list("order", &s.store.0.directory.recency) },
    Part { since: 0, text: |s| hash("flash", &s.memory.flash) },
    Part { since: 0, text: |s| list("wear", &s.memory.wear) },
    Part { since: 0, text: |s| hash("pspace", &s.memory.pspace) },
    Part { since: 0, text: |s| hash("bspace", &s.memory.bspace) },
    Part { since: 5, text: |s| list("policy", &[s.store.0.options.policy]) },
    Part { since: 5, text: |s| list("uses", &s.store.0.directory.uses) },
    Part { since: 6, text: |s| list("coded", &[s.store.0.options.coded]) },
    Part { since: 6, text: |s| hash("codes", &s.memory.codes) },
    Part { since: 8, text: |s| list("shelf", &[s.store.0.options.shelf_pages]) },
    Part { since: 8, text: |s| list("shelfno", &s.store.0.entries) },
    Part { since: 8, text: |s| hash("shelfbytes", &s.memory.shelf) },
    Part { since: 12, text: |s| list("marked", &[s.store.0.options.marked]) },
    Part { since: 12, text: |s| hash("marks", &s.memory.marks) },
];

fn dump(release: Release, state: &State) -> String {
    let parts = PARTS.iter().filter(|part| release.has(part.since)).map(|part| format!(" {}", (part.text)(state)));
    format!("(dump{})", parts.collect::<String>())
}

fn sizes(state: &State) -> String {
    let z = &state.store.0.sizes;
    list("sizes", &[z.page_size, z.pages_per_block, z.blocks, z.slots, z.frames, z.wear_limit])
}

fn list(word: &str, numbers: &[impl Display]) -> String {
    let numbers = numbers.iter().map(|x| format!(" {x}"));
    format!("({word}{})", numbers.collect::<String>())
}

fn hash(word: &str, bytes: &[u8]) -> String {
    format!("({word} {:08x})", crc32(bytes))
}
