//! What is printed of a form, and the dump.
use crate::crc32::crc32;
use crate::perform::{Said, State};
use crate::Release;
use clash::{Added, Answer, Looked, Refusal, Tallies};
use std::fmt::Display;

/// The line of a form that was carried out, none where it prints nothing.
pub fn said(release: Release, word: &str, said: &Said, state: &State) -> Option<String> {
    match said {
        Said::Nothing => None,
        Said::Opened(Ok(torn)) if release.has(12) => Some(format!("(open (done) (torn {torn}))")),
        Said::Opened(Ok(_)) => Some("(open (done))".into()),
        Said::Opened(Err(why)) => Some(format!("(open {})", refused(why))),
        Said::Called(Ok(answer), page) => Some(format!("({word} {}{})", accepted(release, answer), with_page(page))),
        Said::Added(Ok(Added { run, answer }), page) => {
            Some(format!("({word} {run} {}{})", accepted(release, answer), with_page(&Some(*page))))
        }
        Said::Looked(Ok(looked)) => Some(format!("({word} {})", look(release, looked))),
        Said::Listed(Ok(listed)) => Some(format!("({word} {} (mended {}))", listed.run, listed.mended)),
        Said::Called(Err(why), _) | Said::Added(Err(why), _) => Some(format!("({word} {})", refused(why))),
        Said::Looked(Err(why)) | Said::Listed(Err(why)) => Some(format!("({word} {})", refused(why))),
        Said::Cut(_, Ok(true)) => Some("(cut whole)".into()),
        Said::Cut(_, Ok(false)) => Some("(cut stopped)".into()),
        Said::Cut(word, Err(why)) => Some(format!("({word} {})", refused(why))),
        Said::Rehearsed(Ok(tallies)) => Some(rehearsed(tallies)),
        Said::Reported(Ok(r)) => Some(format!("(report (total {}) (largest {}) (spread {}))", r.total, r.largest, r.spread)),
        Said::Rehearsed(Err(why)) | Said::Reported(Err(why)) => Some(format!("({word} {})", refused(why))),
        Said::Dump => Some(dump(release, state)),
    }
}

/// The sheet, which has a replaced run, beside the current one, from release 11 on.
fn look(release: Release, Looked { sheet, current, mended }: &Looked) -> String {
    let numbers = [sheet.run, sheet.trainee, sheet.sample, sheet.first, sheet.count, sheet.mark, sheet.replaces, *current];
    let told = if release.has(11) { &numbers[..] } else { &numbers[..6] };
    let told = told.iter().map(|x| format!("{x} "));
    format!("{}(mended {mended})", told.collect::<String>())
}

fn accepted(release: Release, answer: &Answer) -> String {
    let mended = |m: &u32| if release.has(7) { format!(" (mended {m})") } else { String::new() };
    match answer {
        Answer::Read { way, mended: m } => format!("(way {way}){}", mended(m)),
        Answer::Write { way, erased: None, merged, mended: m } => format!("(way {way}) (erased none) (merged {merged}){}", mended(m)),
        Answer::Write { way, erased: Some(block), merged, mended: m } => {
            format!("(way {way}) (erased {block}) (merged {merged}){}", mended(m))
        }
        Answer::Step { block, merged, mended: m } => format!("(block {block}) (merged {merged}){}", mended(m)),
        Answer::Clean => "clean".into(),
        Answer::Flush { rewrites, merged, mended: m } => format!("(rewrites {rewrites}) (merged {merged}){}", mended(m)),
    }
}

/// No read and no write goes by way 0.
fn rehearsed(t: &Tallies) -> String {
    let ways = format!("{} {}", list("reads", &t.reads[1..]), list("writes", &t.writes[1..]));
    format!("(rehearse {ways} (erased {}) (merged {}) (refused {}))", t.erased, t.merged, t.refused)
}

fn with_page(crc: &Option<u32>) -> String {
    crc.map_or(String::new(), |crc| format!(" (page {crc:08x})"))
}

fn refused(why: &Refusal) -> String {
    match why {
        Refusal::Worn(block) => format!("(refused 6 {block})"),
        other => format!("(refused {})", other.number()),
    }
}

/// A part of the dump, with the release from which it is printed.
struct Part {
    since: u32,
    text: fn(&State) -> String,
}

#[rustfmt::skip]
const PARTS: &[Part] = &[
    Part { since: 0, text: sizes },
    Part { since: 0, text: |s| list("places", &s.cache.directory.slots) },
    Part { since: 0, text: |s| list("frames", &s.cache.directory.frames) },
    Part { since: 0, text: |s| list("valid", &s.cache.directory.valid) },
    Part { since: 0, text: |s| list("order", &s.cache.directory.recency) },
    Part { since: 0, text: |s| hash("flash", &s.memory.flash) },
    Part { since: 0, text: |s| list("wear", &s.memory.wear) },
    Part { since: 0, text: |s| hash("pspace", &s.memory.pspace) },
    Part { since: 0, text: |s| hash("bspace", &s.memory.bspace) },
    Part { since: 5, text: |s| list("policy", &[s.cache.options.policy]) },
    Part { since: 5, text: |s| list("uses", &s.cache.directory.uses) },
    Part { since: 6, text: |s| list("coded", &[s.cache.options.coded]) },
    Part { since: 6, text: |s| hash("codes", &s.memory.codes) },
    Part { since: 8, text: |s| list("shelf", &[s.cache.options.shelf_pages]) },
    Part { since: 8, text: |s| list("shelfno", &s.cache.entries) },
    Part { since: 8, text: |s| hash("shelfbytes", &s.memory.shelf) },
    Part { since: 12, text: |s| list("marked", &[s.cache.options.marked]) },
    Part { since: 12, text: |s| hash("marks", &s.memory.marks) },
];

fn dump(release: Release, state: &State) -> String {
    let parts = PARTS.iter().filter(|part| release.has(part.since)).map(|part| format!(" {}", (part.text)(state)));
    format!("(dump{})", parts.collect::<String>())
}

fn sizes(state: &State) -> String {
    let z = &state.cache.sizes;
    list("sizes", &[z.page_size, z.pages_per_block, z.blocks, z.slots, z.frames, z.wear_limit])
}

fn list(word: &str, numbers: &[impl Display]) -> String {
    let numbers = numbers.iter().map(|x| format!(" {x}"));
    format!("({word}{})", numbers.collect::<String>())
}

fn hash(word: &str, bytes: &[u8]) -> String {
    format!("({word} {:08x})", crc32(bytes))
}
