//! Replays the outside vectors on the plain store: each script `rRR-NN.in` at its release RR, what it prints byte for byte as in
//! `rRR-NN.out`. The folder is named by the environment variable `VECTORS`; where it is not set, nothing is replayed.
#[path = "../../../../rust/src/bin/replay/crc32.rs"]
mod crc32;
mod fields;
mod forms;
mod perform;
mod print;
mod words;

use std::collections::BTreeMap;
use std::path::Path;
use std::{env, fs};

/// How many of document 02's requests are in force.
#[derive(Clone, Copy, PartialEq, Eq, PartialOrd, Ord)]
pub struct Release(u32);

/// The store has the first four requests whatever the release.
const FIRST: Release = Release(4);
const LAST: Release = Release(14);

impl Release {
    fn has(self, since: u32) -> bool {
        since <= self.0
    }

    /// The release of `rRR-NN.in`.
    fn of(path: &Path) -> Option<Release> {
        let name = path.file_name()?.to_str()?.strip_suffix(".in")?;
        name.strip_prefix('r')?.split_once('-')?.0.parse().ok().map(Release)
    }
}

/// What a script prints.
fn replay(release: Release, script: &[u8]) -> String {
    let mut state = perform::State::new();
    let text = script.strip_suffix(b"\n").unwrap_or(script);
    let lines = text.split(|&byte| byte == b'\n').enumerate();
    lines.filter_map(|(i, line)| answer(release, &mut state, line, i + 1)).map(|line| line + "\n").collect()
}

fn answer(release: Release, state: &mut perform::State, line: &[u8], number: usize) -> Option<String> {
    let reply = match forms::parse(release, line) {
        Some((word, form)) => state.perform(form).map(|said| print::said(release, word, &said, state)),
        None => Err(perform::Bad),
    };
    reply.unwrap_or_else(|perform::Bad| Some(format!("(bad {number})")))
}

#[test]
fn vectors_print_their_bytes() {
    let Some(folder) = env::var_os("VECTORS") else {
        println!("VECTORS is not set: nothing is replayed");
        return;
    };
    let mut replayed: BTreeMap<u32, u32> = BTreeMap::new();
    for entry in fs::read_dir(&folder).unwrap() {
        let path = entry.unwrap().path();
        let Some(release) = Release::of(&path).filter(|release| (FIRST..=LAST).contains(release)) else { continue };
        let wanted = fs::read_to_string(path.with_extension("out")).unwrap();
        compare(&path, &replay(release, &fs::read(&path).unwrap()), &wanted);
        *replayed.entry(release.0).or_default() += 1;
    }
    println!("scripts that print their bytes, by release: {replayed:?}");
    assert!(!replayed.is_empty(), "no script of a release in force in {folder:?}");
}

fn compare(path: &Path, said: &str, wanted: &str) {
    for (i, (said, wanted)) in said.lines().zip(wanted.lines()).enumerate() {
        assert_eq!(said, wanted, "{}, line {} of what it prints", path.display(), i + 1);
    }
    assert_eq!(said, wanted, "{}", path.display());
}

#[test]
fn bad_lines_say_their_number() {
    let script = b"(step)\n\n(step )\n(read 01)\n(open 2048 64 4096 1 1 1 0 0 0 0)\n(open 2048 64 4096 1 1 0 0 0 0 0)";
    assert_eq!(replay(LAST, script), "(step (refused 4))\n(bad 2)\n(bad 3)\n(bad 4)\n(bad 5)\n(open (refused 1))\n");
}

#[test]
fn cuts_lose_the_record() {
    let script = b"(open 1 2 3 2 1 9 0 0 0 1)\n(write 0 1)\n(cut 2 flush)\n(flush)\n(reopen 1 2 3 2 1 9 0 0 0 1)\n(read 0)\n(read 1)\n\
                   (write 1 1)\n(cut 3 step)\n(reopen 1 2 3 2 1 9 0 0 0 1)\n(setmark 4 7)\n(cut 0 write 6 1)\n\
                   (reopen 1 2 3 2 1 9 0 0 0 1)\n(cut 1 read 0)\n(setmark 6 0)\n";
    let said = "(open (done) (torn 0))\n(write (way 3) (erased none) (merged 0) (mended 0))\n(cut stopped)\n(flush (refused 4))\n\
                (open (done) (torn 1))\n(read (way 3) (mended 0) (page a505df1b))\n(read (refused 14))\n\
                (write (way 3) (erased none) (merged 0) (mended 0))\n(cut whole)\n(open (done) (torn 0))\n(write (refused 5))\n\
                (open (done) (torn 1))\n(bad 14)\n(bad 15)\n";
    assert_eq!(replay(Release(12), script), said);
}
