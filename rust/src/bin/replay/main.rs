//! The replay driver: reads a script of the line protocol from standard input, carries each line out on the store and prints what
//! the protocol asks. `forms` has the tables of what a line may say, with the release from which each is in force.
mod crc32;
mod fields;
mod forms;
mod perform;
mod print;
mod words;

use std::io::{self, BufWriter, Read, Write};

/// How many of document 02's requests are in force.
#[derive(Clone, Copy)]
pub struct Release(u32);

const RELEASE: Release = Release(14);

impl Release {
    /// Whether what request `since` brings, or the base where it is 0, is in force.
    fn has(self, since: u32) -> bool {
        since <= self.0
    }
}

fn main() -> io::Result<()> {
    let mut script = Vec::new();
    io::stdin().lock().read_to_end(&mut script)?;
    let mut out = BufWriter::new(io::stdout().lock());
    let mut state = perform::State::new();
    for (i, line) in lines(&script).enumerate() {
        if let Some(text) = answer(RELEASE, &mut state, line, i + 1) {
            writeln!(out, "{text}")?;
        }
    }
    out.flush()
}

/// The lines of a script. The last may lack its byte 10, and nothing after a final byte 10 is a line.
fn lines(script: &[u8]) -> impl Iterator<Item = &[u8]> {
    let text = script.strip_suffix(b"\n").unwrap_or(script);
    let count = if script.is_empty() { 0 } else { usize::MAX };
    text.split(|&byte| byte == b'\n').take(count)
}

fn answer(release: Release, state: &mut perform::State, line: &[u8], number: usize) -> Option<String> {
    let reply = match forms::parse(release, line) {
        Some((word, form)) => state.perform(form).map(|said| print::said(release, word, &said, state)),
        None => Err(perform::Bad),
    };
    reply.unwrap_or_else(|perform::Bad| Some(format!("(bad {number})")))
}

#[cfg(test)]
mod tests {
    use super::*;

    fn replay(script: &str) -> Vec<String> {
        replay_at(RELEASE, script)
    }

    fn replay_at(release: Release, script: &str) -> Vec<String> {
        let mut state = perform::State::new();
        lines(script.as_bytes()).enumerate().filter_map(|(i, line)| answer(release, &mut state, line, i + 1)).collect()
    }

    #[test]
    fn a_script_has_as_many_lines_as_ends() {
        assert_eq!(lines(b"").count(), 0);
        assert_eq!(lines(b"\n").count(), 1);
        assert_eq!(lines(b"(step)").count(), 1);
        assert_eq!(lines(b"(step)\n\n(flush)\n").count(), 3);
    }

    #[test]
    fn answers() {
        let script = "(open 1 2 3 2 1 9 0 0 0 0)\n(write 0 10)\n(write 2 20)\n(write 4 30)\n(write 3 40)\n(read 2)\n(writelen 0 0 2)\n\
                      (step)\n(flush)\n(step)\n(read 6)\n(setwear 0 9)\n(write 0 1)\n(step)\n(spoil s 0 0)\n(readlen 0 1)\n";
        let said = [
            "(open (done) (torn 0))",
            "(write (way 3) (erased none) (merged 0) (mended 0))",
            "(write (way 3) (erased none) (merged 0) (mended 0))",
            "(write (way 5) (erased none) (merged 0) (mended 0))",
            "(write (way 7) (erased 0) (merged 1) (mended 0))",
            "(read (way 2) (mended 0) (page c8d83bf0))",
            "(writelen (refused 2))",
            "(step (block 1) (merged 0) (mended 0))",
            "(flush (rewrites 1) (merged 1) (mended 0))",
            "(step clean)",
            "(read (refused 5))",
            "(write (way 3) (erased none) (merged 0) (mended 0))",
            "(step (refused 6 0))",
            "(readlen (refused 4))",
        ];
        assert_eq!(replay(script), said);
    }

    #[test]
    fn part_writes() {
        let script = "(open 2 4 3 3 1 9 0 0 0 0)\n(part 0 1 10 1)\n(part 0 0 20 2)\n(part 0 2 0 0)\n(part 0 1 0 2)\n(part 0 3 0 0)\n\
                      (part 12 9 0 9)\n(read 0)\n(part 0 0 0)\n(part 0 0 0 4294967295)\n";
        let said = [
            "(open (done) (torn 0))",
            "(part (way 3) (erased none) (merged 0) (mended 0) (page 32280693))",
            "(part (way 1) (erased none) (merged 0) (mended 0) (page e5120c46))",
            "(part (way 0) (erased none) (merged 0) (mended 0) (page 34150d34))",
            "(part (refused 2))",
            "(part (refused 2))",
            "(part (refused 5))",
            "(read (way 1) (mended 0) (page e5120c46))",
            "(bad 9)",
            "(part (refused 2))",
        ];
        assert_eq!(replay(script), said);
    }

    /// At release 6 the same without the mends and the torn blocks.
    #[test]
    fn flipped_bits() {
        let script = "(open 256 2 3 2 1 9 0 1 0 0)\n(read 0)\n(flip flash 5 3)\n(flip code 3 0)\n(write 1 9)\n(read 0)\n(flip flash 5 4)\n\
                      (read 0)\n(flush)\n(flip code 17 8)\n(flip code 18 0)\n(flip flash 5 4)\n(flush)\n";
        let said = [
            "(open (done) (torn 0))",
            "(read (way 3) (mended 0) (page fea8a821))",
            "(write (way 3) (erased none) (merged 0) (mended 0))",
            "(read (way 3) (mended 1) (page fea8a821))",
            "(read (refused 7))",
            "(flush (refused 7))",
            "(bad 10)",
            "(bad 11)",
            "(flush (rewrites 1) (merged 1) (mended 1))",
        ];
        assert_eq!(replay(script), said);
        let plainly =
            said.map(|line| [" (mended 0)", " (mended 1)", " (torn 0)"].iter().fold(line.into(), |l: String, word| l.replace(word, "")));
        assert_eq!(replay_at(Release(6), script), plainly);
    }

    #[test]
    fn bad_lines_say_their_number() {
        let script = "(step)\n\n(step )\n(flip flash 0 0)\n(open 2048 64 4096 1 1 1 0 0 0 0)\n(open 2048 64 4096 1 1 0 0 0 0 0)";
        assert_eq!(replay(script), ["(step (refused 4))", "(bad 2)", "(bad 3)", "(bad 4)", "(bad 5)", "(open (refused 1))"]);
    }

    #[test]
    fn the_dump_before_an_opening() {
        let said = replay("(dump)").concat();
        assert!(said.starts_with("(dump (sizes 0 0 0 0 0 0) (places 4294967295 "), "{said}");
        let middle = " (valid 0 0 0 0 0 0 0 0) (order 0 1 2 3 4 5 6 7) (flash 00000000) (wear) (pspace 00000000) (bspace 00000000)";
        let shelf = format!(" (shelf 0) (shelfno{}) (shelfbytes 00000000)", " 4294967295".repeat(8));
        let end = format!(" (coded 0) (codes 00000000){shelf} (marked 0) (marks 00000000))");
        assert!(said.contains(middle) && said.contains(" (policy 0) (uses 0 0 0 0 0 0 0 0)") && said.ends_with(&end), "{said}");
    }

    /// What follows p-space and b-space in the dump is of the options in force, and of no other.
    #[test]
    fn the_dump_says_the_options_in_force() {
        let shelf = format!(" (shelf 0) (shelfno{}) (shelfbytes 00000000)", " 4294967295".repeat(8));
        let told = [" (policy 0) (uses 0 0 0 0 0 0 0 0)", " (coded 0) (codes 00000000)", &shelf, " (marked 0) (marks 00000000)"];
        for (release, many) in [(4, 0), (5, 1), (6, 2), (7, 2), (8, 3), (11, 3), (12, 4), (14, 4)] {
            for script in ["(dump)", "(open 1 2 3 2 1 9 0 0 0 0)\n(dump)"] {
                let said = replay_at(Release(release), script).pop().unwrap();
                let (_, rest) = said.split_once(" (bspace ").unwrap();
                assert_eq!(rest[8..], format!("){})", told[..many].concat()));
            }
        }
    }

    #[test]
    fn taking_back() {
        let script = "(open 1 2 3 2 1 9 0 0 2 0)\n(takeback)\n(write 0 10)\n(write 0 20)\n(part 0 0 30 1)\n(takeback)\n(read 0)\n\
                      (takeback)\n(read 0)\n(takeback)\n(takeback 0)\n";
        let said = [
            "(open (done) (torn 0))",
            "(takeback (refused 8))",
            "(write (way 3) (erased none) (merged 0) (mended 0))",
            "(write (way 1) (erased none) (merged 0) (mended 0))",
            "(part (way 1) (erased none) (merged 0) (mended 0) (page 280dd2ee))",
            "(takeback (way 1) (erased none) (merged 0) (mended 0))",
            "(read (way 1) (mended 0) (page c8d83bf0))",
            "(takeback (way 1) (erased none) (merged 0) (mended 0))",
            "(read (way 1) (mended 0) (page 32d70693))",
            "(takeback (refused 8))",
            "(bad 11)",
        ];
        assert_eq!(replay(script), said);
        assert_eq!(replay_at(Release(7), "(takeback)"), ["(bad 1)"]);
    }

    #[test]
    fn cuts_lose_the_record() {
        let script = "(open 1 2 3 2 1 9 0 0 0 1)\n(write 0 1)\n(cut 2 flush)\n(flush)\n(reopen 1 2 3 2 1 9 0 0 0 1)\n(read 0)\n(read 1)\n\
                      (write 1 1)\n(cut 3 step)\n(reopen 1 2 3 2 1 9 0 0 0 1)\n(setmark 4 7)\n(cut 0 write 6 1)\n\
                      (reopen 1 2 3 2 1 9 0 0 0 1)\n(cut 1 read 0)\n(setmark 6 0)\n(setmark 5 256)\n";
        let said = [
            "(open (done) (torn 0))",
            "(write (way 3) (erased none) (merged 0) (mended 0))",
            "(cut stopped)",
            "(flush (refused 4))",
            "(open (done) (torn 1))",
            "(read (way 3) (mended 0) (page a505df1b))",
            "(read (refused 14))",
            "(write (way 3) (erased none) (merged 0) (mended 0))",
            "(cut whole)",
            "(open (done) (torn 0))",
            "(write (refused 5))",
            "(open (done) (torn 1))",
            "(bad 14)",
            "(bad 15)",
            "(bad 16)",
        ];
        assert_eq!(replay(script), said);
        assert_eq!(replay_at(Release(11), "(cut 1 step)\n(setmark 0 0)"), ["(bad 1)", "(bad 2)"]);
    }

    #[test]
    fn rehearsals_touch_no_store() {
        let class = "(rehearse 1 2 3 2 1 9 2 8 128 128 7)";
        let said =
            replay(&format!("(open 1 2 3 2 1 9 0 0 0 0)\n(write 0 1)\n(dump)\n{class}\n(rehearse 1 2 3 2 1 9 17 8 0 0 7)\n(dump)\n"));
        assert!(said[3].starts_with("(rehearse (reads ") && said[3].ends_with(" (refused 0))"), "{}", said[3]);
        assert_eq!((&said[4][..], &said[2]), ("(rehearse (refused 1))", &said[5]));
        assert_eq!(replay_at(Release(12), class), ["(bad 1)"]);
    }

    #[test]
    fn reports() {
        let script = "(report)\n(open 1 2 3 2 1 9 0 0 0 0)\n(report)\n(setwear 0 9)\n(setwear 2 4)\n(report)\n(setwear 1 10)\n(report)\n\
                      (spoil s 0 2)\n(report)\n";
        let said = [
            "(report (refused 4))",
            "(open (done) (torn 0))",
            "(report (total 0) (largest 0) (spread 0))",
            "(report (total 13) (largest 9) (spread 122))",
            "(report (refused 3))",
            "(report (refused 2))",
        ];
        assert_eq!(replay(script), said);
        assert_eq!(replay_at(Release(13), "(report)"), ["(bad 1)"]);
    }

    const RUNS: &str = "(open 32 4 4 2 1 9 0 0 0 0)\n(add 3 0 7 5 3 2)\n(look 3 0 7 1)\n(look 3 0 8 1)\n(list 3 0 7 0)\n(list 3 0 7 1)\n\
                        (write 4 9)\n(cread 3 0 8 1 1)\n(cread 3 0 8 1 2)\n(mark 3 1 0 1 9)\n(mark 3 2 0 1 101)\n(mark 3 2 0 1 9)\n\
                        (replace 3 1 7 1 5 4 1)\n(replace 3 1 7 1 5 5 1)\n(look 3 2 0 1)\n(mark 3 2 0 1 10)\n(add 16 0 0 0 1 1)\n";

    #[test]
    fn runs() {
        let said = [
            "(open (done) (torn 0))",
            "(add 1 (way 3) (erased none) (merged 0) (mended 0) (page 1aea41e0))",
            "(look 1 7 5 3 2 255 0 1 (mended 0))",
            "(look 1 0 5 3 2 255 0 1 (mended 0))",
            "(list 1 (mended 0))",
            "(list (refused 10))",
            "(write (way 3) (erased none) (merged 0) (mended 0))",
            "(cread (way 1) (mended 0) (page c057f5c4))",
            "(cread (refused 11))",
            "(mark (refused 12))",
            "(mark (refused 11))",
            "(mark (way 1) (erased none) (merged 0) (mended 0) (page b15a0a14))",
            "(replace (refused 11))",
            "(replace 2 (way 5) (erased none) (merged 0) (mended 0) (page b2b460e6))",
            "(look 1 7 5 3 2 9 0 2 (mended 0))",
            "(mark (refused 13))",
            "(add (refused 1))",
        ];
        assert_eq!(replay(RUNS), said);
        assert!(replay_at(Release(8), RUNS)[1..6].iter().all(|line| line.starts_with("(bad ")));
    }

    /// Before roles whoever calls may mark and sees every sheet; before replacements a look says neither of them.
    #[test]
    fn runs_before_roles_and_replacements() {
        let (nine, ten) = (replay_at(Release(9), RUNS), replay_at(Release(10), RUNS));
        assert_eq!((&nine[3][..], &ten[3][..]), ("(look 1 7 5 3 2 255 (mended 0))", "(look 1 0 5 3 2 255 (mended 0))"));
        assert!(nine[9].starts_with("(mark (way ") && ten[9] == "(mark (refused 12))");
        assert_eq!((&nine[12][..], &ten[12][..]), ("(bad 13)", "(bad 13)"));
    }

    /// An option that is in force is the store's to take or to refuse.
    #[test]
    fn options_reach_the_store() {
        let script = |options| format!("(open 256 2 3 2 1 9 {options})\n(open 256 2 3 2 1 9 0 0 0 0)\n(reopen 256 2 3 2 1 9 {options})\n");
        let done = "(open (done) (torn 0))";
        for options in ["3 0 0 0", "0 0 9 0", "0 0 4294967295 0"] {
            assert_eq!(replay(&script(options)), ["(open (refused 1))", done, "(open (refused 1))"]);
        }
        for (options, since, again) in [
            ("1 0 0 0", 5, done),
            ("2 0 0 0", 5, done),
            ("0 1 0 0", 6, "(open (refused 2))"),
            ("0 0 1 0", 8, "(open (refused 2))"),
            ("0 0 8 0", 8, "(open (refused 2))"),
            ("0 0 0 1", 12, "(open (refused 2))"),
        ] {
            assert_eq!(replay_at(Release(since - 1), &script(options)), ["(bad 1)", "(open (done))", "(bad 3)"]);
            assert_eq!(replay(&script(options)), [done, done, again]);
        }
        assert_eq!(replay("(open 255 2 3 2 1 9 0 1 0 0)"), ["(open (refused 1))"]);
    }

    #[test]
    fn what_the_options_add_to_a_record_can_be_spoilt() {
        let script = |spoil| format!("(open 1 2 3 2 1 9 0 0 0 0)\n(spoil {spoil})\n(read 0)\n");
        assert_eq!(replay_at(Release(11), &script("marked 0 1"))[1], "(bad 2)");
        assert_eq!(replay(&script("marked 0 2"))[1..], ["(read (refused 4))"]);
        for spoil in ["shelf 0 1", "marked 0 1"] {
            assert_eq!(replay(&script(spoil))[1..], ["(read (refused 2))"]);
        }
        for spoil in ["shelf 0 9", "shelfno 0 0", "shelfno 7 4294967294"] {
            assert_eq!(replay_at(Release(7), &script(spoil))[1], "(bad 2)", "{spoil}");
            assert_eq!(replay(&script(spoil))[1..], ["(read (refused 4))"], "{spoil}");
        }
        for spoil in ["policy 0 3", "uses 0 1", "uses 7 1", "coded 0 1"] {
            assert_eq!(replay_at(Release(4), &script(spoil))[1], "(bad 2)", "{spoil}");
            assert_eq!(replay(&script(spoil))[1..], ["(read (refused 4))"], "{spoil}");
        }
    }
}
