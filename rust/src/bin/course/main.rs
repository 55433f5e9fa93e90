//! Plays long histories of a course on the store, for who chooses P, B and the policy; `tools/course` builds and runs it. `history` has
//! what a course writes and what is counted, `sweep` which histories are played, `table` and `chart` what is made of them.
mod chart;
mod history;
mod options;
mod players;
mod sweep;
mod table;

use chart::Panel;
use history::{History, Layout, Trouble};
use options::Asked;
use std::io::{self, Write};
use std::process::ExitCode;
use std::{env, fs};
use sweep::Table;
use table::Played;

/// What `--help` prints, for `tools/course` too.
const HELP: &str = include_str!("help.txt");

const MISUSED: u8 = 2;

fn main() -> ExitCode {
    let asked = match options::parse(env::args().skip(1)) {
        Ok(asked) => asked,
        Err(wrong) => {
            eprintln!("course: {wrong}; --help has the options");
            return ExitCode::from(MISUSED);
        }
    };
    let done = if asked.help { say(HELP) } else { run(&asked) };
    match done {
        Ok(()) => ExitCode::SUCCESS,
        Err(why) => {
            eprintln!("course: {why}");
            ExitCode::FAILURE
        }
    }
}

fn say(text: &str) -> Result<(), String> {
    io::stdout().lock().write_all(text.as_bytes()).map_err(|e| format!("standard output: {e}"))
}

fn run(asked: &Asked) -> Result<(), String> {
    let at_out = |e: io::Error| format!("{}: {e}", asked.out.display());
    fs::create_dir_all(&asked.out).map_err(at_out)?;
    let tables = sweep::tables(asked);
    let histories: Vec<History> = tables.iter().flat_map(|table| table.histories.clone()).collect();
    let tallies = players::play(&histories).map_err(|(history, why)| trouble(&history, why))?;
    let played: Vec<Played> = histories.into_iter().zip(tallies).collect();
    let sections = sections(&tables, &played);
    say(&report(asked, &sections))?;
    fs::write(asked.out.join("course.tsv"), table::numbers(&played)).map_err(at_out)?;
    fs::write(asked.out.join("course.gnuplot"), chart::script(&title(asked), &panels(&sections))).map_err(at_out)?;
    drawn(asked)
}

/// The tables with what was played for each.
fn sections<'a>(tables: &'a [Table], played: &'a [Played]) -> Vec<(&'a Table, &'a [Played])> {
    let mut rest = played;
    let cut = |table: &'a Table| {
        let (own, after) = rest.split_at(table.histories.len());
        rest = after;
        (table, own)
    };
    tables.iter().map(cut).collect()
}

fn report(asked: &Asked, sections: &[(&Table, &[Played])]) -> String {
    let rows = sections.iter().map(|(table, played)| table::rows(&table.title, played) + "\n");
    let digests = sections.iter().map(|(table, played)| table::digest(&table.title, played) + "\n");
    format!("{}\n\n{}ERASURES OVER THE LEAST POSSIBLE\n\n{}", title(asked), rows.collect::<String>(), digests.collect::<String>())
}

fn title(asked: &Asked) -> String {
    let [page_size, pages_per_block, blocks] = asked.chip.map(grouped);
    let order = if asked.in_turn { "in turn" } else { "in random order" };
    let (readings, size) = (grouped(asked.readings), history::READING);
    format!("{readings} readings of {size} bytes, benches {order}, chip of S {page_size}, K {pages_per_block}, N {blocks}")
}

/// A number with commas between thousands.
fn grouped(x: u32) -> String {
    let digits = x.to_string();
    let parts: Vec<&str> = digits.as_bytes().rchunks(3).rev().map(|part| std::str::from_utf8(part).unwrap_or("")).collect();
    parts.join(",")
}

/// The chart has the first two tables.
fn panels<'a>(sections: &[(&'a Table, &'a [Played])]) -> [Panel<'a>; 2] {
    [0, 1].map(|i| Panel { title: &sections[i].0.title, played: sections[i].1 })
}

/// Draws the chart where that can be done, and says where everything is.
fn drawn(asked: &Asked) -> Result<(), String> {
    let out = asked.out.display();
    match chart::draw(&asked.out).map_err(|e| format!("gnuplot: {e}"))? {
        Some(true) => say(&format!("{out}/course.svg has the chart, {out}/course.tsv all numbers\n")),
        Some(false) => Err(format!("gnuplot could not draw {out}/course.gnuplot; {out}/course.tsv has all numbers")),
        None => say(&format!(
            "No chart was drawn: there is no command gnuplot (Debian has it in gnuplot-nox). Where there is one, run it in {out} \
             on course.gnuplot. {out}/course.tsv has all numbers\n"
        )),
    }
}

fn trouble(history: &History, why: Trouble) -> String {
    let course = &history.course;
    match why {
        Trouble::Refused(why) => format!("the store refused a call, with {} benches: {why}", course.benches),
        Trouble::Full => {
            let room = if course.layout == Layout::Own { "a bench's stretch" } else { "the chip" };
            format!(
                "{room} has no room for {} readings of {} benches: fewer --readings, or a larger --chip",
                course.readings, course.benches
            )
        }
    }
}

#[cfg(test)]
mod tests {
    #[test]
    fn grouped() {
        assert_eq!([0, 999, 1_000, 200_000, 4_294_967_295].map(super::grouped), ["0", "999", "1,000", "200,000", "4,294,967,295"]);
    }
}
