//! What is printed of the histories that were played, and the same as numbers for other programs.
use crate::history::{Flush, History, Layout, Tally};
use clash::{FIFO, LFU};

/// A history and what it came to.
pub type Played = (History, Tally);

const HEAD: &str = "policy    P  B   RAM KiB  benches  readings   flush  least  erasures  over least  merge reads  worst block";

/// A line for each history.
pub fn rows(title: &str, played: &[Played]) -> String {
    let rows: String = played.iter().map(|row| line(row) + "\n").collect();
    format!("{title}\n{HEAD}\n{rows}")
}

fn line((history, tally): &Played) -> String {
    let (course, sizes) = (&history.course, &history.sizes);
    format!(
        "{:<6} {:>4} {:>2} {:>9.1} {:>8} {:>9} {:>7} {:>6} {:>9} {:>11} {:>12} {:>12}",
        policy(history),
        sizes.slots,
        sizes.frames,
        kib(history),
        course.benches,
        course.readings,
        flush(history),
        tally.least,
        tally.erasures,
        over(tally),
        tally.merge_reads,
        tally.worst
    )
}

/// Erasures over the least possible: a line for each choice, and a column for each number of benches.
pub fn digest(title: &str, played: &[Played]) -> String {
    let mut benches: Vec<u32> = played.iter().map(|(history, _)| history.course.benches).collect();
    benches.sort_unstable();
    benches.dedup();
    let counts: String = benches.iter().map(|count| format!(" {count:>7}")).collect();
    let lines: String = played.chunks(benches.len()).map(|choice| digest_line(choice) + "\n").collect();
    format!("{title}\nreadings   flush    P  B   RAM KiB |{counts} benches\n{lines}")
}

/// The histories of one choice, by benches.
fn digest_line(choice: &[Played]) -> String {
    let (history, _) = &choice[0];
    let (readings, sizes) = (history.course.readings, &history.sizes);
    let cells: String = choice.iter().map(|(_, tally)| format!(" {:>7}", over(tally))).collect();
    let flush = flush(history);
    format!("{readings:>8} {flush:>7} {:>4} {:>2} {:>9.1} |{cells}", sizes.slots, sizes.frames, kib(history))
}

/// With more digits where it is small.
fn over(tally: &Tally) -> String {
    let over = tally.over();
    match over {
        ..10.0 => format!("{over:.2}"),
        10.0..100.0 => format!("{over:.1}"),
        _ => format!("{over:.0}"),
    }
}

fn flush(history: &History) -> String {
    match history.course.flush {
        Flush::AtEnd => "end".into(),
        Flush::Every(readings) => readings.to_string(),
        Flush::EachRun => "run".into(),
    }
}

fn kib(history: &History) -> f64 {
    history.ram() as f64 / 1024.0
}

fn policy(history: &History) -> &'static str {
    match history.policy {
        FIFO => "FIFO",
        LFU => "LFU",
        _ => "LRU",
    }
}

/// All histories as numbers between tabs, under a line with their names.
pub fn numbers(played: &[Played]) -> String {
    let head = "layout\tpolicy\tflush\tsheets\treadings\tslots\tframes\tram\tbenches\tleast\terasures\tmerge_reads\tworst\n";
    played.iter().fold(head.to_string(), |text, row| text + &numbers_line(row) + "\n")
}

fn numbers_line((history, tally): &Played) -> String {
    let (course, sizes) = (&history.course, &history.sizes);
    let layout = match course.layout {
        Layout::Own => "own".to_string(),
        Layout::Runs(pages) => format!("runs of {pages}"),
    };
    let chosen = [course.sheets, course.readings, sizes.slots, sizes.frames, history.ram() as u32, course.benches];
    let counted = [tally.least, tally.erasures].map(u64::from);
    let counted = counted.into_iter().chain([tally.merge_reads, tally.worst.into()]);
    let numbers = chosen.into_iter().map(u64::from).chain(counted);
    let numbers: String = numbers.map(|x| format!("\t{x}")).collect();
    format!("{layout}\t{}\t{}{numbers}", policy(history), flush(history))
}

#[cfg(test)]
mod tests {
    use super::*;
    use crate::history::Course;
    use clash::{Sizes, LRU};

    fn played(benches: u32, erasures: u32) -> Played {
        let course = Course { layout: Layout::Own, benches, readings: 200_000, in_turn: false, flush: Flush::AtEnd, sheets: 0 };
        let sizes = Sizes::from([512, 32, 1024, 8, 1, 9]);
        (History { course, sizes, policy: LRU }, Tally { least: 64, erasures, merge_reads: 5, worst: 2 })
    }

    #[test]
    fn as_columns() {
        let played = [played(1, 65), played(16, 124_413)];
        let said = [
            "title",
            "policy    P  B   RAM KiB  benches  readings   flush  least  erasures  over least  merge reads  worst block",
            "LRU       8  1      24.7        1    200000     end     64        65        1.02            5            2",
            "LRU       8  1      24.7       16    200000     end     64    124413        1944            5            2",
        ];
        assert_eq!(rows("title", &played).lines().collect::<Vec<_>>(), said);
        let short = [
            "title",
            "readings   flush    P  B   RAM KiB |       1      16 benches",
            "  200000     end    8  1      24.7 |    1.02    1944",
        ];
        assert_eq!(digest("title", &played).lines().collect::<Vec<_>>(), short);
        let numbers = numbers(&played[..1]);
        assert_eq!(numbers.lines().last(), Some("own\tLRU\tend\t0\t200000\t8\t1\t25296\t1\t64\t65\t5\t2"));
        assert!(numbers.lines().all(|line| line.split('\t').count() == 13));
    }
}
