//! Which histories are played, table by table.
use crate::history::{Course, Flush, History, Layout, READING};
use crate::options::Asked;
use clash::{Sizes, FIFO, LFU, LRU};

/// Histories that are shown together.
pub struct Table {
    pub title: String,
    pub histories: Vec<History>,
}

/// No block is to be worn here: wear is what is looked at.
const WEAR_LIMIT: u32 = 1_000_000;

/// One in so many readings writes a sheet, in the tables with sheets.
const SHEETS: u32 = 8;

/// What is varied in a table; all else is as asked for.
struct Range<'a> {
    slots: &'a [u32],
    frames: &'a [u32],
    benches: &'a [u32],
}

/// The tables that are asked for; the first two are those of the chart.
pub fn tables(asked: &Asked) -> Vec<Table> {
    let mut tables = of_chart(asked);
    if !asked.chart {
        tables.extend(others(asked));
    }
    tables
}

fn of_chart(asked: &Asked) -> Vec<Table> {
    let range = Range { slots: &asked.slots, frames: &asked.frames, benches: &asked.benches };
    let own = table(asked, "each bench on its own stretch of the chip, LRU", &range, own(asked), LRU);
    vec![own, table(asked, &format!("{}, LRU", runs_title(asked)), &range, runs(asked), LRU)]
}

/// Other policies, sheets and flushes, for fewer numbers of benches.
fn others(asked: &Asked) -> Vec<Table> {
    let range = Range { slots: &asked.slots, frames: &asked.frames, benches: &asked.few_benches };
    let own = own(asked);
    let mut tables = vec![table(asked, "own stretches, FIFO", &range, own, FIFO), table(asked, "own stretches, LFU", &range, own, LFU)];
    tables.extend(with_sheets(asked, &range));
    let flushed = Course { flush: Flush::Every(asked.flush), ..own };
    tables.push(table(asked, &format!("own stretches, LRU, a flush every {} readings", asked.flush), &range, flushed, LRU));
    tables.push(longer(asked));
    let saved = Course { flush: Flush::EachRun, ..runs(asked) };
    tables.push(table(asked, &format!("{}, LRU, a flush at the end of each run", runs_title(asked)), &range, saved, LRU));
    tables
}

/// One bench on a stretch of its own, and nothing else.
fn own(asked: &Asked) -> Course {
    Course { layout: Layout::Own, benches: 1, readings: asked.readings, in_turn: asked.in_turn, flush: Flush::AtEnd, sheets: 0 }
}

fn runs(asked: &Asked) -> Course {
    Course { layout: Layout::Runs(asked.run_pages), ..own(asked) }
}

fn runs_title(asked: &Asked) -> String {
    format!("runs of {} pages laid one after another", asked.run_pages)
}

/// Under each policy, with one block that is written again and again; for the middle number of slots.
fn with_sheets(asked: &Asked, range: &Range) -> Vec<Table> {
    let middle = asked.slots.len() / 2;
    let range = Range { slots: &asked.slots[middle..=middle], ..*range };
    let course = Course { sheets: SHEETS, ..own(asked) };
    let title = |policy| format!("own stretches, {policy}, every {SHEETS} readings a sheet in block 0");
    [("LRU", LRU), ("FIFO", FIFO), ("LFU", LFU)].map(|(name, policy)| table(asked, &title(name), &range, course, policy)).into()
}

/// With the most benches and frames, and 1, 2 and 4 times the readings, where the chip has room: flushed at the end alone, or now and then.
fn longer(asked: &Asked) -> Table {
    let range = Range { slots: &asked.slots, frames: last(&asked.frames), benches: last(&asked.benches) };
    let times = [1, 2, 4].into_iter().filter(|&times| times == 1 || has_room(asked, times));
    let lengths: Vec<u32> = times.map(|times| asked.readings * times).collect();
    let courses = [Flush::AtEnd, Flush::Every(asked.flush)]
        .into_iter()
        .flat_map(|flush| lengths.iter().map(move |&readings| Course { readings, flush, ..own(asked) }));
    let histories = courses.flat_map(|course| histories(asked, &range, course, LRU));
    Table { title: "own stretches, LRU, more readings".into(), histories: histories.collect() }
}

/// Whether so many times the readings fit into stretches for the most benches, also where one bench has some more than others.
fn has_room(asked: &Asked, times: u32) -> bool {
    let [page_size, pages_per_block, blocks] = asked.chip.map(u64::from);
    let benches = u64::from(last(&asked.benches)[0]);
    let share = u64::from(asked.readings) * u64::from(times) / benches;
    share + share / 8 < (blocks - 1) / benches * pages_per_block * (page_size / u64::from(READING))
}

fn last(list: &[u32]) -> &[u32] {
    &list[list.len() - 1..]
}

fn table(asked: &Asked, title: &str, range: &Range, course: Course, policy: u32) -> Table {
    Table { title: title.into(), histories: histories(asked, range, course, policy) }
}

fn histories(asked: &Asked, range: &Range, course: Course, policy: u32) -> Vec<History> {
    let [page_size, pages_per_block, blocks] = asked.chip;
    let mut found = Vec::new();
    for &slots in range.slots {
        for &frames in range.frames {
            let sizes = Sizes::from([page_size, pages_per_block, blocks, slots, frames, WEAR_LIMIT]);
            found.extend(range.benches.iter().map(|&benches| History { course: Course { benches, ..course }, sizes, policy }));
        }
    }
    found
}

#[cfg(test)]
mod tests {
    use super::*;

    /// All sizes that are played are such as an opening takes.
    #[test]
    fn sizes_in_limits() {
        let tables = tables(&Asked::default());
        assert_eq!(tables.len(), 10);
        assert!(tables.iter().flat_map(|table| &table.histories).all(|history| history.sizes.in_limits()));
        assert_eq!(tables[0].histories.len(), tables[1].histories.len());
        assert_eq!(super::tables(&Asked { chart: true, ..Asked::default() }).len(), 2);
    }
}
