//! The chart: a script for gnuplot with the numbers in it.
use crate::table::Played;
use std::collections::{BTreeMap, BTreeSet};
use std::io;
use std::path::Path;
use std::process::Command;

/// A panel of the chart: its title and what it shows.
pub struct Panel<'a> {
    pub title: &'a str,
    pub played: &'a [Played],
}

/// For P and B: the RAM that they need in KiB, and points of benches and erasures over the least possible.
type Lines = BTreeMap<(u32, u32), (usize, Vec<(u32, f64)>)>;

/// A line's colour goes by B, its dashes and points by P.
const COLOURS: [&str; 8] = ["#b2182b", "#ef8a62", "#4393c3", "#1a9850", "#762a83", "#8c510a", "#01665e", "#333333"];

/// Gnuplot's numbers of filled points.
const POINTS: [u32; 5] = [7, 9, 5, 13, 11];

/// Left, right: where the panels stand, in parts of the chart's width; the legend is right of them.
const PLACES: [(f64, f64); 2] = [(0.06, 0.395), (0.445, 0.78)];

/// A script that draws the panels into a file beside it.
pub fn script(title: &str, panels: &[Panel; 2]) -> String {
    let lines = panels.each_ref().map(|panel| lines(panel.played));
    let mut text = begin(title, &lines);
    for (i, panel) in panels.iter().enumerate() {
        text += &data(i, &lines[i]);
        text += &plot(i, panel.title, &lines[i]);
    }
    text + "unset multiplot\n"
}

fn lines(played: &[Played]) -> Lines {
    let mut lines = Lines::new();
    for (history, tally) in played {
        let key = (history.sizes.slots, history.sizes.frames);
        let (ram, points) = lines.entry(key).or_default();
        *ram = (history.ram() + 512) / 1024;
        points.push((history.course.benches, tally.over()));
    }
    lines
}

fn begin(title: &str, lines: &[Lines]) -> String {
    let points = || lines.iter().flat_map(|lines| lines.values().flat_map(|line| &line.1));
    let most = points().map(|point| point.1).fold(10.0, f64::max);
    let benches: BTreeSet<u32> = points().map(|point| point.0).collect();
    let tics: Vec<String> = benches.iter().map(u32::to_string).collect();
    format!(
        "set terminal svg noenhanced size 1280,600 font 'sans-serif,14' background '#ffffff'\n\
         set output 'course.svg'\n\
         set multiplot title \"{title}\" font 'sans-serif,16'\n\
         set logscale y\n\
         set yrange [0.8:{:.0}]\n\
         set xrange [0.5:{}.5]\n\
         set xtics ({})\n\
         set format y '%.0f'\n\
         set grid xtics ytics lt 1 lc rgb '#dddddd'\n\
         set tmargin at screen 0.84\n\
         set bmargin at screen 0.12\n\
         set xlabel 'benches'\n",
        most * 1.5,
        benches.last().unwrap_or(&1),
        tics.join(", ")
    )
}

fn data(panel: usize, lines: &Lines) -> String {
    let mut text = String::new();
    for ((slots, frames), (_, points)) in lines {
        let points: String = points.iter().map(|(benches, over)| format!("{benches} {over:.4}\n")).collect();
        text += &format!("$panel{panel}_{slots}_{frames} << END\n{points}END\n");
    }
    text
}

fn plot(panel: usize, title: &str, lines: &Lines) -> String {
    let (left, right) = PLACES[panel];
    let label = if panel == 0 { "erasures over the least possible" } else { "" };
    let key = if panel == 0 { "unset key" } else { "set key at screen 0.8, 0.86 left top Left reverse spacing 1.25 samplen 3" };
    let styles = ranks(lines.keys().map(|key| key.0));
    let colours = ranks(lines.keys().map(|key| key.1));
    let curves = lines.iter().map(|(&(slots, frames), (ram, _))| {
        let (style, colour) = (styles[&slots] % POINTS.len(), COLOURS[colours[&frames] % COLOURS.len()]);
        let look = format!("lw 2 ps 0.7 dt {} pt {} lc rgb '{colour}'", style + 1, POINTS[style]);
        format!("$panel{panel}_{slots}_{frames} with linespoints {look} title 'P {slots}, B {frames}: {ram} KiB'")
    });
    format!(
        "set title \"{title}\"\nset ylabel '{label}'\n{key}\nset lmargin at screen {left}\nset rmargin at screen {right}\nplot {}\n",
        curves.collect::<Vec<_>>().join(", \\\n     ")
    )
}

/// Each number that occurs, with how many smaller ones do.
fn ranks(numbers: impl Iterator<Item = u32>) -> BTreeMap<u32, usize> {
    let sorted: BTreeSet<u32> = numbers.collect();
    sorted.into_iter().enumerate().map(|(rank, x)| (x, rank)).collect()
}

/// Has gnuplot draw `course.svg` by the script `course.gnuplot` of a folder. None where there is no gnuplot.
pub fn draw(folder: &Path) -> io::Result<Option<bool>> {
    match Command::new("gnuplot").arg("course.gnuplot").current_dir(folder).status() {
        Ok(status) => Ok(Some(status.success())),
        Err(e) if e.kind() == io::ErrorKind::NotFound => Ok(None),
        Err(e) => Err(e),
    }
}

#[cfg(test)]
mod tests {
    use super::*;
    use crate::history::{Course, Flush, History, Layout, Tally};
    use clash::{Sizes, LRU};

    #[test]
    fn one_line_for_each_choice() {
        let played = |slots, frames, benches, erasures| {
            let course = Course { layout: Layout::Own, benches, readings: 1, in_turn: true, flush: Flush::AtEnd, sheets: 0 };
            let history = History { course, sizes: Sizes::from([512, 32, 1024, slots, frames, 9]), policy: LRU };
            (history, Tally { least: 2, erasures, merge_reads: 0, worst: 1 })
        };
        let played = [played(8, 1, 1, 2), played(8, 1, 16, 2001), played(8, 2, 1, 3), played(8, 2, 16, 5)];
        let panels = ["left", "right"].map(|title| Panel { title, played: &played });
        let script = script("title", &panels);
        assert_eq!(script.matches(" with linespoints ").count(), 4);
        assert_eq!(script.matches("title 'P 8, B 1: 25 KiB'").count(), 2);
        assert!(script.contains("$panel1_8_1 << END\n1 1.0000\n16 1000.5000\nEND\n"));
        assert!(script.contains("set xtics (1, 16)") && script.contains("set xrange [0.5:16.5]"));
    }
}
