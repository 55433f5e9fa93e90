//! What is asked for on the command line.
use crate::history::READING;
use clash::Sizes;
use std::path::PathBuf;
use std::str::FromStr;

/// Everything that can be chosen. Lists have at least one number, and are in rising order.
#[derive(Clone, Debug, PartialEq, Eq)]
pub struct Asked {
    pub readings: u32,
    /// S, K and N
    pub chip: [u32; 3],
    pub slots: Vec<u32>,
    pub frames: Vec<u32>,
    pub benches: Vec<u32>,
    /// for all tables but those of the chart
    pub few_benches: Vec<u32>,
    pub run_pages: u32,
    /// a flush after so many readings, in the tables with flushes
    pub flush: u32,
    pub in_turn: bool,
    /// the tables of the chart alone
    pub chart: bool,
    /// where the chart and the numbers go
    pub out: PathBuf,
    pub help: bool,
}

impl Default for Asked {
    fn default() -> Asked {
        Asked {
            readings: 200_000,
            chip: [2048, 64, 1024],
            slots: vec![8, 32, 128],
            frames: vec![1, 2, 4, 8],
            benches: vec![1, 2, 3, 4, 6, 8, 12, 16],
            few_benches: vec![2, 4, 8, 16],
            run_pages: 16,
            flush: 20_000,
            in_turn: false,
            chart: false,
            out: PathBuf::from("target/course"),
            help: false,
        }
    }
}

/// What `--quick` stands for: other options change it, wherever they stand.
fn quick() -> Asked {
    Asked { readings: 20_000, flush: 5_000, benches: vec![1, 4, 16], few_benches: vec![4, 16], ..Asked::default() }
}

/// The words of the command line, or what is wrong with them.
pub fn parse(words: impl IntoIterator<Item = String>) -> Result<Asked, String> {
    let words: Vec<String> = words.into_iter().collect();
    let mut asked = if words.iter().any(|word| word == "--quick") { quick() } else { Asked::default() };
    let mut words = words.into_iter();
    while let Some(word) = words.next() {
        let mut value = || words.next().ok_or(format!("{word} needs a value"));
        match word.as_str() {
            "-h" | "--help" => asked.help = true,
            "--quick" => {}
            "--in-turn" => asked.in_turn = true,
            "--chart" => asked.chart = true,
            "--readings" => asked.readings = number(&word, &value()?, 1, 100_000_000)?,
            "--run" => asked.run_pages = number(&word, &value()?, 1, 65_536)?,
            "--flush" => asked.flush = number(&word, &value()?, 1, u32::MAX)?,
            "--chip" => asked.chip = chip(&value()?)?,
            "--slots" => asked.slots = list(&word, &value()?, 128)?,
            "--frames" => asked.frames = list(&word, &value()?, 8)?,
            "--benches" => {
                asked.benches = list(&word, &value()?, 16)?;
                asked.few_benches = asked.benches.clone();
            }
            "--out" => asked.out = PathBuf::from(value()?),
            _ => return Err(format!("there is no option '{word}'")),
        }
    }
    Ok(asked)
}

fn number(word: &str, text: &str, least: u32, most: u32) -> Result<u32, String> {
    u32::from_str(text)
        .ok()
        .filter(|x| (least..=most).contains(x))
        .ok_or(format!("{word} takes a number from {least} to {most}, and not '{text}'"))
}

/// Numbers from 1 to `most` between commas, in rising order and each once.
fn list(word: &str, text: &str, most: u32) -> Result<Vec<u32>, String> {
    let mut found = text.split(',').map(|part| number(word, part, 1, most)).collect::<Result<Vec<_>, _>>()?;
    found.sort_unstable();
    found.dedup();
    Ok(found)
}

/// S,K,N: one that an opening takes, with room for a reading on a page, and blocks for sheets and for 16 benches.
fn chip(text: &str) -> Result<[u32; 3], String> {
    let numbers: Vec<u32> = text.split(',').filter_map(|part| part.parse().ok()).collect();
    let right = numbers.try_into().ok().filter(|&[page, pages, blocks]: &[u32; 3]| {
        page >= READING && blocks > 16 && Sizes::from([page, pages, blocks, 1, 1, 1]).in_limits()
    });
    right.ok_or(format!("--chip takes S,K,N with S from {READING} to 2048, K from 2 to 64 and N from 17 to 4096, and not '{text}'"))
}

#[cfg(test)]
mod tests {
    use super::*;

    fn asked(words: &str) -> Result<Asked, String> {
        parse(words.split_whitespace().map(String::from))
    }

    #[test]
    fn accepted() {
        assert_eq!(asked(""), Ok(Asked::default()));
        let chosen = asked("--readings 10 --chip 512,32,64 --slots 9,3,9 --frames 8 --benches 16,1 --run 4 --flush 7 --out x").unwrap();
        assert_eq!((chosen.readings, chosen.chip, chosen.run_pages, chosen.flush), (10, [512, 32, 64], 4, 7));
        assert_eq!((chosen.slots, chosen.frames, chosen.benches), (vec![3, 9], vec![8], vec![1, 16]));
        assert!(asked("--quick").unwrap().readings < Asked::default().readings);
        assert_eq!(asked("--quick --readings 5"), asked("--readings 5 --quick"));
    }

    #[test]
    fn refused() {
        for words in [
            "200000",
            "--reading 5",
            "--readings",
            "--readings 0",
            "--readings many",
            "--chip 2048,64",
            "--chip 39,64,1024",
            "--chip 2048,65,1024",
            "--chip 2048,64,16",
            "--slots 129",
            "--slots 1,",
            "--frames 0",
            "--benches 17",
        ] {
            assert!(asked(words).is_err(), "{words}");
        }
    }
}
