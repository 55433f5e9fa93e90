//! Power cuts for real (request A12): cargo test --release --test power -- [KILLS]
//!
//! A chip is a mapped file. A child process makes random calls on it and is killed by SIGKILL at random moments; the parent opens the image
//! again, compares torn blocks and every page with what the theorem allows, has torn blocks repaired, and goes on. After that cut calls, at
//! every number of operations of a history. A line says how far it is; the last one what was found.
mod caller;
mod check;
mod child;
mod chip;
mod every;
mod ledger;
mod mapped;
mod random;
mod sheets;

use check::Found;
use chip::{Chip, Setup};
use clash::{Options, Sizes};
use ledger::Ledger;
use random::Random;
use std::io::{IsTerminal, Write};
use std::path::{Path, PathBuf};
use std::process::{Command, ExitCode};
use std::time::{Duration, Instant};
use std::{env, fs, io, process, thread};

const KILLS: u32 = 400;
/// So many calls of each setup are cut at every number.
const CALLS: u32 = 120;

/// Sizes, then policy, coded, shelf pages, marked and sheets.
#[rustfmt::skip]
const SETUPS: [([u32; 6], [u32; 4], u32); 4] = [
    ([512, 16, 24, 16, 3, 1_000_000], [0, 0, 0, 1], 0),
    ([256, 32, 16, 24, 2, 1_000_000], [1, 1, 0, 1], 20),
    ([2048, 64, 8, 32, 2, 1_000_000], [2, 1, 4, 1], 0),
    ([64, 8, 40, 12, 4, 1_000_000], [0, 0, 2, 1], 6),
];

fn setups() -> impl Iterator<Item = Setup> {
    SETUPS.into_iter().map(|(sizes, options, sheets)| Setup { sizes: Sizes::from(sizes), options: Options::from(options), sheets })
}

/// What the kills came to.
#[derive(Default)]
struct Tally {
    kills: u32,
    in_a_call: u32,
    erasing: u32,
    torn: u32,
    rewritten: u32,
    repaired: u32,
}

fn main() -> ExitCode {
    let words: Vec<String> = env::args().collect();
    if words.get(1).is_some_and(|word| word == "child") {
        return lived(&words[2..]);
    }
    let kills = words.iter().skip(1).find_map(|word| word.parse().ok()).unwrap_or(KILLS);
    let folder = env::temp_dir().join(format!("clash-power-{}", process::id()));
    let said = fs::create_dir_all(&folder).map_err(|e| e.to_string()).and_then(|()| run(kills, &folder));
    match said {
        Ok(said) => {
            let _ = fs::remove_dir_all(&folder);
            println!("{said}");
            ExitCode::SUCCESS
        }
        Err(what) => {
            println!("VIOLATION: {what}; the images are in {}", folder.display());
            ExitCode::FAILURE
        }
    }
}

/// The child's life. It ends by itself only where a call is answered otherwise than it must be.
fn lived(words: &[String]) -> ExitCode {
    let seed = words[2].parse().expect("a number");
    let what = child::live(Setup::of(&words[4..]), Path::new(&words[0]), Path::new(&words[1]), seed, words[3] == "1");
    eprintln!("{what:?}");
    ExitCode::FAILURE
}

fn run(kills: u32, folder: &Path) -> Result<String, String> {
    let began = Instant::now();
    let (mut random, mut tally, mut progress) = (Random(88172645463325252), Tally::default(), Progress(began));
    let count = setups().count() as u32;
    for (i, setup) in (0..).zip(setups()) {
        let share = kills / count + (i < kills % count) as u32;
        round(setup, folder, share, &mut random, &mut tally, &mut |tally| {
            progress.say(&format!("{} of {kills} kills, {} torn blocks, 0 violations", tally.kills, tally.torn))
        })?;
    }
    let (mut cuts, mut torn) = (0, 0);
    for (i, setup) in (1..).zip(setups()) {
        let of_setup = every::history(setup, folder, &mut random, CALLS)?;
        (cuts, torn) = (cuts + of_setup.cuts, torn + of_setup.torn);
        progress.say(&format!("history {i} of {count}: {cuts} cut calls, {torn} torn blocks, 0 violations"));
    }
    let Tally { kills, in_a_call, erasing, torn: by_kill, rewritten, repaired } = tally;
    Ok(format!(
        "{kills} kills, {in_a_call} of them in a call: {by_kill} torn blocks ({erasing} in the middle of the erasure), {rewritten} blocks \
         rewritten, {repaired} repairs; {cuts} cut calls, {torn} torn blocks, each repaired; 0 violations in {} s",
        began.elapsed().as_secs()
    ))
}

/// A new chip, and so many children on it.
fn round(
    setup: Setup,
    folder: &Path,
    kills: u32,
    random: &mut Random,
    tally: &mut Tally,
    say: &mut dyn FnMut(&Tally),
) -> Result<(), String> {
    let paths = [folder.join("chip.image"), folder.join("chip.ledger")];
    let made = Chip::create(&paths[0], setup).and_then(|_| Ledger::create(&paths[1], setup));
    made.map_err(|e| e.to_string())?;
    for _ in 0..kills {
        killed(&setup, &paths, random)?;
        examine(&setup, &paths, random, tally).map_err(|what| format!("{setup:?}: {what}"))?;
        say(tally);
    }
    Ok(())
}

/// A child that made some calls, and was killed at some moment.
fn killed(setup: &Setup, [image, ledger]: &[PathBuf; 2], random: &mut Random) -> Result<(), String> {
    Ledger::open(ledger, *setup).map_err(|e| e.to_string())?.forget_calls();
    let program = env::current_exe().map_err(|e| e.to_string())?;
    let (seed, repairs) = (u64::from(random.below(u32::MAX)) << 8 | 1, random.below(2));
    let mut child = Command::new(program)
        .arg("child")
        .args([image, ledger])
        .args([seed.to_string(), repairs.to_string()])
        .args(setup.words())
        .spawn()
        .map_err(|e| e.to_string())?;
    let mut seen = Ledger::open(ledger, *setup).map_err(|e| e.to_string())?;
    while seen.calls() == 0 && child.try_wait().map_err(|e| e.to_string())?.is_none() {
        thread::yield_now();
    }
    thread::sleep(Duration::from_micros(u64::from(random.below(2000))));
    // by SIGKILL
    child.kill().and_then(|()| child.wait()).map_err(|e| e.to_string()).and_then(|status| match status.code() {
        None => Ok(()),
        Some(_) => Err("the child ended by itself".into()),
    })
}

/// The image after a kill, opened again.
fn examine(setup: &Setup, [image, ledger]: &[PathBuf; 2], random: &mut Random, tally: &mut Tally) -> Result<(), String> {
    let opened = || -> io::Result<_> { Ok((Chip::open(image, *setup)?, Ledger::open(ledger, *setup)?)) };
    let (mut chip, mut ledger) = opened().map_err(|e| e.to_string())?;
    tally.in_a_call += (ledger.phase() == ledger::CALL) as u32;
    let found = check::blocks(setup, &mut chip, &mut ledger)?;
    check::settle(setup, &mut chip, &mut ledger, &found);
    check::store(setup, &mut chip, &mut ledger)?;
    tally.kills += 1;
    tally.erasing += found.iter().filter(|found| **found == Found::Erasing).count() as u32;
    tally.torn += found.iter().filter(|found| !matches!(found, Found::Old | Found::New)).count() as u32;
    tally.rewritten += found.iter().filter(|found| **found == Found::New).count() as u32;
    // now and then it is left to the next child, which may be killed in the midst of it
    if !random.one_in(3) {
        tally.repaired += !ledger.torn().is_empty() as u32;
        let mut caller = caller::Caller::open(*setup, chip, ledger)?.repaired(&mut || random.bytes(setup.page_len()))?;
        check::blocks(setup, &mut caller.chip, &mut caller.ledger)?;
        check::store(setup, &mut caller.chip, &mut caller.ledger)?;
    }
    Ok(())
}

/// A line that says how far it is: on a terminal it is written over, and else written twice a second at most.
struct Progress(Instant);

impl Progress {
    fn say(&mut self, line: &str) {
        let is_terminal = io::stderr().is_terminal();
        if !is_terminal && self.0.elapsed() < Duration::from_millis(500) {
            return;
        }
        self.0 = Instant::now();
        let end = if is_terminal { "\r" } else { "\n" };
        let _ = write!(io::stderr(), "{line}{end}");
    }
}
