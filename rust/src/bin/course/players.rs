//! Plays many histories, some at a time, and says on the standard error how far it is.
use crate::history::{History, Tally, Trouble};
use clash::Memory;
use std::io::{self, IsTerminal};
use std::sync::atomic::{AtomicUsize, Ordering};
use std::sync::Mutex;
use std::thread;
use std::time::Instant;

/// So many bytes of chips are made at most, but for the first.
const MOST_FLASH: usize = 1 << 30;

type Outcome = Result<Tally, Trouble>;

/// What each history came to, or the first that could not be carried out. All are on a chip of one size.
pub fn play(histories: &[History]) -> Result<Vec<Tally>, (History, Trouble)> {
    let next = AtomicUsize::new(0);
    let outcomes = Mutex::new(vec![None; histories.len()]);
    let progress = Progress::new(histories.len());
    thread::scope(|scope| {
        for _ in 0..players(histories) {
            scope.spawn(|| player(histories, &next, &outcomes, &progress));
        }
    });
    let outcomes = outcomes.into_inner().expect("no player has panicked");
    // a failure ends the playing: histories before it have outcomes, as they were begun before
    histories.iter().zip(outcomes.into_iter().flatten()).map(|(history, outcome)| outcome.map_err(|why| (*history, why))).collect()
}

fn players(histories: &[History]) -> usize {
    let chips = histories.first().map_or(1, |history| MOST_FLASH / history.sizes.flash_len().max(1));
    let processors = thread::available_parallelism().map_or(1, usize::from);
    processors.min(chips).min(histories.len()).max(1)
}

/// Takes history after history, as long as there are some and none has failed here.
fn player(histories: &[History], next: &AtomicUsize, outcomes: &Mutex<Vec<Option<Outcome>>>, progress: &Progress) {
    let mut memory = Memory::default();
    loop {
        let at = next.fetch_add(1, Ordering::Relaxed);
        let Some(history) = histories.get(at) else { return };
        if memory.flash.is_empty() {
            memory = Memory::new(&history.sizes);
        }
        let outcome = history.play(&mut memory);
        outcomes.lock().expect("no player has panicked")[at] = Some(outcome);
        if outcome.is_err() {
            next.store(histories.len(), Ordering::Relaxed);
            return;
        }
        progress.one_more();
    }
}

/// How many of the histories are played.
struct Progress {
    total: usize,
    done: Mutex<usize>,
    start: Instant,
    on_terminal: bool,
}

impl Progress {
    fn new(total: usize) -> Progress {
        Progress { total, done: Mutex::new(0), start: Instant::now(), on_terminal: io::stderr().is_terminal() }
    }

    /// On a terminal one line is written over and over, elsewhere a line at each tenth.
    fn one_more(&self) {
        let mut done = self.done.lock().expect("no player has panicked");
        *done += 1;
        let said = format!("course: {} of {} histories, {} s", *done, self.total, self.start.elapsed().as_secs());
        let is_last = *done == self.total;
        if self.on_terminal {
            eprint!("\r{said}{}", if is_last { "\n" } else { "" });
        } else if is_last || *done * 10 / self.total > (*done - 1) * 10 / self.total {
            eprintln!("{said}");
        }
    }
}
