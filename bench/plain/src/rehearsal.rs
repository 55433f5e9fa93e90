//! A class rehearsed against a store without options (A13).
use crate::{Answer, Memory, Options, Plain, Refusal, Said, Sizes};

/// An imagined class, and the sizes of the store that it is tried on.
#[derive(Clone, Copy, Debug, PartialEq, Eq)]
pub struct Rehearsal {
    pub sizes: Sizes,
    /// 1 to 16, served in turn
    pub benches: u32,
    /// 0 to 1,024
    pub turns: u32,
    /// of 256 turns, so many are writes
    pub write_rate: u32,
    /// of 256 turns, so many go on with the bench's next page
    pub run_rate: u32,
    /// the generator's state at the start
    pub state: u32,
}

/// Accepted reads and writes by way, erasures, merge reads and refused calls.
#[derive(Clone, Copy, Debug, Default, PartialEq, Eq)]
pub struct Tallies {
    pub reads: [u32; 3],
    pub writes: [u32; 7],
    pub erased: u32,
    pub merged: u32,
    pub refused: u32,
}

/// The most bytes in one buffer, as in the script program.
const MOST: usize = 32_768;

impl Rehearsal {
    pub fn run(mut self) -> Result<Tallies, Refusal> {
        if !self.in_limits() {
            return Err(Refusal::Size);
        }
        let (sizes, options) = (self.sizes, Options::default());
        let mut memory = Memory::new(&sizes, &options);
        let mut store = Plain::open(sizes, options, &memory.lend())?;
        let (mut last, mut tallies) = ([0; 16], Tallies::default());
        let mut page = vec![0; sizes.page_size as usize];
        for turn in 0..self.turns {
            let bench = &mut last[(turn % self.benches) as usize];
            let Turn { is_write, n, byte } = self.turn(*bench);
            *bench = n;
            tallies.count(if is_write {
                page.fill(byte);
                store.write(&mut memory.lend(), n, &page)
            } else {
                store.read(&memory.lend(), n, &mut page)
            });
        }
        Ok(tallies)
    }

    fn in_limits(&self) -> bool {
        let z = &self.sizes;
        let lens = [z.flash_len(), z.pspace_len(), z.bspace_len()];
        let rates = self.write_rate <= 256 && self.run_rate <= 256;
        z.in_limits() && lens.iter().all(|&len| len <= MOST) && (1..=16).contains(&self.benches) && self.turns <= 1024 && rates
    }

    /// The next turn of a bench whose last page was this.
    fn turn(&mut self, last: u32) -> Turn {
        let [first, second, third] = std::array::from_fn(|_| self.advance());
        let pages = self.sizes.pages();
        let goes_on = second >> 24 < self.run_rate;
        let n = if goes_on { (last + 1) % pages } else { (third >> 16) % pages };
        Turn { is_write: first >> 24 < self.write_rate, n, byte: third as u8 }
    }

    fn advance(&mut self) -> u32 {
        self.state = self.state.wrapping_mul(1_664_525).wrapping_add(1_013_904_223);
        self.state
    }
}

struct Turn {
    is_write: bool,
    n: u32,
    byte: u8,
}

impl Tallies {
    fn count(&mut self, said: Said) {
        match said {
            Ok(Answer::Read { way, .. }) => self.reads[way as usize - 1] += 1,
            Ok(Answer::Write { way, erased, merged, .. }) => {
                self.writes[way as usize - 1] += 1;
                self.erased += erased.is_some() as u32;
                self.merged += merged;
            }
            Ok(_) => unreachable!("a class reads and writes"),
            Err(_) => self.refused += 1,
        }
    }
}
