//! Random histories with every option: each accepted read gives the page last accepted, taking back undoes a write, and a flush leaves the
//! newest contents in flash. Of a coded store one bit of a chunk with its code may flip after each of its programs.
use plain::{Answer, Memory, Options, Plain, Refusal, Sizes};

struct Random(u64);

impl Random {
    fn below(&mut self, n: u32) -> u32 {
        self.0 = self.0.wrapping_mul(6364136223846793005).wrapping_add(1442695040888963407);
        ((self.0 >> 33) % n as u64) as u32
    }

    fn of(&mut self, list: &[u32]) -> u32 {
        list[self.below(list.len() as u32) as usize]
    }

    fn page(&mut self, len: usize) -> Vec<u8> {
        (0..len).map(|_| self.below(256) as u8).collect()
    }
}

/// The store, and what document 01 says of it: the page array, the shelf, and the wear by the answers.
struct History {
    store: Plain,
    memory: Memory,
    array: Vec<Vec<u8>>,
    shelf: Vec<(u32, Vec<u8>)>,
    wear: Vec<u32>,
    /// the chunks of which a bit has flipped since their last program
    flipped: Vec<bool>,
}

fn opened(random: &mut Random) -> History {
    let coded = random.below(2);
    let s = if coded == 1 { 256 * random.of(&[1, 2]) } else { 1 + random.below(9) };
    let (k, n) = (random.of(&[2, 3, 7, 64]), 2 + random.below(9));
    let sizes = Sizes::from([s, k, n, random.of(&[1, 2, 5, 40, 128]), 1 + random.below(8), 1_000_000]);
    let options = Options { policy: random.below(3), coded, shelf_pages: random.of(&[0, 1, 8]), marked: random.below(2) };
    let mut memory = Memory::new(&sizes, &options);
    let store = Plain::open(sizes, options, &memory.lend()).unwrap();
    assert_eq!(store.torn(&memory.lend()), 0);
    let (array, chunks) = (vec![vec![255; s as usize]; sizes.pages() as usize], memory.codes.len() / 3);
    History { store, memory, array, shelf: Vec::new(), wear: vec![0; n as usize], flipped: vec![false; chunks] }
}

impl History {
    fn call(&mut self, random: &mut Random) -> Result<Answer, Refusal> {
        let n = random.below(self.array.len() as u32);
        let s = self.array[0].len();
        let mut page = random.page(s);
        let (store, lent) = (&mut self.store, &mut self.memory.lend());
        match random.below(24) {
            0 => store.flush(lent),
            1 | 2 => store.step(lent),
            3..=5 => {
                let answer = store.take_back(lent)?;
                let (n, earlier) = self.shelf.pop().expect("a page was shelved");
                self.array[n as usize] = earlier;
                Ok(answer)
            }
            6..=11 => {
                let answer = store.read(lent, n, &mut page)?;
                assert_eq!(page, self.array[n as usize]);
                Ok(answer)
            }
            12..=15 => {
                let first = random.below(s as u32);
                let many = 1 + random.below(s as u32 - first);
                let bytes = random.page(many as usize);
                let answer = store.part(lent, n, first, &bytes, &mut page)?;
                let mut wanted = self.array[n as usize].clone();
                wanted[first as usize..first as usize + bytes.len()].copy_from_slice(&bytes);
                assert_eq!(page, wanted);
                self.put(n, page);
                Ok(answer)
            }
            _ => {
                let answer = store.write(lent, n, &page)?;
                self.put(n, page);
                Ok(answer)
            }
        }
    }

    fn put(&mut self, n: u32, page: Vec<u8>) {
        let earlier = std::mem::replace(&mut self.array[n as usize], page);
        self.shelf.push((n, earlier));
        let over = self.shelf.len().saturating_sub(self.store.0.options.shelf_pages as usize);
        self.shelf.drain(..over);
    }

    /// What an answer says of blocks, mends and flash.
    fn heed(&mut self, answer: Answer) {
        let flipped = self.flipped.iter().filter(|&&flipped| flipped).count() as u32;
        let (Answer::Read { mended, .. } | Answer::Write { mended, .. } | Answer::Step { mended, .. } | Answer::Flush { mended, .. }) =
            answer
        else {
            return;
        };
        assert!(mended <= flipped);
        let per_block = self.flipped.len() / self.wear.len();
        let now = self.memory.wear.clone();
        for block in (0..now.len()).filter(|&block| now[block] != self.wear[block]) {
            assert_eq!(now[block], self.wear[block] + 1);
            self.flipped[block * per_block..(block + 1) * per_block].fill(false);
        }
        let rewrites = now.iter().sum::<u32>() - self.wear.iter().sum::<u32>();
        match answer {
            Answer::Write { erased, .. } => assert_eq!(rewrites, erased.is_some() as u32),
            Answer::Step { .. } => assert_eq!(rewrites, 1),
            Answer::Flush { rewrites: said, .. } => assert_eq!(rewrites, said),
            _ => assert_eq!(rewrites, 0),
        }
        self.wear = now;
        if matches!(answer, Answer::Flush { .. }) {
            self.flash_is_the_array();
        }
    }

    fn flash_is_the_array(&mut self) {
        let mut page = self.array[0].clone();
        for n in 0..self.array.len() {
            let answer = self.store.read(&self.memory.lend(), n as u32, &mut page);
            assert!(matches!(answer, Ok(Answer::Read { way: 3, .. })));
            assert_eq!(page, self.array[n]);
        }
    }

    fn flip(&mut self, random: &mut Random) {
        let chunk = random.below(self.flipped.len().max(1) as u32) as usize;
        if self.flipped.get(chunk) != Some(&false) {
            return;
        }
        self.flipped[chunk] = true;
        let bit = random.below(2072) as usize;
        match bit < 2048 {
            true => self.memory.flash[chunk * 256 + bit / 8] ^= 1 << (bit % 8),
            false => self.memory.codes[chunk * 3 + (bit - 2048) / 8] ^= 1 << (bit % 8),
        }
    }
}

#[test]
fn reads_give_the_page_last_accepted() {
    let random = &mut Random(7);
    for _ in 0..150 {
        let mut history = opened(random);
        for _ in 0..300 {
            match history.call(random) {
                Ok(answer) => history.heed(answer),
                Err(why) => assert!(why == Refusal::EmptyShelf && history.shelf.is_empty(), "{why:?}"),
            }
            history.flip(random);
        }
    }
}
