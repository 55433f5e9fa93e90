//! Random histories beside an array of pages: each read gives the page last accepted, and a flush leaves flash equal to the array.
use clash::{Answer, Memory, Options, Refusal, Sizes, Store, VACANT};

struct Random(u64);

impl Random {
    fn below(&mut self, n: u32) -> u32 {
        self.0 ^= self.0 << 13;
        self.0 ^= self.0 >> 7;
        self.0 ^= self.0 << 17;
        ((self.0 >> 16) % n as u64) as u32
    }

    fn sizes(&mut self) -> Sizes {
        Sizes::from([1 + self.below(24), 2 + self.below(9), 1 + self.below(12), 1 + self.below(10), 1 + self.below(4), 1 + self.below(40)])
    }

    fn bytes(&mut self, len: usize) -> Vec<u8> {
        (0..len).map(|_| self.below(256) as u8).collect()
    }
}

/// A store, its memory, and the array that it must agree with.
struct Bench {
    sizes: Sizes,
    store: Store,
    memory: Memory,
    array: Vec<Vec<u8>>,
    erasures: u32,
    worn: u32,
}

fn bench(random: &mut Random) -> Bench {
    let sizes = random.sizes();
    let mut memory = Memory::new(&sizes);
    memory.flash = random.bytes(sizes.flash_len());
    let array = memory.flash.chunks(sizes.page_size as usize).map(<[u8]>::to_vec).collect();
    let store = Store::open(sizes, Options::default(), &memory.lend()).unwrap();
    Bench { sizes, store, memory, array, erasures: 0, worn: 0 }
}

impl Bench {
    fn write(&mut self, random: &mut Random) {
        let n = random.below(self.sizes.pages());
        let page = random.bytes(self.sizes.page_size as usize);
        match self.store.write(&mut self.memory.lend(), n, &page) {
            Ok(Answer::Write { erased, .. }) => {
                self.erasures += erased.is_some() as u32;
                self.array[n as usize] = page;
            }
            Err(Refusal::Worn(_)) => self.worn += 1,
            other => panic!("write of {n}: {other:?}"),
        }
    }

    fn part(&mut self, random: &mut Random) {
        let n = random.below(self.sizes.pages());
        let first = random.below(self.sizes.page_size + 1);
        let many = random.below(self.sizes.page_size - first + 1);
        let bytes = random.bytes(many as usize);
        let mut page = vec![0; self.sizes.page_size as usize];
        match self.store.part(&mut self.memory.lend(), n, first, &bytes, &mut page) {
            Ok(Answer::Write { way: 0, .. }) => assert_eq!(bytes.len(), 0),
            Ok(Answer::Write { erased, .. }) => {
                self.erasures += erased.is_some() as u32;
                self.array[n as usize][first as usize..(first + many) as usize].copy_from_slice(&bytes);
                assert_eq!(page, self.array[n as usize]);
            }
            Err(Refusal::Worn(_)) => self.worn += 1,
            other => panic!("part write of {n}: {other:?}"),
        }
    }

    fn read(&mut self, random: &mut Random) {
        let n = random.below(self.sizes.pages());
        let mut page = vec![0; self.sizes.page_size as usize];
        assert!(self.store.read(&self.memory.lend(), n, &mut page).is_ok());
        assert_eq!(page, self.array[n as usize]);
    }

    fn step(&mut self) {
        match self.store.step(&mut self.memory.lend()) {
            Ok(Answer::Step { .. }) => self.erasures += 1,
            Ok(Answer::Clean) => assert_eq!(self.cached(), 0),
            Err(Refusal::Worn(_)) => self.worn += 1,
            other => panic!("step: {other:?}"),
        }
    }

    fn flush(&mut self) {
        match self.store.flush(&mut self.memory.lend()) {
            Ok(Answer::Flush { rewrites, .. }) => {
                self.erasures += rewrites;
                assert_eq!(self.memory.flash, self.array.concat());
                assert_eq!(self.cached(), 0);
            }
            Err(Refusal::Worn(_)) => self.worn += 1,
            other => panic!("flush: {other:?}"),
        }
    }

    fn cached(&self) -> usize {
        let d = &self.store.record().directory;
        d.slots.iter().chain(&d.frames).filter(|&&x| x != VACANT).count()
    }
}

#[test]
fn random_histories() {
    let mut random = Random(88172645463325252);
    let (mut erasures, mut worn) = (0, 0);
    for _ in 0..300 {
        let mut b = bench(&mut random);
        for _ in 0..400 {
            match random.below(40) {
                0 => b.flush(),
                1..=2 => b.step(),
                3..=12 => b.read(&mut random),
                13..=24 => b.part(&mut random),
                _ => b.write(&mut random),
            }
        }
        b.flush();
        assert_eq!(b.memory.wear.iter().sum::<u32>(), b.erasures);
        (erasures, worn) = (erasures + b.erasures, worn + b.worn);
    }
    assert!(erasures > 1000 && worn > 100, "{erasures} erasures, {worn} refusals: too few to tell anything");
}
