//! Each way of a read and of a write, and a step, with the record that it leaves (histories P4 to P7 of document 01).
use clash::{Answer, Memory, Options, Sizes, Store, VACANT};

struct Bench {
    store: Store,
    memory: Memory,
}

fn bench() -> Bench {
    let sizes = Sizes::from([1, 4, 3, 3, 1, 9]);
    let mut memory = Memory::new(&sizes);
    let store = Store::open(sizes, Options::default(), &memory.lend()).unwrap();
    Bench { store, memory }
}

impl Bench {
    fn write(&mut self, n: u32) -> (u32, Option<u32>, u32) {
        match self.store.write(&mut self.memory.lend(), n, &[n as u8 + 100]) {
            Ok(Answer::Write { way, erased, merged, mended: 0 }) => (way, erased, merged),
            other => panic!("write of {n}: {other:?}"),
        }
    }

    fn writes(&mut self, pages: &[u32]) {
        for &n in pages {
            self.write(n);
        }
    }

    fn read(&mut self, n: u32) -> (u32, u8) {
        let mut page = [0];
        match self.store.read(&self.memory.lend(), n, &mut page) {
            Ok(Answer::Read { way, mended: 0 }) => (way, page[0]),
            other => panic!("read of {n}: {other:?}"),
        }
    }

    fn slots(&self) -> &[u32] {
        &self.store.record().directory.slots[..3]
    }

    fn frame(&self) -> (u32, u64) {
        (self.store.record().directory.frames[0], self.store.record().directory.valid[0])
    }
}

#[test]
fn write_way_1_overwrites_in_a_slot() {
    let mut b = bench();
    b.writes(&[0, 4]);
    assert_eq!(b.write(4), (1, None, 0));
    assert_eq!(b.slots(), [0, 4, VACANT]);
}

#[test]
fn write_way_2_overwrites_in_a_frame() {
    let mut b = bench();
    b.writes(&[0, 4, 8, 9]);
    assert_eq!(b.frame(), (0, 1));
    assert_eq!(b.write(0), (2, None, 0));
    assert_eq!(b.memory.bspace[0], 100);
}

#[test]
fn write_way_3_takes_the_first_vacant_slot() {
    let mut b = bench();
    assert_eq!(b.write(7), (3, None, 0));
    assert_eq!(b.slots(), [7, VACANT, VACANT]);
    assert_eq!(b.memory.pspace[0], 107);
}

#[test]
fn write_way_4_joins_the_victims_frame() {
    let mut b = bench();
    b.writes(&[2, 7, 11, 3]);
    assert_eq!(b.write(6), (4, None, 0));
    assert_eq!((b.slots(), b.frame()), (&[6, 7, 11][..], (0, 12)));
}

#[test]
fn write_way_5_fills_a_vacant_frame() {
    let mut b = bench();
    b.writes(&[0, 4, 8]);
    assert_eq!(b.write(9), (5, None, 0));
    assert_eq!((b.slots(), b.frame()), (&[9, 4, 8][..], (0, 1)));
}

#[test]
fn write_way_6_exchanges_with_a_frame_of_fewer_pages() {
    let mut b = bench();
    b.writes(&[0, 4, 8, 9]);
    assert_eq!(b.write(5), (6, None, 0));
    assert_eq!((b.slots(), b.frame()), (&[5, 4, 0][..], (2, 3)));
    assert_eq!(b.memory.wear, [0, 0, 0]);
}

#[test]
fn write_way_7_rewrites_the_least_recent_frame() {
    let mut b = bench();
    b.writes(&[0, 4, 8, 9, 5]);
    assert_eq!(b.write(6), (7, Some(2), 2));
    assert_eq!(b.memory.flash[8..], [108, 109, 255, 255]);
    assert_eq!(b.memory.wear, [0, 0, 1]);
}

/// P7 to its end: page 6 goes from its slot into block 1, and page 1 takes that slot.
#[test]
fn write_way_7_takes_the_blocks_pages_in_slots_along() {
    let mut b = bench();
    b.writes(&[0, 4, 8, 9, 5, 6, 8]);
    assert_eq!(b.write(1), (7, Some(1), 1));
    assert_eq!(b.memory.flash[4..8], [104, 105, 106, 255]);
    assert_eq!(b.slots(), [1, 8, VACANT]);
    assert_eq!(b.write(2), (3, None, 0));
}

#[test]
fn read_ways() {
    let mut b = bench();
    b.writes(&[0, 4, 8, 9]);
    assert_eq!(b.read(4), (1, 104));
    assert_eq!(b.read(0), (2, 100));
    assert_eq!(b.read(11), (3, 255));
}

#[test]
fn steps_until_clean() {
    let mut b = bench();
    b.writes(&[0, 4, 8, 9]);
    let mut step = || b.store.step(&mut b.memory.lend()).unwrap();
    assert_eq!(step(), Answer::Step { block: 0, merged: 3, mended: 0 });
    assert_eq!(step(), Answer::Step { block: 1, merged: 3, mended: 0 });
    assert_eq!(step(), Answer::Step { block: 2, merged: 2, mended: 0 });
    assert_eq!(step(), Answer::Clean);
    assert_eq!(b.memory.flash, [100, 255, 255, 255, 104, 255, 255, 255, 108, 109, 255, 255]);
    assert_eq!(b.store.flush(&mut b.memory.lend()), Ok(Answer::Flush { rewrites: 0, merged: 0, mended: 0 }));
}
