//! Part writes: each way, with what is left in the page buffer (P7 of document 01, two bytes a page).
use clash::{Answer, Cache, Memory, Options, Refusal, Sizes};

struct Bench {
    cache: Cache,
    memory: Memory,
}

fn bench() -> Bench {
    let sizes = Sizes::from([2, 4, 3, 3, 1, 9]);
    let mut memory = Memory::new(&sizes);
    let cache = Cache::open(sizes, Options::default(), &memory.lend()).unwrap().cache;
    Bench { cache, memory }
}

impl Bench {
    /// The way of a part write, and the page buffer after it, which was 7, 7.
    fn part(&mut self, n: u32, first: u32, bytes: &[u8]) -> (u32, [u8; 2]) {
        let mut page = [7; 2];
        match self.cache.part(&mut self.memory.lend(), n, first, bytes, &mut page) {
            Ok(Answer::Write { way, .. }) => (way, page),
            other => panic!("part write of {n}: {other:?}"),
        }
    }
}

#[test]
fn each_way() {
    let mut b = bench();
    assert_eq!(b.part(0, 0, &[10, 11]), (3, [10, 11]));
    assert_eq!(b.part(4, 1, &[20]), (3, [255, 20]));
    assert_eq!(b.part(8, 0, &[30]), (3, [30, 255]));
    assert_eq!(b.part(9, 1, &[40]), (5, [255, 40]));
    assert_eq!(b.part(5, 0, &[50]), (6, [50, 255]));
    assert_eq!(b.part(6, 1, &[60]), (7, [255, 60]));
    assert_eq!(b.part(8, 1, &[70]), (3, [30, 70]));
    assert_eq!(b.part(1, 0, &[80]), (7, [80, 255]));
    assert_eq!(b.part(2, 0, &[90, 91]), (3, [90, 91]));
    assert_eq!(b.part(2, 1, &[92]), (1, [90, 92]));
    assert_eq!(b.part(0, 1, &[13]), (2, [10, 13]));
}

#[test]
fn way_0_changes_nothing() {
    let mut b = bench();
    b.part(0, 0, &[10]);
    let before = (b.cache, b.memory.clone());
    for (n, first) in [(0, 0), (0, 2), (11, 1)] {
        assert_eq!(b.part(n, first, &[]), (0, [7, 7]));
    }
    assert_eq!((b.cache, b.memory), before);
}

/// The refusal of bytes that reach past the page says so in its words.
#[test]
fn a_reach_past_the_page_is_said() {
    let mut b = bench();
    let refused = b.cache.part(&mut b.memory.lend(), 0, 1, &[10, 11], &mut [7, 7]).unwrap_err();
    assert_eq!(refused, Refusal::Buffer);
    assert!(refused.to_string().contains("a part write reaches past the page"), "{refused}");
}
