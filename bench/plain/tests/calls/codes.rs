//! Page codes and mends (A6, A7).
use crate::opened;
use plain::{Answer, Memory, Options, Plain, Refusal, Sizes};

/// One page of four in a slot, nothing in frames: a flush has three merge reads, of pages of 255.
fn coded(s: u32) -> (Plain, Memory) {
    let (mut store, mut memory) = opened([s, 4, 2, 2, 1, 9], [0, 1, 0, 0]);
    store.write(&mut memory.lend(), 1, &pattern(s, 3)).unwrap();
    (store, memory)
}

fn pattern(s: u32, seed: u32) -> Vec<u8> {
    (0..s).map(|j| (j * j + 7 * seed + j / 5) as u8).collect()
}

/// Document 02's rule, bit by bit.
fn by_bits(chunk: &[u8]) -> [u8; 3] {
    let is_set = |address: usize| chunk[address / 8] >> (address % 8) & 1 == 1;
    let odd = |i: usize, bit: usize| (0..2048).filter(|a| a >> i & 1 == bit && is_set(*a)).count() % 2 == 1;
    let code = (0..22).filter(|bit| !odd(bit / 2, bit % 2)).fold(3 << 22, |code: u32, bit| code | 1 << bit);
    [code as u8, (code >> 8) as u8, (code >> 16) as u8]
}

#[test]
fn codes_are_written_with_each_program() {
    let (mut store, mut memory) = coded(512);
    assert_eq!(store.flush(&mut memory.lend()), Ok(Answer::Flush { rewrites: 1, merged: 3, mended: 0 }));
    assert_eq!(memory.flash[512..1024], pattern(512, 3));
    let codes: Vec<u8> = memory.flash.chunks(256).flat_map(by_bits).collect();
    assert_eq!(memory.codes, codes);
    assert_eq!(memory.codes[..6], [255; 6]);
}

#[test]
fn every_single_flip_is_mended_and_counted() {
    let (mut store, mut memory) = coded(256);
    store.flush(&mut memory.lend()).unwrap();
    for bit in 0..2072 {
        let flipped = memory.clone();
        let bytes = if bit < 2048 { &mut memory.flash[256..512] } else { &mut memory.codes[3..6] };
        bytes[bit % 2048 / 8] ^= 1 << (bit % 8);
        let mut page = [0; 256];
        assert_eq!(store.read(&memory.lend(), 1, &mut page), Ok(Answer::Read { way: 3, mended: 1 }));
        assert_eq!(page[..], pattern(256, 3));
        memory = flipped;
    }
}

/// Page 0 of flash is read by a part write of it, and again as a merge page of the rewrite that the same call makes.
#[test]
fn a_page_counts_once() {
    let (mut store, mut memory) = opened([256, 2, 3, 1, 1, 9], [0, 1, 0, 0]);
    for n in [1, 2] {
        store.write(&mut memory.lend(), n, &pattern(256, n)).unwrap();
    }
    assert_eq!(store.0.directory.frames[0], 0);
    memory.flash[5] ^= 1;
    let mut page = [0; 256];
    let answer = Answer::Write { way: 7, erased: Some(0), merged: 1, mended: 1 };
    assert_eq!(store.part(&mut memory.lend(), 0, 9, &[7], &mut page), Ok(answer));
    assert_eq!((page[8], page[9], page[5]), (255, 7, 255));
    assert_eq!((memory.flash[5], &memory.codes[..3]), (255, &[255; 3][..]));
}

#[test]
fn unreadable_pages() {
    let (mut store, mut memory) = coded(256);
    memory.flash[2 * 256] ^= 3;
    let before = (store.0, memory.clone());
    assert_eq!(store.read(&memory.lend(), 2, &mut [0; 256]), Err(Refusal::Unreadable));
    assert_eq!(store.part(&mut memory.lend(), 2, 0, &[1], &mut [0; 256]), Err(Refusal::Unreadable));
    assert_eq!(store.step(&mut memory.lend()), Err(Refusal::Unreadable));
    assert_eq!(store.flush(&mut memory.lend()), Err(Refusal::Unreadable));
    assert_eq!((store.0, memory.clone()), before);
    memory.wear[0] = 9;
    assert_eq!(store.step(&mut memory.lend()), Err(Refusal::Worn(0)));
    memory.wear[0] = 8;
    store.write(&mut memory.lend(), 2, &pattern(256, 5)).unwrap();
    assert_eq!(store.flush(&mut memory.lend()), Ok(Answer::Flush { rewrites: 1, merged: 2, mended: 0 }));
}

/// A flush looks at every merge before its first rewrite.
#[test]
fn a_flush_looks_first() {
    let (mut store, mut memory) = coded(256);
    store.write(&mut memory.lend(), 4, &pattern(256, 4)).unwrap();
    memory.flash[0] ^= 1;
    memory.flash[7 * 256] ^= 3;
    let before = (store.0, memory.clone());
    assert_eq!(store.flush(&mut memory.lend()), Err(Refusal::Unreadable));
    assert_eq!((store.0, memory.clone()), before);
    memory.flash[7 * 256] ^= 1;
    assert_eq!(store.flush(&mut memory.lend()), Ok(Answer::Flush { rewrites: 2, merged: 6, mended: 2 }));
}

#[test]
fn sizes_of_a_coded_store() {
    let open = |s: u32, coded: u32| {
        let (sizes, options) = (Sizes::from([s, 4, 2, 2, 1, 9]), Options { coded, ..Options::default() });
        Plain::open(sizes, options, &Memory::new(&sizes, &options).lend()).map(|_| ())
    };
    assert_eq!([(256, 1), (2048, 1), (255, 0)].map(|(s, coded)| open(s, coded)), [Ok(()); 3]);
    assert_eq!([(255, 1), (257, 1), (256, 2)].map(|(s, coded)| open(s, coded)), [Err(Refusal::Size); 3]);
    let (store, mut memory) = coded(256);
    memory.codes.push(0);
    assert_eq!(Plain(store.0).read(&memory.lend(), 0, &mut [0; 256]), Err(Refusal::Buffer));
}
