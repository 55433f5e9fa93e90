//! Rehearsals (request A13) beside the same class served by a store, turn by turn.
use clash::{rehearse, Answer, Memory, Options, Refusal, Setting, Sizes, Store, Tallies};

const CLASS: Setting = Setting {
    sizes: Sizes { page_size: 1, pages_per_block: 4, blocks: 6, slots: 3, frames: 2, wear_limit: 9 },
    benches: 3,
    turns: 100,
    write_rate: 170,
    run_rate: 100,
    state: 1,
};

fn advance(state: &mut u32) -> u64 {
    let next = (*state as u64 * 1_664_525 + 1_013_904_223) % 4_294_967_296;
    *state = next as u32;
    next
}

/// The class on a store of its own.
fn served(class: &Setting) -> (Tallies, Memory) {
    let mut memory = Memory::new(&class.sizes);
    let mut store = Store::open(class.sizes, Options::default(), &memory.lend()).unwrap();
    let mut tallies = Tallies { reads: [0; 4], writes: [0; 8], erased: 0, merged: 0, refused: 0 };
    let (mut state, mut last, pages) = (class.state, vec![0; class.benches as usize], class.sizes.pages() as u64);
    let mut page = vec![0; class.sizes.page_size as usize];
    for turn in 0..class.turns {
        let bench = (turn % class.benches) as usize;
        let [first, second, third] = [(); 3].map(|()| advance(&mut state));
        let goes_on = second / 16_777_216 < class.run_rate as u64;
        last[bench] = if goes_on { (last[bench] + 1) % pages } else { third / 65_536 % pages };
        let n = last[bench] as u32;
        let said = match first / 16_777_216 < class.write_rate as u64 {
            true => {
                page.fill((third % 256) as u8);
                store.write(&mut memory.lend(), n, &page)
            }
            false => store.read(&memory.lend(), n, &mut page),
        };
        match said {
            Ok(Answer::Read { way, .. }) => tallies.reads[way as usize] += 1,
            Ok(Answer::Write { way, erased, merged, .. }) => {
                tallies.writes[way as usize] += 1;
                tallies.erased += erased.is_some() as u32;
                tallies.merged += merged;
            }
            Ok(other) => panic!("{other:?}"),
            Err(Refusal::Worn(_)) => tallies.refused += 1,
            Err(why) => panic!("{why}"),
        }
    }
    (tallies, memory)
}

/// Every way occurs, and refused calls.
#[test]
fn a_class_is_what_the_store_does() {
    let (mut state, mut seen) = (7, Tallies { reads: [0; 4], writes: [0; 8], erased: 0, merged: 0, refused: 0 });
    for _ in 0..400 {
        let mut below = |n: u64| (advance(&mut state) / 65_536 % n) as u32;
        let sizes = [1 + below(8), 2 + below(6), 1 + below(12), 1 + below(8), 1 + below(4), 1 + below(12)];
        let (benches, turns, write_rate, run_rate) = (1 + below(16), below(1025), below(257), below(257));
        let class = Setting { sizes: Sizes::from(sizes), benches, turns, write_rate, run_rate, state };
        let (tallies, memory) = served(&class);
        assert_eq!(rehearse(class), Ok(tallies), "{class:?}");
        let accepted: u32 = tallies.reads.iter().chain(&tallies.writes).sum();
        assert_eq!(accepted + tallies.refused, turns);
        assert_eq!((tallies.erased, memory.wear.iter().sum::<u32>()), (tallies.writes[7], tallies.erased));
        (0..4).for_each(|way| seen.reads[way] += tallies.reads[way]);
        (0..8).for_each(|way| seen.writes[way] += tallies.writes[way]);
        seen.refused += tallies.refused;
    }
    let met = seen.reads[1..].iter().chain(&seen.writes[1..]).chain([&seen.refused]);
    assert!(met.copied().all(|count| count > 40) && seen.reads[0] == 0 && seen.writes[0] == 0, "{seen:?}");
}

#[test]
fn settings_at_their_limits() {
    for (low, high, set) in [
        (1u32, 16, (|c, x| c.benches = x) as fn(&mut Setting, u32)),
        (0, 1024, |c, x| c.turns = x),
        (0, 256, |c, x| c.write_rate = x),
        (0, 256, |c, x| c.run_rate = x),
        (1, 2048, |c, x| (c.sizes.page_size, c.sizes.pages_per_block, c.sizes.blocks, c.sizes.frames) = (x, 2, 8, 8)),
        (2, 64, |c, x| c.sizes.pages_per_block = x),
        (1, 4096, |c, x| (c.sizes.pages_per_block, c.sizes.blocks) = (8, x)),
        (1, 128, |c, x| c.sizes.slots = x),
        (1, 8, |c, x| c.sizes.frames = x),
        (1, 1_000_000, |c, x| c.sizes.wear_limit = x),
    ] {
        for (x, is_taken) in [(low, true), (high, true), (low.wrapping_sub(1), false), (high + 1, false), (u32::MAX, false)] {
            let mut class = CLASS;
            set(&mut class, x);
            let wanted = if is_taken { Ok(served(&class).0) } else { Err(Refusal::Size) };
            assert_eq!(rehearse(class), wanted, "{class:?}");
        }
    }
}

/// No buffer has more than 32,768 bytes: flash, p-space and b-space at that, and one page over.
#[test]
fn buffers() {
    for (at, over) in [
        ([8, 8, 512, 1, 1, 9], [8, 8, 513, 1, 1, 9]),
        ([256, 2, 8, 128, 1, 9], [257, 2, 8, 128, 1, 9]),
        ([256, 16, 8, 1, 8, 9], [256, 17, 7, 1, 8, 9]),
    ] {
        let class = |sizes| Setting { sizes: Sizes::from(sizes), ..CLASS };
        assert_eq!(rehearse(class(at)), Ok(served(&class(at)).0));
        assert_eq!(rehearse(class(over)), Err(Refusal::Size));
    }
}

#[test]
fn no_turns_only_reads_and_only_writes() {
    assert_eq!(rehearse(Setting { turns: 0, ..CLASS }), Ok(Tallies { reads: [0; 4], writes: [0; 8], erased: 0, merged: 0, refused: 0 }));
    let all_reads = rehearse(Setting { write_rate: 0, ..CLASS }).unwrap();
    assert_eq!((all_reads.reads, all_reads.writes), ([0, 0, 0, 100], [0; 8]));
    let all_writes = rehearse(Setting { write_rate: 256, ..CLASS }).unwrap();
    assert_eq!(all_writes.reads, [0; 4]);
}
