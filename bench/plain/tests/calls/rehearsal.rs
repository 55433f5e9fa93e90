//! Rehearsals (A13).
use plain::{Refusal, Rehearsal, Sizes, Tallies};

const CLASS: Rehearsal = Rehearsal {
    sizes: Sizes { page_size: 4, pages_per_block: 4, blocks: 8, slots: 4, frames: 2, wear_limit: 9 },
    benches: 3,
    turns: 1024,
    write_rate: 200,
    run_rate: 100,
    state: 1,
};

#[test]
fn every_turn_is_tallied() {
    for state in [0, 1, 77, u32::MAX] {
        let Tallies { reads, writes, erased, refused, .. } = Rehearsal { state, ..CLASS }.run().unwrap();
        assert_eq!(reads.iter().chain(&writes).sum::<u32>() + refused, 1024);
        assert_eq!(erased, writes[6]);
        assert!(refused > 0 && erased <= 8 * 9, "{refused} refused, {erased} erasures");
    }
}

/// Two benches that always go on and always write: pages 1, 1, 2, 2 and so on, from page 0 of each.
#[test]
fn benches_go_on_by_themselves() {
    let tallies = Rehearsal { benches: 2, turns: 6, write_rate: 256, run_rate: 256, ..CLASS }.run();
    assert_eq!(tallies, Ok(Tallies { writes: [3, 0, 3, 0, 0, 0, 0], ..Tallies::default() }));
    let tallies = Rehearsal { benches: 1, turns: 5, write_rate: 0, ..CLASS }.run();
    assert_eq!(tallies, Ok(Tallies { reads: [0, 0, 5], ..Tallies::default() }));
    assert_eq!(Rehearsal { turns: 0, ..CLASS }.run(), Ok(Tallies::default()));
}

#[test]
fn settings_out_of_range() {
    let sizes = |s: u32, b: u32| Sizes { page_size: s, frames: b, ..CLASS.sizes };
    let wrong = [
        Rehearsal { benches: 0, ..CLASS },
        Rehearsal { benches: 17, ..CLASS },
        Rehearsal { turns: 1025, ..CLASS },
        Rehearsal { write_rate: 257, ..CLASS },
        Rehearsal { run_rate: 257, ..CLASS },
        Rehearsal { sizes: sizes(0, 2), ..CLASS },
        Rehearsal { sizes: sizes(1025, 2), ..CLASS },
        Rehearsal { sizes: sizes(4, 9), ..CLASS },
    ];
    assert!(wrong.iter().all(|class| class.run() == Err(Refusal::Size)));
    assert!(Rehearsal { sizes: sizes(1024, 8), benches: 16, write_rate: 256, run_rate: 256, ..CLASS }.run().is_ok());
}
