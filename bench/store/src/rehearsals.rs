//! Rehearsals of both: the same tallies for random classes, some of which are out of range.
use crate::both;
use crate::random::Random;
use clash::{rehearse, Setting, Sizes};

const CLASSES: u32 = 2000;

pub fn agree(random: &mut Random) {
    let (mut turns, mut erased, mut refused) = (0, 0, 0);
    for _ in 0..CLASSES {
        let class = class(random);
        let (proved, plain) = (rehearse(class).map_err(both::refused), both::rehearsal(class).run());
        assert_eq!(proved.map(both::tallies), plain, "{class:?}");
        match proved {
            Ok(tallies) => (turns, erased) = (turns + class.turns, erased + tallies.erased),
            Err(_) => refused += 1,
        }
    }
    assert!(erased > 40 && refused > 40, "{erased} {refused}");
    println!("{CLASSES} random classes: the tallies of both are equal; {turns} turns, {erased} erasures, {refused} classes refused\n");
}

fn class(random: &mut Random) -> Setting {
    let mut sizes = [1 + random.below(20), 2 + random.below(8), 1 + random.below(60), 1 + random.below(20), 1 + random.below(8), 100];
    if random.one_in(4) {
        sizes[5] = 1 + random.below(8);
    }
    let mut numbers = [1 + random.below(16), random.below(1025), random.below(257), random.below(257)];
    match random.below(8) {
        0 => sizes[random.below(6) as usize] = random.of(&[0, 9, 64, 65, 128, 129, 2048, 2049, 4096, u32::MAX]),
        1 => numbers[random.below(4) as usize] = random.of(&[0, 17, 256, 257, 1024, 1025, u32::MAX]),
        _ => {}
    }
    let [benches, turns, write_rate, run_rate] = numbers;
    Setting { sizes: Sizes::from(sizes), benches, turns, write_rate, run_rate, state: random.below(u32::MAX) }
}

#[cfg(test)]
mod tests {
    #[test]
    fn both_rehearse_alike() {
        super::agree(&mut super::Random(7));
    }
}
