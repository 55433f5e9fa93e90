use crate::{Refusal, Sizes};

/// An imagined class, and the sizes of the store that it is tried on: the plain LRU store without options, on a new chip. Flash, p-space
/// and b-space take 32,768 bytes each at most.
#[repr(C)]
#[derive(Clone, Copy, Debug, PartialEq, Eq)]
pub struct Setting {
    pub sizes: Sizes,
    /// 1 to 16, served in turn
    pub benches: u32,
    /// 0 to 1,024
    pub turns: u32,
    /// 0 to 256: of 256 turns so many are writes
    pub write_rate: u32,
    /// 0 to 256: of 256 turns so many go on with the bench's next page
    pub run_rate: u32,
    /// the generator's state at the start, any number
    pub state: u32,
}

/// What a class comes to. Accepted reads, accepted writes and refused calls are the turns, and the erasures are the writes by way 7.
#[derive(Clone, Copy, Debug, PartialEq, Eq)]
pub struct Tallies {
    /// accepted reads, at the number of their way: 1 to 3
    pub reads: [u32; 4],
    /// accepted writes, likewise: 1 to 7
    pub writes: [u32; 8],
    pub erased: u32,
    /// merge reads
    pub merged: u32,
    pub refused: u32,
}

#[repr(C)]
struct RawTallies {
    refusal: u32,
    reads: [u32; 4],
    writes: [u32; 8],
    erased: u32,
    merged: u32,
    refused: u32,
}

const _: () = assert!(std::mem::size_of::<Setting>() == 44 && std::mem::size_of::<RawTallies>() == 64);

extern "C" {
    fn clash_rehearse(setting: Setting) -> RawTallies;
}

/// Rehearses a class. Refused as a size where something is out of its range, or a buffer would take more than 32,768 bytes.
///
/// ```
/// use clash::{rehearse, Setting, Sizes};
///
/// let sizes = Sizes::from([16, 16, 64, 16, 2, 1000]); // S, K, N, P, B, W
/// let class = Setting { sizes, benches: 4, turns: 1000, write_rate: 200, run_rate: 230, state: 2026 };
/// let tallies = rehearse(class)?;
/// let accepted = tallies.reads.iter().chain(&tallies.writes).sum::<u32>();
/// assert_eq!((accepted + tallies.refused, tallies.erased), (1000, tallies.writes[7]));
/// # Ok::<(), clash::Refusal>(())
/// ```
pub fn rehearse(setting: Setting) -> Result<Tallies, Refusal> {
    // takes a number and gives one: nothing is lent
    let RawTallies { refusal, reads, writes, erased, merged, refused } = unsafe { clash_rehearse(setting) };
    match refusal {
        0 => Ok(Tallies { reads, writes, erased, merged, refused }),
        1 => Err(Refusal::Size),
        other => unreachable!("a rehearsal has no refusal {other}"),
    }
}
