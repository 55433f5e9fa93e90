//! Wear in whole figures (A14).
use crate::{Buffers, Plain, Refusal};

#[derive(Clone, Copy, Debug, PartialEq, Eq)]
pub struct Report {
    pub total: u64,
    pub largest: u32,
    /// N times the sum of squares, minus the total squared
    pub spread: u64,
}

impl Plain {
    #[inline(never)]
    pub fn report(&self, lent: &Buffers) -> Result<Report, Refusal> {
        self.check(lent)?;
        let (mut total, mut squares, mut largest) = (0, 0u64, 0);
        for &worn in lent.wear.iter() {
            total += worn as u64;
            // wraps only where an entry is above the limit
            squares = squares.wrapping_add(worn as u64 * worn as u64);
            largest = largest.max(worn);
        }
        if largest > self.0.sizes.wear_limit {
            return Err(Refusal::Overworn);
        }
        Ok(Report { total, largest, spread: lent.wear.len() as u64 * squares - total * total })
    }
}
