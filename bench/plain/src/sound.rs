//! The soundness test, with a filter of 4,096 bits: only where a bit is met already are entries compared.
use crate::{Directory, Options, Sizes, VACANT};

/// Of all but the entries of the shelf.
#[inline(always)]
pub fn sound(z: &Sizes, options: &Options, d: &Directory) -> bool {
    let mut seen = [0u64; 64];
    z.in_limits() && options.in_limits(z) && frames_ok(z, d, &mut seen) && slots_ok(z, d, &mut seen)
}

#[inline(always)]
fn frames_ok(z: &Sizes, d: &Directory, seen: &mut [u64; 64]) -> bool {
    let (k, b) = (z.pages_per_block, z.frames as usize);
    let all = u64::MAX >> (64 - k);
    let mut listed = 0u32;
    for f in 0..b {
        let (x, v, u) = (d.frames[f], d.valid[f], d.recency[f] as usize);
        if u >= b || listed >> u & 1 == 1 {
            return false;
        }
        listed |= 1 << u;
        if (x == VACANT) != (d.uses[f] == 0) {
            return false;
        }
        if x == VACANT {
            if v != 0 {
                return false;
            }
            continue;
        }
        if x >= z.blocks || v == 0 || v > all || d.frames[..f].contains(&x) {
            return false;
        }
        let at = x * k;
        let (w, o) = ((at % 4096 / 64) as usize, at % 64);
        seen[w] |= v << o;
        seen[(w + 1) % 64] |= v >> 1 >> (63 - o);
    }
    (b..8).all(|f| d.frames[f] == VACANT && d.valid[f] == 0 && d.uses[f] == 0 && d.recency[f] as usize == f)
}

#[inline(always)]
fn slots_ok(z: &Sizes, d: &Directory, seen: &mut [u64; 64]) -> bool {
    let p = z.slots as usize;
    let end = z.pages();
    for j in 0..p {
        let y = d.slots[j];
        if y == VACANT {
            continue;
        }
        if y >= end {
            return false;
        }
        let (w, o) = ((y % 4096 / 64) as usize, y % 64);
        if seen[w] >> o & 1 == 1 && !is_new(z, d, j) {
            return false;
        }
        seen[w] |= 1 << o;
    }
    // without an early exit: this vectorises
    d.slots[p..].iter().fold(true, |ok, &y| ok & (y == VACANT))
}

/// The page of slot j stands in no slot before it and is valid in no frame.
#[inline(always)]
fn is_new(z: &Sizes, d: &Directory, j: usize) -> bool {
    let (k, b) = (z.pages_per_block, z.frames as usize);
    let y = d.slots[j];
    let (block, offset) = (y / k, y % k);
    !d.slots[..j].contains(&y) && !(0..b).any(|f| d.frames[f] == block && d.valid[f] >> offset & 1 == 1)
}
