//! Page codes (A6), by words of 64 bits: 3 bytes for each chunk of 256. `bench/ecc.rs` measures the proved codes beside these.

/// For each byte, its parity in bit 3 and the exclusive-or of its set bits' positions in bits 0 to 2.
static TABLE: [u8; 256] = table();

const fn table() -> [u8; 256] {
    let mut t = [0; 256];
    let mut b = 0;
    while b < 256 {
        let mut i = 0;
        while i < 8 {
            if b >> i & 1 == 1 {
                t[b] ^= 8 | i as u8;
            }
            i += 1;
        }
        b += 1;
    }
    t
}

#[inline(always)]
fn odd(b: u64) -> u32 {
    (TABLE[(b & 255) as usize] >> 3) as u32
}

#[inline(always)]
fn parity(x: u64) -> u32 {
    let x = x ^ (x >> 32);
    let x = x ^ (x >> 16);
    odd(x ^ (x >> 8))
}

/// A chunk's code: bit i of `ones` is the parity of the set bits whose address bit i is 1.
#[inline(always)]
fn code(s: &[u8; 256]) -> u32 {
    let word = |i: usize| u64::from_le_bytes(s[i * 8..i * 8 + 8].try_into().unwrap());
    let mut g = [[0u64; 4]; 4];
    for k in 0..4 {
        let a: [u64; 8] = std::array::from_fn(|i| word(k * 8 + i));
        let (ab, cd, ef, gh) = (a[0] ^ a[1], a[2] ^ a[3], a[4] ^ a[5], a[6] ^ a[7]);
        g[k] = [ab ^ cd ^ ef ^ gh, (a[1] ^ a[3]) ^ (a[5] ^ a[7]), cd ^ gh, ef ^ gh];
    }
    let high = g[2][0] ^ g[3][0];
    let all = g[0][0] ^ g[1][0] ^ high;
    let sum = |t: usize| (g[0][t] ^ g[1][t]) ^ (g[2][t] ^ g[3][t]);
    let y = all ^ (all >> 8);
    let z = y ^ (y >> 16);
    let e = TABLE[((z ^ (z >> 32)) & 255) as usize] as u32;
    let u = all >> 8;
    let v = u ^ (u >> 16);
    let mut ones = e & 7 | odd(v ^ (v >> 32)) << 3 | odd((y >> 16) ^ (y >> 48)) << 4 | odd(z >> 32) << 5;
    for (t, x) in [sum(1), sum(2), sum(3), g[1][0] ^ g[3][0], high].into_iter().enumerate() {
        ones |= parity(x) << (6 + t);
    }
    let mut x = ones;
    x = (x | x << 8) & 0x00ff00ff;
    x = (x | x << 4) & 0x0f0f0f0f;
    x = (x | x << 2) & 0x33333333;
    x = (x | x << 1) & 0x55555555;
    0xffffff ^ (x * 3) ^ (0x155555 & (e >> 3).wrapping_neg())
}

/// The address of the bit to flip, or none, of a difference that can be read.
fn verdict(x: u32) -> Option<Option<usize>> {
    if x.count_ones() <= 1 {
        return Some(None);
    }
    if x < 1 << 22 && (x ^ (x >> 1)) & 0x155555 == 0x155555 {
        return Some(Some((0..11).map(|i| ((x >> (2 * i + 1) & 1) << i) as usize).sum()));
    }
    None
}

#[inline(always)]
fn difference(chunk: &[u8], code_bytes: &[u8]) -> u32 {
    let stored = code_bytes[0] as u32 | (code_bytes[1] as u32) << 8 | (code_bytes[2] as u32) << 16;
    code(chunk.try_into().unwrap()) ^ stored
}

/// The codes of a page.
#[inline(always)]
pub fn encode(codes: &mut [u8], page: &[u8]) {
    for (k, d) in codes.chunks_exact_mut(3).zip(page.chunks_exact(256)) {
        k.copy_from_slice(&code(d.try_into().unwrap()).to_le_bytes()[..3]);
    }
}

/// How many chunks of a page the rule mends, data or code; none where one is unreadable.
#[inline(always)]
pub fn mends(page: &[u8], codes: &[u8]) -> Option<u32> {
    let mut n = 0;
    for (k, d) in codes.chunks_exact(3).zip(page.chunks_exact(256)) {
        let x = difference(d, k);
        if x != 0 {
            verdict(x)?;
            n += 1;
        }
    }
    Some(n)
}

/// Flips the bits that the rule flips in a copy of a page.
pub fn mend(page: &mut [u8], codes: &[u8]) {
    for (k, d) in codes.chunks_exact(3).zip(page.chunks_exact_mut(256)) {
        if let Some(Some(a)) = verdict(difference(d, k)) {
            d[a / 8] ^= 1 << (a % 8);
        }
    }
}
