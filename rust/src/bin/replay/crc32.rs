/// The CRC-32 of zlib.
pub fn crc32(bytes: &[u8]) -> u32 {
    !bytes.iter().fold(!0, |c, &byte| TABLE[((c ^ byte as u32) & 255) as usize] ^ c >> 8)
}

const TABLE: [u32; 256] = table();

const fn table() -> [u32; 256] {
    let mut table = [0; 256];
    let mut byte = 0;
    while byte < 256 {
        table[byte] = entry(byte as u32);
        byte += 1;
    }
    table
}

const fn entry(byte: u32) -> u32 {
    let mut c = byte;
    let mut bit = 0;
    while bit < 8 {
        c = if c & 1 == 1 { 0xedb8_8320 ^ c >> 1 } else { c >> 1 };
        bit += 1;
    }
    c
}

#[cfg(test)]
mod tests {
    #[test]
    fn the_check_value() {
        assert_eq!(super::crc32(b"123456789"), 0xcbf4_3926);
        assert_eq!(super::crc32(b""), 0);
    }
}
