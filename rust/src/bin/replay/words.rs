//! The words of a line.
use crate::Release;

/// The words of a line that are still to be read, none once the last was read, and the release that they are read at.
pub struct Words<'a> {
    pub release: Release,
    pub rest: Option<&'a [u8]>,
}

impl<'a> Words<'a> {
    /// The next word; single spaces part them, so that it is empty where two stand together.
    pub fn next(&mut self) -> Option<&'a [u8]> {
        let rest = self.rest?;
        let end = rest.iter().position(|&byte| byte == b' ');
        self.rest = end.map(|at| &rest[at + 1..]);
        Some(&rest[..end.unwrap_or(rest.len())])
    }

    pub fn number(&mut self) -> Option<u32> {
        self.wide()?.try_into().ok()
    }

    /// A decimal number of 64 bits without leading zeros.
    pub fn wide(&mut self) -> Option<u64> {
        let digits = self.next()?;
        if !digits.iter().all(u8::is_ascii_digit) || (digits.len() > 1 && digits[0] == b'0') {
            return None;
        }
        std::str::from_utf8(digits).ok()?.parse().ok()
    }
}
