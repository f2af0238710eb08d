// A data carrier of ours under the name that the Rust imports; compared by the Rust's own comparison.
use std::{fmt, ops};

use crate::RESET_TOKEN_SIZE;

#[derive(Debug, Copy, Clone)]
pub struct ResetToken {
    bytes: [u8; RESET_TOKEN_SIZE],
}

impl From<[u8; RESET_TOKEN_SIZE]> for ResetToken {
    fn from(bytes: [u8; RESET_TOKEN_SIZE]) -> Self {
        Self { bytes }
    }
}

impl PartialEq for ResetToken {
    fn eq(&self, with: &Self) -> bool {
        crate::constant_time::eq(self, with)
    }
}

impl Eq for ResetToken {}

impl ops::Deref for ResetToken {
    type Target = [u8];
    fn deref(&self) -> &[u8] {
        &self.bytes
    }
}

impl fmt::Display for ResetToken {
    fn fmt(&self, f: &mut fmt::Formatter<'_>) -> fmt::Result {
        f.write_str(&crate::hex(self))
    }
}
