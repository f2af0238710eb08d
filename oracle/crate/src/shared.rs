// Data carriers of ours under the names that the Rust imports.
use bytes::{Buf, BufMut};
use std::{fmt, ops};

use crate::{MAX_CID_SIZE, ResetToken};

/// A connection id: the first `used` of 20 bytes
#[derive(Clone, Copy, PartialEq, Eq, PartialOrd, Ord, Hash, Debug)]
pub struct ConnectionId {
    text: [u8; MAX_CID_SIZE],
    used: usize,
}

impl ConnectionId {
    pub fn new(from: &[u8]) -> Self {
        let mut text = [0; MAX_CID_SIZE];
        for (to, b) in text.iter_mut().zip(from) {
            *to = *b;
        }
        Self { text, used: from.len() }
    }
    // the three below are named by packet.rs, whose headers the oracle never reads
    pub fn from_buf(buf: &mut (impl Buf + ?Sized), len: usize) -> Self {
        let all: Vec<u8> = (0..len).map(|_| buf.get_u8()).collect();
        Self::new(&all)
    }
    pub(crate) fn decode_long(buf: &mut impl Buf) -> Option<Self> {
        if !buf.has_remaining() {
            return None;
        }
        let len = usize::from(buf.get_u8());
        (len <= MAX_CID_SIZE && len <= buf.remaining()).then(|| Self::from_buf(buf, len))
    }
    pub(crate) fn encode_long(&self, buf: &mut impl BufMut) {
        buf.put_u8(self.used as u8);
        self.iter().for_each(|b| buf.put_u8(*b));
    }
}

impl ops::Deref for ConnectionId {
    type Target = [u8];
    fn deref(&self) -> &[u8] {
        self.text.split_at(self.used).0
    }
}

impl fmt::Display for ConnectionId {
    fn fmt(&self, f: &mut fmt::Formatter<'_>) -> fmt::Result {
        f.write_str(&crate::hex(self))
    }
}

#[derive(Debug, Copy, Clone, PartialEq, Eq)]
pub enum EcnCodepoint {
    Ect0,
    Ect1,
    Ce,
}

#[derive(Debug, Copy, Clone)]
pub struct IssuedCid {
    pub sequence: u64,
    pub id: ConnectionId,
    pub reset_token: ResetToken,
}
