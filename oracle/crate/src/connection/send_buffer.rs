// The older crate's text, unchanged, and the two methods that the sending half calls since. Nothing
// that is compared depends on it.
include!("send_buffer.deb092.rs");

impl SendBuffer {
    pub(super) fn discard(&mut self) {
        let kept = self.offset;
        *self = Self::default();
        (self.offset, self.unsent) = (kept, kept);
    }
    pub(super) fn buffered(&self) -> u64 {
        self.unacked_len as u64
    }
}
