// The Rust's text, unchanged, then a view of its private fields.
include!("cid_queue.quinn.rs");

impl CidQueue {
    /// The active number, then SEQ:CID/TOKEN for each id held, ascending
    pub(crate) fn view(&self) -> String {
        let mut s = self.offset.to_string();
        for (i, (cid, token)) in self.iter() {
            s += &format!(" {}:{}/", self.offset + i as u64, crate::hex(&cid));
            s += &token.map_or("-".into(), |t| crate::hex(&t));
        }
        s
    }
    /// Whether `token` is the active id's
    pub(crate) fn is_active_token(&self, token: ResetToken) -> bool {
        self.buffer[self.cursor].unwrap().1 == Some(token)
    }
}
