// The Rust's text, unchanged, then a view of its private fields.
include!("recv.quinn.rs");

impl Recv {
    /// In the replayer's terms: `end` is the final size of a reset stream, `read` what was credited
    pub(super) fn view(&self) -> String {
        let (end, phase) = match self.state {
            RecvState::ResetRecvd { size, .. } => (size, "reset"),
            RecvState::Recv { .. } if self.stopped => (self.end, "stopped"),
            RecvState::Recv { size: Some(_) } => (self.end, "sized"),
            RecvState::Recv { size: None } => (self.end, "open"),
        };
        let read = match phase {
            "reset" | "stopped" => end,
            _ => self.assembler.bytes_read(),
        };
        format!("end={end} read={read} limit={} {phase}", self.sent_max_stream_data)
    }
    /// What the application has not had yet, if it may still read
    pub(super) fn unread(&self) -> Option<u64> {
        match self.state {
            _ if self.stopped => None,
            RecvState::ResetRecvd { .. } => Some(0),
            RecvState::Recv { .. } => Some(self.end - self.assembler.bytes_read()),
        }
    }
    pub(super) fn limit(&self) -> u64 {
        self.sent_max_stream_data
    }
}
