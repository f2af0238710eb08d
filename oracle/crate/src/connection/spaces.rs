// The Rust's text, unchanged, then a view of its private fields.
include!("spaces.quinn.rs");

impl Dedup {
    pub(super) fn view(&self) -> String {
        format!("next={}", self.next)
    }
}

impl PendingAcks {
    pub(super) fn fresh() -> Self {
        Self::new()
    }
    pub(super) fn holds(&self, n: u64) -> bool {
        self.ranges.contains(n)
    }
    pub(super) fn view(&self) -> String {
        crate::list(self.ranges.iter())
    }
}
