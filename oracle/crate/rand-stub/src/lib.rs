//! Two names that spaces.rs imports, for a filter that the oracle never calls.
pub trait Rng {
    fn next_u64(&mut self) -> u64;
}
pub trait RngExt: Rng {
    fn random_range(&mut self, r: std::ops::Range<u64>) -> u64 {
        r.start + self.next_u64() % (r.end - r.start)
    }
}
impl<T: Rng + ?Sized> RngExt for T {}
