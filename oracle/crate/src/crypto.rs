// Names that packet.rs and spaces.rs mention; never called.
pub trait PacketKey: Send {
    fn encrypt(&self, packet: u64, buf: &mut [u8], header_len: usize);
}
pub trait HeaderKey: Send {
    fn decrypt(&self, pn_offset: usize, packet: &mut [u8]);
    fn encrypt(&self, pn_offset: usize, packet: &mut [u8]);
    fn sample_size(&self) -> usize;
}
pub struct Keys;
