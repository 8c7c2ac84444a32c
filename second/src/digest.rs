//! The digest of PROTOCOL.md.

#[derive(Clone, Copy, Default)]
pub struct Digest(u64);

impl Digest {
    /// Takes in some bytes, in order.
    pub fn add(&mut self, bytes: &[u8]) {
        for &byte in bytes {
            self.0 = (self.0 * 31 + byte as u64 + 1) % 4_294_967_291;
        }
    }

    /// The digest so far.
    pub fn value(self) -> u64 {
        self.0
    }

    /// The digest of some bytes, begun from 0.
    pub fn of(bytes: &[u8]) -> u64 {
        let mut digest = Digest::default();
        digest.add(bytes);
        digest.value()
    }
}
