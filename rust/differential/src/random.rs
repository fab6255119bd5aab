//! Random numbers from a fixed seed: splitmix64 (Steele, Lea and Flood, 2014).

/// A source of random numbers.
pub struct Random(u64);

impl Random {
    /// The source of a seed; the same seed gives the same numbers on every machine.
    pub fn new(seed: u64) -> Self {
        Random(seed)
    }

    /// 64 random bits.
    pub fn bits(&mut self) -> u64 {
        self.0 = self.0.wrapping_add(0x9E37_79B9_7F4A_7C15);
        let z = (self.0 ^ (self.0 >> 30)).wrapping_mul(0xBF58_476D_1CE4_E5B9);
        let z = (z ^ (z >> 27)).wrapping_mul(0x94D0_49BB_1331_11EB);
        z ^ (z >> 31)
    }

    /// A number from 0 to `most`. The slight bias of the remainder does no harm here.
    pub fn to(&mut self, most: usize) -> usize {
        (self.bits() % (most as u64 + 1)) as usize
    }

    /// The same of bytes.
    pub fn byte(&mut self, most: u8) -> u8 {
        self.to(most.into()) as u8
    }

    /// One of the things.
    pub fn one<T: Copy>(&mut self, of: &[T]) -> T {
        of[self.to(of.len() - 1)]
    }

    /// Random bytes.
    pub fn bytes(&mut self, len: usize) -> Vec<u8> {
        (0..len).map(|_| self.bits() as u8).collect()
    }

    /// Bytes, about half of which are all zeros or all ones, so that long ranges agree at times.
    pub fn plain_bytes(&mut self, len: usize) -> Vec<u8> {
        let fill = self.one(&[None, None, Some(0x00), Some(0xFF)]);
        let mut bytes = fill.map_or_else(|| self.bytes(len), |byte| vec![byte; len]);
        // One bit apart from the rest finds a comparison that leaves a bit out.
        if len > 0 && self.to(1) == 1 {
            let at = self.to(len - 1);
            bytes[at] ^= 1 << self.to(7);
        }
        bytes
    }
}
