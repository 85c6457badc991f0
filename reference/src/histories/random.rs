//! The numbers that histories are drawn by.

/// Marsaglia's xorshift generator with 64 bits.
#[derive(Clone, Debug)]
pub struct Xorshift(u64);

impl Xorshift {
    /// A generator; seeds that differ a little give unlike numbers too.
    pub fn new(seed: u64) -> Xorshift {
        // Odd times odd, so that the state is never 0, which would stay 0.
        Xorshift((seed << 1 | 1).wrapping_mul(0x9e37_79b9_7f4a_7c15))
    }

    /// The next 64 bits.
    pub fn draw(&mut self) -> u64 {
        self.0 ^= self.0 << 13;
        self.0 ^= self.0 >> 7;
        self.0 ^= self.0 << 17;
        self.0
    }

    /// A number below `limit`, which is not 0.
    pub fn below(&mut self, limit: u32) -> u32 {
        // The high half: the low bits of this generator are its weak ones.
        ((self.draw() >> 32) % u64::from(limit)) as u32
    }

    /// One of the values, of which there is at least one.
    pub fn pick<T: Copy>(&mut self, values: &[T]) -> T {
        values[self.below(values.len() as u32) as usize]
    }
}
