//! Numbers from a seed.

/// SplitMix64: the same seed gives the same numbers everywhere.
pub struct Chance(u64);

impl Chance {
    /// The numbers of the row `index` under a seed.
    pub fn new(seed: u64, index: u64) -> Self {
        let first = Chance(seed).next();
        Chance(Chance(first ^ index).next())
    }

    pub fn next(&mut self) -> u64 {
        self.0 = self.0.wrapping_add(0x9E37_79B9_7F4A_7C15);
        let z = (self.0 ^ (self.0 >> 30)).wrapping_mul(0xBF58_476D_1CE4_E5B9);
        let z = (z ^ (z >> 27)).wrapping_mul(0x94D0_49BB_1331_11EB);
        z ^ (z >> 31)
    }

    /// A number below n, which is not 0.
    pub fn below(&mut self, n: usize) -> usize {
        (self.next() % n as u64) as usize
    }

    pub fn one_in(&mut self, n: usize) -> bool {
        self.below(n) == 0
    }

    pub fn pick<T: Copy>(&mut self, from: &[T]) -> T {
        from[self.below(from.len())]
    }

    pub fn byte(&mut self) -> u8 {
        self.next() as u8
    }

    pub fn word(&mut self) -> u32 {
        self.next() as u32
    }

    pub fn bytes(&mut self, count: usize) -> Vec<u8> {
        (0..count).map(|_| self.byte()).collect()
    }
}

#[cfg(test)]
mod tests {
    use super::Chance;

    /// The numbers that SplitMix64 is known by, for the seed 1234567.
    #[test]
    fn as_published() {
        let mut chance = Chance(1234567);
        let published = [6457827717110365317, 3203168211198807973, 9817491932198370423, 4593380528125082431];
        assert_eq!([chance.next(), chance.next(), chance.next(), chance.next()], published);
    }
}
