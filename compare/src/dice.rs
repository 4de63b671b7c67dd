//! Random numbers by a fixed seed, for the stored cases. These rest on this sequence, and the documented seeds of `scale` on that of
//! `together::random`: so there are two.

use crate::stored::Spacing;

/// Numbers by xorshift, the same on each run.
pub struct Dice(pub u64);

impl Dice {
    pub fn below(&mut self, limit: u32) -> u32 {
        self.0 ^= self.0 << 13;
        self.0 ^= self.0 >> 7;
        self.0 ^= self.0 << 17;
        ((self.0 >> 33) % u64::from(limit)) as u32
    }

    pub fn pick<T: Copy>(&mut self, from: &[T]) -> T {
        from[self.below(from.len() as u32) as usize]
    }

    pub fn counts(&mut self, length: usize, limit: u32) -> Vec<u32> {
        (0..length).map(|_| self.below(limit)).collect()
    }

    /// Ideals from 0.25 to 6.2, in steps that make ties likely.
    pub fn ideals(&mut self, length: usize) -> Vec<f64> {
        (0..length).map(|_| f64::from(1 + self.below(25)) * 0.25).collect()
    }

    /// Ranges in the same steps; every third has equal ends.
    pub fn ranges(&mut self, length: usize) -> Spacing {
        let least = self.ideals(length);
        let most = least.iter().map(|least| least + self.pick(&[0.0, 0.0, 0.25, 0.5, 1.0, 4.0])).collect();
        Spacing::Within { least, most }
    }
}
