//! Numbers that look random and are the same on every run (splitmix64), and exact powers of two.

/// 2^power, also where it is subnormal. The library's `powi` promises no exactness.
pub fn two_to(power: i32) -> f64 {
    if power < -1022 {
        f64::from_bits(1 << (power + 1074))
    } else {
        f64::from_bits(((power + 1023) as u64) << 52)
    }
}

pub struct Random(u64);

impl Random {
    /// Each kind of job has a sequence of its own, so that a new kind changes no other.
    pub fn of_kind(name: &str) -> Random {
        let mix = |seed: u64, byte: u8| (seed ^ u64::from(byte)).wrapping_mul(0x100_0000_01b3);
        Random(name.bytes().fold(0xcbf2_9ce4_8422_2325, mix))
    }

    /// Another sequence of a kind; seed 0 is the stored list's.
    pub fn seeded(name: &str, seed: u64) -> Random {
        Random(Random::of_kind(name).0.wrapping_add(seed.wrapping_mul(0xd134_2543_de82_ef95)))
    }

    pub fn bits(&mut self) -> u64 {
        self.0 = self.0.wrapping_add(0x9e37_79b9_7f4a_7c15);
        let z = (self.0 ^ (self.0 >> 30)).wrapping_mul(0xbf58_476d_1ce4_e5b9);
        let z = (z ^ (z >> 27)).wrapping_mul(0x94d0_49bb_1331_11eb);
        z ^ (z >> 31)
    }

    /// A whole number from 0 to `count` - 1.
    pub fn below(&mut self, count: usize) -> usize {
        (self.bits() % count as u64) as usize
    }

    pub fn pick<T: Copy>(&mut self, list: &[T]) -> T {
        list[self.below(list.len())]
    }

    /// A number with all 53 digits, from `low` up to `high`.
    pub fn between(&mut self, low: f64, high: f64) -> f64 {
        let unit = (self.bits() >> 11) as f64 / (1u64 << 53) as f64;
        low + (high - low) * unit
    }

    pub fn pair(&mut self, low: f64, high: f64) -> [f64; 2] {
        [self.between(low, high), self.between(low, high)]
    }

    pub fn shuffle<T>(&mut self, list: &mut [T]) {
        for at in (1..list.len()).rev() {
            list.swap(at, self.below(at + 1));
        }
    }
}
