//! A small generator of random numbers, the same on every machine for the same seed.

pub struct Random(u64);

/// The groups of the comparison, and what else draws by a seed, each with an odd constant of its own.
#[derive(Clone, Copy)]
#[repr(u64)]
pub enum Group {
    Archive = 0x2545_F491_4F6C_DD1D,
    Typed = 0x5851_F42D_4C95_7F2D,
    Tally = 0x9FB2_1C65_1E98_DF25,
    TallyRules = 0xDA94_2042_E4DD_58B5,
    Calls = 0xA076_1D64_78BD_642F,
    Screen = 0xE703_7ED1_A0B4_28DB,
    Contexts = 0x8EBC_6AF0_9C88_C6E3,
    Sccp = 0xD6E8_FEB8_6659_FD93,
    Capture = 0xD134_2543_DE82_EF95,
    M3ua = 0xAF25_1AF3_B0F0_25B5,
    Families = 0xB564_EF22_EC7A_ECE5,
    M3uaCapture = 0xF7C2_EBC0_8F67_F2B5,
}

impl Random {
    pub fn new(seed: u64) -> Random {
        Random(seed)
    }

    /// A group's generator for its i-th message, call or table. Those of all seeds and places below 2^32 start differently,
    /// since an odd factor keeps different numbers different.
    pub fn nth(group: Group, seed: u64, i: u64) -> Random {
        Random::new((seed << 32).wrapping_add(i).wrapping_mul(group as u64))
    }

    /// SplitMix64.
    pub fn next(&mut self) -> u64 {
        self.0 = self.0.wrapping_add(0x9E37_79B9_7F4A_7C15);
        let mut z = self.0;
        z = (z ^ (z >> 30)).wrapping_mul(0xBF58_476D_1CE4_E5B9);
        z = (z ^ (z >> 27)).wrapping_mul(0x94D0_49BB_1331_11EB);
        z ^ (z >> 31)
    }

    /// A number below n, which is not 0.
    pub fn below(&mut self, n: usize) -> usize {
        (self.next() % n as u64) as usize
    }

    /// True once in n times.
    pub fn once_in(&mut self, n: usize) -> bool {
        self.below(n) == 0
    }

    pub fn pick<T: Copy>(&mut self, from: &[T]) -> T {
        from[self.below(from.len())]
    }

    pub fn octet(&mut self) -> u8 {
        self.next() as u8
    }

    pub fn octets(&mut self, n: usize) -> Vec<u8> {
        (0..n).map(|_| self.octet()).collect()
    }
}
