//! The generator of all drawn cases: splitmix64, so that a seed gives the same run everywhere.

const DEFAULT_SEED: u64 = 20_261_018;

/// The seed that a comparison was asked for.
pub fn seed_of(text: Option<String>) -> Result<u64, String> {
    match text {
        None => Ok(DEFAULT_SEED),
        Some(text) => text
            .parse()
            .map_err(|_| format!("the seed {text} is no number")),
    }
}

pub struct Random(u64);

impl Random {
    pub fn new(seed: u64) -> Self {
        Self(seed)
    }

    /// A generator of its own, for what a case has besides: this one goes on to draw what it always drew.
    pub fn aside(&self) -> Self {
        Self(self.0.rotate_left(32) ^ 0xD1B5_4A32_D192_ED03)
    }

    pub fn next(&mut self) -> u64 {
        self.0 = self.0.wrapping_add(0x9E37_79B9_7F4A_7C15);
        let mut z = self.0;
        z = (z ^ (z >> 30)).wrapping_mul(0xBF58_476D_1CE4_E5B9);
        z = (z ^ (z >> 27)).wrapping_mul(0x94D0_49BB_1331_11EB);
        z ^ (z >> 31)
    }

    /// A number below `bound`, which is not 0.
    pub fn below(&mut self, bound: usize) -> usize {
        (self.next() % bound as u64) as usize
    }

    pub fn byte(&mut self) -> u8 {
        self.next() as u8
    }

    /// A byte other than 0: to xor with it is to change a byte.
    pub fn change(&mut self) -> u8 {
        1 + self.below(255) as u8
    }

    pub fn word(&mut self) -> u32 {
        self.next() as u32
    }

    pub fn fill(&mut self, bytes: &mut [u8]) {
        for byte in bytes {
            *byte = self.byte();
        }
    }

    pub fn bytes(&mut self, length: usize) -> Vec<u8> {
        let mut bytes = vec![0; length];
        self.fill(&mut bytes);
        bytes
    }
}
