//! Numbers from a seed (splitmix64), so that every run has the same images.

pub struct Random(u64);

impl Random {
    pub fn new(seed: u64) -> Self {
        Random(seed)
    }

    pub fn number(&mut self) -> u64 {
        self.0 = self.0.wrapping_add(0x9e37_79b9_7f4a_7c15);
        let mut z = self.0;
        z = (z ^ (z >> 30)).wrapping_mul(0xbf58_476d_1ce4_e5b9);
        z = (z ^ (z >> 27)).wrapping_mul(0x94d0_49bb_1331_11eb);
        z ^ (z >> 31)
    }

    /// A number from `low` up to, and not, `high`.
    pub fn within(&mut self, low: usize, high: usize) -> usize {
        low + (self.number() % (high - low) as u64) as usize
    }

    pub fn bytes(&mut self, length: usize) -> Vec<u8> {
        let mut bytes = Vec::with_capacity(length + 8);
        while bytes.len() < length {
            bytes.extend_from_slice(&self.number().to_le_bytes());
        }
        bytes.truncate(length);
        bytes
    }

    pub fn one_of<T: Copy>(&mut self, choices: &[T]) -> T {
        choices[self.within(0, choices.len())]
    }

    /// A comment of that many bytes; one in eight has characters of several bytes.
    pub fn comment(&mut self, length: usize) -> Vec<u8> {
        let ascii = self.within(0, 8) != 0;
        let mut text = Vec::with_capacity(length);
        while text.len() < length {
            let mixed: &str = self.one_of(&["ä", "€", "oven", "🔑", "line 3"]);
            if !ascii && text.len() + mixed.len() <= length {
                text.extend_from_slice(mixed.as_bytes());
            } else {
                text.push(b' ' + (self.number() % 95) as u8);
            }
        }
        text
    }
}
