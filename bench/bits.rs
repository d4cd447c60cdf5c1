//! Booleans, packed 64 to a word, of the plain Rust programs.

#[derive(Default)]
pub struct Bits {
    words: Vec<u64>,
    pub count: usize,
}

#[allow(dead_code)]
impl Bits {
    pub fn push(&mut self, bit: bool) {
        if self.count % 64 == 0 {
            self.words.push(0);
        }
        self.words[self.count / 64] |= u64::from(bit) << (self.count % 64);
        self.count += 1;
    }

    pub fn get(&self, at: usize) -> bool {
        self.words[at / 64] >> (at % 64) & 1 == 1
    }

    pub fn clear(&mut self) {
        self.words.clear();
        self.count = 0;
    }
}
