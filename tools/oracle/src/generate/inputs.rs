//! Sequences of bytes to try, and random numbers.

/// Every byte there is.
pub const BYTES: [u8; 256] = {
    let mut bytes = [0; 256];
    let mut next = 0;
    while next < 256 {
        bytes[next] = next as u8;
        next += 1;
    }
    bytes
};

/// Visits every sequence with one of `choices[i]` at place i. In memory the bytes `beyond` follow
/// each of them, so that a reader which goes too far is found out.
pub fn each_sequence(choices: &[&[u8]], beyond: u8, visit: &mut impl FnMut(&[u8])) {
    let mut buffer = vec![beyond; choices.len() + 8];
    place(choices, 0, &mut buffer, visit);
}

fn place(choices: &[&[u8]], at: usize, buffer: &mut [u8], visit: &mut impl FnMut(&[u8])) {
    if at == choices.len() {
        return visit(&buffer[..at]);
    }
    for byte in choices[at] {
        buffer[at] = *byte;
        place(choices, at + 1, buffer, visit);
    }
}

/// SplitMix64: the same numbers from the same seed everywhere.
pub struct Random(u64);

impl Random {
    pub fn new(seed: u64) -> Self {
        Self(seed)
    }

    pub fn next(&mut self) -> u64 {
        self.0 = self.0.wrapping_add(0x9e37_79b9_7f4a_7c15);
        let mixed = (self.0 ^ (self.0 >> 30)).wrapping_mul(0xbf58_476d_1ce4_e5b9);
        let mixed = (mixed ^ (mixed >> 27)).wrapping_mul(0x94d0_49bb_1331_11eb);
        mixed ^ (mixed >> 31)
    }

    /// A number below `limit`, which is not 0.
    pub fn below(&mut self, limit: usize) -> usize {
        (self.next() % limit as u64) as usize
    }

    pub fn byte(&mut self) -> u8 {
        self.next() as u8
    }

    pub fn bytes(&mut self, size: usize) -> Vec<u8> {
        (0..size).map(|_| self.byte()).collect()
    }

    pub fn array<const SIZE: usize>(&mut self) -> [u8; SIZE] {
        std::array::from_fn(|_| self.byte())
    }

    /// A number of 32 bits; small ones are as frequent as large ones.
    pub fn number(&mut self) -> u32 {
        self.next() as u32 >> self.below(32)
    }

    pub fn flag(&mut self) -> bool {
        self.below(2) == 1
    }

    pub fn pick<T: Copy>(&mut self, from: &[T]) -> T {
        from[self.below(from.len())]
    }
}
