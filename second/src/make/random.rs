// make/random.rs: a small random source that gives the same numbers on every machine.

/// SplitMix64.
#[derive(Clone)]
pub struct Random {
    state: u64,
}

impl Random {
    /// The kind's name enters the seed, so that equal seeds of two kinds have nothing in common.
    pub fn new(kind: &str, seed: u64) -> Random {
        let name = kind
            .bytes()
            .fold(0xCBF2_9CE4_8422_2325u64, |hash, byte| (hash ^ u64::from(byte)).wrapping_mul(0x0000_0100_0000_01B3));
        Random { state: name ^ seed.wrapping_mul(0xD134_2543_DE82_EF95) }
    }

    /// A source of its own, from which may be drawn without a change in what this one gives.
    pub fn apart(&self) -> Random {
        Random { state: !self.state }
    }

    /// Another such source, which has nothing in common with the first.
    pub fn further_apart(&self) -> Random {
        Random { state: self.state.rotate_left(32) }
    }

    /// A third one.
    pub fn furthest_apart(&self) -> Random {
        Random { state: self.state.swap_bytes() }
    }

    pub fn next(&mut self) -> u64 {
        self.state = self.state.wrapping_add(0x9E37_79B9_7F4A_7C15);
        let mut z = self.state;
        z = (z ^ (z >> 30)).wrapping_mul(0xBF58_476D_1CE4_E5B9);
        z = (z ^ (z >> 27)).wrapping_mul(0x94D0_49BB_1331_11EB);
        z ^ (z >> 31)
    }

    /// A number below `bound`, which is above 0. The slight favour of small numbers does no harm here.
    pub fn below(&mut self, bound: usize) -> usize {
        (self.next() % bound as u64) as usize
    }

    pub fn between(&mut self, least: i64, most: i64) -> i64 {
        least + self.below((most - least + 1) as usize) as i64
    }

    pub fn byte(&mut self) -> u8 {
        self.next() as u8
    }

    pub fn chance(&mut self, per_cent: usize) -> bool {
        self.below(100) < per_cent
    }

    pub fn pick<T: Copy>(&mut self, list: &[T]) -> T {
        list[self.below(list.len())]
    }

    /// Two-byte lengths near the right one, among which it may be too: more and less by so many, with the bytes exchanged,
    /// with one byte overwritten, with one byte twice, and 0.
    pub fn lengths_near(&mut self, right: u16, more: &[u16], less: &[u16]) -> Vec<u16> {
        let [high, low] = right.to_be_bytes();
        let mut lengths: Vec<u16> = more.iter().map(|more| right.wrapping_add(*more)).collect();
        lengths.extend(less.iter().map(|less| right.wrapping_sub(*less)));
        lengths.extend([
            right.swap_bytes(),
            u16::from_be_bytes([high ^ 1 << self.below(8), low]),
            u16::from_be_bytes([high, low ^ 1 << self.below(8)]),
            u16::from_be_bytes([self.byte(), low]),
            u16::from_be_bytes([high, self.byte()]),
            u16::from_be_bytes([low, low]),
            0,
        ]);
        lengths
    }

    pub fn bytes(&mut self, count: usize) -> Vec<u8> {
        let mut bytes = Vec::with_capacity(count + 8);
        while bytes.len() < count {
            bytes.extend(self.next().to_le_bytes());
        }
        bytes.truncate(count);
        bytes
    }
}
