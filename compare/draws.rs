//! Numbers drawn for the cases.

/// A small fixed generator: each draw multiplies, adds, and gives the upper half.
pub struct Draws {
    state: u64,
}

impl Draws {
    pub fn from(start: u64) -> Draws {
        Draws { state: start }
    }

    /// A number below a limit.
    pub fn below(&mut self, limit: u32) -> u32 {
        self.state = self.state.wrapping_mul(6_364_136_223_846_793_005).wrapping_add(1_442_695_040_888_963_407);
        (self.state >> 32) as u32 % limit
    }

    pub fn bytes(&mut self, count: usize) -> Vec<u8> {
        (0..count).map(|_| self.below(256) as u8).collect()
    }

    pub fn word(&mut self) -> u16 {
        self.below(65_536) as u16
    }

    pub fn shuffled<T>(&mut self, mut list: Vec<T>) -> Vec<T> {
        for place in (1..list.len()).rev() {
            list.swap(place, self.below(place as u32 + 1) as usize);
        }
        list
    }
}
