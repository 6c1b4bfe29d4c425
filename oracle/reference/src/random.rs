//! Random draws that a seed repeats.

/// The splitmix generator of 64 bits; any seed will do.
pub struct Random(u64);

impl Random {
    pub fn new(seed: u64) -> Random {
        Random(seed)
    }

    pub fn word(&mut self) -> u64 {
        self.0 = self.0.wrapping_add(0x9e37_79b9_7f4a_7c15);
        let mut word = self.0;
        word = (word ^ word >> 30).wrapping_mul(0xbf58_476d_1ce4_e5b9);
        word = (word ^ word >> 27).wrapping_mul(0x94d0_49bb_1331_11eb);
        word ^ word >> 31
    }

    pub fn below(&mut self, limit: usize) -> usize {
        (self.word() % limit as u64) as usize
    }

    pub fn one_in(&mut self, times: usize) -> bool {
        self.below(times) == 0
    }

    pub fn pick<T: Clone>(&mut self, from: &[T]) -> T {
        from[self.below(from.len())].clone()
    }

    /// Numbers that never fall: all at the low end, all at the high end, each
    /// at one of the two, or spread.
    pub fn rising(&mut self, count: usize, low: usize, high: usize) -> Vec<usize> {
        let kind = self.below(6);
        let mut draw = || match kind {
            0 => low,
            1 => high,
            2 => self.pick(&[low, high]),
            _ => low + self.below(high - low + 1),
        };
        let mut numbers: Vec<usize> = (0..count).map(|_| draw()).collect();
        numbers.sort_unstable();
        numbers
    }

    pub fn shuffle<T>(&mut self, list: &mut [T]) {
        for at in 1..list.len() {
            list.swap(at, self.below(at + 1));
        }
    }
}
