//! An output that is lent to a call, in memory that the call must leave alone.

/// Bytes kept before and behind the output.
const MARGIN: usize = 16;

pub struct Output {
    memory: Vec<u8>,
    expected: Vec<u8>,
    room: usize,
}

impl Output {
    /// Other bytes for each call: one that is written could equal them once, by
    /// chance, but not each time.
    pub fn new(room: usize, call: usize) -> Output {
        let byte = |at| (at * 7 + call * 31) as u8 ^ 0xa5;
        let memory: Vec<u8> = (0..MARGIN + room + MARGIN).map(byte).collect();
        Output {
            expected: memory.clone(),
            memory,
            room,
        }
    }

    pub fn lent(&mut self) -> &mut [u8] {
        &mut self.memory[MARGIN..][..self.room]
    }

    /// For the reference.
    pub fn expected(&mut self) -> &mut [u8] {
        &mut self.expected[MARGIN..][..self.room]
    }

    /// The first byte that differs, counted from the output's front, so that
    /// one before it is below 0.
    pub fn difference(&self) -> Option<String> {
        let mut both = self.memory.iter().zip(&self.expected);
        let at = both.position(|(one, other)| one != other)?;
        let at = at as isize - MARGIN as isize;
        Some(format!("output byte {at} is left wrong"))
    }
}
