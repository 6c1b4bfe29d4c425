use alloc::vec;
use alloc::vec::Vec;

/// What an index keeps beside its buffers: C's `struct olybzhan_header`.
#[repr(C)]
#[derive(Clone, Copy, Debug, PartialEq, Eq)]
pub struct Header {
    /// A leaf holds at most one pair less.
    pub fanout: usize,
    /// The leaves in use.
    pub leaves: usize,
    /// The pairs of all leaves.
    pub pairs: usize,
    /// The bytes of all keys, values and low keys, each in full: never more than
    /// the arena has.
    pub charge: usize,
}

/// What an index lives in: [`Owned`] buffers or [`Lent`] ones.
pub trait Buffers: sealed::Parts {}

impl Buffers for Owned {}
impl Buffers for Lent<'_> {}

/// The buffers of an index that has its own.
#[derive(Clone)]
pub struct Owned {
    dir: Vec<u32>,
    slots: Vec<u64>,
    arena: Vec<u8>,
}

impl Owned {
    pub(crate) fn new(fanout: usize, pool: usize, arena: usize) -> Owned {
        Owned {
            dir: vec![0; pool],
            slots: vec![0; fanout * pool],
            arena: vec![0; arena],
        }
    }
}

/// Buffers that are lent to an index for as long as it lives.
pub struct Lent<'a> {
    pub(crate) dir: &'a mut [u32],
    pub(crate) slots: &'a mut [u64],
    pub(crate) arena: &'a mut [u8],
}

pub(crate) mod sealed {
    /// Directory, slots and arena.
    pub trait Parts {
        fn parts(&self) -> (&[u32], &[u64], &[u8]);
        fn parts_mut(&mut self) -> (&mut [u32], &mut [u64], &mut [u8]);
    }
}

impl sealed::Parts for Owned {
    fn parts(&self) -> (&[u32], &[u64], &[u8]) {
        (&self.dir, &self.slots, &self.arena)
    }

    fn parts_mut(&mut self) -> (&mut [u32], &mut [u64], &mut [u8]) {
        (&mut self.dir, &mut self.slots, &mut self.arena)
    }
}

impl sealed::Parts for Lent<'_> {
    fn parts(&self) -> (&[u32], &[u64], &[u8]) {
        (self.dir, self.slots, self.arena)
    }

    fn parts_mut(&mut self) -> (&mut [u32], &mut [u64], &mut [u8]) {
        (self.dir, self.slots, self.arena)
    }
}
