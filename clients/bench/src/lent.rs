//! The index as a kernel holds it: its header is lent to the calls that change
//! it. The Rust crate makes these calls by value.

use crate::ffi::*;
use crate::sides::{ARENA, Changes, FANOUT, POOL};
use olybzhan::{Header, Index};

#[derive(Clone)]
pub struct Lent {
    header: Header,
    dir: Vec<u32>,
    slots: Vec<u64>,
    arena: Vec<u8>,
}

impl Lent {
    pub fn new() -> Lent {
        let (mut dir, mut slots) = (vec![0; POOL], vec![0; FANOUT * POOL]);
        let mut arena = vec![0; ARENA];
        let header = create(&mut dir, &mut slots, &mut arena);
        Lent {
            header,
            dir,
            slots,
            arena,
        }
    }

    /// An empty index, whatever the buffers hold.
    pub fn create(&mut self) {
        self.header = create(&mut self.dir, &mut self.slots, &mut self.arena);
    }
}

fn create(dir: &mut [u32], slots: &mut [u64], arena: &mut [u8]) -> Header {
    let index = Index::over(FANOUT, dir, slots, arena);
    index.expect("the greatest sizes").header()
}

impl Changes for Lent {
    fn insert(&mut self, key: &[u8], value: &[u8]) -> usize {
        let mut old = [0; 64];
        let answer = change!(
            olybzhan_insert,
            &mut self.header,
            (&mut self.dir, &mut self.slots, &mut self.arena),
            as_mut_ptr,
            reads[key, value],
            writes[old]
        );
        assert_eq!(answer.refusal, 0);
        answer.length
    }

    fn remove(&mut self, key: &[u8]) -> usize {
        let mut old = [0; 64];
        let answer = change!(
            olybzhan_remove,
            &mut self.header,
            (&mut self.dir, &mut self.slots, &mut self.arena),
            as_mut_ptr,
            reads[key],
            writes[old]
        );
        assert_eq!(answer.refusal, 0);
        answer.length
    }

    fn clear(&mut self) {
        let answer = change!(
            olybzhan_clear,
            &mut self.header,
            (&mut self.dir, &mut self.slots, &mut self.arena),
            as_ptr
        );
        assert_eq!(answer.refusal, 0);
    }

    fn copy(&self, _: &[(Vec<u8>, Vec<u8>)]) -> Box<dyn Changes> {
        Box::new(self.clone())
    }

    fn count(&self) -> usize {
        let told = read!(
            olybzhan_len_by_value,
            self.header,
            (&self.dir, &self.slots, &self.arena)
        );
        assert_eq!(told.refusal, 0);
        told.length
    }
}
