//! A script's lines from one `new` to the next.

use calls::keys::{self, Keys, near};
use calls::words::hex;
use reference::index::{Index, VALUE_LIMIT};
use reference::random::Random;
use reference::refusal::Refusal;

/// The script program's ceilings.
pub const POOL: usize = 64;
pub const ARENA: usize = 16_384;

/// Which lines stay.
#[derive(Clone, Copy, PartialEq)]
pub enum Kept {
    Accepted,
    All,
}

/// The lines are tried out on an index as large as can be.
pub struct Part<'a> {
    random: &'a mut Random,
    keys: Keys,
    index: Index,
    kept: Kept,
    lines: Vec<Vec<u8>>,
    /// Leaves and charge after each accepted put.
    needs: Vec<(usize, usize)>,
    buffer: Vec<u8>,
}

impl Part<'_> {
    pub fn new(random: &mut Random, fanout: usize, kept: Kept) -> Part<'_> {
        let mut index = Index::create(fanout, POOL, fanout * POOL, ARENA).expect("a good shape");
        // Whoever runs the script has them on.
        index.checks = false;
        Part {
            keys: Keys::new(random, fanout > 8),
            random,
            index,
            kept,
            lines: Vec::new(),
            needs: vec![(1, 0)],
            buffer: vec![0; VALUE_LIMIT],
        }
    }

    pub fn with_limits(self, pool: usize, arena: usize) -> Vec<Vec<u8>> {
        let mut lines = self.lines;
        let fanout = self.index.leaves().fanout;
        lines.insert(0, format!("new {fanout} {pool} {arena}").into_bytes());
        lines
    }

    /// Pool and arena as at some put, mostly the greatest, or one less.
    pub fn tight_limits(&mut self) -> (usize, usize) {
        if self.random.one_in(6) {
            return (POOL, ARENA);
        }
        let (mut pool, mut arena) = self.random.pick(&self.needs);
        if self.random.one_in(2) {
            pool = self.needs.iter().map(|need| need.0).max().unwrap_or(1);
        }
        if self.random.one_in(2) {
            arena = self.needs.iter().map(|need| need.1).max().unwrap_or(0);
        }
        pool -= usize::from(pool > 1 && self.random.one_in(3));
        arena -= usize::from(arena > 0 && self.random.one_in(3));
        match self.random.below(3) {
            0 => (pool, arena),
            1 => (POOL, arena),
            _ => (pool, ARENA),
        }
    }

    pub fn fill(&mut self, removes: bool) {
        let fanout = self.index.leaves().fanout;
        for phase in 0..1 + self.random.below(4) {
            // Of ten changes, so many put; at first there is little to remove.
            let puts = match removes {
                true if phase > 0 => self.random.pick(&[9, 5, 2]),
                true => 9,
                false => 10,
            };
            for _ in 0..5 + self.random.below(20 + 4 * fanout) {
                self.step(puts);
                // The more pairs a leaf can have, the longer it takes to fill.
                if removes && self.random.one_in(10 + 2 * fanout) {
                    self.empty_a_leaf();
                }
            }
        }
        self.lines.push(b"leaves".to_vec());
    }

    fn step(&mut self, puts: usize) {
        match self.random.below(20) {
            0 => self.replace_in_fullest(),
            1 if self.kept == Kept::All && self.random.one_in(4) => self.longest_line(),
            2..=4 => self.ask(),
            _ if self.random.below(10) < puts => {
                let (key, value) = (self.key(), keys::value(self.random));
                self.put(&key, &value);
            }
            _ => {
                let key = self.present_key();
                self.del(&key);
            }
        }
    }

    /// Now and then a separator, or near one.
    fn key(&mut self) -> Vec<u8> {
        if !self.random.one_in(6) {
            return self.keys.key(self.random);
        }
        let leaf = self.random.pick(&self.index.leaves().list);
        near(self.random, leaf.low)
    }

    /// Mostly a key that has a pair.
    fn present_key(&mut self) -> Vec<u8> {
        let leaf = self.random.pick(&self.index.leaves().list);
        if leaf.pairs.is_empty() || self.random.one_in(5) {
            return self.key();
        }
        self.random.pick(&leaf.pairs).0
    }

    fn put(&mut self, key: &[u8], value: &[u8]) {
        let refusal = self.index.insert(key, value, &mut self.buffer).err();
        let leaves = self.index.leaves();
        let (count, charge) = (leaves.list.len(), leaves.charge());
        // Else a reference that refuses too much would leave nothing to compare.
        let needed = match refusal {
            None => true,
            Some(Refusal::LongKey) => key.len() > 512,
            Some(Refusal::NoLeaf) => count == POOL,
            // With a separator that may be as long as a key.
            Some(Refusal::NoRoom) => charge + key.len() + value.len() + 512 > ARENA,
            Some(_) => false,
        };
        assert!(needed, "{refusal:?} without need");
        if refusal.is_none() {
            self.needs.push((count, charge));
        }
        self.change(
            format!("put {} {}", hex(key), hex(value)),
            refusal.is_none(),
        );
    }

    fn del(&mut self, key: &[u8]) {
        let accepted = self.index.remove(key, &mut self.buffer).is_ok();
        self.change(format!("del {}", hex(key)), accepted);
    }

    fn change(&mut self, line: String, accepted: bool) {
        if !accepted && self.kept == Kept::Accepted {
            return;
        }
        self.lines.push(line.into_bytes());
        if !self.random.one_in(5) {
            self.lines.push(b"leaves".to_vec());
        }
    }

    fn ask(&mut self) {
        let command = self.random.pick(&["get", "next", "next"]);
        let key = if self.random.one_in(2) {
            self.key()
        } else {
            self.present_key()
        };
        if self.kept == Kept::All || self.index.get(&key).is_ok() {
            self.lines
                .push(format!("{command} {}", hex(&key)).into_bytes());
        }
    }

    /// The first leaf, the last, the one before it, or one in the middle.
    fn empty_a_leaf(&mut self) {
        let leaves = &self.index.leaves().list;
        let last = leaves.len() - 1;
        let at = self
            .random
            .pick(&[0, last, last.saturating_sub(1), leaves.len() / 2]);
        for (key, _) in leaves[at].pairs.clone() {
            self.del(&key);
        }
    }

    fn replace_in_fullest(&mut self) {
        let leaves = &self.index.leaves().list;
        let fullest = leaves.iter().max_by_key(|leaf| leaf.pairs.len());
        let pairs = fullest.map_or(Vec::new(), |leaf| leaf.pairs.clone());
        if !pairs.is_empty() {
            let (key, value) = (self.random.pick(&pairs).0, keys::value(self.random));
            self.put(&key, &value);
        }
    }

    /// A line of exactly 4,096 bytes.
    fn longest_line(&mut self) {
        match self.random.below(4) {
            0 => self.put(&[], &[0x61; 2_045]),
            1 => self.put(&[0x61; 2_045], &[]),
            2 => self.del(&[0x61; 2_046]),
            _ => self
                .lines
                .push(format!("get {}", hex(&[0x61; 2_046])).into_bytes()),
        }
    }
}
