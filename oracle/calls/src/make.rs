//! Lists of calls from a seed.

use crate::call::{Bytes, Call, Shape, Span};
use crate::keys::{self, Keys};
use reference::index::{ARENA_LIMIT, VALUE_LIMIT};
use reference::random::Random;
use reference::range::{Bound, Range};

const FANOUTS: [usize; 7] = [3, 4, 5, 6, 7, 8, 16];
pub const BOUNDS: [Bound; 3] = [Bound::Included, Bound::Excluded, Bound::Open];

/// Fanout, pool, slots and arena at the sizes' limits and just outside.
const SHAPES: [(usize, usize, usize, usize); 12] = [
    (2, 4, 8, 64),
    (3, 4, 12, 64),
    (64, 4, 256, 64),
    (65, 4, 260, 64),
    (3, 0, 0, 64),
    (3, 1, 3, 64),
    (3, 4_096, 12_288, 64),
    (3, 4_097, 12_291, 64),
    (3, 4, 11, 64),
    (3, 4, 13, 64),
    (3, 4, 12, ARENA_LIMIT),
    (3, 4, 12, ARENA_LIMIT + 1),
];

/// Enough for every key and for the values of `keys::value`.
pub const AMPLE: usize = 600;

/// Where `generous`, every key and value has room, and no range is inverted.
pub fn calls(seed: u64, generous: bool) -> Vec<Call> {
    let mut random = Random::new(seed);
    let mut maker = Maker {
        keys: Keys::new(&mut random, false),
        generous,
        random,
    };
    let mut calls = Vec::new();
    if !generous {
        calls.push(create(maker.random.pick(&SHAPES)));
        calls.push(create(maker.random.pick(&SHAPES)));
    }
    calls.push(maker.create());
    // Shares of inserts, of 16 changes: the index fills and empties.
    for inserts in [13, 8, 4, 10] {
        for _ in 0..10 + maker.random.below(30) {
            let call = maker.call(inserts);
            let changes = matches!(call, Call::Insert { .. } | Call::Remove { .. });
            calls.push(call);
            if changes {
                calls.extend([Call::Leaves, Call::Layout]);
            }
        }
    }
    calls
}

/// With slots as long as fanout and pool ask for.
pub fn ample(fanout: usize) -> Call {
    create((fanout, 1_000, fanout * 1_000, ARENA_LIMIT))
}

fn create((fanout, pool, slots, arena): (usize, usize, usize, usize)) -> Call {
    Call::Create(Shape {
        fanout,
        pool,
        slots,
        arena,
    })
}

struct Maker {
    random: Random,
    keys: Keys,
    generous: bool,
}

impl Maker {
    fn create(&mut self) -> Call {
        let fanout = self.random.pick(&FANOUTS);
        if self.generous || self.random.one_in(4) {
            return ample(fanout);
        }
        let pool = 1 + self.random.below(12);
        let most = self.random.pick(&[60, 600]);
        create((fanout, pool, fanout * pool, self.random.below(most)))
    }

    fn call(&mut self, inserts: usize) -> Call {
        let (key, room) = (self.key(), self.room());
        match self.random.below(32) {
            0 if self.random.one_in(8) => Call::Clear,
            0 => Call::Len,
            1 => Call::First { room },
            2 | 3 => Call::GetGt { key, room },
            4 => Call::Get { key },
            5 => Call::ContainsKey { key },
            6 | 7 => Call::WalkRange {
                span: self.span(key),
            },
            8..=12 => Call::FirstInRange {
                span: self.span(key),
                room,
            },
            13 => Call::WalkPrefix { prefix: key },
            14 | 15 => Call::ScanPrefix { prefix: key, room },
            choice if choice < 16 + inserts => Call::Insert {
                key,
                value: self.value(),
                room,
            },
            _ => Call::Remove {
                key: Bytes(self.keys.earlier(&mut self.random)),
                room,
            },
        }
    }

    fn key(&mut self) -> Bytes {
        Bytes(self.keys.key(&mut self.random))
    }

    fn value(&mut self) -> Bytes {
        if !self.generous && self.random.one_in(40) {
            return Bytes(vec![1; VALUE_LIMIT + self.random.below(2)]);
        }
        Bytes(keys::value(&mut self.random))
    }

    fn room(&mut self) -> usize {
        if self.generous || self.random.one_in(2) {
            return AMPLE;
        }
        self.random.below(5)
    }

    fn span(&mut self, start: Bytes) -> Span {
        let range = Range::new(self.random.pick(&BOUNDS), self.random.pick(&BOUNDS));
        let end = self.key();
        let (start, end) = if self.generous && *start > *end {
            (end, start)
        } else {
            (start, end)
        };
        Span { range, start, end }
    }
}
