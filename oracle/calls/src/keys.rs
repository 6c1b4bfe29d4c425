//! Keys that meet, begin each other and stand at the limits; values.

use reference::index::KEY_LIMIT;
use reference::random::Random;

/// The least byte, the greatest, and one between.
pub const LETTERS: [u8; 3] = [0x00, 0x61, 0xff];

/// The keys of one script or list of calls.
pub struct Keys {
    style: Style,
    /// What every fresh key begins with.
    prefix: Vec<u8>,
    made: Vec<Vec<u8>>,
}

#[derive(Clone, Copy)]
enum Style {
    /// Up to so many letters.
    Letters(usize),
    /// Two bytes that count up, or down.
    Rising,
    Falling,
}

impl Keys {
    /// `many` if more than some hundred different keys are wanted.
    pub fn new(random: &mut Random, many: bool) -> Keys {
        let few = Style::Letters(if many { 6 } else { 4 });
        let prefix_length = match random.below(12) {
            0 => KEY_LIMIT - 3,
            1..=4 => 1 + random.below(40),
            _ => 0,
        };
        let prefix = (0..prefix_length).map(|_| random.pick(&LETTERS)).collect();
        Keys {
            style: random.pick(&[few, few, few, Style::Rising, Style::Falling]),
            prefix,
            made: Vec::new(),
        }
    }

    pub fn key(&mut self, random: &mut Random) -> Vec<u8> {
        let key = match random.below(16) {
            0 => Vec::new(),
            1 => vec![0xff; 1 + random.below(4)],
            2..=6 => {
                let earlier = self.earlier(random);
                near(random, earlier)
            }
            7 if random.one_in(8) => vec![random.pick(&LETTERS); KEY_LIMIT + random.below(2)],
            _ => self.fresh(random),
        };
        self.made.push(key.clone());
        key
    }

    /// A key made before, or the empty one.
    pub fn earlier(&self, random: &mut Random) -> Vec<u8> {
        let at = random.below(self.made.len() + 1);
        self.made.get(at).cloned().unwrap_or_default()
    }

    fn fresh(&self, random: &mut Random) -> Vec<u8> {
        let count = (2 * self.made.len() + random.below(2)) as u16;
        let tail = match self.style {
            Style::Letters(most) => (0..random.below(most + 1))
                .map(|_| random.pick(&LETTERS))
                .collect(),
            Style::Rising => count.to_be_bytes().to_vec(),
            Style::Falling => (u16::MAX - count).to_be_bytes().to_vec(),
        };
        [self.prefix.as_slice(), &tail].concat()
    }
}

/// The key itself, one that it begins with (as a separator may be), one that
/// begins with it, or one beside it.
pub fn near(random: &mut Random, mut key: Vec<u8>) -> Vec<u8> {
    match random.below(4) {
        0 => (),
        1 => key.truncate(random.below(key.len() + 1)),
        2 => key.push(random.pick(&LETTERS)),
        _ => {
            if let Some(last) = key.last_mut() {
                *last = last.wrapping_add(random.pick(&[1, 255]));
            }
        }
    }
    key
}

pub fn value(random: &mut Random) -> Vec<u8> {
    let length = match random.below(30) {
        0 => random.below(300),
        1 => 16,
        other => other % 4,
    };
    (0..length).map(|_| random.below(256) as u8).collect()
}
