//! An index opened from a header and lent buffers: the reading calls of
//! `index`, with the places that docs/LAYOUT.md's words give to what they find.

use crate::buffers::{Buffers, Header, Lent};
use crate::index::Index;
use crate::layout::read;
use crate::range::Range;
use crate::refusal::Refusal;
use crate::words::SlotWord;

/// A part of the arena.
#[derive(Clone, Copy, Debug, PartialEq, Eq)]
pub struct Place {
    pub offset: usize,
    pub length: usize,
}

/// A pair found by a scan: its key is in the caller's buffer.
#[derive(Clone, Copy, Debug, PartialEq, Eq)]
pub struct FoundAt {
    pub key_length: usize,
    pub value: Place,
}

/// An entry of the leaf list.
#[derive(Clone, Copy, Debug, PartialEq, Eq)]
pub struct ShownAt {
    pub low: Place,
    pub upper: Option<Place>,
    pub prefix_length: usize,
    pub pairs: usize,
}

#[derive(Clone, Debug)]
pub struct Opened {
    index: Index,
    /// Of the leaves in key order.
    places: Vec<LeafPlaces>,
}

#[derive(Clone, Debug)]
struct LeafPlaces {
    low: Place,
    /// Of the pairs in key order.
    values: Vec<Place>,
}

impl Opened {
    /// Each call tests first whether there is an index. It is tested here once.
    pub fn open(header: &Header, buffers: &Buffers) -> Result<Opened, Refusal> {
        let Buffers { dir, slots, arena } = buffers;
        let leaves = read(header, dir, slots, arena).ok_or(Refusal::Damaged)?;
        let lent = Lent {
            header,
            dir,
            slots,
            arena,
        };
        let places = lent.directory().map(|leaf| LeafPlaces {
            low: suffix_place(lent.low_word(leaf)),
            values: lent.pair_words(leaf).map(value_place).collect(),
        });
        Ok(Opened {
            places: places.collect(),
            index: Index::holding(leaves, dir.len(), arena.len()),
        })
    }

    /// For what has no place: its own calls, and the leaf list.
    pub fn index(&self) -> &Index {
        &self.index
    }

    pub fn get(&self, key: &[u8]) -> Result<Option<Place>, Refusal> {
        let value = self.index.get(key)?;
        Ok(value.map(|_| self.place_beside(key)))
    }

    pub fn first_in_range(
        &self,
        range: Range,
        start: &[u8],
        end: &[u8],
        key_out: &mut [u8],
    ) -> Result<Option<FoundAt>, Refusal> {
        let found = self.index.first_in_range(range, start, end, key_out)?;
        let key_length = found.map(|found| found.key_length);
        Ok(key_length.map(|key_length| self.found_at(&key_out[..key_length])))
    }

    pub fn get_gt(&self, key: &[u8], key_out: &mut [u8]) -> Result<Option<FoundAt>, Refusal> {
        let found = self.index.get_gt(key, key_out)?;
        let key_length = found.map(|found| found.key_length);
        Ok(key_length.map(|key_length| self.found_at(&key_out[..key_length])))
    }

    pub fn first(&self, key_out: &mut [u8]) -> Result<Option<FoundAt>, Refusal> {
        let found = self.index.first(key_out)?;
        let key_length = found.map(|found| found.key_length);
        Ok(key_length.map(|key_length| self.found_at(&key_out[..key_length])))
    }

    /// The upper key isn't stored: its place is the next low key's.
    pub fn leaf_at(&self, at: usize) -> Option<ShownAt> {
        let shown = self.index.leaf_at(at)?;
        Some(ShownAt {
            low: self.places[at].low,
            upper: shown.upper.map(|_| self.places[at + 1].low),
            prefix_length: shown.prefix_length,
            pairs: shown.pairs.len(),
        })
    }

    fn found_at(&self, key: &[u8]) -> FoundAt {
        FoundAt {
            key_length: key.len(),
            value: self.place_beside(key),
        }
    }

    /// The place of the value beside a key that is held. All leaves are looked
    /// through, so that no search is trusted.
    fn place_beside(&self, key: &[u8]) -> Place {
        let leaves = self.index.leaves().list.iter().zip(&self.places);
        let mut places = leaves.filter_map(|(leaf, places)| {
            let at = leaf.keys().position(|held| held == key)?;
            Some(places.values[at])
        });
        places.next().expect("a key that is held")
    }
}

fn suffix_place(word: SlotWord) -> Place {
    Place {
        offset: word.offset,
        length: word.suffix_length,
    }
}

/// A value lies right behind its suffix.
fn value_place(word: SlotWord) -> Place {
    Place {
        offset: word.middle(),
        length: word.value_length,
    }
}
