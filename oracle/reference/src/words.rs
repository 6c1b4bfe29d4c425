//! The packed words of document 01. Fields stand most significant first.

/// Each field is below its limit.
pub const OFFSET_LIMIT: usize = 1 << 28;
pub const SUFFIX_LIMIT: usize = 1 << 12;
pub const VALUE_FIELD_LIMIT: usize = 1 << 24;
pub const NUMBER_LIMIT: usize = 1 << 12;
pub const COUNT_LIMIT: usize = 1 << 20;

/// A part of the arena: a pair's suffix and value, which lie next to each
/// other. A low key is a part too, a suffix without a value.
#[derive(Clone, Copy, Debug, PartialEq, Eq)]
pub struct SlotWord {
    pub offset: usize,
    pub suffix_length: usize,
    pub value_length: usize,
}

/// A used leaf.
#[derive(Clone, Copy, Debug, PartialEq, Eq)]
pub struct DirectoryWord {
    pub number: usize,
    pub count: usize,
}

impl SlotWord {
    pub fn unpack(word: u64) -> SlotWord {
        SlotWord {
            offset: (word >> 36) as usize,
            suffix_length: (word >> 24) as usize % SUFFIX_LIMIT,
            value_length: word as usize % VALUE_FIELD_LIMIT,
        }
    }

    pub fn pack(self) -> u64 {
        assert!(self.offset < OFFSET_LIMIT, "28 bits");
        assert!(self.suffix_length < SUFFIX_LIMIT, "12 bits");
        assert!(self.value_length < VALUE_FIELD_LIMIT, "24 bits");
        let (suffix, value) = (self.suffix_length as u64, self.value_length as u64);
        (self.offset as u64) << 36 | suffix << 24 | value
    }

    /// Where the suffix ends and the value begins.
    pub fn middle(self) -> usize {
        self.offset + self.suffix_length
    }

    /// Where the value ends.
    pub fn end(self) -> usize {
        self.middle() + self.value_length
    }
}

impl DirectoryWord {
    pub fn unpack(word: u32) -> DirectoryWord {
        DirectoryWord {
            number: (word >> 20) as usize,
            count: word as usize % COUNT_LIMIT,
        }
    }

    pub fn pack(self) -> u32 {
        assert!(self.number < NUMBER_LIMIT, "12 bits");
        assert!(self.count < COUNT_LIMIT, "20 bits");
        (self.number as u32) << 20 | self.count as u32
    }
}
