//! The packed words at the edges of their fields.

use reference::random::Random;
use reference::words::{DirectoryWord, SlotWord};
use std::panic::catch_unwind;

fn slot_word((offset, suffix_length, value_length): (usize, usize, usize)) -> SlotWord {
    SlotWord {
        offset,
        suffix_length,
        value_length,
    }
}

fn directory_word((number, count): (usize, usize)) -> DirectoryWord {
    DirectoryWord { number, count }
}

#[test]
fn slot_words() {
    let rows = [
        ((0, 0, 0), 0),
        ((0, 0, 1), 1),
        ((0, 0, 0xff_ffff), 0xff_ffff),
        ((0, 1, 0), 0x100_0000),
        ((0, 0xfff, 0), 0xf_ff00_0000),
        ((1, 0, 0), 0x10_0000_0000),
        ((0xfff_ffff, 0, 0), 0xffff_fff0_0000_0000),
        ((0xfff_ffff, 0xfff, 0xff_ffff), u64::MAX),
        ((0x123_4567, 0x89a, 0xbc_def0), 0x1234_5678_9abc_def0),
        ((1_048_576, 512, 65_535), 0x0100_0002_0000_ffff),
    ];
    for (fields, word) in rows {
        assert_eq!(slot_word(fields).pack(), word);
        assert_eq!(SlotWord::unpack(word), slot_word(fields));
    }
}

#[test]
fn directory_words() {
    let rows = [
        ((0, 0), 0),
        ((0, 1), 1),
        ((0, 0xf_ffff), 0xf_ffff),
        ((1, 0), 0x10_0000),
        ((0xfff, 0), 0xfff0_0000),
        ((0xfff, 0xf_ffff), u32::MAX),
        ((4_095, 63), 0xfff0_003f),
    ];
    for (fields, word) in rows {
        assert_eq!(directory_word(fields).pack(), word);
        assert_eq!(DirectoryWord::unpack(word), directory_word(fields));
    }
}

#[test]
fn every_word_is_packed_from_its_fields() {
    let mut random = Random::new(1);
    for _ in 0..10_000 {
        let word = random.word();
        assert_eq!(SlotWord::unpack(word).pack(), word);
        let word = word as u32;
        assert_eq!(DirectoryWord::unpack(word).pack(), word);
    }
}

#[test]
fn a_field_too_large_is_not_packed() {
    for fields in [(1 << 28, 0, 0), (0, 1 << 12, 0), (0, 0, 1 << 24)] {
        assert!(catch_unwind(|| slot_word(fields).pack()).is_err());
    }
    for fields in [(1 << 12, 0), (0, 1 << 20)] {
        assert!(catch_unwind(|| directory_word(fields).pack()).is_err());
    }
}

#[test]
fn ends() {
    let word = slot_word((7, 3, 5));
    assert_eq!((word.middle(), word.end()), (10, 15));
    assert_eq!(SlotWord::unpack(u64::MAX).end(), 285_216_765);
}
