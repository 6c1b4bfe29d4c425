//! Merges that shorten the taker's prefix: by no byte, by some and by all. What
//! its slots store is read from the words and the arena.

use super::Examples;
use super::Step::{Del, Leaves, Put, Stored};

impl Examples<'_> {
    pub(super) fn shrunk_prefixes(&mut self) -> Result<(), String> {
        self.behind_a_prefix_taken()?;
        self.by_no_byte()?;
        self.by_some_bytes()?;
        self.by_all_bytes()
    }

    fn behind_a_prefix_taken(&mut self) -> Result<(), String> {
        let held = self.fresh(3, 3, 13);
        self.ask(
            "A10, taken",
            held,
            &[
                Put(b"\x61\x60", b"", 0, "none"),
                Put(b"\x61\x61\x61", b"", 0, "none"),
                Put(b"\x61\x63", b"", 0, "none"),
                Put(b"\x61\x64", b"", 0, "none"),
                Leaves(
                    &["leaf - 6161 0 1", "leaf 6161 6163 1 1", "leaf 6163 * 0 2"],
                    13,
                ),
                Stored(1, &[b"\x61\x61"]),
                Del(b"\x61\x60", 0, "old -"),
                Leaves(&["leaf - 6163 0 1", "leaf 6163 * 0 2"], 9),
                Stored(0, &[b"\x61\x61\x61"]),
                Stored(1, &[b"\x61\x63", b"\x61\x64"]),
            ],
        )
    }

    /// Prefix 2 before and after.
    fn by_no_byte(&mut self) -> Result<(), String> {
        let held = self.made(
            4,
            4,
            25,
            &[
                (0, b"", &[b""]),
                (1, b"aab", &[b"aab"]),
                (2, b"aac", &[b"aac", b"aacx"]),
                (3, b"aad", &[b"b"]),
            ],
        );
        self.ask(
            "a prefix shorter by no byte",
            held,
            &[
                Stored(2, &[b"c", b"cx"]),
                Del(b"aab", 1, "old 2a"),
                Leaves(
                    &[
                        "leaf - 616162 0 1",
                        "leaf 616162 616164 2 2",
                        "leaf 616164 * 0 1",
                    ],
                    18,
                ),
                Stored(1, &[b"c", b"cx"]),
                Put(b"aac", b"\x01", 1, "old 2a"),
            ],
        )
    }

    /// Prefix 3 before, 1 after.
    fn by_some_bytes(&mut self) -> Result<(), String> {
        let leaves: [super::Made; 4] = [
            (0, b"", &[b""]),
            (1, b"ab", &[b"ab"]),
            (2, b"accc", &[b"accc", b"accd", b"accdxy"]),
            (3, b"acce", &[b"acce"]),
        ];
        for arena in [36, 38, 60] {
            let held = self.made(4, 4, arena, &leaves);
            self.ask(
                "a prefix shorter by some bytes",
                held,
                &[
                    Stored(2, &[b"c", b"d", b"dxy"]),
                    Del(b"ab", 1, "old 2a"),
                    Leaves(
                        &[
                            "leaf - 6162 0 1",
                            "leaf 6162 61636365 1 3",
                            "leaf 61636365 * 0 1",
                        ],
                        29,
                    ),
                    Stored(1, &[b"ccc", b"ccd", b"ccdxy"]),
                    Del(b"accd", 1, "old 2a"),
                    Stored(1, &[b"ccc", b"ccdxy"]),
                ],
            )?;
        }
        Ok(())
    }

    /// Prefix 4 before, 0 after, in an arena without a spare byte.
    fn by_all_bytes(&mut self) -> Result<(), String> {
        let leaves: [super::Made; 3] = [
            (1, b"", &[b""]),
            (0, b"aaaab", &[b"aaaab", b"aaaac", b"aaaacx"]),
            (2, b"aaaad", &[]),
        ];
        for _ in 0..8 {
            let held = self.made_with(b"", 4, 3, 26, &leaves);
            self.ask(
                "a prefix shorter by all bytes",
                held,
                &[
                    Stored(1, &[b"b", b"c", b"cx"]),
                    Del(b"", 0, "old -"),
                    Leaves(&["leaf - 6161616164 0 3", "leaf 6161616164 * 0 0"], 21),
                    Stored(0, &[b"aaaab", b"aaaac", b"aaaacx"]),
                    Put(b"aaaac", b"\x01\x02\x03\x04\x05", 0, "old -"),
                    Put(b"aaaab", b"\x06", 0, "refused 8"),
                    Del(b"aaaac", 5, "old 0102030405"),
                ],
            )?;
        }
        Ok(())
    }
}
