//! Document 01's examples of removes, and traps that a remove can fall into.

use super::Examples;
use super::Step::{Del, Leaves, Numbers, Put, Stored};

impl Examples<'_> {
    pub(super) fn removes(&mut self) -> Result<(), String> {
        self.the_run_removed()?;
        self.short_output_of_a_remove()?;
        self.limits_of_a_remove()?;
        self.absent()?;
        self.stored_bytes_grow()?;
        self.separators_outlive_keys()?;
        self.last_leaf_stays()?;
        self.empty_last_leaf_taken()?;
        self.numbers_come_back()?;
        self.places_of_merges()
    }

    fn the_run_removed(&mut self) -> Result<(), String> {
        let held = self.fresh(3, 4, 64);
        self.ask(
            "A5",
            held,
            &[
                Put(b"\x61", b"\x01", 0, "none"),
                Put(b"\x62", b"\x02", 0, "none"),
                Put(b"\x63", b"\x03", 0, "none"),
                Leaves(&["leaf - 62 0 1", "leaf 62 * 0 2"], 7),
                Del(b"\x62", 1, "old 02"),
                Del(b"\x63", 1, "old 03"),
                Leaves(&["leaf - 62 0 1", "leaf 62 * 0 0"], 3),
                Del(b"\x61", 1, "old 01"),
                Leaves(&["leaf - * 0 0"], 0),
                Numbers(&[0]),
                Del(b"\x61", 1, "none"),
            ],
        )
    }

    fn short_output_of_a_remove(&mut self) -> Result<(), String> {
        let held = self.fresh(3, 1, 5);
        self.ask(
            "A8, remove",
            held,
            &[
                Put(b"\x61", b"\x01\x02", 0, "none"),
                Put(b"\x62", b"", 0, "none"),
                Del(b"\x61", 1, "refused 5 needs 2"),
                Del(b"\x61", 0, "refused 5 needs 2"),
                Leaves(&["leaf - * 0 2"], 4),
                Del(b"\x62", 0, "old -"),
                Del(b"\x61", 2, "old 0102"),
                Leaves(&["leaf - * 0 0"], 0),
                Put(b"\x61", b"\x03", 0, "none"),
                Del(b"\x61", 9, "old 03"),
            ],
        )
    }

    fn limits_of_a_remove(&mut self) -> Result<(), String> {
        let (most, over) = ([0x62; 512], [0x62; 513]);
        let value = vec![0x2a; 65_535];
        let held = self.fresh(3, 2, 66_048);
        let old = format!("old {}", "2a".repeat(65_535));
        self.ask(
            "limits of a remove",
            held,
            &[
                Put(&most, &value, 0, "none"),
                Put(b"", b"\x01", 0, "none"),
                Del(&over, 0, "refused 3"),
                Del(&over, 65_535, "refused 3"),
                Del(&most, 65_534, "refused 5 needs 65535"),
                Del(&most[1..], 65_535, "none"),
                Leaves(&["leaf - * 0 2"], 66_048),
                Del(&most, 65_535, &old),
                Leaves(&["leaf - * 0 1"], 1),
                Del(b"", 0, "refused 5 needs 1"),
                Del(b"", 1, "old 01"),
                Leaves(&["leaf - * 0 0"], 0),
            ],
        )
    }

    /// A separator need be no key, and a key sought need not begin with its
    /// leaf's prefix.
    fn absent(&mut self) -> Result<(), String> {
        let leaves: [super::Made; 4] = [
            (2, b"", &[b"\x60"]),
            (0, b"\x61\x61", &[b"\x61\x61\x05"]),
            (3, b"\x61\x62", &[b"\x61\x62\x05"]),
            (1, b"\x62", &[]),
        ];
        let lines = [
            "leaf - 6161 0 1",
            "leaf 6161 6162 1 1",
            "leaf 6162 62 0 1",
            "leaf 62 * 0 0",
        ];
        let held = self.made(3, 4, 15, &leaves);
        let keys: [&[u8]; 11] = [
            b"",
            b"\x60\x00",
            b"\x61",
            b"\x61\x61",
            b"\x61\x61\x05\x00",
            b"\x61\x61\x04",
            b"\x61\x62",
            b"\x61\x62\x05\x05",
            b"\x61\xff",
            b"\x62",
            b"\xff",
        ];
        let mut steps: Vec<_> = keys.iter().map(|key| Del(key, 0, "none")).collect();
        steps.push(Leaves(&lines, 15));
        steps.push(Numbers(&[2, 0, 3, 1]));
        self.ask("absent keys", held, &steps)
    }

    /// No byte is spare while the suffixes grow: the low key that goes is still
    /// there.
    fn stored_bytes_grow(&mut self) -> Result<(), String> {
        let puts: [&[u8]; 5] = [b"\x61\x61", b"\x61\x62", b"\x62", b"", b"\x61"];
        let lines = ["leaf - 61 0 1", "leaf 61 6162 1 2", "leaf 6162 * 0 2"];
        let mut steps: Vec<_> = puts.iter().map(|key| Put(key, b"", 0, "none")).collect();
        steps.push(Leaves(&lines, 9));
        steps.push(Stored(1, &[b"", b"\x61"]));
        let grown = [
            Del(b"", 0, "old -"),
            Leaves(&["leaf - 6162 0 2", "leaf 6162 * 0 2"], 8),
            Stored(0, &[b"\x61", b"\x61\x61"]),
            Stored(1, &[b"\x61\x62", b"\x62"]),
            Put(b"\x61", b"\x07", 0, "old -"),
            Put(b"\x62", b"\x08", 0, "refused 8"),
        ];
        steps.extend(grown);
        let held = self.fresh(3, 3, 9);
        self.ask("7 bytes stored, then 8", held, &steps)?;
        let leaves: [super::Made; 3] = [
            (2, b"", &[b""]),
            (0, b"\x61", &[b"\x61", b"\x61\x61"]),
            (1, b"\x61\x62", &[b"\x61\x62", b"\x62"]),
        ];
        for _ in 0..8 {
            let held = self.made_with(b"", 3, 3, 9, &leaves);
            self.ask("7 bytes stored, then 8, any layout", held, &steps[5..])?;
        }
        Ok(())
    }

    fn separators_outlive_keys(&mut self) -> Result<(), String> {
        let key = |last: u8| [&[0x78; 7][..], &[last]].concat();
        let keys = [key(0x30), key(0x31), key(0x32)];
        let low = format!("{}31", "78".repeat(7));
        let lines = [format!("leaf - {low} 0 1"), format!("leaf {low} * 0 0")];
        let lines = [&lines[0][..], &lines[1]];
        let held = self.fresh(3, 2, 33);
        self.ask(
            "a separator outlives its keys",
            held,
            &[
                Put(&keys[0], b"", 0, "none"),
                Put(&keys[1], b"", 0, "none"),
                Put(&keys[2], b"", 0, "none"),
                Put(b"\x61", b"", 0, "none"),
                Del(&keys[1], 0, "old -"),
                Del(&keys[2], 0, "old -"),
                Del(&keys[0], 0, "old -"),
                Leaves(&lines, 9),
                Del(b"\x61", 0, "old -"),
                Leaves(&["leaf - * 0 0"], 0),
            ],
        )
    }

    fn last_leaf_stays(&mut self) -> Result<(), String> {
        let held = self.made(3, 2, 9, &[(1, b"", &[b"\x61"]), (0, b"\x62", &[b"\x63"])]);
        let lines = ["leaf - 62 0 1", "leaf 62 * 0 0"];
        self.ask(
            "the last leaf stays",
            held,
            &[
                Del(b"\x63", 1, "old 2a"),
                Leaves(&lines, 3),
                Del(b"\x63", 1, "none"),
                Put(b"\x61\x05", b"", 0, "none"),
                Put(b"\x62", b"", 0, "none"),
                Leaves(&["leaf - 62 0 2", "leaf 62 * 0 1"], 6),
                Del(b"\x62", 0, "old -"),
                Del(b"\x61", 1, "old 2a"),
                Leaves(&lines, 3),
                Del(b"\x61\x05", 0, "old -"),
                Leaves(&["leaf - * 0 0"], 0),
                Numbers(&[1]),
            ],
        )
    }

    fn empty_last_leaf_taken(&mut self) -> Result<(), String> {
        let held = self.made(
            3,
            3,
            7,
            &[
                (0, b"", &[b"\x61"]),
                (2, b"\x62", &[b"\x62"]),
                (1, b"\x63", &[]),
            ],
        );
        self.ask(
            "the empty last leaf taken",
            held,
            &[
                Del(b"\x62", 1, "old 2a"),
                Leaves(&["leaf - 62 0 1", "leaf 62 * 0 0"], 3),
                Numbers(&[0, 2]),
                Put(b"\x64", b"\x01", 0, "none"),
                Leaves(&["leaf - 62 0 1", "leaf 62 * 0 1"], 5),
                Del(b"\x64", 1, "old 01"),
                Del(b"\x61", 1, "old 2a"),
                Leaves(&["leaf - * 0 0"], 0),
                Numbers(&[0]),
            ],
        )
    }

    /// The taker keeps its number, and the neighbour's is the lowest free one
    /// again.
    fn numbers_come_back(&mut self) -> Result<(), String> {
        let held = self.made(
            3,
            4,
            40,
            &[
                (2, b"", &[b"\x61"]),
                (0, b"\x62", &[b"\x62"]),
                (1, b"\x63", &[b"\x63", b"\x64"]),
                (3, b"\x66", &[b"\x66"]),
            ],
        );
        self.ask(
            "numbers come back",
            held,
            &[
                Put(b"\x63\x05", b"", 0, "refused 7"),
                Del(b"\x61", 1, "old 2a"),
                Numbers(&[2, 1, 3]),
                Put(b"\x63\x05", b"", 0, "none"),
                Numbers(&[2, 1, 0, 3]),
                Del(b"\x62", 1, "old 2a"),
                Numbers(&[2, 0, 3]),
                Put(b"\x65", b"", 0, "none"),
                Numbers(&[2, 0, 1, 3]),
            ],
        )
    }

    fn places_of_merges(&mut self) -> Result<(), String> {
        let leaves: [super::Made; 4] = [
            (0, b"", &[b"\x61"]),
            (1, b"\x62", &[b"\x62"]),
            (2, b"\x63", &[b"\x63"]),
            (3, b"\x64", &[b"\x64", b"\x65"]),
        ];
        let rows: [(&[u8], [&str; 3], [usize; 3]); 3] = [
            (
                b"\x61",
                ["leaf - 63 0 1", "leaf 63 64 0 1", "leaf 64 * 0 2"],
                [0, 2, 3],
            ),
            (
                b"\x62",
                ["leaf - 62 0 1", "leaf 62 64 0 1", "leaf 64 * 0 2"],
                [0, 1, 3],
            ),
            (
                b"\x63",
                ["leaf - 62 0 1", "leaf 62 63 0 1", "leaf 63 * 0 2"],
                [0, 1, 2],
            ),
        ];
        for (key, lines, numbers) in rows {
            let charge = 13 - 3;
            for arena in [13, 40] {
                let held = self.made(3, 4, arena, &leaves);
                let steps = [
                    Del(key, 1, "old 2a"),
                    Leaves(&lines, charge),
                    Numbers(&numbers),
                    Put(b"\x65", b"\x01\x02", 1, "old 2a"),
                    Del(b"\x65", 2, "old 0102"),
                ];
                let name = format!("a merge by {key:02x?}, arena {arena}");
                self.ask(&name, held, &steps)?;
            }
        }
        Ok(())
    }
}
