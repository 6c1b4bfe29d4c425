//! Traps that an insert can fall into.

use super::Examples;
use super::Step::{Leaves, Numbers, Put};

impl Examples<'_> {
    pub(super) fn traps(&mut self) -> Result<(), String> {
        self.new_key_beside_the_cut()?;
        self.replaced_in_a_full_leaf()?;
        self.replaced_in_a_full_arena()?;
        self.order_of_refusals()?;
        self.charge_and_stored_bytes()?;
        self.equal_to_a_separator()?;
        self.longest_separators()?;
        self.nothing_stored()?;
        self.lowest_free_number()
    }

    fn new_key_beside_the_cut(&mut self) -> Result<(), String> {
        let held = self.made(3, 2, 99, &[(0, b"", &[b"\x61", b"\x63"])]);
        let lines = ["leaf - 62 0 1", "leaf 62 * 0 2"];
        let steps = [Put(b"\x62", b"\x01", 0, "none"), Leaves(&lines, 7)];
        self.ask("the smallest right key is new", held, &steps)?;
        let held = self.made(3, 2, 99, &[(0, b"", &[b"\x61", b"\x62"])]);
        let lines = ["leaf - 61 0 1", "leaf 61 * 0 2"];
        let steps = [Put(b"\x60", b"\x01", 0, "none"), Leaves(&lines, 7)];
        self.ask("the largest left key is new", held, &steps)
    }

    fn replaced_in_a_full_leaf(&mut self) -> Result<(), String> {
        let held = self.made(3, 1, 5, &[(0, b"", &[b"\x61", b"\x62"])]);
        self.ask(
            "a replacement where no leaf is free",
            held,
            &[
                Put(b"\x61", b"\x01", 1, "old 2a"),
                Put(b"\x62", b"\x01\x02", 1, "old 2a"),
                Put(b"\x62", b"", 2, "old 0102"),
                Put(b"\x63", b"", 0, "refused 7"),
                Leaves(&["leaf - * 0 2"], 3),
            ],
        )
    }

    fn replaced_in_a_full_arena(&mut self) -> Result<(), String> {
        let held = self.made(4, 1, 6, &[(0, b"", &[b"\x61", b"\x62", b"\x63"])]);
        self.ask(
            "a replacement in a full arena",
            held,
            &[
                Put(b"\x62", b"\x01\x02", 1, "refused 8"),
                Put(b"\x62", b"\x01\x02", 0, "refused 5 needs 1"),
                Put(b"\x62", b"\x01", 1, "old 2a"),
                Put(b"\x61", b"", 1, "old 2a"),
                Leaves(&["leaf - * 0 3"], 5),
                Put(b"\x62", b"\x02\x03", 1, "old 01"),
                Put(b"\x63", b"\x03\x04", 1, "refused 8"),
                Put(b"\x62", b"", 2, "old 0203"),
                Put(b"\x63", b"\x05\x06\x07", 1, "old 2a"),
                Leaves(&["leaf - * 0 3"], 6),
                Put(b"\x63", b"\x05\x06\x07", 3, "old 050607"),
            ],
        )
    }

    fn order_of_refusals(&mut self) -> Result<(), String> {
        let (key, long) = ([0x61; 513], vec![0x2a; 65_536]);
        let held = self.made(3, 1, 4, &[(0, b"", &[b"\x61", b"\x62"])]);
        self.ask(
            "order of refusals",
            held,
            &[
                Put(&key, &long, 0, "refused 3"),
                Put(b"\x61", &long, 0, "refused 4"),
                Put(b"\x61", &long[1..], 0, "refused 5 needs 1"),
                Put(b"\x61", &long[1..], 1, "refused 8"),
                Put(b"\x63", &long, 0, "refused 4"),
                Put(b"\x63", &long[1..], 0, "refused 7"),
            ],
        )
    }

    fn charge_and_stored_bytes(&mut self) -> Result<(), String> {
        let puts: [&[u8]; 4] = [b"\x61\x61", b"\x61\x62", b"\x62", b""];
        let puts = puts.map(|key| Put(key, b"", 0, "none"));
        let lines = ["leaf - 61 0 1", "leaf 61 6162 1 2", "leaf 6162 * 0 2"];
        for (arena, fifth) in [(9, "none"), (8, "refused 8")] {
            let held = self.fresh(3, 3, arena);
            let name = format!("7 bytes stored, charge 9, arena {arena}");
            let last = Put(b"\x61", b"", 0, fifth);
            let [a, b, c, d] = &puts;
            let mut steps = vec![a, b, c, d, &last];
            let end = Leaves(&lines, 9);
            if arena == 9 {
                steps.push(&end);
            }
            self.ask_all(&name, held, &steps)?;
        }
        Ok(())
    }

    fn equal_to_a_separator(&mut self) -> Result<(), String> {
        let held = self.made(3, 4, 99, &[(0, b"", &[b"\x61"]), (1, b"\x62", &[b"\x63"])]);
        self.ask(
            "a key equal to a separator",
            held,
            &[
                Put(b"\x62", b"\x01", 0, "none"),
                Leaves(&["leaf - 62 0 1", "leaf 62 * 0 2"], 7),
                Put(b"\x62", b"\x02", 1, "old 01"),
                Put(b"\x61\xff", b"\x03", 0, "none"),
                Leaves(&["leaf - 62 0 2", "leaf 62 * 0 2"], 10),
            ],
        )
    }

    fn longest_separators(&mut self) -> Result<(), String> {
        let key = |last: u8| [&[0x6b; 511][..], &[last]].concat();
        let keys = [key(0), key(1), key(2)];
        let stem = "6b".repeat(511);
        let lines = [
            format!("leaf - {stem}01 0 1"),
            format!("leaf {stem}01 * 0 2"),
        ];
        let lines = [&lines[0][..], &lines[1]];
        let first = [Put(&keys[0], b"", 0, "none"), Put(&keys[2], b"", 0, "none")];
        let [a, b] = &first;
        for (arena, third) in [(2_048, "none"), (2_047, "refused 8")] {
            let held = self.fresh(3, 2, arena);
            let last = Put(&keys[1], b"", 0, third);
            let end = match arena {
                2_048 => Leaves(&lines, 2_048),
                _ => Leaves(&["leaf - * 0 2"], 1_024),
            };
            let name = format!("longest separators, arena {arena}");
            self.ask_all(&name, held, &[a, b, &last, &end])?;
        }
        Ok(())
    }

    fn nothing_stored(&mut self) -> Result<(), String> {
        let held = self.fresh(3, 1, 0);
        self.ask(
            "nothing stored",
            held,
            &[
                Put(b"", b"\x01", 0, "refused 8"),
                Put(b"", b"", 0, "none"),
                Leaves(&["leaf - * 0 1"], 0),
                Put(b"", b"", 0, "old -"),
                Put(b"", b"\x01", 0, "refused 8"),
                Put(b"\x61", b"", 0, "refused 8"),
                Leaves(&["leaf - * 0 1"], 0),
            ],
        )
    }

    fn lowest_free_number(&mut self) -> Result<(), String> {
        let held = self.made(
            3,
            6,
            99,
            &[
                (4, b"", &[b"\x61"]),
                (0, b"\x62", &[b"\x62", b"\x63"]),
                (2, b"\x66", &[b"\x66"]),
            ],
        );
        self.ask(
            "the lowest free number",
            held,
            &[
                Put(b"\x64", b"", 0, "none"),
                Numbers(&[4, 0, 1, 2]),
                Put(b"\x67", b"", 0, "none"),
                Put(b"\x68", b"", 0, "none"),
                Numbers(&[4, 0, 1, 2, 3]),
                Put(b"\x60", b"", 0, "none"),
                Put(b"\x5f", b"", 0, "none"),
                Numbers(&[4, 5, 0, 1, 2, 3]),
                Put(b"\x69", b"", 0, "refused 7"),
            ],
        )
    }
}
