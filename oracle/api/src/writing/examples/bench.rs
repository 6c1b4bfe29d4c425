//! Document 01's examples.

use super::Examples;
use super::Step::{Leaves, Numbers, Put};

impl Examples<'_> {
    pub(super) fn bench(&mut self) -> Result<(), String> {
        self.the_run()?;
        self.separators()?;
        self.offsets()?;
        self.arena_and_pool()?;
        self.limits()?;
        self.short_output()
    }

    fn the_run(&mut self) -> Result<(), String> {
        let held = self.fresh(3, 4, 64);
        self.ask(
            "01's run",
            held,
            &[
                Put(b"\x61", b"\x01", 0, "none"),
                Put(b"\x62", b"\x02", 0, "none"),
                Leaves(&["leaf - * 0 2"], 4),
                Put(b"\x63", b"\x03", 0, "none"),
                Leaves(&["leaf - 62 0 1", "leaf 62 * 0 2"], 7),
                Numbers(&[0, 1]),
                Put(b"\x62", b"\x04", 1, "old 02"),
            ],
        )
    }

    /// The largest left and the smallest right key are those of the row.
    fn separators(&mut self) -> Result<(), String> {
        let rows: [(&[u8], &[u8], &str); 4] = [
            (b"\x61\x62", b"\x61\x63", "6163"),
            (b"\x61", b"\x61\x00", "6100"),
            (b"\x61\xff\xff", b"\x62", "62"),
            (b"", b"\x61\x62", "61"),
        ];
        for (left, right, separator) in rows {
            let lines = [
                format!("leaf - {separator} 0 1"),
                format!("leaf {separator} * 0 2"),
            ];
            let charge = left.len() + right.len() + 2 + separator.len() / 2;
            let lines = [&lines[0][..], &lines[1]];
            // Each of the three keys comes last once.
            let orders = [
                [left, right, b"\x7a\x7a"],
                [left, b"\x7a\x7a", right],
                [right, b"\x7a\x7a", left],
            ];
            for [first, second, third] in orders {
                let held = self.fresh(3, 2, charge);
                let steps = [
                    Put(first, b"", 0, "none"),
                    Put(second, b"", 0, "none"),
                    Put(third, b"", 0, "none"),
                    Leaves(&lines, charge),
                ];
                self.ask(&format!("A1, {separator}"), held, &steps)?;
            }
        }
        Ok(())
    }

    /// And where they differ more: the three rules give 1, 3 and 2 for 5 pairs.
    fn offsets(&mut self) -> Result<(), String> {
        let keys: [&[u8]; 4] = [b"\x61\x02", b"\x61\x04", b"\x61\x06", b"\x61\x08"];
        let new = b"\x61\x09";
        let next: &[&[u8]] = &[b"\x63"];
        let before: &[&[u8]] = &[b""];
        let held = self.made(3, 3, 99, &[(0, b"", before), (1, b"\x61", &keys[..2])]);
        let lines = ["leaf - 61 0 1", "leaf 61 6104 1 1", "leaf 6104 * 0 2"];
        let steps = [Put(new, b"", 0, "none"), Leaves(&lines, 12)];
        self.ask("A2, low set, no upper", held, &steps)?;
        let held = self.made(5, 2, 99, &[(0, b"", &keys)]);
        let lines = ["leaf - 6104 0 1", "leaf 6104 * 0 4"];
        let steps = [Put(new, b"", 0, "none"), Leaves(&lines, 16)];
        self.ask("5 pairs, low empty", held, &steps)?;
        let held = self.made(5, 3, 99, &[(0, b"", &keys), (1, b"\x63", next)]);
        let lines = ["leaf - 6104 0 1", "leaf 6104 63 0 4", "leaf 63 * 0 1"];
        let steps = [Put(new, b"", 0, "none"), Leaves(&lines, 19)];
        self.ask("5 pairs, low empty, upper set", held, &steps)?;
        let held = self.made(5, 3, 99, &[(0, b"", before), (1, b"\x61", &keys)]);
        let lines = ["leaf - 61 0 1", "leaf 61 6108 1 3", "leaf 6108 * 0 2"];
        let steps = [Put(new, b"", 0, "none"), Leaves(&lines, 18)];
        self.ask("5 pairs, low set, no upper", held, &steps)?;
        let both = [
            (0, &b""[..], before),
            (1, &b"\x61"[..], &keys[..]),
            (2, &b"\x63"[..], next),
        ];
        let held = self.made(5, 4, 99, &both);
        let lines = [
            "leaf - 61 0 1",
            "leaf 61 6106 1 2",
            "leaf 6106 63 0 3",
            "leaf 63 * 0 1",
        ];
        let steps = [Put(new, b"", 0, "none"), Leaves(&lines, 21)];
        self.ask("A2, 5 pairs, both set", held, &steps)
    }

    fn arena_and_pool(&mut self) -> Result<(), String> {
        for (pool, arena, third, lines, charge) in [
            (4, 7, "none", &["leaf - 62 0 1", "leaf 62 * 0 2"][..], 7),
            (2, 7, "none", &["leaf - 62 0 1", "leaf 62 * 0 2"], 7),
            (4, 6, "refused 8", &["leaf - * 0 2"], 4),
            (1, 7, "refused 7", &["leaf - * 0 2"], 4),
            (1, 6, "refused 7", &["leaf - * 0 2"], 4),
        ] {
            let held = self.fresh(3, pool, arena);
            self.ask(
                &format!("A6, pool {pool}, arena {arena}"),
                held,
                &[
                    Put(b"\x61", b"\x01", 0, "none"),
                    Put(b"\x62", b"\x02", 0, "none"),
                    Put(b"\x63", b"\x03", 0, third),
                    Leaves(lines, charge),
                ],
            )?;
        }
        Ok(())
    }

    fn limits(&mut self) -> Result<(), String> {
        let (most, over) = ([0x62; 512], [0x62; 513]);
        let (value, long) = (vec![0x2a; 65_535], vec![0x2a; 65_536]);
        for fanout in [3, 64] {
            let held = self.fresh(fanout, 3, 200_000);
            self.ask(
                &format!("A7, fanout {fanout}"),
                held,
                &[
                    Put(&over, b"", 0, "refused 3"),
                    Put(&over, &long, 0, "refused 3"),
                    Put(b"\x61", &long, 0, "refused 4"),
                    Put(&most, &long, 0, "refused 4"),
                    Leaves(&["leaf - * 0 0"], 0),
                    Put(&most, &value, 0, "none"),
                    Put(b"\x61", &value, 0, "none"),
                    Put(&most, &long, 0, "refused 4"),
                    Put(&most, b"", 65_534, "refused 5 needs 65535"),
                    Leaves(&["leaf - * 0 2"], 131_583),
                    Put(&most, b"", 65_535, &format!("old {}", "2a".repeat(65_535))),
                    Leaves(&["leaf - * 0 2"], 66_048),
                ],
            )?;
        }
        Ok(())
    }

    fn short_output(&mut self) -> Result<(), String> {
        let held = self.fresh(3, 1, 64);
        self.ask(
            "A8",
            held,
            &[
                Put(b"\x61", b"\x01\x02", 0, "none"),
                Put(b"\x61", b"\x03", 1, "refused 5 needs 2"),
                Put(b"\x61", b"\x03", 0, "refused 5 needs 2"),
                Put(b"\x61", b"\x03", 2, "old 0102"),
                Put(b"\x61", b"", 2, "old 03"),
                Put(b"\x61", b"\x04", 0, "old -"),
            ],
        )
    }
}
