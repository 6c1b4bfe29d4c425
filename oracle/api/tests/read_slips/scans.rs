//! Slips of `first_in_range`, `get_gt` and `first`.

use super::{Asked, Row, noticed};
use api::exports::{EXCLUDED, INCLUDED, OPEN, Scanned};
use api::reads::{Read, Reading};

#[test]
fn slips_of_bounds() {
    let rows: [Row; 13] = [
        (
            "an excluded start taken as included",
            |asked| {
                with_kinds(asked, |[start, end]| match start {
                    EXCLUDED => [INCLUDED, end],
                    _ => [start, end],
                })
            },
            &["examples", "ranges"],
        ),
        (
            "an excluded end taken as included",
            |asked| {
                with_kinds(asked, |[start, end]| match end {
                    EXCLUDED => [start, INCLUDED],
                    _ => [start, end],
                })
            },
            &["examples", "ranges"],
        ),
        (
            "an included start left out",
            |asked| {
                with_kinds(asked, |[start, end]| match start {
                    INCLUDED => [EXCLUDED, end],
                    _ => [start, end],
                })
            },
            &["examples", "ranges", "outputs"],
        ),
        (
            "an included end left out",
            |asked| {
                with_kinds(asked, |[start, end]| match end {
                    INCLUDED => [start, EXCLUDED],
                    _ => [start, end],
                })
            },
            &["examples", "ranges"],
        ),
        (
            "an open start's key read as included",
            |asked| {
                with_kinds(asked, |[start, end]| match start {
                    OPEN => [INCLUDED, end],
                    _ => [start, end],
                })
            },
            &["examples", "ranges"],
        ),
        (
            "an open end's key read as included",
            |asked| {
                with_kinds(asked, |[start, end]| match end {
                    OPEN => [start, INCLUDED],
                    _ => [start, end],
                })
            },
            &["examples", "ranges", "outputs"],
        ),
        (
            "an open bound's key tested for its length",
            |asked| match asked.read {
                Read::FirstInRange(_, start, end) if start.len().max(end.len()) > 512 => {
                    match asked.leaves() {
                        Some(_) => asked.refused(3),
                        None => asked.right(),
                    }
                }
                _ => asked.right(),
            },
            &["examples", "ranges"],
        ),
        (
            "an open bound's key tested for its order",
            |asked| match asked.read {
                Read::FirstInRange(kinds, start, end) if kinds.contains(&OPEN) && start > end => {
                    match asked.unwritten().0.refusal() {
                        2 | 3 => asked.right(),
                        _ => asked.refused(6),
                    }
                }
                _ => asked.right(),
            },
            &["examples", "ranges", "outputs"],
        ),
        (
            "kinds cut to eight bits",
            |asked| with_kinds(asked, |kinds| kinds.map(|kind| kind & 0xff)),
            &["ranges"],
        ),
        (
            "other numbers taken as included",
            |asked| {
                with_kinds(asked, |kinds| {
                    kinds.map(|kind| if kind > OPEN { INCLUDED } else { kind })
                })
            },
            &["ranges"],
        ),
        (
            "equal keys both excluded refused, as the standard map does",
            |asked| match asked.read {
                Read::FirstInRange([EXCLUDED, EXCLUDED], start, end)
                    if start == end && start.len() <= 512 && asked.leaves().is_some() =>
                {
                    asked.refused(6)
                }
                _ => asked.right(),
            },
            &["examples", "ranges"],
        ),
        (
            "an inverted range taken as an empty one",
            |asked| match asked.right().refusal() {
                6 => asked.nothing(),
                _ => asked.right(),
            },
            &["examples", "ranges"],
        ),
        (
            "a bound cut at the leaf's prefix",
            |asked| match (asked.unwritten().0.refusal(), cut_bound(asked)) {
                (0 | 5, Some(Some(key))) => {
                    asked.instead(Read::FirstInRange([INCLUDED, INCLUDED], &key, &key))
                }
                (0 | 5, Some(None)) => asked.nothing(),
                _ => asked.right(),
            },
            &["examples", "ranges"],
        ),
    ];
    noticed(&rows);
}

#[test]
fn slips_of_the_walk() {
    let rows: [Row; 5] = [
        (
            "a scan that ends with its leaf",
            |asked| {
                let (reading, out) = asked.unwritten();
                let (Reading::Scanned(scan), Some(leaves)) = (reading, asked.leaves()) else {
                    return asked.right();
                };
                let from = match asked.read {
                    Read::FirstInRange([INCLUDED | EXCLUDED, _], start, _) => leaves.owner(start),
                    Read::GetGt(key) => leaves.owner(key),
                    _ => 0,
                };
                match scan.found == 1 && leaves.owner(&out[..scan.key]) > from {
                    true => asked.nothing(),
                    false => asked.right(),
                }
            },
            &["examples", "ranges", "walks"],
        ),
        (
            "the key itself given by get_gt",
            |asked| match asked.read {
                Read::GetGt(key) => asked.instead(Read::FirstInRange([INCLUDED, OPEN], key, &[])),
                _ => asked.right(),
            },
            &["examples", "ranges"],
        ),
        (
            "the empty key missed by first",
            |asked| match asked.read {
                Read::First => asked.instead(Read::GetGt(&[])),
                _ => asked.right(),
            },
            &["examples", "ranges", "walks"],
        ),
        (
            "6 before 3",
            |asked| match asked.read {
                Read::FirstInRange([0 | 1, 0 | 1], start, end)
                    if start > end && asked.leaves().is_some() =>
                {
                    asked.refused(6)
                }
                _ => asked.right(),
            },
            &["ranges"],
        ),
        (
            "5 before 6",
            |asked| {
                let right = asked.unwritten().0.refusal();
                let Read::FirstInRange([start_kind, _], start, _) = asked.read else {
                    return asked.right();
                };
                let above = Read::FirstInRange([start_kind, OPEN], start, &[]);
                let room = asked.out.len();
                match asked.elsewhere(above, &mut vec![0; room]) {
                    short if right == 6 && short.refusal() == 5 => short,
                    _ => asked.right(),
                }
            },
            &["examples", "ranges"],
        ),
    ];
    noticed(&rows);
}

#[test]
fn slips_of_the_output() {
    let rows: [Row; 12] = [
        (
            "the key without its prefix",
            |asked| {
                let (reading, out) = asked.unwritten();
                let (Some(key), Some(leaves)) = (found(reading, &out), asked.leaves()) else {
                    return asked.right();
                };
                let suffix = leaves.suffix(leaves.owner(key), key);
                asked.out[..suffix.len()].copy_from_slice(suffix);
                reading
            },
            &["examples", "ranges", "outputs", "walks"],
        ),
        (
            "the suffix at its place, the prefix not written",
            |asked| {
                let (reading, out) = asked.unwritten();
                let (Some(key), Some(leaves)) = (found(reading, &out), asked.leaves()) else {
                    return asked.right();
                };
                let prefix = leaves.prefix_length(leaves.owner(key));
                asked.out[prefix..key.len()].copy_from_slice(&key[prefix..]);
                reading
            },
            &["examples", "ranges", "outputs", "walks"],
        ),
        (
            "the suffix's length for the key's",
            |asked| {
                let (reading, out) = asked.unwritten();
                let (Some(key), Some(leaves)) = (found(reading, &out), asked.leaves()) else {
                    return asked.right();
                };
                let suffix = leaves.suffix(leaves.owner(key), key).len();
                with(asked, |scan| scan.key = suffix)
            },
            &["examples", "ranges", "outputs", "walks"],
        ),
        (
            "the byte behind the key touched",
            |asked| {
                let reading = asked.right();
                if let Reading::Scanned(scan) = reading
                    && let Some(byte) = asked.out[scan.key..].first_mut()
                    && scan.found == 1
                {
                    *byte ^= 1;
                }
                reading
            },
            &["ranges", "outputs", "walks"],
        ),
        (
            "the output touched at the end",
            |asked| {
                let reading = asked.right();
                if let (Reading::Scanned(scan), Some(byte)) = (reading, asked.out.first_mut())
                    && (scan.refusal, scan.found) == (0, 0)
                {
                    *byte ^= 1;
                }
                reading
            },
            &["ranges", "walks"],
        ),
        (
            "what fits written before refusal 5",
            |asked| {
                let mut whole = [0; 600];
                asked.elsewhere(asked.read, &mut whole);
                let reading = asked.right();
                if reading.refusal() == 5 {
                    asked.out.copy_from_slice(&whole[..asked.out.len()]);
                }
                reading
            },
            &["examples", "outputs"],
        ),
        (
            "an output of just the key's length refused",
            |asked| match asked.unwritten().0 {
                Reading::Scanned(scan) if scan.found == 1 && scan.key == asked.out.len() => {
                    short(scan.key)
                }
                _ => asked.right(),
            },
            &["examples", "outputs"],
        ),
        (
            "5 with a length one off",
            |asked| match asked.right() {
                Reading::Scanned(scan) if scan.refusal == 5 => short(scan.length + 1),
                reading => reading,
            },
            &["examples", "ranges", "outputs"],
        ),
        (
            "5 with the length that is there",
            |asked| match asked.right() {
                Reading::Scanned(scan) if scan.refusal == 5 => short(asked.out.len()),
                reading => reading,
            },
            &["examples", "ranges", "outputs"],
        ),
        (
            "the suffix's place for the value's",
            |asked| {
                let (reading, out) = asked.unwritten();
                let (Some(key), Some(leaves)) = (found(reading, &out), asked.leaves()) else {
                    return asked.right();
                };
                let suffix = leaves.suffix(leaves.owner(key), key).len();
                with(asked, |scan| scan.offset -= suffix)
            },
            &["examples", "ranges", "outputs", "walks"],
        ),
        (
            "an empty value without its place",
            |asked| {
                with(asked, |scan| {
                    if scan.value == 0 {
                        scan.offset = 0;
                    }
                })
            },
            &["ranges", "outputs", "walks"],
        ),
        (
            "a length beside a pair",
            |asked| with(asked, |scan| scan.length = scan.key),
            &["examples", "ranges", "outputs", "walks"],
        ),
    ];
    noticed(&rows);
}

/// The range with other kinds.
fn with_kinds(asked: &mut Asked, other: impl Fn([usize; 2]) -> [usize; 2]) -> Reading {
    match asked.read {
        Read::FirstInRange(kinds, start, end) => {
            asked.instead(Read::FirstInRange(other(kinds), start, end))
        }
        _ => asked.right(),
    }
}

/// A found pair, changed.
fn with(asked: &mut Asked, change: impl Fn(&mut Scanned)) -> Reading {
    match asked.right() {
        Reading::Scanned(mut scan) if scan.found == 1 => {
            change(&mut scan);
            Reading::Scanned(scan)
        }
        reading => reading,
    }
}

fn found(reading: Reading, out: &[u8]) -> Option<&[u8]> {
    match reading {
        Reading::Scanned(scan) if scan.found == 1 => Some(&out[..scan.key]),
        _ => None,
    }
}

fn short(length: usize) -> Reading {
    Reading::Scanned(Scanned {
        refusal: 5,
        length,
        ..Scanned::default()
    })
}

/// The first key above the start, if it is below the end where the end is cut
/// at the prefix of the key's leaf, as if it began with that. The outer none
/// says that no end is read.
fn cut_bound(asked: &mut Asked) -> Option<Option<Vec<u8>>> {
    let (leaves, read) = (asked.leaves()?, asked.read);
    let Read::FirstInRange([start_kind, end_kind @ (INCLUDED | EXCLUDED)], start, end) = read
    else {
        return None;
    };
    let mut held = leaves.list.iter().flat_map(|leaf| leaf.keys());
    let first = held.find(|key| match start_kind {
        INCLUDED => key.as_slice() >= start,
        EXCLUDED => key.as_slice() > start,
        _ => true,
    });
    let below = |key: &Vec<u8>| {
        let at = leaves.owner(key);
        let cut = end.get(leaves.prefix_length(at)..).unwrap_or(&[]);
        match end_kind {
            INCLUDED => leaves.suffix(at, key) <= cut,
            _ => leaves.suffix(at, key) < cut,
        }
    };
    Some(first.filter(|key| below(key)).cloned())
}
