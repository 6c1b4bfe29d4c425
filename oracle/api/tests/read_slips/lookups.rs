//! Slips of `get` and `contains_key`.

use super::{Asked, Row, noticed};
use api::reads::{Read, Reading};

#[test]
fn slips() {
    let rows: [Row; 9] = [
        (
            "a key equal to a separator sent left",
            |asked| {
                let leaves = asked.leaves();
                let low_of_another =
                    |key| leaves.is_some_and(|it| it.list[1..].iter().any(|leaf| leaf.low == key));
                match key(asked) {
                    Some(key) if low_of_another(key) => asked.nothing(),
                    _ => asked.right(),
                }
            },
            &["examples", "lookups"],
        ),
        (
            "bytes compared as signed in the search for the leaf",
            |asked| {
                let signed = |key: &[u8]| -> Vec<i8> { key.iter().map(|it| *it as i8).collect() };
                let (Some(key), Some(leaves)) = (key(asked), asked.leaves()) else {
                    return asked.right();
                };
                let mut list = leaves.list.iter();
                let leaf = list.rfind(|leaf| signed(&leaf.low) <= signed(key));
                let held = leaf.is_some_and(|leaf| leaf.keys().any(|held| held == key));
                match held || key.len() > 512 {
                    true => asked.right(),
                    false => asked.nothing(),
                }
            },
            &["lookups"],
        ),
        (
            "the last leaf alone looked through",
            |asked| {
                let (Some(key), Some(leaves)) = (key(asked), asked.leaves()) else {
                    return asked.right();
                };
                match leaves.owner(key) + 1 < leaves.list.len() && key.len() <= 512 {
                    true => asked.nothing(),
                    false => asked.right(),
                }
            },
            &["examples", "lookups"],
        ),
        (
            "the suffix's place for the value's",
            |asked| {
                let (reading, leaves) = (asked.right(), asked.leaves());
                match (asked.read, reading, leaves) {
                    (Read::Get(key), Reading::Place(mut place), Some(leaves))
                        if place.found == 1 =>
                    {
                        place.offset -= leaves.suffix(leaves.owner(key), key).len();
                        Reading::Place(place)
                    }
                    _ => reading,
                }
            },
            &["examples", "lookups"],
        ),
        (
            "the place behind the whole key",
            |asked| {
                let (reading, leaves) = (asked.right(), asked.leaves());
                match (asked.read, reading, leaves) {
                    (Read::Get(key), Reading::Place(mut place), Some(leaves))
                        if place.found == 1 =>
                    {
                        place.offset += leaves.prefix_length(leaves.owner(key));
                        Reading::Place(place)
                    }
                    _ => reading,
                }
            },
            &["examples", "lookups"],
        ),
        (
            "an empty value without its place",
            |asked| match asked.right() {
                Reading::Place(mut place) if place.length == 0 => {
                    place.offset = 0;
                    Reading::Place(place)
                }
                reading => reading,
            },
            &["lookups"],
        ),
        (
            "a key with an empty value not held",
            |asked| match asked.read {
                Read::ContainsKey(key) => match asked.instead(Read::Get(key)) {
                    Reading::Place(place) if place.found == 1 && place.length == 0 => {
                        asked.nothing()
                    }
                    _ => asked.right(),
                },
                _ => asked.right(),
            },
            &["examples", "lookups"],
        ),
        (
            "a key of 513 bytes accepted",
            |asked| match key(asked) {
                Some(key) if key.len() == 513 && asked.leaves().is_some() => asked.nothing(),
                _ => asked.right(),
            },
            &["examples", "lookups"],
        ),
        (
            "a key of 512 bytes refused",
            |asked| match key(asked) {
                Some(key) if key.len() == 512 && asked.leaves().is_some() => asked.refused(3),
                _ => asked.right(),
            },
            &["examples", "lookups"],
        ),
    ];
    noticed(&rows);
}

fn key<'a>(asked: &Asked<'a>) -> Option<&'a [u8]> {
    match asked.read {
        Read::ContainsKey(key) | Read::Get(key) => Some(key),
        _ => None,
    }
}
