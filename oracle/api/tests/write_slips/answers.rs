//! Slips of what an insert answers and writes, and of the order of its refusals.

use super::{Row, noticed};

#[test]
fn slips_of_the_answer() {
    let rows: [Row; 2] = [
        (
            "the new value's length for the old one's",
            |asked| {
                let mut reply = asked.right();
                if reply.found == 1 {
                    reply.length = asked.value.len();
                }
                reply
            },
            &["examples", "runs"],
        ),
        (
            "the new value written to the output",
            |asked| {
                let reply = asked.right();
                if reply.found == 1 {
                    let length = reply.length.min(asked.value.len());
                    asked.out[..length].copy_from_slice(&asked.value[..length]);
                }
                reply
            },
            &["examples", "runs"],
        ),
    ];
    noticed(&rows);
}

#[test]
fn slips_of_refusals() {
    let rows: [Row; 8] = [
        (
            "the old value written before 8 is tested",
            |asked| {
                let reply = asked.right();
                let old = asked
                    .leaves()
                    .and_then(|it| it.get(asked.key).map(<[u8]>::to_vec));
                if let (8, Some(old)) = (reply.refusal, old) {
                    asked.out[..old.len()].copy_from_slice(&old);
                }
                reply
            },
            &["examples", "runs"],
        ),
        (
            "a word out of use changed by a refused insert",
            |asked| {
                let reply = asked.right();
                if let (7 | 8, Some(word)) = (reply.refusal, asked.lent.slots.first_mut()) {
                    *word ^= 1 << 40;
                }
                reply
            },
            &["examples", "runs", "splits", "replays"],
        ),
        (
            "damaged buffers taken as full ones",
            |asked| match asked.unwritten().refusal {
                2 => asked.refused(8),
                _ => asked.right(),
            },
            &["cases", "damages"],
        ),
        (
            "4 before 2",
            |asked| match asked.key.len() <= 512 && asked.value.len() > 65_535 {
                true => asked.refused(4),
                false => asked.right(),
            },
            &["cases", "damages"],
        ),
        (
            "4 before 3",
            |asked| match asked.unwritten().refusal == 3 && asked.value.len() > 65_535 {
                true => asked.refused(4),
                false => asked.right(),
            },
            &["examples"],
        ),
        (
            "8 before 5",
            |asked| {
                let (right, leaves) = (asked.unwritten(), asked.leaves());
                let charge = leaves.map_or(0, |it| it.charge());
                let after = charge + asked.value.len();
                match right.refusal == 5 && after - right.length > asked.lent.arena.len() {
                    true => asked.refused(8),
                    false => asked.right(),
                }
            },
            &["examples", "runs"],
        ),
        (
            "a value of 65,535 bytes refused",
            |asked| match asked.unwritten().refusal != 2 && asked.value.len() == 65_535 {
                true => asked.refused(4),
                false => asked.right(),
            },
            &["examples"],
        ),
        (
            "a key equal to a separator sent left",
            |asked| {
                let leaves = asked.leaves();
                let at_low = leaves.is_some_and(|it| {
                    let mut lows = it.list[1..].iter().map(|leaf| &leaf.low);
                    lows.any(|low| low == asked.key)
                });
                let reply = asked.right();
                match at_low && reply.refusal == 0 {
                    true => {
                        let mut wrong = reply;
                        wrong.found = 1 - reply.found;
                        wrong
                    }
                    false => reply,
                }
            },
            &["examples", "runs"],
        ),
    ];
    noticed(&rows);
}
