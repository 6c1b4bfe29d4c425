//! Slips that an insert and a remove can make alike.

use super::{Row, Slip, noticed, noticed_in_removes};

type Parts = &'static [&'static str];

/// What is wrong, the wrong answer, and the parts that notice it in inserts and
/// in removes.
const ROWS: [(&str, Slip, [Parts; 2]); 8] = [
    (
        "an empty old value told as none",
        |asked| {
            let mut reply = asked.right();
            if reply.length == 0 {
                reply.found = 0;
            }
            reply
        },
        [
            &["examples", "runs"],
            &["examples", "merges", "refills", "mixed"],
        ],
    ),
    (
        "the old pair still counted",
        |asked| {
            let mut reply = asked.right();
            reply.header.pairs += reply.found;
            reply
        },
        [
            &["examples", "runs"],
            &["examples", "merges", "refills", "mixed"],
        ],
    ),
    (
        "a refusal that hands back another header",
        |asked| {
            let mut reply = asked.right();
            if reply.refusal != 0 {
                reply.header.charge = 0;
            }
            reply
        },
        [
            &["examples", "runs", "splits", "replays", "cases", "damages"],
            &["examples", "mixed", "cases", "damages"],
        ],
    ),
    (
        "no length with refusal 5",
        |asked| {
            let mut reply = asked.right();
            if reply.refusal == 5 {
                reply.length = 0;
            }
            reply
        },
        [&["examples", "runs"], &["examples", "mixed"]],
    ),
    (
        "the output cleared behind the old value",
        |asked| {
            let reply = asked.right();
            if reply.refusal == 0 {
                asked.out[reply.length..].fill(0);
            }
            reply
        },
        [&["examples", "runs"], &["examples", "merges", "mixed"]],
    ),
    (
        "an arena byte changed by a refused call",
        |asked| {
            let reply = asked.right();
            if let (true, Some(byte)) = (reply.refusal != 0, asked.lent.arena.last_mut()) {
                *byte ^= 1;
            }
            reply
        },
        [
            &["examples", "runs", "splits", "replays", "cases", "damages"],
            &["examples", "mixed", "cases", "damages"],
        ],
    ),
    (
        "3 before 2",
        |asked| match asked.key.len() > 512 {
            true => asked.refused(3),
            false => asked.right(),
        },
        [&["cases", "damages"], &["cases", "damages"]],
    ),
    (
        "a key of 512 bytes refused",
        |asked| match asked.unwritten().refusal != 2 && asked.key.len() == 512 {
            true => asked.refused(3),
            false => asked.right(),
        },
        [&["examples", "runs", "replays"], &["examples", "mixed"]],
    ),
];

#[test]
fn slips_of_inserts() {
    noticed(&ROWS.map(|(what, slip, [parts, _])| -> Row { (what, slip, parts) }));
}

#[test]
fn slips_of_removes() {
    noticed_in_removes(&ROWS.map(|(what, slip, [_, parts])| -> Row { (what, slip, parts) }));
}
