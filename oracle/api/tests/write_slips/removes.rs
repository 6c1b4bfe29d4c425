//! Slips of what a remove answers and writes, and of its refusals.

use super::{Asked, Row, noticed_in_removes};
use api::sides::Reference;
use api::writes::Writer;

#[test]
fn slips_of_the_answer() {
    let rows: [Row; 4] = [
        (
            "none told as an empty old value",
            |asked| {
                let mut reply = asked.right();
                if reply.refusal == 0 {
                    reply.found = 1;
                }
                reply
            },
            &["examples", "merges", "mixed"],
        ),
        (
            "the charge without the key",
            |asked| {
                let mut reply = asked.right();
                if reply.found == 1 {
                    reply.header.charge += asked.key.len();
                }
                reply
            },
            &["examples", "merges", "refills", "mixed"],
        ),
        (
            "the old value not written",
            |asked| {
                let before = asked.out.to_vec();
                let reply = asked.right();
                asked.out.copy_from_slice(&before);
                reply
            },
            &["examples", "merges", "refills", "mixed"],
        ),
        (
            "the old value copied after its bytes were moved over",
            |asked| {
                let reply = asked.right();
                let moved = asked.lent.arena.get(..reply.length);
                if let (1, Some(moved)) = (reply.found, moved) {
                    asked.out[..reply.length].copy_from_slice(moved);
                }
                reply
            },
            &["examples", "merges", "refills", "mixed"],
        ),
    ];
    noticed_in_removes(&rows);
}

#[test]
fn slips_of_refusals() {
    let rows: [Row; 5] = [
        (
            "an exact output refused",
            |asked| match asked.unwritten() {
                right if right.found == 1 && right.length == asked.out.len() => asked.refused(5),
                _ => asked.right(),
            },
            &["examples", "merges", "refills", "mixed"],
        ),
        (
            "what fits written before 5 is told",
            |asked| {
                let (reply, old) = (asked.right(), old(asked));
                if let (5, Some(old)) = (reply.refusal, old) {
                    asked.out.copy_from_slice(&old[..asked.out.len()]);
                }
                reply
            },
            &["examples", "mixed"],
        ),
        (
            "the pair gone in spite of refusal 5",
            |asked| {
                let reply = asked.right();
                if reply.refusal == 5 {
                    let mut out = vec![0; reply.length];
                    Reference.write(asked.write, asked.header, asked.lent, &mut out);
                }
                reply
            },
            &["examples", "mixed"],
        ),
        (
            "damaged buffers taken as without the key",
            |asked| match asked.unwritten().refusal {
                2 => asked.refused(0),
                _ => asked.right(),
            },
            &["cases", "damages"],
        ),
        (
            "a word out of use changed for an absent key",
            |asked| {
                let reply = asked.right();
                let word = asked.lent.dir.get_mut(asked.header.leaves);
                if let (0, 0, Some(word)) = (reply.refusal, reply.found, word) {
                    *word ^= 1;
                }
                reply
            },
            &["examples", "mixed"],
        ),
    ];
    noticed_in_removes(&rows);
}

/// The value of the key, where it has one.
fn old(asked: &Asked) -> Option<Vec<u8>> {
    Some(asked.leaves()?.get(asked.key)?.to_vec())
}
