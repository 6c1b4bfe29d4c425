//! Sides with a slip, each of which a part of the comparison notices.

use api::exports::{Reply, Told};
use api::sides::{Answer, Call, Reference, Side};
use api::{cases, creations, damages, fresh};
use reference::buffers::{Buffers, Header};
use reference::w::{clauses, first_broken};

/// What is made of the reference's answer. The buffers are as they came and
/// as the reference leaves them.
type Slip = fn(Call, Answer, &Buffers, &mut Buffers) -> Answer;

struct Slipped(Slip);

impl Side for Slipped {
    fn answer(&self, call: Call, lent: &mut Buffers) -> Answer {
        let before = lent.clone();
        let answer = Reference.answer(call, lent);
        self.0(call, answer, &before, lent)
    }
}

/// The names of the parts that notice.
fn noticed(side: &dyn Side) -> Vec<&'static str> {
    let parts = [
        ("cases", cases::run(side, 1).is_err()),
        ("damages", damages::run(side, 2, 500).is_err()),
        ("creations", creations::run(side, 3).is_err()),
        ("fresh", fresh::run(side, 4, 100).is_err()),
    ];
    let parts = parts.into_iter().filter(|(_, noticed)| *noticed);
    parts.map(|(name, _)| name).collect()
}

#[test]
fn no_slip() {
    let none = Slipped(|_, answer, _, _| answer);
    assert!(noticed(&none).is_empty());
}

#[test]
fn one_verdict_for_all() {
    let always = Slipped(|call, answer, _, _| verdict(call, answer, true));
    assert_eq!(noticed(&always), ["cases", "damages"]);
    let never = Slipped(|call, answer, _, _| verdict(call, answer, false));
    assert_eq!(noticed(&never), ["cases", "damages"]);
}

fn verdict(call: Call, answer: Answer, verdict: bool) -> Answer {
    match call {
        Call::HoldsIndex(_) => Answer::Verdict(verdict),
        _ => answer,
    }
}

/// W but for one clause.
struct Without(&'static str);

impl Side for Without {
    fn answer(&self, call: Call, lent: &mut Buffers) -> Answer {
        match call {
            Call::HoldsIndex(header) => {
                let broken = first_broken(&header, &lent.dir, &lent.slots, &lent.arena);
                Answer::Verdict(broken.is_none_or(|broken| broken == self.0))
            }
            _ => Reference.answer(call, lent),
        }
    }
}

#[test]
fn each_clause_forgotten() {
    for clause in clauses() {
        assert!(cases::run(&Without(clause), 1).is_err(), "{clause}");
    }
}

#[test]
fn slips_of_creation() {
    let slips: [Slip; 6] = [
        // The fanout in the header of a refusal.
        |call, answer, _, _| match (call, answer) {
            (Call::Create(fanout), Answer::Changed(mut reply)) => {
                reply.header.fanout = fanout;
                Answer::Changed(reply)
            }
            _ => answer,
        },
        // A first word written before the sizes are tested.
        |call, answer, _, lent| {
            if let (Call::Create(_), Some(word)) = (call, lent.dir.first_mut()) {
                *word = 0;
            }
            answer
        },
        // The low key's word at the front of the leaf.
        |call, answer, before, lent| {
            if let (Call::Create(fanout), Some(header)) = (call, accepted(answer)) {
                lent.slots[fanout - 1] = before.slots[fanout - 1];
                lent.slots[header.pairs] = 0;
            }
            answer
        },
        // The whole directory cleared.
        |call, answer, _, lent| {
            if let (Call::Create(_), Some(_)) = (call, accepted(answer)) {
                lent.dir.fill(0);
            }
            answer
        },
        // A byte of the arena.
        |call, answer, _, lent| {
            if let (Call::Create(_), Some(byte)) = (call, lent.arena.last_mut()) {
                *byte ^= 1;
            }
            answer
        },
        // Another number.
        |call, answer, _, _| match (call, answer) {
            (Call::Create(_), Answer::Changed(reply)) if reply.refusal == 1 => {
                Answer::Changed(Reply {
                    refusal: 2,
                    ..reply
                })
            }
            _ => answer,
        },
    ];
    for slip in slips {
        assert_eq!(noticed(&Slipped(slip)), ["creations"]);
    }
}

#[test]
fn slips_of_len_and_clear() {
    let slips: [Slip; 5] = [
        // Zeros for the header of a refused `clear`.
        |call, answer, _, _| match (call, answer) {
            (Call::Clear(_), Answer::Changed(mut reply)) if reply.refusal == 2 => {
                reply.header.charge = 0;
                Answer::Changed(reply)
            }
            _ => answer,
        },
        // A refused `clear` that clears.
        |call, answer, _, lent| {
            if let (Call::Clear(_), None, Some(word)) =
                (call, accepted(answer), lent.dir.first_mut())
            {
                *word ^= 1;
            }
            answer
        },
        // The old counts kept.
        |call, answer, _, _| match (call, answer) {
            (Call::Clear(header), Answer::Changed(reply)) => {
                Answer::Changed(Reply { header, ..reply })
            }
            _ => answer,
        },
        // A damaged index counted by its header.
        |call, answer, _, _| match call {
            Call::Len(header) => Answer::Counted(Told {
                refusal: 0,
                length: header.pairs,
            }),
            _ => answer,
        },
        // Leaves for pairs.
        |call, answer, _, _| match (call, answer) {
            (Call::Len(header), Answer::Counted(told)) if told.refusal == 0 => {
                Answer::Counted(Told {
                    length: header.leaves,
                    ..told
                })
            }
            _ => answer,
        },
    ];
    for slip in slips {
        assert_eq!(noticed(&Slipped(slip)), ["fresh"]);
    }
}

/// The header of an accepted change.
fn accepted(answer: Answer) -> Option<Header> {
    match answer {
        Answer::Changed(reply) if reply.refusal == 0 => Some(reply.header),
        _ => None,
    }
}

struct Crashing;

impl Side for Crashing {
    fn answer(&self, call: Call, lent: &mut Buffers) -> Answer {
        assert!(lent.arena.len() < 10, "a crash");
        Reference.answer(call, lent)
    }
}

#[test]
fn a_crash_is_a_difference() {
    assert_eq!(noticed(&Crashing).len(), 4);
}
