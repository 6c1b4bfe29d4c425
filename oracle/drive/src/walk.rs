//! Every leaf list that a few short keys can make, and every change of each:
//! the reference against sled.

use crate::compare::caught;
use crate::sled_calls::SledCalls;
use calls::answer::Reference;
use calls::call::{Bytes, Call, Span};
use calls::make::{AMPLE, BOUNDS, ample};
use reference::range::{Bound, Range};
use std::collections::{HashSet, VecDeque};

/// They begin each other, stand beside each other, and are separators too.
const KEYS: [&[u8]; 8] = [b"", b"\0", b"a", b"a\0", b"aa", b"b", b"\xff", b"\xff\xff"];

pub struct Walked {
    pub states: usize,
    pub steps: usize,
}

/// A leaf list, and the shortest way to it.
struct State {
    reference: Reference,
    way: Vec<Call>,
}

/// Breadth first, so that a difference is shown at the end of a short way.
pub fn walk(fanout: usize) -> Result<Walked, String> {
    let (changes, questions) = (changes(), questions());
    let mut reference = Reference::new(true);
    let way = vec![ample(fanout)];
    reference.answer(&way[0]);
    let mut seen = HashSet::from([reference.answer(&Call::Leaves)]);
    let mut waiting = VecDeque::from([State { reference, way }]);
    let mut steps = 0;
    while let Some(state) = waiting.pop_front() {
        for change in &changes {
            steps += 1;
            let mut reference = state.reference.clone();
            let mut sled = SledCalls::default();
            for call in &state.way {
                sled.answer(call);
            }
            let mut way = state.way.clone();
            same(&mut reference, &mut sled, &way, change)?;
            way.push(change.clone());
            same(&mut reference, &mut sled, &way, &Call::Leaves)?;
            if seen.insert(reference.answer(&Call::Leaves)) {
                for question in &questions {
                    same(&mut reference, &mut sled, &way, question)?;
                }
                waiting.push_back(State { reference, way });
            }
        }
    }
    let states = seen.len();
    Ok(Walked { states, steps })
}

fn same(
    reference: &mut Reference,
    sled: &mut SledCalls,
    way: &[Call],
    call: &Call,
) -> Result<(), String> {
    let right = caught("(sled's panic)", || sled.answer(call));
    let ours = caught("(panic)", || reference.answer(call));
    if right == ours {
        return Ok(());
    }
    let way: String = way.iter().map(|call| format!("    {call:?}\n")).collect();
    let says = format!("sled says\n    {right}\nreference says\n    {ours}\n");
    Err(format!("walk, after\n{way}    {call:?}\n{says}"))
}

fn changes() -> Vec<Call> {
    let mut changes = vec![Call::Clear];
    for key in KEYS {
        let (key, value, room) = (Bytes(key.to_vec()), Bytes(vec![1]), AMPLE);
        changes.push(Call::Remove {
            key: key.clone(),
            room,
        });
        changes.push(Call::Insert { key, value, room });
    }
    changes
}

fn questions() -> Vec<Call> {
    let mut questions = vec![Call::Len, Call::First { room: AMPLE }];
    for key in KEYS.map(|key| Bytes(key.to_vec())) {
        questions.push(Call::Get { key: key.clone() });
        questions.push(Call::ContainsKey { key: key.clone() });
        questions.push(Call::GetGt {
            key: key.clone(),
            room: AMPLE,
        });
        questions.push(Call::WalkPrefix { prefix: key });
    }
    questions.extend(spans().map(|span| Call::WalkRange { span }));
    questions
}

/// Of all bound kinds and keys, the start not above the end.
fn spans() -> impl Iterator<Item = Span> {
    let bounds = || {
        KEYS.into_iter()
            .flat_map(|key| BOUNDS.map(|bound| (bound, key)))
    };
    // The key beside an open bound isn't read: one is enough.
    let bounds = move || bounds().filter(|(bound, key)| *bound != Bound::Open || key.is_empty());
    let pairs = bounds().flat_map(move |start| bounds().map(move |end| (start, end)));
    pairs.filter_map(|((start, low), (end, high))| {
        let range = Range::new(start, end);
        let (start, end) = (Bytes(low.to_vec()), Bytes(high.to_vec()));
        (!range.inverted(&start, &end)).then_some(Span { range, start, end })
    })
}
