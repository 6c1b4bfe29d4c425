//! One call on both sides.

use crate::exports::Reply;
use crate::sides::{Answer, Call, Reference, Side};
use reference::buffers::{Buffers, Header};
use reference::layout::read;
use reference::leaves::Leaves;
use reference::w::first_broken;
use std::panic::{AssertUnwindSafe, catch_unwind};

/// Gives the answer where it is the reference's and the buffers are left as
/// the reference leaves them, every word and byte. Else, and where the side
/// panics, a report.
pub fn compare(side: &dyn Side, call: Call, lent: &mut Buffers) -> Result<Answer, String> {
    let mut expected = lent.clone();
    let right = Reference.answer(call, &mut expected);
    let answer = catch_unwind(AssertUnwindSafe(|| side.answer(call, lent)));
    let difference = match answer {
        Err(_) => "no answer".to_string(),
        Ok(answer) if answer != right => format!("{answer:?}, not {right:?}"),
        Ok(_) if *lent != expected => first_other(lent, &expected),
        Ok(answer) => return read_as_fresh(answer, lent),
    };
    let (sizes, state) = (sizes(&expected), state(call, right, &expected));
    Err(format!("{call:?} on {sizes}{state}: {difference}\n"))
}

/// What an accepted creation or `clear` leaves is a fresh index.
fn read_as_fresh(answer: Answer, lent: &Buffers) -> Result<Answer, String> {
    if let Answer::Changed(Reply {
        refusal: 0, header, ..
    }) = answer
    {
        let list = read(&header, &lent.dir, &lent.slots, &lent.arena);
        if list != Some(Leaves::fresh(header.fanout)) {
            return Err(format!("{header:?} and its buffers are read as {list:?}\n"));
        }
    }
    Ok(answer)
}

pub(crate) fn sizes(lent: &Buffers) -> String {
    let Buffers { dir, slots, arena } = lent;
    let (dir, slots, arena) = (dir.len(), slots.len(), arena.len());
    format!("{dir} directory words, {slots} slot words, {arena} bytes")
}

/// Whether the buffers met W. A refused or reading call leaves them as they were.
fn state(call: Call, right: Answer, left: &Buffers) -> String {
    let (Call::HoldsIndex(header) | Call::Clear(header) | Call::Len(header)) = call else {
        return String::new();
    };
    if let Answer::Changed(Reply { refusal: 0, .. }) = right {
        return " that meet W".to_string();
    }
    verdict(&header, left)
}

pub(crate) fn verdict(header: &Header, lent: &Buffers) -> String {
    match first_broken(header, &lent.dir, &lent.slots, &lent.arena) {
        Some(clause) => format!(" that break \"{clause}\""),
        None => " that meet W".to_string(),
    }
}

pub(crate) fn first_other(left: &Buffers, expected: &Buffers) -> String {
    fn at<T: PartialEq>(name: &str, left: &[T], expected: &[T]) -> Option<String> {
        let mut both = left.iter().zip(expected);
        let at = both.position(|(one, other)| one != other)?;
        Some(format!("{name} {at} is left wrong"))
    }
    at("directory word", &left.dir, &expected.dir)
        .or_else(|| at("slot word", &left.slots, &expected.slots))
        .or_else(|| at("arena byte", &left.arena, &expected.arena))
        .unwrap_or("a buffer has another length".to_string())
}
