//! Two sides asked the same. A comparison gives how much it compared, or at a
//! difference a report with the smallest case found.

use crate::lines::{all_accepted, first_difference, lines};
use crate::program::{self, Output};
use crate::shrink::shrink;
use crate::sled_calls::SledCalls;
use calls::answer::Reference;
use calls::call::Call;
use calls::words::refusal_words;
use reference::refusal::Refusal;
use std::panic::{AssertUnwindSafe, catch_unwind};
use std::path::Path;

/// Who answers scripts.
#[derive(Clone, Copy, PartialEq)]
pub enum Side<'a> {
    Sled,
    Reference,
    Program(&'a Path),
}

impl Side<'_> {
    fn name(self) -> &'static str {
        match self {
            Side::Sled => "sled",
            Side::Reference => "reference",
            Side::Program(_) => "program",
        }
    }

    fn answers(self, script: &[u8]) -> Vec<u8> {
        match self {
            Side::Sled => caught("(sled panics)\n", || sled_oracle::run(script)),
            Side::Reference => caught("(reference panics)\n", || reference::script::run(script)),
            Side::Program(path) => {
                let Output { mut answers, fault } = program::run(path, script);
                answers.extend(
                    fault
                        .into_iter()
                        .flat_map(|fault| format!("({fault})\n").into_bytes()),
                );
                answers
            }
        }
    }
}

/// A panic is an answer too: it gives `words`.
pub fn caught<T: From<&'static str>>(words: &'static str, answer: impl FnOnce() -> T) -> T {
    catch_unwind(AssertUnwindSafe(answer)).unwrap_or_else(|_| words.into())
}

/// Gives the number of the script's lines.
pub fn scripts(title: &str, script: &[u8], right: Side, other: Side) -> Result<usize, String> {
    if !differ(script, right, other) {
        return Ok(lines(script).len());
    }
    // Outside the domain sled's answers say nothing.
    let fair =
        |script: &[u8]| right != Side::Sled || all_accepted(&Side::Reference.answers(script));
    let smallest = shrink(lines(script), |lines| {
        let script = lines.concat();
        fair(&script) && differ(&script, right, other)
    });
    Err(report(title, &smallest.concat(), right, other))
}

fn differ(script: &[u8], right: Side, other: Side) -> bool {
    right.answers(script) != other.answers(script)
}

fn report(title: &str, script: &[u8], right: Side, other: Side) -> String {
    let (say_right, say_other) = (right.answers(script), other.answers(script));
    let report = format!("{title}, made smaller:\n{}", indented(script));
    match first_difference(script, &say_right, &say_other) {
        Some(found) => format!(
            "{report}line {}\n{}{} says\n{}{} says\n{}",
            found.number,
            indented(found.line),
            right.name(),
            indented(found.right),
            other.name(),
            indented(found.other)
        ),
        // A program may fail by how its input came in pieces.
        None => format!("{report}no difference when run once more\n"),
    }
}

fn indented(text: &[u8]) -> String {
    let show = |line: &&[u8]| match line.strip_suffix(b"\n") {
        Some(line) => format!("    {}\n", line.escape_ascii()),
        None => format!("    {} (no newline)\n", line.escape_ascii()),
    };
    lines(text).iter().map(show).collect()
}

/// The reference against sled. Calls that only the reference has, and those
/// with a long key, are left out. Gives the number of the others.
pub fn calls(title: &str, calls: Vec<Call>) -> Result<usize, String> {
    let mut reference = Reference::new(true);
    let mut long_key = |call: &Call| {
        let answer = caught("(panic)", || reference.answer(call));
        answer == refusal_words(Refusal::LongKey)
    };
    let mut asked = calls;
    asked.retain(|call| call.sled_has_it() && !long_key(call));
    if first_odd_call(&asked).is_none() {
        return Ok(asked.len());
    }
    let smallest = shrink(asked, |calls| first_odd_call(calls).is_some());
    let mut report = format!("{title}, made smaller:\n");
    for call in &smallest {
        report += &format!("    {call:?}\n");
    }
    Err(report + &first_odd_call(&smallest).unwrap_or_default())
}

/// The first answer that isn't sled's, with sled's.
fn first_odd_call(calls: &[Call]) -> Option<String> {
    // Made smaller, a list may have lost what everything else needs.
    if !matches!(calls.first(), Some(Call::Create(_))) {
        return None;
    }
    let (mut reference, mut sled) = (Reference::new(true), SledCalls::default());
    for call in calls {
        let ours = caught("(panic)", || reference.answer(call));
        let right = caught("(sled's panic)", || sled.answer(call));
        if ours != right {
            return Some(format!(
                "sled says\n    {right}\nreference says\n    {ours}\n"
            ));
        }
    }
    None
}
