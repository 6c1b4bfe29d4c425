//! Answers in words like the script's, with bytes in the place of places.

use crate::exports::{EXCLUDED, INCLUDED};
use crate::reads::{Reading, hex};

/// The answer of a call that left this output, on this arena.
pub fn of(reading: Reading, out: &[u8], arena: &[u8]) -> String {
    let bytes = |offset: usize, length: usize| hex(&arena[offset..][..length]);
    match reading {
        _ if reading.refusal() > 0 => refusal(reading),
        _ if !reading.found() => "none".to_string(),
        Reading::Told(_) => "held".to_string(),
        Reading::Place(place) => format!("value {}", bytes(place.offset, place.length)),
        Reading::Scanned(scan) => {
            let (key, value) = (hex(&out[..scan.key]), bytes(scan.offset, scan.value));
            format!("pair {key} {value}")
        }
        Reading::Span(span) => match [span.start, span.end] {
            [INCLUDED, EXCLUDED] => format!("included excluded {}", hex(&out[..span.end_length])),
            [INCLUDED, _] if span.end_length == 0 => "included open".to_string(),
            _ => format!("{span:?}"),
        },
        Reading::Shown(leaf) => {
            let low = bytes(leaf.low_offset, leaf.low_length);
            let upper = match leaf.has_upper {
                0 => "*".to_string(),
                _ => bytes(leaf.upper_offset, leaf.upper_length),
            };
            format!("leaf {low} {upper} {} {}", leaf.prefix_length, leaf.pairs)
        }
    }
}

fn refusal(reading: Reading) -> String {
    let number = reading.refusal();
    match reading {
        Reading::Scanned(scan) if number == 5 => format!("refused 5 needs {}", scan.length),
        Reading::Span(span) if number == 5 => format!("refused 5 needs {}", span.length),
        _ => format!("refused {number}"),
    }
}
