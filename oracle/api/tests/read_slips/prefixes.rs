//! Slips of `scan_prefix`.

use super::{Asked, Row, noticed};
use api::exports::{EXCLUDED, OPEN, Span};
use api::reads::{Read, Reading};

#[test]
fn slips() {
    let rows: [Row; 9] = [
        (
            "one FF byte dropped",
            |asked| match asked.read {
                Read::ScanPrefix(prefix @ [.., 0xff, 0xff]) if prefix.len() <= 512 => {
                    let mut end = prefix[..prefix.len() - 1].to_vec();
                    *end.last_mut().unwrap() = 0;
                    given(asked, &end)
                }
                _ => asked.right(),
            },
            &["examples", "prefixes"],
        ),
        (
            "the last byte not raised",
            |asked| match asked.unwritten() {
                (Reading::Span(span), mut out) if span.end_length > 0 => {
                    out[span.end_length - 1] -= 1;
                    asked.out.copy_from_slice(&out);
                    Reading::Span(span)
                }
                _ => asked.right(),
            },
            &["examples", "prefixes"],
        ),
        (
            "room for the whole prefix asked",
            |asked| match asked.read {
                Read::ScanPrefix(prefix)
                    if prefix.len() <= 512 && asked.out.len() < prefix.len() =>
                {
                    short(prefix.len())
                }
                _ => asked.right(),
            },
            &["examples", "prefixes"],
        ),
        (
            "an output of just the end's length refused",
            |asked| match asked.unwritten() {
                (Reading::Span(span), out)
                    if span.end_length > 0 && span.end_length == out.len() =>
                {
                    short(out.len())
                }
                _ => asked.right(),
            },
            &["examples", "prefixes"],
        ),
        (
            "5 with a length one off",
            |asked| match asked.right() {
                Reading::Span(span) if span.refusal == 5 => short(span.length + 1),
                reading => reading,
            },
            &["examples", "prefixes"],
        ),
        (
            "an empty end excluded for an open one",
            |asked| with(asked, OPEN, |span| span.end = EXCLUDED),
            &["examples", "prefixes"],
        ),
        (
            "the start excluded",
            |asked| with(asked, EXCLUDED, |span| span.start = EXCLUDED),
            &["examples", "prefixes"],
        ),
        (
            "the FF bytes left behind the end",
            |asked| match (asked.read, asked.unwritten()) {
                (Read::ScanPrefix(prefix), (Reading::Span(span), out))
                    if span.end_length > 0 && prefix.len() <= out.len() =>
                {
                    asked.out[..prefix.len()].copy_from_slice(prefix);
                    asked.out[..span.end_length].copy_from_slice(&out[..span.end_length]);
                    Reading::Span(span)
                }
                _ => asked.right(),
            },
            &["prefixes"],
        ),
        (
            "a prefix over 512 bytes that ends shorter accepted",
            |asked| match asked.read {
                Read::ScanPrefix(prefix) if prefix.len() > 512 && prefix.ends_with(&[0xff]) => {
                    let kept = prefix.iter().rposition(|byte| *byte != 0xff);
                    let kept = kept.map_or(0, |last| last + 1);
                    asked.instead(Read::ScanPrefix(&prefix[..kept]))
                }
                _ => asked.right(),
            },
            &["examples", "prefixes"],
        ),
    ];
    noticed(&rows);
}

fn short(length: usize) -> Reading {
    Reading::Span(Span {
        refusal: 5,
        length,
        ..Span::default()
    })
}

/// The range up to this end.
fn given(asked: &mut Asked, end: &[u8]) -> Reading {
    if asked.out.len() < end.len() {
        return short(end.len());
    }
    asked.out[..end.len()].copy_from_slice(end);
    Reading::Span(Span {
        end: EXCLUDED,
        end_length: end.len(),
        ..Span::default()
    })
}

/// An accepted range whose end is of this kind, changed.
fn with(asked: &mut Asked, end: usize, change: impl Fn(&mut Span)) -> Reading {
    match asked.right() {
        Reading::Span(mut span) if span.refusal == 0 && span.end == end => {
            change(&mut span);
            Reading::Span(span)
        }
        reading => reading,
    }
}
