//! How answers are said.

use reference::leaves::Pair;
use reference::refusal::Refusal;

/// Begins the words for a refusal.
pub const REFUSED: &str = "refused";

/// The script's form of a byte string.
pub fn hex(bytes: &[u8]) -> String {
    if bytes.is_empty() {
        return "-".to_string();
    }
    let digits = bytes.iter().flat_map(|byte| [byte / 16, byte % 16]);
    digits
        .map(|digit| char::from(b"0123456789abcdef"[usize::from(digit)]))
        .collect()
}

pub fn refusal_words(refusal: Refusal) -> String {
    let number = refusal.number();
    match refusal {
        Refusal::ShortOutput(needed) => format!("{REFUSED} {number}, {needed} needed"),
        _ => format!("{REFUSED} {number}"),
    }
}

pub fn value_words(value: Option<&[u8]>) -> String {
    value.map_or("none".to_string(), |value| format!("value {}", hex(value)))
}

pub fn pair_words(pair: Option<(&[u8], &[u8])>) -> String {
    let words = |(key, value)| format!("pair {} {}", hex(key), hex(value));
    pair.map_or("end".to_string(), words)
}

pub fn pairs_words(pairs: &[Pair]) -> String {
    let words = |(key, value): &Pair| format!("{} {}", hex(key), hex(value));
    pairs.iter().map(words).collect::<Vec<String>>().join(", ")
}

pub fn leaf_words(low: &[u8], upper: Option<&[u8]>, prefix: usize, pairs: &[Pair]) -> String {
    let upper = upper.map_or("*".to_string(), hex);
    format!("[{} {upper} {prefix}: {}]", hex(low), pairs_words(pairs))
}
