//! The script program's language, answered by sled.
//!
//! sled has no limits, so nothing is refused: pool and arena must be numbers
//! and are otherwise ignored; a fanout that isn't compiled in is said to be so.

use crate::Sled;

const LONGEST_LINE: usize = 4096;

/// The answers to the lines of a script.
pub fn run(script: &[u8]) -> Vec<u8> {
    let mut tree = None;
    let mut out = Vec::new();
    for line in script.split_inclusive(|&byte| byte == b'\n') {
        let line = line.strip_suffix(b"\n").unwrap_or(line);
        let answer = answer(line, &mut tree).unwrap_or_else(|| "bad line".to_string());
        out.extend_from_slice(answer.as_bytes());
        out.push(b'\n');
    }
    out
}

/// None for a bad line, which changes nothing.
fn answer(line: &[u8], tree: &mut Option<Sled>) -> Option<String> {
    if line.len() > LONGEST_LINE {
        return None;
    }
    let words: Vec<&[u8]> = line.split(|&byte| byte == b' ').collect();

    if let [b"new", fanout, pool, arena] = words[..] {
        let fanout = number(fanout)?;
        number(pool)?;
        number(arena)?;
        let Some(fresh) = Sled::new(fanout) else {
            return Some("unsupported fanout".to_string());
        };
        *tree = Some(fresh);
        return Some("new".to_string());
    }

    let tree = tree.as_ref()?;
    Some(match words[..] {
        [b"put", key, value] => answer_value("old", tree.insert(&bytes(key)?, &bytes(value)?)),
        [b"del", key] => answer_value("old", tree.remove(&bytes(key)?)),
        [b"get", key] => answer_value("value", tree.get(&bytes(key)?)),
        [b"next", key] => match tree.get_gt(&bytes(key)?) {
            Some((key, value)) => format!("pair {} {}", hex(&key), hex(&value)),
            None => "end".to_string(),
        },
        [b"leaves"] => leaf_lines(tree),
        _ => return None,
    })
}

fn answer_value(word: &str, value: Option<Vec<u8>>) -> String {
    match value {
        Some(value) => format!("{word} {}", hex(&value)),
        None => "none".to_string(),
    }
}

fn leaf_lines(tree: &Sled) -> String {
    let mut lines = Vec::new();
    for leaf in tree.leaves() {
        let low = hex(&leaf.low);
        let upper = leaf.upper.map_or("*".to_string(), |upper| hex(&upper));
        lines.push(format!(
            "leaf {low} {upper} {} {}",
            leaf.prefix_length,
            leaf.pairs.len()
        ));
    }
    lines.join("\n")
}

/// Decimal, no leading zero, at most nine digits.
fn number(word: &[u8]) -> Option<usize> {
    let digits = !word.is_empty() && word.len() <= 9 && word.iter().all(u8::is_ascii_digit);
    let leading_zero = word.len() > 1 && word[0] == b'0';
    if !digits || leading_zero {
        return None;
    }
    Some(
        word.iter()
            .fold(0, |sum, digit| 10 * sum + usize::from(digit - b'0')),
    )
}

/// Lowercase hex, two digits a byte; `-` is the empty string.
fn bytes(word: &[u8]) -> Option<Vec<u8>> {
    if word == b"-" {
        return Some(Vec::new());
    }
    let (twos, []) = word.as_chunks::<2>() else {
        return None;
    };
    if twos.is_empty() {
        return None;
    }
    twos.iter()
        .map(|[high, low]| Some(16 * digit(*high)? + digit(*low)?))
        .collect()
}

fn digit(byte: u8) -> Option<u8> {
    match byte {
        b'0'..=b'9' => Some(byte - b'0'),
        b'a'..=b'f' => Some(byte - b'a' + 10),
        _ => None,
    }
}

fn hex(bytes: &[u8]) -> String {
    if bytes.is_empty() {
        return "-".to_string();
    }
    const DIGITS: &[u8; 16] = b"0123456789abcdef";
    let twos = bytes.iter().flat_map(|byte| [byte >> 4, byte & 15]);
    twos.map(|digit| char::from(DIGITS[usize::from(digit)]))
        .collect()
}
