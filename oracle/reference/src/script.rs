//! The script program of document 01: one call a line.

use crate::index::{Index, Shown, VALUE_LIMIT};
use crate::refusal::{refuse_if, Refusal};

const LINE_LIMIT: usize = 4_096;
const FANOUT_CEILING: usize = 64;
const POOL_CEILING: usize = 64;
const ARENA_CEILING: usize = 16_384;
const DIGITS: &[u8; 16] = b"0123456789abcdef";

/// The whole output for a whole input, with the checks.
pub fn run(input: &[u8]) -> Vec<u8> {
    run_with(input, true)
}

pub fn run_with(input: &[u8], checks: bool) -> Vec<u8> {
    let mut program = Program {
        index: None,
        checks,
        buffer: vec![0; VALUE_LIMIT],
    };
    let mut output = String::new();
    for line in input.split_inclusive(|byte| *byte == b'\n') {
        let line = line.strip_suffix(b"\n").unwrap_or(line);
        output.push_str(&match program.answer(line) {
            Some(Ok(answer)) => answer,
            Some(Err(refusal)) => format!("refused {}", refusal.number()),
            None => "bad line".to_string(),
        });
        output.push('\n');
    }
    output.into_bytes()
}

struct Program {
    /// None before an accepted `new`.
    index: Option<Index>,
    checks: bool,
    /// For old values and found keys. Every one fits, so 5 is never given.
    buffer: Vec<u8>,
}

impl Program {
    /// None for a bad line.
    fn answer(&mut self, line: &[u8]) -> Option<Result<String, Refusal>> {
        if line.len() > LINE_LIMIT {
            return None;
        }
        let words: Vec<&[u8]> = line.split(|byte| *byte == b' ').collect();
        if let [b"new", fanout, pool, arena] = words[..] {
            return Some(self.start_afresh(number(fanout)?, number(pool)?, number(arena)?));
        }
        let index = self.index.as_mut()?;
        let buffer = &mut self.buffer;
        Some(match words[..] {
            [b"put", key, value] => put(index, &bytes(key)?, &bytes(value)?, buffer),
            [b"get", key] => get(index, &bytes(key)?),
            [b"del", key] => del(index, &bytes(key)?, buffer),
            [b"next", key] => next(index, &bytes(key)?, buffer),
            [b"leaves"] => Ok(leaves(index)),
            _ => return None,
        })
    }

    /// A refused `new` leaves the index as it was.
    fn start_afresh(
        &mut self,
        fanout: usize,
        pool: usize,
        arena: usize,
    ) -> Result<String, Refusal> {
        refuse_if(fanout > FANOUT_CEILING, Refusal::Shape)?;
        refuse_if(pool > POOL_CEILING, Refusal::Shape)?;
        refuse_if(arena > ARENA_CEILING, Refusal::Shape)?;
        let mut index = Index::create(fanout, pool, fanout * pool, arena)?;
        index.checks = self.checks;
        self.index = Some(index);
        Ok("new".to_string())
    }
}

fn put(index: &mut Index, key: &[u8], value: &[u8], buffer: &mut [u8]) -> Result<String, Refusal> {
    let length = index.insert(key, value, buffer)?;
    Ok(old(length, buffer))
}

fn del(index: &mut Index, key: &[u8], buffer: &mut [u8]) -> Result<String, Refusal> {
    let length = index.remove(key, buffer)?;
    Ok(old(length, buffer))
}

fn old(length: Option<usize>, buffer: &[u8]) -> String {
    match length {
        Some(length) => format!("old {}", hex(&buffer[..length])),
        None => "none".to_string(),
    }
}

fn get(index: &Index, key: &[u8]) -> Result<String, Refusal> {
    Ok(match index.get(key)? {
        Some(value) => format!("value {}", hex(value)),
        None => "none".to_string(),
    })
}

fn next(index: &Index, key: &[u8], buffer: &mut [u8]) -> Result<String, Refusal> {
    let Some(found) = index.get_gt(key, buffer)? else {
        return Ok("end".to_string());
    };
    let key = hex(&buffer[..found.key_length]);
    Ok(format!("pair {key} {}", hex(found.value)))
}

/// One line a leaf: low key, upper key, prefix length, pairs.
fn leaves(index: &Index) -> String {
    let shown = (0..).map_while(|at| index.leaf_at(at));
    shown.map(leaf_line).collect::<Vec<String>>().join("\n")
}

fn leaf_line(leaf: Shown) -> String {
    let low = hex(leaf.low);
    let upper = leaf.upper.map_or("*".to_string(), hex);
    let pairs = leaf.pairs.len();
    format!("leaf {low} {upper} {} {pairs}", leaf.prefix_length)
}

/// Decimal, one to nine digits, no leading zero.
fn number(word: &[u8]) -> Option<usize> {
    let leading_zero = word.len() > 1 && word[0] == b'0';
    if word.len() > 9 || leading_zero || !word.iter().all(u8::is_ascii_digit) {
        return None;
    }
    std::str::from_utf8(word).ok()?.parse().ok()
}

/// Lowercase hex, two digits a byte, or `-` for the empty string.
fn bytes(word: &[u8]) -> Option<Vec<u8>> {
    if word == b"-" {
        return Some(Vec::new());
    }
    if word.is_empty() || word.len() % 2 == 1 {
        return None;
    }
    let pairs = word.chunks(2);
    pairs
        .map(|two| Some(16 * digit(two[0])? + digit(two[1])?))
        .collect()
}

fn digit(byte: u8) -> Option<u8> {
    match byte {
        b'0'..=b'9' => Some(byte - b'0'),
        b'a'..=b'f' => Some(byte - b'a' + 10),
        _ => None,
    }
}

fn hex(bytes: &[u8]) -> String {
    if bytes.is_empty() {
        return "-".to_string();
    }
    let digits = bytes.iter().flat_map(|byte| [byte / 16, byte % 16]);
    digits
        .map(|digit| char::from(DIGITS[usize::from(digit)]))
        .collect()
}
