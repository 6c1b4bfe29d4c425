//! A script's lines and the answers to them.

/// With their newlines; the last line may lack it.
pub fn lines(text: &[u8]) -> Vec<&[u8]> {
    text.split_inclusive(|byte| *byte == b'\n').collect()
}

/// Right answers, one for each line of their script: the leaf lines that
/// answer one `leaves` stay together.
pub fn answers(text: &[u8]) -> Vec<&[u8]> {
    let mut answers = Vec::new();
    let (mut from, mut to) = (0, 0);
    for line in lines(text) {
        to += line.len();
        if !another_leaf_follows(line) {
            answers.push(&text[from..to]);
            from = to;
        }
    }
    answers
}

/// Only the last leaf has no upper key.
fn another_leaf_follows(line: &[u8]) -> bool {
    let mut words = line.split(|byte| *byte == b' ');
    words.next() == Some(b"leaf") && words.nth(1) != Some(b"*")
}

/// The numbers of leaves that a script's `leaves` lines show.
pub fn leaf_counts(text: &[u8]) -> Vec<usize> {
    let shown = answers(text)
        .into_iter()
        .filter(|answer| answer.starts_with(b"leaf "));
    shown.map(|answer| lines(answer).len()).collect()
}

/// Whether every line was well formed and accepted.
pub fn all_accepted(text: &[u8]) -> bool {
    let accepted = |line: &&[u8]| !line.starts_with(b"refused ") && *line != b"bad line\n";
    lines(text).iter().all(accepted)
}

/// The first line answered otherwise than it should be, with both answers.
pub struct Difference<'a> {
    pub number: usize,
    pub line: &'a [u8],
    pub right: &'a [u8],
    pub other: &'a [u8],
}

pub fn first_difference<'a>(
    script: &'a [u8],
    right: &'a [u8],
    other: &'a [u8],
) -> Option<Difference<'a>> {
    let mut rest = other;
    // After the last answer nothing more may come.
    let asked = lines(script).into_iter().chain([&b"(end)\n"[..]]);
    let answers = answers(right).into_iter().chain([&b""[..]]);
    for (at, (line, right)) in asked.zip(answers).enumerate() {
        match rest.strip_prefix(right) {
            Some(more) if !right.is_empty() || rest.is_empty() => rest = more,
            _ => {
                let as_many = lines(rest).into_iter().take(lines(right).len().max(1));
                let other = &rest[..as_many.map(<[u8]>::len).sum()];
                let number = at + 1;
                return Some(Difference {
                    number,
                    line,
                    right,
                    other,
                });
            }
        }
    }
    None
}
