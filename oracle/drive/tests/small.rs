//! Lines told apart, and lists made smaller.

use drive::lines::{answers, first_difference, leaf_counts, lines};
use drive::shrink::shrink;

const SCRIPT: &[u8] = b"new 3 4 64\nleaves\nput 61 01\nleaves\nget 61";
const RIGHT: &[u8] = b"new\nleaf - 61 0 1\nleaf 61 * 0 1\nold -\nleaf - * 0 1\nvalue 01\n";

#[test]
fn answers_to_lines() {
    assert_eq!(lines(SCRIPT).len(), 5);
    let answers = answers(RIGHT);
    assert_eq!(answers.len(), 5);
    assert_eq!(answers[1], b"leaf - 61 0 1\nleaf 61 * 0 1\n");
    assert_eq!(leaf_counts(RIGHT), [2, 1]);
}

#[test]
fn differences() {
    let number = |other: &[u8]| first_difference(SCRIPT, RIGHT, other).map(|found| found.number);
    assert_eq!(number(RIGHT), None);
    assert_eq!(number(b""), Some(1));
    assert_eq!(number(b"new\nleaf - 61 0 1\nleaf 61 * 0 2\n"), Some(2));
    assert_eq!(number(&RIGHT[..RIGHT.len() - 1]), Some(5));
    assert_eq!(number(&[RIGHT, b"end\n"].concat()), Some(6));
}

#[test]
fn shrinking() {
    let list: Vec<u32> = (0..100).collect();
    let both = |list: &[u32]| list.contains(&17) && list.contains(&64);
    assert_eq!(shrink(list.clone(), both), [17, 64]);
    assert_eq!(shrink(list, |list| list.len() > 4).len(), 5);
}
