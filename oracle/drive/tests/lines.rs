//! What lines the scripts of some hundred seeds hold.

use drive::bad_lines::BAD;
use drive::lines::{all_accepted, answers, lines};
use drive::scripts::{in_domain, whole_language};
use std::collections::HashSet;

const SEEDS: std::ops::RangeInclusive<u64> = 1..=300;

/// All lines of the whole-language scripts, without newline, and the answers.
fn answered() -> HashSet<(Vec<u8>, String)> {
    let mut all = HashSet::new();
    for seed in SEEDS {
        let script = whole_language(seed);
        let output = reference::script::run_with(&script, false);
        let (lines, answers) = (lines(&script), answers(&output));
        assert_eq!(lines.len(), answers.len(), "seed {seed}");
        for (line, answer) in lines.iter().zip(answers) {
            let line = line.strip_suffix(b"\n").unwrap_or(line);
            let answer = String::from_utf8(answer.to_vec()).unwrap();
            all.insert((line.to_vec(), answer));
        }
    }
    all
}

#[test]
fn one_script_a_seed() {
    for make in [in_domain, whole_language] {
        assert_eq!(make(7), make(7));
        assert_ne!(make(7), make(8));
    }
}

#[test]
fn nothing_refused_in_the_domain() {
    for seed in SEEDS {
        let script = in_domain(seed);
        assert!(
            all_accepted(&reference::script::run(&script)),
            "seed {seed}"
        );
    }
}

#[test]
fn bad_lines_of_every_kind() {
    let all = answered();
    for kind in BAD {
        let bad = |line: &&str| all.contains(&(line.as_bytes().to_vec(), "bad line\n".to_string()));
        assert!(kind.iter().any(bad), "{kind:?}");
    }
    for line in BAD.into_iter().flatten() {
        let output = reference::script::run(format!("new 3 4 64\n{line}\n").as_bytes());
        assert_eq!(output, b"new\nbad line\n", "{line:?}");
    }
}

#[test]
fn longest_lines() {
    let all = answered();
    let seen = |length, answer: &str| {
        all.iter()
            .any(|(line, said)| line.len() == length && said.starts_with(answer))
    };
    for answer in ["none", "old", "refused 3", "refused 8"] {
        assert!(seen(4_096, answer), "{answer}");
    }
    assert!(seen(4_097, "bad line"));
    assert!(all.iter().any(|(line, _)| line.len() > 8_192));
}

#[test]
fn refusals() {
    let all = answered();
    let refused: HashSet<&str> = all
        .iter()
        .filter_map(|(_, answer)| answer.strip_prefix("refused "))
        .collect();
    assert_eq!(refused, HashSet::from(["1\n", "3\n", "7\n", "8\n"]));
}

/// As hex, `-` for the empty string.
#[test]
fn keys_and_values() {
    let all = answered();
    for line in ["get -", "put - -", "put ff -", "put ffff -", "next ffff"] {
        assert!(
            all.iter().any(|(said, _)| said == line.as_bytes()),
            "{line}"
        );
    }
    for (length, answer) in [(512, "none"), (513, "refused 3")] {
        let key = |line: &[u8]| {
            line.split(|byte| *byte == b' ')
                .nth(1)
                .map_or(0, <[u8]>::len)
        };
        let put = |(line, said): &(Vec<u8>, String)| {
            line.starts_with(b"put ") && key(line) == 2 * length && said.starts_with(answer)
        };
        assert!(all.iter().any(put), "{length}");
    }
}

#[test]
fn last_lines_without_newline() {
    let without = SEEDS.filter(|seed| !whole_language(*seed).ends_with(b"\n"));
    assert!((50..200).contains(&without.count()));
}
