//! What `rt ci` replays: crates/script/stdin and the answers beside it.

mod watch;

use drive::lines::{answers, lines};
use drive::record::{replay, samples};
use std::collections::BTreeSet;
use std::fs;
use std::path::Path;
use watch::{split_place, watch};

/// The script and the answers, as they stand in the crate.
fn files() -> (Vec<u8>, Vec<u8>) {
    let program = Path::new(env!("CARGO_MANIFEST_DIR")).join("../../crates/script");
    let [script, said] = ["stdin", "stdout"].map(|name| fs::read(program.join(name)).unwrap());
    (script, said)
}

/// Each line with its answer, as text.
fn answered() -> Vec<(String, String)> {
    let (script, said) = files();
    let text = |bytes: &[u8]| String::from_utf8_lossy(bytes).trim_end().to_string();
    let (lines, answers) = (lines(&script), answers(&said));
    assert_eq!(lines.len(), answers.len());
    let both = lines.into_iter().zip(answers);
    both.map(|(line, answer)| (text(line), text(answer)))
        .collect()
}

#[test]
fn made_by_record() {
    let (script, said) = files();
    assert!(script == replay(&samples()));
    assert!(said == reference::script::run(&script));
    assert!(!script.ends_with(b"\n"));
}

/// Each refusal that a script can meet, and no other.
#[test]
fn refusals() {
    let met: BTreeSet<String> = answered()
        .into_iter()
        .filter(|(_, answer)| answer.starts_with("refused "))
        .map(|(line, answer)| format!("{} {answer}", line.split(' ').next().unwrap()))
        .collect();
    let all = [
        "new refused 1",
        "put refused 3",
        "get refused 3",
        "del refused 3",
        "next refused 3",
        "put refused 7",
        "put refused 8",
    ];
    assert_eq!(met, all.map(String::from).into());
}

#[test]
fn splits_and_merges() {
    let (script, said) = files();
    let seen = watch(&script, &said);
    let mut wanted = BTreeSet::from(
        [
            "a separator as key",
            "first leaf takes its neighbour",
            "middle leaf takes its neighbour",
            "last but one leaf takes its neighbour",
            "no prefix bytes given back",
            "some prefix bytes given back",
            "all prefix bytes given back",
            "last leaf empty",
        ]
        .map(String::from),
    );
    for (low, upper) in [(true, false), (true, true), (false, false), (false, true)] {
        for fanout in [3, 4, 5, 8] {
            wanted.extend((0..fanout).map(|place| split_place(fanout, low, upper, place)));
        }
        wanted.extend([0, 63].map(|place| split_place(64, low, upper, place)));
    }
    let missing: Vec<&String> = wanted.difference(&seen).collect();
    assert!(missing.is_empty(), "{missing:#?}");
}

/// `leaves` stands behind every put and del; `/` parts its answer's lines.
const PUTS: &str = "put 61 01 > none; leaves > leaf - * 0 1; \
    put 62 02 > none; leaves > leaf - * 0 2; put 63 03 > ";
const SPLIT: &str = "none; leaves > leaf - 62 0 1 / leaf 62 * 0 2; ";
const A5: &str = "del 62 > old 02; leaves > leaf - 62 0 1 / leaf 62 * 0 1; \
    del 63 > old 03; leaves > leaf - 62 0 1 / leaf 62 * 0 0; next 61 > end; \
    del 61 > old 01; leaves > leaf - * 0 0; ";

#[test]
fn examples_of_document_01() {
    let answered = answered().into_iter();
    let replay: String = answered
        .map(|(line, answer)| format!("{line} > {}; ", answer.replace('\n', " / ")))
        .collect();
    for example in [
        format!("new 3 4 64 > new; {PUTS}{SPLIT}get 62 > value 02; "),
        format!("new 3 4 64 > new; {PUTS}{SPLIT}{A5}"),
        // A6
        format!("new 3 4 7 > new; {PUTS}{SPLIT}"),
        format!("new 3 4 6 > new; {PUTS}refused 8; leaves > leaf - * 0 2; "),
        format!("new 3 1 64 > new; {PUTS}refused 7; leaves > leaf - * 0 2; "),
        format!("new 3 1 6 > new; {PUTS}refused 7; leaves > leaf - * 0 2; "),
    ] {
        assert!(replay.contains(&example), "{example}");
    }
}
