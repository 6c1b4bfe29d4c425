//! The recorded answers, and those to the examples, are the reference's, and in
//! the domain sled's.

use drive::fixed;
use drive::lines::{all_accepted, leaf_counts};
use std::fs;
use std::path::Path;

/// The scripts of a folder, by their file names' kind, each held to its answers.
fn scripts(folder: &str, kind: &str) -> Vec<(String, Vec<u8>)> {
    let folder = Path::new(env!("CARGO_MANIFEST_DIR")).join(folder);
    let entries = fs::read_dir(folder).unwrap();
    let paths = entries.map(|entry| entry.unwrap().path());
    let mut scripts = Vec::new();
    for path in paths.filter(|path| path.extension() == Some(kind.as_ref())) {
        let script = fs::read(&path).unwrap();
        let answers = fs::read(path.with_extension("out")).unwrap();
        assert!(reference::script::run(&script) == answers, "{path:?}");
        assert!(
            !all_accepted(&answers) || sled_oracle::run(&script) == answers,
            "{path:?}"
        );
        let name = path.file_name().unwrap().to_str().unwrap();
        scripts.push((name.to_string(), script));
    }
    scripts
}

#[test]
fn recorded_answers() {
    let scripts = scripts("../recorded", "in");
    assert!(scripts.len() > 25);
    for (name, script) in scripts {
        let removes = script.windows(5).any(|part| part == b"\ndel ");
        assert_eq!(name.starts_with("mixed-"), removes, "{name}");
    }
}

#[test]
fn examples() {
    assert!(scripts("../../examples", "txt").len() > 5);
}

/// Each `put` and `del` between two `leaves` splits or merges.
#[test]
fn places() {
    let fixed = fixed::scripts();
    let counts = |name| {
        let (_, script) = fixed.iter().find(|fixed| fixed.0 == name).unwrap();
        leaf_counts(&reference::script::run(script.as_bytes()))
    };
    let splits = counts("insert-split-places");
    assert_eq!(splits.len(), 2 * 4 * (3 + 4 + 5 + 8));
    assert!(splits.chunks(2).all(|two| two[1] == two[0] + 1));
    let splits = counts("insert-split-places-64");
    assert_eq!(splits.len(), 2 * (4 + 4 + 4 + 5));
    assert!(splits.chunks(2).all(|two| two[1] == two[0] + 1));
    let merges = counts("mixed-merge-places");
    assert!(merges.chunks(7).all(|rows| rows[0] == 5 && rows[6] <= 2));
}
