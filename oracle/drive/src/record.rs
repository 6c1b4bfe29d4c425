//! A fixed sample of scripts and answers, written to files.

use crate::fixed;
use crate::lines::{all_accepted, leaf_counts, lines};
use crate::scripts::{of_fanout, tight_inserts, whole_language};
use reference::script;
use std::cmp::Ordering::{self, Greater, Less};
use std::fs;
use std::io;
use std::path::Path;

const FANOUTS: [usize; 6] = [3, 4, 5, 7, 16, 64];
const WHOLE: usize = 3;
/// Enough to find one as is wanted.
const SEEDS: u64 = 10_000;

pub fn run(oracle: &Path) -> Result<bool, String> {
    let folder = oracle.join("recorded");
    let samples = samples();
    for (name, script) in &samples {
        let answers = script::run(script);
        if all_accepted(&answers) && sled_oracle::run(script) != answers {
            return Err(format!("{name}: sled's answers differ"));
        }
    }
    write(&folder, &samples).map_err(|error| format!("{}: {error}", folder.display()))?;
    let program = oracle.join("../crates/script");
    let replay = replay(&samples);
    write_replay(&program, &replay).map_err(|error| format!("{}: {error}", program.display()))?;
    println!("{} scripts recorded", samples.len());
    Ok(true)
}

/// The files of an earlier sample go.
fn write(folder: &Path, samples: &[(String, Vec<u8>)]) -> io::Result<()> {
    for entry in fs::read_dir(folder)? {
        let path = entry?.path();
        if path
            .extension()
            .is_some_and(|kind| kind == "in" || kind == "out")
        {
            fs::remove_file(path)?;
        }
    }
    for (name, script) in samples {
        fs::write(folder.join(format!("{name}.in")), script)?;
        fs::write(folder.join(format!("{name}.out")), script::run(script))?;
    }
    Ok(())
}

fn write_replay(program: &Path, script: &[u8]) -> io::Result<()> {
    fs::write(program.join("stdin"), script)?;
    fs::write(program.join("stdout"), script::run(script))
}

/// Every command before there is an index, and behind a refused `new`.
const UNOPENED: &[u8] = b"leaves\nput 61 01\nget 61\ndel 61\nnext 61\nnew 2 4 64\nleaves";

/// These first, then the scripts one behind the other, document 01's run in
/// front, with `leaves` behind every put and del. The last line has no newline.
pub fn replay(samples: &[(String, Vec<u8>)]) -> Vec<u8> {
    let mut replay: Vec<&[u8]> = vec![UNOPENED];
    let mut samples: Vec<_> = samples.iter().collect();
    samples.sort_by_key(|sample| sample.0 != "insert-run");
    for (_, script) in samples {
        let script = lines(script);
        for (at, line) in script.iter().enumerate() {
            let line = line.strip_suffix(b"\n").unwrap_or(line);
            replay.push(line);
            let shown = script.get(at + 1).is_some_and(|next| *next == b"leaves\n");
            let changes = line.starts_with(b"put ") || line.starts_with(b"del ");
            if changes && !shown {
                replay.push(b"leaves");
            }
        }
    }
    replay.join(&b'\n')
}

/// Names and scripts.
pub fn samples() -> Vec<(String, Vec<u8>)> {
    let fixed = fixed::scripts().into_iter();
    let mut samples: Vec<_> = fixed
        .map(|(name, script)| (name.to_string(), script.into_bytes()))
        .collect();
    for fanout in FANOUTS {
        let size = 6_000 + 150 * fanout;
        let inserts = |seed| of_fanout(seed, fanout, false);
        let seed = first_small(1, size, inserts, |answers| steps(answers, Less) > 1);
        samples.push((format!("insert-fanout-{fanout}-seed-{seed}"), inserts(seed)));
        let mixed = |seed| of_fanout(seed, fanout, true);
        let seed = first_small(1, size, mixed, |answers| steps(answers, Greater) > 1);
        samples.push((format!("mixed-fanout-{fanout}-seed-{seed}"), mixed(seed)));
        let tight = |seed| tight_inserts(seed, fanout);
        let seed = first_small(1, 4 * size, tight, |answers| {
            steps(answers, Less) > 3 && (refused(answers, 7) || refused(answers, 8))
        });
        samples.push((format!("insert-tight-{fanout}-seed-{seed}"), tight(seed)));
    }
    let mut seed = 0;
    for _ in 0..WHOLE {
        seed = first_small(seed + 1, 15_000, whole_language, |answers| {
            refused(answers, 7) && refused(answers, 8)
        });
        samples.push((format!("mixed-whole-seed-{seed}"), whole_language(seed)));
    }
    samples
}

fn refused(answers: &[u8], number: usize) -> bool {
    lines(answers).contains(&format!("refused {number}\n").as_bytes())
}

/// How often one leaf list shown has fewer leaves than the next (after
/// splits), or more (after merges).
fn steps(answers: &[u8], order: Ordering) -> usize {
    let counts = leaf_counts(answers);
    let steps = counts.windows(2).filter(|two| two[0].cmp(&two[1]) == order);
    steps.count()
}

/// The first seed with answers as wanted, where these and the script together
/// aren't longer than `size`.
fn first_small(
    from: u64,
    size: usize,
    make: impl Fn(u64) -> Vec<u8>,
    wanted: impl Fn(&[u8]) -> bool,
) -> u64 {
    let found = (from..SEEDS).find(|seed| {
        let script = make(*seed);
        let answers = script::run_with(&script, false);
        script.len() + answers.len() <= size && wanted(&answers)
    });
    found.expect("a seed as is wanted")
}
