//! One-line slips in the reference, each to be told apart from the true one.

use crate::program;
use crate::scripts::whole_language;
use reference::script;
use std::fs;
use std::io;
use std::path::{Path, PathBuf};
use std::process::Command;

const SEEDS: u64 = 300;

const WORKSPACE: &str = "[workspace]
resolver = \"3\"
members = [\"calls\", \"reference\"]

[profile.dev]
debug = false
overflow-checks = false
";

/// Whether all of them were told apart.
pub fn run(oracle: &Path) -> Result<bool, String> {
    let workshop = Workshop::new(oracle).map_err(|error| format!("copying: {error}"))?;
    workshop.build()?;
    if let Some(by) = workshop.told_apart() {
        return Err(format!("the true reference is told apart by {by}"));
    }
    let slips = read_slips(&oracle.join("slips"))?;
    let mut told = 0;
    for slip in &slips {
        let by = workshop.told_apart_with(slip)?;
        println!(
            "{:32} {}",
            slip.name,
            by.as_deref().unwrap_or("NOT TOLD APART")
        );
        told += usize::from(by.is_some());
    }
    println!("{told} of {} slips told apart", slips.len());
    Ok(told == slips.len())
}

struct Slip {
    name: String,
    file: String,
    old: String,
    new: String,
}

fn read_slips(folder: &Path) -> Result<Vec<Slip>, String> {
    let entries = fs::read_dir(folder).map_err(|error| format!("slips: {error}"))?;
    let paths = entries.flatten().map(|entry| entry.path());
    let mut paths: Vec<PathBuf> = paths
        .filter(|path| path.extension() == Some("edit".as_ref()))
        .collect();
    paths.sort();
    paths.iter().map(|path| read_slip(path)).collect()
}

/// A comment, then the lines `file:`, `old:` and `new:`.
fn read_slip(path: &Path) -> Result<Slip, String> {
    let name = path.file_stem().unwrap_or_default().display().to_string();
    let text = fs::read_to_string(path).map_err(|error| format!("{name}: {error}"))?;
    let field = |word: &str| {
        let found = text.lines().find_map(|line| line.strip_prefix(word));
        found
            .map(str::to_string)
            .ok_or(format!("{name}: no line `{word}`"))
    };
    let (file, old, new) = (field("file: ")?, field("old: ")?, field("new: ")?);
    Ok(Slip {
        name,
        file,
        old,
        new,
    })
}

fn copy_folder(from: &Path, to: &Path) -> io::Result<()> {
    fs::create_dir_all(to)?;
    for entry in fs::read_dir(from)? {
        let entry = entry?;
        let copy = to.join(entry.file_name());
        match entry.file_type()?.is_dir() {
            true => copy_folder(&entry.path(), &copy)?,
            false => _ = fs::copy(entry.path(), copy)?,
        }
    }
    Ok(())
}

/// A copy of the reference, and of the calls that are made on it.
struct Workshop {
    folder: PathBuf,
}

impl Workshop {
    fn new(oracle: &Path) -> io::Result<Workshop> {
        let folder = oracle.join("target/slips");
        for package in ["calls", "reference"] {
            let (from, to) = (oracle.join(package), folder.join(package));
            copy_folder(&from.join("src"), &to.join("src"))?;
            fs::copy(from.join("Cargo.toml"), to.join("Cargo.toml"))?;
        }
        fs::write(folder.join("Cargo.toml"), WORKSPACE)?;
        Ok(Workshop { folder })
    }

    fn build(&self) -> Result<(), String> {
        let mut cargo = Command::new("cargo");
        cargo.args([
            "build",
            "--quiet",
            "--offline",
            "--jobs",
            "1",
            "--target-dir",
            "target",
        ]);
        // What a slip leaves unused is no news.
        cargo.env("RUSTFLAGS", "-A warnings");
        match cargo.current_dir(&self.folder).status() {
            Ok(status) if status.success() => Ok(()),
            _ => Err("it doesn't build".to_string()),
        }
    }

    /// What tells the built copy apart from the reference in this program: an
    /// answer, not a stop.
    fn told_apart(&self) -> Option<String> {
        let differs = |program: &str, input: &[u8], right: &[u8]| {
            let built = self.folder.join("target/debug").join(program);
            let output = program::run(&built, input);
            output.fault.is_none() && output.answers != right
        };
        let by_script = (1..=SEEDS).find(|seed| {
            let script = whole_language(*seed);
            differs("reference", &script, &script::run_with(&script, false))
        });
        if let Some(seed) = by_script {
            return Some(format!("script of seed {seed}"));
        }
        let by_calls = (1..=SEEDS).find(|seed| {
            let right = calls::answer::told(*seed);
            differs("calls", seed.to_string().as_bytes(), right.as_bytes())
        });
        by_calls.map(|seed| format!("calls of seed {seed}"))
    }

    fn told_apart_with(&self, slip: &Slip) -> Result<Option<String>, String> {
        let path = self.folder.join("reference").join(&slip.file);
        let fault = |fault: &str| format!("{}: {fault}", slip.name);
        let text = fs::read_to_string(&path).map_err(|error| fault(&error.to_string()))?;
        if text.matches(&slip.old).count() != 1 {
            return Err(fault("the old text isn't there just once"));
        }
        let write = |text: &str| fs::write(&path, text).map_err(|error| fault(&error.to_string()));
        write(&text.replace(&slip.old, &slip.new))?;
        let built = self.build();
        write(&text)?;
        built.map_err(|error| fault(&error))?;
        Ok(self.told_apart())
    }
}
