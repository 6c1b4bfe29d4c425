//! Finds the archive that `tools/build archive` makes. The environment
//! variable OLYBZHAN_ARCHIVE names its folder, absolute or as seen from this
//! package.
//!
//! It is linked, or under the feature `fenced` linked into `fenced/fenced.c`,
//! a program of its own that makes the calls.

use std::env;
use std::path::{Path, PathBuf};
use std::process::Command;

/// Where it is put.
const DEFAULT: &str = "../../target/staticlib";
/// What C programs include.
const HEADERS: &str = "../../clients/c";

fn main() {
    let target = env::var("CARGO_CFG_TARGET_ARCH").expect("cargo sets it");
    let is_fenced = env::var_os("CARGO_FEATURE_FENCED").is_some();
    let linked = archive().and_then(|archive| match target.as_str() {
        "x86_64" if is_fenced => link_fenced(&archive),
        "x86_64" => link(&archive),
        other => Err(format!("the archive is for x86-64, not for {other}")),
    });
    if let Err(message) = linked {
        println!("cargo::error={message}");
    }
}

fn archive() -> Result<PathBuf, String> {
    println!("cargo::rerun-if-env-changed=OLYBZHAN_ARCHIVE");
    let folder = env::var_os("OLYBZHAN_ARCHIVE").map_or(PathBuf::from(DEFAULT), PathBuf::from);
    let archive = folder.join("libexports.a");
    println!("cargo::rerun-if-changed={}", archive.display());
    archive.canonicalize().map_err(|_| {
        let archive = archive.display();
        format!("no {archive}: run `tools/build archive`, or set OLYBZHAN_ARCHIVE to its folder")
    })
}

fn link(archive: &Path) -> Result<(), String> {
    let folder = archive.parent().expect("a folder").display();
    println!("cargo::rustc-link-search=native={folder}");
    println!("cargo::rustc-link-lib=static=exports");
    Ok(())
}

/// By the compiler that cargo itself links with, so it is there.
fn link_fenced(archive: &Path) -> Result<(), String> {
    println!("cargo::rerun-if-changed=fenced");
    println!("cargo::rerun-if-changed={HEADERS}");
    let out = PathBuf::from(env::var_os("OUT_DIR").expect("cargo sets it"));
    let program = out.join("fenced");
    // Bound at the start, so that the loader takes no stack in the midst of a call.
    run(Command::new("cc")
        .args(["-O2", "-Wall", "-Werror", "-Wl,-z,now"])
        .arg(format!("-I{HEADERS}"))
        .arg("fenced/fenced.c")
        .arg(archive)
        .arg("-o")
        .arg(&program))?;
    println!("cargo::rustc-env=FENCED_PROGRAM={}", program.display());
    Ok(())
}

fn run(command: &mut Command) -> Result<(), String> {
    let out = command
        .output()
        .map_err(|error| format!("{command:?}: {error}"))?;
    if out.status.success() {
        return Ok(());
    }
    let said = String::from_utf8_lossy(&out.stderr);
    Err(format!(
        "{command:?}: {}",
        said.lines().next().unwrap_or("failed")
    ))
}
