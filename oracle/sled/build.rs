//! Finds sled's leaf.rs and tree.rs and makes them modules of this crate,
//! where they lie: neither is copied. The environment variable SLED_SRC names
//! their folder, absolute or as seen from this package.

use std::path::{Path, PathBuf};
use std::{env, fs};

/// Beside the repository.
const DEFAULT: &str = "../../../shared/docs/src/src";

fn main() {
    println!("cargo::rerun-if-env-changed=SLED_SRC");
    let folder = env::var_os("SLED_SRC").map_or(PathBuf::from(DEFAULT), PathBuf::from);

    let mut modules = String::new();
    for name in ["leaf", "tree"] {
        let file = folder.join(name).with_extension("rs");
        println!("cargo::rerun-if-changed={}", file.display());
        let Ok(file) = file.canonicalize() else {
            println!(
                "cargo::error=no {}: set SLED_SRC to the folder of sled's leaf.rs and tree.rs",
                file.display()
            );
            return;
        };
        // One caller doesn't need all that sled offers; its style is its own.
        modules += &format!("#[allow(dead_code, clippy::all)]\n#[path = {file:?}]\nmod {name};\n");
    }

    let out = env::var_os("OUT_DIR").expect("cargo sets OUT_DIR");
    fs::write(Path::new(&out).join("sled.rs"), modules).expect("OUT_DIR can be written");
}
