//! Links the archive of the exported functions. `tools/build archive` writes it
//! to `target/staticlib`; OLYBZHAN_ARCHIVE names another folder, absolute or as
//! seen from this package.

use std::env;
use std::path::Path;

fn main() {
    println!("cargo::rerun-if-env-changed=OLYBZHAN_ARCHIVE");
    let folder = env::var("OLYBZHAN_ARCHIVE").unwrap_or("../../target/staticlib".to_string());
    let archive = Path::new(&folder).join("libexports.a");
    println!("cargo::rerun-if-changed={}", archive.display());
    let machine = env::var("CARGO_CFG_TARGET_ARCH").expect("cargo sets it");
    match archive.canonicalize() {
        _ if machine != "x86_64" => {
            println!("cargo::error=the archive is for x86-64, not for {machine}");
        }
        Ok(archive) => {
            let folder = archive.parent().expect("a folder").display();
            println!("cargo::rustc-link-search=native={folder}");
            println!("cargo::rustc-link-lib=static=exports");
        }
        Err(_) => println!(
            "cargo::error=no {}: run `tools/build archive`, or set OLYBZHAN_ARCHIVE to its folder",
            archive.display()
        ),
    }
}
