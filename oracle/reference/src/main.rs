//! The script program: standard input to standard output. With
//! REFERENCE_UNCHECKED=1 the assertions are left out.

#![forbid(unsafe_code)]

use reference::script;
use std::io::{self, Read, Write};

fn main() -> io::Result<()> {
    let checks = std::env::var_os("REFERENCE_UNCHECKED").is_none_or(|value| value != "1");
    let mut input = Vec::new();
    io::stdin().read_to_end(&mut input)?;
    io::stdout().write_all(&script::run_with(&input, checks))
}
