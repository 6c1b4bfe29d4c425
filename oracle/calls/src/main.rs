//! The calls of the seed on standard input, each with the reference's answer.

#![forbid(unsafe_code)]

use std::io;

fn main() -> io::Result<()> {
    let seed = io::read_to_string(io::stdin())?;
    let seed = seed.trim().parse().map_err(io::Error::other)?;
    print!("{}", calls::answer::told(seed));
    Ok(())
}
