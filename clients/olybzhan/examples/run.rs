//! Document 01's run, a walk through all pairs, and its bench example A5, told
//! in the words of its script program.

use olybzhan::{Error, Index};

/// Bytes in hex, the empty string as `-`.
fn hex(bytes: &[u8]) -> String {
    match bytes {
        [] => "-".to_string(),
        _ => bytes.iter().map(|byte| format!("{byte:02x}")).collect(),
    }
}

fn say_old(old: Option<Vec<u8>>) {
    match old {
        Some(old) => println!("old {}", hex(&old)),
        None => println!("none"),
    }
}

fn say_leaves(index: &Index) -> Result<(), Error> {
    let mut place = 0;
    while let Some(leaf) = index.leaf_at(place)? {
        let upper = leaf.upper.map_or("*".to_string(), hex);
        let (low, prefix, pairs) = (hex(leaf.low), leaf.prefix_length, leaf.pairs);
        println!("leaf {low} {upper} {prefix} {pairs}");
        place += 1;
    }
    Ok(())
}

fn main() -> Result<(), Error> {
    let mut index = Index::new(3, 4, 64)?;
    println!("new");
    for number in 1..=3 {
        say_old(index.insert(&[0x60 + number], &[number])?);
    }
    say_leaves(&index)?;
    match index.get(&[0x62])? {
        Some(value) => println!("value {}", hex(value)),
        None => println!("none"),
    }
    for pair in &index {
        let (key, value) = pair?;
        println!("pair {} {}", hex(&key), hex(value));
    }
    println!("end");
    say_old(index.remove(&[0x62])?);
    say_old(index.remove(&[0x63])?);
    say_leaves(&index)?;
    say_old(index.remove(&[0x61])?);
    say_leaves(&index)
}
