//! Scripts from a seed.

use crate::bad_lines;
use crate::part::{ARENA, Kept, POOL, Part};
use reference::random::Random;
use sled_oracle::FANOUTS;

/// Of each kind that document 01's sizes and the ceilings refuse.
pub const REFUSED_NEWS: [&str; 8] = [
    "new 0 4 64",
    "new 2 4 64",
    "new 65 4 64",
    "new 3 0 64",
    "new 3 65 64",
    "new 3 4 16385",
    "new 4096 4096 1048576",
    "new 999999999 999999999 999999999",
];

/// Well formed, and nothing is refused: sled can answer it too.
pub fn in_domain(seed: u64) -> Vec<u8> {
    let mut random = Random::new(seed);
    let mut lines = Vec::new();
    for _ in 0..1 + random.below(2) {
        let fanout = random.pick(FANOUTS);
        lines.extend(accepted_lines(&mut random, fanout, true));
    }
    joined(&lines)
}

/// As `in_domain`, of one fanout, and with removes only if they are wanted.
pub fn of_fanout(seed: u64, fanout: usize, removes: bool) -> Vec<u8> {
    joined(&accepted_lines(&mut Random::new(seed), fanout, removes))
}

/// Without removes, of one fanout, in a tight pool or arena.
pub fn tight_inserts(seed: u64, fanout: usize) -> Vec<u8> {
    let mut random = Random::new(seed);
    let mut part = Part::new(&mut random, fanout, Kept::All);
    part.fill(false);
    let (pool, arena) = part.tight_limits();
    let mut lines = part.with_limits(pool, arena);
    // The longest line may be one.
    lines.retain(|line| !line.starts_with(b"del "));
    joined(&lines)
}

fn accepted_lines(random: &mut Random, fanout: usize, removes: bool) -> Vec<Vec<u8>> {
    let mut part = Part::new(random, fanout, Kept::Accepted);
    part.fill(removes);
    part.with_limits(POOL, ARENA)
}

/// Anything that a script may hold, bad lines and tight sizes too.
pub fn whole_language(seed: u64) -> Vec<u8> {
    let mut random = Random::new(seed);
    let mut lines = Vec::new();
    for _ in 0..random.below(3) {
        lines.push(bad_lines::good_line(&mut random));
        lines.push(random.pick(&REFUSED_NEWS).into());
    }
    for _ in 0..1 + random.below(3) {
        let fanout = random.pick(FANOUTS);
        let mut part = Part::new(&mut random, fanout, Kept::All);
        part.fill(true);
        let (pool, arena) = part.tight_limits();
        for line in part.with_limits(pool, arena) {
            lines.push(line);
            if random.one_in(8) {
                lines.push(bad_lines::bad_line(&mut random));
            }
            if random.one_in(50) {
                lines.push(random.pick(&REFUSED_NEWS).into());
            }
        }
    }
    let mut script = joined(&lines);
    if random.one_in(3) {
        script.pop();
    }
    script
}

fn joined(lines: &[Vec<u8>]) -> Vec<u8> {
    let mut script = lines.join(&b'\n');
    script.push(b'\n');
    script
}
