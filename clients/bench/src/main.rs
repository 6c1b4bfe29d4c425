//! Times each call of the index beside sled's leaf.rs (the oracle's harness) and
//! the standard `BTreeMap`, in one process and by one driver, and prints tables.
//!
//! Words: the numbers of pairs, else 40, 2000 and 20000.

mod clock;
#[allow(dead_code)]
#[path = "../../olybzhan/src/ffi.rs"]
mod ffi;
mod lent;
#[allow(dead_code)]
#[path = "../../../oracle/reference/src/random.rs"]
mod random;
mod sides;

use clock::{time, time_each};
use lent::Lent;
// Where `ffi` finds `Header`.
use olybzhan as buffers;
use random::Random;
use sides::{Changes, Side};
use std::hint::black_box;
use std::time::Duration;

const KEY: usize = 24;
const VALUE: usize = 8;
/// Long enough that one pair has it.
const PREFIX: usize = 10;
/// Keys asked for by turns.
const ASKED: usize = 64;
/// The best round counts. In each the sides take turns, but for `create`.
const ROUNDS: usize = 5;

type Pair = (Vec<u8>, Vec<u8>);
type Sides<S> = [Box<S>; 3];

/// The best time of one call on each side that has it.
struct Row {
    call: String,
    /// How often the index tests W for it, at its full size.
    tests: u32,
    best: [Option<Duration>; 3],
}

impl Row {
    fn new(call: &str, tests: u32) -> Row {
        let (call, best) = (call.to_string(), [None; 3]);
        Row { call, tests, best }
    }

    fn header_lent(mut self) -> Row {
        self.call += "; header lent";
        self
    }

    fn took(&mut self, side: usize, time: Duration) {
        let best = self.best[side].get_or_insert(time);
        *best = time.min(*best);
    }
}

fn main() {
    let words: Vec<String> = std::env::args().skip(1).collect();
    let number = |word: &String| word.parse().expect("a number of pairs");
    let sizes: Vec<usize> = match words.as_slice() {
        [] => vec![40, 2_000, 20_000],
        words => words.iter().map(number).collect(),
    };
    // So that the first round is no worse than others.
    grow(&mut sides::empty(), &random_pairs(500, 0));
    for size in sizes {
        // So few more that the size hardly changes.
        let more = (size / 20).clamp(2, 20);
        let pairs = random_pairs(size + more, size as u64);
        let (held, new) = pairs.split_at(size);
        let mut sides = sides::empty();
        let mut rows = vec![creates(held), grow(&mut sides, held)];
        rows.extend(reads(&sides, held));
        rows.extend(changes(&mut sides, held, new));
        let mut sides = sides::empty_lent();
        let mut lent = vec![grow(&mut sides, held)];
        lent.extend(changes(&mut sides, held, new));
        rows.extend(lent.into_iter().map(Row::header_lent));
        print(size, &rows);
    }
}

/// Distinct, since a key is 24 random bytes.
fn random_pairs(count: usize, seed: u64) -> Vec<Pair> {
    let mut random = Random::new(seed);
    let mut bytes =
        |length: usize| -> Vec<u8> { (0..length).map(|_| random.word() as u8).collect() };
    (0..count).map(|_| (bytes(KEY), bytes(VALUE))).collect()
}

/// An index that holds these pairs is made an empty one.
fn creates(held: &[Pair]) -> Row {
    let mut index = Lent::new();
    insert_all(&mut index, held);
    let mut row = Row::new("create", 0);
    for (place, mut create) in sides::creations(&mut index).into_iter().enumerate() {
        for _ in 0..ROUNDS {
            row.took(place, time_each(|_| create()));
        }
    }
    assert_eq!(index.count(), 0);
    row
}

fn grow<S: Changes + ?Sized>(sides: &mut Sides<S>, held: &[Pair]) -> Row {
    let mut row = Row::new("insert, all from empty, the mean", 0);
    for (place, side) in sides.iter_mut().enumerate() {
        let all = time(|| insert_all(side.as_mut(), held));
        row.took(place, all / held.len() as u32);
    }
    row
}

fn insert_all<S: Changes + ?Sized>(side: &mut S, pairs: &[Pair]) {
    for (key, value) in pairs {
        black_box(side.insert(key, value));
    }
}

fn remove_all<S: Changes + ?Sized>(side: &mut S, pairs: &[Pair]) {
    for (key, _) in pairs {
        black_box(side.remove(key));
    }
}

const TEST_OF_W: &str = "holds_index: the test of W";

type Read = fn(&dyn Side, &[u8]) -> Option<usize>;

/// How often W is tested, and the call. The key is one that is held.
const READS: [(&str, u32, Read); 10] = [
    (TEST_OF_W, 1, |side, _| side.holds_index()),
    ("get", 1, |side, key| Some(side.get(key))),
    ("contains_key", 1, |side, key| Some(side.contains_key(key))),
    ("first_in_range", 1, |side, key| {
        Some(side.first_in_range(key))
    }),
    ("get_gt", 1, |side, key| Some(side.get_gt(key))),
    ("first", 1, |side, _| Some(side.first())),
    ("len", 1, |side, _| Some(side.count())),
    ("scan_prefix, its one pair listed", 2, |side, key| {
        Some(side.scan_prefix(&key[..PREFIX]))
    }),
    ("scan_prefix, the range alone", 0, |side, key| {
        side.prefix_range(&key[..PREFIX])
    }),
    ("leaf_at", 1, |side, _| side.leaf_at(0)),
];

fn reads(sides: &Sides<dyn Side>, held: &[Pair]) -> Vec<Row> {
    let step = held.len().div_ceil(ASKED);
    let keys: Vec<&[u8]> = held.iter().step_by(step).map(|(key, _)| &key[..]).collect();
    let row = |&(call, tests, read): &(&str, u32, Read)| {
        same_answers(sides, &keys, call, read);
        let mut row = Row::new(call, tests);
        for _ in 0..ROUNDS {
            for (place, side) in sides.iter().enumerate() {
                if read(side.as_ref(), keys[0]).is_none() {
                    continue;
                }
                let each = |turn: usize| {
                    black_box(read(side.as_ref(), keys[turn % keys.len()]));
                };
                row.took(place, time_each(each));
            }
        }
        row
    };
    READS.iter().map(row).collect()
}

/// That all who have the call did the same work.
fn same_answers(sides: &Sides<dyn Side>, keys: &[&[u8]], call: &str, read: Read) {
    for key in keys {
        let mut answers = sides.iter().filter_map(|side| read(side.as_ref(), key));
        let first = answers.next();
        assert!(answers.all(|answer| Some(answer) == first), "{call}");
    }
}

/// What is timed on copies.
const CHANGES: [&str; 4] = [
    "insert, a new key",
    "remove",
    "insert, a key just removed",
    "clear",
];

fn changes<S: Changes + ?Sized>(sides: &mut Sides<S>, held: &[Pair], new: &[Pair]) -> Vec<Row> {
    same_changes(sides, held, new);
    let mut replace = Row::new("insert, a key that is held", 1);
    let mut rows = CHANGES.map(|call| Row::new(call, 1));
    for _ in 0..ROUNDS {
        for (place, side) in sides.iter_mut().enumerate() {
            let each = |turn: usize| {
                let (key, value) = &held[turn * 7 % held.len()];
                black_box(side.insert(key, value));
            };
            replace.took(place, time_each(each));
            let times = on_copies(side.as_ref(), held, new);
            for (row, time) in rows.iter_mut().zip(times) {
                row.took(place, time);
            }
        }
    }
    [replace].into_iter().chain(rows).collect()
}

/// That all answer changes in the same way: of new keys, held ones and absent ones.
fn same_changes<S: Changes + ?Sized>(sides: &Sides<S>, held: &[Pair], new: &[Pair]) {
    let answers = sides.each_ref().map(|side| {
        let mut copy = side.copy(held);
        let twice = || new.iter().chain(new);
        let mut answers: Vec<usize> = twice()
            .map(|(key, value)| copy.insert(key, value))
            .collect();
        answers.push(copy.count());
        answers.extend(twice().map(|(key, _)| copy.remove(key)));
        answers.push(copy.count());
        answers
    });
    assert!(answers.iter().all(|these| *these == answers[0]), "changes");
}

/// The time of one call of each of `CHANGES`. A copy's free bytes lie where the
/// last new key went; a pair that is removed leaves its own free.
fn on_copies<S: Changes + ?Sized>(side: &S, held: &[Pair], new: &[Pair]) -> [Duration; 4] {
    // Several of small ones, so that the clock's steps don't show.
    let copies = (2_000 / held.len()).clamp(1, 50) as u32;
    let mut sums = [Duration::ZERO; 4];
    for _ in 0..copies {
        let mut copy = side.copy(held);
        let copy = copy.as_mut();
        sums[0] += time(|| insert_all(copy, new));
        sums[1] += time(|| remove_all(copy, new));
        sums[2] += time(|| insert_all(copy, new));
        remove_all(copy, new);
        sums[3] += time(|| copy.clear());
        assert_eq!(copy.count(), 0);
    }
    let [insert, remove, again, clear] = sums.map(|sum| sum / copies);
    let count = new.len() as u32;
    [insert / count, remove / count, again / count, clear]
}

fn print(size: usize, rows: &[Row]) {
    let test_of_w = rows.iter().find(|row| row.call == TEST_OF_W);
    let test_of_w = test_of_w.and_then(|row| row.best[0]).expect("a row");
    println!(
        "| {size} pairs: call | index µs | of it W | sled µs | BTreeMap µs | index / sled | index / BTreeMap |"
    );
    println!("|---|---|---|---|---|---|---|");
    for Row { call, tests, best } in rows {
        let [Some(index), sled, map] = *best else {
            continue;
        };
        let share = match tests {
            0 => String::new(),
            _ => share(test_of_w * *tests, index),
        };
        let cell = |time: Option<Duration>| time.map_or(String::new(), micro);
        let ratio = |time: Option<Duration>| {
            time.map_or(String::new(), |time| figures(index.div_duration_f64(time)))
        };
        println!(
            "| {call} | {} | {share} | {} | {} | {} | {} |",
            micro(index),
            cell(sled),
            cell(map),
            ratio(sled),
            ratio(map)
        );
    }
    println!();
}

fn share(part: Duration, whole: Duration) -> String {
    let hundredths = 100.0 * part.div_duration_f64(whole);
    format!("{:.0} %", hundredths.min(100.0))
}

fn micro(time: Duration) -> String {
    figures(time.as_secs_f64() * 1e6)
}

/// Two or three figures that count.
fn figures(number: f64) -> String {
    match number {
        0.0..1.0 => format!("{number:.2}"),
        1.0..10.0 => format!("{number:.1}"),
        _ => format!("{number:.0}"),
    }
}
