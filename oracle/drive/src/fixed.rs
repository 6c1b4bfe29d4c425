//! Scripts written down: document 01's examples, and what each rule says at
//! its edges.

use crate::bad_lines::BAD;
use crate::scripts::REFUSED_NEWS;
use calls::words::hex;

/// Three puts of document 01's run.
const PUTS: &str = "put 61 01; put 62 02; put 63 03; leaves";

const A5: &str = "del 62; del 63; leaves; next 61; del 61; leaves";

const ORDER: &str = "new 3 8 64; put 80 -; put 7f -; put 62 -; put 6100 -; put ff -; put ff00 -; \
    put - -; put 00 -; leaves; next -; next 00; next 6100; next 62; next 7f; next 80; next ff; \
    next ff00";

/// In a leaf of F - 1 pairs, in a full pool, in a full arena.
const REPLACE: &str = "new 3 1 8; put 61 01; put 62 02; put 62 0304; get 62; put 61 03040506; \
    put 61 0304050607; get 61; put 61 07070707; get 61; put 61 -; put 61 -; put 61 0102; get 61; \
    put 63 -; leaves";

const EMPTY: &str = "new 3 4 0; get -; put - -; get -; next -; put - -; put - 00; put 61 -; leaves";

/// A10; then a merge that ends with an arena as full as can be.
const GIVE_BACK: &str = "new 3 4 64; put 6160 -; put 616161 01; put 6163 -; put 6164 -; leaves; \
    del 6160; leaves; get 616161; next -; next 61; next 616161; \
    new 3 4 9; put 6161 -; put 6162 -; put 62 -; put - -; put 61 -; leaves; del -; leaves; \
    next -; next 61; next 6161; next 6162";

/// A merge whose pairs regain one of two prefix bytes; one where they regain none; one
/// where they regain all.
const PREFIXES: &str = "new 3 8 64; put 10 -; put 610161 01; put 610261 02; put 610262 03; \
    put 70 04; leaves; del 610161; leaves; get 610261; next 6101; next 610261; \
    new 3 8 64; put 10 -; put 616101 01; put 616102 02; put 616103 03; put 616104 04; put 70 -; \
    leaves; del 616102; leaves; get 616103; next 616101; del 10; leaves; get 616101; next -; \
    del 616101; del 616103; leaves";

const SEPARATOR_STAYS: &str = "new 3 4 64; put 7878787878787830 -; put 7878787878787831 -; \
    put 7878787878787832 -; put 61 -; leaves; del 7878787878787831; del 7878787878787832; leaves; \
    del 7878787878787830; leaves; put 7878787878787831 -; leaves";

/// In a full pool and arena a remove isn't refused, and makes room.
const FULL: &str = "new 3 2 7; put 61 01; put 62 02; put 63 03; put 64 -; put 60 -; del 61; \
    leaves; put 64 -; put 64 01; del 65; del 62; put 65 0102; leaves; put 66 -; del 65; leaves";

/// By name: `insert-` is without removes, `mixed-` with them.
pub fn scripts() -> Vec<(&'static str, String)> {
    vec![
        ("insert-nothing", String::new()),
        ("insert-run", lines(&format!("new 3 4 64; {PUTS}; get 62"))),
        ("insert-a6", third_puts(["new 3 4 7", "new 3 4 6"])),
        ("insert-a6-pool-1", third_puts(["new 3 1 64", "new 3 1 6"])),
        ("insert-order", lines(ORDER)),
        ("insert-replace", lines(REPLACE)),
        ("insert-empty-key", lines(EMPTY)),
        ("insert-refusals", refused_news() + &long_keys("get")),
        ("insert-bad-lines", bad_lines(|line| !line.contains("del"))),
        ("insert-long-lines", long_lines()),
        ("insert-separators", separators()),
        ("insert-wide-answers", wide_answers()),
        ("insert-split-places", split_places()),
        ("insert-split-places-64", split_places_64()),
        ("mixed-a5", lines(&format!("new 3 4 64; {PUTS}; {A5}"))),
        ("mixed-give-back", lines(GIVE_BACK)),
        ("mixed-prefixes", lines(PREFIXES)),
        ("mixed-separator-stays", lines(SEPARATOR_STAYS)),
        ("mixed-full", lines(FULL)),
        ("mixed-long-keys", long_keys("del")),
        ("mixed-bad-lines", bad_lines(|line| line.contains("del"))),
        ("mixed-merge-places", merge_places()),
        ("mixed-fill-and-empty", fill_and_empty()),
    ]
}

fn lines(text: &str) -> String {
    text.replace("; ", "\n") + "\n"
}

/// A1: each two keys, parted in an index of fanout 3 by a third one above.
/// Then a fourth, which splits the last leaf (A2).
fn separators() -> String {
    let four = [
        "6162 6163 6164 6165",
        "61 6100 62 63",
        "61ffff 62 63 64",
        "- 6162 63 64",
    ];
    four.map(|keys| {
        let puts = keys.replace(' ', " -; leaves; put ");
        lines(&format!("new 3 4 64; put {puts} -; leaves"))
    })
    .concat()
}

/// A6: the third put decides.
fn third_puts(news: [&str; 2]) -> String {
    news.map(|new| lines(&format!("{new}; {PUTS}"))).concat()
}

/// Refusal 1 before an accepted `new`, and after it, where the index stays.
fn refused_news() -> String {
    let refused = REFUSED_NEWS.map(|new| format!("{new}\nget 61\n")).concat();
    format!("{refused}new 3 1 0\nnew 64 64 16384\nput 61 01\n{refused}")
}

/// Refusal 3. Of 7 and 8, A6.
fn long_keys(command: &str) -> String {
    let mut script = "new 3 4 16384\n".to_string();
    for length in [512, 513] {
        let key = hex(&vec![0x61; length]);
        script += &format!("put {key} 02\n{command} {key}\nnext {key}\nleaves\n");
    }
    script
}

/// The bad lines before a `new` and after it.
fn bad_lines(wanted: fn(&str) -> bool) -> String {
    let rows = BAD.into_iter().flatten();
    let bad: String = rows
        .filter(|line| wanted(line))
        .map(|line| format!("{line}\n"))
        .collect();
    format!("leaves\nget 61\n{bad}new 3 4 64\nput 61 01\n{bad}leaves\nget 61")
}

/// 4,096 bytes, then 4,097, then many.
fn long_lines() -> String {
    let value = hex(&[0x61; 2_045]);
    let mut script =
        format!("new 3 4 16384\nput - {value}\nput {value} -\nget {value}61\nleaves\n");
    script += &format!("put 61 {value}\nnext {value}61\nput - {value}0\nleaves\n");
    script += &format!("{}\nleaves\n", "leaves ".repeat(700));
    script
}

/// A new key at each place of a leaf of F - 1 pairs: the only leaf, the last,
/// the first of several, one in the middle.
fn split_places() -> String {
    let fanouts = [3, 4, 5, 8];
    fanouts.map(|fanout| splits(fanout, |_, _| true)).concat()
}

/// The same at fanout 64: the ends, and around L4's offset for each leaf.
fn split_places_64() -> String {
    let offsets = [1, 62, 1, 32];
    splits(64, |leaf, place| {
        place == 0 || place == 63 || place.abs_diff(offsets[leaf]) < 2
    })
}

fn splits(fanout: usize, wanted: impl Fn(usize, usize) -> bool) -> String {
    // Two bytes a key, and all first bytes below 256.
    let (step, arena) = if fanout > 14 { (3, 512) } else { (16, 256) };
    let name = |first: usize, second: usize| format!("{:02x}{second:02x}", first * step);
    let keys = |from: usize, to: usize| (from..=to).map(|n| name(n, 0x80));
    let more = |first: usize| (1..fanout - 1).map(move |n| name(first, 0x80 + n));
    // Each with the number of its leaf's first key.
    let puts_and_leaf: [(Vec<String>, usize, Vec<String>); 4] = [
        (
            keys(1, fanout - 1).collect(),
            1,
            keys(1, fanout - 1).collect(),
        ),
        (keys(1, fanout).collect(), 2, keys(2, fanout).collect()),
        (
            keys(1, fanout).chain(more(1)).collect(),
            1,
            keys(1, 1).chain(more(1)).collect(),
        ),
        (
            keys(1, fanout + 1).chain(more(2).take(1)).collect(),
            2,
            keys(2, 2)
                .chain(more(2).take(1))
                .chain(keys(3, fanout - 1))
                .collect(),
        ),
    ];
    let mut script = String::new();
    for (at, (puts, first, leaf)) in puts_and_leaf.into_iter().enumerate() {
        let puts: String = puts.iter().map(|key| format!("put {key} -\n")).collect();
        let below = name(first, 0x40);
        let above = leaf.iter().map(|key| format!("{key}80"));
        for (place, key) in std::iter::once(below).chain(above).enumerate() {
            if wanted(at, place) {
                script += &format!("new {fanout} 8 {arena}\n{puts}leaves\nput {key} -\nleaves\n");
            }
        }
    }
    script
}

/// Leaves of one pair and a common prefix, emptied one after the other, from
/// each of them on.
fn merge_places() -> String {
    let keys: Vec<String> = (1..=6).map(|n| format!("616161{n}0")).collect();
    let puts: String = keys.iter().map(|key| format!("put {key} -\n")).collect();
    let mut script = String::new();
    for from in 0..keys.len() {
        script += &format!("new 3 8 256\n{puts}leaves\n");
        for key in keys[from..].iter().chain(&keys[..from]) {
            script += &format!("del {key}\nleaves\n");
        }
    }
    script
}

/// Long low keys: `leaves` behind each put writes more than the program's output
/// buffer holds, within one piece of its input.
fn wide_answers() -> String {
    let key = |n: usize| format!("{}{n:02x}", "78".repeat(110));
    let puts = (0..40).map(|n| format!("put {} -\n", key(n)));
    format!("new 3 64 16384\n{}leaves\n", puts.collect::<String>())
}

/// Filled and emptied twice, up and down, in an arena of twice the keys' bytes.
fn fill_and_empty() -> String {
    let mut script = String::new();
    for (fanout, count) in [(3, 16), (5, 24), (64, 66)] {
        let key = |n: usize| format!("6161{:02x}", 3 * n);
        script += &format!("new {fanout} 64 {}\n", 6 * count);
        for turn in 0..2 {
            let scattered = (0..count).map(|n| (n * 7 + turn) % count);
            script.extend(scattered.map(|n| format!("put {} -\n", key(n))));
            script += "leaves\n";
            let down = turn == 1;
            let order = (0..count).map(|n| if down { count - 1 - n } else { n });
            script.extend(order.map(|n| format!("del {}\n", key(n))));
            script += "leaves\n";
        }
    }
    script
}
