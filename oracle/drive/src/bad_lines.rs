//! Lines that aren't well formed, of every kind.

use calls::words::hex;
use reference::random::Random;

const GOOD: [&str; 10] = [
    "put 61 01",
    "put - -",
    "put 6161 00ff",
    "get 61",
    "get -",
    "del 61",
    "next 61",
    "next -",
    "leaves",
    "new 3 4 64",
];

/// One row a kind.
#[rustfmt::skip]
pub const BAD: [&[&str]; 18] = [
    // Spaces and other gaps.
    &[""],
    &[" ", " leaves", " put 61 01", " get 61", " new 3 4 64"],
    &["leaves ", "put 61 01 ", "get 61 ", "del 61 ", "next 61 ", "new 3 4 64 "],
    &["put  61 01", "put 61  01", "get  61", "new 3  4 64"],
    &["get\t61", "put 61\t01", "leaves\t", "\tleaves"],
    &["leaves\r", "get 61\r", "put 61 01\r", "new 3 4 64\r", "\r"],
    // Bytes.
    &["get 6A", "put AB 01", "put 61 FF", "del 6B", "next fF"],
    &["get 6", "put 616 01", "put 61 0", "del 61616", "next f"],
    &["get --", "get -61", "put 61- 01", "put 61 6-", "del 6-61", "next -6"],
    &["get *", "put * 01", "put 61 *", "del *", "next *", "new * 4 64"],
    &["get 6g", "get 0x", "put 61 zz", "del 6:", "next `a", "get 6/"],
    &["get 6\0", "leaves\0", "get \u{e9}", "put 61 \u{b2}"],
    // Words.
    &["put", "put 61", "get", "del", "next", "new", "new 3", "new 3 4"],
    &["leaves -", "get 61 62", "put 61 01 02", "del 61 62", "next 61 62", "new 3 4 64 1"],
    &["clear", "scan 61", "leave", "leavess", "PUT 61 01", "Get 61", "put61 01", "61", "#"],
    // Numbers; the two that are too long by far are 3 in 32 and in 64 bits.
    &["new 03 4 64", "new 3 04 64", "new 3 4 064", "new 3 4 00", "new 3 4 0000000064"],
    &["new 3 4 1000000000", "new 1000000000 4 64", "new 4294967299 4 64",
      "new 18446744073709551619 4 64"],
    &["new 3 4 -", "new 3 4 6x", "new +3 4 64", "new 3 -4 64", "new 0x3 4 64", "new 3 4 64."],
];

pub fn good_line(random: &mut Random) -> Vec<u8> {
    random.pick(&GOOD).into()
}

/// Or, now and then, a good line with one byte changed, whatever comes of it.
pub fn bad_line(random: &mut Random) -> Vec<u8> {
    match random.below(BAD.len() + 2) {
        0 => long_line(random),
        1 => {
            let mut line = good_line(random);
            let at = random.below(line.len());
            line[at] = random.below(256) as u8;
            line
        }
        kind => random.pick(BAD[kind - 2]).into(),
    }
}

/// Over 4,096 bytes; but for its length well formed, or so up to that length.
fn long_line(random: &mut Random) -> Vec<u8> {
    let line = match random.below(4) {
        0 => format!("put 61 {}", hex(&[0x61; 2_045])),
        1 => format!("next {}", hex(&[0x61; 2_046])),
        2 => format!("put - {}0", hex(&[0x61; 2_045])),
        _ => "leaves ".repeat(600 + random.below(1_500)),
    };
    line.into_bytes()
}
