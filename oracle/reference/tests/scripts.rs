//! The script program of document 01: its whole run, A5 and A6, and the rules
//! for lines.

use reference::script::{run, run_with};

const RUN: &str = "new 3 4 64\nput 61 01\nput 62 02\nput 63 03\nleaves\nget 62\n";
const RUN_ANSWERS: &str = "new\nnone\nnone\nnone\nleaf - 62 0 1\nleaf 62 * 0 2\nvalue 02\n";

fn answers(input: &str) -> String {
    String::from_utf8(run(input.as_bytes())).unwrap()
}

/// What follows the answers to the run.
fn after_run(more: &str) -> String {
    let all = answers(&format!("{RUN}{more}"));
    all.strip_prefix(RUN_ANSWERS).unwrap().to_string()
}

/// The answer to one line after `new 3 4 64`.
fn one(line: &str) -> String {
    let all = answers(&format!("new 3 4 64\n{line}\n"));
    all.strip_prefix("new\n").unwrap().to_string()
}

/// Each of the lines, taken apart at `|`, alone gives the answer.
fn each(lines: &str, answer: &str) {
    for line in lines.split('|') {
        assert_eq!(one(line), answer, "{line:?}");
    }
}

#[test]
fn whole_run() {
    assert_eq!(answers(RUN), RUN_ANSWERS);
    assert_eq!(run_with(RUN.as_bytes(), false), RUN_ANSWERS.as_bytes());
}

#[test]
fn a5_removes() {
    let kept = "old 02\nold 03\nleaf - 62 0 1\nleaf 62 * 0 0\n";
    assert_eq!(after_run("del 62\ndel 63\nleaves\n"), kept);
    let more = after_run("del 62\ndel 63\nleaves\nnext 61\ndel 61\nleaves\n");
    assert_eq!(more, format!("{kept}end\nold 01\nleaf - * 0 0\n"));
}

#[test]
fn a6_third_put() {
    let third = |new: &str| {
        let all = answers(&format!("{new}\nput 61 01\nput 62 02\nput 63 03\n"));
        all.strip_prefix("new\nnone\nnone\n").unwrap().to_string()
    };
    assert_eq!(third("new 3 4 7"), "none\n");
    assert_eq!(third("new 3 4 6"), "refused 8\n");
    assert_eq!(third("new 3 1 64"), "refused 7\n");
    assert_eq!(third("new 3 1 6"), "refused 7\n");
}

#[test]
fn answers_of_every_kind() {
    let script = "put 61 -\nput 61 0aff\nput 61 -\nget 61\nget 60\ndel 61\ndel 61\n";
    let expected = "old 01\nold -\nold 0aff\nvalue -\nnone\nold -\nnone\n";
    assert_eq!(after_run(script), expected);
    assert_eq!(after_run("next -\nnext 61\n"), "pair 61 01\npair 62 02\n");
    assert_eq!(after_run("put - 09\nnext -\n"), "none\npair 61 01\n");
    assert_eq!(
        after_run("put - -\nget -\ndel -\n"),
        "none\nvalue -\nold -\n"
    );
    assert_eq!(after_run("put 62 -\nnext 6100\n"), "old 02\npair 62 -\n");
}

#[test]
fn byte_order() {
    let puts = "new 3 8 64\nput 80 -\nput 7f -\nput 62 -\nput 6100 -\n";
    let walk = answers(&format!("{puts}next -\nnext 6100\nnext 7f\n"));
    let pairs = walk.strip_prefix("new\nnone\nnone\nnone\nnone\n");
    assert_eq!(pairs, Some("pair 6100 -\npair 62 -\npair 80 -\n"));
}

#[test]
fn ends_of_input() {
    assert_eq!(answers(""), "");
    assert_eq!(answers("\n"), "bad line\n");
    assert_eq!(answers("new 3 4 64"), "new\n");
    assert_eq!(answers("new 3 4 64\n\n"), "new\nbad line\n");
    assert_eq!(answers("new 3 4 64\nget 61"), "new\nnone\n");
}

/// Lines of 4,096 and of 4,097 bytes.
#[test]
fn line_lengths() {
    let line = |words: &str, length: usize| format!("{words}{}", "0".repeat(length - words.len()));
    let answer = |line: &str| answers(&format!("new 3 4 16384\n{line}\nleaves"));
    let put = answer(&line("put - ", 4_096));
    assert_eq!(put, "new\nnone\nleaf - * 0 1\n");
    let put = answer(&line("put 61 ", 4_097));
    assert_eq!(put, "new\nbad line\nleaf - * 0 0\n");
    let get = answer(&line("get ", 4_096));
    assert_eq!(get, "new\nrefused 3\nleaf - * 0 0\n");
    let next = answer(&line("next ", 4_097));
    assert_eq!(next, "new\nbad line\nleaf - * 0 0\n");
    let far = answer(&line("leaves", 10_000));
    assert_eq!(far, "new\nbad line\nleaf - * 0 0\n");
}

#[test]
fn key_limit() {
    let script = |bytes: usize| {
        let key = "61".repeat(bytes);
        format!("new 3 4 16384\nput {key} 01\nget {key}\nnext {key}\ndel {key}\n")
    };
    assert_eq!(answers(&script(512)), "new\nnone\nvalue 01\nend\nold 01\n");
    let refused = "refused 3\n".repeat(4);
    assert_eq!(answers(&script(513)), format!("new\n{refused}"));
}

#[test]
fn bad_spaces() {
    each("| | leaves|leaves |get  61|get 61 | get 61", "bad line\n");
    each("get\t61|leaves\r|get 61\r|put 61  01|get 6 1", "bad line\n");
}

#[test]
fn bad_bytes() {
    each("get 6|get 616|get 6A|get AB|get 6g|get *", "bad line\n");
    each(
        "get --|get -61|get 61-|get 6-|put 61 *|put * 61|put - 0x",
        "bad line\n",
    );
    let not_utf8 = run(b"new 3 4 64\nget \xc3\x28\nget \x00\nget 6\xff\n");
    assert_eq!(not_utf8, b"new\nbad line\nbad line\nbad line\n");
}

#[test]
fn bad_words() {
    each("put|put 61|put 61 01 02|get|get 61 62", "bad line\n");
    each("del|del 61 62|next|next 61 62|leaves 1", "bad line\n");
    each("new|new 3|new 3 4|new 3 4 64 1", "bad line\n");
    each("LEAVES|leave|leavess|Get 61|scan 61|61", "bad line\n");
}

#[test]
fn bad_numbers() {
    for number in "03|00|-|+3|-3|3.|0x3|3a|1000000000|0000000003|*".split('|') {
        each(&format!("new {number} 4 64"), "bad line\n");
        each(&format!("new 3 {number} 64"), "bad line\n");
        each(&format!("new 3 4 {number}"), "bad line\n");
    }
}

#[test]
fn before_an_accepted_new() {
    let early = answers("leaves\nget 61\nput 61 01\ndel 61\nnext 61\n");
    assert_eq!(early, "bad line\n".repeat(5));
    let refused = answers("new 2 4 64\nleaves\nnew 3 4 64\nleaves\n");
    assert_eq!(refused, "refused 1\nbad line\nnew\nleaf - * 0 0\n");
}

#[test]
fn sizes_of_new() {
    each(
        "new 3 1 0|new 64 64 16384|new 3 64 0|new 64 1 16384",
        "new\n",
    );
    each(
        "new 2 4 64|new 65 4 64|new 0 4 64|new 3 0 64",
        "refused 1\n",
    );
    each("new 3 65 64|new 3 4 16385", "refused 1\n");
    each("new 999999999 999999999 999999999", "refused 1\n");
}

#[test]
fn a_later_new() {
    for refused in ["new 3 65 64", "new 3 4 16385", "new 2 4 64", "new 3 0 64"] {
        let kept = after_run(&format!("{refused}\nget 61\n"));
        assert_eq!(kept, "refused 1\nvalue 01\n");
    }
    assert_eq!(after_run("new 3 4\nget 61\n"), "bad line\nvalue 01\n");
    assert_eq!(
        after_run("new 4 4 64\nget 61\nleaves\n"),
        "new\nnone\nleaf - * 0 0\n"
    );
    let tiny = answers("new 3 4 0\nput - -\nget -\nput 61 -\n");
    assert_eq!(tiny, "new\nnone\nvalue -\nrefused 8\n");
}
