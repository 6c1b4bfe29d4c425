//! Scripts of document 01, answered by sled.

use sled_oracle::run;

const WHOLE_RUN: &str = "new 3 4 64
put 61 01
put 62 02
put 63 03
leaves
get 62
";

const WHOLE_RUN_ANSWERS: &str = "new
none
none
none
leaf - 62 0 1
leaf 62 * 0 2
value 02
";

fn check(script: &str, answers: &str) {
    assert_eq!(String::from_utf8(run(script.as_bytes())).unwrap(), answers);
}

#[test]
fn whole_run() {
    check(WHOLE_RUN, WHOLE_RUN_ANSWERS);
    check(WHOLE_RUN.trim_end(), WHOLE_RUN_ANSWERS);
}

#[test]
fn a5_last_leaf_stays_and_first_takes_it() {
    let script = format!("{WHOLE_RUN}del 62\ndel 63\nleaves\ndel 61\nleaves\n");
    let answers = format!(
        "{WHOLE_RUN_ANSWERS}old 02\nold 03\nleaf - 62 0 1\nleaf 62 * 0 0\nold 01\nleaf - * 0 0\n"
    );
    check(&script, &answers);
}

#[test]
fn a10_taken_pairs_regain_the_prefix() {
    check(
        "new 3 4 64
put 6160 -
put 616161 01
put 6163 -
put 6164 -
leaves
del 6160
leaves
next -
get 616161
",
        "new
none
none
none
none
leaf - 6161 0 1
leaf 6161 6163 1 1
leaf 6163 * 0 2
old -
leaf - 6163 0 1
leaf 6163 * 0 2
pair 616161 01
value 01
",
    );
}

#[test]
fn answers_of_each_kind() {
    check(
        "new 3 1 0
put - -
put - 00
get -
get 00
next -
put ff 01
next -
next ff
del 00
new 64 4096 1048576
leaves
",
        "new
none
old -
value 00
none
end
none
pair ff 01
end
none
new
leaf - * 0 0
",
    );
}

#[test]
fn bad_lines() {
    let bad = "
 \nnew\nnew 3 1\nnew 03 1 1\nnew 3 1 -1\nnew 3 1 1234567890\nnew 3 1 1 \nnew  3 1 1
put 61\nput  61 62\nput 6 61\nput 6A 61\nput 61 \nput 61 62 63\nput -- -
get\nget 61\r\nGet 61\nleaves \nleaves -\nfirst
";
    let answers = "bad line\n".repeat(bad.lines().count());
    check(&format!("new 3 1 1\n{bad}"), &format!("new\n{answers}"));
    check("get 61\nleaves\n", "bad line\nbad line\n");
    check("", "");
}

#[test]
fn longest_line() {
    let key = "00".repeat(2045);
    let script = format!("new 3 1 1\nput {key} -\nput {key} 00\n");
    assert_eq!(script.lines().map(str::len).max(), Some(4097));
    check(&script, "new\nnone\nbad line\n");
}

#[test]
fn unsupported_fanout_keeps_the_tree() {
    check(
        "new 9 1 1\nget 61\nnew 3 1 1\nput 61 62\nnew 65 1 1\nget 61\n",
        "unsupported fanout\nbad line\nnew\nnone\nunsupported fanout\nvalue 62\n",
    );
}
