//! The assertions of `checks` bite: a wrong leaf list for each that does not
//! follow from the others.

mod support;

use reference::checks::{leaf_list, same_pairs, split};
use reference::leaves::{Leaf, Leaves};
use std::panic::catch_unwind;
use support::{h, with_keys};

/// Leaves (-,62){61} (62,6264){6261} (6264,*){63,64} of numbers 0, 1, 2.
fn good() -> Leaves {
    let leaf = |number, low, keys: &[&str]| Leaf {
        number,
        low: h(low),
        pairs: keys.iter().map(|key| (h(key), vec![])).collect(),
    };
    let list = vec![
        leaf(0, "-", &["61"]),
        leaf(1, "62", &["6261"]),
        leaf(2, "6264", &["63", "64"]),
    ];
    Leaves { fanout: 3, list }
}

type Edit = fn(&mut Leaves);

/// The message of the assertion that fails after the edit, or "" if none does.
fn failure(edit: Edit, check: fn(&Leaves)) -> String {
    let mut leaves = good();
    edit(&mut leaves);
    let Err(panic) = catch_unwind(|| check(&leaves)) else {
        return String::new();
    };
    match panic.downcast_ref::<String>() {
        Some(message) => message.clone(),
        None => panic.downcast_ref::<&str>().unwrap().to_string(),
    }
}

#[test]
fn leaf_lists() {
    let rows: [(Edit, &str); 11] = [
        (|_| (), ""),
        (|it| it.list[0].low = h("60"), "the first low key is empty"),
        (|it| it.list[2].low = h("62"), "low keys rise strictly"),
        (|it| it.list[1].pairs[0].0 = h("61"), "low key <= key"),
        (|it| it.list[1].pairs[0].0 = h("6264"), "key < upper key"),
        (|it| it.list[2].pairs[0].0 = h("64"), "keys rise strictly"),
        (|it| it.fanout = 2, "at most F - 1 pairs"),
        (|it| it.list[0].pairs.clear(), "only the last empty"),
        (|it| it.list[2].number = 1, "distinct pool numbers"),
        (|it| it.list[2].number = 3, "in the pool"),
        (
            |it| it.list[2].pairs[0].1 = vec![0; 3],
            "charge within the arena",
        ),
    ];
    for (edit, message) in rows {
        assert_eq!(failure(edit, |leaves| leaf_list(leaves, 3, 10)), message);
    }
}

#[test]
fn pairs_of_the_map() {
    let check = |leaves: &Leaves| {
        let pairs = good().list.into_iter().flat_map(|leaf| leaf.pairs);
        same_pairs(leaves, &pairs.collect());
    };
    let message = "the pairs are the map's";
    assert_eq!(failure(|_| (), check), "");
    assert_eq!(failure(|it| it.list[0].pairs.clear(), check), message);
    assert_eq!(failure(|it| it.list[0].pairs[0].1.push(1), check), message);
}

/// The last leaf of the good list came by a split of (62,*){6261,63}.
fn split_of_the_last(after: &Leaves) {
    let mut before = good();
    before.list.pop();
    before.list[1].pairs.push((h("63"), vec![]));
    split(&before, after);
}

#[test]
fn splits() {
    let rows: [(Edit, &str); 8] = [
        (|it| it.list[2].low = h("63"), ""),
        (|it| it.list[0].number = 5, "leaves before"),
        (|it| it.list[1].number = 5, "keeps its number"),
        (|it| it.list[1].pairs.clear(), "the left half is nonempty"),
        (|it| it.list[2].pairs.clear(), "the right half is nonempty"),
        (|it| it.list[2].low = h("6261"), "above all left"),
        (|it| it.list[2].low = h("6301"), "above no right"),
        (|it| it.list[2].low = h("6262"), "no shorter string divides"),
    ];
    for (edit, message) in rows {
        let found = failure(edit, split_of_the_last);
        assert!(
            found.contains(message) && found.is_empty() == message.is_empty(),
            "{found}"
        );
    }
}

#[test]
fn split_before_another_leaf() {
    let before = with_keys(3, 4, 64, &["61", "62", "63"]).leaves().clone();
    let mut after = before.clone();
    after.insert(&h("60"), &[]);
    after.insert(&h("6180"), &[]);
    split(&before, &after);
    after.list[2].number = 3;
    assert!(catch_unwind(|| split(&before, &after)).is_err());
}

#[test]
fn separator_as_short_but_not_the_largest() {
    let before = with_keys(3, 4, 64, &["61", "63"]).leaves().clone();
    let mut after = with_keys(3, 4, 64, &["61", "63", "64"]).leaves().clone();
    split(&before, &after);
    after.list[1].low = h("62");
    assert!(catch_unwind(|| split(&before, &after)).is_err());
}
