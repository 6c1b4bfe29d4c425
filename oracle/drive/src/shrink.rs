//! A smaller list that still shows a difference.

/// Leaves out parts, large ones first, as long as the rest still differs.
pub fn shrink<T: Clone>(list: Vec<T>, differs: impl Fn(&[T]) -> bool) -> Vec<T> {
    let mut list = list;
    let mut size = list.len();
    while size > 0 {
        let before = list.len();
        let mut from = 0;
        while from < list.len() {
            let to = list.len().min(from + size);
            let fewer = [&list[..from], &list[to..]].concat();
            if differs(&fewer) {
                list = fewer;
            } else {
                from = to;
            }
        }
        // Single items are tried until none can be left out.
        if size > 1 || list.len() == before {
            size /= 2;
        }
    }
    list
}
