//! The worked dump of docs/LAYOUT.md: document 01's run, laid end to end.

use reference::buffers::Header;
use reference::{layout, w};

#[test]
fn the_dump_holds_the_runs_leaf_list() {
    let header = Header {
        fanout: 3,
        leaves: 2,
        pairs: 3,
        charge: 7,
    };
    let dir = [0x0000_0001, 0x0010_0002, 0, 0];
    let mut slots = [0u64; 12];
    slots[0] = 0x0000_0000_0100_0001;
    slots[3] = 0x0000_0030_0100_0001;
    slots[4] = 0x0000_0050_0100_0001;
    slots[5] = 0x0000_0020_0100_0000;
    let mut arena = [0u8; 64];
    arena[..7].copy_from_slice(&[0x61, 0x01, 0x62, 0x62, 0x02, 0x63, 0x03]);
    assert_eq!(w::first_broken(&header, &dir, &slots, &arena), None);
    let leaves = layout::read(&header, &dir, &slots, &arena).unwrap();
    let shown: Vec<_> = leaves
        .list
        .iter()
        .map(|leaf| (leaf.number, leaf.low.clone(), leaf.pairs.clone()))
        .collect();
    let pair = |key: u8, value: u8| (vec![key], vec![value]);
    assert_eq!(
        shown,
        [
            (0, vec![], vec![pair(0x61, 1)]),
            (1, vec![0x62], vec![pair(0x62, 2), pair(0x63, 3)]),
        ]
    );
}
