//! Request #108: the largest chip, 255 segments of 255 slots, and segments whose counts of live, dead
//! and written slots are 255, the most that a byte holds.

use crate::conditions::by_the_reference;
use crate::harness::{put_of, Store};
use crate::images::{blank, full_ring, rewrite_in_turn, with_statuses, write_header};
use crate::reference::*;
use crate::sequences::{table_of, Table};

const LARGEST: Geometry = Geometry { n: 255, b: 255 };

/// A block number that no image here has.
const ABSENT_BLOCK: u16 = 65_000;

/// What a plain table of so many blocks at most answers to a request, and what it is afterwards.
fn plain(mut table: Table, capacity: usize, request: &Request) -> (u8, Table) {
    let code = match request {
        Request::Put { block, .. } if !table.contains_key(block) && table.len() == capacity => FULL,
        Request::Put { block, contents } => {
            table.insert(*block, contents.clone());
            DONE
        }
        Request::Delete { block } if table.remove(block).is_none() => ABSENT,
        Request::Delete { .. } | Request::Recover => DONE,
        Request::Format => {
            table.clear();
            DONE
        }
    };
    (code, table)
}

/// Every request on a clean image, with its first block, its last, and one that it has not.
fn every_request(store: &Store, image: &[u8], g: Geometry) {
    let table = table_of(image, g).expect("clean");
    let stored = [table.keys().next(), table.keys().last()];
    let mut requests = vec![Request::Recover, Request::Format];
    for &block in stored.into_iter().flatten().chain([&ABSENT_BLOCK]) {
        requests.push(put_of(block, b"again"));
        requests.push(Request::Delete { block });
        let found = store.read(image, g, block).code == DONE;
        assert_eq!(found, table.contains_key(&block));
    }
    for request in requests {
        let mut after = image.to_vec();
        let reply = store.perform(&mut after, g, &request, UNLIMITED);
        let (code, expected) = plain(table.clone(), g.capacity(), &request);
        assert_eq!(reply.code, code, "{request:?}");
        assert!(table_of(&after, g) == Some(expected));
    }
}

/// A put, a delete and a read that all answer this.
fn refused(store: &Store, image: &[u8], g: Geometry, code: u8) {
    for request in [put_of(1, b"again"), Request::Delete { block: 1 }] {
        let reply = store.perform(&mut image.to_vec(), g, &request, UNLIMITED);
        assert_eq!(reply.code, code);
    }
    assert_eq!(store.read(image, g, 1).code, code);
}

#[test]
fn half_full_and_full() {
    let store = Store::new("the largest chip, half full and full");
    let g = LARGEST;
    let half = with_statuses(g, (0, 127), b"x", |place, slot| {
        if place == 127 && slot > 200 {
            0xFF
        } else {
            LIVE
        }
    });
    every_request(&store, &half, g);
    // At capacity: a new block answers 7, and a rewrite compacts first.
    every_request(&store, &full_ring(g, 253), g);
}

/// At capacity with the only dead slot last: every segment is copied and erased.
#[test]
fn the_longest_put() {
    let store = Store::new("the longest put");
    let g = LARGEST;
    let contents = [0xA5; MAX_LENGTH];
    let image = with_statuses(g, (1, 254), &contents, |place, slot| {
        if (place, slot) == (254, 255) {
            DEAD
        } else {
            LIVE
        }
    });
    let request = put_of(1, &contents);
    // 254 compactions, 64,769 slots copied, one written, its old one marked.
    let steps = 254 * 24 + 64_769 * 253 + 253 + 1;
    assert_eq!(steps, 16_392_907);
    let mut after = image.clone();
    assert_eq!(store.done(&mut after, g, &request), steps);
    let table = table_of(&image, g).expect("clean");
    assert!(table_of(&after, g).expect("clean") == table);
    for allowance in [65_535, 65_536, steps - 255, steps - 1] {
        let mut cut = image.clone();
        let reply = store.perform(&mut cut, g, &request, allowance);
        assert_eq!((reply.code, reply.steps), (CUT, allowance));
        store.done(&mut cut, g, &Request::Recover);
        assert!(table_of(&cut, g).expect("clean") == table);
    }
}

/// The power goes in a rewrite that compacts, into index 254 and into index 0.
#[test]
fn unfinished() {
    let store = Store::new("the largest chip, unfinished");
    let g = LARGEST;
    let compaction = 24 + 6 * 254;
    for top in [2 * 255 - 2, 2 * 255 - 1] {
        let image = full_ring(g, top);
        let old = table_of(&image, g).expect("clean");
        let request = rewrite_in_turn(&image, g);
        let (_, new) = plain(old.clone(), g.capacity(), &request);
        for (steps, letter, recovery) in [
            (1, 'a', 2),
            (8, 'a', 2),
            (9, 'a', 2),
            (compaction - 15, 'a', 2),
            (compaction - 11, 'a', 2),
            (compaction - 3, 'a', 2),
            (compaction - 2, 'b', 3),
            (compaction - 1, 'b', 1),
            (compaction + 1, 'c', 1),
            (compaction + 6, 'd', 1),
        ] {
            let mut cut = image.clone();
            let reply = store.perform(&mut cut, g, &request, steps);
            assert_eq!(reply.code, CUT);
            assert_eq!(by_the_reference(&cut, g), letter);
            refused(&store, &cut, g, UNFINISHED);
            assert_eq!(store.done(&mut cut, g, &Request::Recover), recovery);
            let shown = table_of(&cut, g).expect("a finished recovery is clean");
            assert!(shown == *if letter == 'd' { &new } else { &old });
        }
    }
}

#[test]
fn damaged() {
    let store = Store::new("the largest chip, damaged");
    let g = LARGEST;
    let ring = full_ring(g, 2 * 255);
    // Header bytes of the last index, a slot of it, its last byte; the blank segment in use too.
    let last = g.page(254, 0);
    for (at, value) in [
        (last + 7, 0xFE),
        (last + 16, 0xFF),
        (last + 16, 0xFE),
        (g.page(254, 255), 0xBF),
        (g.page(255, 0) - 1, 0xFE),
    ] {
        let mut image = ring.clone();
        image[at] = value;
        refused(&store, &image, g, DAMAGED);
        let reply = store.perform(&mut image, g, &Request::Recover, UNLIMITED);
        assert_eq!(reply.code, DAMAGED);
    }
    let mut image = ring;
    write_header(&mut image, g, 2 * 255 + 1, OPENED);
    refused(&store, &image, g, DAMAGED);
    store.done(&mut image, g, &Request::Format);
    assert_eq!(by_the_reference(&image, g), '-');
    refused(&store, &blank(g), g, DAMAGED);
}

#[test]
fn wrong_sizes() {
    let store = Store::new("the largest chip, wrong sizes");
    let mut image = full_ring(LARGEST, 253);
    // The first has the same length: 256 × 255 pages.
    for (n, b) in [
        (256, 254),
        (256, 255),
        (65, 255),
        (64, 255),
        (254, 255),
        (255, 254),
        (255, 256),
        (511, 255),
        (0, 255),
    ] {
        let g = Geometry { n, b };
        refused(&store, &image, g, SIZE);
        for request in [Request::Format, Request::Recover] {
            let reply = store.perform(&mut image, g, &request, UNLIMITED);
            assert_eq!(reply.code, SIZE);
        }
    }
    image.pop();
    refused(&store, &image, LARGEST, SIZE);
    image.extend([0xFF; 2]);
    refused(&store, &image, LARGEST, SIZE);
}

/// The status of a slot of a segment of 255.
type Fill = fn(usize) -> u8;

/// All live, all dead, and all but one.
const FILLS: [Fill; 6] = [
    |_| LIVE,
    |slot| if slot % 2 == 0 { DEAD } else { CUT_SLOT },
    |slot| if slot == 1 { DEAD } else { LIVE },
    |slot| if slot == 255 { DEAD } else { LIVE },
    |slot| if slot == 1 { LIVE } else { DEAD },
    |slot| if slot == 255 { LIVE } else { DEAD },
];

/// The segments filled so, from the oldest; then the same with the top's last slot empty.
fn try_fills(store: &Store, g: Geometry, oldest: u32, fills: &[Fill]) {
    for last in [255, 254] {
        let image = with_statuses(g, (oldest, fills.len()), b"x", |place, slot| {
            if place == fills.len() && slot > last {
                0xFF
            } else {
                fills[place - 1](slot)
            }
        });
        if last == 255
            && fills
                .iter()
                .all(|fill| (1..=255).all(|slot| fill(slot) == LIVE))
        {
            // One more than the capacity. With a block twice it is a rewrite before its last step.
            refused(store, &image, g, DAMAGED);
            let mut twice = image;
            let at = g.page(g.index(oldest + fills.len() as u32 - 1), 255);
            twice[at + 2..at + 4].copy_from_slice(&[1, 0]);
            assert_eq!(by_the_reference(&twice, g), 'd');
            assert_eq!(store.done(&mut twice, g, &Request::Recover), 1);
            every_request(store, &twice, g);
        } else {
            every_request(store, &image, g);
        }
    }
}

#[test]
fn segments_all_live_and_all_dead() {
    let store = Store::new("segments all live and all dead");
    for oldest in [0, 1] {
        for first in FILLS {
            try_fills(&store, Geometry { n: 2, b: 255 }, oldest, &[first]);
            for second in FILLS {
                let g = Geometry { n: 3, b: 255 };
                try_fills(&store, g, oldest, &[first, second]);
            }
        }
    }
}

#[test]
fn many_segments_all_live_and_all_dead() {
    let store = Store::new("255 segments all live and all dead");
    let [live, dead, first_dead, ..] = FILLS;
    try_fills(&store, LARGEST, 300, &[live; 254]);
    try_fills(&store, LARGEST, 300, &[dead; 254]);
    try_fills(&store, LARGEST, 300, &[live, dead].repeat(127));
    // All dead but for the oldest, the top and one between.
    let mut fills = [dead; 254];
    (fills[0], fills[100], fills[253]) = (live, live, first_dead);
    try_fills(&store, LARGEST, 300, &fills);
}
