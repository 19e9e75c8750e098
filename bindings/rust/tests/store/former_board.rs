//! Request #104: a board as they are in the field, `tests/data/version1.img`, N=4 and B=15. The
//! proved library wrote it as it was just before this request, through this binding, by the
//! requests in [`history`].

use crate::harness::{put_of, Store};
use crate::heads::{head, set_total};
use crate::images::{blank, formatted};
use crate::reference::*;
use crate::sequences::{table_of, Table};
use crate::step_lists::every_allowance;

pub const G: Geometry = Geometry { n: 4, b: 15 };

pub static BOARD: &[u8] = include_bytes!("../data/version1.img");

/// The requests that made the board, with their allowances: five tenants write their records twelve
/// times, a rewrite loses its power four steps after a compaction and is recovered, a new block is
/// put and one deleted.
fn history() -> Vec<(Request, u64)> {
    let mut requests = vec![(Request::Format, UNLIMITED)];
    for turn in 1..=12 {
        for tenant in [1, 7, 12, 31, 40] {
            let contents = format!("tenant {tenant}, turn {turn}");
            requests.push((put_of(tenant, contents.as_bytes()), UNLIMITED));
        }
    }
    requests.extend([
        (put_of(7, b"cut"), 20 + 4),
        (Request::Recover, UNLIMITED),
        (put_of(65_534, b"the last block"), UNLIMITED),
        (Request::Delete { block: 12 }, UNLIMITED),
    ]);
    requests
}

/// What the board holds.
pub fn records() -> Table {
    let mut records = Table::new();
    for tenant in [1, 7, 31, 40] {
        records.insert(tenant, format!("tenant {tenant}, turn 12").into_bytes());
    }
    records.insert(65_534, b"the last block".to_vec());
    records
}

/// The reference's former rules write the same bytes: they may stand for that library.
#[test]
fn former_rules_make_the_same_board() {
    let mut image = blank(G);
    for (request, allowance) in history() {
        let reply = perform_by(Rules::Former, &mut image, G, &request, allowance);
        let code = if allowance == UNLIMITED { DONE } else { CUT };
        assert_eq!(reply.code, code);
    }
    assert!(image == BOARD);
    // Opened, compacted twice, past the last index; the segment after the top is blank.
    let starts = [0, 1, 2, 3].map(|index| &BOARD[G.page(index, 0)..][..17]);
    assert_eq!(&starts[0][..9], b"SLT\x01\x00\x8F\x0F\x04\x04");
    assert_eq!(starts[1], [0xFF; 17]);
    assert_eq!(&starts[2][..9], b"SLT\x01\x00\x3F\x0F\x04\x02");
    assert_eq!(&starts[3][..9], b"SLT\x01\x00\x8F\x0F\x04\x03");
}

#[test]
fn it_is_read_and_deleted_from() {
    let store = Store::new("the board of version 1");
    let mut image = BOARD.to_vec();
    assert_eq!(store.done(&mut image, G, &Request::Recover), 0);
    assert!(table_of(&image, G) == Some(records()));
    for block in (0..100).chain(65_500..=65_535) {
        let read = store.read(&image, G, block);
        match records().get(&block) {
            Some(contents) => {
                assert_eq!(read.code, DONE);
                assert_eq!(image[read.offset..][..read.length], contents[..]);
            }
            None if block == 0 || block == 65_535 => assert_eq!(read.code, NUMBER),
            None => assert_eq!(read.code, ABSENT),
        }
    }
    let mut left = records();
    for block in [31, 12, 65_534, 1, 40, 7, 7] {
        let request = Request::Delete { block };
        every_allowance(&store, &image, G, &request);
        let reply = store.perform(&mut image, G, &request, UNLIMITED);
        let stored = left.remove(&block).is_some();
        assert_eq!(reply.code, if stored { DONE } else { ABSENT });
        assert!(table_of(&image, G) == Some(left.clone()));
    }
}

#[test]
fn it_is_not_put_to() {
    let store = Store::new("puts on the board of version 1");
    let mut image = BOARD.to_vec();
    for block in [1, 12, 60_000, 65_534] {
        for allowance in [0, 1, UNLIMITED] {
            let reply = store.perform(&mut image, G, &put_of(block, b"new"), allowance);
            let code = FORMER_VERSION;
            assert_eq!(reply, Reply { code, steps: 0 });
        }
    }
    assert!(image == BOARD);
}

/// A format makes version 2, and the records can be put there.
#[test]
fn it_is_formatted() {
    let store = Store::new("format of the board of version 1");
    every_allowance(&store, BOARD, G, &Request::Format);
    let mut image = BOARD.to_vec();
    assert_eq!(store.done(&mut image, G, &Request::Format), 4 + 21);
    assert!(image == formatted(G));
    for (block, contents) in records() {
        store.done(&mut image, G, &Request::Put { block, contents });
    }
    assert!(table_of(&image, G) == Some(records()));
}

/// With another version in one header the board is damaged; with it in all, it takes puts.
#[test]
fn its_headers_one_after_the_other_in_version_2() {
    let store = Store::new("the board's headers in version 2");
    let mut image = BOARD.to_vec();
    for (number, code) in [(3, DAMAGED), (2, DAMAGED), (4, DONE)] {
        head(&mut image, G, number)[3] = 2;
        set_total(&mut image, G, number, 0);
        let reply = store.perform(&mut image.clone(), G, &put_of(1, b"new"), UNLIMITED);
        assert_eq!(reply.code, code);
        assert_eq!(store.read(&image, G, 31).code, code);
    }
}
