//! Request #106: what comes after a move. The target is a store like any other, to which demands 2 and
//! 3 apply as from a format, with the blocks carried over stored at its start; and the boards that a
//! move is meant for: of version 1, worn, with empty records, and the largest.

use crate::cuts;
use crate::former_board;
use crate::harness::{put_of, Store};
use crate::heads::{head, leave_last, set_total, Heads};
use crate::images::{full_ring, with_empty_records, with_statuses};
use crate::mounted_harness::Board;
use crate::moving_harness::{any_target, Move};
use crate::moving_reference::{length, Entries};
use crate::moving_sources::{any_request, laid_out, short_entries};
use crate::prng::Rng;
use crate::reference::*;
use crate::sequences::{sequence_from, table_of, HABITS};

const CHIPS: [(usize, usize); 7] = [(2, 2), (2, 5), (3, 2), (4, 3), (5, 4), (4, 15), (9, 2)];

/// So many blocks: every second has a small number, which the requests of a sequence are about, and
/// the others have large ones and stay as they are.
fn mixed_entries(rng: &mut Rng, count: usize) -> Entries {
    let number = |i: u16| if i % 2 == 0 { i + 1 } else { 65_535 - i };
    let mut numbers: Vec<u16> = (0..count as u16).map(number).collect();
    numbers.sort();
    let contents = short_entries(rng, count).into_iter().map(|entry| entry.1);
    numbers.into_iter().zip(contents).collect()
}

/// A chip with these blocks, fresh from a move.
fn moved(store: &Store, rng: &mut Rng, to: Geometry, entries: &Entries) -> Vec<u8> {
    let g = Geometry { n: 9, b: 6 };
    let heads = rng.pick(&[Heads::Former, Heads::Early, Heads::Any]);
    let source = laid_out(rng, g, entries, heads);
    let target = any_target(rng, to);
    let this = Move {
        source: &source,
        g,
        target: &target,
        to,
    };
    this.done(store)
}

/// The plain table, the erase bound and the balance.
#[test]
fn sequences() {
    let store = Store::new("sequences after a move");
    let mut rng = Rng::new(0x106B);
    for (n, b) in CHIPS {
        let to = Geometry { n, b };
        for habit in HABITS {
            for count in [0, to.capacity() / 2, to.capacity()] {
                let entries = mixed_entries(&mut rng, count);
                let image = moved(&store, &mut rng, to, &entries);
                let start = (image, entries.into_iter().collect());
                sequence_from(&store, &mut rng, to, start, habit, 150);
            }
        }
    }
}

/// With cuts anywhere: each recovery shows the table of before the request or of after it.
#[test]
fn cuts_after_a_move() {
    let store = Store::new("cuts after a move");
    let mut rng = Rng::new(0x106C);
    for (n, b) in CHIPS {
        let to = Geometry { n, b };
        let entries = mixed_entries(&mut rng, to.capacity());
        let blocks: Vec<u16> = entries.iter().map(|entry| entry.0).collect();
        let mut image = moved(&store, &mut rng, to, &entries);
        for _ in 0..200 {
            let old = table_of(&image, to).expect("clean");
            let request = any_request(&mut rng, &blocks);
            let (_, list) = steps_of(&image, to, &request);
            let mut after = image.clone();
            perform(&mut after, to, &request, UNLIMITED);
            let allowance = rng.between(0, list.len());
            let reply = store.perform(&mut image, to, &request, allowance as u64);
            if reply.code == CUT && rng.once_in(2) {
                cuts::inside(&mut rng, to, &mut image, list[allowance]);
            }
            store.done(&mut image, to, &Request::Recover);
            let shown = table_of(&image, to).expect("clean");
            let is_old = reply.code == CUT && shown == old;
            assert!(is_old || Some(shown) == table_of(&after, to));
        }
    }
}

/// The target is mounted, and its account lists the blocks slot by slot.
#[test]
fn mounted_and_listed() {
    let store = Store::new("mounts and accounts after a move");
    let mut rng = Rng::new(0x106D);
    for (n, b) in CHIPS {
        let to = Geometry { n, b };
        let entries = mixed_entries(&mut rng, to.capacity());
        let blocks: Vec<u16> = entries.iter().map(|entry| entry.0).collect();
        let image = moved(&store, &mut rng, to, &entries);
        let text = store.account(&image, to);
        for (i, (block, contents)) in entries.iter().enumerate() {
            let (length, seg, slot) = (contents.len(), i / b, 1 + i % b);
            let line = format!("block {block} len {length} seg {seg} slot {slot}");
            assert_eq!(text.lines().nth(n + i), Some(&line[..]));
        }
        assert_eq!(text.lines().count(), n + entries.len() + 1);

        let mut board = Board::new(&store, to, image);
        for _ in 0..60 {
            let request = any_request(&mut rng, &blocks);
            board.perform(&store, &request, UNLIMITED);
            board.read(&store, rng.pick(&blocks));
        }
    }
}

/// The board of version 1 in the field: a chip for just its five blocks, a smaller one, and its own
/// geometry, where it can be put to again.
#[test]
fn the_board_of_version_1() {
    let store = Store::new("moves of the board of version 1");
    let (g, source) = (former_board::G, former_board::BOARD);
    let records = former_board::records();
    let bytes: usize = records.values().map(|contents| contents.len()).sum();
    assert_eq!(records.len(), 5);
    for (to, code) in [
        (Geometry { n: 2, b: 5 }, FULL),
        (Geometry { n: 2, b: 6 }, DONE),
        (Geometry { n: 4, b: 2 }, DONE),
        (Geometry { n: 16, b: 255 }, DONE),
        (g, DONE),
    ] {
        let target = vec![0; to.n * to.segment_len()];
        let this = Move {
            source,
            g,
            target: &target,
            to,
        };
        if code == FULL {
            this.refused(&store, FULL);
            continue;
        }
        let mut image = this.done(&store);
        let openings = 5usize.div_ceil(to.b);
        let steps = (to.n + 21 * openings + 5 * 5 + bytes) as u64;
        assert_eq!(this.make(&store, steps).0, Reply { code, steps });
        assert!(table_of(&image, to).as_ref() == Some(&records));
        store.done(&mut image, to, &put_of(7, b"moved"));
        assert_eq!(store.read(&image, to, 31).code, DONE);
    }
}

/// Empty records are carried, and are there to be read, rewritten and deleted.
#[test]
fn empty_records() {
    let store = Store::new("moves of empty records");
    for (n, b) in CHIPS {
        let g = Geometry { n, b };
        let last = g.capacity() as u16;
        let source = with_empty_records(g, 1..=last);
        for to in [
            g,
            Geometry {
                n: b.max(3),
                b: n + 2,
            },
        ] {
            let target = vec![0; to.n * to.segment_len()];
            let this = Move {
                source: &source,
                g,
                target: &target,
                to,
            };
            if to.capacity() < g.capacity() {
                this.refused(&store, FULL);
                continue;
            }
            let mut image = this.done(&store);
            for block in 1..=last {
                let read = store.read(&image, to, block);
                assert_eq!((read.code, read.length), (DONE, 0));
            }
            store.done(&mut image, to, &put_of(1, b"an owner"));
            if last > 1 {
                store.done(&mut image, to, &Request::Delete { block: last });
            }
        }
    }
}

/// Chips that are worn by their numbers, by the sum or for want of a bit: a fresh one takes puts, and
/// its tally is 0.
#[test]
fn worn_chips() {
    let store = Store::new("moves of worn chips");
    for (n, b) in CHIPS.into_iter().filter(|&(n, _)| n > 2) {
        let g = Geometry { n, b };
        let top = 3 * n as u32;
        let by_number = full_ring(g, g.wear_limit() - 1);
        let (mut by_sum, mut by_bits) = (full_ring(g, top), full_ring(g, top));
        set_total(&mut by_sum, g, top, 99_999);
        leave_last(&mut by_bits, g, top, 0);
        for source in [by_number, by_sum, by_bits] {
            let request = put_of(2, b"y");
            let reply = store.perform(&mut source.clone(), g, &request, UNLIMITED);
            assert_eq!(reply.code, WORN);
            let this = Move {
                source: &source,
                g,
                target: &source,
                to: g,
            };
            let mut image = this.done(&store);
            let header = head(&mut image, g, 0);
            assert!(header[TOTAL] == [0; 4] && header[21..].iter().all(|&byte| byte == 0xFF));
            store.done(&mut image, g, &request);
        }
    }
}

/// As many blocks as there may be, in any order; cut at the ends of the list, and a chip with a slot
/// less in each segment.
#[test]
fn the_largest_chip() {
    let store = Store::new("moves of the largest chip");
    let mut rng = Rng::new(0x106E);
    let g = Geometry { n: 255, b: 255 };
    let entries = short_entries(&mut rng, g.capacity());
    let source = laid_out(&mut rng, g, &entries, Heads::Early);
    let target = vec![0; source.len()];
    let this = Move {
        source: &source,
        g,
        target: &target,
        to: g,
    };
    let steps = length(g, &entries);
    this.done(&store);
    for allowance in [254, 276, steps - 1] {
        let (reply, _) = this.make(&store, allowance);
        assert_eq!((reply.code, reply.steps), (CUT, allowance));
    }
    let to = Geometry { n: 255, b: 254 };
    let target = &target[..to.n * to.segment_len()];
    let full = Move { target, to, ..this };
    assert_eq!(full.make(&store, UNLIMITED).0.code, FULL);
}

/// The most steps that a move can take.
#[test]
fn the_longest_move() {
    let store = Store::new("the longest move");
    let g = Geometry { n: 255, b: 255 };
    let contents = [0xA5; MAX_LENGTH];
    let source = with_statuses(g, (300, 254), &contents, |place, slot| {
        if (place, slot) == (100, 7) {
            DEAD
        } else {
            LIVE
        }
    });
    let target = vec![0; source.len()];
    let this = Move {
        source: &source,
        g,
        target: &target,
        to: g,
    };
    let steps = 255 + 254 * 21 + 64_769 * 253;
    assert_eq!(steps, 16_392_146);
    assert_eq!(this.make(&store, steps).0, Reply { code: DONE, steps });
}
