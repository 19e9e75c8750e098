//! Request #102: mounts of images in every state, tables of any length, the value of entry 0, and the
//! order of the answers.

use crate::conditions::by_the_reference;
use crate::harness::{put_of, Store};
use crate::images::{self, blank, formatted};
use crate::mounted_harness::{any_table, Board};
use crate::mounted_reference::{in_step, PLACES};
use crate::prng::Rng;
use crate::reference::*;
use std::collections::BTreeMap;
use std::io::Write;

const SMALL: Geometry = Geometry { n: 3, b: 2 };

/// The lengths of tables that are too short, and long enough.
const SHORT: [usize; 3] = [0, 1, PLACES - 1];
const ENOUGH: [usize; 3] = [PLACES, PLACES + 1, 70_000];

/// An image that is clean, one that is unfinished, one that is damaged and one of a wrong size, with
/// what a mount answers.
fn each_kind() -> [(Vec<u8>, u8); 4] {
    let g = SMALL;
    let mut clean = formatted(g);
    for block in [7, 8, 9, 7, 8, 7] {
        put(&mut clean, g, block, b"x", UNLIMITED);
    }
    let mut unfinished = clean.clone();
    assert_eq!(put(&mut unfinished, g, 9, b"y", 3).code, CUT);
    let mut wrong_size = clean.clone();
    wrong_size.pop();
    [
        (clean, DONE),
        (unfinished, UNFINISHED),
        (blank(g), DAMAGED),
        (wrong_size, SIZE),
    ]
}

#[test]
fn lengths() {
    let store = Store::new("mounts with tables of any length");
    for (image, code) in each_kind() {
        for length in SHORT {
            let mut board = Board::unmounted(SMALL, image.clone(), any_table(length));
            let short = if code == SIZE { SIZE } else { SHORT_TABLE };
            assert_eq!(board.mount(&store), short);
            assert!(board.table == any_table(length));
        }
        for length in ENOUGH {
            let before = any_table(length);
            let mut board = Board::unmounted(SMALL, image.clone(), before.clone());
            assert_eq!(board.mount(&store), code);
            assert!(board.table[PLACES..] == before[PLACES..]);
            match code {
                DONE => {
                    assert!(in_step(board.lent()));
                    assert_eq!((board.table[0], board.table[65_535]), (1, 0));
                    let live = board.table[1..PLACES].iter().filter(|&&entry| entry != 0);
                    assert_eq!(live.count(), 3);
                    board.done(&store, &put_of(7, b"on"));
                }
                SIZE => assert!(board.table == before),
                _ => assert_eq!(board.table[0], 0),
            }
        }
    }
}

/// A refused mount after one that was done: 1 and 10 leave the table usable, 4 and 5 don't.
#[test]
fn after_another_mount() {
    let store = Store::new("mounts of a table that was in use");
    let [(clean, _), others @ ..] = each_kind();
    for (image, code) in others {
        let mut board = Board::new(&store, SMALL, clean.clone());
        if code == SIZE {
            let (image, table) = (image.clone(), board.table.clone());
            board = Board::unmounted(SMALL, image, table);
        } else {
            board.write_image(&image);
        }
        assert_eq!(board.mount(&store), code);
        assert_eq!(board.table[0], u32::from(code == SIZE));
    }
    // With a new image the entries of the old one are gone.
    let mut board = Board::new(&store, SMALL, clean);
    board.write_image(&formatted(SMALL));
    assert_eq!(board.mount(&store), DONE);
    assert!(board.table[1..PLACES].iter().all(|&entry| entry == 0));
    assert_eq!(board.read(&store, 7).code, ABSENT);
}

/// Images of any fill, age and version, disturbed or not: a mount answers by their state.
#[test]
fn every_state() {
    let store = Store::new("mounts of images in every state");
    let mut rng = Rng::new(0x1028);
    let mut seen = BTreeMap::<char, usize>::new();
    for (n, b, images) in [
        (2, 2, 1_500),
        (3, 2, 1_500),
        (3, 4, 1_000),
        (4, 15, 600),
        (9, 2, 400),
        (255, 2, 60),
        (2, 255, 30),
        (16, 255, 3),
        (255, 255, 1),
    ] {
        let g = Geometry { n, b };
        for _ in 0..images {
            let shape = images::shape(&mut rng, g);
            let mut image = images::clean(&mut rng, g, shape);
            for _ in 0..rng.pick(&[0, 1, 1, 1, 2, 3]) {
                images::disturb(&mut rng, g, &mut image);
            }
            let state = by_the_reference(&image, g);
            *seen.entry(state).or_default() += 1;
            let mut board = Board::unmounted(g, image, any_table(PLACES + 3));
            let code = board.mount(&store);
            let by_state = match state {
                '-' => DONE,
                'a'..='d' => UNFINISHED,
                _ => DAMAGED,
            };
            assert_eq!(code, by_state);
            if code == DONE {
                for block in [images::some_block(&mut rng, g, &board.image), 60_000] {
                    board.read(&store, block);
                    board.perform(&store, &Request::Delete { block }, UNLIMITED);
                    board.perform(&store, &put_of(block, b"new"), UNLIMITED);
                }
            } else {
                assert_eq!(board.read(&store, 1).code, UNFINISHED);
                let reply = board.perform(&store, &put_of(1, b"new"), UNLIMITED);
                assert_eq!(reply.code, UNFINISHED);
            }
        }
    }
    let _ = writeln!(
        std::io::stderr(),
        "mounts of images in every state: {seen:?}"
    );
    assert!("-abcd".chars().all(|state| seen[&state] > 50) && seen.len() == 6);
}

/// Wrong N, B or length: 1 before all else, and the table is left.
#[test]
fn wrong_sizes() {
    let store = Store::new("mounted calls with wrong sizes");
    let [(image, _), ..] = each_kind();
    let Geometry { n, b } = SMALL;
    let usable = Board::new(&store, SMALL, image.clone()).table;
    for (n, b) in [
        (0, b),
        (1, b),
        (n - 1, b),
        (n + 1, b),
        (256, b),
        (256 + n, b),
        (n, 0),
        (n, 1),
        (n, b + 1),
        (n, 256 + b),
        (n + (1 << 56), b),
        (n, b + (1 << 56)),
        (1 << 32, (1 << 32) - 1),
        (usize::MAX, usize::MAX),
    ] {
        for length in [0, PLACES - 1, PLACES] {
            let table = usable[..length].to_vec();
            let mut board = Board::unmounted(Geometry { n, b }, image.clone(), table);
            refused(&store, &mut board, SIZE);
        }
    }
    for length in [0, 1, 255, image.len() - 256, image.len() - 1] {
        let cut = image[..length].to_vec();
        refused(
            &store,
            &mut Board::unmounted(SMALL, cut, usable.clone()),
            SIZE,
        );
    }
    let longer = [&image[..], &[0xFF; 256]].concat();
    refused(&store, &mut Board::unmounted(SMALL, longer, usable), SIZE);
}

/// Every call with right and wrong arguments, a mount last: all answer this, and touch nothing.
fn refused(store: &Store, board: &mut Board, code: u8) {
    for (block, contents) in [(7, &b"new"[..]), (0, b"new"), (65_535, b""), (7, &[0; 249])] {
        for request in [put_of(block, contents), Request::Delete { block }] {
            let reply = board.perform(store, &request, UNLIMITED);
            assert_eq!(reply, Reply { code, steps: 0 });
        }
        let read = board.read(store, block);
        assert_eq!((read.code, read.offset, read.length), (code, 0, 0));
    }
    assert_eq!(board.mount(store), code);
}

/// 10 comes after 1, and before all else.
#[test]
fn short_tables() {
    let store = Store::new("mounted calls with short tables");
    let [images @ .., _] = each_kind();
    for (image, _) in images {
        for length in SHORT {
            for first in [0, 1] {
                let mut table = any_table(length);
                if let Some(entry) = table.first_mut() {
                    *entry = first;
                }
                let mut board = Board::unmounted(SMALL, image.clone(), table);
                refused(&store, &mut board, SHORT_TABLE);
            }
        }
    }
}

/// Entry 0 is looked at with all its bits: while it is not 1, calls answer 5, after 2 and 3, whatever
/// the image is; and nothing of the table changes.
#[test]
fn entry_zero() {
    let store = Store::new("mounted calls with any entry 0");
    let [(clean, _), others @ .., _] = each_kind();
    let usable = Board::new(&store, SMALL, clean.clone()).table;
    let mut values = vec![
        0,
        2,
        3,
        255,
        256,
        0x101,
        0x1_0001,
        0x0100_0001,
        u32::MAX - 1,
        u32::MAX,
    ];
    values.extend((1..32).map(|bit| 1 << bit));
    values.extend((1..32).map(|bit| 1 << bit | 1));
    for (image, made) in [(clean, DONE)].into_iter().chain(others) {
        for &value in &values {
            let mut table = usable.clone();
            table[0] = value;
            let mut board = Board::unmounted(SMALL, image.clone(), table);
            for (request, code) in [
                (put_of(7, b"new"), UNFINISHED),
                (put_of(60_000, b"new"), UNFINISHED),
                (Request::Delete { block: 7 }, UNFINISHED),
                (Request::Delete { block: 60_000 }, UNFINISHED),
                (put_of(0, b""), NUMBER),
                (put_of(7, b""), LENGTH),
                (Request::Delete { block: 65_535 }, NUMBER),
            ] {
                let reply = board.perform(&store, &request, 5);
                assert_eq!(reply, Reply { code, steps: 0 });
            }
            assert_eq!(board.read(&store, 7).code, UNFINISHED);
            assert_eq!(board.read(&store, 0).code, NUMBER);
            assert_eq!(board.table[0], value);
            if made == DONE {
                assert_eq!(board.mount(&store), DONE);
                assert_eq!(board.read(&store, 7).code, DONE);
            }
        }
    }
}
