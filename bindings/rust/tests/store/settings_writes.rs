//! Request #109: what a write does, written out byte by byte.

use crate::harness::Store;
use crate::reference::{CUT, DONE, UNLIMITED};
use crate::settings_harness::Board;
use crate::settings_reference::{steps_of, Step, STATUSES, UNWRITTEN};

/// Two items in partitions of seven bytes, of which the last belongs to none: 1 with two bytes and 7 with
/// one.
fn two_items(partitions: usize) -> Board {
    Board::new(partitions, &[1, 2, 7, 1])
}

const B: u8 = 0xFF;

fn program(at: usize, byte: u8) -> Step {
    Step::Program { at, byte }
}

/// The image after each allowance is the one before with so many steps of the list done. Then the image
/// after all of them.
fn goes(
    store: &Store,
    board: &Board,
    before: &[u8],
    item: u8,
    data: &[u8],
    list: &[Step],
) -> Vec<u8> {
    let layout = &board.layout;
    let told = steps_of(before, board.partitions, layout, item, data);
    assert_eq!(told.expect("a write that is taken"), list);
    let size = before.len() / board.partitions;
    let mut expected = before.to_vec();
    for allowance in 0..list.len() as u64 + 3 {
        let mut image = before.to_vec();
        let reply = board.write(store, &mut image, item, data, allowance);
        let whole = list.len() as u64;
        let code = if allowance < whole { CUT } else { DONE };
        assert_eq!((reply.code, reply.steps), (code, allowance.min(whole)));
        assert!(image == expected);
        match list.get(allowance as usize) {
            Some(&Step::Program { at, byte }) => expected[at] &= byte,
            Some(&Step::Erase { partition }) => expected[partition * size..][..size].fill(B),
            None => {}
        }
    }
    let mut image = before.to_vec();
    assert_eq!(board.done(store, &mut image, item, data), list.len() as u64);
    assert!(image == expected);
    image
}

#[test]
fn the_first_write() {
    let store = Store::new("the_first_write");
    let board = two_items(2);
    // All statuses 255 and nothing else erased: partition 0 is, and partition 1 is not touched.
    let before = [B, 1, 2, 3, 4, 5, 6, B, 1, 2, 3, 7, 5, 6];
    for item in [1, 7] {
        assert_eq!(board.read(&store, &before, item).code, UNWRITTEN);
    }
    let erase = Step::Erase { partition: 0 };
    let list = [
        erase,
        program(2, 30),
        program(3, B),
        program(1, 1),
        program(0, 0),
    ];
    let after = goes(&store, &board, &before, 1, &[30, B], &list);
    assert_eq!(after, [0, 1, 30, B, B, B, B, B, 1, 2, 3, 7, 5, 6]);
    let list = [erase, program(5, 40), program(4, 7), program(0, 0)];
    let after = goes(&store, &board, &before, 7, &[40], &list);
    assert_eq!(after, [0, B, B, B, 7, 40, B, B, 1, 2, 3, 7, 5, 6]);
}

#[test]
fn in_place() {
    let store = Store::new("in_place");
    let board = two_items(2);
    // The byte behind the items is no item's.
    let before = [9, 7, 7, 7, 7, 7, 7, 10, 1, 11, 12, B, B, 99];
    let list = [program(12, 21), program(11, 7)];
    let after = goes(&store, &board, &before, 7, &[21], &list);
    assert_eq!(after, [9, 7, 7, 7, 7, 7, 7, 10, 1, 11, 12, 7, 21, 99]);
    // Data of bytes 255 is data: a step each, and only the identifier shows.
    let after = goes(
        &store,
        &board,
        &before,
        7,
        &[B],
        &[program(12, B), program(11, 7)],
    );
    assert_eq!(after, [9, 7, 7, 7, 7, 7, 7, 10, 1, 11, 12, 7, B, 99]);
    let found = board.read(&store, &after, 7);
    assert_eq!((found.code, found.offset, found.length), (DONE, 12, 1));
    // After it the item is written: the same data once more goes to the next partition.
    let mut image = after;
    assert_eq!(board.done(&store, &mut image, 7, &[B]), 2 + 3 + 2);
    assert_eq!(image[..7], [11, 1, 11, 12, 7, B, B]);
}

#[test]
fn to_the_next_partition() {
    let store = Store::new("to_the_next_partition");
    let board = two_items(2);
    // The newest is partition 0, whose status is the last before 0.
    let before = [254, 1, 10, 11, 7, 20, 99, 253, 0, 0, 0, 0, 0, 0];
    let erase = Step::Erase { partition: 1 };
    let table_order = [
        program(9, 30),
        program(10, 31),
        program(8, 1),
        program(12, 20),
        program(11, 7),
    ];
    let list = [&[erase], &table_order[..], &[program(7, 0)]].concat();
    let after = goes(&store, &board, &before, 1, &[30, 31], &list);
    assert_eq!(after, [254, 1, 10, 11, 7, 20, 99, 0, 1, 30, 31, 7, 20, B]);
    // In table order too if the later item is the new one, whose old data is left behind.
    let table_order = [
        program(9, 10),
        program(10, 11),
        program(8, 1),
        program(12, 21),
        program(11, 7),
    ];
    let list = [&[erase], &table_order[..], &[program(7, 0)]].concat();
    let after = goes(&store, &board, &before, 7, &[21], &list);
    assert_eq!(after, [254, 1, 10, 11, 7, 20, 99, 0, 1, 10, 11, 7, 21, B]);
    // The last partition is followed by the first; one that is blank is erased all the same.
    let before = [B, B, B, B, B, B, B, 5, B, B, B, 7, 20, 99];
    let erase = Step::Erase { partition: 0 };
    let list = [erase, program(5, 21), program(4, 7), program(0, 6)];
    let after = goes(&store, &board, &before, 7, &[21], &list);
    assert_eq!(after, [6, B, B, B, 7, 21, B, 5, B, B, B, 7, 20, 99]);
}

#[test]
fn what_is_not_written() {
    let store = Store::new("what_is_not_written");
    let board = two_items(2);
    let erase = Step::Erase { partition: 1 };
    // Item 7 half written, and where item 1's identifier should be another byte: neither reads, neither is
    // carried along, and neither can be written in place.
    let before = [4, 2, 10, 11, B, 20, B, B, B, B, B, B, B, B];
    for item in [1, 7] {
        assert_eq!(board.read(&store, &before, item).code, UNWRITTEN);
    }
    let list = [erase, program(12, 21), program(11, 7), program(7, 5)];
    goes(&store, &board, &before, 7, &[21], &list);
    let list = [
        erase,
        program(9, 30),
        program(10, 31),
        program(8, 1),
        program(7, 5),
    ];
    goes(&store, &board, &before, 1, &[30, 31], &list);
    // Half an item is half at its last byte too, and so is one with data 255 and somebody else's identifier.
    for item_1 in [[B, B, 0], [B, 0, B], [7, B, B], [0, B, B], [254, B, B]] {
        let mut before = before;
        before[1..4].copy_from_slice(&item_1);
        goes(&store, &board, &before, 1, &[30, 31], &list);
    }
    // With its identifier alone an item is written, whatever its data: it is carried along.
    let before = [4, 1, B, B, B, 20, B, B, B, B, B, B, B, B];
    let found = board.read(&store, &before, 1);
    assert_eq!((found.code, found.offset, found.length), (DONE, 2, 2));
    let list = [
        erase,
        program(9, B),
        program(10, B),
        program(8, 1),
        program(12, 21),
        program(11, 7),
        program(7, 5),
    ];
    goes(&store, &board, &before, 7, &[21], &list);
}

#[test]
fn four_partitions() {
    let store = Store::new("four_partitions");
    let board = Board::new(4, &[7, 1]);
    // A full ring whose newest is in its middle: the first of the run goes, and the run is three, then four.
    let mut image = [6, 7, 1, 7, 7, 2, 4, 7, 3, 5, 7, 4];
    let found = board.read(&store, &image, 7);
    assert_eq!((found.offset, found.length), (5, 1));
    let reply = board.write(&store, &mut image, 7, &[9], 3);
    assert_eq!((reply.code, reply.steps), (CUT, 3));
    assert_eq!(image, [6, 7, 1, 7, 7, 2, B, 7, 9, 5, 7, 4]);
    assert_eq!(board.read(&store, &image, 7).offset, 5);
    assert_eq!(board.done(&store, &mut image, 7, &[9]), 4);
    assert_eq!(image, [6, 7, 1, 7, 7, 2, 8, 7, 9, 5, 7, 4]);
    assert_eq!(board.read(&store, &image, 7).offset, 8);
    // Two runs, and a gap in one: refused, with no byte changed.
    for statuses in [
        [3, B, 7, B],
        [3, B, 5, 6],
        [1, 2, 4, 5],
        [4, 3, 2, 1],
        [5, 5, B, B],
        [254, B, 0, B],
    ] {
        let mut image: Vec<u8> = statuses.iter().flat_map(|&s| [s, 7, 1]).collect();
        assert_eq!(board.read(&store, &image, 7).code, STATUSES);
        let reply = board.write(&store, &mut image, 7, &[9], UNLIMITED);
        assert_eq!((reply.code, reply.steps), (STATUSES, 0));
    }
}
