//! Request #109: which P, images, layout tables, items and lengths of data are taken, and the order of the
//! answers.

use crate::harness::Store;
use crate::prng::Rng;
use crate::reference::{DONE, UNLIMITED};
use crate::settings_boards::{any_layout, POWERS};
use crate::settings_harness::Board;
use crate::settings_reference::*;

/// What a read and a write of this item answer, on an erased image. The two differ only in that nothing can
/// be read.
fn answer(store: &Store, board: &Board, length: usize, item: u8, data: &[u8]) -> u8 {
    let mut image = vec![BLANK; length];
    let read = board.read(store, &image, item).code;
    let code = board.write(store, &mut image, item, data, UNLIMITED).code;
    match code {
        DONE => assert_eq!(read, UNWRITTEN),
        MISMATCH => assert!([MISMATCH, UNWRITTEN].contains(&read)),
        code => assert_eq!(read, code),
    }
    code
}

#[test]
fn numbers_of_partitions() {
    let store = Store::new("numbers_of_partitions");
    let layout = [7, 1];
    // Numbers that only their lowest bits make right are wrong.
    let wide = [256, 257, 258, 260, 65_536 + 2, 65_536 + 4, (1 << 32) + 2];
    let huge = [1 << 62, 1 << 63, (1 << 63) + 2, usize::MAX - 1, usize::MAX];
    for partitions in (0..=255).chain(wide).chain(huge) {
        let board = Board::new(partitions, &layout);
        let is_right = POWERS.contains(&partitions);
        for length in [0, 1, 2, 5, 8, 384, 1_536, 3_840] {
            let code = answer(&store, &board, length, 7, b"x");
            let divides = is_right && length % partitions == 0;
            let fits = divides && length / partitions >= 3;
            let expected = match (divides, fits) {
                (false, _) => PARTITIONS,
                (true, false) => LAYOUT,
                (true, true) => DONE,
            };
            assert_eq!(code, expected, "{partitions} partitions, {length} bytes");
        }
    }
}

#[test]
fn lengths_of_images() {
    let store = Store::new("lengths_of_images");
    for partitions in POWERS {
        for length in 0..=3 * partitions + 3 {
            let divides = length % partitions == 0;
            // A table without items wants one byte for the status: none in an image of 0 bytes.
            let expected = match (divides, length / partitions) {
                (false, _) => PARTITIONS,
                (true, 0) => LAYOUT,
                (true, _) => MISMATCH,
            };
            let board = Board::new(partitions, &[]);
            assert_eq!(answer(&store, &board, length, 7, b"x"), expected);
            assert_eq!(answer(&store, &board, length, 7, b""), expected);
            let expected = match (divides, length / partitions) {
                (false, _) => PARTITIONS,
                (true, 0..=2) => LAYOUT,
                (true, _) => DONE,
            };
            let board = Board::new(partitions, &[7, 1]);
            assert_eq!(answer(&store, &board, length, 7, b"x"), expected);
        }
    }
}

/// Whether two partitions of this length take the layout.
fn takes(store: &Store, layout: &[u8], size: usize) -> bool {
    // An item that no table has.
    match answer(store, &Board::new(2, layout), 2 * size, 255, b"") {
        LAYOUT => false,
        code => {
            assert_eq!(code, MISMATCH);
            true
        }
    }
}

#[test]
fn the_rules_of_a_layout() {
    let store = Store::new("the_rules_of_a_layout");
    let taken = |layout: &[u8], size| takes(&store, layout, size);
    assert!(taken(&[], 1));
    for identifier in 0..=255 {
        for length in 0..=255 {
            let is_right = identifier != 255 && length != 0;
            let size = 2 + usize::from(length);
            assert_eq!(taken(&[identifier, length], size), is_right);
            assert!(!taken(&[identifier, length], size - 1));
        }
    }
    // A byte is left over, whatever it is and however much room there is.
    for byte in 0..=255 {
        assert!(!taken(&[byte], 100));
        assert!(!taken(&[1, 2, byte], 100));
        assert!(!taken(&[1, 2, 7, 1, byte], 100));
    }
    // Twice: next to each other, apart, with the same length or another; a length may come twice, and be
    // an identifier too.
    assert!(!taken(&[1, 2, 1, 2], 100));
    assert!(!taken(&[1, 2, 7, 1, 1, 3], 100));
    assert!(!taken(&[1, 2, 7, 1, 8, 1, 7, 1], 100));
    assert!(taken(&[1, 2, 2, 2, 3, 1], 100));
    assert!(taken(&[254, 254, 0, 254, 1, 255], 768));
}

#[test]
fn the_longest_layouts() {
    let store = Store::new("the_longest_layouts");
    // Every identifier with 255 bytes: 65,281 with the status, and offsets past 16 bits.
    let longest: Vec<u8> = (0..=254).flat_map(|identifier| [identifier, 255]).collect();
    assert!(takes(&store, &longest, 65_281));
    assert!(!takes(&store, &longest, 65_280));
    assert!(takes(&store, &longest, 70_000));
    let board = Board::new(2, &longest);
    let mut image = vec![BLANK; 2 * 65_281];
    let mut rng = Rng::new(109);
    for item in (0..=254).chain([0, 254]) {
        board.done(&store, &mut image, item, &rng.bytes(255));
    }
    assert_eq!(board.read(&store, &image, 254).offset, 65_281 - 255);
    let steps = board.done(&store, &mut image, 100, &rng.bytes(255));
    assert_eq!(steps, 2 + 255 * 256);
    // The 256th pair and any after it repeat an identifier, or have 255.
    for more in 0..=255 {
        let layout = [&longest[..], &[more, 1]].concat();
        assert!(!takes(&store, &layout, 100_000));
    }
    for pairs in [300, 511, 512, 513, 5_000] {
        let many = longest
            .iter()
            .copied()
            .cycle()
            .take(2 * pairs)
            .collect::<Vec<_>>();
        assert!(!takes(&store, &many, 100_000));
    }
    // Counts of bytes whose lowest 8 or 16 bits are those of a right table.
    for length in [256, 65_536, 65_536 + 2, 65_536 + 3, 131_072] {
        assert!(!takes(&store, &vec![1; length], 100_000));
    }
}

#[test]
fn random_layouts() {
    let store = Store::new("random_layouts");
    let mut rng = Rng::new(1_109);
    let (mut taken, mut refused) = (0, 0);
    for _ in 0..30_000 {
        let items = rng.pick(&[0, 1, 2, 5, 20, 100]);
        let longest = rng.pick(&[1, 4, 20, 255]);
        let mut layout = any_layout(&mut rng, items, longest);
        let used = Board::new(2, &layout).used();
        match rng.below(8) {
            0 => layout.push(rng.byte()),
            1 if items > 0 => layout[2 * rng.below(items)] = 255,
            2 if items > 0 => layout[2 * rng.below(items) + 1] = 0,
            3 if items > 0 => {
                let (from, to) = (rng.below(items), rng.below(items));
                layout[2 * to] = layout[2 * from];
            }
            4 if items > 0 => {
                let i = rng.below(layout.len());
                layout[i] = rng.byte();
            }
            _ => {}
        }
        let size = (used + rng.below(4)).saturating_sub(2);
        if takes(&store, &layout, size) {
            taken += 1;
        } else {
            refused += 1;
        }
    }
    assert!(
        taken > 8_000 && refused > 8_000,
        "{taken} taken, {refused} refused"
    );
}

#[test]
fn items_and_lengths_of_data() {
    let store = Store::new("items_and_lengths_of_data");
    let board = Board::new(4, &[1, 2, 7, 1, 0, 255, 254, 16]);
    let size = board.used();
    for item in 0..=255 {
        let length = board.items().find(|&(other, _)| other == item);
        for bytes in (0..=20)
            .chain(250..=280)
            .chain([512, 513, 514, 528, 65_536, 65_538])
        {
            let expected = match length {
                Some((_, length)) if length == bytes => DONE,
                _ => MISMATCH,
            };
            let code = answer(&store, &board, 4 * size, item, &vec![0x41; bytes]);
            assert_eq!(code, expected, "item {item}, {bytes} bytes");
        }
    }
}

#[test]
fn the_order_of_the_answers() {
    let store = Store::new("the_order_of_the_answers");
    // Each choice of what is wrong; what comes first is told, by a read and by a write.
    for wrong in 0..1 << 5 {
        let is_wrong = |refusal: u8| wrong & (1 << (refusal - 1)) != 0;
        let partitions = if is_wrong(PARTITIONS) { 6 } else { 4 };
        let layout: &[u8] = if is_wrong(LAYOUT) {
            &[7, 1, 8]
        } else {
            &[7, 1]
        };
        let item = if is_wrong(MISMATCH) { 9 } else { 7 };
        let second = if is_wrong(STATUSES) { 9 } else { 4 };
        let identifier = if is_wrong(UNWRITTEN) { BLANK } else { 7 };
        let mut image = [3, 7, 0, second, identifier, 1, 255, 0, 0, 255, 0, 0];
        let board = Board::new(partitions, layout);
        let first = (PARTITIONS..=UNWRITTEN).find(|&refusal| is_wrong(refusal));
        let read = board.read(&store, &image, item);
        assert_eq!(read.code, first.unwrap_or(DONE));
        if read.code == DONE {
            assert_eq!((read.offset, read.length), (5, 1));
        }
        for (data, is_right) in [(&b"x"[..], true), (b"", false), (b"xy", false)] {
            let expected = match first {
                Some(first @ (PARTITIONS | LAYOUT | MISMATCH)) => first,
                _ if !is_right => MISMATCH,
                Some(STATUSES) => STATUSES,
                _ => 9,
            };
            let reply = board.write(&store, &mut image, item, data, 0);
            assert_eq!(reply.code, expected, "{wrong:b}");
        }
    }
}
