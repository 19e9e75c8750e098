//! Request #109 on anything: every kind of P, layout, image, statuses, items, data and allowance in one
//! request, right and wrong.

use crate::harness::Store;
use crate::prng::Rng;
use crate::reference::{CUT, DONE, UNLIMITED};
use crate::settings_boards::*;
use crate::settings_harness::Board;
use crate::settings_reference::*;

/// A number of partitions that is wrong.
fn wrong_partitions(rng: &mut Rng) -> usize {
    match rng.below(3) {
        0 => rng.below(300),
        1 => rng.next() as usize,
        _ => rng.pick(&[0, 1, 3, 6, 127, 129, 256, 512, 1 << 32, 1 << 63, usize::MAX]),
    }
}

/// A layout that is not right any more, with some luck.
fn spoil(rng: &mut Rng, layout: &mut Vec<u8>) {
    match rng.below(5) {
        0 => layout.push(rng.byte()),
        1 => layout.extend([255, 1]),
        2 => layout.extend([rng.below(255) as u8, 0]),
        3 if !layout.is_empty() => {
            let twice = layout[0];
            layout.extend([twice, 1]);
        }
        _ => {
            let length = rng.pick(&[1, 2, 100, 511, 512, 514, 600]);
            *layout = rng.bytes(length);
        }
    }
}

/// A board and its image, of which anything may be wrong.
fn anything(rng: &mut Rng) -> (Board, Vec<u8>) {
    let (mut board, mut image) = any_board(rng);
    let size = image.len() / board.partitions;
    if rng.once_in(4) {
        let statuses = hostile_statuses(rng, board.partitions);
        image = any_image(rng, &board, size, &statuses);
    }
    if rng.once_in(8) {
        spoil(rng, &mut board.layout);
    }
    if rng.once_in(12) {
        // One byte too many for the partitions, or many.
        let length = board.partitions * (board.used() - 1);
        image.truncate(length);
    }
    if rng.once_in(12) {
        board.partitions = wrong_partitions(rng);
    }
    match rng.below(24) {
        0 => image.truncate(rng.below(image.len() + 1)),
        1 => image.extend(rng.bytes(3)),
        2 => {
            let length = rng.below(image.len() + 1);
            image = rng.bytes(length);
        }
        _ => {}
    }
    (board, image)
}

/// An item, mostly one of the board, and data, mostly of its length.
fn any_asked(rng: &mut Rng, board: &Board) -> (u8, Vec<u8>) {
    let items: Vec<(u8, usize)> = board.items().collect();
    if items.is_empty() || rng.once_in(12) {
        let item = rng.pick(&[0, 1, 254, 255, board.partitions as u8]);
        return (item, rng.bytes(1));
    }
    let (item, length) = rng.pick(&items);
    let other = [0, length.saturating_sub(1), length + 1, 256 + length, 512];
    let length = if rng.once_in(10) {
        rng.pick(&other)
    } else {
        length
    };
    (item, any_data(rng, length))
}

#[test]
fn any_settings() {
    let store = Store::new("any_settings");
    let mut rng = Rng::new(3_109);
    let (mut wrote, mut read) = ([0; 10], [0; 10]);
    for _ in 0..150_000 {
        let (board, mut image) = anything(&mut rng);
        let (item, data) = any_asked(&mut rng, &board);
        let told = board.read(&store, &image, item);
        read[usize::from(told.code)] += 1;
        let allowance = match rng.below(3) {
            0 => UNLIMITED,
            1 => rng.below(4) as u64,
            _ => {
                let list = steps_of(&image, board.partitions, &board.layout, item, &data);
                let steps = list.map_or(0, |list| list.len());
                rng.below(steps + 3) as u64
            }
        };
        let reply = board.write(&store, &mut image, item, &data, allowance);
        wrote[usize::from(reply.code)] += 1;
        board.read(&store, &image, item);
    }
    for code in [DONE, PARTITIONS, LAYOUT, MISMATCH, STATUSES, CUT] {
        assert!(wrote[usize::from(code)] > 3_000, "{code}: {wrote:?}");
    }
    for code in [DONE, PARTITIONS, LAYOUT, MISMATCH, STATUSES, UNWRITTEN] {
        assert!(read[usize::from(code)] > 3_000, "{code}: {read:?}");
    }
}

/// Noise as an image, a layout, an item and data.
#[test]
fn noise() {
    let store = Store::new("noise of settings");
    let mut rng = Rng::new(4_109);
    for _ in 0..50_000 {
        let (pairs, partitions) = (rng.below(4), rng.pick(&[2, 4, 8]));
        let layout: Vec<u8> = (0..pairs)
            .flat_map(|_| [rng.byte(), rng.below(5) as u8])
            .collect();
        let length = partitions * rng.below(24);
        let mut image = match rng.below(3) {
            0 => rng.bytes(length),
            1 => vec![rng.pick(&[0, 1, 254, 255]); length],
            _ => (0..length)
                .map(|_| rng.pick(&[0, 1, 2, 254, 255, 255, 255]))
                .collect(),
        };
        let board = Board::new(partitions, &layout);
        let (item, data) = any_asked(&mut rng, &board);
        board.read(&store, &image, item);
        let allowance = rng.below(20) as u64;
        board.write(&store, &mut image, item, &data, allowance);
    }
}
