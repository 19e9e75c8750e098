//! Boards for request #109 made up directly: layouts, statuses that are a run or nearly one, and items in
//! every state that bytes can be in.

use crate::prng::Rng;
use crate::settings_harness::Board;
use crate::settings_reference::{items_of, next_status, BLANK};

/// Every right P.
pub const POWERS: [usize; 7] = [2, 4, 8, 16, 32, 64, 128];

/// A layout of this many items, none longer than this.
pub fn any_layout(rng: &mut Rng, items: usize, longest: usize) -> Vec<u8> {
    let mut identifiers: Vec<u8> = (0..=254).collect();
    rng.shuffle(&mut identifiers);
    let identifiers = identifiers.into_iter().take(items);
    identifiers
        .flat_map(|identifier| [identifier, rng.between(1, longest) as u8])
        .collect()
}

/// The statuses of a run.
pub fn run(partitions: usize, first: usize, length: usize, status: u8) -> Vec<u8> {
    let mut statuses = vec![BLANK; partitions];
    let mut status = status;
    for i in 0..length {
        statuses[(first + i) % partitions] = status;
        status = next_status(status);
    }
    statuses
}

/// A run anywhere, of any length; or none yet.
pub fn any_run(rng: &mut Rng, partitions: usize) -> Vec<u8> {
    let length = match rng.below(4) {
        0 => 0,
        1 => partitions,
        2 => partitions - 1,
        _ => rng.between(1, partitions),
    };
    let status = match rng.below(3) {
        0 => rng.pick(&[0, 1, 252, 253, 254]),
        _ => rng.below(255) as u8,
    };
    run(partitions, rng.below(partitions), length, status)
}

/// Statuses that somebody else wrote: now and then they are a run all the same.
pub fn hostile_statuses(rng: &mut Rng, partitions: usize) -> Vec<u8> {
    match rng.below(3) {
        0 => rng.bytes(partitions),
        1 => {
            let few = [0, 1, 2, 253, 254, 255];
            (0..partitions).map(|_| rng.pick(&few)).collect()
        }
        _ => {
            // A run with another status at one place or two.
            let mut statuses = any_run(rng, partitions);
            for _ in 0..rng.between(1, 2) {
                let (p, q) = (rng.below(partitions), rng.below(partitions));
                statuses[p] = match rng.below(4) {
                    0 => BLANK,
                    1 => statuses[q],
                    2 => statuses[p].wrapping_add(1),
                    _ => rng.byte(),
                };
            }
            statuses
        }
    }
}

/// An item's bytes: its identifier's and the data's.
fn item_bytes(rng: &mut Rng, identifier: u8, length: usize) -> Vec<u8> {
    let mut bytes = vec![BLANK; 1 + length];
    match rng.below(8) {
        // erased
        0 | 1 => {}
        // half written: any data but its identifier
        2 => {
            let end = rng.between(1, length);
            bytes[1..=end].copy_from_slice(&rng.bytes(end));
        }
        // its last byte alone, and its identifier alone
        3 => bytes[length] = rng.byte(),
        4 => bytes[0] = identifier,
        // somebody else's identifier
        5 => {
            bytes = rng.bytes(1 + length);
            bytes[0] = rng.pick(&[0, 254, identifier.wrapping_add(1), identifier ^ 0x80]);
        }
        _ => {
            bytes = rng.bytes(1 + length);
            bytes[0] = identifier;
        }
    }
    bytes
}

/// An image of a board whose layout is right for partitions of this length: these statuses, items in any
/// state, and anything in the bytes of no item.
pub fn any_image(rng: &mut Rng, board: &Board, size: usize, statuses: &[u8]) -> Vec<u8> {
    let items = items_of(&board.layout, size).expect("a right layout");
    let mut image = if rng.once_in(2) {
        vec![BLANK; board.partitions * size]
    } else {
        rng.bytes(board.partitions * size)
    };
    for (partition, &status) in image.chunks_mut(size).zip(statuses) {
        partition[0] = status;
        for item in &items {
            let bytes = item_bytes(rng, item.identifier, item.length);
            partition[item.at..][..bytes.len()].copy_from_slice(&bytes);
        }
    }
    image
}

/// A small board that is right, and an image whose statuses are a run or none yet.
pub fn any_board(rng: &mut Rng) -> (Board, Vec<u8>) {
    let partitions = rng.pick(&[2, 2, 4, 4, 8, 8, 16, 32, 64, 128]);
    let (items, longest) = (rng.between(1, 6), rng.pick(&[1, 3, 8]));
    let board = Board::new(partitions, &any_layout(rng, items, longest));
    let size = board.used() + rng.pick(&[0, 0, 1, 7]);
    let statuses = any_run(rng, partitions);
    let image = any_image(rng, &board, size, &statuses);
    (board, image)
}

/// Data of this length: also such that looks erased, or that programs nothing but zeros.
pub fn any_data(rng: &mut Rng, length: usize) -> Vec<u8> {
    match rng.below(6) {
        0 => vec![BLANK; length],
        1 => vec![0; length],
        _ => rng.bytes(length),
    }
}

/// One of the items, with data for it.
pub fn any_entry(rng: &mut Rng, board: &Board) -> (u8, Vec<u8>) {
    let items: Vec<(u8, usize)> = board.items().collect();
    let (item, length) = rng.pick(&items);
    (item, any_data(rng, length))
}
