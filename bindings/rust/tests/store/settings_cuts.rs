//! Request #109: writes that are cut after every step, from any image that is taken. "Afterwards each item
//! reads as before the cut write"; begun again, or left for another, the next one is done as ever.

use crate::harness::Store;
use crate::prng::Rng;
use crate::reference::{CUT, DONE, UNLIMITED};
use crate::settings_boards::{any_board, any_entry, any_layout};
use crate::settings_harness::{Board, Table};
use crate::settings_reference::{newest, statuses, steps_of, Newest, Step, BLANK};

/// The newest partition by the reference.
fn newest_of(board: &Board, image: &[u8]) -> Option<usize> {
    match newest(&statuses(image, image.len() / board.partitions)) {
        Newest::At(partition) => Some(partition),
        Newest::Nothing => None,
        Newest::NoRun => panic!("not refused before"),
    }
}

fn with(table: &Table, item: u8, data: &[u8]) -> Table {
    let mut table = table.clone();
    table.insert(item, data.to_vec());
    table
}

#[test]
fn every_allowance() {
    let store = Store::new("every_allowance of settings");
    let mut rng = Rng::new(5_109);
    let (mut moves, mut places, mut firsts) = (0, 0, 0);
    for _ in 0..3_000 {
        let (board, image) = any_board(&mut rng);
        let (item, data) = any_entry(&mut rng, &board);
        let there = newest_of(&board, &image);
        let before = board.shown(&store, &image, there);
        let list = steps_of(&image, board.partitions, &board.layout, item, &data);
        let list = list.expect("a board that is right");
        match (list[0], there) {
            (Step::Erase { .. }, None) => firsts += 1,
            (Step::Erase { .. }, Some(_)) => moves += 1,
            _ => places += 1,
        }
        for allowance in 0..list.len() as u64 {
            let mut cut = image.clone();
            let reply = board.write(&store, &mut cut, item, &data, allowance);
            assert_eq!((reply.code, reply.steps), (CUT, allowance));
            assert_eq!(newest_of(&board, &cut), there);
            assert!(board.shown(&store, &cut, there) == before);
            // Begun again, or left for another.
            let (item, data) = match rng.below(3) {
                0 => any_entry(&mut rng, &board),
                _ => (item, data.clone()),
            };
            board.done(&store, &mut cut, item, &data);
            let after = board.shown(&store, &cut, newest_of(&board, &cut));
            assert!(after == with(&before, item, &data));
        }
        for more in [0, 1, 7, u64::MAX - list.len() as u64] {
            let mut whole = image.clone();
            let allowance = list.len() as u64 + more;
            let reply = board.write(&store, &mut whole, item, &data, allowance);
            assert_eq!((reply.code, reply.steps), (DONE, list.len() as u64));
            let after = board.shown(&store, &whole, newest_of(&board, &whole));
            assert!(after == with(&before, item, &data));
        }
    }
    assert!(
        moves > 1_000 && places > 200 && firsts > 200,
        "{moves} {places} {firsts}"
    );
}

/// Boards from an erased chip on, with cuts anywhere, beside a plain map from item to data.
#[test]
fn lives_with_cuts() {
    let store = Store::new("lives_with_cuts of settings");
    let mut rng = Rng::new(6_109);
    let (mut done, mut lost) = (0, 0);
    for _ in 0..300 {
        let partitions = rng.pick(&[2, 4, 8, 16]);
        let items = rng.between(1, 20);
        let board = Board::new(partitions, &any_layout(&mut rng, items, 12));
        let mut image = vec![BLANK; partitions * (board.used() + rng.below(9))];
        let mut table = Table::new();
        for _ in 0..100 {
            let (item, data) = any_entry(&mut rng, &board);
            let allowance = match rng.below(3) {
                0 => rng.below(2 * board.used()) as u64,
                _ => UNLIMITED,
            };
            let reply = board.write(&store, &mut image, item, &data, allowance);
            if reply.code == DONE {
                table = with(&table, item, &data);
                done += 1;
            } else {
                assert_eq!(reply.code, CUT);
                lost += 1;
            }
            let (item, _) = any_entry(&mut rng, &board);
            let found = board.read(&store, &image, item);
            let data = &image[found.offset..][..found.length];
            match table.get(&item) {
                Some(expected) => assert!(found.code == DONE && data == expected),
                None => assert!(found.code != DONE),
            }
        }
        let there = newest_of(&board, &image);
        assert!(board.shown(&store, &image, there) == table);
    }
    assert!(done > 10_000 && lost > 3_000, "{done} done, {lost} lost");
}
