//! Request #109: the binding's `Settings` say what the exports say.

use crate::harness::Store;
use crate::prng::Rng;
use crate::reference::{CUT, DONE, UNLIMITED};
use crate::settings_boards::{any_board, any_entry, hostile_statuses};
use crate::settings_reference as settings;
use qanbillox::{Settings, SettingsError};

fn error(code: u8) -> SettingsError {
    SettingsError::from_number(code).expect("an answer of request #109")
}

#[test]
fn a_boards_settings() {
    let store = Store::new("a_boards_settings");
    let mut rng = Rng::new(10_109);
    let mut seen = [0; 10];
    for _ in 0..20_000 {
        let (mut board, mut image) = any_board(&mut rng);
        let (mut item, data) = any_entry(&mut rng, &board);
        match rng.below(10) {
            0 => board.partitions -= 1,
            1 => board.layout.push(7),
            2 => item = 255,
            3 => {
                let size = image.len() / board.partitions;
                let statuses = hostile_statuses(&mut rng, board.partitions);
                for (partition, status) in image.chunks_mut(size).zip(statuses) {
                    partition[0] = status;
                }
            }
            _ => {}
        }
        let view = Settings {
            partitions: board.partitions,
            layout: &board.layout,
        };
        store.count();
        let found = settings::read(&image, board.partitions, &board.layout, item);
        seen[usize::from(found.code)] += 1;
        match view.read(&image, item) {
            // Not only equal bytes: the same piece of the same slice.
            Ok(piece) => {
                let expected = &image[found.offset..][..found.length];
                assert_eq!(found.code, DONE);
                assert_eq!(piece.as_ptr_range(), expected.as_ptr_range());
            }
            Err(told) => assert_eq!(told, error(found.code)),
        }
        store.count();
        let allowance = rng.pick(&[0, 1, 2, 5, 9, UNLIMITED]);
        let mut copy = image.clone();
        let told = view.write(&mut copy, item, &data, allowance);
        let (partitions, layout) = (board.partitions, &board.layout);
        let reply = settings::write(&mut image, partitions, layout, item, &data, allowance);
        seen[usize::from(reply.code)] += 1;
        match told {
            Ok(steps) => assert_eq!((DONE, steps), (reply.code, reply.steps)),
            Err(told) => assert_eq!(told, error(reply.code)),
        }
        assert!(copy == image);
    }
    for code in [DONE, 1, 2, 3, 4, 5, CUT] {
        assert!(seen[usize::from(code)] > 500, "{code}: {seen:?}");
    }
}
