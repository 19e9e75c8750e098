//! Request #109: which statuses are a single run, and which partition is then the newest.

use crate::harness::Store;
use crate::prng::Rng;
use crate::reference::DONE;
use crate::settings_boards::{any_run, hostile_statuses, run, POWERS};
use crate::settings_harness::Board;
use crate::settings_reference::{newest, Newest, BLANK, STATUSES, UNWRITTEN};

/// By the letter: the partitions that have a status are neighbours, the first following the last, and each
/// status is the one after that before it; whoever could be a run's first is tried.
fn by_the_letter(statuses: &[u8]) -> Newest {
    let partitions = statuses.len();
    let length = statuses.iter().filter(|&&status| status != BLANK).count();
    if length == 0 {
        return Newest::Nothing;
    }
    let is_run = |&first: &usize| {
        statuses[first] != BLANK && run(partitions, first, length, statuses[first]) == statuses
    };
    let firsts: Vec<usize> = (0..partitions).filter(is_run).collect();
    match firsts[..] {
        [] => Newest::NoRun,
        [first] => Newest::At((first + length - 1) % partitions),
        _ => panic!("a run with two firsts"),
    }
}

/// Each partition has its status and a written item. A read tells which is the newest.
fn read(store: &Store, statuses: &[u8]) -> Newest {
    let image: Vec<u8> = statuses.iter().flat_map(|&s| [s, 7, 0x41, 0x42]).collect();
    let found = Board::new(statuses.len(), &[7, 1]).read(store, &image, 7);
    let told = match found.code {
        DONE => {
            assert_eq!((found.offset % 4, found.length), (2, 1));
            Newest::At(found.offset / 4)
        }
        UNWRITTEN => Newest::Nothing,
        code => {
            assert_eq!(code, STATUSES);
            Newest::NoRun
        }
    };
    assert_eq!(told, newest(statuses));
    told
}

#[test]
fn every_pair_of_statuses() {
    let store = Store::new("every_pair_of_statuses");
    let mut runs = 0;
    for a in 0..=255 {
        for b in 0..=255 {
            let told = read(&store, &[a, b]);
            assert_eq!(told, by_the_letter(&[a, b]), "{a}, {b}");
            runs += usize::from(matches!(told, Newest::At(_)));
        }
    }
    // One alone, and both in either order.
    assert_eq!(runs, 4 * 255);
}

#[test]
fn four_statuses() {
    let store = Store::new("four_statuses");
    let some = [0, 1, 2, 3, 4, 252, 253, 254, 255];
    let mut statuses = [0; 4];
    for choice in 0..9_usize.pow(4) {
        for (i, status) in statuses.iter_mut().enumerate() {
            *status = some[choice / 9_usize.pow(i as u32) % 9];
        }
        assert_eq!(read(&store, &statuses), by_the_letter(&statuses));
    }
}

#[test]
fn every_run() {
    let store = Store::new("every_run");
    let mut rng = Rng::new(109);
    for partitions in POWERS {
        for first in 0..partitions {
            for length in 1..=partitions {
                // One that ends with 254 or goes on to 0, and one from anywhere.
                let to_the_end = (255 - length) as u8;
                for status in [to_the_end, to_the_end + 1, rng.below(255) as u8] {
                    let statuses = run(partitions, first, length, status % 255);
                    let last = (first + length - 1) % partitions;
                    assert_eq!(read(&store, &statuses), Newest::At(last));
                }
            }
        }
    }
}

#[test]
fn lone_statuses() {
    let store = Store::new("lone_statuses");
    for partitions in POWERS {
        for place in [0, 1, partitions / 2, partitions - 1] {
            for status in 0..=254 {
                let statuses = run(partitions, place, 1, status);
                assert_eq!(read(&store, &statuses), Newest::At(place));
            }
        }
    }
}

#[test]
fn runs_that_are_disturbed() {
    let store = Store::new("runs_that_are_disturbed");
    let mut rng = Rng::new(2_109);
    let (mut runs, mut refused) = (0, 0);
    for _ in 0..20_000 {
        let partitions = rng.pick(&POWERS);
        let statuses = hostile_statuses(&mut rng, partitions);
        match by_the_letter(&statuses) {
            Newest::NoRun => refused += 1,
            _ => runs += 1,
        }
        assert_eq!(read(&store, &statuses), by_the_letter(&statuses));
    }
    assert!(
        runs > 2_000 && refused > 8_000,
        "{runs} runs, {refused} refused"
    );
    // A run with each other status at each place.
    for partitions in [2, 4, 8, 16] {
        let whole = any_run(&mut rng, partitions);
        for p in 0..partitions {
            for status in 0..=255 {
                let mut statuses = whole.clone();
                statuses[p] = status;
                assert_eq!(read(&store, &statuses), by_the_letter(&statuses));
            }
        }
    }
}
