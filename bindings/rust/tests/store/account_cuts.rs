//! Request #101: accounts of boards whose power went, after each step of a request and inside it, in
//! both versions; and what recovery then makes of them.

use crate::account_images::{Seen, STEPS};
use crate::cuts;
use crate::harness::{put_of, Store};
use crate::heads::Heads;
use crate::images;
use crate::mixed_versions::VERSIONS;
use crate::prng::Rng;
use crate::reference::*;

/// The rules by which a board of this version is written.
pub fn rules(version: Version) -> Rules {
    match version {
        Version::One => Rules::Former,
        Version::Two => Rules::Present,
    }
}

/// The lines of the blocks in an account.
fn blocks(text: &str) -> Vec<String> {
    let lines = text.lines().filter(|line| line.starts_with("block "));
    lines.map(String::from).collect()
}

/// The account of a cut board, and of the same recovered: nothing is left to do, and the blocks are
/// those of before, but for the one that (d) shows twice.
fn tell_cut(store: &Store, seen: &mut Seen, image: &[u8], g: Geometry) {
    let last = seen.tell(store, image, g);
    let before = blocks(&store.account(image, g));
    let twice = matches!(state_of(image, g), State::Unfinished(Unfinished::D { .. }));
    let mut recovered = image.to_vec();
    let steps = store.done(&mut recovered, g, &Request::Recover);
    assert_eq!(last, STEPS[steps as usize]);
    assert_eq!(seen.tell(store, &recovered, g), STEPS[0]);
    let after = blocks(&store.account(&recovered, g));
    assert_eq!(before.len(), after.len() + usize::from(twice));
    assert!(after.iter().all(|line| before.contains(line)));
}

/// The board after each step of a request and inside each.
fn cut_everywhere(
    store: &Store,
    rng: &mut Rng,
    seen: &mut Seen,
    (board, g, version): (&[u8], Geometry, Version),
    request: &Request,
) {
    let (code, list) = steps_by(rules(version), board, g, request);
    assert!([DONE, FULL, WORN, ABSENT].contains(&code));
    let mut image = board.to_vec();
    for step in list {
        tell_cut(store, seen, &image, g);
        let mut inside = image.clone();
        cuts::inside(rng, g, &mut inside, step);
        tell_cut(store, seen, &inside, g);
        step.apply(g, &mut image);
    }
    tell_cut(store, seen, &image, g);
}

#[test]
fn every_step() {
    let store = Store::new("accounts after each step and inside it");
    let mut rng = Rng::new(0x1016);
    let mut seen = Seen::default();
    for (n, b, boards) in [(2, 2, 40), (3, 2, 30), (4, 3, 20), (4, 15, 3), (9, 2, 8)] {
        let g = Geometry { n, b };
        for version in VERSIONS {
            for _ in 0..boards {
                let mut shape = images::shape(&mut rng, g);
                shape.oldest %= 50_000;
                shape.heads = match version {
                    Version::One => Heads::Former,
                    Version::Two => Heads::Early,
                };
                let board = images::clean(&mut rng, g, shape);
                let board = (&board[..], g, version);
                let found = images::some_block(&mut rng, g, board.0);
                for block in [found, 60_000] {
                    let contents = rng.bytes(2);
                    let put = put_of(block, &contents);
                    cut_everywhere(&store, &mut rng, &mut seen, board, &put);
                }
                let delete = Request::Delete { block: found };
                cut_everywhere(&store, &mut rng, &mut seen, board, &delete);
            }
        }
    }
    for version in VERSIONS {
        seen.met(version, &STEPS[..2], 100);
        seen.met(version, &STEPS[2..3], 20);
    }
    seen.met(Version::Two, &STEPS[3..], 10);
}

/// A life of requests from a format on, with cuts anywhere: an account after each.
#[test]
fn a_life() {
    let store = Store::new("accounts through a life");
    let mut rng = Rng::new(0x1017);
    let mut seen = Seen::default();
    for (n, b, requests) in [(2, 2, 2_000), (4, 15, 1_500), (5, 3, 2_000), (65, 2, 300)] {
        let g = Geometry { n, b };
        for version in VERSIONS {
            let mut image = images::blank(g);
            let format = Request::Format;
            perform_by(rules(version), &mut image, g, &format, UNLIMITED);
            for _ in 0..requests {
                let block = rng.between(1, g.capacity() + 1) as u16;
                let request = match rng.below(5) {
                    0 => Request::Delete { block },
                    _ => put_of(block, &images::put_contents(&mut rng)),
                };
                let (_, list) = steps_by(rules(version), &image, g, &request);
                let allowance = rng.between(0, list.len());
                perform_by(rules(version), &mut image, g, &request, allowance as u64);
                if allowance < list.len() && rng.once_in(2) {
                    cuts::inside(&mut rng, g, &mut image, list[allowance]);
                }
                tell_cut(&store, &mut seen, &image, g);
                store.done(&mut image, g, &Request::Recover);
            }
        }
    }
    for version in VERSIONS {
        seen.met(version, &STEPS[..3], 20);
    }
}
