//! Request #113 on boards whose power went, after each step of a request and inside it, in both versions:
//! the harness holds each report to the table that recovery leaves.

use crate::account_cuts::rules;
use crate::conditions::by_the_reference;
use crate::cuts;
use crate::harness::{put_of, Store};
use crate::heads::Heads;
use crate::images;
use crate::mixed_versions::VERSIONS;
use crate::moving_harness::{any_target, Move};
use crate::prng::Rng;
use crate::reference::*;
use crate::salvage_harness::{rebuilt, told};
use std::collections::BTreeMap;
use std::io::Write;

/// How often each state came up, and how many reports had a block that differs.
#[derive(Default, Debug)]
struct Seen {
    states: BTreeMap<(char, u8), usize>,
    differing: usize,
}

/// The report of a cut board. The same recovered gives the same blocks at the same places, all of them
/// `same`; and now and then both are rebuilt, which gives equal targets.
fn tell_cut(store: &Store, rng: &mut Rng, seen: &mut Seen, image: &[u8], g: Geometry) {
    let letter = by_the_reference(image, g);
    assert!("-abcd".contains(letter));
    let version = (0..g.n).find_map(|index| header(image, g, index));
    let version = version.expect("one in use").version.bytes()[0];
    *seen.states.entry((letter, version)).or_default() += 1;

    let text = told(store, image, g);
    let mut recovered = image.to_vec();
    store.done(&mut recovered, g, &Request::Recover);
    assert_eq!(
        told(store, &recovered, g),
        text.replace(" differs\n", " same\n")
    );
    if text.contains("differs") {
        assert_eq!(letter, 'd');
        seen.differing += 1;
    }
    if rng.once_in(16) {
        let target = any_target(rng, g);
        let [first, second] = [image, &recovered].map(|source| {
            let target = &target;
            let lent = Move {
                source,
                g,
                target,
                to: g,
            };
            rebuilt(store, lent)
        });
        assert!(first == second);
    }
}

/// The board after each step of a request and inside each.
fn cut_everywhere(
    store: &Store,
    rng: &mut Rng,
    seen: &mut Seen,
    (board, g, version): (&[u8], Geometry, Version),
    request: &Request,
) {
    let (code, list) = steps_by(rules(version), board, g, request);
    assert!([DONE, FULL, WORN, ABSENT].contains(&code));
    let mut image = board.to_vec();
    for step in list {
        tell_cut(store, rng, seen, &image, g);
        let mut inside = image.clone();
        cuts::inside(rng, g, &mut inside, step);
        tell_cut(store, rng, seen, &inside, g);
        step.apply(g, &mut image);
    }
    tell_cut(store, rng, seen, &image, g);
}

#[test]
fn every_step() {
    let store = Store::new("salvages after each step and inside it");
    let mut rng = Rng::new(0x1138);
    let mut seen = Seen::default();
    for (n, b, boards) in [(2, 2, 16), (3, 2, 14), (4, 3, 9), (4, 15, 1), (9, 2, 3)] {
        let g = Geometry { n, b };
        for version in VERSIONS {
            for _ in 0..boards {
                let mut shape = images::shape(&mut rng, g);
                shape.oldest %= 50_000;
                shape.heads = match version {
                    Version::One => Heads::Former,
                    Version::Two => Heads::Early,
                };
                let board = images::clean(&mut rng, g, shape);
                let board = (&board[..], g, version);
                let found = images::some_block(&mut rng, g, board.0);
                for block in [found, 60_000] {
                    let contents = rng.bytes(2);
                    let put = put_of(block, &contents);
                    cut_everywhere(&store, &mut rng, &mut seen, board, &put);
                }
                let delete = Request::Delete { block: found };
                cut_everywhere(&store, &mut rng, &mut seen, board, &delete);
            }
        }
    }
    let _ = writeln!(std::io::stderr(), "salvages after each step: {seen:?}");
    for letter in "-abcd".chars() {
        for version in [1, 2] {
            assert!(seen.states[&(letter, version)] > 20);
        }
    }
    assert!(seen.differing > 20);
}

/// A life of requests from a format on, with cuts anywhere: a salvage after each.
#[test]
fn a_life() {
    let store = Store::new("salvages through a life");
    let mut rng = Rng::new(0x1139);
    let mut seen = Seen::default();
    for (n, b, requests) in [(2, 2, 1_200), (4, 15, 800), (5, 3, 1_200), (65, 2, 150)] {
        let g = Geometry { n, b };
        for version in VERSIONS {
            let mut image = images::blank(g);
            let format = Request::Format;
            perform_by(rules(version), &mut image, g, &format, UNLIMITED);
            for _ in 0..requests {
                let block = rng.between(1, g.capacity() + 1) as u16;
                let request = match rng.below(5) {
                    0 => Request::Delete { block },
                    _ => put_of(block, &images::put_contents(&mut rng)),
                };
                let (_, list) = steps_by(rules(version), &image, g, &request);
                let allowance = rng.between(0, list.len());
                perform_by(rules(version), &mut image, g, &request, allowance as u64);
                if allowance < list.len() && rng.once_in(2) {
                    cuts::inside(&mut rng, g, &mut image, list[allowance]);
                }
                tell_cut(&store, &mut rng, &mut seen, &image, g);
                store.done(&mut image, g, &Request::Recover);
            }
        }
    }
    let _ = writeln!(std::io::stderr(), "salvages through a life: {seen:?}");
    for letter in "-abcd".chars() {
        for version in [1, 2] {
            assert!(seen.states.contains_key(&(letter, version)));
        }
    }
}
