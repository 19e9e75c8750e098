//! Request #106: the table that a move carries over, from sources of every kind to chips of every
//! shape. `Move::done` holds the target to the source's table and to the list's length.

use crate::harness::Store;
use crate::heads::{Heads, HEADS};
use crate::images;
use crate::moving_harness::{any_target, Move};
use crate::moving_reference::Entries;
use crate::moving_sources::{any_entries, any_request, laid_out, short_entries, spread, Seen};
use crate::prng::Rng;
use crate::reference::*;
use std::collections::BTreeMap;
use std::io::Write;

/// Chips that boards may have, the corners among them.
const CHIPS: [(usize, usize); 14] = [
    (2, 2),
    (2, 3),
    (3, 2),
    (2, 9),
    (9, 2),
    (4, 3),
    (5, 4),
    (4, 15),
    (16, 16),
    (33, 7),
    (2, 255),
    (64, 2),
    (255, 2),
    (254, 3),
];

fn any_chip(rng: &mut Rng) -> Geometry {
    let (n, b) = rng.pick(&CHIPS);
    Geometry { n, b }
}

/// A move of a clean source to any chip: done, or refused if it holds too few blocks.
fn try_move(store: &Store, rng: &mut Rng, source: &[u8], g: Geometry) -> u8 {
    let to = if rng.once_in(4) { g } else { any_chip(rng) };
    let target = any_target(rng, to);
    let this = Move {
        source,
        g,
        target: &target,
        to,
    };
    let live = table(source, g).expect("clean").len();
    if live <= to.capacity() {
        this.done(store);
        DONE
    } else {
        this.refused(store, FULL);
        FULL
    }
}

/// Sources in the course of a life: rings that have turned, with blocks in the order of their last
/// puts.
#[test]
fn lives() {
    let store = Store::new("moves in the course of a life");
    let mut rng = Rng::new(0x1061);
    let mut seen = Seen::default();
    for (n, b, moves) in [
        (2, 2, 60),
        (3, 2, 80),
        (2, 5, 60),
        (5, 4, 80),
        (4, 15, 80),
        (9, 2, 60),
        (16, 16, 12),
        (255, 2, 4),
    ] {
        let g = Geometry { n, b };
        let blocks = spread(&mut rng, g.capacity() + 2);
        let mut image = images::formatted(g);
        for _ in 0..moves {
            for _ in 0..rng.between(0, 2 * n * b) {
                let request = any_request(&mut rng, &blocks);
                perform(&mut image, g, &request, UNLIMITED);
            }
            seen.count(&image, g);
            try_move(&store, &mut rng, &image, g);
        }
    }
    let _ = writeln!(std::io::stderr(), "moves in the course of a life: {seen:?}");
    assert!(seen.wrapped > 100 && seen.unsorted > 200);
}

/// Clean images of any fill, age and version, with any tally, worn ones among them.
#[test]
fn any_clean_image() {
    let store = Store::new("moves of any clean image");
    let mut rng = Rng::new(0x1062);
    let mut seen = Seen::default();
    let mut answers = BTreeMap::<u8, usize>::new();
    for (n, b, images) in [
        (2, 2, 300),
        (3, 2, 300),
        (3, 4, 200),
        (4, 15, 150),
        (9, 2, 150),
        (64, 2, 20),
        (255, 2, 10),
        (2, 255, 15),
        (16, 255, 2),
    ] {
        let g = Geometry { n, b };
        for _ in 0..images {
            let shape = images::shape(&mut rng, g);
            let image = images::clean(&mut rng, g, shape);
            seen.count(&image, g);
            let code = try_move(&store, &mut rng, &image, g);
            *answers.entry(code).or_default() += 1;
        }
    }
    let _ = writeln!(
        std::io::stderr(),
        "moves of any clean image: {seen:?}, {answers:?}"
    );
    assert!(answers[&DONE] > 500 && answers[&FULL] > 100);
    assert!(seen.wrapped > 100 && seen.unsorted > 300 && seen.version_one > 100);
    assert!(seen.counted > 200 && seen.with_empty > 300 && seen.bare > 50);
}

/// "Two clean sources with equal tables give equal targets of one geometry": whatever chip they lie
/// on, in whatever order and version, and whatever the target held.
#[test]
fn equal_tables() {
    let store = Store::new("moves of equal tables");
    let mut rng = Rng::new(0x1063);
    for _ in 0..60 {
        let to = any_chip(&mut rng);
        let most = to.capacity().min(60);
        let count = rng.between(0, most);
        let entries = any_entries(&mut rng, count);
        let mut expected: Option<Vec<u8>> = None;
        for heads in HEADS {
            let holds = |&(n, b): &(usize, usize)| (n - 1) * b > count;
            let chips: Vec<_> = CHIPS.into_iter().filter(holds).collect();
            let (n, b) = rng.pick(&chips);
            let g = Geometry { n, b };
            let source = laid_out(&mut rng, g, &entries, heads);
            let target = any_target(&mut rng, to);
            let this = Move {
                source: &source,
                g,
                target: &target,
                to,
            };
            let moved = this.done(&store);
            assert!(*expected.get_or_insert(moved.clone()) == moved);
        }
    }
}

/// To another chip and back again: from the first move on the chips hold the same bytes each time.
#[test]
fn there_and_back() {
    let store = Store::new("moves there and back");
    let mut rng = Rng::new(0x1064);
    for _ in 0..60 {
        let (here, there) = (any_chip(&mut rng), any_chip(&mut rng));
        let most = here.capacity().min(there.capacity()).min(80);
        let count = rng.between(0, most);
        let entries = any_entries(&mut rng, count);
        let heads = rng.pick(&HEADS);
        let mut image = laid_out(&mut rng, here, &entries, heads);
        let mut left: Vec<Vec<u8>> = Vec::new();
        for turn in 0..4 {
            let (g, to) = if turn % 2 == 0 {
                (here, there)
            } else {
                (there, here)
            };
            let target = any_target(&mut rng, to);
            let this = Move {
                source: &image,
                g,
                target: &target,
                to,
            };
            image = this.done(&store);
            left.push(image.clone());
        }
        assert!(left[0] == left[2] && left[1] == left[3]);
    }
}

/// A target that takes just so many blocks, and one more, which is refused. The source has a segment
/// or a slot more.
fn fits_and_does_not(store: &Store, rng: &mut Rng, g: Geometry, to: Geometry) {
    for (count, code) in [(to.capacity(), DONE), (to.capacity() + 1, FULL)] {
        let entries: Entries = short_entries(rng, count);
        let heads = rng.pick(&[Heads::Former, Heads::Early]);
        let source = laid_out(rng, g, &entries, heads);
        let target = any_target(rng, to);
        let this = Move {
            source: &source,
            g,
            target: &target,
            to,
        };
        match code {
            DONE => drop(this.done(store)),
            _ => assert_eq!(this.make(store, UNLIMITED).0.code, code),
        }
    }
}

/// Every number of segments and every number of slots, in the source and in the target; each target
/// at its capacity.
#[test]
fn every_geometry() {
    let store = Store::new("moves from and to every N and B");
    let mut rng = Rng::new(0x1065);
    for n in 2..=255 {
        let (g, to) = (Geometry { n, b: 3 }, Geometry { n, b: 2 });
        fits_and_does_not(&store, &mut rng, g, to);
    }
    for b in 2..=255 {
        let (g, to) = (Geometry { n: 3, b }, Geometry { n: 2, b });
        fits_and_does_not(&store, &mut rng, g, to);
    }
}
