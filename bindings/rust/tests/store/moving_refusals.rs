//! Request #106: what a move refuses, and in which order: 1 for either image, 4 or 5 for the source,
//! 7. No refusal changes a byte of either image, which the harness compares, or depends on the
//! allowance.

use crate::conditions::by_the_reference;
use crate::harness::Store;
use crate::heads::{other, set_version, Heads};
use crate::images::{self, blank, formatted};
use crate::mixed_versions::VERSIONS;
use crate::moving_harness::{any_target, Move};
use crate::moving_sources::{laid_out, short_entries};
use crate::prng::Rng;
use crate::reference::*;
use std::collections::BTreeMap;
use std::io::Write;

const SMALL: Geometry = Geometry { n: 3, b: 2 };
/// One that holds as many blocks as the sources here have, and one that holds fewer.
const ENOUGH: Geometry = Geometry { n: 2, b: 4 };
const TOO_SMALL: Geometry = Geometry { n: 2, b: 3 };

/// A source that is clean, one that is unfinished and one that is damaged, each with three blocks, and
/// what a move of them answers.
fn each_kind() -> [(Vec<u8>, u8); 3] {
    let g = SMALL;
    let mut clean = formatted(g);
    for block in [7, 8, 9, 7, 8, 7] {
        put(&mut clean, g, block, b"x", UNLIMITED);
    }
    let mut unfinished = clean.clone();
    assert_eq!(put(&mut unfinished, g, 9, b"y", 3).code, CUT);
    let mut damaged = clean.clone();
    damaged[read(&clean, g, 9).offset - 1] = 0;
    [(clean, DONE), (unfinished, UNFINISHED), (damaged, DAMAGED)]
}

/// N and B out of range, or not those of an image of this geometry.
pub fn wrong_geometries(g: Geometry) -> Vec<Geometry> {
    let Geometry { n, b } = g;
    [
        (0, b),
        (1, b),
        (n - 1, b),
        (n + 1, b),
        (256, b),
        (256 + n, b),
        (n, 0),
        (n, 1),
        (n, b - 1),
        (n, b + 1),
        (n, 256),
        (n, 256 + b),
        (n + (1 << 56), b),
        (n, b + (1 << 56)),
        (1 << 32, (1 << 32) - 1),
        (usize::MAX, usize::MAX),
    ]
    .map(|(n, b)| Geometry { n, b })
    .to_vec()
}

/// Images that are too short or too long.
pub fn wrong_lengths(image: &[u8]) -> Vec<Vec<u8>> {
    let length = image.len();
    let mut longer = image.to_vec();
    longer.resize(length + PAGE, 0xFF);
    let mut images: Vec<Vec<u8>> = [0, 1, 255, 256, length - 256, length - 1, length + 1]
        .map(|length| longer[..length].to_vec())
        .to_vec();
    images.push(longer);
    images
}

/// 1 comes first, whatever the source is and however many blocks it has.
#[test]
fn wrong_sizes() {
    let store = Store::new("moves with wrong sizes");
    for (source, _) in each_kind() {
        for to in [ENOUGH, TOO_SMALL] {
            let target = vec![0x5A; to.n * to.segment_len()];
            let right = Move {
                source: &source,
                g: SMALL,
                target: &target,
                to,
            };
            for g in wrong_geometries(SMALL) {
                Move { g, ..right }.refused(&store, SIZE);
            }
            for to in wrong_geometries(to) {
                Move { to, ..right }.refused(&store, SIZE);
                for g in wrong_geometries(SMALL) {
                    Move { g, to, ..right }.refused(&store, SIZE);
                }
            }
            for source in wrong_lengths(&source) {
                let source = &source[..];
                Move { source, ..right }.refused(&store, SIZE);
            }
            for target in wrong_lengths(&target) {
                let target = &target[..];
                Move { target, ..right }.refused(&store, SIZE);
            }
        }
    }
}

/// Two geometries whose images have one length: a source lent with the other's N and B is damaged, and
/// not of a wrong size.
#[test]
fn equal_lengths() {
    let store = Store::new("moves with the N and B of another chip");
    let (tall, wide) = (Geometry { n: 4, b: 5 }, Geometry { n: 6, b: 3 });
    let length = tall.n * tall.segment_len();
    assert_eq!(length, wide.n * wide.segment_len());
    let mut source = formatted(tall);
    for block in 1..=5 {
        put(&mut source, tall, block, b"x", UNLIMITED);
    }
    let target = vec![0; length];
    let right = Move {
        source: &source,
        g: tall,
        target: &target,
        to: wide,
    };
    right.done(&store);
    let (g, to) = (wide, tall);
    Move { g, ..right }.refused(&store, DAMAGED);
    Move { to, ..right }.done(&store);
}

/// 4 and 5 come before 7, 7 before the first step.
#[test]
fn the_order() {
    let store = Store::new("the order of a move's answers");
    for (source, code) in each_kind() {
        for to in [ENOUGH, TOO_SMALL] {
            let target = vec![0x5A; to.n * to.segment_len()];
            let this = Move {
                source: &source,
                g: SMALL,
                target: &target,
                to,
            };
            match (code, to) {
                (DONE, ENOUGH) => drop(this.done(&store)),
                (DONE, _) => this.refused(&store, FULL),
                _ => this.refused(&store, code),
            }
        }
    }
}

/// Sources of any fill, age and version, disturbed: a move answers by their state, and those that are
/// unfinished can be moved once they are recovered.
#[test]
fn every_state() {
    let store = Store::new("moves of images in every state");
    let mut rng = Rng::new(0x1066);
    let mut seen = BTreeMap::<(char, bool), usize>::new();
    for (n, b, images) in [
        (2, 2, 1_600),
        (3, 2, 1_600),
        (3, 4, 1_000),
        (4, 15, 400),
        (9, 2, 400),
        (255, 2, 20),
        (2, 255, 20),
        (16, 255, 1),
    ] {
        let g = Geometry { n, b };
        for _ in 0..images {
            let shape = images::shape(&mut rng, g);
            let mut image = images::clean(&mut rng, g, shape);
            for _ in 0..rng.pick(&[1, 1, 1, 2]) {
                images::disturb(&mut rng, g, &mut image);
            }
            let letter = by_the_reference(&image, g);
            let is_former = shape.heads == Heads::Former;
            *seen.entry((letter, is_former)).or_default() += 1;
            try_state(&store, &mut rng, &image, g, letter);
        }
    }
    let _ = writeln!(
        std::io::stderr(),
        "moves of images in every state: {seen:?}"
    );
    assert!("abcd!"
        .chars()
        .all(|letter| seen[&(letter, true)] > 20 && seen[&(letter, false)] > 60));
}

/// A move of an image in this state, to a chip that holds as much and to one that holds least.
fn try_state(store: &Store, rng: &mut Rng, image: &[u8], g: Geometry, letter: char) {
    let least = Geometry { n: 2, b: 2 };
    for to in [g, least] {
        let target = any_target(rng, to);
        let this = Move {
            source: image,
            g,
            target: &target,
            to,
        };
        let allowance = rng.pick(&[0, 5, 40, UNLIMITED, UNLIMITED]);
        let (reply, _) = this.make(store, allowance);
        match letter {
            '-' => assert!([DONE, FULL, CUT].contains(&reply.code)),
            '!' => assert_eq!(reply.code, DAMAGED),
            _ => assert_eq!(reply.code, UNFINISHED),
        }
    }
    if "abcd".contains(letter) {
        let mut source = image.to_vec();
        assert_eq!(
            perform(&mut source, g, &Request::Recover, UNLIMITED).code,
            DONE
        );
        let this = Move {
            source: &source,
            g,
            target: image,
            to: g,
        };
        this.done(store);
    }
}

/// Segments in use of both versions: damaged.
#[test]
fn both_versions() {
    let store = Store::new("moves of images of both versions");
    for version in VERSIONS {
        for (n, b) in [(3, 2), (4, 2), (5, 3), (4, 15)] {
            let g = Geometry { n, b };
            let mut image = images::full_ring(g, 3 * n as u32);
            let numbers = 2 * n as u32 + 2..=3 * n as u32;
            for number in numbers.clone() {
                set_version(&mut image, g, number, version);
            }
            let target = vec![0; image.len()];
            for number in numbers {
                let mut mixed = image.clone();
                set_version(&mut mixed, g, number, other(version));
                for (source, code) in [(&image, DONE), (&mixed, DAMAGED)] {
                    let this = Move {
                        source,
                        g,
                        target: &target,
                        to: g,
                    };
                    assert_eq!(this.make(&store, UNLIMITED).0.code, code);
                }
            }
        }
    }
}

/// A count equal to C fits; one more does not, and many more neither. A blank chip is no source.
#[test]
fn capacities() {
    let store = Store::new("moves at the target's capacity");
    let mut rng = Rng::new(0x1067);
    let g = Geometry { n: 16, b: 16 };
    for (n, b) in [(2, 2), (2, 3), (3, 2), (4, 3), (2, 40), (40, 2), (15, 16)] {
        let to = Geometry { n, b };
        let capacity = to.capacity();
        let counts = [0, 1, capacity - 1, capacity, capacity + 1, g.capacity()];
        for count in counts {
            let entries = short_entries(&mut rng, count);
            for heads in [Heads::Former, Heads::Any] {
                let source = laid_out(&mut rng, g, &entries, heads);
                let target = any_target(&mut rng, to);
                let this = Move {
                    source: &source,
                    g,
                    target: &target,
                    to,
                };
                if count <= capacity {
                    this.done(&store);
                } else {
                    this.refused(&store, FULL);
                }
            }
        }
        let (source, target) = (blank(g), blank(to));
        let this = Move {
            source: &source,
            g,
            target: &target,
            to,
        };
        this.refused(&store, DAMAGED);
    }
}
