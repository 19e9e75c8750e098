//! Request #113, the second part: what a rebuild refuses, 1 for either image and then 7, and nothing else.
//! No refusal changes a byte of either image, which the harness compares, or depends on the allowance.

use crate::conditions::by_the_reference;
use crate::harness::Store;
use crate::heads::{owe, HEADS};
use crate::images::{self, blank, formatted, write_header, write_slot_page};
use crate::moving_harness::{any_target, Move};
use crate::moving_refusals::{wrong_geometries, wrong_lengths};
use crate::moving_sources::{laid_out, short_entries};
use crate::prng::Rng;
use crate::reference::*;
use crate::salvage_harness::{rebuild, rebuilt, refused};
use crate::salvage_reference::entries;
use std::collections::BTreeMap;
use std::io::Write;

const SMALL: Geometry = Geometry { n: 3, b: 2 };
/// One that holds as many blocks as the sources here have, and one that holds fewer.
const ENOUGH: Geometry = Geometry { n: 2, b: 4 };
const TOO_SMALL: Geometry = Geometry { n: 2, b: 3 };

/// Sources with three blocks: clean, unfinished, and damaged.
fn each_kind() -> [Vec<u8>; 3] {
    let g = SMALL;
    let mut clean = formatted(g);
    for block in [7, 8, 9, 7] {
        put(&mut clean, g, block, b"x", UNLIMITED);
    }
    let mut unfinished = clean.clone();
    assert_eq!(put(&mut unfinished, g, 9, b"y", 24).code, CUT);
    let mut damaged = clean.clone();
    assert_eq!(damaged[g.page(0, 1)], DEAD);
    damaged[g.page(0, 1)] = 0x0F;
    let letters = [&clean, &unfinished, &damaged].map(|image| by_the_reference(image, g));
    assert_eq!(letters[0], '-');
    assert!("abcd".contains(letters[1]));
    assert_eq!(letters[2], '!');
    [clean, unfinished, damaged]
}

/// 1 comes first, whatever the source is and however many blocks it has.
#[test]
fn wrong_sizes() {
    let store = Store::new("rebuilds with wrong sizes");
    for source in each_kind() {
        for to in [ENOUGH, TOO_SMALL] {
            let target = vec![0x5A; to.n * to.segment_len()];
            let right = Move {
                source: &source,
                g: SMALL,
                target: &target,
                to,
            };
            for g in wrong_geometries(SMALL) {
                refused(&store, Move { g, ..right }, SIZE);
            }
            for to in wrong_geometries(to) {
                refused(&store, Move { to, ..right }, SIZE);
                for g in wrong_geometries(SMALL) {
                    refused(&store, Move { g, to, ..right }, SIZE);
                }
            }
            for source in wrong_lengths(&source) {
                let source = &source[..];
                refused(&store, Move { source, ..right }, SIZE);
            }
            for target in wrong_lengths(&target) {
                let target = &target[..];
                refused(&store, Move { target, ..right }, SIZE);
            }
        }
    }
}

/// Neither 4 nor 5 is answered: 0 if the blocks fit, otherwise 7.
#[test]
fn every_kind() {
    let store = Store::new("rebuilds of each kind of source");
    for source in each_kind() {
        for to in [ENOUGH, TOO_SMALL] {
            let target = vec![0x5A; to.n * to.segment_len()];
            let this = Move {
                source: &source,
                g: SMALL,
                target: &target,
                to,
            };
            if to == ENOUGH {
                rebuilt(&store, this);
            } else {
                refused(&store, this, FULL);
            }
        }
    }
}

/// Sources in every state, disturbed, of any fill, age and version.
#[test]
fn every_state() {
    let store = Store::new("rebuilds of images in every state");
    let mut rng = Rng::new(0x113A);
    let mut seen = BTreeMap::<(char, u8), usize>::new();
    for (n, b, images) in [
        (2, 2, 1_200),
        (3, 2, 1_200),
        (3, 4, 800),
        (4, 15, 300),
        (9, 2, 300),
        (255, 2, 12),
        (2, 255, 12),
        (16, 255, 1),
    ] {
        let g = Geometry { n, b };
        for _ in 0..images {
            let shape = images::shape(&mut rng, g);
            let mut image = images::clean(&mut rng, g, shape);
            for _ in 0..rng.pick(&[0, 1, 1, 1, 2]) {
                images::disturb(&mut rng, g, &mut image);
            }
            let letter = by_the_reference(&image, g);
            let count = entries(&image, g).len();
            for to in [g, Geometry { n: 2, b: 2 }] {
                let target = any_target(&mut rng, to);
                let this = Move {
                    source: &image,
                    g,
                    target: &target,
                    to,
                };
                let code = if count <= to.capacity() { DONE } else { FULL };
                let allowance = rng.pick(&[0, 5, 40]);
                let (reply, _) = rebuild(&store, this, allowance);
                assert!(reply.code == code || (code == DONE && reply.code == CUT));
                match code {
                    DONE => drop(rebuilt(&store, this)),
                    _ => refused(&store, this, FULL),
                }
                *seen.entry((letter, code)).or_default() += 1;
                as_a_move(&store, this, letter);
            }
        }
    }
    let _ = writeln!(
        std::io::stderr(),
        "rebuilds of images in every state: {seen:?}"
    );
    let met = |letter| seen[&(letter, DONE)] > 50 && seen[&(letter, FULL)] > 20;
    assert!("-abcd!".chars().all(met));
}

/// A rebuild of a clean source is a move, and of an unfinished one a move of what recovery leaves.
fn as_a_move(store: &Store, this: Move, letter: char) {
    if letter == '!' {
        return;
    }
    let mut source = this.source.to_vec();
    let recovery = perform(&mut source, this.g, &Request::Recover, UNLIMITED);
    assert_eq!(recovery.code, DONE);
    let recovered = Move {
        source: &source,
        ..this
    };
    assert!(recovered.make(store, UNLIMITED) == rebuild(store, this, UNLIMITED));
}

/// A count of block numbers equal to C fits, and one more does not, however many candidates there are:
/// each block is there once, or as often as it finds room.
#[test]
fn capacities() {
    let store = Store::new("rebuilds at the target's capacity");
    let mut rng = Rng::new(0x113B);
    let g = Geometry { n: 16, b: 16 };
    let all = g.n * g.b;
    for (n, b) in [
        (2, 2),
        (2, 3),
        (3, 2),
        (4, 3),
        (2, 40),
        (40, 2),
        (15, 16),
        (16, 16),
    ] {
        let to = Geometry { n, b };
        let capacity = to.capacity();
        for count in [0, 1, capacity - 1, capacity, capacity + 1, all] {
            for copies in [false, true] {
                let source = each_block(&mut rng, g, count, copies);
                assert_eq!(entries(&source, g).len(), count);
                let target = any_target(&mut rng, to);
                let this = Move {
                    source: &source,
                    g,
                    target: &target,
                    to,
                };
                if count <= capacity {
                    rebuilt(&store, this);
                } else {
                    refused(&store, this, FULL);
                }
            }
        }
    }
}

/// A chip with N segments in use and so many block numbers, each once, or in all slots in turn.
fn each_block(rng: &mut Rng, g: Geometry, count: usize, copies: bool) -> Vec<u8> {
    let mut image = blank(g);
    let entries = short_entries(rng, count);
    for number in g.n..2 * g.n {
        write_header(&mut image, g, number as u32, SETTLED);
    }
    let mut places: Vec<usize> = (0..g.n * g.b).collect();
    rng.shuffle(&mut places);
    let slots = if copies && count > 0 {
        g.n * g.b
    } else {
        count
    };
    for (i, place) in places.into_iter().take(slots).enumerate() {
        let (block, contents) = &entries[i % count];
        let at = g.page(place / g.b, 1 + place % g.b);
        let mut contents = contents.clone();
        if i >= count && rng.once_in(2) {
            contents.push(b'x');
        }
        write_slot_page(&mut image[at..at + PAGE], LIVE, *block, &contents);
    }
    image
}

/// What is left aside is not counted: with it the blocks would be too many.
#[test]
fn left_aside_is_not_counted() {
    let store = Store::new("rebuilds, what is left aside is not counted");
    let mut rng = Rng::new(0x113C);
    for (n, b) in [(3, 2), (4, 3), (5, 4)] {
        let g = Geometry { n, b };
        for _ in 0..20 {
            let all = g.n * g.b;
            let source = each_block(&mut rng, g, all, false);
            let top = 2 * n as u32 - 1;
            let to = Geometry {
                n: 2,
                b: all - b + 1,
            };
            let target = any_target(&mut rng, to);
            let mut owing = source.clone();
            owe(&mut owing, g, top);
            let [whole, less] = [&source, &owing].map(|source| Move {
                source,
                g,
                target: &target,
                to,
            });
            refused(&store, whole, FULL);
            rebuilt(&store, less);
        }
    }
}

/// A source with room in the target for just its blocks, of every kind of header.
#[test]
fn sound_sources() {
    let store = Store::new("rebuilds of sound sources");
    let mut rng = Rng::new(0x113D);
    for (n, b) in [(2, 2), (4, 3), (9, 2), (4, 15)] {
        let g = Geometry { n, b };
        for heads in HEADS {
            for count in [0, 1, g.capacity()] {
                let stored = short_entries(&mut rng, count);
                let source = laid_out(&mut rng, g, &stored, heads);
                for to in [g, Geometry { n: 2, b: count + 2 }] {
                    let target = any_target(&mut rng, to);
                    let this = Move {
                        source: &source,
                        g,
                        target: &target,
                        to,
                    };
                    let image = rebuilt(&store, this);
                    assert!(table(&image, to) == Some(stored.clone()));
                    assert!(this.done(&store) == image);
                }
            }
        }
    }
}
