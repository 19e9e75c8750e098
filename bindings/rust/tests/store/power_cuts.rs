//! Power cuts after any step and inside one, and again inside the recovery (demand 2).

use crate::cuts;
use crate::harness::Store;
use crate::heads::Heads;
use crate::images::{self, formatted};
use crate::prng::Rng;
use crate::reference::*;
use crate::sequences::{table_of, Table};
use std::collections::HashSet;

/// The table that the recovery of this image shows, with the recovery itself cut up to `depth`
/// times, at every step and inside it.
pub fn recovered(store: &Store, rng: &mut Rng, g: Geometry, image: &[u8], depth: usize) -> Table {
    let mut whole = image.to_vec();
    store.done(&mut whole, g, &Request::Recover);
    let table = table_of(&whole, g).expect("a finished recovery is clean");
    if depth > 0 {
        let (_, list) = steps_of(image, g, &Request::Recover);
        let mut before = image.to_vec();
        for (done, step) in list.iter().enumerate() {
            let mut cut = image.to_vec();
            let reply = store.perform(&mut cut, g, &Request::Recover, done as u64);
            assert_eq!(reply.code, CUT);
            assert!(recovered(store, rng, g, &cut, depth - 1) == table);
            match *step {
                Step::Program { at, value } => {
                    let changing = (before[at] & !value).count_ones();
                    assert_eq!(
                        changing, 1,
                        "recovery clears single bits: they have no inside"
                    );
                }
                Step::Erase { .. } => {
                    for _ in 0..3 {
                        let mut inside = before.clone();
                        cuts::inside(rng, g, &mut inside, *step);
                        assert!(recovered(store, rng, g, &inside, depth - 1) == table);
                    }
                }
            }
            step.apply(g, &mut before);
        }
    }
    table
}

/// What a cut image may show, and what it may answer before recovery.
fn check_cut(
    store: &Store,
    rng: &mut Rng,
    g: Geometry,
    image: &[u8],
    old: &Table,
    new: &Table,
    depth: usize,
) {
    let shown = recovered(store, rng, g, image, depth);
    assert!(
        shown == *old || shown == *new,
        "neither the old table nor the new"
    );
    // Until recovery the other requests are refused, unless nothing is left to recover.
    let block = rng.pick(&[1, 2, 3]);
    let code = store.read(image, g, block).code;
    let contents = vec![0x42];
    let request = rng.pick(&[Request::Delete { block }, Request::Put { block, contents }]);
    let reply = store.perform(&mut image.to_vec(), g, &request, UNLIMITED);
    match table_of(image, g) {
        Some(table) => assert_eq!(code == DONE, table.contains_key(&block)),
        None => assert_eq!((code, reply.code), (UNFINISHED, UNFINISHED)),
    }
}

/// Cuts a request after each step and inside each: `subsets` is how many of the ways to cut a step
/// inside are tried, at most.
pub fn cut_everywhere(
    store: &Store,
    rng: &mut Rng,
    g: Geometry,
    image: &[u8],
    request: &Request,
    subsets: usize,
    depth: usize,
) {
    let (code, list) = steps_of(image, g, request);
    if code != DONE {
        return;
    }
    let old = table_of(image, g).expect("clean");
    let mut after = image.to_vec();
    store.done(&mut after, g, request);
    let new = table_of(&after, g).expect("clean");

    let mut before = image.to_vec();
    for (done, step) in list.iter().enumerate() {
        let mut cut = image.to_vec();
        let reply = store.perform(&mut cut, g, request, done as u64);
        assert_eq!(reply.code, CUT);
        assert!(cut == before);
        check_cut(store, rng, g, &cut, &old, &new, depth);

        match *step {
            Step::Program { at, value } => {
                let mut ways = cuts::inside_program(before[at], value);
                rng.shuffle(&mut ways);
                for byte in ways.into_iter().take(subsets) {
                    let mut inside = before.clone();
                    inside[at] = byte;
                    check_cut(store, rng, g, &inside, &old, &new, depth);
                }
            }
            Step::Erase { .. } => {
                for _ in 0..subsets {
                    let mut inside = before.clone();
                    cuts::inside(rng, g, &mut inside, *step);
                    check_cut(store, rng, g, &inside, &old, &new, depth);
                }
            }
        }
        step.apply(g, &mut before);
    }
}

/// Every image that a few requests reach on the smallest chips, every request on it, every cut of
/// that request after a step, and every subset of the bits of a program step.
#[test]
fn every_cut_on_the_smallest_chips() {
    let store = Store::new("every cut on the smallest chips");
    let mut rng = Rng::new(0xC075);
    for (n, b, depth) in [(2, 2, 6), (2, 3, 4), (3, 2, 5)] {
        let g = Geometry { n, b };
        let requests = [
            Request::Delete { block: 1 },
            Request::Put {
                block: 1,
                contents: vec![0x41],
            },
            Request::Put {
                block: 2,
                contents: vec![0x42],
            },
        ];
        let mut seen: HashSet<Vec<u8>> = HashSet::new();
        // One begins with an empty record, from before request #105.
        let mut level = vec![formatted(g), images::with_empty_records(g, 1..=1)];
        for _ in 0..depth {
            let mut next = Vec::new();
            for image in level {
                for request in &requests {
                    cut_everywhere(&store, &mut rng, g, &image, request, 256, 1);
                    let mut after = image.clone();
                    perform(&mut after, g, request, UNLIMITED);
                    if seen.insert(after.clone()) {
                        next.push(after);
                    }
                }
            }
            level = next;
        }
    }
}

/// Recovery cut three deep.
#[test]
fn cuts_of_recoveries_of_recoveries() {
    let store = Store::new("nested cuts of recovery");
    let mut rng = Rng::new(0x3DEE9);
    let g = Geometry { n: 2, b: 2 };
    let mut image = formatted(g);
    for contents in [b"a", b"b", b"c", b"d", b"e"] {
        let request = Request::Put {
            block: 1,
            contents: contents.to_vec(),
        };
        cut_everywhere(&store, &mut rng, g, &image, &request, 2, 3);
        perform(&mut image, g, &request, UNLIMITED);
    }
}

/// Puts with tidying on chips of many shapes and ages, cut everywhere.
#[test]
fn cuts_on_many_chips() {
    let store = Store::new("cuts on many chips");
    let mut rng = Rng::new(0x3A9E);
    for (n, b, images) in [
        (2, 2, 40),
        (2, 4, 12),
        (3, 3, 12),
        (4, 2, 12),
        (4, 5, 4),
        (6, 3, 4),
        (10, 2, 3),
    ] {
        let g = Geometry { n, b };
        for _ in 0..images {
            // Nearly full, so that a put tidies; the tops of a ring that has gone round before.
            let mut shape = images::shape(&mut rng, g);
            shape.filled = g.b;
            shape.oldest %= 50_000;
            shape.dead = rng.pick(&[0, 1, 8]);
            shape.heads = rng.pick(&[Heads::Fresh, Heads::Early]);
            let image = images::clean(&mut rng, g, shape);
            let request = Request::Put {
                block: images::some_block(&mut rng, g, &image),
                contents: rng.bytes(2),
            };
            cut_everywhere(&store, &mut rng, g, &image, &request, 2, 1);
        }
    }
}

/// A long life: requests with cuts in between, each followed by recoveries that are cut too. The
/// table is that of the acknowledged requests, with each interrupted one in or out.
#[test]
fn a_long_life_with_cuts() {
    let store = Store::new("a long life with cuts");
    let mut rng = Rng::new(0x11FE);
    for (n, b, requests) in [
        (2, 2, 4_000),
        (2, 5, 3_000),
        (3, 2, 3_000),
        (4, 15, 2_500),
        (5, 3, 2_500),
        (8, 8, 1_000),
        (64, 2, 700),
        (2, 255, 500),
        (16, 40, 250),
        (16, 255, 60),
        (64, 255, 16),
        (65, 2, 300),
        (128, 2, 300),
        (254, 2, 300),
        (255, 2, 700),
        (255, 255, 10),
    ] {
        let g = Geometry { n, b };
        let mut image = formatted(g);
        // Fresh, these would end before they compact.
        if n * b > 600 || n > 128 {
            let mut shape = images::shape(&mut rng, g);
            shape.oldest = 3 * n as u32;
            shape.used = n - 1;
            shape.heads = rng.pick(&[Heads::Fresh, Heads::Early]);
            image = images::clean(&mut rng, g, shape);
        }
        let blocks = g.capacity() + 1;
        for _ in 0..requests {
            let old = table_of(&image, g).expect("clean");
            let block = rng.between(1, blocks) as u16;
            let request = if rng.once_in(5) {
                Request::Delete { block }
            } else {
                Request::Put {
                    block,
                    contents: images::put_contents(&mut rng),
                }
            };
            let (code, list) = steps_of(&image, g, &request);
            let allowance = if !list.is_empty() && rng.once_in(3) {
                rng.below(list.len())
            } else {
                list.len()
            };
            let mut whole = image.clone();
            perform(&mut whole, g, &request, UNLIMITED);
            let new = table_of(&whole, g).expect("clean");

            let reply = store.perform(&mut image, g, &request, allowance as u64);
            if reply.code == CUT {
                if rng.once_in(2) {
                    cuts::inside(&mut rng, g, &mut image, list[allowance]);
                }
                // Recoveries that are cut again and again, then one that is not.
                while rng.once_in(3) {
                    let (_, recovery) = steps_of(&image, g, &Request::Recover);
                    let Some(last) = recovery.len().checked_sub(1) else {
                        break;
                    };
                    let allowance = rng.between(0, last);
                    store.perform(&mut image, g, &Request::Recover, allowance as u64);
                    if rng.once_in(2) {
                        cuts::inside(&mut rng, g, &mut image, recovery[allowance]);
                    }
                }
                store.done(&mut image, g, &Request::Recover);
                let shown = table_of(&image, g).expect("a finished recovery is clean");
                assert!(shown == old || shown == new);
            } else {
                assert_eq!(reply.code, code);
                assert!(table_of(&image, g) == Some(new));
            }
            store.read(&image, g, block);
        }
    }
}

/// A cut format promises nothing, but the next one that finishes does.
#[test]
fn cut_formats() {
    let store = Store::new("cut formats");
    let mut rng = Rng::new(0xF0F0);
    for (n, b) in [
        (2, 2),
        (3, 5),
        (64, 2),
        (4, 15),
        (65, 2),
        (254, 2),
        (255, 2),
    ] {
        let g = Geometry { n, b };
        let shape = images::shape(&mut rng, g);
        let image = images::clean(&mut rng, g, shape);
        let (_, list) = steps_of(&image, g, &Request::Format);
        assert_eq!(list.len(), n + 21);
        for (done, step) in list.iter().enumerate() {
            let mut cut = image.clone();
            let reply = store.perform(&mut cut, g, &Request::Format, done as u64);
            assert_eq!(reply.code, CUT);
            cuts::inside(&mut rng, g, &mut cut, *step);
            for request in [
                Request::Recover,
                Request::Delete { block: 1 },
                Request::Put {
                    block: 1,
                    contents: vec![1],
                },
            ] {
                store.perform(&mut cut.clone(), g, &request, UNLIMITED);
            }
            store.done(&mut cut, g, &Request::Format);
            assert!(cut == formatted(g));
        }
    }
}
