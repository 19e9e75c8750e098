//! Request #113, the second part: targets rebuilt from hostile sources, to chips of every shape.
//! `salvage_harness::rebuilt` holds each to what the salvage gives, and reads it back block by block.

use crate::harness::{put_of, Store};
use crate::images::{self, blank, formatted};
use crate::moving_harness::{any_target, Move};
use crate::moving_sources::spread;
use crate::prng::Rng;
use crate::reference::*;
use crate::salvage_harness::{rebuild, rebuilt, refused, told};
use crate::salvage_reference::entries;
use crate::salvage_sources::{any_crowd, crowded, noise, Crowd, Seen};
use std::collections::BTreeMap;
use std::io::Write;

const CHIPS: [(usize, usize); 10] = [
    (2, 2),
    (2, 3),
    (3, 2),
    (2, 40),
    (9, 2),
    (4, 15),
    (16, 16),
    (33, 7),
    (2, 255),
    (255, 2),
];

/// A rebuild to a chip of any shape: the code.
fn try_rebuild(store: &Store, rng: &mut Rng, source: &[u8], g: Geometry, to: Geometry) -> u8 {
    let target = any_target(rng, to);
    let this = Move {
        source,
        g,
        target: &target,
        to,
    };
    if entries(source, g).len() <= to.capacity() {
        let image = rebuilt(store, this);
        // All agree there, and a salvage of it gives the same again.
        let text = told(store, &image, to);
        assert!(!text.contains("differs"));
        assert!(entries(&image, to) == entries(source, g));
        DONE
    } else {
        refused(store, this, FULL);
        FULL
    }
}

#[test]
fn crowds() {
    let store = Store::new("rebuilds of crowded images");
    let mut rng = Rng::new(0x1141);
    let mut seen = Seen::default();
    let mut codes = BTreeMap::<u8, usize>::new();
    for (n, b, images) in [
        (2, 2, 500),
        (3, 4, 400),
        (4, 15, 150),
        (5, 3, 400),
        (12, 12, 40),
        (2, 255, 12),
        (255, 2, 12),
    ] {
        let g = Geometry { n, b };
        for _ in 0..images {
            let image = if rng.once_in(4) {
                noise(&mut rng, g)
            } else {
                let crowd = any_crowd(&mut rng, g);
                crowded(&mut rng, g, crowd)
            };
            seen.count(&image, g);
            let (n, b) = rng.pick(&CHIPS);
            let to = if rng.once_in(3) { g } else { Geometry { n, b } };
            let code = try_rebuild(&store, &mut rng, &image, g, to);
            *codes.entry(code).or_default() += 1;
        }
    }
    let _ = writeln!(
        std::io::stderr(),
        "rebuilds of crowded images: {codes:?}, {seen:?}"
    );
    assert!(codes[&DONE] > 500 && codes[&FULL] > 100);
    assert!(seen.differing > 500 && seen.agreed > 200 && seen.aside_matters > 50);
}

/// No candidate: an empty formatted image.
#[test]
fn nothing_found() {
    let store = Store::new("rebuilds of nothing");
    let mut rng = Rng::new(0x1142);
    for (n, b) in CHIPS {
        let to = Geometry { n, b };
        let g = Geometry { n: 3, b: 4 };
        let sources = [
            blank(g),
            vec![0; g.n * g.segment_len()],
            formatted(g),
            rng.bytes(g.n * g.segment_len()),
        ];
        for source in sources {
            let target = any_target(&mut rng, to);
            let this = Move {
                source: &source,
                g,
                target: &target,
                to,
            };
            assert!(rebuilt(&store, this) == formatted(to));
            let steps = n as u64 + 21;
            assert_eq!(rebuild(&store, this, steps).0.code, DONE);
            assert_eq!(rebuild(&store, this, steps - 1).0.code, CUT);
        }
    }
}

/// Every number of segments and every number of slots, in the source and in the target.
#[test]
fn every_geometry() {
    let store = Store::new("rebuilds from and to every N and B");
    let mut rng = Rng::new(0x1143);
    let crowd = Crowd {
        used: 8,
        blocks: 600,
        live: 8,
        agreed: true,
    };
    for i in 2..=255 {
        for (n, b) in [(i, 2), (2, i)] {
            let g = Geometry { n, b };
            let source = crowded(&mut rng, g, crowd);
            try_rebuild(&store, &mut rng, &source, g, g);
            let to = Geometry { n: b, b: n };
            try_rebuild(&store, &mut rng, &source, g, to);
            let to = Geometry {
                n: n.min(254) + 1,
                b,
            };
            try_rebuild(&store, &mut rng, &source, g, to);
        }
    }
}

/// The target is a store like any other.
#[test]
fn on_from_there() {
    let store = Store::new("requests after a rebuild");
    let mut rng = Rng::new(0x1144);
    for (n, b) in [(2, 5), (3, 4), (5, 4), (4, 15), (9, 2)] {
        let to = Geometry { n, b };
        for _ in 0..8 {
            let g = Geometry { n: 4, b: 6 };
            let crowd = Crowd {
                used: 8,
                blocks: 1 + to.capacity() / 2,
                live: 6,
                agreed: false,
            };
            let source = loop {
                let image = crowded(&mut rng, g, crowd);
                if entries(&image, g).len() <= to.capacity() {
                    break image;
                }
            };
            let target = any_target(&mut rng, to);
            let this = Move {
                source: &source,
                g,
                target: &target,
                to,
            };
            let mut image = rebuilt(&store, this);
            let mut blocks: Vec<u16> = entries(&image, to).iter().map(|one| one.0).collect();
            blocks.extend(spread(&mut rng, 3));
            for _ in 0..60 {
                let block = rng.pick(&blocks);
                let request = match rng.below(5) {
                    0 => Request::Delete { block },
                    _ => put_of(block, &images::put_contents(&mut rng)),
                };
                let (_, list) = steps_of(&image, to, &request);
                let allowance = rng.between(0, 2 * list.len());
                store.perform(&mut image, to, &request, allowance as u64);
                told(&store, &image, to);
                store.done(&mut image, to, &Request::Recover);
                store.read(&image, to, block);
            }
        }
    }
}

/// From the largest chip, with each slot live: to one as large, which holds too few for all, and once
/// the blocks come twice.
#[test]
fn the_largest_chip() {
    let store = Store::new("rebuilds of the largest chip");
    let g = Geometry { n: 255, b: 255 };
    let chip = |blocks: usize| {
        let mut image = blank(g);
        for index in 0..g.n {
            images::write_header(&mut image, g, 510 + index as u32, OPENED);
            for slot in 1..=g.b {
                let at = g.page(index, slot);
                let block = 1 + ((index * g.b + slot - 1) % blocks) as u16;
                images::write_slot_page(&mut image[at..at + PAGE], LIVE, block, &[slot as u8]);
            }
        }
        image
    };
    let target = vec![0; g.n * g.segment_len()];
    for (blocks, code) in [
        (65_025, FULL),
        (64_770, FULL),
        (64_769, DONE),
        (10_000, DONE),
    ] {
        let source = chip(blocks);
        let this = Move {
            source: &source,
            g,
            target: &target,
            to: g,
        };
        match code {
            DONE => drop(rebuilt(&store, this)),
            _ => assert_eq!(rebuild(&store, this, UNLIMITED).0.code, FULL),
        }
    }
}
