//! Request #113: reports of images of every kind, most of them such as no store makes. Each goes through
//! the harness, where the plain implementation and the library are compared, with buffers of several
//! lengths, and where those that are clean or unfinished are held to the request's last sentences.

use crate::account_images::patchwork;
use crate::harness::Store;
use crate::heads::{owe, Heads};
use crate::images::{self, full_ring};
use crate::mixed_versions::{fill_after, ring, AFTER_KINDS, VERSIONS};
use crate::prng::Rng;
use crate::reference::*;
use crate::salvage_harness::told;
use crate::salvage_sources::{any_crowd, crowded, noise, Crowd, Seen};
use std::io::Write;

/// The report of an image, compared and counted.
fn tell(store: &Store, seen: &mut Seen, image: &[u8], g: Geometry) -> String {
    if image.len() < 200_000 {
        seen.count(image, g);
    }
    told(store, image, g)
}

fn say(test: &str, seen: &Seen) {
    let _ = writeln!(std::io::stderr(), "{test}: {seen:?}");
}

/// Sound boards, and those with one fault or a few.
#[test]
fn disturbed() {
    let store = Store::new("salvages of disturbed images");
    let mut rng = Rng::new(0x1131);
    let mut seen = Seen::default();
    for (n, b, images) in [
        (2, 2, 4_000),
        (2, 3, 2_000),
        (3, 2, 4_000),
        (4, 2, 2_000),
        (4, 15, 1_500),
        (5, 3, 3_000),
        (11, 2, 1_000),
        (3, 101, 60),
        (101, 2, 60),
        (2, 255, 60),
        (255, 2, 60),
        (16, 255, 6),
        (64, 255, 2),
        (255, 255, 1),
    ] {
        let g = Geometry { n, b };
        for _ in 0..images {
            let shape = images::shape(&mut rng, g);
            let mut image = images::clean(&mut rng, g, shape);
            for _ in 0..rng.pick(&[0, 1, 1, 1, 1, 2, 2, 3]) {
                images::disturb(&mut rng, g, &mut image);
            }
            tell(&store, &mut seen, &image, g);
        }
    }
    say("salvages of disturbed images", &seen);
    assert!(seen.clean > 1_000 && seen.unfinished > 1_000 && seen.damaged > 2_000);
    assert!(seen.differing > 5 && seen.agreed > 100 && seen.bare > 100);
    assert!(seen.both_versions > 100 && seen.all_used > 200);
    assert!(seen.aside > 100 && seen.aside_matters > 50);
}

/// Blocks many times over.
#[test]
fn crowds() {
    let store = Store::new("salvages of crowded images");
    let mut rng = Rng::new(0x1132);
    let mut seen = Seen::default();
    for (n, b, images) in [
        (2, 2, 4_000),
        (3, 2, 4_000),
        (3, 4, 3_000),
        (4, 15, 1_000),
        (5, 3, 3_000),
        (12, 12, 200),
        (9, 2, 1_000),
        (2, 255, 60),
        (255, 2, 60),
        (16, 255, 6),
        (255, 255, 1),
    ] {
        let g = Geometry { n, b };
        for _ in 0..images {
            let crowd = any_crowd(&mut rng, g);
            let image = crowded(&mut rng, g, crowd);
            tell(&store, &mut seen, &image, g);
        }
    }
    say("salvages of crowded images", &seen);
    assert!(seen.same > 5_000 && seen.differing > 5_000 && seen.agreed > 2_000);
    assert!(seen.all_used > 2_000 && seen.both_versions > 2_000 && seen.several_owing > 2_000);
    assert!(seen.aside > 1_000 && seen.aside_matters > 1_000);
}

/// Headers and slots that fit or nearly do, and noise.
#[test]
fn put_together() {
    let store = Store::new("salvages of images put together");
    let mut rng = Rng::new(0x1133);
    let mut seen = Seen::default();
    for (n, b, images) in [
        (2, 2, 3_000),
        (3, 4, 2_500),
        (4, 15, 1_000),
        (5, 2, 2_500),
        (12, 12, 200),
        (2, 255, 60),
        (255, 2, 60),
        (16, 255, 6),
    ] {
        let g = Geometry { n, b };
        for _ in 0..images {
            tell(&store, &mut seen, &patchwork(&mut rng, g), g);
        }
        for _ in 0..images / 4 {
            tell(&store, &mut seen, &noise(&mut rng, g), g);
            let bytes = rng.bytes(n * g.segment_len());
            assert_eq!(tell(&store, &mut seen, &bytes, g).lines().count(), 1);
        }
    }
    say("salvages of images put together", &seen);
    assert!(seen.same > 2_000 && seen.differing > 2_000);
}

/// The segment after an owing top holds anything: it has no candidate, with a fault elsewhere too.
#[test]
fn after_an_owing_top() {
    let store = Store::new("salvages, the one after an owing top");
    let mut rng = Rng::new(0x1134);
    let mut seen = Seen::default();
    for (n, b, rounds) in [(2, 2, 40), (3, 2, 40), (4, 15, 10), (5, 3, 40), (255, 2, 1)] {
        let g = Geometry { n, b };
        for version in VERSIONS {
            for round in 0..AFTER_KINDS * rounds {
                let top = (4 * n + rng.below(n)) as u32;
                let mut image = ring(&mut rng, g, top, version);
                owe(&mut image, g, top);
                fill_after(&mut rng, &mut image, g, top, round % AFTER_KINDS);
                let text = tell(&store, &mut seen, &image, g);
                let mut erased = image.clone();
                let after = g.index(top + 1);
                Step::Erase { index: after }.apply(g, &mut erased);
                assert!(tell(&store, &mut seen, &erased, g) == text);

                let spoilt = g.index(top + 2 + rng.below(n - 1) as u32);
                let mut damaged = image.clone();
                damaged[g.page(spoilt, rng.between(1, b))] = rng.pick(&[WRITING, 0]);
                tell(&store, &mut seen, &damaged, g);
                // One segment less: what follows the top may be the top itself then.
                Step::Erase { index: spoilt }.apply(g, &mut image);
                tell(&store, &mut seen, &image, g);
            }
        }
    }
    say("salvages, the one after an owing top", &seen);
    assert!(seen.aside > 500 && seen.aside_matters > 500 && seen.damaged > 500);
}

/// Each bit of a small board flipped; of a larger one those of the first bytes of headers and slots.
#[test]
fn each_bit_flipped() {
    let store = Store::new("salvages with each bit flipped");
    let mut rng = Rng::new(0x1135);
    let mut seen = Seen::default();
    let crowd = |blocks| Crowd {
        used: 8,
        blocks,
        live: 8,
        agreed: true,
    };
    for (n, b, first_bytes) in [(2, 2, PAGE), (4, 3, 34)] {
        let g = Geometry { n, b };
        let boards = [full_ring(g, 2 * n as u32), crowded(&mut rng, g, crowd(3))];
        for mut image in boards {
            for at in (0..image.len()).filter(|at| at % PAGE < first_bytes) {
                for bit in 0..8 {
                    image[at] ^= 1 << bit;
                    tell(&store, &mut seen, &image, g);
                    image[at] ^= 1 << bit;
                }
            }
        }
    }
    say("salvages with each bit flipped", &seen);
    assert!(seen.same > 10_000 && seen.differing > 500);
}

/// Segments wiped, one and several, of sound boards.
#[test]
fn wiped_segments() {
    let store = Store::new("salvages with segments wiped");
    let mut rng = Rng::new(0x1136);
    let mut seen = Seen::default();
    for (n, b) in [(2, 2), (3, 3), (5, 4), (6, 2)] {
        let g = Geometry { n, b };
        for wiped in 0..1usize << n {
            for byte in [0xFF, 0] {
                let mut shape = images::shape(&mut rng, g);
                shape.heads = rng.pick(&[Heads::Former, Heads::Early]);
                let mut image = images::clean(&mut rng, g, shape);
                for index in (0..n).filter(|index| wiped >> index & 1 == 1) {
                    image[g.page(index, 0)..][..g.segment_len()].fill(byte);
                }
                let text = tell(&store, &mut seen, &image, g);
                assert!(!text.contains("differs"));
            }
        }
    }
    say("salvages with segments wiped", &seen);
}

/// Every N and every B: the lines have numbers of each length.
#[test]
fn every_geometry() {
    let store = Store::new("salvages of every geometry");
    let mut rng = Rng::new(0x1137);
    let mut seen = Seen::default();
    for i in 2..=255 {
        let [few, some] = [(); 2].map(|()| rng.between(2, 12));
        for (n, b) in [(i, 2), (2, i), (i, few), (some, i)] {
            let g = Geometry { n, b };
            let shape = images::shape(&mut rng, g);
            let mut image = images::clean(&mut rng, g, shape);
            tell(&store, &mut seen, &image, g);
            images::disturb(&mut rng, g, &mut image);
            tell(&store, &mut seen, &image, g);
            let crowd = any_crowd(&mut rng, g);
            let image = crowded(&mut rng, g, crowd);
            tell(&store, &mut seen, &image, g);
        }
    }
    say("salvages of every geometry", &seen);
}

/// The largest chip, every slot live: each block number once, and one number in all slots.
#[test]
fn the_largest_chip() {
    let store = Store::new("salvages of the largest chip");
    let g = Geometry { n: 255, b: 255 };
    let number_of = |index: usize| 99_999 * 255 + index as u32;
    for same in [false, true] {
        let mut image = images::blank(g);
        for index in 0..g.n {
            images::write_header(&mut image, g, number_of(index), SETTLED);
            for slot in 1..=g.b {
                let at = g.page(index, slot);
                let place = index * g.b + slot;
                let block = if same { 65_534 } else { place as u16 };
                images::write_slot_page(&mut image[at..at + PAGE], LIVE, block, b"x");
            }
        }
        let text = told(&store, &image, g);
        if same {
            let line = "block 65534 len 1 seg 254 slot 255 same\n";
            assert_eq!(text, format!("salvage promises nothing\n{line}"));
            // The first slot of the smallest number differs.
            image[g.page(0, 1) + 8] = b'y';
            assert!(told(&store, &image, g).ends_with("slot 255 differs\n"));
            // The top owes: the segment with the smallest number is left aside.
            owe(&mut image, g, number_of(254));
            assert_eq!(told(&store, &image, g), text);
        } else {
            assert_eq!(text.lines().count(), 1 + g.n * g.b);
        }
    }
}
