//! Request #104: images whose segments in use have both versions are damaged; but the one after an
//! owing top is left aside, whichever version it has.

use crate::conditions::by_the_reference;
use crate::cuts;
use crate::harness::{put_of, Store};
use crate::heads::{
    any_bits, any_total, clear_first, head, other, owe, set_total, set_version, ALL_BITS,
};
use crate::images::{full_ring, with_statuses, write_slot_page};
use crate::pages::write_header_of;
use crate::prng::Rng;
use crate::reference::*;
use crate::sequences::table_of;
use crate::step_lists::every_allowance;

pub const VERSIONS: [Version; 2] = [Version::One, Version::Two];

const CHIPS: [Geometry; 5] = [
    Geometry { n: 3, b: 2 },
    Geometry { n: 4, b: 2 },
    Geometry { n: 5, b: 3 },
    Geometry { n: 4, b: 15 },
    Geometry { n: 255, b: 2 },
];

/// Any total and bits in this header, if it is of version 2.
fn count(rng: &mut Rng, image: &mut [u8], g: Geometry, number: u32) {
    if head(image, g, number)[3] == 2 {
        set_total(image, g, number, any_total(rng));
        any_bits(rng, &mut head(image, g, number)[BITS]);
    }
}

/// A full ring of this version up to this number.
pub fn ring(rng: &mut Rng, g: Geometry, top: u32, version: Version) -> Vec<u8> {
    let mut image = full_ring(g, top);
    for number in top + 2 - g.n as u32..=top {
        set_version(&mut image, g, number, version);
        count(rng, &mut image, g, number);
    }
    image
}

/// Every request but format answers 4, and format makes version 2 of it.
fn damaged(store: &Store, image: &[u8], g: Geometry) {
    assert_eq!(by_the_reference(image, g), '!');
    for request in [
        Request::Recover,
        put_of(2, b"y"),
        put_of(60_000, b"y"),
        Request::Delete { block: 2 },
    ] {
        for allowance in [0, 1, UNLIMITED] {
            let reply = store.perform(&mut image.to_vec(), g, &request, allowance);
            assert_eq!((reply.code, reply.steps), (DAMAGED, 0));
        }
    }
    assert_eq!(store.read(image, g, 2).code, DAMAGED);
    let steps = store.done(&mut image.to_vec(), g, &Request::Format);
    assert_eq!(steps, g.n as u64 + 21);
}

/// The segments in use, each of either version: damaged unless all are of one.
#[test]
fn every_choice_of_versions() {
    let store = Store::new("every choice of versions");
    let mut rng = Rng::new(0x1044);
    for (n, b) in [(3, 2), (4, 2), (5, 2), (6, 3)] {
        let g = Geometry { n, b };
        for used in 1..n {
            for choice in 0..1 << used {
                let mut image = with_statuses(g, (7, used), b"x", |_, slot| {
                    [LIVE, DEAD, CUT_SLOT][(slot - 1) % 3]
                });
                for place in 0..used {
                    let version = VERSIONS[choice >> place & 1];
                    set_version(&mut image, g, 7 + place as u32, version);
                    count(&mut rng, &mut image, g, 7 + place as u32);
                }
                if choice == 0 || choice == (1 << used) - 1 {
                    assert_eq!(by_the_reference(&image, g), '-');
                    every_allowance(&store, &image, g, &Request::Delete { block: 1 });
                } else {
                    damaged(&store, &image, g);
                }
            }
        }
    }
}

/// One of the ring's segments is of the other version, the top among them.
#[test]
fn one_of_many() {
    let store = Store::new("one of many in the other version");
    let mut rng = Rng::new(0x1045);
    for g in CHIPS {
        let top = 4 * g.n as u32 + 1;
        for version in VERSIONS {
            let image = ring(&mut rng, g, top, version);
            for number in [top, top - 1, top + 2 - g.n as u32] {
                let mut mixed = image.clone();
                set_version(&mut mixed, g, number, other(version));
                count(&mut rng, &mut mixed, g, number);
                damaged(&store, &mixed, g);
                // An unfinished step beside it does not make it better.
                let mut half = mixed.clone();
                half[g.page(g.index(top + 1), 0) + 5] = TIDYING;
                damaged(&store, &half, g);
                owe(&mut mixed, g, top);
                damaged(&store, &mixed, g);
            }
            // All N are in use.
            for version in VERSIONS {
                let mut all = image.clone();
                write_header_of(version, &mut all, g, top + 1 - g.n as u32, OPENED);
                damaged(&store, &all, g);
            }
        }
    }
}

/// How many kinds of things [`fill_after`] has.
pub const AFTER_KINDS: usize = 7;

/// What may be in the segment after an owing top: nothing, or a segment in use of either version
/// with its slots, half erased or whole.
pub fn fill_after(rng: &mut Rng, image: &mut [u8], g: Geometry, top: u32, kind: usize) {
    let after = g.index(top + 1);
    let at = g.page(after, 0);
    Step::Erase { index: after }.apply(g, image);
    if kind == 0 {
        return;
    }
    let version = VERSIONS[kind % 2];
    let old = top + 1 - g.n as u32 * rng.between(1, 3) as u32;
    let status = rng.pick(&[OPENED, SETTLED, OWING]);
    write_header_of(version, image, g, old, status);
    count(rng, image, g, old);
    for slot in 1..=g.b {
        let page = &mut image[at + slot * PAGE..][..PAGE];
        write_slot_page(page, rng.pick(&[LIVE, DEAD]), slot as u16, b"stale");
    }
    match kind {
        1 | 2 => assert!(header(image, g, after).is_some()),
        3 | 4 => cuts::inside(rng, g, image, Step::Erase { index: after }),
        // another version still, and noise
        5 => image[at + 3] = 3,
        _ => {
            let noise = rng.bytes(g.segment_len());
            image[at..at + noise.len()].copy_from_slice(&noise);
        }
    }
}

/// How many steps the recovery of an owing top takes.
fn recovery_steps(image: &[u8], g: Geometry, top: u32, version: Version) -> u64 {
    let after = &image[g.page(g.index(top + 1), 0)..][..g.segment_len()];
    match version {
        _ if after.iter().all(|&byte| byte == 0xFF) => 1,
        Version::Two if tally(image, g, top).bit_left => 3,
        _ => 2,
    }
}

#[test]
fn the_one_after_an_owing_top_is_left_aside() {
    let store = Store::new("the one after an owing top left aside");
    let mut rng = Rng::new(0x1046);
    for g in CHIPS.into_iter().chain([Geometry { n: 2, b: 2 }]) {
        let rounds = if g.n == 255 { 2 } else { 30 };
        for version in VERSIONS {
            for round in 0..AFTER_KINDS * rounds {
                let top = 4 * g.n as u32 + rng.below(g.n) as u32;
                let mut image = ring(&mut rng, g, top, version);
                let table = table_of(&image, g);
                owe(&mut image, g, top);
                fill_after(&mut rng, &mut image, g, top, round % AFTER_KINDS);
                assert_eq!(by_the_reference(&image, g), 'b');
                let put = put_of(2, b"y");
                let reply = store.perform(&mut image.clone(), g, &put, UNLIMITED);
                assert_eq!(reply.code, UNFINISHED);
                every_allowance(&store, &image, g, &Request::Recover);
                let steps = recovery_steps(&image, g, top, version);
                assert_eq!(store.done(&mut image, g, &Request::Recover), steps);
                assert!(table_of(&image, g) == table);
            }
        }
    }
}

/// An erase that is cut raises bits, so it makes no header of one version one of the other.
#[test]
fn a_cut_erase_keeps_the_version() {
    let mut rng = Rng::new(0x1047);
    let g = Geometry { n: 2, b: 2 };
    let mut still_in_use = 0;
    for version in VERSIONS {
        for _ in 0..20_000 {
            let mut image = ring(&mut rng, g, 7, version);
            if version == Version::Two && rng.once_in(2) {
                let count = rng.below(ALL_BITS);
                clear_first(&mut head(&mut image, g, 7)[BITS], count);
            }
            cuts::inside(&mut rng, g, &mut image, Step::Erase { index: 1 });
            if let Some(found) = header(&image, g, 1) {
                assert_eq!((found.version, found.number), (version, 7));
                still_in_use += 1;
            }
        }
    }
    assert!(still_in_use > 1_000);
}
