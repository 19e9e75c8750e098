//! Request #108: up to 255 segments. The ring goes round past index 254, with cuts at each step of
//! the compactions and openings there.

use crate::conditions::by_the_reference;
use crate::damage::try_all;
use crate::harness::{put_of, Store};
use crate::images::{self, formatted, full_ring, rewrite_in_turn, with_statuses};
use crate::power_cuts::cut_everywhere;
use crate::prng::Rng;
use crate::reference::*;
use crate::sequences::table_of;
use crate::step_lists::every_allowance;

/// The old limit and what is above it, with few slots in each segment.
const CHIPS: [Geometry; 5] = [
    Geometry { n: 64, b: 2 },
    Geometry { n: 65, b: 2 },
    Geometry { n: 128, b: 2 },
    Geometry { n: 254, b: 2 },
    Geometry { n: 255, b: 2 },
];

/// The first bytes of the header that a compaction leaves, written out; the total is 0.
fn compacted(g: Geometry, number: u32) -> [u8; 21] {
    let index = number as usize % g.n;
    let old = if index == g.n - 1 { 0 } else { index + 1 };
    let mut bytes = [0; 21];
    bytes[..6].copy_from_slice(&[0x53, 0x4C, 0x54, 0x02, 0x00, 0x8F]);
    bytes[6..8].copy_from_slice(&[g.b as u8, g.n as u8]);
    bytes[8..12].copy_from_slice(&number.to_le_bytes());
    bytes[12..16].copy_from_slice(&(!number).to_le_bytes());
    bytes[16] = u8::try_from(old).expect("an index");
    bytes
}

/// Rewrites that compact once each, until this number is the top's.
fn compact_up_to(store: &Store, image: &mut [u8], g: Geometry, last: u32) {
    let State::Clean(view) = state_of(image, g) else {
        panic!("a clean image");
    };
    for number in view.top() + 1..=last {
        let request = rewrite_in_turn(image, g);
        // A compaction that copies all slots but one, a slot written, a mark; each byte is a step.
        let steps = 24 + 6 * (g.b - 1) + 6 + 1;
        assert_eq!(store.done(image, g, &request), steps as u64);
        let at = g.page(g.index(number), 0);
        assert_eq!(image[at..at + 21], compacted(g, number));
        assert!(image[at + 21..at + PAGE].iter().all(|&byte| byte == 0xFF));
    }
}

/// Bytes 7 and 16 of the header of this segment.
fn n_and_old(image: &[u8], g: Geometry, index: usize) -> (u8, u8) {
    let at = g.page(index, 0);
    (image[at + 7], image[at + 16])
}

/// From a format: openings up to index N-2, then compactions, twice round the ring.
#[test]
fn twice_round_the_ring() {
    let store = Store::new("twice round the ring");
    for g in CHIPS {
        let mut image = vec![0; g.n * g.segment_len()];
        assert_eq!(store.done(&mut image, g, &Request::Format), g.n as u64 + 21);
        let capacity = g.capacity() as u16;
        for block in (1..=capacity).chain([1]) {
            store.done(&mut image, g, &put_of(block, b"x"));
        }
        // All are opened, none compacted: no old segment, and the last index is still blank.
        for index in 0..g.n - 1 {
            assert_eq!(n_and_old(&image, g, index), (g.n as u8, 0xFF));
        }
        assert_eq!(image[g.page(g.n - 1, 0) + 5], 0xFF);
        compact_up_to(&store, &mut image, g, 2 * g.n as u32);
        if g.n == 255 {
            assert_eq!(n_and_old(&image, g, 253), (0xFF, 0xFE));
            assert_eq!(n_and_old(&image, g, 254), (0xFF, 0x00));
            assert_eq!(n_and_old(&image, g, 0), (0xFF, 0x01));
        }
        let table = table_of(&image, g).expect("clean");
        assert!(table.keys().copied().eq(1..=capacity));
        let refused = store.perform(&mut image, g, &put_of(60_000, b"x"), UNLIMITED);
        assert_eq!(refused.code, FULL);
        compact_up_to(&store, &mut image, g, 3 * g.n as u32 + 1);
    }
}

/// The same from index 252 to index 1 of a ring with many slots.
#[test]
fn past_index_254_with_many_slots() {
    let store = Store::new("past index 254 with many slots");
    for b in [254, 255] {
        let g = Geometry { n: 255, b };
        let mut image = full_ring(g, 2 * 255 + 252);
        compact_up_to(&store, &mut image, g, 3 * 255 + 1);
        assert_eq!(n_and_old(&image, g, 253), (0xFF, 0xFE));
        assert_eq!(n_and_old(&image, g, 254), (0xFF, 0x00));
        assert_eq!(n_and_old(&image, g, 0), (0xFF, 0x01));
    }
}

/// A compaction into the last index, and one into index 0: every allowance, and cuts after each step
/// and inside it, with recoveries that are cut too.
#[test]
fn cuts_of_compactions_past_the_last_index() {
    let store = Store::new("cuts of compactions past the last index");
    let mut rng = Rng::new(0x108);
    for g in CHIPS {
        for target in [g.n as u32 - 1, g.n as u32] {
            let image = full_ring(g, 5 * g.n as u32 + target - 1);
            let request = rewrite_in_turn(&image, g);
            let (_, list) = steps_of(&image, g, &request);
            // The old segment: 0 after the last index, 1 after index 0.
            let value = u8::from(target == g.n as u32);
            let at = g.page(g.index(target), 0) + 16;
            assert!(list.contains(&Step::Program { at, value }));
            every_allowance(&store, &image, g, &request);
            let subsets = if g.n == 255 { 8 } else { 1 };
            cut_everywhere(&store, &mut rng, g, &image, &request, subsets, 1);
        }
    }
}

/// An opening at each of the last two indices and at index 0, from a single full segment before it.
#[test]
fn cuts_of_openings_past_the_last_index() {
    let store = Store::new("cuts of openings past the last index");
    let mut rng = Rng::new(0x0108);
    for g in CHIPS {
        for target in g.n as u32 - 2..=g.n as u32 {
            let image = with_statuses(g, (3 * g.n as u32 + target - 1, 1), b"x", |_, _| LIVE);
            for block in [1, 9] {
                let request = put_of(block, b"y");
                let (_, list) = steps_of(&image, g, &request);
                assert_eq!(list.len(), 21 + 6 + usize::from(block == 1));
                every_allowance(&store, &image, g, &request);
                cut_everywhere(&store, &mut rng, g, &image, &request, 1, 0);
            }
        }
    }
}

/// The requests that are not cut above: N erases and 21 steps exceed a byte from N=235 on.
#[test]
fn every_allowance_of_format_delete_and_recover() {
    let store = Store::new("every allowance on many segments");
    for g in CHIPS {
        let image = full_ring(g, 2 * g.n as u32);
        every_allowance(&store, &image, g, &Request::Format);
        every_allowance(&store, &image, g, &Request::Delete { block: 2 });
        every_allowance(&store, &image, g, &Request::Recover);
        assert_eq!(steps_of(&image, g, &Request::Format).1.len(), g.n + 21);
        let mut fresh = image;
        store.done(&mut fresh, g, &Request::Format);
        assert!(fresh == formatted(g));
    }
}

/// Answer 8 by the count of compactions, up to 254 of them: only the segment at this place has a
/// dead slot, replaced or cut.
#[test]
fn worn_after_many_compactions() {
    let store = Store::new("worn after many compactions");
    for g in CHIPS {
        let used = g.n - 1;
        for place in [1, 2, used / 2, used / 2 + 1, used - 1, used] {
            // The last compaction would give the limit, or the number before it.
            for (last, code, status) in [
                (g.wear_limit(), WORN, DEAD),
                (g.wear_limit(), WORN, CUT_SLOT),
                (g.wear_limit() - 1, DONE, DEAD),
                (g.wear_limit() - 1, DONE, CUT_SLOT),
            ] {
                let oldest = last - place as u32 - (used as u32 - 1);
                let dead = (place, 2);
                let mut image = with_statuses(g, (oldest, used), b"x", |place, slot| {
                    if (place, slot) == dead {
                        status
                    } else {
                        LIVE
                    }
                });
                let reply = store.perform(&mut image, g, &put_of(1, b"y"), UNLIMITED);
                assert_eq!(reply.code, code);
                if code == DONE {
                    let compactions = 24 * place + 6 * (2 * place - 1);
                    assert_eq!(reply.steps, compactions as u64 + 6 + 1);
                }
            }
        }
    }
}

/// Each bit that is given, of the headers of segments 253, 254 and 0, the newest three, of the blank
/// one after them and of the oldest.
#[test]
fn every_header_bit() {
    let store = Store::new("every header bit at index 253, 254 and 0");
    let mut rng = Rng::new(0xB17);
    let g = Geometry { n: 255, b: 2 };
    let image = full_ring(g, 4 * 255);
    for index in [253, 254, 0, 1, 2] {
        for bit in (0..17 * 8).chain(21 * 8..32 * 8) {
            let mut flipped = image.clone();
            flipped[g.page(index, 0) + bit / 8] ^= 1 << (bit % 8);
            // Without the top, 254 is the top. With bit 4 of its status set, the top owes an erase.
            let letter = match index {
                0 if bit == 5 * 8 + 4 => 'b',
                0 | 1 => 'a',
                _ => '!',
            };
            assert_eq!(by_the_reference(&flipped, g), letter);
            try_all(&store, &mut rng, &flipped, g);
        }
    }
}

/// Every value of byte 7 and of byte 16 in the top, at the last index and at index 0.
#[test]
fn every_value_of_bytes_7_and_16() {
    let store = Store::new("every value of bytes 7 and 16");
    let mut rng = Rng::new(0x716);
    let g = Geometry { n: 255, b: 2 };
    for (top, old) in [(4 * 255 - 1, 0), (4 * 255, 1)] {
        let image = full_ring(g, top);
        for (place, right) in [(7, 0xFF), (16, old)] {
            for value in 0..=u8::MAX {
                let mut changed = image.clone();
                changed[g.page(g.index(top), 0) + place] = value;
                let sound = matches!(state_of(&changed, g), State::Clean(_));
                assert_eq!(sound, value == right);
                try_all(&store, &mut rng, &changed, g);
            }
        }
    }
    // Opened, it has no old segment: 255, which is never an index.
    let mut opened = full_ring(g, 4 * 255);
    images::write_header(&mut opened, g, 4 * 255, OPENED);
    for value in 0..=u8::MAX {
        opened[g.page(0, 0) + 16] = value;
        let sound = matches!(state_of(&opened, g), State::Clean(_));
        assert_eq!(sound, value == 0xFF);
        try_all(&store, &mut rng, &opened, g);
    }
}
