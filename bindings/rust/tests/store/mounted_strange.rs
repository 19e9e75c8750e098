//! Tables and images that somebody else wrote (request #102, out of step).

use crate::images::with_statuses;
use crate::mounted_harness::any_table;
use crate::mounted_reference::{mount, PLACES};
use crate::prng::Rng;
use crate::reference::*;

/// The table of an image as far as a walk over its slots finds one, whatever its state.
pub fn table_by_statuses(image: &[u8], g: Geometry) -> Vec<u32> {
    let mut table = vec![0; PLACES + 2];
    for index in 0..g.n {
        for slot in 1..=g.b {
            let at = g.page(index, slot);
            if image[at] == LIVE {
                let block = u16::from_le_bytes([image[at + 2], image[at + 3]]);
                table[usize::from(block)] = at as u32;
            }
        }
    }
    table[0] = 1;
    table
}

/// The table of a mount, or of a walk if the image is not clean.
pub fn own_table(image: &[u8], g: Geometry) -> Vec<u32> {
    let mut table = any_table(PLACES + 2);
    if mount(image, g, &mut table) != DONE {
        return table_by_statuses(image, g);
    }
    table
}

/// An entry that a mount of this image may not leave.
fn strange_entry(rng: &mut Rng, g: Geometry, length: usize) -> u32 {
    let slot = g.page(rng.below(g.n), rng.between(1, g.b));
    let entry = match rng.below(10) {
        0 => 0,
        1 => g.page(rng.below(g.n), 0),
        2 => slot + rng.between(1, 255),
        3 => length + PAGE * rng.below(3),
        4 => length - rng.between(1, 300),
        5 => rng.pick(&[
            1,
            2,
            8,
            255,
            256,
            511,
            512,
            0xFFFF_FF00,
            0xFFFF_FFFF,
            1 << 31,
        ]),
        6 => rng.next() as u32 as usize,
        7 => rng.below(1 << 24) & !255,
        _ => slot,
    };
    entry as u32
}

/// Changes some entries, of this block more often than others, and entry 0 at times.
pub fn disturb_table(rng: &mut Rng, g: Geometry, length: usize, table: &mut [u32], block: u16) {
    if rng.once_in(2) {
        table[usize::from(block)] = strange_entry(rng, g, length);
    }
    match rng.below(8) {
        0 => {
            for entry in &mut table[1..PLACES] {
                *entry = rng.next() as u32;
            }
        }
        1 => table[1..PLACES].fill(strange_entry(rng, g, length)),
        2..=4 => {
            for _ in 0..rng.between(1, 40) {
                table[rng.between(1, 65_535)] = strange_entry(rng, g, length);
            }
        }
        _ => {}
    }
    if rng.once_in(10) {
        table[0] = rng.pick(&[0, 2, 0x1_0001, 0x101, u32::MAX]);
    }
}

/// How many kinds of strange rings there are.
pub const RING_KINDS: usize = 11;

/// A ring that no store makes, by its kind: nothing dead, nothing blank, all blank, headers at the end
/// of their range or of another version, slots that no put writes, and so on.
pub fn strange_ring(rng: &mut Rng, g: Geometry, kind: usize) -> Vec<u8> {
    let dead = rng.below((g.n - 1) * g.b);
    let used = if kind == 1 { g.n } else { g.n - 1 };
    let oldest = rng.below(3 * g.n) as u32;
    let mut image = with_statuses(g, (oldest, used), b"x", |place, slot| {
        let this = (place - 1) * g.b + slot - 1;
        if this == dead && kind > 1 {
            [DEAD, CUT_SLOT][this % 2]
        } else {
            LIVE
        }
    });
    let top = oldest + used as u32 - 1;
    let header = g.page(g.index(top), 0);
    match kind {
        2 => image.fill(0xFF),
        3 => {
            let limit = g.wear_limit();
            let near = limit - 3 + rng.below(6) as u32;
            let number = rng.pick(&[near, u32::MAX, u32::MAX - 1, 1 << 31, limit * 2]);
            image[header + 8..header + 12].copy_from_slice(&number.to_le_bytes());
        }
        4 => {
            let total = rng.pick(&[99_998, 99_999, 100_000, u32::MAX, u32::MAX - 1_792]);
            image[header + 17..header + 21].copy_from_slice(&total.to_le_bytes());
            let bits = rng.byte();
            image[header + 32..header + 256].fill(bits);
        }
        5 | 6 => {
            // Lengths, block numbers and statuses of slots that are copied.
            for _ in 0..rng.between(1, 2 * g.b) {
                let at = g.page(rng.below(g.n), rng.between(1, g.b));
                match rng.below(4) {
                    0 => image[at + 1] = rng.between(249, 255) as u8,
                    1 => image[at + 2..at + 4].fill(rng.pick(&[0, 0xFF])),
                    2 => image[at + 2..at + 4].copy_from_slice(&[7, 0]),
                    _ => image[at] = rng.byte(),
                }
            }
        }
        7 => image[header + 3] = rng.byte(),
        8 => {
            // The blank segment is not.
            let after = g.page(g.index(top + 1), 0);
            let noise = rng.bytes(g.segment_len());
            image[after..after + noise.len()].copy_from_slice(&noise);
            image[after + 5] = 0xFF;
        }
        9 => {
            // A hole in the ring.
            let hole = g.page(rng.below(g.n), 0);
            image[hole + 5] = 0xFF;
        }
        10 => {
            for slot in 1..=g.b {
                let at = g.page(g.index(top), slot);
                if rng.once_in(2) {
                    image[at..at + PAGE].fill(0xFF);
                }
            }
        }
        kind => assert!(kind < RING_KINDS),
    }
    image
}
