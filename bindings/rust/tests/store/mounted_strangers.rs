//! Request #102, out of step: images and tables that somebody else wrote, and other N and B. Only
//! the refusals by the arguments and by entry 0 are certain; a call that gives another one changes
//! nothing, a cut spoils the table, and none panics, runs for ever or leaves image and table.

use crate::harness::{put_of, Store};
use crate::images::{self, formatted, with_statuses, write_header, write_slot_page};
use crate::mounted_harness::{try_stranger_read, try_strangers};
use crate::mounted_reference::Lent;
use crate::mounted_strange::{
    disturb_table, own_table, strange_ring, table_by_statuses, RING_KINDS,
};
use crate::prng::Rng;
use crate::reference::*;

/// Reads, and then a few puts and deletes, each on what the one before left.
fn try_calls(store: &Store, rng: &mut Rng, lent: Lent, block: u16) {
    let other = images::some_block(rng, lent.g, lent.image);
    for block in [block, other, 65_534, 0] {
        try_stranger_read(store, lent, block);
    }
    let mut calls = Vec::new();
    for _ in 0..rng.between(1, 4) {
        let small = rng.between(1, 24) as u16;
        let block = rng.pick(&[block, block, other, small, 60_000, 65_535]);
        let contents = if rng.once_in(16) {
            rng.bytes(249)
        } else {
            images::put_contents(rng)
        };
        let request = match rng.below(4) {
            0 => Request::Delete { block },
            _ => put_of(block, &contents),
        };
        let allowance = match rng.below(5) {
            0 => rng.below(3) as u64,
            1 => rng.below(400) as u64,
            _ => UNLIMITED,
        };
        calls.push((request, allowance));
    }
    try_strangers(store, lent, &calls);
}

/// Calls on an image with the table that was right once, as it is and disturbed.
fn try_image(store: &Store, rng: &mut Rng, g: Geometry, image: &[u8], table: &[u32]) {
    let block = images::some_block(rng, g, image);
    let lent = Lent { g, image, table };
    try_calls(store, rng, lent, block);
    let mut table = table.to_vec();
    disturb_table(rng, g, image.len(), &mut table, block);
    let table = &table[..];
    try_calls(store, rng, Lent { table, ..lent }, block);
}

/// Clean images of any fill and age, and with a change that the table does not know of.
#[test]
fn images_changed() {
    let store = Store::new("mounted calls on images changed");
    let mut rng = Rng::new(0x1029);
    for (n, b, images) in [
        (2, 2, 600),
        (3, 2, 600),
        (3, 4, 400),
        (4, 15, 150),
        (9, 2, 150),
        (255, 2, 20),
        (2, 255, 10),
        (16, 255, 2),
    ] {
        let g = Geometry { n, b };
        for _ in 0..images {
            let shape = images::shape(&mut rng, g);
            let mut image = images::clean(&mut rng, g, shape);
            let table = own_table(&image, g);
            for _ in 0..rng.pick(&[0, 1, 1, 2, 3]) {
                images::disturb(&mut rng, g, &mut image);
            }
            if rng.once_in(4) {
                // Another clean image, of which the table knows nothing.
                let shape = images::shape(&mut rng, g);
                image = images::clean(&mut rng, g, shape);
            }
            try_image(&store, &mut rng, g, &image, &table);
        }
    }
}

/// The table of one geometry, asked with another that has the same length.
#[test]
fn another_geometry() {
    let store = Store::new("mounted calls with another geometry");
    let mut rng = Rng::new(0x102A);
    for (made, asked) in [
        ((2, 255), (128, 3)),
        ((128, 3), (2, 255)),
        ((4, 5), (6, 3)),
        ((6, 3), (4, 5)),
        ((2, 5), (4, 2)),
        ((3, 7), (8, 2)),
        ((255, 2), (3, 254)),
        ((3, 254), (255, 2)),
    ] {
        let [made, asked] = [made, asked].map(|(n, b)| Geometry { n, b });
        for _ in 0..12 {
            let shape = images::shape(&mut rng, made);
            let image = images::clean(&mut rng, made, shape);
            assert!(asked.fits(image.len()));
            let table = own_table(&image, made);
            try_image(&store, &mut rng, asked, &image, &table);
        }
    }
}

/// All bytes alike, noise, and noise under headers that are in use.
#[test]
fn noise() {
    let store = Store::new("mounted calls on noise");
    let mut rng = Rng::new(0x102B);
    for (n, b, rounds) in [(2, 2, 250), (3, 3, 250), (4, 15, 40), (255, 2, 6)] {
        let g = Geometry { n, b };
        let length = n * g.segment_len();
        for round in 0..rounds {
            let mut image = match round % 4 {
                0 => vec![rng.pick(&[0xFF, 0x3F, 0x00, 0x1F, 0x7F]); length],
                _ => rng.bytes(length),
            };
            if round % 2 == 0 {
                let base = rng.below(1_000) as u32;
                for number in base..base + rng.between(1, n) as u32 {
                    write_header(&mut image, g, number, rng.pick(&[OPENED, SETTLED, OWING]));
                }
            }
            if round % 3 == 0 {
                // Statuses that look right.
                for at in (0..length).step_by(PAGE) {
                    image[at] = rng.pick(&[LIVE, LIVE, LIVE, DEAD, 0xFF]);
                }
            }
            let table = table_by_statuses(&image, g);
            try_image(&store, &mut rng, g, &image, &table);
        }
    }
}

#[test]
fn strange_rings() {
    let store = Store::new("mounted calls on strange rings");
    let mut rng = Rng::new(0x102C);
    for (n, b, rounds) in [(2, 2, 30), (3, 2, 40), (4, 3, 30), (4, 15, 8), (255, 2, 1)] {
        let g = Geometry { n, b };
        for kind in 0..RING_KINDS {
            for _ in 0..rounds {
                let image = strange_ring(&mut rng, g, kind);
                let table = table_by_statuses(&image, g);
                try_image(&store, &mut rng, g, &image, &table);
            }
        }
    }
}

/// Each kind of entry for the block of a call, on a clean image with room and on a full one; and the
/// slots that the entries name hold anything.
#[test]
fn every_entry() {
    let store = Store::new("mounted calls with every entry");
    let mut rng = Rng::new(0x102D);
    let g = Geometry { n: 3, b: 2 };
    let roomy = formatted(g);
    let full = with_statuses(g, (4, 2), b"x", |place, slot| {
        [LIVE, DEAD][usize::from((place, slot) == (2, 1))]
    });
    for image in [roomy, full] {
        let length = image.len() as u32;
        let mut entries: Vec<u32> = (0..=length + 512).step_by(64).collect();
        entries.extend([1, 7, 255, 257, length - 1, length + 1, 1 << 24, 1 << 31]);
        entries.extend([0xFFFF_FF00, u32::MAX, u32::MAX - 255]);
        let table = own_table(&image, g);
        for entry in entries {
            let (mut image, mut table) = (image.clone(), table.clone());
            table[7] = entry;
            if rng.once_in(4) && entry < length && entry % 256 == 0 {
                let at = entry as usize;
                write_slot_page(&mut image[at..at + PAGE], rng.byte(), 7, b"stale");
                image[at + 1] = rng.pick(&[0, 248, 249, 255]);
            }
            let lent = Lent {
                g,
                image: &image,
                table: &table,
            };
            try_calls(&store, &mut rng, lent, 7);
        }
    }
}
