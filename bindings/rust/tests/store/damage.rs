//! Any image and any arguments: noise, damage, wrong sizes, and chips near the end of their life.

use crate::harness::Store;
use crate::heads::{set_version, Heads};
use crate::images::{self, formatted};
use crate::prng::Rng;
use crate::reference::*;
use std::io::Write;

/// Every request on an image, each with some allowances.
pub fn try_all(store: &Store, rng: &mut Rng, image: &[u8], g: Geometry) {
    let found = images::some_block(rng, g, image);
    let small = rng.between(1, 24) as u16;
    let block = rng.pick(&[found, found, found, small, small, 65_534, 0, 65_535]);
    let mut contents = images::put_contents(rng);
    if rng.once_in(20) {
        contents = rng.bytes(249);
    }
    let requests = [
        Request::Recover,
        Request::Put { block, contents },
        Request::Delete { block },
        Request::Format,
    ];
    for request in requests {
        let allowance = match rng.below(4) {
            0 => rng.below(3) as u64,
            1 => rng.below(400) as u64,
            _ => UNLIMITED,
        };
        store.perform(&mut image.to_vec(), g, &request, allowance);
    }
    store.read(image, g, block);
    store.read(image, g, found);
    store.account(image, g);
}

/// How often each state came up.
#[derive(Default, Debug)]
struct States {
    clean: usize,
    a: usize,
    b: usize,
    c: usize,
    d: usize,
    damaged: usize,
}

impl States {
    fn count(&mut self, image: &[u8], g: Geometry) {
        let counter = match state_of(image, g) {
            State::Clean(_) => &mut self.clean,
            State::Unfinished(Unfinished::A { .. }) => &mut self.a,
            State::Unfinished(Unfinished::B { .. }) => &mut self.b,
            State::Unfinished(Unfinished::C { .. }) => &mut self.c,
            State::Unfinished(Unfinished::D { .. }) => &mut self.d,
            State::Damaged => &mut self.damaged,
        };
        *counter += 1;
    }
}

#[test]
fn disturbed_images() {
    let store = Store::new("disturbed images");
    let mut rng = Rng::new(0xD157);
    let mut states = States::default();
    for (n, b, images) in [
        (2, 2, 12_000),
        (2, 3, 8_000),
        (3, 2, 12_000),
        (3, 4, 6_000),
        (4, 2, 8_000),
        (4, 15, 1_500),
        (5, 3, 4_000),
        (9, 2, 2_500),
        (64, 2, 400),
        (2, 255, 200),
        (16, 255, 12),
        (64, 255, 4),
        (65, 2, 200),
        (128, 2, 150),
        (254, 2, 150),
        (255, 2, 300),
        (255, 3, 100),
        (128, 255, 2),
        (255, 255, 2),
    ] {
        let g = Geometry { n, b };
        for _ in 0..images {
            let shape = images::shape(&mut rng, g);
            let mut image = images::clean(&mut rng, g, shape);
            assert!(matches!(state_of(&image, g), State::Clean(_)), "{shape:?}");
            for _ in 0..rng.pick(&[0, 1, 1, 1, 1, 2, 2, 3]) {
                images::disturb(&mut rng, g, &mut image);
            }
            states.count(&image, g);
            try_all(&store, &mut rng, &image, g);
        }
    }
    let _ = writeln!(std::io::stderr(), "disturbed images: {states:?}");
    for count in [states.clean, states.a, states.b, states.c, states.d] {
        assert!(count > 500, "each state comes up");
    }
}

/// Each bit of an image flipped, one after the other, in both versions.
#[test]
fn every_bit_flipped() {
    let store = Store::new("every bit flipped");
    let mut rng = Rng::new(0xF11B);
    let g = Geometry { n: 2, b: 2 };
    let mut clean = formatted(g);
    for contents in [b"a", b"b", b"c"] {
        put(&mut clean, g, 7, contents, UNLIMITED);
    }
    let mut owing = formatted(g);
    put(&mut owing, g, 7, b"a", UNLIMITED);
    put(&mut owing, g, 7, b"b", UNLIMITED);
    put(&mut owing, g, 7, b"c", 28);
    let mut former = [clean.clone(), owing.clone()];
    for image in &mut former {
        set_version(image, g, 1, Version::One);
    }
    set_version(&mut former[1], g, 0, Version::One);
    for image in [clean, owing].into_iter().chain(former) {
        for bit in 0..image.len() * 8 {
            let mut flipped = image.clone();
            flipped[bit / 8] ^= 1 << (bit % 8);
            try_all(&store, &mut rng, &flipped, g);
        }
    }
}

#[test]
fn noise() {
    let store = Store::new("noise");
    let mut rng = Rng::new(0x4015E);
    for (n, b, images) in [
        (2, 2, 1_500),
        (3, 3, 800),
        (4, 15, 60),
        (64, 255, 1),
        (128, 2, 6),
        (255, 2, 10),
        (255, 255, 1),
    ] {
        let g = Geometry { n, b };
        for round in 0..images {
            let mut image = rng.bytes(n * g.segment_len());
            if round % 2 == 0 {
                // Right headers over noise.
                let base = rng.below(1_000) as u32;
                for number in base..base + rng.between(1, n) as u32 {
                    let status = rng.pick(&[OPENED, SETTLED, OWING]);
                    images::write_header(&mut image, g, number, status);
                }
            }
            try_all(&store, &mut rng, &image, g);
        }
    }
    for value in 0..=255 {
        let g = Geometry { n: 3, b: 2 };
        let image = vec![value; 3 * g.segment_len()];
        try_all(&store, &mut rng, &image, g);
    }
}

/// Images cut short or with bytes more.
fn wrong_lengths(store: &Store, rng: &mut Rng, image: &[u8], g: Geometry) {
    let whole = image.len();
    for length in [0, 1, 16, 17, 255, 256, 257] {
        try_all(store, rng, &image[..length], g);
    }
    for length in [whole / 2, whole - 256, whole - 1] {
        try_all(store, rng, &image[..length], g);
    }
    for more in [1, 256, whole] {
        let longer = [image, &vec![0xFF; more]].concat();
        try_all(store, rng, &longer, g);
    }
}

/// Geometries that do not belong to the image.
fn wrong_geometries(store: &Store, rng: &mut Rng, image: &[u8], g: Geometry) {
    let Geometry { n, b } = g;
    for other in [0, 1, n - 1, n + 1, 256, 256 + n] {
        try_all(store, rng, image, Geometry { n: other, b });
    }
    for other in [0, 1, 256, 256 + b] {
        try_all(store, rng, image, Geometry { n, b: other });
    }
    for (n, b) in [
        (b, n),
        // products that are the right length again once they have overflowed
        (n + (1 << 56), b),
        (n, b + (1 << 56)),
        (1 << 32, (1 << 32) - 1),
        (usize::MAX, usize::MAX),
    ] {
        try_all(store, rng, image, Geometry { n, b });
    }
}

#[test]
fn wrong_sizes() {
    let store = Store::new("wrong sizes");
    let mut rng = Rng::new(0x512E);
    for (n, b) in [
        (2, 2),
        (3, 2),
        (4, 15),
        (2, 255),
        (64, 2),
        (65, 2),
        (255, 2),
    ] {
        let g = Geometry { n, b };
        let shape = images::shape(&mut rng, g);
        let image = images::clean(&mut rng, g, shape);
        wrong_lengths(&store, &mut rng, &image, g);
        wrong_geometries(&store, &mut rng, &image, g);
    }
    // Any N and B up to 300.
    for _ in 0..3_000 {
        let g = Geometry {
            n: rng.below(300),
            b: rng.below(300),
        };
        let length = if rng.once_in(2) {
            1_536
        } else {
            g.n * (g.b + 1) * 256
        };
        try_all(&store, &mut rng, &vec![0xFF; length.min(20_000)], g);
    }
}

/// Another geometry of the same length: the headers say otherwise.
#[test]
fn another_geometry() {
    let store = Store::new("another geometry of the same length");
    let mut rng = Rng::new(0x512F);
    for (made, asked) in [
        ((4, 5), (6, 3)),
        ((6, 3), (4, 5)),
        ((2, 5), (4, 2)),
        ((3, 7), (8, 2)),
        ((128, 3), (64, 7)),
        ((255, 2), (3, 254)),
        ((3, 254), (255, 2)),
    ] {
        let [made, asked] = [made, asked].map(|(n, b)| Geometry { n, b });
        for _ in 0..20 {
            let shape = images::shape(&mut rng, made);
            let image = images::clean(&mut rng, made, shape);
            assert!(asked.fits(image.len()));
            assert_eq!(state_of(&image, asked), State::Damaged);
            try_all(&store, &mut rng, &image, asked);
        }
    }
}

/// Numbers just below 100,000 × N: rewrites until the chip is worn, and not one put too few.
#[test]
fn the_end_of_a_chip() {
    let store = Store::new("the end of a chip");
    let mut rng = Rng::new(0xE4D);
    for (n, b, images) in [
        (2, 2, 60),
        (2, 4, 40),
        (3, 2, 60),
        (4, 3, 40),
        (6, 2, 30),
        (4, 15, 10),
        (64, 2, 4),
        (128, 2, 1),
        (255, 2, 2),
    ] {
        let g = Geometry { n, b };
        for _ in 0..images {
            let mut shape = images::shape(&mut rng, g);
            shape.oldest = g.wear_limit() - shape.used as u32 - rng.below(2 * n) as u32;
            shape.heads = Heads::Fresh;
            let mut image = images::clean(&mut rng, g, shape);
            let mut worn = 0;
            for _ in 0..6 * n * b {
                let State::Clean(view) = state_of(&image, g) else {
                    panic!("clean");
                };
                let found = images::some_block(&mut rng, g, &image);
                let block = rng.pick(&[found, found, 30_000]);
                let request = match rng.below(6) {
                    0 => Request::Delete { block },
                    _ => Request::Put {
                        block,
                        contents: rng.bytes(1),
                    },
                };
                let reply = store.perform(&mut image, g, &request, UNLIMITED);
                let State::Clean(after) = state_of(&image, g) else {
                    panic!("clean");
                };
                assert!(after.top() < g.wear_limit());
                if reply.code == WORN {
                    worn += 1;
                    assert_eq!(
                        view.filled, b,
                        "a put that has room is never refused as worn"
                    );
                }
                if worn > 20 {
                    break;
                }
            }
        }
    }
}

/// With the number itself out of range the segment is not in use.
#[test]
fn numbers_at_the_limit() {
    let store = Store::new("numbers at the limit");
    let mut rng = Rng::new(0x11417);
    for (n, b) in [(2, 2), (3, 2), (7, 3), (64, 2), (65, 2), (254, 2), (255, 2)] {
        let g = Geometry { n, b };
        for number in g.wear_limit() - 3..g.wear_limit() + 3 {
            for status in [OPENED, SETTLED, OWING] {
                let mut image = images::blank(g);
                images::write_header(&mut image, g, number, status);
                let in_use = number < g.wear_limit();
                assert_eq!(
                    state_of(&image, g) == State::Damaged,
                    !in_use || (status == OWING && n > 2)
                );
                try_all(&store, &mut rng, &image, g);
            }
        }
        for number in [u32::MAX, u32::MAX - 63, 1 << 31, 0x0200_0000] {
            let mut image = images::blank(g);
            images::write_header(&mut image, g, number, OPENED);
            assert_eq!(state_of(&image, g), State::Damaged);
            try_all(&store, &mut rng, &image, g);
        }
    }
}
