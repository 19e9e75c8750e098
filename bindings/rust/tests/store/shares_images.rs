//! Request #110 on images that were not written through the layer: full ones, where the store's 7 stands
//! too, unfinished and damaged ones, boards of version 1, records of 0 bytes, and any bytes.

use crate::harness::Store;
use crate::heads::set_version;
use crate::images::{self, blank, formatted, full_ring, with_empty_records};
use crate::prng::Rng;
use crate::reference::*;
use crate::shares_harness::{any_asked, ask, numbers, put_of, read_of, share};
use crate::shares_reference::Asked;

const SMALL: Geometry = Geometry { n: 3, b: 4 };

#[test]
fn the_stores_full_stands_too() {
    let store = Store::new("the_stores_full_stands_too");
    let g = SMALL;
    // Seven blocks, C, stand in the image: 2 to 8.
    let mut image = full_ring(g, 2);
    let list = numbers(&[share(1, 4, 2), share(5, 10, 5)]);
    let mut code = |tenant, asked| ask(&store, &mut image, g, &list, tenant, &asked).code;
    // Tenant 1 has three where two are its quota, and may rewrite; tenant 2 has four of five, and the
    // store is full.
    assert_eq!(code(1, put_of(4, b"x")), DONE);
    assert_eq!(code(2, put_of(9, b"x")), FULL);
    assert_eq!(code(2, put_of(8, b"x")), DONE);
    assert_eq!(code(1, Asked::Delete { block: 4 }), DONE);
    assert_eq!(code(1, put_of(4, b"x")), FULL);
    assert_eq!(code(2, put_of(9, b"x")), DONE);
    assert_eq!(code(2, put_of(10, b"x")), FULL);
}

/// A quota that is used answers 7 before 8; a rewrite, and a block within the quota, 8.
#[test]
fn full_before_worn() {
    let store = Store::new("full_before_worn");
    let g = SMALL;
    let mut image = full_ring(g, g.wear_limit() - 1);
    let list = numbers(&[share(1, 4, 3), share(5, 9, 4)]);
    let mut code = |tenant, asked| ask(&store, &mut image, g, &list, tenant, &asked).code;
    assert_eq!(code(1, put_of(2, b"x")), WORN);
    assert_eq!(code(2, put_of(9, b"x")), FULL);
    assert_eq!(code(2, Asked::Delete { block: 8 }), DONE);
    assert_eq!(code(2, put_of(9, b"x")), WORN);
}

#[test]
fn former_boards() {
    let store = Store::new("former_boards");
    let g = SMALL;
    let mut image = full_ring(g, 1);
    for number in 0..=1 {
        set_version(&mut image, g, number, Version::One);
    }
    let list = numbers(&[share(1, 4, 3), share(5, 9, 4)]);
    let mut code = |tenant, asked| ask(&store, &mut image, g, &list, tenant, &asked).code;
    // 11 comes before 7, of the store and of the quota.
    assert_eq!(code(1, put_of(2, b"x")), FORMER_VERSION);
    assert_eq!(code(2, put_of(9, b"x")), FORMER_VERSION);
    assert_eq!(code(1, put_of(2, b"")), LENGTH);
    assert_eq!(code(2, Asked::Delete { block: 5 }), DONE);
    assert_eq!(code(2, read_of(5, 0)), ABSENT);
    assert_eq!(code(2, read_of(6, 248)), DONE);
}

/// A buffer is long enough exactly from the contents' length on; what is not stored is 6 however short.
#[test]
fn buffers() {
    let store = Store::new("buffers");
    let g = SMALL;
    let list = numbers(&[share(1, 9, 7)]);
    let mut image = with_empty_records(g, 1..=2);
    let long: Vec<u8> = (0..248).map(|i| 200 - i as u8).collect();
    for (block, contents) in [(3, &b"x"[..]), (4, &long[..17]), (5, &long)] {
        let asked = put_of(block, contents);
        assert_eq!(ask(&store, &mut image, g, &list, 1, &asked).code, DONE);
    }
    for (block, stored) in [(1, 0), (2, 0), (3, 1), (4, 17), (5, 248)] {
        for length in 0..=300 {
            let told = ask(&store, &mut image, g, &list, 1, &read_of(block, length));
            let fits = stored <= length;
            let expected = if fits {
                (DONE, stored)
            } else {
                (SHORT_BUFFER, 0)
            };
            assert_eq!((told.code, told.length), expected);
        }
    }
    for length in [0, 1, 248] {
        let told = ask(&store, &mut image, g, &list, 1, &read_of(6, length));
        assert_eq!((told.code, told.length), (ABSENT, 0));
    }
}

/// Any image, clean or not, that was made up or disturbed; any tenant and block.
#[test]
fn any_images() {
    let store = Store::new("any_images");
    let mut rng = Rng::new(5_110);
    let mut seen = [0; 15];
    for turn in 0..6_000 {
        let g = Geometry {
            n: rng.between(2, 5),
            b: rng.between(2, 6),
        };
        let shape = images::shape(&mut rng, g);
        let mut image = images::clean(&mut rng, g, shape);
        if turn % 3 != 0 {
            images::disturb(&mut rng, g, &mut image);
        }
        if turn % 100 == 0 {
            image = blank(g);
        }
        let half = rng.between(1, 40) as u32;
        let quota = rng.below(g.capacity() + 1) as u32;
        let list = numbers(&[
            share(1, half, quota),
            share(half + 1, 65_534, g.capacity() as u32 - quota),
        ]);
        for _ in 0..4 {
            let block = images::some_block(&mut rng, g, &image);
            let tenant = if u32::from(block) <= half { 1 } else { 2 };
            let tenant = if rng.once_in(9) { 3 - tenant } else { tenant };
            let asked = any_asked(&mut rng, block);
            let told = ask(&store, &mut image, g, &list, tenant, &asked);
            seen[usize::from(told.code)] += 1;
        }
    }
    for code in [
        DONE,
        LENGTH,
        DAMAGED,
        UNFINISHED,
        ABSENT,
        FULL,
        FORMER_VERSION,
        FOREIGN,
    ] {
        assert!(seen[usize::from(code)] > 50, "{code}: {seen:?}");
    }
}

/// The board of the accident: forty tenants on a chip of 1 MiB.
#[test]
fn forty_tenants() {
    let store = Store::new("forty_tenants");
    let g = Geometry { n: 16, b: 255 };
    let shares: Vec<_> = (0..40)
        .map(|i| share(1_600 * i + 1, 1_600 * i + 1_600, 95))
        .collect();
    let list = numbers(&shares);
    let mut image = formatted(g);
    for (i, own) in shares.iter().enumerate() {
        let tenant = i as u32 + 1;
        for block in [own.first, own.last] {
            let asked = put_of(block as u16, format!("tenant {tenant}").as_bytes());
            assert_eq!(ask(&store, &mut image, g, &list, tenant, &asked).code, DONE);
            let next = tenant % 40 + 1;
            assert_eq!(
                ask(&store, &mut image, g, &list, next, &asked).code,
                FOREIGN
            );
        }
    }
    for (i, own) in shares.iter().enumerate() {
        let told = ask(
            &store,
            &mut image,
            g,
            &list,
            i as u32 + 1,
            &read_of(own.last as u16, 248),
        );
        assert_eq!(
            told.buffer[..told.length],
            *format!("tenant {}", i + 1).as_bytes()
        );
    }
}
