//! The bench examples of document 01, with the figures of version 2.

use crate::harness::{put_of, Store};
use crate::images::{blank, formatted};
use crate::reference::*;

const SMALLEST: Geometry = Geometry { n: 2, b: 2 };
const MIDDLE: Geometry = Geometry { n: 4, b: 15 };

/// The contents of a block that is stored.
fn contents(store: &Store, image: &[u8], g: Geometry, block: u16) -> Vec<u8> {
    let read = store.read(image, g, block);
    assert_eq!(read.code, DONE);
    image[read.offset..read.offset + read.length].to_vec()
}

fn erases(image: &[u8], g: Geometry, request: &Request) -> usize {
    let (_, list) = steps_of(image, g, request);
    list.iter()
        .filter(|step| matches!(step, Step::Erase { .. }))
        .count()
}

#[test]
fn example_1_sizes_and_capacity() {
    let store = Store::new("example 1");
    for (n, b, length, capacity) in [(2, 2, 1_536, 1), (16, 255, 1_048_576, 3_824)] {
        let g = Geometry { n, b };
        assert!(g.fits(length));
        assert_eq!(g.capacity(), capacity);
        store.done(&mut vec![0; length], g, &Request::Format);
        let binding = qanbillox::Geometry {
            segments: n,
            slots: b,
        };
        assert_eq!(binding.image_len(), Some(length));
        assert_eq!(binding.capacity(), Some(capacity));
    }
}

#[test]
fn example_2_a_fresh_header() {
    let store = Store::new("example 2");
    let mut image = vec![0; 4 * 16 * 256];
    assert_eq!(store.done(&mut image, MIDDLE, &Request::Format), 4 + 21);
    let first = [
        0x53, 0x4C, 0x54, 0x02, 0x00, 0x3F, 0x0F, 0x04, 0x00, 0x00, 0x00, 0x00, 0xFF, 0xFF, 0xFF,
        0xFF, 0xFF, 0x00, 0x00, 0x00, 0x00,
    ];
    assert_eq!(image[..21], first);
    assert!(image[21..].iter().all(|&byte| byte == 0xFF));
}

#[test]
fn example_3_the_first_tidying() {
    let store = Store::new("example 3");
    let mut image = formatted(MIDDLE);
    let third = MIDDLE.page(3, 0);
    while image[third + 5] == 0xFF {
        store.done(&mut image, MIDDLE, &put_of(7, b"A1"));
    }
    let begins = [
        0x53, 0x4C, 0x54, 0x02, 0x00, 0x8F, 0x0F, 0x04, 0x03, 0x00, 0x00, 0x00, 0xFC, 0xFF, 0xFF,
        0xFF, 0x00, 0x00, 0x00, 0x00, 0x00,
    ];
    assert_eq!(image[third..third + 21], begins);
    let rest = &image[third + 21..third + PAGE];
    assert!(rest.iter().all(|&byte| byte == 0xFF));
}

#[test]
fn example_4_a_slot() {
    let store = Store::new("example 4");
    let mut image = formatted(MIDDLE);
    assert_eq!(store.done(&mut image, MIDDLE, &put_of(7, b"\x41\x31")), 7);
    let slot = &image[256..512];
    let begins = [0x3F, 0x02, 0x07, 0x00, 0xFF, 0xFF, 0xFF, 0xFF, 0x41, 0x31];
    assert_eq!(slot[..10], begins);
    assert!(slot[10..].iter().all(|&byte| byte == 0xFF));
    assert_eq!(store.done(&mut image, MIDDLE, &put_of(7, b"\x41\x31")), 8);
}

#[test]
fn examples_5_and_6_three_puts_and_full() {
    let store = Store::new("examples 5 and 6");
    let mut image = formatted(SMALLEST);
    for (contents, steps, erased) in [(b"a", 6, 0), (b"b", 7, 0), (b"c", 37, 1)] {
        let request = put_of(7, contents);
        assert_eq!(erases(&image, SMALLEST, &request), erased);
        assert_eq!(store.done(&mut image, SMALLEST, &request), steps);
    }
    let refused = store.perform(&mut image, SMALLEST, &put_of(8, b"x"), UNLIMITED);
    assert_eq!(
        refused,
        Reply {
            code: FULL,
            steps: 0
        }
    );
}

#[test]
fn examples_7_and_8_cuts() {
    let store = Store::new("examples 7 and 8");
    let puts = [b"a", b"b", b"c"];
    // which put is cut, its steps, those of recovery, whose contents stand
    for (last, allowance, recovery, stands) in [
        (1, 5, 1, b"a"),
        (1, 6, 1, b"b"),
        (2, 27, 2, b"b"),
        (2, 28, 3, b"b"),
        (2, 29, 1, b"b"),
    ] {
        let mut image = formatted(SMALLEST);
        for contents in &puts[..last] {
            store.done(&mut image, SMALLEST, &put_of(7, *contents));
        }
        let cut = store.perform(&mut image, SMALLEST, &put_of(7, puts[last]), allowance);
        assert_eq!(cut.code, CUT);
        assert_eq!(
            store.done(&mut image, SMALLEST, &Request::Recover),
            recovery
        );
        assert_eq!(contents(&store, &image, SMALLEST, 7), stands);
    }
}

#[test]
fn example_9_two_tidyings() {
    let store = Store::new("example 9");
    let g = Geometry { n: 3, b: 2 };
    let mut image = formatted(g);
    let mut total = 0;
    for block in [1, 2, 3, 3] {
        total += erases(&image, g, &put_of(block, b"x"));
        store.done(&mut image, g, &put_of(block, b"x"));
    }
    assert_eq!(total, 0);
    assert_eq!(erases(&image, g, &put_of(3, b"y")), 2);
    assert_eq!(store.done(&mut image, g, &put_of(3, b"y")), 73);
}

#[test]
fn example_10_limits_of_contents_and_numbers() {
    let store = Store::new("example 10");
    let mut image = formatted(MIDDLE);
    store.done(&mut image, MIDDLE, &put_of(1, b"A1"));
    let mut stored = 2;
    for length in 0..=300 {
        let request = put_of(1, &vec![0x41; length]);
        let code = store.perform(&mut image, MIDDLE, &request, UNLIMITED).code;
        let taken = (1..=248).contains(&length);
        assert_eq!(code, if taken { DONE } else { LENGTH });
        if taken {
            stored = length;
        }
        assert_eq!(contents(&store, &image, MIDDLE, 1).len(), stored);
    }
    for (block, code) in [(1, DONE), (65_534, DONE), (0, NUMBER), (65_535, NUMBER)] {
        let reply = store.perform(&mut image, MIDDLE, &put_of(block, b"x"), UNLIMITED);
        assert_eq!(reply.code, code);
        assert_eq!(store.read(&image, MIDDLE, block).code, code);
        let delete = Request::Delete { block };
        assert_eq!(
            store.perform(&mut image, MIDDLE, &delete, UNLIMITED).code,
            code
        );
    }
    // The number is looked at before the length, and both before the image.
    let long = put_of(0, &[0; 249]);
    assert_eq!(
        store.perform(&mut image, MIDDLE, &long, UNLIMITED).code,
        NUMBER
    );
    let mut factory = blank(MIDDLE);
    assert_eq!(
        store.perform(&mut factory, MIDDLE, &long, UNLIMITED).code,
        NUMBER
    );
    let long = put_of(1, &[0; 249]);
    assert_eq!(
        store.perform(&mut factory, MIDDLE, &long, UNLIMITED).code,
        LENGTH
    );
}

#[test]
fn example_11_sizes_and_no_allowance() {
    let store = Store::new("example 11");
    for (n, b, length) in [
        (4, 1, 4 * 2 * 256),
        (1, 15, 16 * 256),
        (256, 2, 256 * 3 * 256),
        (4, 15, 4 * 16 * 256 - 1),
    ] {
        let g = Geometry { n, b };
        let mut image = vec![0xFF; length];
        for request in [
            Request::Format,
            put_of(1, b"x"),
            Request::Delete { block: 1 },
            Request::Recover,
        ] {
            let reply = store.perform(&mut image, g, &request, UNLIMITED);
            assert_eq!(
                reply,
                Reply {
                    code: SIZE,
                    steps: 0
                }
            );
        }
        assert_eq!(store.read(&image, g, 1).code, SIZE);
    }
    let mut image = formatted(MIDDLE);
    let before = image.clone();
    let reply = store.perform(&mut image, MIDDLE, &put_of(1, b"x"), 0);
    assert_eq!(
        reply,
        Reply {
            code: CUT,
            steps: 0
        }
    );
    assert_eq!(image, before);
}
