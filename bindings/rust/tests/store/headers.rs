//! Request #104: when a segment is in use, byte by byte, in both versions.

use crate::conditions::by_the_reference;
use crate::harness::{put_of, Store};
use crate::heads::{any_bits, head, set_total, set_version};
use crate::images::{self, with_statuses};
use crate::prng::Rng;
use crate::reference::*;

const CHIP: Geometry = Geometry { n: 3, b: 2 };
/// The top of the chip below, and the only segment before it.
const TOP: u32 = 5;
const OLDEST: u32 = 4;

const VERSIONS: [Version; 2] = [Version::One, Version::Two];

/// Two segments in use: the older with a live and a dead slot, the top with a live and an empty
/// one. In version 2 the top's total is 99,999.
fn chip(version: Version, status: u8) -> Vec<u8> {
    let mut image = with_statuses(CHIP, (OLDEST, 2), b"x", |place, slot| match (place, slot) {
        (_, 1) => LIVE,
        (1, _) => DEAD,
        _ => 0xFF,
    });
    images::write_header(&mut image, CHIP, TOP, status);
    if version == Version::One {
        set_version(&mut image, CHIP, OLDEST, version);
        set_version(&mut image, CHIP, TOP, version);
    } else {
        set_total(&mut image, CHIP, TOP, 99_999);
    }
    image
}

/// The requests that show whether an image is clean, unfinished or damaged; block 1 is stored in
/// the older segment, block 3 in the top.
fn ask(store: &Store, image: &[u8], g: Geometry) {
    store.read(image, g, 3);
    let requests = [
        Request::Recover,
        put_of(1, b"y"),
        Request::Delete { block: 1 },
    ];
    for request in requests {
        store.perform(&mut image.to_vec(), g, &request, UNLIMITED);
    }
}

/// The state once byte `at` of the top has this value, by the table of the header page.
fn expected(version: Version, status: u8, page: &[u8], at: usize, value: u8) -> char {
    let fits = match (version, at) {
        // Byte 16 is that of a compaction: an owing top has it too.
        (_, 5) if status == SETTLED && value == OWING => return 'b',
        (Version::Two, 17..=20) => {
            let mut total = [page[17], page[18], page[19], page[20]];
            total[at - 17] = value;
            u32::from_le_bytes(total) < 100_000
        }
        (Version::Two, 32..=255) => true,
        _ => value == page[at],
    };
    // Without the top, the older segment is the top and the one after it neither in use nor blank.
    if fits {
        '-'
    } else {
        'a'
    }
}

/// The values to try: all of them, and of a byte of the tally's bits those that differ in one bit.
fn values(at: usize) -> Vec<u8> {
    if at < 32 {
        return (0..=u8::MAX).collect();
    }
    let single = (0..8).flat_map(|bit| [1 << bit, !(1 << bit)]);
    single.chain([0x00, 0xFF, 0x0F, 0x55]).collect()
}

#[test]
fn every_value_of_every_byte() {
    let store = Store::new("every value of a header's bytes");
    for version in VERSIONS {
        for status in [OPENED, SETTLED] {
            let mut image = chip(version, status);
            assert_eq!(by_the_reference(&image, CHIP), '-');
            let page = head(&mut image, CHIP, TOP).to_vec();
            for at in 0..PAGE {
                for value in values(at) {
                    head(&mut image, CHIP, TOP)[at] = value;
                    let state = expected(version, status, &page, at, value);
                    assert_eq!(by_the_reference(&image, CHIP), state, "byte {at}: {value}");
                    ask(&store, &image, CHIP);
                }
                head(&mut image, CHIP, TOP)[at] = page[at];
            }
        }
    }
}

/// Bytes 3 and 4, with the other bytes as version 1 and as version 2 have them.
#[test]
fn every_version() {
    let store = Store::new("every version");
    let g = Geometry { n: 2, b: 2 };
    for version in VERSIONS {
        let mut image = with_statuses(g, (6, 1), b"x", |_, slot| [LIVE, 0xFF][slot - 1]);
        set_version(&mut image, g, 6, version);
        for value in 0..=u16::MAX {
            head(&mut image, g, 6)[3..5].copy_from_slice(&value.to_le_bytes());
            let in_use = value.to_le_bytes() == version.bytes();
            assert_eq!(store.read(&image, g, 1).code == DONE, in_use);
            // The others in turn: all of the first, then one in sixteen.
            if value < 1_024 || value % 16 == 3 {
                ask(&store, &image, g);
            }
        }
    }
}

/// The totals about the limit and far above it, in the top and in the segment before it.
#[test]
fn totals() {
    let store = Store::new("totals");
    for (total, in_use) in [
        (0, true),
        (1, true),
        (255, true),
        (256, true),
        (65_535, true),
        (65_536, true),
        (99_998, true),
        (99_999, true),
        (100_000, false),
        (100_001, false),
        (0x0001_FFFF, false),
        (0x0002_0000, false),
        (0x0100_0000, false),
        (0x8000_0000, false),
        (u32::MAX, false),
    ] {
        for status in [OPENED, SETTLED, OWING] {
            let mut image = chip(Version::Two, status);
            set_total(&mut image, CHIP, TOP, total);
            let sound = if status == OWING { 'b' } else { '-' };
            let state = if in_use { sound } else { 'a' };
            assert_eq!(by_the_reference(&image, CHIP), state);
            ask(&store, &image, CHIP);

            // Without the older segment there is a gap that is not blank.
            let mut image = chip(Version::Two, status);
            set_total(&mut image, CHIP, OLDEST, total);
            let state = if in_use { sound } else { '!' };
            assert_eq!(by_the_reference(&image, CHIP), state);
            ask(&store, &image, CHIP);
        }
    }
}

/// In version 2 every pattern of the bits fits, in every segment in use, whatever the status.
#[test]
fn bits_are_free() {
    let store = Store::new("bits in any pattern are in use");
    let mut rng = Rng::new(0xB175);
    for round in 0..4_000 {
        let status = [OPENED, SETTLED, OWING][round % 3];
        let mut image = chip(Version::Two, status);
        for number in [OLDEST, TOP] {
            any_bits(&mut rng, &mut head(&mut image, CHIP, number)[BITS]);
        }
        let state = if status == OWING { 'b' } else { '-' };
        assert_eq!(by_the_reference(&image, CHIP), state);
        ask(&store, &image, CHIP);
        // In version 1 only 255 does; the older segment is then the top.
        let bits = head(&mut image, CHIP, TOP)[BITS].to_vec();
        let mut former = chip(Version::One, status);
        head(&mut former, CHIP, TOP)[BITS].copy_from_slice(&bits);
        let sound = bits.iter().all(|&byte| byte == 0xFF);
        let state = if sound { state } else { 'a' };
        assert_eq!(by_the_reference(&former, CHIP), state);
        ask(&store, &former, CHIP);
    }
}
