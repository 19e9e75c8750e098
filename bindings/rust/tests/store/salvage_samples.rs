//! Request #113: reports written out, those of the request and of its readings among them.

use crate::account_samples::{fill, owing_board, G};
use crate::harness::Store;
use crate::heads::{owe, set_version};
use crate::images::{blank, formatted, write_header, write_slot_page};
use crate::mixed_versions::VERSIONS;
use crate::moving_refusals::{wrong_geometries, wrong_lengths};
use crate::reference::*;
use crate::salvage_harness::{compare, report, told};

const FIRST: &str = "salvage promises nothing\n";

/// The report of a board of the bench has these lines after its first.
fn tells(store: &Store, image: &[u8], lines: &str) {
    let expected = format!("{FIRST}{lines}");
    assert_eq!(told(store, image, G), expected);
    let whole = expected.len();
    let lengths = [0, whole - 1, whole, whole + 100];
    compare(store, image, G, Some(&expected), &lengths);
}

/// The boards of request #101: unfinished by (b), and the same damaged. The segment after the owing top
/// is left aside in both.
#[test]
fn the_board_with_an_owing_top() {
    let store = Store::new("salvages of the readings' boards");
    for version in VERSIONS {
        let mut image = owing_board(version);
        let lines = "block 7 len 2 seg 1 slot 1 same\n\
                     block 8 len 1 seg 3 slot 2 same\n\
                     block 9 len 1 seg 3 slot 1 same\n";
        tells(&store, &image, lines);
        image[G.page(2, 4)] = WRITING;
        assert_eq!(state_of(&image, G), State::Damaged);
        tells(&store, &image, lines);

        // Not owing, all four have candidates: the oldest differs in block 7 and agrees in block 9.
        image[G.page(3, 0) + 5] = SETTLED;
        let lines = "block 7 len 2 seg 1 slot 1 differs\n\
                     block 8 len 1 seg 3 slot 2 same\n\
                     block 9 len 1 seg 3 slot 1 same\n";
        tells(&store, &image, lines);
    }
}

/// `[]` and `[FF]` disagree, though their pages agree from byte 8 on.
#[test]
fn a_length_that_differs() {
    let store = Store::new("salvages, a length that differs");
    for version in VERSIONS {
        let mut image = blank(G);
        for number in [7, 8] {
            write_header(&mut image, G, number, OPENED);
            set_version(&mut image, G, number, version);
        }
        fill(&mut image, 7, &[], 14);
        let last = G.page(3, 15);
        write_slot_page(&mut image[last..last + PAGE], LIVE, 7, b"\xFF");
        fill(&mut image, 8, &[(300, b"x"), (7, b"")], 0);
        tells(
            &store,
            &image,
            "block 7 len 0 seg 0 slot 2 differs\nblock 300 len 1 seg 0 slot 1 same\n",
        );
        // The other way round, and both alike.
        image[G.page(0, 2) + 1] = 1;
        tells(
            &store,
            &image,
            "block 7 len 1 seg 0 slot 2 same\nblock 300 len 1 seg 0 slot 1 same\n",
        );
        image[last + 1] = 0;
        tells(
            &store,
            &image,
            "block 7 len 1 seg 0 slot 2 differs\nblock 300 len 1 seg 0 slot 1 same\n",
        );
    }
}

/// No candidate: the first line alone, 25 bytes.
#[test]
fn nothing_found() {
    let store = Store::new("salvages that find nothing");
    assert_eq!(FIRST.len(), 25);
    let length = G.n * G.segment_len();
    for byte in [0xFF, 0, 0x3F, 0x53] {
        tells(&store, &vec![byte; length], "");
    }
    tells(&store, &formatted(G), "");
    // Slots, but no header; and a header of another chip.
    let mut image = formatted(G);
    fill(&mut image, 0, &[(7, b"A1")], 3);
    tells(&store, &image, "block 7 len 2 seg 0 slot 1 same\n");
    let mut foreign = image.clone();
    foreign[6] = 14;
    tells(&store, &foreign, "");
    image[..PAGE].fill(0xFF);
    tells(&store, &image, "");
    // Two geometries whose images have one length: with the other's N and B there is nothing.
    let (tall, wide) = (Geometry { n: 4, b: 5 }, Geometry { n: 6, b: 3 });
    let mut image = formatted(tall);
    put(&mut image, tall, 7, b"A1", UNLIMITED);
    assert_eq!(told(&store, &image, wide), FIRST);
    assert_eq!(told(&store, &image, tall).lines().count(), 2);
}

/// A board of these segments in use, by number, status and version, each with its records.
type Part<'a> = (u32, u8, Version, &'a [(u16, &'a [u8])]);

fn board(parts: &[Part]) -> Vec<u8> {
    let mut image = blank(G);
    for &(number, status, version, records) in parts {
        write_header(&mut image, G, number, OPENED);
        set_version(&mut image, G, number, version);
        match status {
            OWING => owe(&mut image, G, number),
            _ => crate::pages::write_header_of(version, &mut image, G, number, status),
        }
        fill(&mut image, number, records, 0);
    }
    image
}

/// Segments go by their numbers, not by their indices, and slots by their places as numbers.
#[test]
fn which_is_given() {
    let store = Store::new("salvages, which is given");
    use Version::Two;
    let many: [(u16, &[u8]); 11] = [(5, b"x"); 11];
    let image = board(&[
        (7, OPENED, Two, &[(5, b"old")]),
        (4, OPENED, Two, &[(5, b"older"), (6, b"z")]),
        (9, OPENED, Two, &many),
        (2, OPENED, Two, &[]),
    ]);
    // 2 and 9 and 7 and 4 have the indices 2, 1, 3, 0.
    tells(
        &store,
        &image,
        "block 5 len 1 seg 1 slot 11 differs\nblock 6 len 1 seg 0 slot 2 same\n",
    );
    // Far apart, and the largest number that there is.
    let image = board(&[
        (399_999, SETTLED, Two, &[(65_534, b"last"), (1, b"")]),
        (0, OPENED, Two, &[(1, b""), (65_534, b"lasr")]),
    ]);
    tells(
        &store,
        &image,
        "block 1 len 0 seg 3 slot 2 same\nblock 65534 len 4 seg 3 slot 1 differs\n",
    );
}

/// Only an owing top leaves a segment aside: the one at the next index, whatever its number. The top is
/// that of both versions.
#[test]
fn what_is_left_aside() {
    let store = Store::new("salvages, what is left aside");
    use Version::{One, Two};
    let owing = |status: [u8; 3], versions: [Version; 3]| {
        board(&[
            (5, status[0], versions[0], &[(1, b"a"), (2, b"a")]),
            (6, status[1], versions[1], &[(1, b"b"), (3, b"b")]),
            (7, status[2], versions[2], &[(4, b"c")]),
        ])
    };
    let all = "block 1 len 1 seg 2 slot 1 differs\nblock 2 len 1 seg 1 slot 2 same\n\
               block 3 len 1 seg 2 slot 2 same\nblock 4 len 1 seg 3 slot 1 same\n";
    for versions in [[One; 3], [Two; 3], [One, Two, One], [Two, Two, One]] {
        tells(&store, &owing([OPENED; 3], versions), all);
        // Owing, but not the top: nothing is left aside.
        tells(&store, &owing([OWING, OWING, SETTLED], versions), all);
        // The segment after the top, at index 0, holds nothing.
        tells(&store, &owing([OWING; 3], versions), all);
    }
    // The segment after the top has a number that is not its last one, and a block that differs.
    for number in [0, 4, 8] {
        for version in VERSIONS {
            for status in [OPENED, OWING, SETTLED] {
                let image = board(&[
                    (5, OPENED, Two, &[(1, b"a")]),
                    (7, OWING, One, &[(4, b"c")]),
                    (number, status, version, &[(1, b"z"), (4, b"z"), (9, b"z")]),
                ]);
                let lines = if number < 8 {
                    "block 1 len 1 seg 1 slot 1 same\nblock 4 len 1 seg 3 slot 1 same\n"
                } else if status == OWING {
                    // It is the top then, and leaves aside the one with number 5.
                    "block 1 len 1 seg 0 slot 1 same\nblock 4 len 1 seg 0 slot 2 differs\n\
                     block 9 len 1 seg 0 slot 3 same\n"
                } else {
                    "block 1 len 1 seg 0 slot 1 differs\nblock 4 len 1 seg 0 slot 2 differs\n\
                     block 9 len 1 seg 0 slot 3 same\n"
                };
                tells(&store, &image, lines);
            }
        }
    }
}

/// A candidate that differs anywhere: the first byte, the last, the length; the oldest of three alone;
/// twice in one segment.
#[test]
fn which_disagree() {
    let store = Store::new("salvages, which disagree");
    use Version::Two;
    let long = [0x41; MAX_LENGTH];
    let mut first = long;
    first[0] ^= 1;
    let mut last = long;
    last[MAX_LENGTH - 1] ^= 0x80;
    let records: [&[u8]; 6] = [&long, &first, &last, &long[..247], b"", b"A"];
    for (i, one) in records.iter().enumerate() {
        for (j, other) in records.iter().enumerate() {
            let word = if i == j { "same" } else { "differs" };
            let line = format!("block 7 len {} seg 2 slot 1 {word}\n", other.len());
            let image = board(&[
                (5, OPENED, Two, &[(7, one)]),
                (6, OPENED, Two, &[(7, other)]),
            ]);
            tells(&store, &image, &line);
            let image = board(&[
                (4, OPENED, Two, &[(7, one)]),
                (5, OPENED, Two, &[(7, other)]),
                (6, OPENED, Two, &[(7, other)]),
            ]);
            tells(&store, &image, &line);
            let image = board(&[(6, OPENED, Two, &[(7, one), (7, other)])]);
            tells(&store, &image, &line.replace("slot 1", "slot 2"));
        }
    }
}

/// Only live form makes a candidate.
#[test]
fn what_is_no_candidate() {
    let store = Store::new("salvages, what is no candidate");
    let mut image = formatted(G);
    fill(
        &mut image,
        0,
        &[
            (1, b"a"),
            (2, b"b"),
            (3, b"c"),
            (4, b"d"),
            (5, b"e"),
            (6, b"f"),
        ],
        2,
    );
    let spoil = [
        (1, 0, WRITING),
        (2, 1, 249),
        (3, 4, 0xFE),
        (4, 255, 0x7F),
        (5, 0, CUT_SLOT),
    ];
    for (slot, at, value) in spoil {
        image[G.page(0, slot) + at] = value;
    }
    tells(&store, &image, "block 6 len 1 seg 0 slot 6 same\n");
    for number in [0u16, 65_535] {
        let mut image = image.clone();
        image[G.page(0, 6) + 2..][..2].copy_from_slice(&number.to_le_bytes());
        tells(&store, &image, "");
    }
}

/// 1, whatever the buffer: it is untouched, and no 14.
#[test]
fn wrong_sizes() {
    let store = Store::new("salvages of wrong sizes");
    let mut image = formatted(G);
    put(&mut image, G, 7, b"A1", UNLIMITED);
    for g in wrong_geometries(G) {
        assert_eq!(report(&store, &image, g), None);
        compare(&store, &image, g, None, &[0, 1, 24, 25, 57, 3_000]);
    }
    for wrong in wrong_lengths(&image) {
        assert_eq!(report(&store, &wrong, G), None);
        compare(&store, &wrong, G, None, &[0, 1, 24, 25, 57, 3_000]);
    }
}

/// 14 exactly if the buffer is shorter than the text.
#[test]
fn every_length_of_the_buffer() {
    let store = Store::new("salvages in buffers of every length");
    let mut image = owing_board(Version::Two);
    image[G.page(2, 4)] = WRITING;
    for image in [image, blank(G)] {
        let text = told(&store, &image, G);
        let lengths: Vec<usize> = (0..text.len() + 60).collect();
        compare(&store, &image, G, Some(&text), &lengths);
    }
}

/// Every segment in use and every slot live, each block once, all numbers as long as they get.
#[test]
fn the_longest_texts() {
    let store = Store::new("the longest salvages");
    for (n, b, length) in [(4, 15, 2_329), (64, 255, 659_683), (255, 255, 2_665_505)] {
        let g = Geometry { n, b };
        let mut image = blank(g);
        for number in g.wear_limit() - n as u32..g.wear_limit() {
            write_header(&mut image, g, number, SETTLED);
            for slot in 1..=b {
                let at = g.page(g.index(number), slot);
                let block = 65_535 - (g.index(number) * b + slot) as u16;
                write_slot_page(&mut image[at..at + PAGE], LIVE, block, &[0; MAX_LENGTH]);
            }
        }
        let text = told(&store, &image, g);
        assert_eq!(text.len(), length);
        assert_eq!(text.lines().count(), 1 + n * b);
        assert!(!text.contains("differs"));
    }
}
