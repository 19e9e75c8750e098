//! The step lists of document 01 and request #104, written out, and every allowance of a request.

use crate::harness::{put_of, Store};
use crate::heads::{clear_first, head, set_total, set_version, ALL_BITS};
use crate::images::{self, formatted};
use crate::prng::Rng;
use crate::reference::*;

const SMALLEST: Geometry = Geometry { n: 2, b: 2 };

/// Program steps at one page: offset in the page and byte.
fn at_page(page: usize, bytes: &[(usize, u8)]) -> Vec<Step> {
    bytes
        .iter()
        .map(|&(at, value)| Step::Program {
            at: page + at,
            value,
        })
        .collect()
}

/// "Slot written: status 7F, length, two number bytes, the contents, status 3F."
pub fn slot_list(page: usize, block: u16, contents: &[u8]) -> Vec<Step> {
    let mut bytes = vec![
        (0, 0x7F),
        (1, contents.len() as u8),
        (2, (block % 256) as u8),
        (3, (block / 256) as u8),
    ];
    bytes.extend(contents.iter().enumerate().map(|(i, &byte)| (8 + i, byte)));
    bytes.push((0, 0x3F));
    at_page(page, &bytes)
}

/// A list of version 1, or of version 2 with this total.
pub type Total = Option<u32>;

/// Bytes 0-4, 6 and 7.
fn mark(g: Geometry, total: Total) -> Vec<(usize, u8)> {
    let (b, n) = (g.b as u8, g.n as u8);
    vec![
        (0, 0x53),
        (1, 0x4C),
        (2, 0x54),
        (3, if total.is_some() { 2 } else { 1 }),
        (4, 0),
        (6, b),
        (7, n),
    ]
}

/// Bytes 17-20 of version 2, and bytes 8-15 of numbers below 65,536.
fn number(value: u16, total: Total) -> Vec<(usize, u8)> {
    let (low, high) = ((value % 256) as u8, (value / 256) as u8);
    let mut bytes = Vec::new();
    if let Some(total) = total {
        let [first, second, third] = [total, total / 256, total / 65_536].map(|x| x as u8);
        bytes.extend([(17, first), (18, second), (19, third), (20, 0)]);
    }
    bytes.extend([
        (8, low),
        (9, high),
        (10, 0),
        (11, 0),
        (12, !low),
        (13, !high),
        (14, 0xFF),
        (15, 0xFF),
    ]);
    bytes
}

pub fn opening_list(g: Geometry, value: u16, total: Total) -> Vec<Step> {
    let bytes = [
        vec![(5, 0x7F)],
        mark(g, total),
        number(value, total),
        vec![(5, 0x3F)],
    ]
    .concat();
    at_page(g.page(g.index(value.into()), 0), &bytes)
}

/// Version 2, and by the former rules version 1.
#[test]
fn format_is_erases_and_an_opening() {
    let g = Geometry { n: 3, b: 2 };
    let erases: Vec<Step> = (0..3).map(|index| Step::Erase { index }).collect();
    let image = vec![0; 3 * 3 * 256];
    for (rules, total, opening) in [(Rules::Present, Some(0), 21), (Rules::Former, None, 17)] {
        let expected = [erases.clone(), opening_list(g, 0, total)].concat();
        assert_eq!(expected.len(), 3 + opening);
        let list = steps_by(rules, &image, g, &Request::Format);
        assert_eq!(list, (DONE, expected));
    }
}

#[test]
fn put_opens_then_writes_then_marks() {
    let g = Geometry { n: 3, b: 2 };
    let mut image = formatted(g);
    put(&mut image, g, 300, b"ab", UNLIMITED);
    put(&mut image, g, 2, b"c", UNLIMITED);
    let request = put_of(300, b"new");
    let expected = |total| {
        [
            opening_list(g, 1, total),
            slot_list(g.page(1, 1), 300, b"new"),
            at_page(g.page(0, 1), &[(0, 0xDF)]),
        ]
        .concat()
    };
    assert_eq!(steps_of(&image, g, &request), (DONE, expected(Some(0))));

    // The total before and the bits cleared since are the total of the new header.
    let mut counted = image.clone();
    set_total(&mut counted, g, 0, 70_000);
    clear_first(&mut head(&mut counted, g, 0)[BITS], 300);
    let list = expected(Some(70_300));
    assert_eq!(steps_of(&counted, g, &request), (DONE, list));

    // By the former rules.
    let mut former = image.clone();
    set_version(&mut former, g, 0, Version::One);
    let list = steps_by(Rules::Former, &former, g, &request);
    assert_eq!(list, (DONE, expected(None)));
    assert_eq!(steps_of(&former, g, &request), (FORMER_VERSION, vec![]));

    let delete = Request::Delete { block: 300 };
    for image in [image, counted, former] {
        let expected = at_page(g.page(0, 1), &[(0, 0xDF)]);
        assert_eq!(steps_of(&image, g, &delete), (DONE, expected));
    }
}

/// Tidying of the segment `old`, with one live slot, into the segment of number `value`.
fn tidying_list(
    g: Geometry,
    (old, value, total): (u8, u16, Total),
    block: u16,
    contents: &[u8],
) -> Vec<Step> {
    let target = g.index(value.into());
    let header = g.page(target, 0);
    [
        at_page(
            header,
            &[vec![(5, 0xDF)], mark(g, total), vec![(16, old)]].concat(),
        ),
        slot_list(g.page(target, 1), block, contents),
        at_page(header, &[number(value, total), vec![(5, 0x9F)]].concat()),
        vec![Step::Erase { index: old.into() }],
        at_page(header, &[(5, 0x8F)]),
    ]
    .concat()
}

fn two_puts() -> Vec<u8> {
    let mut image = formatted(SMALLEST);
    put(&mut image, SMALLEST, 7, b"a", UNLIMITED);
    put(&mut image, SMALLEST, 7, b"b", UNLIMITED);
    image
}

fn third_put() -> Request {
    put_of(7, b"c")
}

#[test]
fn put_tidies_and_marks_where_tidying_left_the_block() {
    let g = SMALLEST;
    // The old segment 0 holds the block dead and live.
    let expected = |total| {
        [
            tidying_list(g, (0, 1, total), 7, b"b"),
            slot_list(g.page(1, 2), 7, b"c"),
            at_page(g.page(1, 1), &[(0, 0xDF)]),
        ]
        .concat()
    };
    assert_eq!(expected(Some(0)).len(), 37);
    let list = (DONE, expected(Some(0)));
    assert_eq!(steps_of(&two_puts(), g, &third_put()), list);

    assert_eq!(expected(None).len(), 33);
    let mut former = two_puts();
    set_version(&mut former, g, 0, Version::One);
    let list = steps_by(Rules::Former, &former, g, &third_put());
    assert_eq!(list, (DONE, expected(None)));
}

/// N=255: byte 7 is a step that changes nothing, and the segment after index 254 is 0.
#[test]
fn put_tidies_past_index_254() {
    let g = Geometry { n: 255, b: 2 };
    for (value, target, old, second) in [(508, 253, 254, 0), (509, 254, 0, 1), (510, 0, 1, 2)] {
        // Block 1 is dead and block 2 live in the oldest segment, block 3 the first of the second.
        let image = images::full_ring(g, u32::from(value) - 1);
        let expected = [
            tidying_list(g, (old, value, Some(0)), 2, b"x"),
            slot_list(g.page(target, 2), 3, b"y"),
            at_page(g.page(second, 1), &[(0, 0xDF)]),
        ]
        .concat();
        assert_eq!(expected.len(), 37);
        let request = images::rewrite_in_turn(&image, g);
        assert_eq!(steps_of(&image, g, &request), (DONE, expected));
    }
}

/// The list of the recovery after the third put was cut, in version 2 with so many bits cleared, or
/// in version 1.
fn recovery_after(steps: u64, cleared: Option<usize>) -> (u8, Vec<Step>) {
    let g = SMALLEST;
    let mut image = two_puts();
    if cleared.is_none() {
        set_version(&mut image, g, 0, Version::One);
    }
    let rules = cleared.map_or(Rules::Former, |_| Rules::Present);
    assert_eq!(
        perform_by(rules, &mut image, g, &third_put(), steps).code,
        CUT
    );
    // The top is segment 0 until the status is 9F.
    let before_9f = image[g.page(1, 0) + 5] & 0x60 != 0;
    if let Some(cleared) = cleared {
        let top = if before_9f { 0 } else { 1 };
        clear_first(&mut head(&mut image, g, top)[BITS], cleared);
    }
    steps_of(&image, g, &Request::Recover)
}

#[test]
fn recovery_takes_what_each_cut_left() {
    let g = SMALLEST;
    let settle = at_page(g.page(1, 0), &[(5, 0x8F)]);
    for (cleared, bit) in [
        (Some(0), Some((32, 0x7F))),
        (Some(1), Some((32, 0x3F))),
        (Some(4), Some((32, 0x07))),
        (Some(7), Some((32, 0x00))),
        (Some(8), Some((33, 0x7F))),
        (Some(1_000), Some((157, 0x7F))),
        (Some(ALL_BITS - 1), Some((255, 0x00))),
        (Some(ALL_BITS), None),
        (None, None),
    ] {
        let former = cleared.is_none();
        let list_after = |steps| recovery_after(steps, cleared);
        let at_top = |index| bit.map_or(vec![], |bit| at_page(g.page(index, 0), &[bit]));
        // Four steps fewer before 9F in version 1.
        let [last_a, owing, erased, done] =
            [27, 28, 29, 30].map(|s| if former { s - 4 } else { s });
        assert_eq!(list_after(0), (DONE, vec![]));
        assert_eq!(list_after(done), (DONE, vec![]));
        // (a)
        let counted = [at_top(0), vec![Step::Erase { index: 1 }]].concat();
        for steps in [1, 9, 15, 16, last_a - 8, last_a - 1, last_a] {
            assert_eq!(list_after(steps), (DONE, counted.clone()));
        }
        // (b), with the old segment still there and erased
        let all = [at_top(1), vec![Step::Erase { index: 0 }], settle.clone()].concat();
        assert_eq!(list_after(owing), (DONE, all));
        assert_eq!(list_after(erased), (DONE, settle.clone()));
        // (c), then (d)
        let torn = at_page(g.page(1, 2), &[(0, 0xDF)]);
        assert_eq!(list_after(done + 1), (DONE, torn.clone()));
        assert_eq!(list_after(done + 5), (DONE, torn));
        let older = at_page(g.page(1, 1), &[(0, 0xDF)]);
        assert_eq!(list_after(done + 6), (DONE, older));
    }
}

/// Each allowance leaves exactly the first steps of the list done.
pub fn every_allowance(store: &Store, image: &[u8], g: Geometry, request: &Request) {
    let (code, list) = steps_of(image, g, request);
    let mut expected = image.to_vec();
    for allowance in 0..=list.len() + 1 {
        let mut copy = image.to_vec();
        let reply = store.perform(&mut copy, g, request, allowance as u64);
        let cut = allowance < list.len();
        assert_eq!(reply.code, if cut { CUT } else { code });
        assert_eq!(reply.steps, allowance.min(list.len()) as u64);
        assert!(copy == expected, "the first {allowance} steps are done");
        if let Some(step) = list.get(allowance) {
            step.apply(g, &mut expected);
        }
    }
}

#[test]
fn every_allowance_of_every_request() {
    let store = Store::new("every allowance of a request");
    let mut rng = Rng::new(0xA110);
    for (n, b, images) in [
        (2, 2, 120),
        (2, 3, 60),
        (3, 2, 80),
        (4, 4, 30),
        (5, 3, 30),
        (8, 2, 20),
        (64, 2, 1),
        (2, 40, 3),
    ] {
        let g = Geometry { n, b };
        for round in 0..images {
            let shape = images::shape(&mut rng, g);
            let mut image = images::clean(&mut rng, g, shape);
            if round % 2 == 1 {
                images::disturb(&mut rng, g, &mut image);
            }
            let stored = images::some_block(&mut rng, g, &image);
            let requests = [
                Request::Format,
                Request::Put {
                    block: stored,
                    contents: images::put_contents(&mut rng),
                },
                Request::Put {
                    block: 40_000,
                    contents: rng.bytes(3),
                },
                Request::Delete { block: stored },
                Request::Recover,
            ];
            for request in requests {
                every_allowance(&store, &image, g, &request);
            }
        }
    }
}
