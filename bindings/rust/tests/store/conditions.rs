//! The state of an image, by the letter: each condition of document 01 on its own, with no thought
//! of speed. The reference finds the same state in one pass.

use crate::damage::try_all;
use crate::harness::Store;
use crate::heads::{other, owe, set_version, HEADS};
use crate::images::{self, write_slot_page, Shape};
use crate::pages::write_header_of;
use crate::prng::Rng;
use crate::reference::*;
use std::collections::BTreeMap;
use std::io::Write;

/// The segments in use, by rising number.
fn in_use(image: &[u8], g: Geometry) -> Vec<InUse> {
    let mut found: Vec<InUse> = (0..g.n).filter_map(|i| header(image, g, i)).collect();
    found.sort_by_key(|segment| segment.number);
    found
}

fn is_blank(image: &[u8], g: Geometry, index: usize) -> bool {
    let segment = &image[g.page(index, 0)..g.page(index + 1, 0)];
    segment.iter().all(|&byte| byte == 0xFF)
}

/// The kinds of the slots of a segment.
fn kinds(image: &[u8], g: Geometry, number: u32) -> Vec<Kind> {
    let page = |slot| g.page(g.index(number), slot);
    (1..=g.b)
        .map(|slot| kind(&image[page(slot)..][..PAGE]))
        .collect()
}

fn is_live(kind: &Kind) -> bool {
    matches!(kind, Kind::Live { .. })
}

/// The place, from 1, of the first condition of "Clean" that fails.
pub fn first_failing(image: &[u8], g: Geometry) -> Option<usize> {
    let holds = conditions(image, g);
    holds.iter().position(|holds| !holds).map(|i| i + 1)
}

fn is_clean(image: &[u8], g: Geometry) -> bool {
    first_failing(image, g).is_none()
}

/// "Clean", a condition after the other.
fn conditions(image: &[u8], g: Geometry) -> [bool; 8] {
    let used = in_use(image, g);
    let slots: Vec<Vec<Kind>> = used.iter().map(|s| kinds(image, g, s.number)).collect();
    let all: Vec<Kind> = slots.concat();
    let mut blocks: Vec<u16> = Vec::new();
    for kind in &all {
        if let Kind::Live { block, .. } = kind {
            blocks.push(*block);
        }
    }
    let count_of = |block| blocks.iter().filter(|&&other| other == block).count();
    let empties_last = |kinds: &Vec<Kind>| {
        let filled = kinds.iter().filter(|&&k| k != Kind::Empty).count();
        kinds[filled..].iter().all(|&k| k == Kind::Empty)
    };
    [
        !used.is_empty() && used.len() < g.n,
        // consecutive, and of one version
        used.windows(2)
            .all(|w| w[0].number + 1 == w[1].number && w[0].version == w[1].version),
        used.iter().all(|segment| !segment.owing),
        (0..g.n).all(|i| header(image, g, i).is_some() || is_blank(image, g, i)),
        !all.contains(&Kind::Wrong) && !all.contains(&Kind::Torn),
        blocks.iter().all(|&block| count_of(block) == 1),
        slots.iter().all(empties_last)
            && slots
                .iter()
                .rev()
                .skip(1)
                .all(|s| !s.contains(&Kind::Empty)),
        all.iter().filter(|kind| is_live(kind)).count() <= g.capacity(),
    ]
}

/// The image with one exception mended, for each of (a) to (d) that the image has.
fn mended(image: &[u8], g: Geometry) -> Vec<(char, Vec<u8>)> {
    let mut found = Vec::new();
    let used = in_use(image, g);
    let Some(top) = used.last() else {
        return found;
    };
    let after = (g.index(top.number) + 1) % g.n;
    let mut erased = image.to_vec();
    Step::Erase { index: after }.apply(g, &mut erased);

    if !top.owing && header(image, g, after).is_none() && !is_blank(image, g, after) {
        found.push(('a', erased.clone()));
    }
    if top.owing && in_use(&erased, g).len() == g.n - 1 {
        let mut settled = erased;
        settled[g.page(g.index(top.number), 0) + 5] = SETTLED;
        found.push(('b', settled));
    }
    // (c) and (d) are about the last slot of the top that is not empty
    let of_top = kinds(image, g, top.number);
    let Some(last) = of_top.iter().rposition(|&k| k != Kind::Empty) else {
        return found;
    };
    let last_at = g.page(g.index(top.number), last + 1);
    if of_top[last] == Kind::Torn {
        let mut marked = image.to_vec();
        marked[last_at] = CUT_SLOT;
        found.push(('c', marked));
    }
    if let Kind::Live { block: wanted, .. } = of_top[last] {
        let mut others = Vec::new();
        for segment in &used {
            for (place, kind) in kinds(image, g, segment.number).into_iter().enumerate() {
                let at = g.page(g.index(segment.number), place + 1);
                if at != last_at && matches!(kind, Kind::Live { block, .. } if block == wanted) {
                    others.push(at);
                }
            }
        }
        if let [older] = others[..] {
            let mut marked = image.to_vec();
            marked[older] = DEAD;
            found.push(('d', marked));
        }
    }
    found
}

/// The letter of the state: clean is '-', damaged is '!'.
fn by_the_letter(image: &[u8], g: Geometry) -> char {
    let mut states = Vec::new();
    if is_clean(image, g) {
        states.push('-');
    }
    for (exception, image) in mended(image, g) {
        if is_clean(&image, g) {
            states.push(exception);
        }
    }
    assert!(states.len() <= 1, "the states exclude each other");
    states.first().copied().unwrap_or('!')
}

pub fn by_the_reference(image: &[u8], g: Geometry) -> char {
    match state_of(image, g) {
        State::Clean(_) => '-',
        State::Unfinished(Unfinished::A { .. }) => 'a',
        State::Unfinished(Unfinished::B { .. }) => 'b',
        State::Unfinished(Unfinished::C { .. }) => 'c',
        State::Unfinished(Unfinished::D { .. }) => 'd',
        State::Damaged => '!',
    }
}

/// Changes of one slot. One block is stored already, block 60,000 is not.
fn change_slot(page: &mut [u8], change: usize, stored: u16) {
    match change {
        0 => page.fill(0xFF),
        1 => page[0] = WRITING,
        2 => page[0] = DEAD,
        3 => page[0] = 0xBF,
        4 => write_slot_page(page, LIVE, stored, b"again"),
        _ => write_slot_page(page, LIVE, 60_000, b"new"),
    }
}
const SLOT_CHANGES: usize = 6;

/// Every change of one slot, and of two.
fn with_slots_changed(base: &[u8], slots: &[usize], stored: u16) -> Vec<Vec<u8>> {
    let mut images = Vec::new();
    for (i, &first) in slots.iter().enumerate() {
        for &second in &slots[i..] {
            for pair in 0..SLOT_CHANGES * SLOT_CHANGES {
                let (one, two) = (pair / SLOT_CHANGES, pair % SLOT_CHANGES);
                let mut image = base.to_vec();
                change_slot(&mut image[first..first + PAGE], one, stored);
                change_slot(&mut image[second..second + PAGE], two, stored);
                images.push(image);
            }
        }
    }
    images
}

/// Changes of headers and whole segments. The top and those before it have this version.
fn change_segments(image: &mut [u8], g: Geometry, top: InUse, change: usize) {
    let InUse {
        number, version, ..
    } = top;
    let before = number.saturating_sub(1);
    let after = g.page(g.index(number + 1), 0);
    let old = (number + 1).checked_sub(g.n as u32);
    let mut write = |version, number, status| write_header_of(version, image, g, number, status);
    match change {
        0 => {}
        1 => image[after + 5] = OPENING,
        2 => image[after + g.segment_len() - 1] = 0xFE,
        3 => owe(image, g, number),
        4 => {
            owe(image, g, number);
            image[after + 300] = 0;
        }
        5 => write(version, number + 1, OPENED),
        6 => write(version, number + 1, OWING),
        7 => write(version, before, OWING),
        8 => write(version, number + g.n as u32, SETTLED),
        // the other version: the top, the one before it, the one after it
        9 => set_version(image, g, number, other(version)),
        10 => set_version(image, g, before, other(version)),
        11 => write(other(version), number + 1, OPENED),
        12 => write(other(version), number + 1, OWING),
        // and beside an owing top: the one after it, the one before it
        13 => {
            if let Some(old) = old {
                write(other(version), old, SETTLED);
            }
            owe(image, g, number);
        }
        _ => {
            set_version(image, g, before, other(version));
            owe(image, g, number);
        }
    }
}
const SEGMENT_CHANGES: usize = 15;

/// Every change of slots with every change of segments.
#[test]
fn one_condition_after_the_other() {
    let store = Store::new("one condition after the other");
    let mut rng = Rng::new(0xC04D);
    let mut seen = BTreeMap::new();
    for (n, b) in [(2, 2), (2, 3), (3, 2), (4, 2)] {
        let g = Geometry { n, b };
        for fill in 0..(n - 1) * (b + 1) {
            let shape = Shape {
                oldest: rng.below(3 * n) as u32,
                used: 1 + fill / (b + 1),
                filled: fill % (b + 1),
                dead: 0,
                heads: rng.pick(&HEADS),
            };
            let base = images::clean(&mut rng, g, shape);
            let stored = images::some_block(&mut rng, g, &base);
            let used = in_use(&base, g);
            let top = *used.last().expect("a top");
            let mut slots = Vec::new();
            for number in shape.oldest..=top.number {
                slots.extend((1..=b).map(|slot| g.page(g.index(number), slot)));
            }
            for changed in with_slots_changed(&base, &slots, stored) {
                for change in 0..SEGMENT_CHANGES {
                    let mut image = changed.clone();
                    change_segments(&mut image, g, top, change);
                    let state = by_the_letter(&image, g);
                    assert_eq!(by_the_reference(&image, g), state);
                    *seen.entry(state).or_insert(0) += 1;
                    try_all(&store, &mut rng, &image, g);
                }
            }
        }
    }
    let _ = writeln!(std::io::stderr(), "one condition after the other: {seen:?}");
    assert!(seen.len() == 6 && seen.values().all(|&count| count > 100));
}

/// The same on images that are disturbed anywhere.
#[test]
fn one_pass_finds_the_state_by_the_letter() {
    let mut rng = Rng::new(0x1E77E9);
    for (n, b, images) in [
        (2, 2, 20_000),
        (2, 4, 20_000),
        (3, 2, 20_000),
        (3, 3, 20_000),
        (4, 2, 20_000),
        (6, 2, 20_000),
        (65, 2, 300),
        (128, 2, 150),
        (255, 2, 150),
    ] {
        let g = Geometry { n, b };
        for _ in 0..images {
            let shape = images::shape(&mut rng, g);
            let mut image = images::clean(&mut rng, g, shape);
            for _ in 0..rng.pick(&[1, 1, 2, 3]) {
                images::disturb(&mut rng, g, &mut image);
            }
            assert_eq!(by_the_reference(&image, g), by_the_letter(&image, g));
        }
    }
}
