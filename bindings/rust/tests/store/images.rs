//! Images made up directly, without requests: clean ones of any fill and age, and damaged ones that
//! differ from them in few places, where a wrong test would go unnoticed.

use crate::heads::{
    add_header, any_bits, dress, head, other, owe, set_total, set_version, Heads, HEADS,
};
pub use crate::pages::{write_header, write_slot_page};
use crate::prng::Rng;
use crate::reference::*;
use std::ops::RangeInclusive;

pub fn blank(g: Geometry) -> Vec<u8> {
    vec![0xFF; g.n * g.segment_len()]
}

pub fn formatted(g: Geometry) -> Vec<u8> {
    let mut image = blank(g);
    assert_eq!(format(&mut image, g, UNLIMITED).code, DONE);
    image
}

/// Contents of a slot, of any length that it may have, short ones more often. Length 0 is what a
/// store from before request #105 may have left.
pub fn contents(rng: &mut Rng) -> Vec<u8> {
    let length = match rng.below(8) {
        0 => 0,
        1 => MAX_LENGTH,
        2 => rng.between(0, MAX_LENGTH),
        _ => rng.between(0, 12),
    };
    if rng.once_in(8) {
        // Contents that look like erased flash, or like another status.
        vec![rng.pick(&[0xFF, 0x3F, 0x00]); length]
    } else {
        rng.bytes(length)
    }
}

/// Contents for a put. Now and then there are none, which is refused.
pub fn put_contents(rng: &mut Rng) -> Vec<u8> {
    let contents = contents(rng);
    if contents.is_empty() && !rng.once_in(4) {
        return rng.bytes(1);
    }
    contents
}

/// How a clean image is to look.
#[derive(Clone, Copy, Debug)]
pub struct Shape {
    /// The smallest number in use.
    pub oldest: u32,
    /// Segments in use, 1 to N-1.
    pub used: usize,
    /// Slots of the top that are not empty, 0 to B.
    pub filled: usize,
    /// Of each 16 slots that are not empty, about so many are dead.
    pub dead: usize,
    /// What the headers hold beside their numbers.
    pub heads: Heads,
}

impl Shape {
    fn numbers(&self) -> Vec<u32> {
        (self.oldest..self.oldest + self.used as u32).collect()
    }
}

/// A clean image of this shape, its blocks in any order.
pub fn clean(rng: &mut Rng, g: Geometry, shape: Shape) -> Vec<u8> {
    let mut image = blank(g);
    let slots = (shape.used - 1) * g.b + shape.filled;
    let mut blocks: Vec<u16> = match rng.below(4) {
        // the largest numbers
        0 => (1..=slots as u16).map(|i| 0xFFFF - i).collect(),
        // numbers that differ in their highest bits
        1 => (1..=slots as u16).map(u16::reverse_bits).collect(),
        _ => (1..=slots as u16).collect(),
    };
    rng.shuffle(&mut blocks);
    let must_die = if slots == (g.n - 1) * g.b {
        rng.below(slots)
    } else {
        usize::MAX
    };
    let numbers = shape.numbers();
    for &number in &numbers {
        let status = rng.pick(&[OPENED, SETTLED]);
        write_header(&mut image, g, number, status);
    }
    dress(rng, &mut image, g, shape.heads, &numbers);
    for (i, block) in blocks.into_iter().enumerate() {
        let number = numbers[i / g.b];
        let at = g.page(g.index(number), 1 + i % g.b);
        let page = &mut image[at..at + PAGE];
        if i == must_die || rng.below(16) < shape.dead {
            dead_page(rng, page, block);
        } else {
            let contents = contents(rng);
            write_slot_page(page, LIVE, block, &contents);
        }
    }
    image
}

/// The rest of a dead slot is free: an old block, a torn one, or anything.
pub fn dead_page(rng: &mut Rng, page: &mut [u8], block: u16) {
    match rng.below(4) {
        0 => {
            let noise = rng.bytes(PAGE);
            page.copy_from_slice(&noise);
        }
        1 => page.fill(0xFF),
        _ => {
            let contents = contents(rng);
            write_slot_page(page, LIVE, block, &contents);
        }
    }
    page[0] = rng.pick(&[DEAD, CUT_SLOT]);
}

/// A fresh chip with empty records of these blocks, as a store from before request #105 left them.
pub fn with_empty_records(g: Geometry, blocks: RangeInclusive<u16>) -> Vec<u8> {
    let mut image = formatted(g);
    for (i, block) in blocks.enumerate() {
        let number = (i / g.b) as u32;
        write_header(&mut image, g, number, OPENED);
        let at = g.page(g.index(number), 1 + i % g.b);
        write_slot_page(&mut image[at..at + PAGE], LIVE, block, b"");
    }
    image
}

/// A chip with so many segments in use, from the number `oldest` on. Each slot has the status that
/// is given for the place of its segment among them, from 1, and its own; 255 leaves it empty. The
/// blocks are 1, 2, 3 and so on, all with the same contents.
pub fn with_statuses(
    g: Geometry,
    (oldest, used): (u32, usize),
    contents: &[u8],
    status: impl Fn(usize, usize) -> u8,
) -> Vec<u8> {
    let mut image = blank(g);
    let mut block = 0;
    for place in 1..=used {
        let number = oldest + place as u32 - 1;
        write_header(&mut image, g, number, SETTLED);
        for slot in 1..=g.b {
            let status = status(place, slot);
            if status != 0xFF {
                block += 1;
                let at = g.page(g.index(number), slot);
                write_slot_page(&mut image[at..at + PAGE], status, block, contents);
            }
        }
    }
    image
}

/// A ring at its capacity, every slot written, its top at this number. The only dead slot is the
/// first of the oldest segment; the contents are of one byte.
pub fn full_ring(g: Geometry, top: u32) -> Vec<u8> {
    let used = g.n - 1;
    let oldest = (top + 1).checked_sub(used as u32).expect("a full ring");
    with_statuses(g, (oldest, used), b"x", |place, slot| {
        if (place, slot) == (1, 1) {
            DEAD
        } else {
            LIVE
        }
    })
}

/// A rewrite of a block in the second oldest segment. On a full ring it compacts once, since the
/// dead slot is in the oldest; and it leaves one in the segment that is the oldest then, so that
/// the next such rewrite compacts once too.
pub fn rewrite_in_turn(image: &[u8], g: Geometry) -> Request {
    let State::Clean(view) = state_of(image, g) else {
        panic!("a clean image");
    };
    let second = g.index(view.oldest + 1);
    let mut slots = (1..=g.b).map(|slot| g.page(second, slot));
    let at = slots.find(|&at| image[at] == LIVE).expect("a live slot");
    Request::Put {
        block: u16::from_le_bytes([image[at + 2], image[at + 3]]),
        contents: b"y".to_vec(),
    }
}

/// A random shape. Full rings, full tops and numbers near the wear limit come often.
pub fn shape(rng: &mut Rng, g: Geometry) -> Shape {
    let used = if rng.once_in(3) {
        rng.between(1, g.n - 1)
    } else {
        g.n - 1
    };
    let filled = match rng.below(4) {
        0 => rng.between(0, g.b),
        1 => g.b - 1,
        _ => g.b,
    };
    // The last numbers that fit are those up to the limit - 1.
    let last = g.wear_limit() - used as u32;
    let oldest = match rng.below(4) {
        0 => 0,
        1 => rng.below(last as usize + 1) as u32,
        2 => rng.below(3 * g.n) as u32,
        _ => last - rng.below(2 * g.n) as u32,
    };
    Shape {
        oldest,
        used,
        filled,
        dead: rng.pick(&[0, 0, 1, 4, 8, 15, 16]),
        heads: rng.pick(&HEADS),
    }
}

/// A block that the image seems to have, or a small number.
pub fn some_block(rng: &mut Rng, g: Geometry, image: &[u8]) -> u16 {
    if g.fits(image.len()) {
        for _ in 0..8 {
            let at = g.page(rng.below(g.n), rng.between(1, g.b));
            if image[at] == LIVE {
                return u16::from_le_bytes([image[at + 2], image[at + 3]]);
            }
        }
    }
    rng.between(1, 24) as u16
}

/// The header pages' statuses and their neighbours by one bit.
const HEADER_STATUSES: [u8; 12] = [
    0x7F, 0x3F, 0xDF, 0x9F, 0x8F, 0xFF, 0x00, 0x1F, 0xBF, 0x0F, 0x87, 0xCF,
];
const SLOT_STATUSES: [u8; 9] = [0x7F, 0x3F, 0x1F, 0x5F, 0xFF, 0xDF, 0x9F, 0x0F, 0x00];

/// Number and version of the top, by the headers alone.
fn top_of(image: &[u8], g: Geometry) -> (u32, Version) {
    (0..g.n)
        .filter_map(|index| header(image, g, index))
        .max_by_key(|found| found.number)
        .map_or((0, Version::Two), |found| (found.number, found.version))
}

/// Changes the version, the total or the bits of a header.
fn disturb_head(rng: &mut Rng, g: Geometry, image: &mut [u8], number: u32, version: Version) {
    match rng.below(6) {
        0 => set_version(image, g, number, other(version)),
        1 => {
            let total = rng.pick(&[0, 1, 99_999, 100_000, 100_001, 1 << 17, u32::MAX]);
            set_total(image, g, number, total);
        }
        2 | 3 => any_bits(rng, &mut head(image, g, number)[BITS]),
        4 => head(image, g, number)[rng.between(17, 31)] = rng.pick(&[0, 1, 0x7F, 0xFE, 0xFF]),
        _ => head(image, g, number)[rng.between(3, 4)] = rng.pick(&[0, 1, 2, 3, 0xFF]),
    }
}

/// Changes the image in one place as a cut, a fault or somebody else's write might: some changes
/// make it unfinished, most damage it, some leave it clean.
pub fn disturb(rng: &mut Rng, g: Geometry, image: &mut [u8]) {
    let (top, version) = top_of(image, g);
    let top_index = g.index(top);
    let after = (top_index + 1) % g.n;
    let any = rng.below(g.n);
    let near = rng.pick(&[any, top_index, after]);
    let slot = g.page(near, rng.between(1, g.b));
    let filled = (1..=g.b)
        .rev()
        .find(|&slot| kind(&image[g.page(top_index, slot)..][..PAGE]) != Kind::Empty)
        .unwrap_or(0);
    let next = filled.min(g.b - 1) + 1;
    match rng.below(30) {
        // (a): something in the segment after the top
        0 => {
            let length = rng.between(1, g.segment_len());
            let noise = rng.bytes(length);
            image[g.page(after, 0)..][..length].copy_from_slice(&noise);
        }
        1 => image[g.page(after, 0) + rng.below(g.segment_len())] = rng.byte(),
        2 => {
            let status = rng.pick(&HEADER_STATUSES);
            add_header(rng, image, g, version, (top + 1, status));
        }
        // (b): the top owes; the one after it may hold anything
        3 | 4 => {
            owe(image, g, top);
            match rng.below(5) {
                0 => {}
                1 => {
                    let noise = rng.bytes(g.segment_len());
                    image[g.page(after, 0)..][..noise.len()].copy_from_slice(&noise);
                }
                2 => {
                    let from = g.page(any, 0);
                    image.copy_within(from..from + g.segment_len(), g.page(after, 0));
                }
                // the segment that was to be erased, as it was or half erased
                _ => {
                    if let Some(number) = (top + 1).checked_sub(g.n as u32) {
                        let status = rng.pick(&[OPENED, SETTLED, OWING]);
                        add_header(rng, image, g, version, (number, status));
                        for slot in 1..=g.b {
                            let at = g.page(after, slot);
                            let block = rng.between(1, 60) as u16;
                            let status = rng.pick(&[LIVE, DEAD, CUT_SLOT]);
                            write_slot_page(&mut image[at..at + PAGE], status, block, b"stale");
                        }
                        if rng.once_in(2) {
                            let step = Step::Erase { index: after };
                            crate::cuts::inside(rng, g, image, step);
                        }
                    }
                }
            }
        }
        // (c): the last slot of the top torn
        5 | 6 => {
            let at = g.page(top_index, rng.pick(&[filled.max(1), next]));
            image[at] = WRITING;
            if rng.once_in(2) {
                image[at + rng.between(1, PAGE - 1)] = rng.byte();
            }
        }
        // (d): a block twice
        7..=9 => {
            let to = g.page(top_index, rng.pick(&[filled.max(1), next]));
            let from = g.page(any, rng.between(1, g.b));
            image.copy_within(from..from + PAGE, to);
        }
        // single bits and bytes
        10 => {
            image[rng.below(g.n) * g.segment_len() + rng.below(g.segment_len())] ^=
                1 << rng.below(8)
        }
        11 => image[g.page(near, 0) + rng.below(20)] ^= 1 << rng.below(8),
        12 => image[g.page(near, 0) + rng.below(PAGE)] = rng.byte(),
        13 => image[slot + rng.below(10)] ^= 1 << rng.below(8),
        14 => image[slot + rng.below(PAGE)] = rng.byte(),
        15 => image[g.page(near, 0) + 5] = rng.pick(&HEADER_STATUSES),
        16 => image[slot] = rng.pick(&SLOT_STATUSES),
        // limits of a slot
        17 => image[slot + 1] = rng.pick(&[0, 1, 247, 248, 249, 255]),
        18 => {
            let number: u16 = rng.pick(&[0, 1, 65_534, 65_535]);
            image[slot + 2..slot + 4].copy_from_slice(&number.to_le_bytes());
        }
        // whole segments
        19 => {
            let (a, b) = (g.page(near, 0), g.page(any, 0));
            for i in 0..g.segment_len() {
                image.swap(a + i, b + i);
            }
        }
        20 => {
            let from = g.page(any, 0);
            image.copy_within(from..from + g.segment_len(), g.page(near, 0));
        }
        21 => Step::Erase { index: near }.apply(g, image),
        22 => crate::cuts::inside(rng, g, image, Step::Erase { index: near }),
        // another number with its right inverse: a gap, a later or an earlier top, one too large
        23 => {
            let number = match rng.below(3) {
                0 => top + g.n as u32,
                1 => top.saturating_sub(rng.below(2 * g.n) as u32),
                _ => g.wear_limit() - g.n as u32 + rng.below(2 * g.n) as u32,
            };
            let status = rng.pick(&[OPENED, SETTLED, OWING]);
            add_header(rng, image, g, version, (number, status));
        }
        // an empty slot, or one after an empty one
        24 => image[slot..slot + PAGE].fill(0xFF),
        // version, total and bits
        25..=28 => {
            let earlier = top.saturating_sub(rng.below(g.n) as u32);
            let number = rng.pick(&[top, top, earlier]);
            disturb_head(rng, g, image, number, version);
        }
        _ => {
            let block = rng.between(1, 65_534) as u16;
            let contents = contents(rng);
            write_slot_page(&mut image[slot..slot + PAGE], LIVE, block, &contents);
        }
    }
}
