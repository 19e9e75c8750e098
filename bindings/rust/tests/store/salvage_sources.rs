//! Images for salvages (request #113): blocks many times over, in one segment and in many, with contents
//! that agree or nearly do, under headers of any number, status and version.

use crate::account_images::any_slot;
use crate::heads::{any_bits, any_total, head, set_total};
use crate::images::{self, write_slot_page};
use crate::pages::write_header_of;
use crate::prng::Rng;
use crate::reference::*;
use crate::salvage_reference::{given, left_aside};
use std::collections::BTreeMap;

/// Few contents, of which some differ in the length alone, in the first byte or in the last.
fn few_contents(rng: &mut Rng) -> Vec<u8> {
    let mut contents = match rng.below(8) {
        0 => vec![],
        1 => vec![0xFF],
        2 => vec![0xFF; 2],
        3 => b"A".to_vec(),
        4 => b"B".to_vec(),
        _ => vec![0x41; MAX_LENGTH],
    };
    if contents.len() == MAX_LENGTH {
        match rng.below(8) {
            0 => contents[0] ^= 1,
            1 => contents[MAX_LENGTH - 1] ^= 0x80,
            2 => contents.truncate(MAX_LENGTH - 1),
            3 => contents[rng.below(MAX_LENGTH)] = 0,
            _ => {}
        }
    }
    contents
}

/// How an image is to be crowded.
#[derive(Clone, Copy, Debug)]
pub struct Crowd {
    /// Of each 8 segments about so many are in use.
    pub used: usize,
    /// How many block numbers there are, at most.
    pub blocks: usize,
    /// Of each 8 slots about so many are of live form.
    pub live: usize,
    /// Whether the contents of a block are mostly the same.
    pub agreed: bool,
}

/// Any crowd. All segments in use, one block and one contents alone come often.
pub fn any_crowd(rng: &mut Rng, g: Geometry) -> Crowd {
    let slots = (g.n * g.b).min(60_000);
    Crowd {
        used: rng.pick(&[8, 8, 8, 7, 4]),
        blocks: rng.pick(&[1, 2, 1 + slots / 4, slots, 3 * slots / 2]),
        live: rng.pick(&[8, 8, 7, 4]),
        agreed: rng.once_in(2),
    }
}

/// A header in use, its number in one of a few rounds; one in five owes an erase.
fn some_header(rng: &mut Rng, image: &mut [u8], g: Geometry, index: usize, round: u32) {
    let n = g.n as u32;
    let number = (round + rng.below(3) as u32) * n + index as u32;
    let status = rng.pick(&[OPENED, OPENED, SETTLED, SETTLED, OWING]);
    let version = rng.pick(&[Version::One, Version::Two, Version::Two]);
    write_header_of(version, image, g, number, status);
    if version == Version::Two && rng.once_in(3) {
        set_total(image, g, number, any_total(rng));
        any_bits(rng, &mut head(image, g, number)[BITS]);
    }
}

/// The block with this place among those of the image: small numbers, or from all over the range.
fn block_of(spread: bool, place: usize) -> u16 {
    if spread {
        // 10,007 has no factor in common with 65,534, so that all differ.
        (1 + place * 10_007 % 65_534) as u16
    } else {
        1 + place as u16
    }
}

pub fn crowded(rng: &mut Rng, g: Geometry, crowd: Crowd) -> Vec<u8> {
    let mut image = images::blank(g);
    let round = rng.pick(&[0, 0, 1, 255, 99_997]);
    let spread = rng.once_in(2);
    let usual = few_contents(rng);
    for index in 0..g.n {
        if rng.below(8) < crowd.used {
            some_header(rng, &mut image, g, index, round);
        } else if rng.once_in(2) {
            continue;
        }
        for slot in 1..=g.b {
            let page = &mut image[g.page(index, slot)..][..PAGE];
            if rng.below(8) >= crowd.live {
                any_slot(rng, page);
                continue;
            }
            let block = block_of(spread, rng.below(crowd.blocks));
            if crowd.agreed && !rng.once_in(16) {
                write_slot_page(page, LIVE, block, &usual);
            } else {
                let contents = few_contents(rng);
                write_slot_page(page, LIVE, block, &contents);
            }
        }
    }
    image
}

/// Noise, with segments in use among it.
pub fn noise(rng: &mut Rng, g: Geometry) -> Vec<u8> {
    let mut image = rng.bytes(g.n * g.segment_len());
    for index in 0..g.n {
        if rng.once_in(2) {
            let round = rng.below(3) as u32;
            some_header(rng, &mut image, g, index, round);
        }
        for slot in 1..=g.b {
            if rng.once_in(2) {
                any_slot(rng, &mut image[g.page(index, slot)..][..PAGE]);
            }
        }
    }
    image
}

/// What images hold, as counts of those seen.
#[derive(Default, Debug)]
pub struct Seen {
    /// Blocks whose candidates agree, and those of which one differs.
    pub same: usize,
    pub differing: usize,
    /// Blocks with several candidates that agree.
    pub agreed: usize,
    /// Images of which nothing is given.
    pub bare: usize,
    /// Images with N segments in use, with both versions, with several that owe an erase.
    pub all_used: usize,
    pub both_versions: usize,
    pub several_owing: usize,
    /// Those with a segment in use that is left aside, and those where it would have changed the report.
    pub aside: usize,
    pub aside_matters: usize,
    pub clean: usize,
    pub unfinished: usize,
    pub damaged: usize,
}

impl Seen {
    pub fn count(&mut self, image: &[u8], g: Geometry) {
        let found = given(image, g);
        let differing = found.iter().filter(|one| one.differs).count();
        self.differing += differing;
        self.same += found.len() - differing;
        self.agreed += several_that_agree(image, g);
        self.bare += usize::from(found.is_empty());

        let headers: Vec<InUse> = (0..g.n).filter_map(|i| header(image, g, i)).collect();
        let owing = headers.iter().filter(|found| found.owing).count();
        let first = headers.first().map(|found| found.version);
        self.all_used += usize::from(headers.len() == g.n);
        self.both_versions += usize::from(headers.iter().any(|one| Some(one.version) != first));
        self.several_owing += usize::from(owing > 1);
        if let Some(index) = left_aside(image, g) {
            if let Some(old) = header(image, g, index) {
                self.aside += 1;
                // The same with a top that does not owe.
                let mut settled = image.to_vec();
                let top = headers.iter().max_by_key(|one| one.number).expect("one");
                head(&mut settled, g, top.number)[5] = SETTLED;
                assert!(old.number < top.number);
                self.aside_matters += usize::from(given(&settled, g) != found);
            }
        }
        match state_of(image, g) {
            State::Clean(_) => self.clean += 1,
            State::Unfinished(_) => self.unfinished += 1,
            State::Damaged => self.damaged += 1,
        }
    }
}

/// How many blocks have several slots that are alike, in segments that are not left aside.
fn several_that_agree(image: &[u8], g: Geometry) -> usize {
    let aside = left_aside(image, g);
    let mut slots = BTreeMap::<u16, usize>::new();
    for index in (0..g.n).filter(|&index| aside != Some(index)) {
        if header(image, g, index).is_some() {
            for slot in 1..=g.b {
                if let Kind::Live { block, .. } = kind(&image[g.page(index, slot)..][..PAGE]) {
                    *slots.entry(block).or_default() += 1;
                }
            }
        }
    }
    let found = given(image, g);
    found
        .iter()
        .filter(|one| !one.differs && slots[&one.block] > 1)
        .count()
}
