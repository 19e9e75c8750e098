//! Sources for moves (request #106): chips with a life behind them, and clean images that hold given
//! blocks wherever there is a place.

use crate::harness::put_of;
use crate::heads::{dress, Heads};
use crate::images::{self, blank, formatted, write_header, write_slot_page};
use crate::moving_reference::Entries;
use crate::prng::Rng;
use crate::reference::*;
use std::collections::BTreeSet;

/// So many block numbers from all over their range, in any order. The first and the last are among
/// them, if there are two.
pub fn spread(rng: &mut Rng, count: usize) -> Vec<u16> {
    let mut numbers = BTreeSet::new();
    if count > 1 {
        numbers.extend([1, 65_534]);
    }
    while numbers.len() < count {
        numbers.insert(rng.between(1, 65_534) as u16);
    }
    let mut numbers: Vec<u16> = numbers.into_iter().collect();
    rng.shuffle(&mut numbers);
    numbers
}

/// So many blocks with their contents, by rising number, empty records among them.
pub fn any_entries(rng: &mut Rng, count: usize) -> Entries {
    let mut numbers = spread(rng, count);
    numbers.sort();
    let entries = numbers.into_iter();
    entries
        .map(|block| (block, images::contents(rng)))
        .collect()
}

/// The same with contents of a few bytes, for large chips.
pub fn short_entries(rng: &mut Rng, count: usize) -> Entries {
    let mut entries = any_entries(rng, count);
    for (_, contents) in &mut entries {
        contents.truncate(3);
    }
    entries
}

/// A request of a tenant's day: mostly a put, of one of these blocks.
pub fn any_request(rng: &mut Rng, blocks: &[u16]) -> Request {
    let block = rng.pick(blocks);
    match rng.below(6) {
        0 => Request::Delete { block },
        _ => {
            let mut contents = images::contents(rng);
            if contents.is_empty() {
                contents.push(0x41);
            }
            put_of(block, &contents)
        }
    }
}

/// A chip after so many requests from a format.
pub fn life(rng: &mut Rng, g: Geometry, requests: usize) -> Vec<u8> {
    let blocks = spread(rng, g.capacity() + 2);
    let mut image = formatted(g);
    for _ in 0..requests {
        let request = any_request(rng, &blocks);
        perform(&mut image, g, &request, UNLIMITED);
    }
    image
}

/// A clean image that holds just these blocks, in any order and among dead slots, in segments of any
/// numbers with such headers.
pub fn laid_out(rng: &mut Rng, g: Geometry, entries: &Entries, heads: Heads) -> Vec<u8> {
    assert!(entries.len() <= g.capacity());
    let count = rng.between(entries.len(), (g.n - 1) * g.b);
    let mut slots: Vec<_> = entries.iter().map(Some).collect();
    slots.resize(count, None);
    rng.shuffle(&mut slots);

    let used = count.div_ceil(g.b).max(1) as u32;
    let oldest = rng.below(3 * g.n) as u32;
    let numbers: Vec<u32> = (oldest..oldest + used).collect();
    let mut image = blank(g);
    for &number in &numbers {
        write_header(&mut image, g, number, rng.pick(&[OPENED, SETTLED]));
    }
    dress(rng, &mut image, g, heads, &numbers);
    for (i, slot) in slots.into_iter().enumerate() {
        let at = g.page(g.index(numbers[i / g.b]), 1 + i % g.b);
        let page = &mut image[at..at + PAGE];
        match slot {
            Some((block, contents)) => write_slot_page(page, LIVE, *block, contents),
            None => images::dead_page(rng, page, 1),
        }
    }
    assert!(table(&image, g).as_ref() == Some(entries));
    image
}

/// How sources lie, as counts of those seen.
#[derive(Default, Debug)]
pub struct Seen {
    /// The segments' numbers do not rise with their indices.
    pub wrapped: usize,
    /// The blocks' numbers do not rise with the segments' numbers and the places.
    pub unsorted: usize,
    pub version_one: usize,
    /// Of version 2, with erases counted.
    pub counted: usize,
    /// With a record of 0 bytes.
    pub with_empty: usize,
    /// With no block at all.
    pub bare: usize,
}

impl Seen {
    pub fn count(&mut self, image: &[u8], g: Geometry) {
        let State::Clean(view) = state_of(image, g) else {
            return;
        };
        let mut blocks = Vec::new();
        let mut empty = false;
        for number in view.oldest..=view.top() {
            for slot in 1..=g.b {
                let at = g.page(g.index(number), slot);
                if let Kind::Live { block, length } = kind(&image[at..at + PAGE]) {
                    blocks.push(block);
                    empty |= length == 0;
                }
            }
        }
        let is_counted = || view.version == Version::Two && tally(image, g, view.top()).sum > 0;
        self.wrapped += usize::from(g.index(view.top()) < g.index(view.oldest));
        self.unsorted += usize::from(!blocks.is_sorted());
        self.version_one += usize::from(view.version == Version::One);
        self.counted += usize::from(is_counted());
        self.with_empty += usize::from(empty);
        self.bare += usize::from(blocks.is_empty());
    }
}
