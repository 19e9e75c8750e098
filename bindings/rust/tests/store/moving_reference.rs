//! Request #106, moving to another chip, from the papers alone: the checks in their order, and then
//! one list of steps on the target, of which as many are done as the allowance has.
//!
//! The list is written out byte by byte; it shares nothing with the lists of the other requests.

use crate::reference::*;

/// The blocks of an image with their contents, by rising number.
pub type Entries = Vec<(u16, Vec<u8>)>;

/// "Checks in order: 1 for either image, 4 or 5 for the source, 7 if the target's C is smaller than
/// the count of live blocks." What is to be moved, or the refusal.
pub fn check(source: &[u8], g: Geometry, target: &[u8], to: Geometry) -> Result<Entries, u8> {
    if !g.fits(source.len()) || !to.fits(target.len()) {
        return Err(SIZE);
    }
    match state_of(source, g) {
        State::Damaged => Err(DAMAGED),
        State::Unfinished(_) => Err(UNFINISHED),
        State::Clean(view) if to.capacity() < view.live => Err(FULL),
        State::Clean(_) => Ok(table(source, g).expect("a clean image")),
    }
}

/// Bytes programmed on a page: where on it, and what.
fn programmed<I>(page: usize, bytes: I) -> impl Iterator<Item = Step>
where
    I: IntoIterator<Item = (usize, u8)>,
{
    let bytes = bytes.into_iter();
    bytes.map(move |(at, value)| Step::Program {
        at: page + at,
        value,
    })
}

/// "Opening, 21: status 7F; 0-4, 6, 7; 17-20; 8-15; status 3F", with the total 0. The numbers given
/// here are below N, so that each is the index of its segment, and fits a byte.
fn opening(to: Geometry, number: usize) -> impl Iterator<Item = Step> {
    let (n, b, low) = (to.n as u8, to.b as u8, number as u8);
    let mark = [
        (5, 0x7F),
        (0, b'S'),
        (1, b'L'),
        (2, b'T'),
        (3, 2),
        (4, 0),
        (6, b),
        (7, n),
    ];
    let total = [(17, 0), (18, 0), (19, 0), (20, 0)];
    let number_bytes = [(8, low), (9, 0), (10, 0), (11, 0)];
    let inverted = [(12, !low), (13, 0xFF), (14, 0xFF), (15, 0xFF)];
    let bytes = mark.into_iter().chain(total).chain(number_bytes);
    programmed(to.page(number, 0), bytes.chain(inverted).chain([(5, 0x3F)]))
}

/// "Slot written: status 7F, length, two number bytes, the contents, status 3F."
fn slot_written(page: usize, block: u16, contents: &[u8]) -> impl Iterator<Item = Step> + '_ {
    let [low, high] = block.to_le_bytes();
    let head = [(0, 0x7F), (1, contents.len() as u8), (2, low), (3, high)];
    let bytes = contents.iter().enumerate().map(|(i, &byte)| (8 + i, byte));
    programmed(page, head.into_iter().chain(bytes).chain([(0, 0x3F)]))
}

/// "The target is formatted, then each block is put, by rising number and those of length 0 too": N
/// erases and an opening, then the slots, with an opening before the first of each further segment.
pub fn list(to: Geometry, entries: &[(u16, Vec<u8>)]) -> impl Iterator<Item = Step> + '_ {
    let erases = (0..to.n).map(|index| Step::Erase { index });
    let slots = entries.iter().enumerate();
    let puts = slots.flat_map(move |(i, (block, contents))| {
        let (number, slot) = (i / to.b, 1 + i % to.b);
        let is_further = number > 0 && slot == 1;
        let opened = is_further.then(|| opening(to, number));
        let written = slot_written(to.page(number, slot), *block, contents);
        opened.into_iter().flatten().chain(written)
    });
    erases.chain(opening(to, 0)).chain(puts)
}

/// How long the list is: N + 21 × max(1, ⌈L/B⌉) + Σ(5 + length).
pub fn length(to: Geometry, entries: &[(u16, Vec<u8>)]) -> u64 {
    let segments = entries.len().div_ceil(to.b).max(1);
    let slots: usize = entries.iter().map(|(_, contents)| 5 + contents.len()).sum();
    (to.n + 21 * segments + slots) as u64
}

/// The move, under an allowance.
pub fn move_to(
    source: &[u8],
    g: Geometry,
    target: &mut [u8],
    to: Geometry,
    allowance: u64,
) -> Reply {
    match check(source, g, target, to) {
        Ok(entries) => build(target, to, &entries, allowance),
        Err(code) => Reply { code, steps: 0 },
    }
}

/// Does as many steps of the list as are allowed.
pub fn build(target: &mut [u8], to: Geometry, entries: &[(u16, Vec<u8>)], allowance: u64) -> Reply {
    let mut steps = 0;
    for step in list(to, entries) {
        if steps == allowance {
            return Reply { code: CUT, steps };
        }
        step.apply(to, target);
        steps += 1;
    }
    Reply { code: DONE, steps }
}
