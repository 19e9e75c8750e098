//! Request #113 in plain Rust, to compare the library's speed with: the segments in use are sorted by
//! their numbers, one falling walk over their slots fills a table by block number, and the lines or the
//! target are written from it. The tests and the bench both include this file.

use super::flash_plain::Flash;
use super::moving_plain::write_all;
use super::reference::*;
use std::fmt::Write;

/// A place is a multiple of a page: its lowest bit says that another candidate differs.
const DIFFERS: u32 = 1;

/// The indices of the segments that have candidates, the highest number first.
fn falling(image: &[u8], g: Geometry) -> Vec<usize> {
    let mut used: Vec<(u32, usize, bool)> = (0..g.n)
        .filter_map(|index| {
            let found = header(image, g, index)?;
            Some((found.number, index, found.owing))
        })
        .collect();
    used.sort_unstable_by(|one, other| other.cmp(one));
    let aside = match used.first() {
        Some(&(_, top, true)) => Some((top + 1) % g.n),
        _ => None,
    };
    let indices = used.into_iter().map(|(_, index, _)| index);
    indices.filter(|&index| aside != Some(index)).collect()
}

/// Where the candidate of each block number is that is given, by the number, or 0; with a bit for
/// whether others differ. And how many there are.
fn places_of(image: &[u8], g: Geometry) -> (Vec<u32>, usize) {
    let mut places = vec![0u32; 65_536];
    let mut count = 0;
    for index in falling(image, g) {
        let segment = g.page(index, 0);
        for at in (segment + PAGE..segment + g.segment_len())
            .step_by(PAGE)
            .rev()
        {
            let page = &image[at..at + PAGE];
            let Kind::Live { block, .. } = kind(page) else {
                continue;
            };
            let entry = &mut places[usize::from(block)];
            if *entry == 0 {
                *entry = at as u32;
                count += 1;
            } else if *entry & DIFFERS == 0 && image[*entry as usize..][..PAGE] != *page {
                // The pages have their number, and all but length and contents, in common.
                *entry |= DIFFERS;
            }
        }
    }
    (places, count)
}

/// The report in a lent buffer: the code and the text's length.
pub fn salvage(image: &[u8], g: Geometry, buffer: &mut [u8]) -> (u8, usize) {
    if !g.fits(image.len()) {
        return (SIZE, 0);
    }
    let (places, count) = places_of(image, g);
    let mut text = String::with_capacity(25 + 45 * count);
    text.push_str("salvage promises nothing\n");
    for (block, &place) in places.iter().enumerate() {
        if place == 0 {
            continue;
        }
        let page = place as usize / PAGE;
        let (index, slot) = (page / (g.b + 1), page % (g.b + 1));
        let length = image[page * PAGE + 1];
        let agreement = if place & DIFFERS == 0 {
            "same"
        } else {
            "differs"
        };
        writeln!(
            text,
            "block {block} len {length} seg {index} slot {slot} {agreement}"
        )
        .expect("a string takes any text");
    }
    match buffer.get_mut(..text.len()) {
        Some(front) => {
            front.copy_from_slice(text.as_bytes());
            (DONE, text.len())
        }
        None => (SHORT_BUFFER, 0),
    }
}

/// Builds in the target a fresh image with the candidates that are given of the source.
pub fn rebuild(
    source: &[u8],
    g: Geometry,
    target: &mut [u8],
    to: Geometry,
    allowance: u64,
) -> Reply {
    let refused = |code| Reply { code, steps: 0 };
    if !g.fits(source.len()) || !to.fits(target.len()) {
        return refused(SIZE);
    }
    let (mut places, count) = places_of(source, g);
    if count > to.capacity() {
        return refused(FULL);
    }
    for place in &mut places {
        *place &= !DIFFERS;
    }
    let mut flash = Flash::new(to, target, allowance);
    let end = write_all(&mut flash, source, &places);
    flash.reply(end)
}
