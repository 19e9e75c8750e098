//! Request #106 in plain Rust, to compare the library's speed with: the source is checked and its
//! blocks entered in a table by their numbers, in a pass each, and then the target is written in one.
//! The tests and the bench both include this file.

use super::flash_plain::{Flash, Spent};
use super::reference::*;

/// Builds in the target a fresh image with the blocks of the source.
pub fn move_to(
    source: &[u8],
    g: Geometry,
    target: &mut [u8],
    to: Geometry,
    allowance: u64,
) -> Reply {
    let places = match places_of(source, g, target, to) {
        Ok(places) => places,
        Err(code) => return Reply { code, steps: 0 },
    };
    let mut flash = Flash::new(to, target, allowance);
    let end = write_all(&mut flash, source, &places);
    flash.reply(end)
}

/// Where each block of the source is, by its number, or 0; or why nothing is moved.
fn places_of(source: &[u8], g: Geometry, target: &[u8], to: Geometry) -> Result<Vec<u32>, u8> {
    if !g.fits(source.len()) || !to.fits(target.len()) {
        return Err(SIZE);
    }
    let view = match state_of(source, g) {
        State::Clean(view) => view,
        State::Unfinished(_) => return Err(UNFINISHED),
        State::Damaged => return Err(DAMAGED),
    };
    if view.live > to.capacity() {
        return Err(FULL);
    }
    let mut places = vec![0; 65_536];
    for number in view.oldest..=view.top() {
        let start = g.page(g.index(number), 0);
        for at in (start..start + g.segment_len()).step_by(PAGE).skip(1) {
            if source[at] == LIVE {
                let block = u16::from_le_bytes([source[at + 2], source[at + 3]]);
                places[usize::from(block)] = at as u32;
            }
        }
    }
    Ok(places)
}

/// Writes the whole target: the slots of the source at these places, each under the number of its entry.
pub fn write_all(flash: &mut Flash, source: &[u8], places: &[u32]) -> Result<(), Spent> {
    let g = flash.g;
    for index in 0..g.n {
        flash.erase(index)?;
    }
    flash.open(0, 0, 0)?;
    let (mut index, mut filled) = (0, 0);
    for (block, &place) in places.iter().enumerate() {
        if place == 0 {
            continue;
        }
        if filled == g.b {
            index += 1;
            filled = 0;
            flash.open(index, index as u32, 0)?;
        }
        filled += 1;
        let page = &source[place as usize..][..PAGE];
        let contents = &page[8..8 + usize::from(page[1])];
        flash.write_slot(g.page(index, filled), block as u16, contents)?;
    }
    Ok(())
}
