//! What headers hold beside their numbers (request #104): the version, and in version 2 the total
//! and the bits.

use crate::pages::write_header_of;
use crate::prng::Rng;
use crate::reference::*;

/// How many bits a header has for recoveries to clear.
pub const ALL_BITS: usize = 8 * (BITS.end - BITS.start);

/// The headers of an image.
#[derive(Clone, Copy, Debug, PartialEq, Eq)]
pub enum Heads {
    /// Of version 1.
    Former,
    /// Of version 2 as without a cut: the totals are 0, every bit is left.
    Fresh,
    /// Of version 2 after some recoveries, far from the end.
    Early,
    /// Of version 2 with any totals and any bits; often the tally is about as large as it may be.
    Any,
}

pub const HEADS: [Heads; 4] = [Heads::Former, Heads::Fresh, Heads::Early, Heads::Any];

/// The header page of the segment with this number.
pub fn head(image: &mut [u8], g: Geometry, number: u32) -> &mut [u8] {
    &mut image[g.page(g.index(number), 0)..][..PAGE]
}

pub fn set_total(image: &mut [u8], g: Geometry, number: u32, total: u32) {
    head(image, g, number)[TOTAL].copy_from_slice(&total.to_le_bytes());
}

/// Clears the first so many bits, as recoveries do one after the other.
pub fn clear_first(bits: &mut [u8], count: usize) {
    bits[..count / 8].fill(0);
    if count % 8 > 0 {
        bits[count / 8] = 0xFF >> (count % 8);
    }
}

/// Leaves so many bits, and clears all before them.
pub fn leave_last(image: &mut [u8], g: Geometry, number: u32, left: usize) {
    let bits = &mut head(image, g, number)[BITS];
    bits.fill(0xFF);
    clear_first(bits, ALL_BITS - left);
}

/// Bits in any pattern: as recoveries leave them, none, few anywhere, or such as no store makes.
pub fn any_bits(rng: &mut Rng, bits: &mut [u8]) {
    match rng.below(6) {
        0 => {}
        1 => bits.fill(0),
        2 => clear_first(bits, rng.between(0, ALL_BITS)),
        3 => {
            bits.fill(0);
            for _ in 0..rng.between(1, 3) {
                bits[rng.below(BITS.len())] |= 1 << rng.below(8);
            }
        }
        4 => bits.fill(rng.byte()),
        _ => bits.iter_mut().for_each(|byte| *byte = rng.byte()),
    }
}

/// Any total, the largest often.
pub fn any_total(rng: &mut Rng) -> u32 {
    let total = match rng.below(4) {
        0 => 0,
        1 => 99_999,
        2 => rng.below(300),
        _ => rng.below(100_000),
    };
    total as u32
}

/// A total for this top so that its whole part of number by N and the tally add up to about the
/// limit, if there is one.
fn total_at_the_limit(rng: &mut Rng, image: &[u8], g: Geometry, top: u32) -> Option<u32> {
    let page = &image[g.page(g.index(top), 0)..][..PAGE];
    let cleared: u32 = page[BITS].iter().map(|byte| byte.count_zeros()).sum();
    let others = (top + 1) / g.n as u32 + cleared;
    let total = (ENDURANCE + 1).checked_sub(others + rng.below(4) as u32)?;
    (total < ENDURANCE).then_some(total)
}

/// Gives the segments of an image, which are of version 2 and fresh, headers of this kind.
pub fn dress(rng: &mut Rng, image: &mut [u8], g: Geometry, heads: Heads, numbers: &[u32]) {
    for &number in numbers {
        match heads {
            Heads::Fresh => {}
            Heads::Former => set_version(image, g, number, Version::One),
            Heads::Early => {
                set_total(image, g, number, rng.below(300) as u32);
                let count = rng.below(30);
                clear_first(&mut head(image, g, number)[BITS], count);
            }
            Heads::Any => {
                set_total(image, g, number, any_total(rng));
                any_bits(rng, &mut head(image, g, number)[BITS]);
            }
        }
    }
    let top = numbers.last().copied().expect("one in use at least");
    if heads == Heads::Any && rng.once_in(2) {
        if let Some(total) = total_at_the_limit(rng, image, g, top) {
            set_total(image, g, top, total);
        }
    }
}

/// Makes this header one of that version, with its number and status; in version 2 the total is 0
/// and every bit left.
pub fn set_version(image: &mut [u8], g: Geometry, number: u32, version: Version) {
    let status = head(image, g, number)[5];
    write_header_of(version, image, g, number, status);
}

pub fn other(version: Version) -> Version {
    match version {
        Version::One => Version::Two,
        Version::Two => Version::One,
    }
}

/// Makes this segment, one in use, owe the erase of the one after it.
pub fn owe(image: &mut [u8], g: Geometry, number: u32) {
    let after = g.index(number + 1) as u8;
    let page = head(image, g, number);
    page[5] = OWING;
    page[16] = after;
}

/// A header beside those of this version: of that too, but for one in eight, and with any total and
/// bits in version 2.
pub fn add_header(
    rng: &mut Rng,
    image: &mut [u8],
    g: Geometry,
    version: Version,
    (number, status): (u32, u8),
) {
    let version = if rng.once_in(8) {
        other(version)
    } else {
        version
    };
    write_header_of(version, image, g, number, status);
    if version == Version::Two {
        dress(rng, image, g, Heads::Any, &[number]);
    }
}
