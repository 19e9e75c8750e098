//! Request #110's put in plain Rust, to compare the library's speed with: a layer over the plain store's
//! put and a count of live blocks, which asks nothing else of the image. The list is checked, the blocks
//! of the range counted in a pass, and then the block put in another; where the quota is used, that one
//! without a step to spend, for what comes before 7. The tests and the bench both include this file.

use super::reference::*;

/// Whether the numbers are three for each of up to 40 tenants, with ranges apart and quotas within C.
fn is_right(list: &[u32], g: Geometry) -> bool {
    if list.len() % 3 != 0 || list.len() > 120 {
        return false;
    }
    let mut sum = 0;
    for (i, share) in list.chunks_exact(3).enumerate() {
        if share[0] == 0 || share[0] > share[1] || share[1] > 65_534 {
            return false;
        }
        for other in list[..3 * i].chunks_exact(3) {
            if share[0] <= other[1] && other[0] <= share[1] {
                return false;
            }
        }
        sum += u64::from(share[2]);
    }
    sum <= g.capacity() as u64
}

/// How many blocks from `first` to `last` are live, and whether this one is; or why they are not counted.
fn count(image: &[u8], g: Geometry, first: u16, last: u16, block: u16) -> Result<(u32, bool), u8> {
    let view = match state_of(image, g) {
        State::Clean(view) => view,
        State::Unfinished(_) => return Err(UNFINISHED),
        State::Damaged => return Err(DAMAGED),
    };
    let (mut blocks, mut is_stored) = (0, false);
    for number in view.oldest..=view.top() {
        for slot in 1..=g.b {
            let at = g.page(g.index(number), slot);
            if image[at] == LIVE {
                let held = u16::from_le_bytes([image[at + 2], image[at + 3]]);
                blocks += u32::from(first <= held && held <= last);
                is_stored |= held == block;
            }
        }
    }
    Ok((blocks, is_stored))
}

/// A put by tenant: its answer.
pub fn put_by(
    image: &mut [u8],
    g: Geometry,
    list: &[u32],
    tenant: u32,
    block: u16,
    contents: &[u8],
) -> u8 {
    if !g.fits(image.len()) {
        return SIZE;
    }
    if !is_right(list, g) {
        return SHARES;
    }
    if block == 0 || block == 65_535 {
        return NUMBER;
    }
    let share = match list.chunks_exact(3).nth((tenant as usize).wrapping_sub(1)) {
        Some(share) if (share[0]..=share[1]).contains(&u32::from(block)) => share,
        _ => return FOREIGN,
    };
    match count(image, g, share[0] as u16, share[1] as u16, block) {
        Ok((blocks, false)) if blocks >= share[2] => match put(image, g, block, contents, 0).code {
            code @ (LENGTH | FORMER_VERSION) => code,
            _ => FULL,
        },
        _ => put(image, g, block, contents, UNLIMITED).code,
    }
}
