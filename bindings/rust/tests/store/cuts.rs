//! Power cuts inside a step (document 01, "The chip").

use crate::prng::Rng;
use crate::reference::{Geometry, Step};

/// Every byte that a cut inside programming can leave: each bit that was to be cleared is cleared
/// or not. The first is the new byte, the last the old one.
pub fn inside_program(old: u8, value: u8) -> Vec<u8> {
    let changing = old & !value;
    (0..=u8::MAX)
        .filter(|kept| kept & !changing == 0)
        .map(|kept| (old & value) | kept)
        .collect()
}

/// A random cut inside a step.
pub fn inside(rng: &mut Rng, g: Geometry, image: &mut [u8], step: Step) {
    match step {
        Step::Program { at, value } => {
            let kept = rng.byte();
            image[at] &= value | kept;
        }
        Step::Erase { index } => {
            let segment = &mut image[g.page(index, 0)..][..g.segment_len()];
            raise_bits(rng, segment);
        }
    }
}

/// A cut inside an erase: each bit is what it was, or 1. Cells differ in speed, so that few, half
/// or most bits have risen, or all up to some byte, or those of single bytes or pages.
fn raise_bits(rng: &mut Rng, segment: &mut [u8]) {
    let length = segment.len();
    let manner = rng.below(7);
    let place = rng.below(length);
    for (i, byte) in segment.iter_mut().enumerate() {
        let random = rng.byte();
        *byte |= match manner {
            0 => random,
            1 => random & rng.byte() & rng.byte(),
            2 => random | rng.byte() | rng.byte(),
            3 if i < place => 0xFF,
            4 if i >= place => 0xFF,
            // only in the header page, or only in the first bytes of pages
            5 if i < 256 => random,
            6 if i % 256 < 8 => random,
            _ => 0,
        };
    }
}
