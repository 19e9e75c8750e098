//! Request #103: the blank test, at every length, alignment and place of a differing byte.

use crate::harness::Store;

/// The longest part that is tried.
const MOST: usize = 600;

/// Aligned, so that each part begins where it is said to.
#[repr(align(8))]
struct Buffer([u8; MOST + 8]);

/// A blank test that should find this place to be the first that differs, if there is one.
fn differs_at(store: &Store, bytes: &[u8], first: Option<usize>) {
    let (blank, groups) = store.blank_test(bytes);
    let looked_at = first.map_or(bytes.len(), |place| place + 1);
    assert_eq!(blank, first.is_none());
    assert_eq!(groups, looked_at.div_ceil(8) as u64);
}

#[test]
fn every_length_alignment_and_place() {
    let store = Store::new("blank test, one byte that differs");
    let Buffer(buffer) = &mut Buffer([0xFF; MOST + 8]);
    for alignment in 0..8 {
        for length in 0..=MOST {
            let end = alignment + length;
            // The byte behind the part differs too: it must not be looked at.
            buffer[end] = 0x7F;
            differs_at(&store, &buffer[alignment..end], None);
            for place in 0..length {
                // Every bit in turn is the one that differs.
                buffer[alignment + place] = !(1 << ((place + length) % 8));
                differs_at(&store, &buffer[alignment..end], Some(place));
                buffer[alignment + place] = 0xFF;
            }
            buffer[end] = 0xFF;
        }
    }
}

#[test]
fn what_follows_is_not_told() {
    let store = Store::new("blank test, all differ from a place on");
    for length in 0..=MOST {
        let mut bytes = vec![0; length];
        for first in 0..length {
            differs_at(&store, &bytes, Some(first));
            bytes[first] = 0xFF;
        }
        differs_at(&store, &bytes, None);
    }
}
