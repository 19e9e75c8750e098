//! Request #104: recovery clears a bit in the top's header before it erases: the first that is
//! left, whatever the pattern, until none is.

use crate::conditions::by_the_reference;
use crate::harness::{put_of, Store};
use crate::heads::{any_bits, clear_first, head, leave_last, set_total, ALL_BITS};
use crate::images::full_ring;
use crate::prng::Rng;
use crate::reference::*;
use crate::sequences::table_of;
use crate::step_lists::every_allowance;

const CHIPS: [Geometry; 4] = [
    Geometry { n: 2, b: 2 },
    Geometry { n: 3, b: 2 },
    Geometry { n: 4, b: 15 },
    Geometry { n: 255, b: 2 },
];

/// A rewrite of block 2, which compacts a full ring, cut just before the status 9F, (a), or just
/// after it, (b). Also the number of the top then.
fn cut_compaction(g: Geometry, state: char) -> (Vec<u8>, u32) {
    let top = 3 * g.n as u32 - 2;
    let mut image = full_ring(g, top);
    let (before_9f, top) = match state {
        'a' => (24 + 6 * (g.b - 1) - 3, top),
        _ => (24 + 6 * (g.b - 1) - 2, top + 1),
    };
    let reply = perform(&mut image, g, &put_of(2, b"y"), before_9f as u64);
    assert_eq!(reply.code, CUT);
    assert_eq!(by_the_reference(&image, g), state);
    (image, top)
}

/// The place of the first bit that is set, from the highest of the first byte on.
fn first_bit(bits: &[u8]) -> Option<usize> {
    (0..8 * bits.len()).find(|place| bits[place / 8] >> (7 - place % 8) & 1 == 1)
}

/// Recovers an image in (a) or (b) under every allowance: the first bit of this top goes, then the
/// segment, then in (b) the status is 8F.
fn check_recovery(store: &Store, image: &[u8], g: Geometry, top: u32, state: char) {
    let before = image[g.page(g.index(top), 0)..][BITS].to_vec();
    let mut expected = before.clone();
    let bit = first_bit(&before);
    if let Some(place) = bit {
        expected[place / 8] ^= 0x80 >> (place % 8);
    }
    every_allowance(store, image, g, &Request::Recover);
    let mut after = image.to_vec();
    let steps = store.done(&mut after, g, &Request::Recover);
    let settles = u64::from(state == 'b');
    assert_eq!(steps, u64::from(bit.is_some()) + 1 + settles);
    assert!(head(&mut after, g, top)[BITS] == expected);
    // Nothing else of the chip has changed.
    let mut rest = image.to_vec();
    head(&mut rest, g, top)[BITS].copy_from_slice(&expected);
    let index = g.index(top + 1);
    Step::Erase { index }.apply(g, &mut rest);
    if state == 'b' {
        head(&mut rest, g, top)[5] = SETTLED;
    }
    assert!(after == rest);
    assert_eq!(by_the_reference(&after, g), '-');
}

/// As many bits cleared as there can be, one after the other.
#[test]
fn every_count() {
    let store = Store::new("every count of bits cleared");
    for g in &CHIPS[..2] {
        for state in ['a', 'b'] {
            let (image, top) = cut_compaction(*g, state);
            for count in 0..=ALL_BITS {
                let mut image = image.clone();
                clear_first(&mut head(&mut image, *g, top)[BITS], count);
                check_recovery(&store, &image, *g, top, state);
            }
        }
    }
}

/// A single bit left, each in turn; and a single one cleared.
#[test]
fn every_single_bit() {
    let store = Store::new("every single bit");
    let g = CHIPS[0];
    for state in ['a', 'b'] {
        let (image, top) = cut_compaction(g, state);
        for place in 0..ALL_BITS {
            let mask = 0x80 >> (place % 8);
            let mut one_left = image.clone();
            let bits = &mut head(&mut one_left, g, top)[BITS];
            bits.fill(0);
            bits[place / 8] = mask;
            check_recovery(&store, &one_left, g, top, state);
            let mut one_cleared = image.clone();
            head(&mut one_cleared, g, top)[BITS][place / 8] = !mask;
            check_recovery(&store, &one_cleared, g, top, state);
        }
    }
}

/// Any pattern, in the other segments too: they are not looked at.
#[test]
fn any_pattern() {
    let store = Store::new("bits in any pattern");
    let mut rng = Rng::new(0xB175);
    for g in CHIPS {
        for state in ['a', 'b'] {
            let (image, top) = cut_compaction(g, state);
            for _ in 0..if g.n == 255 { 30 } else { 600 } {
                let mut image = image.clone();
                for number in top + 2 - g.n as u32..=top {
                    any_bits(&mut rng, &mut head(&mut image, g, number)[BITS]);
                }
                check_recovery(&store, &image, g, top, state);
            }
        }
    }
}

/// A recovery that is cut after the bit, again and again: all 1,792 go without an erase. After that
/// recovery still ends, and the chip has no header to give.
#[test]
fn all_bits_by_cut_recoveries() {
    let store = Store::new("all bits by cut recoveries");
    for g in CHIPS {
        for state in ['a', 'b'] {
            let (mut image, top) = cut_compaction(g, state);
            let (fewest, most) = if state == 'a' { (1, 2) } else { (2, 3) };
            for cleared in 0..ALL_BITS {
                assert_eq!(tally(&image, g, top).sum, cleared as u32);
                assert_eq!(steps_of(&image, g, &Request::Recover).1.len(), most);
                let reply = store.perform(&mut image, g, &Request::Recover, 1);
                assert_eq!((reply.code, reply.steps), (CUT, 1));
                assert_eq!(by_the_reference(&image, g), state);
            }
            assert!(!tally(&image, g, top).bit_left);
            every_allowance(&store, &image, g, &Request::Recover);
            let steps = store.done(&mut image, g, &Request::Recover);
            assert_eq!(steps, fewest);
            assert_eq!(tally(&image, g, top).sum, ALL_BITS as u32);
            worn_for_good(&store, image, g);
        }
    }
}

/// With no bit left in the top, puts go on until it is full, and answer 8 from then on; the blocks
/// can be read and deleted.
fn worn_for_good(store: &Store, mut image: Vec<u8>, g: Geometry) {
    let State::Clean(mut view) = state_of(&image, g) else {
        panic!("clean");
    };
    while view.filled < g.b {
        store.done(&mut image, g, &put_of(2, b"z"));
        view.filled += 1;
    }
    let table = table_of(&image, g).expect("clean");
    for &block in table.keys() {
        let reply = store.perform(&mut image, g, &put_of(block, b"z"), UNLIMITED);
        assert_eq!((reply.code, reply.steps), (WORN, 0));
        assert_eq!(store.read(&image, g, block).code, DONE);
    }
    for &block in table.keys() {
        store.done(&mut image, g, &Request::Delete { block });
        let reply = store.perform(&mut image, g, &put_of(block, b"z"), UNLIMITED);
        assert_eq!(reply.code, WORN);
    }
    store.done(&mut image, g, &Request::Format);
    store.done(&mut image, g, &put_of(1, b"new"));
}

/// The same by whole recoveries: an opening is cut and undone 1,792 times.
#[test]
fn all_bits_by_whole_recoveries() {
    let store = Store::new("all bits by whole recoveries");
    let g = Geometry { n: 3, b: 2 };
    let mut image = vec![0; 3 * g.segment_len()];
    store.done(&mut image, g, &Request::Format);
    for block in [1, 2] {
        store.done(&mut image, g, &put_of(block, b"x"));
    }
    for cleared in 1..=ALL_BITS {
        let allowance = 1 + cleared as u64 % 20;
        let cut = store.perform(&mut image, g, &put_of(3, b"y"), allowance);
        assert_eq!(cut.code, CUT);
        assert_eq!(store.done(&mut image, g, &Request::Recover), 2);
        let tally = tally(&image, g, 0).sum;
        assert_eq!(tally, cleared as u32);
        // Each could be the last: the next header has the sum.
        if cleared < ALL_BITS {
            let mut next = image.clone();
            assert_eq!(store.done(&mut next, g, &put_of(3, b"y")), 21 + 6);
            assert_eq!(head(&mut next, g, 1)[TOTAL], tally.to_le_bytes());
            assert!(head(&mut next, g, 1)[BITS].iter().all(|&byte| byte == 0xFF));
        }
    }
    worn_for_good(&store, image, g);
}

/// Recovery that does not erase clears no bit: (b) with a blank old segment, (c) and (d).
#[test]
fn no_bit_without_an_erase() {
    let store = Store::new("no bit without an erase");
    let mut rng = Rng::new(0xB176);
    for g in CHIPS {
        let compaction = 24 + 6 * (g.b as u64 - 1);
        for (steps, state) in [
            (compaction - 1, 'b'),
            (compaction + 1, 'c'),
            (compaction + 5, 'c'),
            (compaction + 6, 'd'),
        ] {
            for _ in 0..40 {
                let top = 3 * g.n as u32 - 1;
                let mut image = full_ring(g, top - 1);
                perform(&mut image, g, &put_of(2, b"y"), steps);
                any_bits(&mut rng, &mut head(&mut image, g, top)[BITS]);
                assert_eq!(by_the_reference(&image, g), state);
                let bits = head(&mut image, g, top)[BITS].to_vec();
                every_allowance(&store, &image, g, &Request::Recover);
                assert_eq!(store.done(&mut image, g, &Request::Recover), 1);
                assert!(head(&mut image, g, top)[BITS] == bits);
            }
        }
    }
}

/// A recovery cut at each step and begun anew, until the bits run out: each bit is one more in the
/// tally, whatever the total, even where the sum is above the limit.
#[test]
fn the_last_bits() {
    let store = Store::new("the last bits");
    for g in CHIPS {
        for state in ['a', 'b'] {
            let (image, top) = cut_compaction(g, state);
            for left in 0..=9 {
                let mut image = image.clone();
                set_total(&mut image, g, top, 99_999);
                leave_last(&mut image, g, top, left);
                let before = tally(&image, g, top).sum;
                for again in 0..left {
                    store.perform(&mut image, g, &Request::Recover, 0);
                    store.perform(&mut image, g, &Request::Recover, 1);
                    assert_eq!(tally(&image, g, top).sum, before + again as u32 + 1);
                }
                every_allowance(&store, &image, g, &Request::Recover);
                let steps = if state == 'a' { 1 } else { 2 };
                assert_eq!(store.done(&mut image, g, &Request::Recover), steps);
                assert_eq!(tally(&image, g, top).sum, 99_999 + 1_792);
                assert_eq!(by_the_reference(&image, g), '-');
            }
        }
    }
}
