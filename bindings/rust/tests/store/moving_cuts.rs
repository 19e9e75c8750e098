//! Request #106: the list of a move written out, every allowance of it, and moves that are cut and
//! begun again.

use crate::cuts;
use crate::harness::Store;
use crate::heads::HEADS;
use crate::images::{self, formatted};
use crate::moving_harness::{any_target, Move};
use crate::moving_reference::{length, list};
use crate::moving_sources::{laid_out, life, short_entries};
use crate::prng::Rng;
use crate::reference::*;
use crate::step_lists::{opening_list, slot_list};

/// N erases, an opening, the slots by rising number; another opening only when a block needs it.
#[test]
fn written_out() {
    let to = Geometry { n: 3, b: 2 };
    let entries = [(7, b"A1".to_vec()), (300, vec![]), (65_534, vec![0xFF])];
    let erases: Vec<Step> = (0..3).map(|index| Step::Erase { index }).collect();
    let parts = [
        erases,
        opening_list(to, 0, Some(0)),
        slot_list(to.page(0, 1), 7, b"A1"),
        slot_list(to.page(0, 2), 300, b""),
        opening_list(to, 1, Some(0)),
        slot_list(to.page(1, 1), 65_534, b"\xFF"),
    ];
    for (blocks, expected, steps) in [
        (0, &parts[..2], 24),
        (1, &parts[..3], 31),
        (2, &parts[..4], 36),
        (3, &parts[..6], 63),
    ] {
        let told: Vec<Step> = list(to, &entries[..blocks]).collect();
        assert_eq!(told, expected.concat());
        assert_eq!(told.len(), steps);
        assert_eq!(length(to, &entries[..blocks]), steps as u64);
    }
}

/// Without empty records a move is a format and a put of each block.
#[test]
fn as_format_and_puts() {
    let store = Store::new("moves beside a format and puts");
    let mut rng = Rng::new(0x1068);
    for (n, b, moves) in [(2, 2, 20), (3, 2, 40), (5, 4, 40), (4, 15, 30), (16, 16, 4)] {
        let to = Geometry { n, b };
        for _ in 0..moves {
            let source = life(&mut rng, to, 3 * n * b);
            let target = any_target(&mut rng, to);
            let this = Move {
                source: &source,
                g: to,
                target: &target,
                to,
            };
            let (reply, moved) = this.make(&store, UNLIMITED);
            let mut image = target.clone();
            let mut steps = store.done(&mut image, to, &Request::Format);
            for (block, contents) in table(&source, to).expect("clean") {
                steps += store.done(&mut image, to, &Request::Put { block, contents });
            }
            assert_eq!(reply, Reply { code: DONE, steps });
            assert!(moved == image);
        }
    }
}

/// Each allowance leaves exactly the first steps of the list done; one that equals its length or is
/// larger does all. Begun again, the move ends as one that was not cut, also if the power went inside
/// the next step.
fn every_allowance(store: &Store, rng: &mut Rng, this: Move) {
    let whole = this.done(store);
    let to = this.to;
    let entries = table(this.source, this.g).expect("clean");
    let steps: Vec<Step> = list(to, &entries).collect();
    let mut expected = this.target.to_vec();
    for allowance in 0..=steps.len() + 1 {
        let (reply, mut left) = this.make(store, allowance as u64);
        let is_cut = allowance < steps.len();
        assert_eq!(reply.code, if is_cut { CUT } else { DONE });
        assert_eq!(reply.steps, allowance.min(steps.len()) as u64);
        assert!(left == expected, "the first {allowance} steps are done");
        if let Some(step) = steps.get(allowance) {
            step.apply(to, &mut expected);
            cuts::inside(rng, to, &mut left, *step);
        }
        let again = Move {
            target: &left,
            ..this
        };
        assert!(again.make(store, UNLIMITED).1 == whole);
    }
    assert!(expected == whole);
}

#[test]
fn every_allowance_on_small_chips() {
    let store = Store::new("moves under every allowance");
    let mut rng = Rng::new(0x1069);
    let chips = [(2, 2), (2, 3), (3, 2), (4, 3), (3, 5), (9, 2)];
    for (n, b) in chips {
        let to = Geometry { n, b };
        for round in 0..20 {
            let (n, b) = rng.pick(&chips);
            let g = Geometry { n, b };
            let most = to.capacity().min(g.capacity());
            let count = if round == 0 { 0 } else { rng.between(1, most) };
            let mut entries = short_entries(&mut rng, count);
            if let Some((_, contents)) = entries.first_mut() {
                *contents = images::contents(&mut rng);
            }
            let heads = rng.pick(&HEADS);
            let source = laid_out(&mut rng, g, &entries, heads);
            let target = any_target(&mut rng, to);
            let this = Move {
                source: &source,
                g,
                target: &target,
                to,
            };
            every_allowance(&store, &mut rng, this);
        }
    }
}

/// Larger chips, cut about the ends of the list's parts and anywhere.
#[test]
fn larger_chips() {
    let store = Store::new("moves of larger chips, cut");
    let mut rng = Rng::new(0x106A);
    for (n, b) in [(4, 15), (16, 16), (2, 255), (64, 3), (255, 2)] {
        let to = Geometry { n, b };
        let source = life(&mut rng, to, 3 * n * b);
        let target = any_target(&mut rng, to);
        let this = Move {
            source: &source,
            g: to,
            target: &target,
            to,
        };
        let whole = this.done(&store);
        let entries = table(&source, to).expect("clean");
        let steps = length(to, &entries);
        let format = n as u64 + 21;
        let mut allowances = vec![0, 1, n as u64 - 1, n as u64, n as u64 + 1];
        allowances.extend([format - 1, format, format + 1, format + 4, format + 5]);
        allowances.extend([steps - 1, steps, steps + 1]);
        allowances.extend((0..10).map(|_| rng.below(steps as usize) as u64));
        for allowance in allowances {
            let (reply, left) = this.make(&store, allowance);
            assert_eq!(reply.code, if allowance < steps { CUT } else { DONE });
            if allowance == format {
                assert!(left == formatted(to));
            }
            let again = Move {
                target: &left,
                ..this
            };
            assert!(again.make(&store, UNLIMITED).1 == whole);
        }
    }
}
