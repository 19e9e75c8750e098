//! Request #113, the second part: every allowance of a rebuild, and rebuilds that are cut and begun again.

use crate::cuts;
use crate::harness::Store;
use crate::images::formatted;
use crate::moving_harness::{any_target, Move};
use crate::moving_reference::{length, list};
use crate::prng::Rng;
use crate::reference::*;
use crate::salvage_harness::{rebuild, rebuilt};
use crate::salvage_reference::entries;
use crate::salvage_sources::{any_crowd, crowded};

/// Each allowance leaves exactly the first steps of the list done; one that equals its length or is
/// larger does all. Begun again, the rebuild ends as one that was not cut, also if the power went inside
/// the next step.
fn every_allowance(store: &Store, rng: &mut Rng, this: Move) {
    let whole = rebuilt(store, this);
    let to = this.to;
    let given = entries(this.source, this.g);
    let steps: Vec<Step> = list(to, &given).collect();
    let mut expected = this.target.to_vec();
    for allowance in 0..=steps.len() + 1 {
        let (reply, mut left) = rebuild(store, this, allowance as u64);
        let is_cut = allowance < steps.len();
        assert_eq!(reply.code, if is_cut { CUT } else { DONE });
        assert_eq!(reply.steps, allowance.min(steps.len()) as u64);
        assert!(left == expected, "the first {allowance} steps are done");
        if let Some(step) = steps.get(allowance) {
            step.apply(to, &mut expected);
            cuts::inside(rng, to, &mut left, *step);
        }
        let again = Move {
            target: &left,
            ..this
        };
        assert!(rebuild(store, again, UNLIMITED).1 == whole);
    }
    assert!(expected == whole);
}

#[test]
fn every_allowance_on_small_chips() {
    let store = Store::new("rebuilds under every allowance");
    let mut rng = Rng::new(0x1145);
    let chips = [(2, 2), (2, 3), (3, 2), (4, 3), (3, 5), (9, 2)];
    for (n, b) in chips {
        let to = Geometry { n, b };
        let mut rounds = 0;
        while rounds < 10 {
            let (n, b) = rng.pick(&chips);
            let g = Geometry { n, b };
            let mut crowd = any_crowd(&mut rng, g);
            crowd.blocks = crowd.blocks.min(1 + to.capacity());
            let source = crowded(&mut rng, g, crowd);
            if entries(&source, g).len() > to.capacity() {
                continue;
            }
            rounds += 1;
            let target = any_target(&mut rng, to);
            let this = Move {
                source: &source,
                g,
                target: &target,
                to,
            };
            every_allowance(&store, &mut rng, this);
        }
    }
}

/// Larger chips, cut about the ends of the list's parts and anywhere.
#[test]
fn larger_chips() {
    let store = Store::new("rebuilds of larger chips, cut");
    let mut rng = Rng::new(0x1146);
    for (n, b) in [(4, 15), (16, 16), (2, 255), (64, 3), (255, 2)] {
        let to = Geometry { n, b };
        let mut crowd = any_crowd(&mut rng, to);
        (crowd.blocks, crowd.live) = (to.capacity(), 8);
        let source = crowded(&mut rng, to, crowd);
        let target = any_target(&mut rng, to);
        let this = Move {
            source: &source,
            g: to,
            target: &target,
            to,
        };
        let given = entries(&source, to);
        let whole = rebuilt(&store, this);
        let steps = length(to, &given);
        let format = n as u64 + 21;
        let mut allowances = vec![0, 1, n as u64 - 1, n as u64, n as u64 + 1];
        allowances.extend([format - 1, format, format + 1, format + 4, format + 5]);
        allowances.extend([steps - 1, steps, steps + 1]);
        allowances.extend((0..10).map(|_| rng.below(steps as usize) as u64));
        for allowance in allowances {
            let (reply, left) = rebuild(&store, this, allowance);
            assert_eq!(reply.code, if allowance < steps { CUT } else { DONE });
            if allowance == format {
                assert!(left == formatted(to));
            }
            let again = Move {
                target: &left,
                ..this
            };
            assert!(rebuild(&store, again, UNLIMITED).1 == whole);
        }
    }
}
