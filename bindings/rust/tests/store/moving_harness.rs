//! The move under test (request #106).
//!
//! What a move has to give is found by `moving_reference`. Held to it are the plain implementation
//! and, if it is linked, the library; each gets a source and a target of its own, and of both every
//! byte is compared.

use crate::harness::Store;
use crate::moving_plain as plain;
use crate::moving_reference as moving;
use crate::prng::Rng;
use crate::reference::*;

/// What builds a target from a source: a move, or the rebuilding of request #113.
pub type Build = fn(&[u8], Geometry, &mut [u8], Geometry, u64) -> Reply;

/// An implementation of it.
pub struct Side {
    pub name: &'static str,
    pub build: Build,
}

/// The reference, and the implementations that are held to it.
pub struct Builders {
    /// What they are called in messages.
    pub what: &'static str,
    pub reference: Build,
    pub sides: &'static [Side],
}

const MOVES: Builders = Builders {
    what: "a move",
    reference: moving::move_to,
    sides: &[
        Side {
            name: "the plain one",
            build: plain::move_to,
        },
        #[cfg(qbx_lib)]
        Side {
            name: "the library",
            build: library,
        },
    ],
};

#[cfg(qbx_lib)]
fn library(source: &[u8], g: Geometry, target: &mut [u8], to: Geometry, allowance: u64) -> Reply {
    let [chip, wanted] = [g, to].map(|g| qanbillox::Geometry {
        segments: g.n,
        slots: g.b,
    });
    let outcome = chip.move_to(source, wanted, target, allowance);
    Reply {
        code: outcome.answer.number(),
        steps: outcome.steps,
    }
}

/// What is lent to a move: the source with its geometry, and the target as it is before with its own.
#[derive(Clone, Copy)]
pub struct Move<'a> {
    pub source: &'a [u8],
    pub g: Geometry,
    pub target: &'a [u8],
    pub to: Geometry,
}

impl Move<'_> {
    /// The reply, and the target afterwards.
    pub fn make(self, store: &Store, allowance: u64) -> (Reply, Vec<u8>) {
        self.make_by(store, &MOVES, allowance)
    }

    /// The same by others: what is lent is the same.
    pub fn make_by(self, store: &Store, by: &Builders, allowance: u64) -> (Reply, Vec<u8>) {
        store.count();
        let Move { source, g, to, .. } = self;
        let mut target = self.target.to_vec();
        let reply = (by.reference)(source, g, &mut target, to, allowance);
        match reply.code {
            DONE => assert!(reply.steps <= allowance),
            CUT => assert_eq!(reply.steps, allowance, "a cut does what is allowed"),
            _ => {
                assert_eq!(reply.steps, 0, "a refusal takes no step");
                assert!(target == self.target, "a refusal changes no byte");
            }
        }
        for side in by.sides {
            self.compare(by.what, side, allowance, reply, &target);
        }
        (reply, target)
    }

    /// Builds the target on a side, with a source that must stay as it was.
    fn compare(self, what: &str, side: &Side, allowance: u64, reply: Reply, target: &[u8]) {
        let Move { g, to, .. } = self;
        let source = self.source.to_vec();
        let mut written = self.target.to_vec();
        let told = (side.build)(&source, g, &mut written, to, allowance);
        let name = side.name;
        assert_eq!(
            told, reply,
            "{name} left: {what} with allowance {allowance} from {g:?} to {to:?}"
        );
        if written != target {
            let differs = |&at: &usize| written[at] != target[at];
            let at = (0..target.len()).find(differs).expect("equal lengths");
            panic!(
                "byte {at}: {name} has {:02X}, the reference {:02X}; \
                 {what} with allowance {allowance} from {g:?} to {to:?}",
                written[at], target[at]
            );
        }
        assert!(source == self.source, "{name} writes to the source");
    }

    /// A move that has to be done whole: the target afterwards. It is clean, and its blocks are the
    /// source's, from the first slot on.
    pub fn done(self, store: &Store) -> Vec<u8> {
        let (reply, target) = self.make(store, UNLIMITED);
        assert_eq!(reply.code, DONE, "from {:?} to {:?}", self.g, self.to);
        let entries = table(self.source, self.g).expect("a clean source");
        assert_eq!(reply.steps, moving::length(self.to, &entries));
        assert!(table(&target, self.to).as_ref() == Some(&entries));
        let State::Clean(view) = state_of(&target, self.to) else {
            panic!("a clean target");
        };
        assert_eq!((view.version, view.oldest), (Version::Two, 0));
        assert_eq!(view.first_dead, None);
        let slots = (view.used - 1) * self.to.b + view.filled;
        assert_eq!((view.live, slots), (entries.len(), entries.len()));
        target
    }

    /// A move that has to be refused with this code, whatever is allowed.
    pub fn refused(self, store: &Store, code: u8) {
        for allowance in [0, 1, UNLIMITED] {
            let (reply, _) = self.make(store, allowance);
            assert_eq!(reply, Reply { code, steps: 0 });
        }
    }
}

/// What a target may hold before: nothing, zeros, any bytes, or what looks like a store.
pub fn any_target(rng: &mut Rng, to: Geometry) -> Vec<u8> {
    let length = to.n * to.segment_len();
    match rng.below(4) {
        0 => vec![0xFF; length],
        1 => vec![0; length],
        2 if length < 100_000 => rng.bytes(length),
        _ => {
            let mut target = vec![0xFF; length];
            assert_eq!(format(&mut target, to, UNLIMITED).code, DONE);
            for block in 1..=4 {
                put(&mut target, to, block, b"of before", UNLIMITED);
            }
            target
        }
    }
}
