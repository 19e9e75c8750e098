//! The salvage under test (request #113).
//!
//! What a salvage and a rebuild have to give is found by `salvage_reference`. Held to it are the plain
//! implementation and, if it is linked, the library: of the texts every byte of the lent buffers is
//! compared, of the rebuilds every byte of source and target.

use crate::harness::Store;
use crate::moving_harness::{Builders, Move, Side};
use crate::moving_reference::length;
use crate::reference::*;
use crate::salvage_plain as plain;
use crate::salvage_reference::{self as salvage, Given};
use std::sync::atomic::{AtomicUsize, Ordering};

/// An implementation of the report in a lent buffer.
type Report = fn(&[u8], Geometry, &mut [u8]) -> (u8, usize);

const REPORTS: &[(&str, Report)] = &[
    ("the plain one", plain::salvage),
    #[cfg(qbx_lib)]
    ("the library", library::salvage),
];

const REBUILDS: Builders = Builders {
    what: "a rebuild",
    reference: salvage::rebuild,
    sides: &[
        Side {
            name: "the plain one",
            build: plain::rebuild,
        },
        #[cfg(qbx_lib)]
        Side {
            name: "the library",
            build: library::rebuild,
        },
    ],
};

#[cfg(qbx_lib)]
mod library {
    use crate::reference::{Geometry, Reply};

    fn typed(g: Geometry) -> qanbillox::Geometry {
        qanbillox::Geometry {
            segments: g.n,
            slots: g.b,
        }
    }

    pub fn salvage(image: &[u8], g: Geometry, buffer: &mut [u8]) -> (u8, usize) {
        let told = typed(g).salvage_into(image, buffer);
        (told.answer.number(), told.length)
    }

    /// The form that allocates.
    pub fn compare_string(image: &[u8], g: Geometry, report: Option<&str>) {
        let told = typed(g).salvage(image);
        assert_eq!(told.as_deref().ok(), report);
    }

    pub fn rebuild(
        source: &[u8],
        g: Geometry,
        target: &mut [u8],
        to: Geometry,
        allowance: u64,
    ) -> Reply {
        let outcome = typed(g).rebuild(source, typed(to), target, allowance);
        Reply {
            code: outcome.answer.number(),
            steps: outcome.steps,
        }
    }
}

/// Makes the report of an image in buffers of these lengths on each side, and compares every byte of
/// them. The image lent is a copy, which must stay as it was.
pub fn compare(store: &Store, image: &[u8], g: Geometry, report: Option<&str>, lengths: &[usize]) {
    let lent = image.to_vec();
    for &length in lengths {
        store.count();
        // A pattern, so that a byte out of its place shows too.
        let before: Vec<u8> = (0..length).map(|i| (i * 7 + 131) as u8).collect();
        let mut expected = before.clone();
        let reply = salvage::report_into(report, &mut expected);
        for (name, side) in REPORTS {
            let mut buffer = before.clone();
            let told = side(&lent, g, &mut buffer);
            assert_eq!(
                told, reply,
                "{name} left: a salvage in {length} bytes, {g:?}: {report:?}"
            );
            if buffer != expected {
                let shown = String::from_utf8_lossy(&buffer);
                panic!("{name}, a buffer of {length}, {g:?}:\n{shown}\nthe reference: {report:?}");
            }
        }
    }
    assert!(lent == image, "a salvage writes to the image");
}

/// So that the buffers of all tests take their turn.
static TURN: AtomicUsize = AtomicUsize::new(0);

/// The report of an image, compared in a buffer of its length, and in turn in one that is too short, in
/// none, and in one that is longer, with the string that the binding allocates. It is held to what the request says of clean images and unfinished
/// ones. `None` for a wrong size.
pub fn report(store: &Store, image: &[u8], g: Geometry) -> Option<String> {
    let report = salvage::report(image, g);
    let whole = report.as_ref().map_or(40, String::len);
    let turn = TURN.fetch_add(1, Ordering::Relaxed) % 3;
    let other = [whole - 1, 0, whole + 100][turn];
    compare(store, image, g, report.as_deref(), &[whole, other]);
    #[cfg(qbx_lib)]
    if other > whole {
        library::compare_string(image, g, report.as_deref());
    }
    if report.is_some() {
        as_promised(image, g);
    }
    report
}

/// The report of an image of a right size.
pub fn told(store: &Store, image: &[u8], g: Geometry) -> String {
    report(store, image, g).expect("a right size")
}

/// "On a clean image salvage gives exactly the stored table with no disagreement, and on an unfinished
/// one the table that recovery would." A disagreement is there only in (d), about the block that is there
/// twice.
fn as_promised(image: &[u8], g: Geometry) {
    let state = state_of(image, g);
    if state == State::Damaged {
        return;
    }
    let mut recovered = image.to_vec();
    let reply = perform(&mut recovered, g, &Request::Recover, UNLIMITED);
    assert_eq!(reply.code, DONE);
    let stored = table(&recovered, g).expect("clean");
    assert!(salvage::entries(image, g) == stored);

    let given = salvage::given(image, g);
    let differing: Vec<&Given> = given.iter().filter(|one| one.differs).collect();
    if let State::Unfinished(Unfinished::D { older }) = state {
        let block = u16::from_le_bytes([image[older + 2], image[older + 3]]);
        assert!(differing.iter().all(|one| one.block == block));
    } else {
        assert!(differing.is_empty());
    }
}

/// A rebuild: the reply, and the target afterwards.
pub fn rebuild(store: &Store, lent: Move, allowance: u64) -> (Reply, Vec<u8>) {
    lent.make_by(store, &REBUILDS, allowance)
}

/// One that has to be done whole: the target afterwards. It is clean, of version 2, holds from its first
/// slot on what the salvage gives, and each block of it is read.
pub fn rebuilt(store: &Store, lent: Move) -> Vec<u8> {
    let (reply, target) = rebuild(store, lent, UNLIMITED);
    let Move { source, g, to, .. } = lent;
    assert_eq!(reply.code, DONE, "from {g:?} to {to:?}");
    let given = salvage::given(source, g);
    let entries = salvage::entries(source, g);
    assert_eq!(reply.steps, length(to, &entries));
    assert!(table(&target, to).as_ref() == Some(&entries));
    let State::Clean(view) = state_of(&target, to) else {
        panic!("a clean target");
    };
    assert_eq!((view.version, view.oldest), (Version::Two, 0));
    assert_eq!(view.first_dead, None);
    let slots = (view.used - 1) * to.b + view.filled;
    assert_eq!((view.live, slots), (given.len(), given.len()));
    // Each read goes over the whole image: of larger targets the first and the last blocks are read.
    let few = if target.len() < 20_000 {
        given.len()
    } else {
        4
    };
    for one in given.iter().take(few).chain(given.iter().rev().take(few)) {
        let reply = store.read(&target, to, one.block);
        assert_eq!(reply.code, DONE);
        assert!(target[reply.offset..][..reply.length] == *one.contents);
    }
    target
}

/// One that has to be refused with this code, whatever is allowed.
pub fn refused(store: &Store, lent: Move, code: u8) {
    for allowance in [0, 1, UNLIMITED] {
        let (reply, _) = rebuild(store, lent, allowance);
        assert_eq!(reply, Reply { code, steps: 0 });
    }
}
