//! Request #102, the mounted form, from the papers alone: what a mount makes of a table, what a
//! mounted call gives while image and table are in step, and what binds one that is out of step.
//!
//! It keeps no table right: a call in step is the reference's request without a table, and the
//! table afterwards is that of a fresh mount, by the reference's scan.

use crate::reference::{self, *};

/// Entries of a table: one for each block number, and entry 0.
pub const PLACES: usize = 65_536;

/// What is lent to a call.
#[derive(Clone, Copy)]
pub struct Lent<'a> {
    pub g: Geometry,
    pub image: &'a [u8],
    pub table: &'a [u32],
}

// ---------------------------------------------------------------------------------------------
// Mounting
// ---------------------------------------------------------------------------------------------

/// A mount: 1 and 10 don't touch the table, 4 and 5 mark it unusable, 0 fills it. Entries past
/// 65,535 stay.
pub fn mount(image: &[u8], g: Geometry, table: &mut [u32]) -> u8 {
    if !g.fits(image.len()) {
        return SIZE;
    }
    if table.len() < PLACES {
        return SHORT_TABLE;
    }
    match state_of(image, g) {
        State::Clean(view) => {
            fill(image, g, &view, table);
            DONE
        }
        State::Unfinished(_) => {
            table[0] = 0;
            UNFINISHED
        }
        State::Damaged => {
            table[0] = 0;
            DAMAGED
        }
    }
}

/// Entry 0 is 1, entry k the offset of block k's live slot, or 0.
fn fill(image: &[u8], g: Geometry, view: &View, table: &mut [u32]) {
    table[0] = 1;
    table[1..PLACES].fill(0);
    for number in view.oldest..=view.top() {
        for slot in 1..=g.b {
            let at = g.page(g.index(number), slot);
            if let Kind::Live { block, .. } = kind(&image[at..at + PAGE]) {
                table[usize::from(block)] = at as u32;
            }
        }
    }
}

/// Whether a mount that gives this code marks the table unusable.
pub fn mount_spoils(code: u8) -> bool {
    code == DAMAGED || code == UNFINISHED
}

/// Whether image and table are as a mount leaves them.
pub fn in_step(lent: Lent) -> bool {
    let mut fresh = lent.table.to_vec();
    mount(lent.image, lent.g, &mut fresh) == DONE && fresh == lent.table
}

/// Whether a table is the one that was to be left. Of one that is marked unusable only entry 0 means
/// something, and those past 65,535.
pub fn agrees(spoilt: bool, expected: &[u32], left: &[u32]) -> bool {
    if spoilt {
        left[0] == 0 && left[PLACES..] == expected[PLACES..]
    } else {
        left == expected
    }
}

// ---------------------------------------------------------------------------------------------
// Calls
// ---------------------------------------------------------------------------------------------

/// The block of a call, and what is put.
fn arguments(request: &Request) -> (u16, Option<&[u8]>) {
    match request {
        Request::Put { block, contents } => (*block, Some(contents)),
        Request::Delete { block } => (*block, None),
        Request::Format | Request::Recover => panic!("there is no mounted {request:?}"),
    }
}

/// The refusals that bind a call in step or not, in their order: 1, 10, 2, 3, and 5 while entry 0 is
/// not 1.
fn refusal(lent: Lent, block: u16, contents: Option<&[u8]>) -> Option<u8> {
    let wrong_length = |contents: &[u8]| contents.is_empty() || contents.len() > MAX_LENGTH;
    if !lent.g.fits(lent.image.len()) {
        Some(SIZE)
    } else if lent.table.len() < PLACES {
        Some(SHORT_TABLE)
    } else if block == 0 || block == 0xFFFF {
        Some(NUMBER)
    } else if contents.is_some_and(wrong_length) {
        Some(LENGTH)
    } else if lent.table[0] != 1 {
        Some(UNFINISHED)
    } else {
        None
    }
}

/// A mounted put or delete, refused by its arguments or in step.
pub fn perform(
    image: &mut [u8],
    g: Geometry,
    table: &mut [u32],
    request: &Request,
    allowance: u64,
) -> Reply {
    let (block, contents) = arguments(request);
    if let Some(code) = refusal(Lent { g, image, table }, block, contents) {
        return Reply { code, steps: 0 };
    }
    let reply = reference::perform(image, g, request, allowance);
    match reply.code {
        DONE => assert_eq!(mount(image, g, table), DONE, "clean after {request:?}"),
        CUT => table[0] = 0,
        DAMAGED | UNFINISHED => panic!("not in step: {request:?}"),
        _ => {}
    }
    reply
}

/// A mounted read, refused by its arguments or in step.
pub fn read(lent: Lent, block: u16) -> ReadReply {
    match refusal(lent, block, None) {
        Some(code) => ReadReply {
            code,
            offset: 0,
            length: 0,
        },
        None => reference::read(lent.image, lent.g, block),
    }
}

// ---------------------------------------------------------------------------------------------
// Out of step
// ---------------------------------------------------------------------------------------------

/// Which answer may come: the refusal that binds, or one of those that are left open.
fn check_code(bound: Option<u8>, open: &[u8], code: u8) {
    match bound {
        Some(bound) => assert_eq!(code, bound, "a refusal that binds every call"),
        None => assert!(open.contains(&code), "answer {code}, not one of {open:?}"),
    }
}

/// Holds a put or delete to what binds it out of step too: before, its reply, and after it.
pub fn check(before: Lent, request: &Request, allowance: u64, reply: Reply, after: Lent) {
    let (block, contents) = arguments(request);
    let open: &[u8] = match request {
        Request::Put { .. } => &[DONE, DAMAGED, UNFINISHED, FULL, WORN, CUT, FORMER_VERSION],
        _ => &[DONE, DAMAGED, UNFINISHED, ABSENT, CUT],
    };
    check_code(refusal(before, block, contents), open, reply.code);
    assert!(reply.steps <= allowance, "more steps than allowed");
    match reply.code {
        DONE => {}
        CUT => assert_eq!(after.table[0], 0, "a cut leaves a usable table"),
        _ => {
            assert_eq!(reply.steps, 0, "a refusal counts steps");
            assert!(before.image == after.image, "a refusal writes to the image");
            assert!(before.table == after.table, "a refusal writes to the table");
        }
    }
    let past = |table: &[u32]| table.get(PLACES..).map(<[u32]>::to_vec);
    assert_eq!(
        past(before.table),
        past(after.table),
        "entries past 65,535 change"
    );
}

/// Holds a read to what binds it out of step too. A slot has at most 248 bytes of contents.
pub fn check_read(lent: Lent, block: u16, reply: ReadReply) {
    let bound = refusal(lent, block, None);
    check_code(bound, &[DONE, DAMAGED, UNFINISHED, ABSENT], reply.code);
    if reply.code != DONE {
        assert_eq!(
            (reply.offset, reply.length),
            (0, 0),
            "a refusal has a place"
        );
    }
    assert!(reply.length <= MAX_LENGTH);
    assert!(reply.offset + reply.length <= lent.image.len(), "outside");
}
