//! The mounted form under test (request #102).
//!
//! What a call has to give is found by `mounted_reference`. Held to it are the plain implementation
//! and, if it is linked, the library; each works on an image and a table of its own, which only its
//! own calls write, and which are compared after each call.

use crate::harness::Store;
use crate::mounted_reference::{self as mounted, Lent, PLACES};
use crate::reference::*;
use crate::{mounted_plain as plain, sequences};
use std::fmt::Debug;

/// An implementation of the mounted form.
struct Side {
    name: &'static str,
    mount: fn(&mut [u8], Geometry, &mut [u32]) -> u8,
    perform: fn(&mut [u8], Geometry, &mut [u32], &Request, u64) -> Reply,
    read: fn(&[u8], Geometry, &[u32], u16) -> ReadReply,
}

const SIDES: &[Side] = &[
    Side {
        name: "the plain one",
        mount: |image, g, table| plain::mount(image, g, table),
        perform: |image, g, table, request, allowance| match request {
            Request::Put { block, contents } => {
                plain::put(image, g, table, *block, contents, allowance)
            }
            Request::Delete { block } => plain::delete(image, g, table, *block, allowance),
            Request::Format | Request::Recover => unreachable!("the reference panics"),
        },
        read: plain::read,
    },
    #[cfg(qbx_lib)]
    Side {
        name: "the library",
        mount: library::mount,
        perform: library::perform,
        read: library::read,
    },
];

/// What one side has.
#[derive(Clone)]
struct Own {
    image: Vec<u8>,
    table: Vec<u32>,
}

/// A chip with a table, both as the last call left them.
#[derive(Clone)]
pub struct Board {
    pub g: Geometry,
    pub image: Vec<u8>,
    pub table: Vec<u32>,
    /// Whether the table is marked unusable: the rest of it means nothing, and differs.
    spoilt: bool,
    sides: Vec<Own>,
}

/// A table that no mount leaves, with so many entries.
pub fn any_table(length: usize) -> Vec<u32> {
    (0..length as u32).map(|k| k * 0x101 + 0x700).collect()
}

impl Board {
    /// One that is not mounted yet.
    pub fn unmounted(g: Geometry, image: Vec<u8>, table: Vec<u32>) -> Board {
        let own = Own {
            image: image.clone(),
            table: table.clone(),
        };
        Board {
            g,
            image,
            table,
            spoilt: false,
            sides: vec![own; SIDES.len()],
        }
    }

    /// One with a clean image, which is mounted. The table has entries past the last that counts.
    pub fn new(store: &Store, g: Geometry, image: Vec<u8>) -> Board {
        let mut board = Board::unmounted(g, image, any_table(PLACES + 5));
        assert_eq!(board.mount(store), DONE);
        board
    }

    pub fn mount(&mut self, store: &Store) -> u8 {
        store.count();
        let code = mounted::mount(&self.image, self.g, &mut self.table);
        for (side, own) in SIDES.iter().zip(&mut self.sides) {
            let told = (side.mount)(&mut own.image, self.g, &mut own.table);
            assert_eq!(told, code, "{} left, a mount, {:?}", side.name, self.g);
        }
        self.spoilt = mounted::mount_spoils(code) || (self.spoilt && code != DONE);
        self.compare(&"a mount");
        code
    }

    /// Somebody else writes the image.
    pub fn write_image(&mut self, image: &[u8]) {
        self.image.copy_from_slice(image);
        for own in &mut self.sides {
            own.image.copy_from_slice(image);
        }
    }

    /// Recovers the image, without the table, and mounts it again.
    pub fn recover(&mut self, store: &Store) {
        let mut image = self.image.clone();
        store.done(&mut image, self.g, &Request::Recover);
        self.write_image(&image);
        assert_eq!(self.mount(store), DONE);
    }

    /// A put or a delete.
    pub fn perform(&mut self, store: &Store, request: &Request, allowance: u64) -> Reply {
        store.count();
        let g = self.g;
        let reply = mounted::perform(&mut self.image, g, &mut self.table, request, allowance);
        for (side, own) in SIDES.iter().zip(&mut self.sides) {
            let before = self.spoilt.then(|| own.table.clone());
            let told = (side.perform)(&mut own.image, g, &mut own.table, request, allowance);
            assert_eq!(
                told, reply,
                "{} left: {request:?} with allowance {allowance}, {g:?}",
                side.name
            );
            assert!(
                before.is_none_or(|before| before == own.table),
                "{}: {request:?} touches a table that is unusable",
                side.name
            );
        }
        self.spoilt |= reply.code == CUT;
        self.compare(&(request, allowance));
        reply
    }

    /// A put or a delete that has to be done whole. Its steps.
    pub fn done(&mut self, store: &Store, request: &Request) -> u64 {
        let reply = self.perform(store, request, UNLIMITED);
        assert_eq!(reply.code, DONE, "{request:?}");
        reply.steps
    }

    pub fn read(&self, store: &Store, block: u16) -> ReadReply {
        store.count();
        let reply = mounted::read(self.lent(), block);
        for (side, own) in SIDES.iter().zip(&self.sides) {
            let told = (side.read)(&own.image, self.g, &own.table, block);
            assert_eq!(told, reply, "{} left: read {block}", side.name);
        }
        reply
    }

    pub fn lent(&self) -> Lent<'_> {
        Lent {
            g: self.g,
            image: &self.image,
            table: &self.table,
        }
    }

    /// The blocks with their contents.
    pub fn stored(&self) -> sequences::Table {
        sequences::table_of(&self.image, self.g).expect("a clean image")
    }

    /// Each side's image and table against those that were to be left.
    fn compare(&self, call: &dyn Debug) {
        for (side, own) in SIDES.iter().zip(&self.sides) {
            if own.image != self.image {
                let differs = |&at: &usize| own.image[at] != self.image[at];
                let at = (0..own.image.len()).find(differs);
                panic!("{}: byte {at:?} after {call:?}, {:?}", side.name, self.g);
            }
            if !mounted::agrees(self.spoilt, &self.table, &own.table) {
                let differs = |&k: &usize| own.table[k] != self.table[k];
                let k = (0..own.table.len()).find(differs);
                panic!("{}: entry {k:?} after {call:?}, {:?}", side.name, self.g);
            }
        }
    }
}

// ---------------------------------------------------------------------------------------------
// Out of step
// ---------------------------------------------------------------------------------------------

/// Puts and deletes one after the other, with their allowances, of which only that is known which
/// binds every call.
pub fn try_strangers(store: &Store, lent: Lent, calls: &[(Request, u64)]) {
    let g = lent.g;
    for side in SIDES {
        let (mut image, mut table) = (lent.image.to_vec(), lent.table.to_vec());
        for (request, allowance) in calls {
            store.count();
            let before = (image.clone(), table.clone());
            let reply = (side.perform)(&mut image, g, &mut table, request, *allowance);
            let [before, after] = [(&before.0, &before.1), (&image, &table)]
                .map(|(image, table)| Lent { g, image, table });
            mounted::check(before, request, *allowance, reply, after);
        }
    }
}

/// Such a read.
pub fn try_stranger_read(store: &Store, lent: Lent, block: u16) {
    for side in SIDES {
        store.count();
        let reply = (side.read)(lent.image, lent.g, lent.table, block);
        mounted::check_read(lent, block, reply);
    }
}

/// The exports themselves, since the binding gives no table to be looked at or spoilt.
#[cfg(qbx_lib)]
mod library {
    use crate::reference::{Geometry, ReadReply, Reply, Request};
    use crate::sys;

    pub fn mount(image: &mut [u8], g: Geometry, table: &mut [u32]) -> u8 {
        let before = image.to_vec();
        // SAFETY: here and below, pointers and lengths are those of slices that are borrowed for the
        // call; those that are written are borrowed alone.
        let code = unsafe {
            sys::qbx_mount(
                image.as_ptr(),
                image.len(),
                g.n,
                g.b,
                table.as_mut_ptr(),
                table.len(),
            )
        };
        assert!(before == image, "a mount writes to the image");
        u8::try_from(code).expect("an answer alone")
    }

    pub fn perform(
        image: &mut [u8],
        g: Geometry,
        table: &mut [u32],
        request: &Request,
        allowance: u64,
    ) -> Reply {
        let (bytes, entries) = (image.len(), table.len());
        let (image, table) = (image.as_mut_ptr(), table.as_mut_ptr());
        let packed = match request {
            Request::Put { block, contents } => unsafe {
                let (contents, length) = (contents.as_ptr(), contents.len());
                sys::qbx_mounted_put(
                    image, bytes, g.n, g.b, table, entries, *block, contents, length, allowance,
                )
            },
            Request::Delete { block } => unsafe {
                sys::qbx_mounted_delete(image, bytes, g.n, g.b, table, entries, *block, allowance)
            },
            Request::Format | Request::Recover => unreachable!("the reference panics"),
        };
        Reply {
            code: (packed & 0xFF) as u8,
            steps: packed >> 8,
        }
    }

    pub fn read(image: &[u8], g: Geometry, table: &[u32], block: u16) -> ReadReply {
        let (bytes, entries) = (image.len(), table.len());
        let packed = unsafe {
            let (image, table) = (image.as_ptr(), table.as_ptr());
            sys::qbx_mounted_read(image, bytes, g.n, g.b, table, entries, block)
        };
        ReadReply {
            code: (packed & 0xFF) as u8,
            offset: (packed >> 16) as usize,
            length: (packed >> 8 & 0xFF) as usize,
        }
    }
}
