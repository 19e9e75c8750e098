//! Settings under test (request #109): each request runs on the reference, on the plain implementation
//! and, if it is linked, on the library, each with a copy of the same image, and all that comes back is
//! compared.

use crate::harness::Store;
use crate::reference::{ReadReply, Reply, CUT, DONE, UNLIMITED};
use crate::settings_plain as plain;
use crate::settings_reference::{self as settings, UNWRITTEN};
use std::collections::BTreeMap;

/// The papers' P and the layout table, as they are handed over.
#[derive(Clone, Debug)]
pub struct Board {
    pub partitions: usize,
    pub layout: Vec<u8>,
}

/// What the items hold.
pub type Table = BTreeMap<u8, Vec<u8>>;

impl Board {
    pub fn new(partitions: usize, layout: &[u8]) -> Board {
        Board {
            partitions,
            layout: layout.to_vec(),
        }
    }

    /// The identifiers of a layout that is right, and the lengths.
    pub fn items(&self) -> impl Iterator<Item = (u8, usize)> + '_ {
        let pairs = self.layout.chunks_exact(2);
        pairs.map(|pair| (pair[0], usize::from(pair[1])))
    }

    /// The bytes that the status and all items take.
    pub fn used(&self) -> usize {
        1 + self.items().map(|(_, length)| 1 + length).sum::<usize>()
    }

    /// A write that may be refused or cut.
    pub fn write(
        &self,
        store: &Store,
        image: &mut [u8],
        item: u8,
        data: &[u8],
        allowance: u64,
    ) -> Reply {
        store.count();
        let (partitions, layout) = (self.partitions, &self.layout[..]);
        let before = image.to_vec();
        let reply = settings::write(image, partitions, layout, item, data, allowance);
        match reply.code {
            DONE => assert!(reply.steps <= allowance),
            CUT => assert_eq!(reply.steps, allowance, "a cut write does what is allowed"),
            code => {
                assert!((1..=4).contains(&code), "a refusal of this part");
                assert_eq!(reply.steps, 0, "a refused write takes no step");
                assert!(before == image, "a refused write changes no byte");
            }
        }
        let mut copy = before.clone();
        let told = plain::write(&mut copy, partitions, layout, item, data, allowance);
        assert_eq!(
            told, reply,
            "left the plain one, right the reference: {self:?}"
        );
        assert!(copy == image, "the plain one leaves another image");
        #[cfg(qbx_lib)]
        library::compare_write(self, before, image, item, data, allowance, reply);
        reply
    }

    /// A write that has to be done whole. Its steps.
    pub fn done(&self, store: &Store, image: &mut [u8], item: u8, data: &[u8]) -> u64 {
        let reply = self.write(store, image, item, data, UNLIMITED);
        assert_eq!(reply.code, DONE, "{item} by {self:?}");
        reply.steps
    }

    pub fn read(&self, store: &Store, image: &[u8], item: u8) -> ReadReply {
        store.count();
        let reply = settings::read(image, self.partitions, &self.layout, item);
        if reply.code != DONE {
            assert_eq!((reply.offset, reply.length), (0, 0));
        }
        let told = plain::read(image, self.partitions, &self.layout, item);
        assert_eq!(
            told, reply,
            "left the plain one, right the reference: {self:?}"
        );
        #[cfg(qbx_lib)]
        library::compare_read(self, image, item, reply);
        reply
    }

    /// All that can be read of a board whose statuses are a run. Whatever can lies in this partition.
    pub fn shown(&self, store: &Store, image: &[u8], newest: Option<usize>) -> Table {
        let size = image.len() / self.partitions;
        let mut table = Table::new();
        for (item, _) in self.items() {
            let found = self.read(store, image, item);
            if found.code == DONE {
                assert_eq!(Some(found.offset / size), newest, "another is the newest");
                table.insert(item, image[found.offset..][..found.length].to_vec());
            } else {
                assert_eq!(found.code, UNWRITTEN);
            }
        }
        table
    }
}

#[cfg(qbx_lib)]
mod library {
    use super::*;
    use crate::sys;

    pub fn compare_write(
        board: &Board,
        mut image: Vec<u8>,
        after: &[u8],
        item: u8,
        data: &[u8],
        allowance: u64,
        reply: Reply,
    ) {
        let (layout, lent) = (board.layout.clone(), data.to_vec());
        // SAFETY: pointers and lengths are those of slices that live through the call; the one that is
        // written is borrowed alone.
        let packed = unsafe {
            sys::qbx_settings_write(
                image.as_mut_ptr(),
                image.len(),
                board.partitions,
                layout.as_ptr(),
                layout.len(),
                item,
                lent.as_ptr(),
                lent.len(),
                allowance,
            )
        };
        let told = Reply {
            code: (packed & 0xFF) as u8,
            steps: packed >> 8,
        };
        assert_eq!(
            told,
            reply,
            "left the library, right the reference: {item} with {} bytes and allowance {allowance} by \
             {board:?}",
            data.len()
        );
        assert!(layout == board.layout && lent == data, "only read");
        if image != after {
            let differs = |&at: &usize| image[at] != after[at];
            let at = (0..after.len()).find(differs).expect("equal lengths");
            panic!(
                "byte {at}: the library has {:02X}, the reference {:02X}; {item} with allowance \
                 {allowance} by {board:?}",
                image[at], after[at]
            );
        }
    }

    pub fn compare_read(board: &Board, image: &[u8], item: u8, reply: ReadReply) {
        let layout = &board.layout;
        // SAFETY: pointers and lengths are those of slices that live through the call.
        let packed = unsafe {
            sys::qbx_settings_read(
                image.as_ptr(),
                image.len(),
                board.partitions,
                layout.as_ptr(),
                layout.len(),
                item,
            )
        };
        let told = ReadReply {
            code: (packed & 0xFF) as u8,
            offset: (packed >> 16) as usize,
            length: (packed >> 8 & 0xFF) as usize,
        };
        assert_eq!(
            told, reply,
            "left the library, right the reference: read {item} by {board:?}"
        );
    }
}
