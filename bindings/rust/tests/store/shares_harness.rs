//! The layer under test (request #110): each request runs on the reference, a put also on the plain
//! implementation, and, if it is linked, all on the library, with a copy of the same image and buffer,
//! and everything that comes back is compared.

use crate::harness::Store;
use crate::prng::Rng;
use crate::reference::*;
use crate::shares_plain as plain;
use crate::shares_reference::{self as shares, Asked, Share, Told};

/// A list of shares as the numbers that are handed over.
pub fn numbers(shares: &[Share]) -> Vec<u32> {
    let each = shares.iter();
    each.flat_map(|share| [share.first, share.last, share.quota])
        .collect()
}

pub fn share(first: u32, last: u32, quota: u32) -> Share {
    Share { first, last, quota }
}

pub fn put_of(block: u16, contents: &[u8]) -> Asked {
    Asked::Put {
        block,
        contents: contents.to_vec(),
    }
}

/// A read with a buffer of this length, in a pattern, so that a byte out of its place shows too.
pub fn read_of(block: u16, length: usize) -> Asked {
    Asked::Read {
        block,
        buffer: (0..length).map(|i| (i * 7 + 131) as u8).collect(),
    }
}

/// A request of a tenant.
pub fn ask(
    store: &Store,
    image: &mut [u8],
    g: Geometry,
    list: &[u32],
    tenant: u32,
    asked: &Asked,
) -> Told {
    store.count();
    let before = image.to_vec();
    let told = shares::ask(image, g, list, tenant, asked);
    assert!(
        ![CUT, SHORT_TABLE].contains(&told.code),
        "no tenant sees it"
    );
    if told.code != DONE {
        assert!(before == image, "a refused request changes no byte");
    }
    if let Asked::Put { block, contents } = asked {
        let mut copy = before.clone();
        let code = plain::put_by(&mut copy, g, list, tenant, *block, contents);
        assert_eq!(
            code, told.code,
            "{asked:?} of tenant {tenant} by {list:?}, {g:?}"
        );
        assert!(copy == image, "the plain one leaves another image");
    }
    #[cfg(qbx_lib)]
    library::compare(before, image, g, list, tenant, asked, &told);
    told
}

/// One of the three requests, for a block.
pub fn any_asked(rng: &mut Rng, block: u16) -> Asked {
    match rng.below(5) {
        0..=2 => put_of(block, &crate::images::put_contents(rng)),
        3 => Asked::Delete { block },
        _ => read_of(block, rng.pick(&[0, 1, 12, 247, 248, 300])),
    }
}

#[cfg(qbx_lib)]
mod library {
    use super::*;
    use crate::sys;

    /// What the exports give.
    fn ask(image: &mut [u8], g: Geometry, list: &[u32], tenant: u32, asked: &Asked) -> Told {
        let (at, length) = (image.as_mut_ptr(), image.len());
        let (shares, count) = (list.as_ptr(), list.len());
        let mut buffer = Vec::new();
        // SAFETY: pointers and lengths are those of slices that live through the call; those that
        // are written are borrowed alone.
        let packed = unsafe {
            match asked {
                Asked::Put { block, contents } => {
                    let (from, bytes) = (contents.as_ptr(), contents.len());
                    sys::qbx_share_put(
                        at, length, g.n, g.b, shares, count, tenant, *block, from, bytes,
                    )
                }
                Asked::Delete { block } => {
                    sys::qbx_share_delete(at, length, g.n, g.b, shares, count, tenant, *block)
                }
                Asked::Read {
                    block,
                    buffer: lent,
                } => {
                    buffer = lent.clone();
                    let (to, bytes) = (buffer.as_mut_ptr(), buffer.len());
                    sys::qbx_share_read(
                        at, length, g.n, g.b, shares, count, tenant, *block, to, bytes,
                    )
                }
            }
        };
        Told {
            code: (packed & 0xFF) as u8,
            length: (packed >> 8) as usize,
            buffer,
        }
    }

    pub fn compare(
        mut image: Vec<u8>,
        after: &[u8],
        g: Geometry,
        list: &[u32],
        tenant: u32,
        asked: &Asked,
        told: &Told,
    ) {
        let lent = list.to_vec();
        assert_eq!(
            ask(&mut image, g, &lent, tenant, asked),
            *told,
            "left the library, right the reference: {asked:?} of tenant {tenant} by {list:?}, {g:?}"
        );
        assert!(lent == list, "the list is written");
        if image != after {
            let differs = |&at: &usize| image[at] != after[at];
            let at = (0..after.len()).find(differs).expect("equal lengths");
            panic!(
                "byte {at}: the library has {:02X}, the reference {:02X}; \
                 {asked:?} of tenant {tenant} by {list:?}, {g:?}",
                image[at], after[at]
            );
        }
    }
}
