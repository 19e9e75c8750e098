//! Request #110, shares for tenants, from the papers alone: a layer over the reference that asks it for
//! answers and for the plain table.

use crate::reference::*;

/// "Each has a range of block numbers (first to last, not empty) and a quota."
#[derive(Clone, Copy, Debug, PartialEq, Eq)]
pub struct Share {
    pub first: u32,
    pub last: u32,
    pub quota: u32,
}

impl Share {
    pub fn has(self, block: u16) -> bool {
        (self.first..=self.last).contains(&u32::from(block))
    }
}

/// The shares of a list that keeps the rules: three numbers for each of up to 40 tenants, no number in
/// two ranges, and quotas that add up to at most C.
pub fn shares_of(list: &[u32], g: Geometry) -> Option<Vec<Share>> {
    if list.len() % 3 != 0 || list.len() > 3 * 40 {
        return None;
    }
    let mut shares: Vec<Share> = Vec::new();
    for numbers in list.chunks(3) {
        let (first, last, quota) = (numbers[0], numbers[1], numbers[2]);
        let is_range = 1 <= first && first <= last && last <= 65_534;
        let is_apart = |other: &Share| last < other.first || other.last < first;
        if !is_range || !shares.iter().all(is_apart) {
            return None;
        }
        shares.push(Share { first, last, quota });
    }
    let sum: u64 = shares.iter().map(|share| u64::from(share.quota)).sum();
    (sum <= g.capacity() as u64).then_some(shares)
}

/// What a tenant asks for. A read lends a buffer.
#[derive(Clone, Debug, PartialEq, Eq)]
pub enum Asked {
    Put { block: u16, contents: Vec<u8> },
    Delete { block: u16 },
    Read { block: u16, buffer: Vec<u8> },
}

impl Asked {
    pub fn block(&self) -> u16 {
        match self {
            Asked::Put { block, .. } | Asked::Delete { block } | Asked::Read { block, .. } => {
                *block
            }
        }
    }
}

/// What it gets: the answer, and of a read the length of the contents and the buffer afterwards.
#[derive(Clone, Debug, PartialEq, Eq)]
pub struct Told {
    pub code: u8,
    pub length: usize,
    pub buffer: Vec<u8>,
}

/// The blocks stored in a clean image.
fn blocks(image: &[u8], g: Geometry) -> Vec<u16> {
    let entries = table(image, g).expect("a clean image");
    entries.into_iter().map(|(block, _)| block).collect()
}

/// A put by tenant: what the store refuses before 7, the tenant's own quota, and then the store.
fn put_within(image: &mut [u8], g: Geometry, share: Share, block: u16, contents: &[u8]) -> u8 {
    let code = put(&mut image.to_vec(), g, block, contents, UNLIMITED).code;
    if [LENGTH, DAMAGED, UNFINISHED, FORMER_VERSION].contains(&code) {
        return code;
    }
    let stored = blocks(image, g);
    let own = stored.iter().filter(|&&stored| share.has(stored)).count();
    if !stored.contains(&block) && own >= share.quota as usize {
        return FULL;
    }
    put(image, g, block, contents, UNLIMITED).code
}

/// A request of a tenant: 1, 13, 2, 12, then as the store answers, but for 7 and a read's buffer.
pub fn ask(image: &mut [u8], g: Geometry, list: &[u32], tenant: u32, asked: &Asked) -> Told {
    let mut told = Told {
        code: DONE,
        length: 0,
        buffer: match asked {
            Asked::Read { buffer, .. } => buffer.clone(),
            _ => Vec::new(),
        },
    };
    told.code = match admitted(image.len(), g, list, tenant, asked.block()) {
        Err(code) => code,
        Ok(share) => match asked {
            Asked::Put { block, contents } => put_within(image, g, share, *block, contents),
            Asked::Delete { block } => {
                let request = Request::Delete { block: *block };
                perform(image, g, &request, UNLIMITED).code
            }
            Asked::Read { block, .. } => {
                let found = read(image, g, *block);
                match found.code {
                    DONE if told.buffer.len() < found.length => SHORT_BUFFER,
                    DONE => {
                        told.length = found.length;
                        let contents = &image[found.offset..][..found.length];
                        told.buffer[..found.length].copy_from_slice(contents);
                        DONE
                    }
                    code => code,
                }
            }
        },
    };
    told
}

/// The tenant's share, if the size, the list and the number are right and the block is its own.
fn admitted(
    image_len: usize,
    g: Geometry,
    list: &[u32],
    tenant: u32,
    block: u16,
) -> Result<Share, u8> {
    if !g.fits(image_len) {
        return Err(SIZE);
    }
    let shares = shares_of(list, g).ok_or(SHARES)?;
    if block == 0 || block == 65_535 {
        return Err(NUMBER);
    }
    let place = (tenant as usize).checked_sub(1).ok_or(FOREIGN)?;
    let share = shares.get(place).copied().filter(|share| share.has(block));
    share.ok_or(FOREIGN)
}
