//! Request #109 in plain Rust, to compare the library's speed with. The layout table is gone over once,
//! with a bit for each identifier seen, and so are the statuses; data is copied a slice at a time. The
//! tests and the bench both include this file.

use super::all_255;
use super::reference::{ReadReply, Reply, CUT, DONE};

/// The item that is asked for, on a board where all that is checked first is right.
struct Found {
    size: usize,
    /// Where its identifier stands in a partition.
    at: usize,
    length: usize,
    newest: Option<usize>,
}

/// The item's place and length, or 2 or 3.
fn look_up(layout: &[u8], size: usize, item: u8) -> Result<(usize, usize), u8> {
    if layout.len() % 2 != 0 {
        return Err(2);
    }
    let (mut seen, mut end, mut found) = ([0_u64; 4], 1, None);
    for pair in layout.chunks_exact(2) {
        let (identifier, length) = (pair[0], usize::from(pair[1]));
        let (word, bit) = (usize::from(identifier / 64), 1 << (identifier % 64));
        if identifier == 255 || length == 0 || seen[word] & bit != 0 {
            return Err(2);
        }
        seen[word] |= bit;
        if identifier == item {
            found = Some((end, length));
        }
        end += 1 + length;
    }
    if end > size {
        return Err(2);
    }
    found.ok_or(3)
}

/// Where the run of statuses ends, if there is one. A ring of statuses always breaks somewhere: 255 is
/// odd, and their number a power of two.
fn newest(image: &[u8], size: usize) -> Result<Option<usize>, u8> {
    let mut last = None;
    let mut here = image[0];
    let others = image[size..].iter().step_by(size);
    for (p, &next) in others.chain([&image[0]]).enumerate() {
        let wanted = if here == 254 { 0 } else { here.wrapping_add(1) };
        if here != 0xFF && next != wanted {
            if last.is_some() {
                return Err(4);
            }
            last = Some(p);
        }
        here = next;
    }
    Ok(last)
}

fn find(
    image: &[u8],
    partitions: usize,
    layout: &[u8],
    item: u8,
    wanted: Option<usize>,
) -> Result<Found, u8> {
    let is_right = partitions.is_power_of_two() && (2..=128).contains(&partitions);
    if !is_right || image.len() % partitions != 0 {
        return Err(1);
    }
    let size = image.len() / partitions;
    let (at, length) = look_up(layout, size, item)?;
    if wanted.is_some_and(|wanted| wanted != length) {
        return Err(3);
    }
    let newest = newest(image, size)?;
    Ok(Found {
        size,
        at,
        length,
        newest,
    })
}

pub fn read(image: &[u8], partitions: usize, layout: &[u8], item: u8) -> ReadReply {
    let (code, offset, length) = match find(image, partitions, layout, item, None) {
        Err(code) => (code, 0, 0),
        Ok(found) => match found.newest.map(|p| p * found.size + found.at) {
            Some(at) if image[at] == item => (DONE, at + 1, found.length),
            _ => (5, 0, 0),
        },
    };
    ReadReply {
        code,
        offset,
        length,
    }
}

/// The allowance is spent.
struct Spent;

/// Where steps are done, and how many are allowed still. All that is programmed here was erased, so that
/// a copy does what programming does.
struct Flash<'a> {
    image: &'a mut [u8],
    left: u64,
}

impl Flash<'_> {
    /// As many of these steps as are allowed.
    fn take(&mut self, steps: usize) -> usize {
        let allowed = self.left.min(steps as u64);
        self.left -= allowed;
        allowed as usize
    }

    fn erase(&mut self, at: usize, size: usize) -> Result<(), Spent> {
        if self.take(1) == 0 {
            return Err(Spent);
        }
        self.image[at..at + size].fill(0xFF);
        Ok(())
    }

    fn byte(&mut self, at: usize, byte: u8) -> Result<(), Spent> {
        if self.take(1) == 0 {
            return Err(Spent);
        }
        self.image[at] = byte;
        Ok(())
    }

    /// An item with data from outside.
    fn item(&mut self, at: usize, item: u8, data: &[u8]) -> Result<(), Spent> {
        let allowed = self.take(data.len());
        self.image[at + 1..][..allowed].copy_from_slice(&data[..allowed]);
        self.byte(at, item)
    }

    /// An item from another partition.
    fn copy(&mut self, from: usize, to: usize, length: usize) -> Result<(), Spent> {
        let allowed = self.take(length);
        self.image.copy_within(from + 1..from + 1 + allowed, to + 1);
        self.byte(to, self.image[from])
    }
}

/// What is in place, the new item among it, and the status.
fn fill(
    flash: &mut Flash,
    found: &Found,
    partitions: usize,
    layout: &[u8],
    item: u8,
    data: &[u8],
) -> Result<(), Spent> {
    let Some(newest) = found.newest else {
        flash.erase(0, found.size)?;
        flash.item(found.at, item, data)?;
        return flash.byte(0, 0);
    };
    let from = newest * found.size;
    let to = (newest + 1) % partitions * found.size;
    flash.erase(to, found.size)?;
    let mut at = 1;
    for pair in layout.chunks_exact(2) {
        if pair[0] == item {
            flash.item(to + at, item, data)?;
        } else if flash.image[from + at] == pair[0] {
            flash.copy(from + at, to + at, usize::from(pair[1]))?;
        }
        at += 1 + usize::from(pair[1]);
    }
    let status = flash.image[from];
    flash.byte(to, if status == 254 { 0 } else { status + 1 })
}

pub fn write(
    image: &mut [u8],
    partitions: usize,
    layout: &[u8],
    item: u8,
    data: &[u8],
    allowance: u64,
) -> Reply {
    let found = match find(image, partitions, layout, item, Some(data.len())) {
        Ok(found) => found,
        Err(code) => return Reply { code, steps: 0 },
    };
    let mut flash = Flash {
        image,
        left: allowance,
    };
    let here = found.newest.map(|p| p * found.size + found.at);
    let end = match here {
        Some(at) if all_255(&flash.image[at..][..1 + found.length]) => flash.item(at, item, data),
        _ => fill(&mut flash, &found, partitions, layout, item, data),
    };
    Reply {
        code: if end.is_ok() { DONE } else { CUT },
        steps: allowance - flash.left,
    }
}
