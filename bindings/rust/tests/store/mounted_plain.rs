//! Request #102, the mounted form in plain Rust, to compare the library's speed with: the table is
//! kept right by each call, and in step with it a call looks at few bytes beside it.
//!
//! It has the library's interface and no state beside the table. What it takes from the image it
//! checks as far as it must, so that an image or a table that somebody else wrote is met without a
//! panic. The tests and the bench both include this file.

use super::flash_plain::{Flash, Spent};
use super::reference::*;

/// One entry for each block number; entry 0 is 1 while the table is usable.
const PLACES: usize = 65_536;

// ---------------------------------------------------------------------------------------------
// The calls
// ---------------------------------------------------------------------------------------------

/// Fills the table from a clean image.
pub fn mount(image: &[u8], g: Geometry, table: &mut [u32]) -> u8 {
    if let Err(code) = check_lent(image, g, table) {
        return code;
    }
    table[0] = 0;
    let view = match state_of(image, g) {
        State::Clean(view) => view,
        State::Unfinished(_) => return UNFINISHED,
        State::Damaged => return DAMAGED,
    };
    table[1..PLACES].fill(0);
    for number in view.oldest..=view.top() {
        let start = g.page(g.index(number), 0);
        for at in (start..start + g.segment_len()).step_by(PAGE).skip(1) {
            if image[at] == LIVE {
                table[block_at(image, at)] = at as u32;
            }
        }
    }
    table[0] = 1;
    DONE
}

pub fn put(
    image: &mut [u8],
    g: Geometry,
    table: &mut [u32],
    block: u16,
    contents: &[u8],
    allowance: u64,
) -> Reply {
    let plan = match plan_put(image, g, table, block, contents) {
        Ok(plan) => plan,
        Err(code) => return Reply { code, steps: 0 },
    };
    let mut flash = Flash::new(g, image, allowance);
    let end = put_steps(&mut flash, table, plan, block, contents);
    reply(&flash, table, end)
}

pub fn delete(
    image: &mut [u8],
    g: Geometry,
    table: &mut [u32],
    block: u16,
    allowance: u64,
) -> Reply {
    let at = match find(image, g, table, block) {
        Ok(at) => at,
        Err(code) => return Reply { code, steps: 0 },
    };
    let mut flash = Flash::new(g, image, allowance);
    let end = flash.program(at, &[CLEAR_BIT_5]);
    table[usize::from(block)] = 0;
    reply(&flash, table, end)
}

pub fn read(image: &[u8], g: Geometry, table: &[u32], block: u16) -> ReadReply {
    let found = find(image, g, table, block).and_then(|at| {
        let length = usize::from(image[at + 1]);
        let fits = length <= MAX_LENGTH;
        fits.then_some((at + 8, length)).ok_or(DAMAGED)
    });
    let (code, (offset, length)) = match found {
        Ok(place) => (DONE, place),
        Err(code) => (code, (0, 0)),
    };
    ReadReply {
        code,
        offset,
        length,
    }
}

/// A cut makes the table unusable.
fn reply(flash: &Flash, table: &mut [u32], end: Result<(), Spent>) -> Reply {
    if end.is_err() {
        table[0] = 0;
    }
    flash.reply(end)
}

// ---------------------------------------------------------------------------------------------
// Refusals, and what a put has to do
// ---------------------------------------------------------------------------------------------

fn check_lent(image: &[u8], g: Geometry, table: &[u32]) -> Result<(), u8> {
    if !g.fits(image.len()) {
        return Err(SIZE);
    }
    if table.len() < PLACES {
        return Err(SHORT_TABLE);
    }
    Ok(())
}

fn check_number(block: u16) -> Result<(), u8> {
    match block {
        0 | 0xFFFF => Err(NUMBER),
        _ => Ok(()),
    }
}

fn check_usable(table: &[u32]) -> Result<(), u8> {
    match table[0] {
        1 => Ok(()),
        _ => Err(UNFINISHED),
    }
}

/// The slot that an entry names, if any; 4 if it can be none.
fn slot_of(image: &[u8], g: Geometry, entry: u32) -> Result<Option<usize>, u8> {
    let at = entry as usize;
    if at == 0 {
        return Ok(None);
    }
    let is_slot = at % PAGE == 0 && at < image.len() && at / PAGE % (g.b + 1) != 0;
    is_slot.then_some(Some(at)).ok_or(DAMAGED)
}

/// The slot of a block that is to be read or deleted.
fn find(image: &[u8], g: Geometry, table: &[u32], block: u16) -> Result<usize, u8> {
    check_lent(image, g, table)?;
    check_number(block)?;
    check_usable(table)?;
    slot_of(image, g, table[usize::from(block)])?.ok_or(ABSENT)
}

fn block_at(image: &[u8], at: usize) -> usize {
    usize::from(u16::from_le_bytes([image[at + 2], image[at + 3]]))
}

fn u32_at(image: &[u8], at: usize) -> u32 {
    u32::from_le_bytes([image[at], image[at + 1], image[at + 2], image[at + 3]])
}

/// The segments in use, as their statuses tell.
#[derive(Clone, Copy)]
struct Ring {
    /// The index of the top.
    top: usize,
    /// Whether all but one are in use; the oldest is then the second after the top.
    whole: bool,
    /// How many slots of the top are not empty.
    filled: usize,
}

impl Ring {
    /// `None` if no segment in use is followed by one that is not.
    fn of(image: &[u8], g: Geometry) -> Option<Ring> {
        let in_use = |index| image[g.page(index, 0) + 5] != 0xFF;
        let mut before = in_use(g.n - 1);
        let after = (0..g.n).find(|&index| {
            let this = in_use(index);
            let found = before && !this;
            before = this;
            found
        })?;
        let top = (after + g.n - 1) % g.n;

        // The slots that are not empty come first.
        let (mut filled, mut end) = (0, g.b);
        while filled < end {
            let middle = (filled + end) / 2;
            if image[g.page(top, middle + 1)] == 0xFF {
                end = middle;
            } else {
                filled = middle + 1;
            }
        }
        Some(Ring {
            top,
            whole: in_use((after + 1) % g.n),
            filled,
        })
    }

    /// The statuses of the slots of a whole ring, oldest first.
    fn statuses<'a>(&self, image: &'a [u8], g: Geometry) -> impl Iterator<Item = u8> + 'a {
        let oldest = self.top + 2;
        let segments = (0..g.n - 1).map(move |i| (oldest + i) % g.n);
        segments.flat_map(move |index| (1..=g.b).map(move |slot| image[g.page(index, slot)]))
    }

    /// Whether no new block fits: all slots but one are live.
    fn is_full(&self, image: &[u8], g: Geometry) -> bool {
        let others = self.statuses(image, g).filter(|&status| status != LIVE);
        self.whole && g.b - self.filled < 2 && others.take(2).count() < 2
    }
}

/// What a put has to do.
struct Plan {
    ring: Ring,
    /// How many segments are compacted for it.
    compactions: usize,
    /// What new headers hold, if there is one: the next number, and the total.
    heading: Option<(u32, u32)>,
}

fn plan_put(
    image: &[u8],
    g: Geometry,
    table: &[u32],
    block: u16,
    contents: &[u8],
) -> Result<Plan, u8> {
    check_lent(image, g, table)?;
    check_number(block)?;
    if contents.is_empty() || contents.len() > MAX_LENGTH {
        return Err(LENGTH);
    }
    check_usable(table)?;
    let before = slot_of(image, g, table[usize::from(block)])?;
    let ring = Ring::of(image, g).ok_or(DAMAGED)?;
    let header = g.page(ring.top, 0);
    if image[header + 3] == 1 {
        return Err(FORMER_VERSION);
    }
    if before.is_none() && ring.is_full(image, g) {
        return Err(FULL);
    }
    if ring.filled < g.b {
        return Ok(Plan {
            ring,
            compactions: 0,
            heading: None,
        });
    }

    let compactions = if ring.whole {
        let dead = ring.statuses(image, g).position(|status| status != LIVE);
        dead.ok_or(DAMAGED)? / g.b + 1
    } else {
        0
    };
    let number = u32_at(image, header + 8);
    let bits = &image[header + BITS.start..header + BITS.end];
    let cleared: u32 = bits.iter().map(|byte| byte.count_zeros()).sum();
    let tally = u64::from(u32_at(image, header + TOTAL.start)) + u64::from(cleared);
    let rounds = (u64::from(number) + compactions.max(1) as u64) / g.n as u64;
    if cleared as usize == 8 * bits.len() || rounds + tally >= u64::from(ENDURANCE) {
        return Err(WORN);
    }
    Ok(Plan {
        ring,
        compactions,
        heading: Some((number + 1, tally as u32)),
    })
}

// ---------------------------------------------------------------------------------------------
// The steps
// ---------------------------------------------------------------------------------------------

/// Copies the live slots of the segment after this one to it, and erases that. Gives how many.
fn compact(
    flash: &mut Flash,
    table: &mut [u32],
    to: usize,
    number: u32,
    total: u32,
) -> Result<usize, Spent> {
    let g = flash.g;
    let from = (to + 1) % g.n;
    let header = g.page(to, 0);
    flash.program(header + 5, &[TIDYING])?;
    flash.write_mark(header)?;
    flash.program(header + 16, &[from as u8])?;
    let mut copied = 0;
    for slot in 1..=g.b {
        let old = g.page(from, slot);
        if flash.image[old] != LIVE {
            continue;
        }
        let mut page = [0; PAGE];
        page.copy_from_slice(&flash.image[old..old + PAGE]);
        let length = usize::from(page[1]).min(MAX_LENGTH);
        let block = u16::from_le_bytes([page[2], page[3]]);
        copied += 1;
        let new = g.page(to, copied);
        flash.write_slot(new, block, &page[8..8 + length])?;
        if block != 0 {
            table[usize::from(block)] = new as u32;
        }
    }
    flash.write_number(header, number, total)?;
    flash.program(header + 5, &[OWING])?;
    flash.erase(from)?;
    flash.program(header + 5, &[SETTLED])?;
    Ok(copied)
}

fn put_steps(
    flash: &mut Flash,
    table: &mut [u32],
    plan: Plan,
    block: u16,
    contents: &[u8],
) -> Result<(), Spent> {
    let g = flash.g;
    let Ring {
        mut top,
        mut filled,
        ..
    } = plan.ring;
    if let Some((next, total)) = plan.heading {
        if plan.compactions == 0 {
            top = (top + 1) % g.n;
            flash.open(top, next, total)?;
            filled = 0;
        }
        for number in next..next + plan.compactions as u32 {
            top = (top + 1) % g.n;
            filled = compact(flash, table, top, number, total)?;
        }
    }
    // Compaction may have moved it.
    let old = table[usize::from(block)] as usize;
    let new = g.page(top, filled + 1);
    flash.write_slot(new, block, contents)?;
    table[usize::from(block)] = new as u32;
    if old != 0 {
        flash.program(old, &[CLEAR_BIT_5])?;
    }
    Ok(())
}
