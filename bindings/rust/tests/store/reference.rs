//! A straightforward implementation of document 01 and the requests that have landed, to compare
//! the library with.
//!
//! It is written from the papers alone and shares nothing with the proved code or its definitions:
//! the same rules, read a second time. It uses the papers' words. The tests and the bench both
//! include this file, the bench twice: whoever includes it supplies `all_255`.

use super::all_255;
use std::ops::Range;

/// Bytes in a page.
pub const PAGE: usize = 256;
/// The longest contents of a slot.
pub const MAX_LENGTH: usize = 248;
/// How many erases a segment stands.
pub const ENDURANCE: u32 = 100_000;
/// An allowance that no request can spend.
pub const UNLIMITED: u64 = u64::MAX;

// "What comes back"
pub const DONE: u8 = 0;
pub const SIZE: u8 = 1;
pub const NUMBER: u8 = 2;
pub const LENGTH: u8 = 3;
pub const DAMAGED: u8 = 4;
pub const UNFINISHED: u8 = 5;
pub const ABSENT: u8 = 6;
pub const FULL: u8 = 7;
pub const WORN: u8 = 8;
pub const CUT: u8 = 9;
/// Request #102: a lent table has under 65,536 entries, checked after 1.
pub const SHORT_TABLE: u8 = 10;
/// Request #104: a put on an image of version 1, checked after 5.
pub const FORMER_VERSION: u8 = 11;
/// Request #110: a foreign number or an unknown tenant, checked after 2.
pub const FOREIGN: u8 = 12;
/// Request #110: a list of shares that breaks its rules, checked after 1.
pub const SHARES: u8 = 13;
/// Request #101: a lent buffer is too short for the text; #110: for the contents.
pub const SHORT_BUFFER: u8 = 14;

// Status bytes of a header page
pub const OPENING: u8 = 0x7F;
pub const OPENED: u8 = 0x3F;
pub const TIDYING: u8 = 0xDF;
pub const OWING: u8 = 0x9F;
pub const SETTLED: u8 = 0x8F;

// Status bytes of a slot page
pub const WRITING: u8 = 0x7F;
pub const LIVE: u8 = 0x3F;
pub const DEAD: u8 = 0x1F;
/// What recovery makes of a slot whose writing was cut.
pub const CUT_SLOT: u8 = 0x5F;
/// Programming this clears bit 5.
pub const CLEAR_BIT_5: u8 = 0xDF;

// ---------------------------------------------------------------------------------------------
// The chip
// ---------------------------------------------------------------------------------------------

/// N segments of B slots.
#[derive(Clone, Copy, Debug, PartialEq, Eq, Hash)]
pub struct Geometry {
    pub n: usize,
    pub b: usize,
}

impl Geometry {
    /// Whether N and B are in range and an image of this length belongs to them.
    pub fn fits(self, image_len: usize) -> bool {
        (2..=255).contains(&self.n)
            && (2..=255).contains(&self.b)
            && image_len == self.n * self.segment_len()
    }

    pub fn segment_len(self) -> usize {
        (self.b + 1) * PAGE
    }

    /// C.
    pub fn capacity(self) -> usize {
        (self.n - 1) * self.b - 1
    }

    /// The first segment number that is not allowed.
    pub fn wear_limit(self) -> u32 {
        ENDURANCE * self.n as u32
    }

    /// The index of the segment with this number.
    pub fn index(self, number: u32) -> usize {
        number as usize % self.n
    }

    /// The offset of a page in the image. Page 0 is the header, pages 1 to B are the slots.
    pub fn page(self, index: usize, page: usize) -> usize {
        index * self.segment_len() + page * PAGE
    }
}

/// One step of the chip.
#[derive(Clone, Copy, Debug, PartialEq, Eq)]
pub enum Step {
    /// The byte at this offset becomes itself AND the given one.
    Program { at: usize, value: u8 },
    /// Every byte of this segment becomes 255.
    Erase { index: usize },
}

impl Step {
    pub fn apply(self, g: Geometry, image: &mut [u8]) {
        match self {
            Step::Program { at, value } => image[at] &= value,
            Step::Erase { index } => image[g.page(index, 0)..][..g.segment_len()].fill(0xFF),
        }
    }
}

/// The power is gone: the allowance is spent.
struct Cut;

/// The chip under an allowance of steps. It counts the steps and can write them down.
struct Chip<'a> {
    g: Geometry,
    image: &'a mut [u8],
    allowance: u64,
    done: u64,
    list: Option<&'a mut Vec<Step>>,
}

impl Chip<'_> {
    fn step(&mut self, step: Step) -> Result<(), Cut> {
        if self.done == self.allowance {
            return Err(Cut);
        }
        step.apply(self.g, self.image);
        self.done += 1;
        if let Some(list) = &mut self.list {
            list.push(step);
        }
        Ok(())
    }

    fn program(&mut self, at: usize, value: u8) -> Result<(), Cut> {
        self.step(Step::Program { at, value })
    }

    /// One step for each byte.
    fn program_all(&mut self, at: usize, values: &[u8]) -> Result<(), Cut> {
        let allowed = (self.allowance - self.done).min(values.len() as u64) as usize;
        let steps = self.image[at..].iter_mut().zip(&values[..allowed]);
        steps.for_each(|(byte, value)| *byte &= value);
        self.done += allowed as u64;
        if let Some(list) = &mut self.list {
            let steps = values[..allowed].iter().enumerate();
            list.extend(steps.map(|(i, &value)| Step::Program { at: at + i, value }));
        }
        if allowed < values.len() {
            return Err(Cut);
        }
        Ok(())
    }

    fn erase(&mut self, index: usize) -> Result<(), Cut> {
        self.step(Step::Erase { index })
    }
}

/// Request #103: whether every byte is 255, and how many groups of eight bytes were looked at. The
/// last may be shorter, and nothing is looked at after the first that differs.
pub fn blank_test(bytes: &[u8]) -> (bool, u64) {
    let mut groups = 0;
    for group in bytes.chunks(8) {
        groups += 1;
        if group.iter().any(|&byte| byte != 0xFF) {
            return (false, groups);
        }
    }
    (true, groups)
}

// ---------------------------------------------------------------------------------------------
// Header page
// ---------------------------------------------------------------------------------------------

/// The versions of the header. The second came with request #104.
#[derive(Clone, Copy, Debug, PartialEq, Eq, Hash)]
pub enum Version {
    One,
    Two,
}

impl Version {
    /// Bytes 3 and 4.
    pub fn bytes(self) -> [u8; 2] {
        match self {
            Version::One => [1, 0],
            Version::Two => [2, 0],
        }
    }
}

/// The bytes of a version 2 header with the total of erases that recoveries made before it.
pub const TOTAL: Range<usize> = 17..21;
/// Those with one bit for each such erase since, cleared once it is set about.
pub const BITS: Range<usize> = 32..256;

/// What a segment in use says of itself.
#[derive(Clone, Copy, Debug, PartialEq, Eq)]
pub struct InUse {
    pub version: Version,
    pub number: u32,
    pub owing: bool,
}

/// The version of a header page whose bytes 3, 4 and 17-255 fit the table, or `None`.
fn version(page: &[u8]) -> Option<Version> {
    match page[3..5] {
        [1, 0] => all_255(&page[17..]).then_some(Version::One),
        [2, 0] => {
            let fits = total(page) < ENDURANCE && all_255(&page[TOTAL.end..BITS.start]);
            fits.then_some(Version::Two)
        }
        _ => None,
    }
}

fn total(page: &[u8]) -> u32 {
    u32::from_le_bytes([page[17], page[18], page[19], page[20]])
}

/// What the header of a top counts: the erases that recoveries have set about.
#[derive(Clone, Copy, Debug, PartialEq, Eq)]
pub struct Tally {
    /// The total and the cleared bits.
    pub sum: u32,
    /// Whether a bit is left to clear.
    pub bit_left: bool,
}

/// The tally of an image of version 2 with this top.
pub fn tally(image: &[u8], g: Geometry, top: u32) -> Tally {
    let page = &image[g.page(g.index(top), 0)..][..PAGE];
    let cleared: u32 = page[BITS].iter().map(|byte| byte.count_zeros()).sum();
    Tally {
        sum: total(page) + cleared,
        bit_left: cleared < 8 * BITS.len() as u32,
    }
}

/// The header of a segment in use, or `None`.
pub fn header(image: &[u8], g: Geometry, index: usize) -> Option<InUse> {
    let page = &image[g.page(index, 0)..][..PAGE];
    let number = u32::from_le_bytes([page[8], page[9], page[10], page[11]]);
    let inverted = u32::from_le_bytes([page[12], page[13], page[14], page[15]]);
    let old = match page[5] {
        OPENED => 255,
        OWING | SETTLED => (index + 1) % g.n,
        _ => return None,
    };
    let version = version(page)?;
    let fits = page[0..3] == *b"SLT"
        && usize::from(page[6]) == g.b
        && usize::from(page[7]) == g.n
        && inverted == !number
        && number < g.wear_limit()
        && g.index(number) == index
        && usize::from(page[16]) == old;
    fits.then_some(InUse {
        version,
        number,
        owing: page[5] == OWING,
    })
}

// ---------------------------------------------------------------------------------------------
// Slot page
// ---------------------------------------------------------------------------------------------

/// The kinds of slot. Request #107: of those that document 01 calls dead, one that came from a cut is
/// told apart from one that was replaced or deleted.
#[derive(Clone, Copy, Debug, PartialEq, Eq)]
pub enum Kind {
    Empty,
    Torn,
    Live { block: u16, length: usize },
    Dead,
    Cut,
    Wrong,
}

pub fn kind(page: &[u8]) -> Kind {
    match page[0] {
        WRITING => Kind::Torn,
        DEAD => Kind::Dead,
        CUT_SLOT => Kind::Cut,
        0xFF if all_255(page) => Kind::Empty,
        LIVE => {
            let length = usize::from(page[1]);
            let block = u16::from_le_bytes([page[2], page[3]]);
            let fits = length <= MAX_LENGTH
                && block != 0
                && block != 0xFFFF
                && all_255(&page[4..8])
                && all_255(&page[8 + length..]);
            if fits {
                Kind::Live { block, length }
            } else {
                Kind::Wrong
            }
        }
        _ => Kind::Wrong,
    }
}

// ---------------------------------------------------------------------------------------------
// When an image is clean, unfinished or damaged
// ---------------------------------------------------------------------------------------------

/// What the requests want to know of a clean image.
#[derive(Clone, Copy, Debug, PartialEq, Eq)]
pub struct View {
    /// That of all segments in use.
    pub version: Version,
    /// The smallest segment number in use.
    pub oldest: u32,
    /// How many segments are in use.
    pub used: usize,
    /// How many slots are live.
    pub live: usize,
    /// How many slots of the top are not empty; they come first.
    pub filled: usize,
    /// The place, from 1, of the first segment in use by number that has a dead slot.
    pub first_dead: Option<usize>,
}

impl View {
    pub fn top(&self) -> u32 {
        self.oldest + self.used as u32 - 1
    }
}

/// What a cut left, and where.
#[derive(Clone, Copy, Debug, PartialEq, Eq)]
pub enum Unfinished {
    /// (a) The segment after the top is neither in use nor blank.
    A { top: InUse },
    /// (b) The top owes the erase of the segment after it.
    B { top: InUse },
    /// (c) The slot at this offset is torn.
    C { slot: usize },
    /// (d) The last slot of the top is live, and so is the older one at this offset with its number.
    D { older: usize },
}

#[derive(Clone, Copy, Debug, PartialEq, Eq)]
pub enum State {
    Clean(View),
    Unfinished(Unfinished),
    Damaged,
}

/// The state of an image of a right size, in one pass over its bytes.
pub fn state_of(image: &[u8], g: Geometry) -> State {
    let mut headers = [None; 255];
    let mut top: Option<InUse> = None;
    for (index, entry) in headers.iter_mut().enumerate().take(g.n) {
        *entry = header(image, g, index);
        if let Some(found) = *entry {
            if top.is_none_or(|top| top.number < found.number) {
                top = Some(found);
            }
        }
    }
    let Some(top) = top else {
        return State::Damaged;
    };
    let top_index = g.index(top.number);
    let after = (top_index + 1) % g.n;

    // The segments, but for the one after an owing top.
    let mut used = 0;
    let mut oldest = top.number;
    let mut half = false;
    for (index, header) in headers.iter().enumerate().take(g.n) {
        if top.owing && index == after {
            continue;
        }
        match header {
            Some(found) => {
                if found.version != top.version || (found.owing && index != top_index) {
                    return State::Damaged;
                }
                used += 1;
                oldest = oldest.min(found.number);
            }
            None => {
                if !all_255(&image[g.page(index, 0)..][..g.segment_len()]) {
                    if index != after {
                        return State::Damaged;
                    }
                    half = true;
                }
            }
        }
    }
    if used > g.n - 1 || (top.owing && used != g.n - 1) {
        return State::Damaged;
    }
    // The numbers differ, since each is its index modulo N: so they are consecutive if as many
    // are in use as lie between the smallest and the largest.
    if (top.number - oldest) as usize + 1 != used {
        return State::Damaged;
    }

    // The slots, oldest segment first, so that the last one looked at is the last of the top.
    let mut view = View {
        version: top.version,
        oldest,
        used,
        live: 0,
        filled: 0,
        first_dead: None,
    };
    let mut seen = [0u64; 1024];
    // (c) or (d), if the slot just looked at is so.
    let mut last = None;
    for place in 1..=used {
        let index = g.index(oldest + place as u32 - 1);
        let is_top = place == used;
        view.filled = g.b;
        for slot in 1..=g.b {
            let at = g.page(index, slot);
            let kind = kind(&image[at..at + PAGE]);
            if kind == Kind::Empty {
                if !is_top {
                    return State::Damaged;
                }
                view.filled = view.filled.min(slot - 1);
                continue;
            }
            // No slot follows an empty one, and none follows the one that a cut left.
            if view.filled < slot || last.is_some() {
                return State::Damaged;
            }
            match kind {
                Kind::Torn if is_top => last = Some(Unfinished::C { slot: at }),
                Kind::Live { block, .. } => {
                    let (word, bit) = (usize::from(block) / 64, 1 << (block % 64));
                    if seen[word] & bit == 0 {
                        seen[word] |= bit;
                        view.live += 1;
                    } else if is_top {
                        let older = find(image, g, oldest, used, block);
                        last = older.map(|older| Unfinished::D { older });
                    } else {
                        return State::Damaged;
                    }
                }
                Kind::Dead | Kind::Cut => {
                    view.first_dead.get_or_insert(place);
                }
                _ => return State::Damaged,
            }
        }
    }
    if view.live > g.capacity() {
        return State::Damaged;
    }

    // Clean, or but for exactly one of the four.
    match (half, top.owing, last) {
        (false, false, None) => State::Clean(view),
        (true, false, None) => State::Unfinished(Unfinished::A { top }),
        (false, true, None) => State::Unfinished(Unfinished::B { top }),
        (false, false, Some(last)) => State::Unfinished(last),
        _ => State::Damaged,
    }
}

/// The offset of the first live slot with this number, oldest segment first.
fn find(image: &[u8], g: Geometry, oldest: u32, used: usize, block: u16) -> Option<usize> {
    for number in oldest..oldest + used as u32 {
        for slot in 1..=g.b {
            let at = g.page(g.index(number), slot);
            if image[at] == LIVE && image[at + 2..at + 4] == block.to_le_bytes() {
                return Some(at);
            }
        }
    }
    None
}

/// The blocks of a clean image with their contents, by rising number.
pub fn table(image: &[u8], g: Geometry) -> Option<Vec<(u16, Vec<u8>)>> {
    let State::Clean(view) = state_of(image, g) else {
        return None;
    };
    let mut entries = Vec::new();
    for number in view.oldest..=view.top() {
        for slot in 1..=g.b {
            let page = &image[g.page(g.index(number), slot)..][..PAGE];
            if let Kind::Live { block, length } = kind(page) {
                entries.push((block, page[8..8 + length].to_vec()));
            }
        }
    }
    entries.sort();
    Some(entries)
}

// ---------------------------------------------------------------------------------------------
// The step lists
// ---------------------------------------------------------------------------------------------

/// Slot written: 5 + length steps.
fn write_slot(chip: &mut Chip, at: usize, block: u16, contents: &[u8]) -> Result<(), Cut> {
    let [low, high] = block.to_le_bytes();
    chip.program(at, WRITING)?;
    chip.program_all(at + 1, &[contents.len() as u8, low, high])?;
    chip.program_all(at + 8, contents)?;
    chip.program(at, LIVE)
}

/// What the new headers of a request hold beside their numbers.
#[derive(Clone, Copy)]
enum Heading {
    /// Version 1, by the former rules.
    One,
    /// Version 2 with this total.
    Two { total: u32 },
}

/// Bytes 0-4, 6 and 7 of a header.
fn write_mark(chip: &mut Chip, at: usize, heading: Heading) -> Result<(), Cut> {
    let version = match heading {
        Heading::One => Version::One,
        Heading::Two { .. } => Version::Two,
    };
    chip.program_all(at, b"SLT")?;
    chip.program_all(at + 3, &version.bytes())?;
    chip.program_all(at + 6, &[chip.g.b as u8, chip.g.n as u8])
}

/// Bytes 17-20 of a header of version 2, then bytes 8-15.
fn write_number(chip: &mut Chip, at: usize, heading: Heading, number: u32) -> Result<(), Cut> {
    if let Heading::Two { total } = heading {
        chip.program_all(at + TOTAL.start, &total.to_le_bytes())?;
    }
    chip.program_all(at + 8, &number.to_le_bytes())?;
    chip.program_all(at + 12, &(!number).to_le_bytes())
}

/// Opening: 21 steps, 17 in version 1.
fn open(chip: &mut Chip, heading: Heading, number: u32) -> Result<(), Cut> {
    let at = chip.g.page(chip.g.index(number), 0);
    chip.program(at + 5, OPENING)?;
    write_mark(chip, at, heading)?;
    write_number(chip, at, heading, number)?;
    chip.program(at + 5, OPENED)
}

/// Tidying: the live slots of the segment with number `old` go to a new top, and it is erased.
/// 24 steps, 20 in version 1, and those of the copies. Returns how many were copied.
fn tidy(chip: &mut Chip, heading: Heading, old: u32, target: u32) -> Result<usize, Cut> {
    let g = chip.g;
    let (from, to) = (g.index(old), g.index(target));
    let at = g.page(to, 0);
    chip.program(at + 5, TIDYING)?;
    write_mark(chip, at, heading)?;
    chip.program(at + 16, from as u8)?;
    let mut copied = 0;
    for slot in 1..=g.b {
        let mut page = [0xFF; PAGE];
        page.copy_from_slice(&chip.image[g.page(from, slot)..][..PAGE]);
        if let Kind::Live { block, length } = kind(&page) {
            copied += 1;
            write_slot(chip, g.page(to, copied), block, &page[8..8 + length])?;
        }
    }
    write_number(chip, at, heading, target)?;
    chip.program(at + 5, OWING)?;
    chip.erase(from)?;
    chip.program(at + 5, SETTLED)?;
    Ok(copied)
}

fn format_steps(chip: &mut Chip, heading: Heading) -> Result<(), Cut> {
    for index in 0..chip.g.n {
        chip.erase(index)?;
    }
    open(chip, heading, 0)
}

/// Room for a put, with new headers of this kind.
fn make_room(chip: &mut Chip, mut view: View, heading: Heading) -> Result<View, Cut> {
    let g = chip.g;
    if view.used < g.n - 1 {
        open(chip, heading, view.top() + 1)?;
        view.used += 1;
        view.filled = 0;
    }
    while view.filled == g.b {
        view.filled = tidy(chip, heading, view.oldest, view.top() + 1)?;
        view.oldest += 1;
    }
    Ok(view)
}

/// Room for a put, if it needs any, then the slot, then the mark on the old slot.
fn put_steps(
    chip: &mut Chip,
    mut view: View,
    heading: Option<Heading>,
    block: u16,
    contents: &[u8],
) -> Result<(), Cut> {
    let g = chip.g;
    if let Some(heading) = heading {
        view = make_room(chip, view, heading)?;
    }
    let before = find(chip.image, g, view.oldest, view.used, block);
    let at = g.page(g.index(view.top()), view.filled + 1);
    write_slot(chip, at, block, contents)?;
    if let Some(before) = before {
        chip.program(before, CLEAR_BIT_5)?;
    }
    Ok(())
}

/// An erase of the segment after the top, by recovery. In version 2 it is counted first: of the
/// first byte of the top's bits that has one left, the highest is cleared.
fn counted_erase(chip: &mut Chip, top: InUse) -> Result<(), Cut> {
    let g = chip.g;
    if top.version == Version::Two {
        let header = g.page(g.index(top.number), 0);
        for at in header + BITS.start..header + BITS.end {
            let byte = chip.image[at];
            if byte != 0 {
                chip.program(at, byte & !(0x80 >> byte.leading_zeros()))?;
                break;
            }
        }
    }
    chip.erase(g.index(top.number + 1))
}

fn recover_steps(chip: &mut Chip, left: Unfinished) -> Result<(), Cut> {
    let g = chip.g;
    match left {
        Unfinished::A { top } => counted_erase(chip, top),
        Unfinished::B { top } => {
            let after = g.page(g.index(top.number + 1), 0);
            if !all_255(&chip.image[after..][..g.segment_len()]) {
                counted_erase(chip, top)?;
            }
            chip.program(g.page(g.index(top.number), 0) + 5, SETTLED)
        }
        Unfinished::C { slot } => chip.program(slot, CLEAR_BIT_5),
        Unfinished::D { older } => chip.program(older, CLEAR_BIT_5),
    }
}

// ---------------------------------------------------------------------------------------------
// The requests
// ---------------------------------------------------------------------------------------------

/// A request that writes.
#[derive(Clone, Debug, PartialEq, Eq)]
pub enum Request {
    Format,
    Put { block: u16, contents: Vec<u8> },
    Delete { block: u16 },
    Recover,
}

/// What such a request gives back.
#[derive(Clone, Copy, Debug, PartialEq, Eq)]
pub struct Reply {
    pub code: u8,
    pub steps: u64,
}

/// What a read gives back.
#[derive(Clone, Copy, Debug, PartialEq, Eq)]
pub struct ReadReply {
    pub code: u8,
    pub offset: usize,
    pub length: usize,
}

/// Whose rules a request goes by.
#[derive(Clone, Copy, PartialEq, Eq)]
pub enum Rules {
    /// Those of today.
    Present,
    /// Those before request #104, on images of version 1: a format makes one, and a put takes it.
    /// The tests make the boards in the field with them.
    Former,
}

/// What is left to do once nothing is refused.
enum Work<'a> {
    Format(Heading),
    Put(View, Option<Heading>, u16, &'a [u8]),
    ClearBit5(usize),
    Recover(Unfinished),
    Nothing,
}

/// 1, 4 and 5: an image of a right size that is clean.
fn clean_view(image: &[u8], g: Geometry) -> Result<View, u8> {
    match state_of(image, g) {
        State::Clean(view) => Ok(view),
        State::Unfinished(_) => Err(UNFINISHED),
        State::Damaged => Err(DAMAGED),
    }
}

fn check_size(image: &[u8], g: Geometry) -> Result<(), u8> {
    if g.fits(image.len()) {
        Ok(())
    } else {
        Err(SIZE)
    }
}

fn check_number(block: u16) -> Result<(), u8> {
    if block == 0 || block == 0xFFFF {
        Err(NUMBER)
    } else {
        Ok(())
    }
}

/// The largest segment number that a put would give, if it gives one.
fn number_wanted(view: &View, g: Geometry) -> Option<u32> {
    if view.filled < g.b {
        None
    } else if view.used < g.n - 1 {
        Some(view.top() + 1)
    } else {
        let tidyings = view
            .first_dead
            .expect("a dead slot, as fewer than all are live");
        Some(view.top() + tidyings as u32)
    }
}

/// The headers that a put makes, if it needs any: each has the tally of before the put as its total.
/// 8 if no erase can be counted any more, or if the number and the tally say that a segment has been
/// erased as often as it stands.
fn new_headers(image: &[u8], g: Geometry, view: &View) -> Result<Option<Heading>, u8> {
    let Some(number) = number_wanted(view, g) else {
        return Ok(None);
    };
    let rounds = number / g.n as u32;
    match view.version {
        Version::One if rounds < ENDURANCE => Ok(Some(Heading::One)),
        Version::One => Err(WORN),
        Version::Two => {
            let tally = tally(image, g, view.top());
            if tally.bit_left && rounds + tally.sum < ENDURANCE {
                Ok(Some(Heading::Two { total: tally.sum }))
            } else {
                Err(WORN)
            }
        }
    }
}

fn plan_format(image: &[u8], g: Geometry, rules: Rules) -> Result<Work<'static>, u8> {
    check_size(image, g)?;
    Ok(Work::Format(match rules {
        Rules::Present => Heading::Two { total: 0 },
        Rules::Former => Heading::One,
    }))
}

fn plan_put<'a>(
    image: &[u8],
    g: Geometry,
    block: u16,
    contents: &'a [u8],
    rules: Rules,
) -> Result<Work<'a>, u8> {
    check_size(image, g)?;
    check_number(block)?;
    // Request #105. Slots of length 0 that are stored stay live.
    if contents.is_empty() || contents.len() > MAX_LENGTH {
        return Err(LENGTH);
    }
    let view = clean_view(image, g)?;
    if rules == Rules::Present && view.version == Version::One {
        return Err(FORMER_VERSION);
    }
    if view.live == g.capacity() && find(image, g, view.oldest, view.used, block).is_none() {
        return Err(FULL);
    }
    let heading = new_headers(image, g, &view)?;
    Ok(Work::Put(view, heading, block, contents))
}

/// The offset of the block's slot.
fn locate(image: &[u8], g: Geometry, block: u16) -> Result<usize, u8> {
    check_size(image, g)?;
    check_number(block)?;
    let view = clean_view(image, g)?;
    find(image, g, view.oldest, view.used, block).ok_or(ABSENT)
}

fn plan_recover(image: &[u8], g: Geometry) -> Result<Work<'static>, u8> {
    check_size(image, g)?;
    match state_of(image, g) {
        State::Clean(_) => Ok(Work::Nothing),
        State::Unfinished(left) => Ok(Work::Recover(left)),
        State::Damaged => Err(DAMAGED),
    }
}

fn carry_out(
    image: &mut [u8],
    g: Geometry,
    plan: Result<Work, u8>,
    allowance: u64,
    list: Option<&mut Vec<Step>>,
) -> Reply {
    let mut chip = Chip {
        g,
        image,
        allowance,
        done: 0,
        list,
    };
    let end = match plan {
        Err(code) => return Reply { code, steps: 0 },
        Ok(Work::Format(heading)) => format_steps(&mut chip, heading),
        Ok(Work::Put(view, heading, block, contents)) => {
            put_steps(&mut chip, view, heading, block, contents)
        }
        Ok(Work::ClearBit5(at)) => chip.program(at, CLEAR_BIT_5),
        Ok(Work::Recover(left)) => recover_steps(&mut chip, left),
        Ok(Work::Nothing) => Ok(()),
    };
    Reply {
        code: if end.is_ok() { DONE } else { CUT },
        steps: chip.done,
    }
}

/// What a request has to do, or why it is refused.
fn plan<'a>(image: &[u8], g: Geometry, request: &'a Request, rules: Rules) -> Result<Work<'a>, u8> {
    match request {
        Request::Format => plan_format(image, g, rules),
        Request::Put { block, contents } => plan_put(image, g, *block, contents, rules),
        Request::Delete { block } => locate(image, g, *block).map(Work::ClearBit5),
        Request::Recover => plan_recover(image, g),
    }
}

pub fn perform(image: &mut [u8], g: Geometry, request: &Request, allowance: u64) -> Reply {
    perform_by(Rules::Present, image, g, request, allowance)
}

pub fn perform_by(
    rules: Rules,
    image: &mut [u8],
    g: Geometry,
    request: &Request,
    allowance: u64,
) -> Reply {
    let plan = plan(image, g, request, rules);
    carry_out(image, g, plan, allowance, None)
}

/// The step list of a request and its code when nothing cuts it. The image is left alone.
pub fn steps_of(image: &[u8], g: Geometry, request: &Request) -> (u8, Vec<Step>) {
    steps_by(Rules::Present, image, g, request)
}

pub fn steps_by(rules: Rules, image: &[u8], g: Geometry, request: &Request) -> (u8, Vec<Step>) {
    let mut list = Vec::new();
    let mut copy = image.to_vec();
    let plan = plan(image, g, request, rules);
    let reply = carry_out(&mut copy, g, plan, UNLIMITED, Some(&mut list));
    (reply.code, list)
}

pub fn format(image: &mut [u8], g: Geometry, allowance: u64) -> Reply {
    perform(image, g, &Request::Format, allowance)
}

pub fn put(image: &mut [u8], g: Geometry, block: u16, contents: &[u8], allowance: u64) -> Reply {
    let plan = plan_put(image, g, block, contents, Rules::Present);
    carry_out(image, g, plan, allowance, None)
}

pub fn read(image: &[u8], g: Geometry, block: u16) -> ReadReply {
    match locate(image, g, block) {
        Ok(at) => ReadReply {
            code: DONE,
            offset: at + 8,
            length: usize::from(image[at + 1]),
        },
        Err(code) => ReadReply {
            code,
            offset: 0,
            length: 0,
        },
    }
}

/// The second form of reading: the code, and a piece of the image or the whole factory record.
pub fn read_or<'a>(image: &'a [u8], g: Geometry, block: u16, factory: &'a [u8]) -> (u8, &'a [u8]) {
    let found = read(image, g, block);
    match found.code {
        ABSENT => (found.code, factory),
        code => (code, &image[found.offset..found.offset + found.length]),
    }
}
