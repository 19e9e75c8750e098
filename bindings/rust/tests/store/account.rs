//! Request #101: the account of an image as text, for comparison with the library.
//!
//! Written from the papers alone, as the reference is, and plainly: every slot is looked at once,
//! the live ones are sorted, and the lines are written one after the other. Whether the image is
//! clean or unfinished it decides anew from what it lists, and not as the reference does. The tests
//! and the bench both include this file.

use super::all_255;
use super::reference::{
    header, kind, tally, Geometry, InUse, Kind, Version, DONE, PAGE, SHORT_BUFFER,
};
use std::fmt::Write;

/// A live slot of a segment in use, in the order of the lines: by block number, then by the number
/// of its segment, then by its place.
#[derive(Clone, Copy, PartialEq, Eq, PartialOrd, Ord)]
struct Line {
    block: u16,
    number: u32,
    slot: u8,
    length: u8,
}

/// What is told of a segment, and what its state depends on. Only one in use has slots.
#[derive(Clone, Copy)]
struct Segment {
    header: Option<InUse>,
    blank: bool,
    live: usize,
    dead: usize,
    cut: usize,
    empty: usize,
    /// Torn and wrong slots, which are in no count.
    bad: usize,
    /// Whether a slot that is not empty follows an empty one.
    gap: bool,
    /// The last slot that is not empty.
    last: Option<Kind>,
}

impl Segment {
    /// One that is not in use.
    fn unused(blank: bool) -> Segment {
        Segment {
            header: None,
            blank,
            live: 0,
            dead: 0,
            cut: 0,
            empty: 0,
            bad: 0,
            gap: false,
            last: None,
        }
    }

    /// Counts the next slot.
    fn add(&mut self, kind: Kind) {
        match kind {
            Kind::Empty => {
                self.empty += 1;
                return;
            }
            Kind::Live { .. } => self.live += 1,
            Kind::Dead => self.dead += 1,
            Kind::Cut => self.cut += 1,
            Kind::Torn | Kind::Wrong => self.bad += 1,
        }
        self.gap |= self.empty > 0;
        self.last = Some(kind);
    }
}

/// The four ways to be unfinished.
#[derive(Clone, Copy, PartialEq, Eq)]
enum Exception {
    A,
    B,
    C,
    D,
}

/// What an image of a right size holds.
struct Listing {
    g: Geometry,
    /// By index.
    segments: Vec<Segment>,
    /// Sorted.
    lines: Vec<Line>,
}

impl Listing {
    fn of(image: &[u8], g: Geometry) -> Listing {
        let mut segments = Vec::with_capacity(g.n);
        let mut lines = Vec::new();
        for index in 0..g.n {
            let bytes = &image[g.page(index, 0)..][..g.segment_len()];
            let Some(found) = header(image, g, index) else {
                segments.push(Segment::unused(all_255(bytes)));
                continue;
            };
            let mut segment = Segment::unused(false);
            segment.header = Some(found);
            for (slot, page) in bytes.chunks_exact(PAGE).enumerate().skip(1) {
                let kind = kind(page);
                segment.add(kind);
                if let Kind::Live { block, length } = kind {
                    lines.push(Line {
                        block,
                        number: found.number,
                        slot: slot as u8,
                        length: length as u8,
                    });
                }
            }
            segments.push(segment);
        }
        lines.sort_unstable();
        Listing { g, segments, lines }
    }

    fn headers(&self) -> impl Iterator<Item = InUse> + '_ {
        self.segments.iter().filter_map(|segment| segment.header)
    }

    fn top(&self) -> Option<InUse> {
        self.headers().max_by_key(|found| found.number)
    }

    /// The same without the segment after an owing top: it is not looked at further, and shown as
    /// torn unless it is blank.
    fn left_aside(&self, top: InUse) -> Listing {
        let after = self.g.index(top.number + 1);
        let mut segments = self.segments.clone();
        segments[after] = Segment::unused(segments[after].blank);
        let mut lines = self.lines.clone();
        lines.retain(|line| self.g.index(line.number) != after);
        Listing {
            segments,
            lines,
            ..*self
        }
    }

    /// The conditions of "Clean" in their order, in an image with this exception if it is given.
    fn conditions(&self, but: Option<Exception>) -> [bool; 8] {
        let used = self.headers().count();
        let Some(top) = self.top() else {
            // Without a segment in use only the first can be told to fail.
            return [false; 8];
        };
        let numbers = self.headers().map(|found| found.number);
        let oldest = numbers.min().unwrap_or(top.number);
        let owing = self.headers().filter(|found| found.owing).count();
        let after = self.g.index(top.number + 1);
        let excused = matches!(but, Some(Exception::A | Exception::B)).then_some(after);
        let bad: usize = self.segments.iter().map(|segment| segment.bad).sum();
        let last = self.segments[self.g.index(top.number)].last;
        let counted_twice = usize::from(but == Some(Exception::D));
        [
            (1..self.g.n).contains(&used),
            // They differ, as their indices do: so they are consecutive if they are as many.
            (top.number - oldest) as usize + 1 == used
                && self.headers().all(|found| found.version == top.version),
            match but {
                Some(Exception::B) => top.owing && owing == 1,
                _ => owing == 0,
            },
            (0..self.g.n).all(|index| {
                let segment = &self.segments[index];
                segment.header.is_some() || segment.blank || excused == Some(index)
            }),
            match but {
                Some(Exception::C) => last == Some(Kind::Torn) && bad == 1,
                _ => bad == 0,
            },
            self.no_block_twice(last, but),
            self.segments.iter().all(|segment| {
                let is_top = segment.header == Some(top);
                !segment.gap && (segment.empty == 0 || is_top)
            }),
            self.lines.len() <= self.g.capacity() + counted_twice,
        ]
    }

    /// The sixth: no two live slots with one block number, but for that of the last in (d).
    fn no_block_twice(&self, last: Option<Kind>, but: Option<Exception>) -> bool {
        let pairs = self.lines.windows(2);
        let mut twice = pairs.filter(|pair| pair[0].block == pair[1].block);
        match (but, last) {
            (Some(Exception::D), Some(Kind::Live { block, .. })) => {
                // One pair: a third slot with the number would make another.
                twice.next().is_some_and(|pair| pair[0].block == block) && twice.next().is_none()
            }
            (Some(Exception::D), _) => false,
            _ => twice.next().is_none(),
        }
    }

    fn holds(&self, but: Option<Exception>) -> bool {
        self.conditions(but).into_iter().all(|holds| holds)
    }
}

/// How many steps it takes to erase the segment after the top: the erase and, where there is a bit
/// left to count it, that one before.
fn steps_to_erase(image: &[u8], g: Geometry, top: InUse) -> u64 {
    match top.version {
        Version::One => 1,
        Version::Two => 1 + u64::from(tally(image, g, top.number).bit_left),
    }
}

/// The steps of recovery, `None` for a damaged image, and the listing as it is to be shown.
fn judged(image: &[u8], listing: Listing) -> (Option<u64>, Listing) {
    let g = listing.g;
    if listing.holds(None) {
        return (Some(0), listing);
    }
    let Some(top) = listing.top() else {
        return (None, listing);
    };
    if top.owing {
        let rest = listing.left_aside(top);
        let all_used = rest.headers().count() == g.n - 1;
        if !all_used || !rest.holds(Some(Exception::B)) {
            return (None, listing);
        }
        let after = rest.segments[g.index(top.number + 1)];
        let erasing = match after.blank {
            true => 0,
            false => steps_to_erase(image, g, top),
        };
        return (Some(erasing + 1), rest);
    }
    let steps = if listing.holds(Some(Exception::A)) {
        Some(steps_to_erase(image, g, top))
    } else if listing.holds(Some(Exception::C)) || listing.holds(Some(Exception::D)) {
        Some(1)
    } else {
        None
    };
    (steps, listing)
}

fn write_text(listing: &Listing, last: std::fmt::Arguments) -> Result<String, std::fmt::Error> {
    let mut text = String::with_capacity(64 * listing.segments.len() + 37 * listing.lines.len());
    for (index, segment) in listing.segments.iter().enumerate() {
        match segment.header {
            Some(found) => {
                let state = if found.owing { "owing" } else { "used" };
                writeln!(
                    text,
                    "seg {index} {state} num {} live {} dead {} cut {} empty {}",
                    found.number, segment.live, segment.dead, segment.cut, segment.empty
                )?;
            }
            None if segment.blank => writeln!(text, "seg {index} blank")?,
            None => writeln!(text, "seg {index} torn")?,
        }
    }
    for line in &listing.lines {
        let index = listing.g.index(line.number);
        writeln!(
            text,
            "block {} len {} seg {index} slot {}",
            line.block, line.length, line.slot
        )?;
    }
    writeln!(text, "{last}")?;
    Ok(text)
}

/// The text.
pub fn account(image: &[u8], g: Geometry) -> String {
    if !g.fits(image.len()) {
        return "fails 0\n".to_string();
    }
    let (steps, listing) = judged(image, Listing::of(image, g));
    let written = match steps {
        Some(steps) => write_text(&listing, format_args!("recover 0 steps {steps}")),
        None => {
            let conditions = listing.conditions(None);
            let failing = conditions.iter().position(|holds| !holds);
            let place = 1 + failing.expect("a damaged image is not clean");
            write_text(&listing, format_args!("fails {place}"))
        }
    };
    written.expect("a string takes any text")
}

/// The rule of the lent buffer: one too short for the text stays as it is.
pub fn lend(text: &str, buffer: &mut [u8]) -> (u8, usize) {
    match buffer.get_mut(..text.len()) {
        Some(front) => {
            front.copy_from_slice(text.as_bytes());
            (DONE, text.len())
        }
        None => (SHORT_BUFFER, 0),
    }
}

/// The text in a lent buffer: the code and the text's length.
pub fn account_into(image: &[u8], g: Geometry, buffer: &mut [u8]) -> (u8, usize) {
    lend(&account(image, g), buffer)
}
