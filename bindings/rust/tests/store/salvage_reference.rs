//! Request #113, salvage, from the papers alone: the candidates are listed as the request defines them,
//! sorted, and the last of each block number is given. The second part takes the list of a move.

use crate::account::lend;
use crate::moving_reference::{build, Entries};
use crate::reference::*;

/// "Every slot of live form in a segment whose header is in use is a candidate", in the order of the
/// choice: by block number, then by the number of its segment, then by its place.
#[derive(Clone, Copy, Debug, PartialEq, Eq, PartialOrd, Ord)]
struct Candidate<'a> {
    block: u16,
    number: u32,
    slot: usize,
    contents: &'a [u8],
}

/// What is given for a block number.
#[derive(Clone, Copy, Debug, PartialEq, Eq)]
pub struct Given<'a> {
    pub block: u16,
    /// The index of its segment.
    pub index: usize,
    /// Its place there, from 1 to B.
    pub slot: usize,
    pub contents: &'a [u8],
    /// Whether another candidate has other contents.
    pub differs: bool,
}

/// "Where the top is owing, the segment after it is left aside": its index. The top is the one with the
/// largest number of all in use, of whatever version.
pub fn left_aside(image: &[u8], g: Geometry) -> Option<usize> {
    let headers = (0..g.n).filter_map(|index| header(image, g, index));
    let top = headers.max_by_key(|found| found.number)?;
    top.owing.then(|| g.index(top.number + 1))
}

/// The candidates of an image of a right size.
fn candidates(image: &[u8], g: Geometry) -> Vec<Candidate<'_>> {
    let aside = left_aside(image, g);
    let mut found = Vec::new();
    for index in (0..g.n).filter(|&index| aside != Some(index)) {
        let Some(header) = header(image, g, index) else {
            continue;
        };
        for slot in 1..=g.b {
            let page = &image[g.page(index, slot)..][..PAGE];
            if let Kind::Live { block, length } = kind(page) {
                found.push(Candidate {
                    block,
                    number: header.number,
                    slot,
                    contents: &page[8..8 + length],
                });
            }
        }
    }
    found
}

/// "For each block number the candidate in the highest segment number, within a segment the last", by
/// rising block number.
pub fn given(image: &[u8], g: Geometry) -> Vec<Given<'_>> {
    let mut candidates = candidates(image, g);
    candidates.sort();
    let equal_numbers = candidates.chunk_by(|one, other| one.block == other.block);
    equal_numbers
        .map(|rivals| {
            let last = rivals[rivals.len() - 1];
            Given {
                block: last.block,
                index: g.index(last.number),
                slot: last.slot,
                contents: last.contents,
                differs: rivals.iter().any(|one| one.contents != last.contents),
            }
        })
        .collect()
}

/// The report, or `None` for a wrong size.
pub fn report(image: &[u8], g: Geometry) -> Option<String> {
    if !g.fits(image.len()) {
        return None;
    }
    let mut text = "salvage promises nothing\n".to_string();
    for one in given(image, g) {
        let (block, length) = (one.block, one.contents.len());
        let (index, slot) = (one.index, one.slot);
        let agreement = if one.differs { "differs" } else { "same" };
        text += &format!("block {block} len {length} seg {index} slot {slot} {agreement}\n");
    }
    Some(text)
}

/// The report in a lent buffer: the code and the text's length. 1 comes before 14.
pub fn report_into(report: Option<&str>, buffer: &mut [u8]) -> (u8, usize) {
    match report {
        Some(text) => lend(text, buffer),
        None => (SIZE, 0),
    }
}

/// The blocks that are given with their contents, by rising number.
pub fn entries(image: &[u8], g: Geometry) -> Entries {
    let given = given(image, g).into_iter();
    given
        .map(|one| (one.block, one.contents.to_vec()))
        .collect()
}

/// "A second part builds a fresh image from the candidates given, by the rules of #106 without its 4 and
/// 5": 1 for either image, 7 if the target's C is below the count of block numbers.
pub fn rebuild(
    source: &[u8],
    g: Geometry,
    target: &mut [u8],
    to: Geometry,
    allowance: u64,
) -> Reply {
    if !g.fits(source.len()) || !to.fits(target.len()) {
        return Reply {
            code: SIZE,
            steps: 0,
        };
    }
    let entries = entries(source, g);
    if to.capacity() < entries.len() {
        return Reply {
            code: FULL,
            steps: 0,
        };
    }
    build(target, to, &entries, allowance)
}
