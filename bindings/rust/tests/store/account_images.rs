//! Request #101: accounts of images of every kind, most of them such as no store makes. Each goes
//! through [`Store::account`], where the library is compared, with buffers of several lengths; on
//! small chips the place of the condition that fails is held to the letter of the papers too.

use crate::conditions::first_failing;
use crate::harness::Store;
use crate::heads::{
    any_bits, any_total, head, leave_last, other, owe, set_total, set_version, Heads, ALL_BITS,
};
use crate::images::{self, full_ring, write_slot_page};
use crate::mixed_versions::{fill_after, ring, AFTER_KINDS, VERSIONS};
use crate::pages::write_header_of;
use crate::prng::Rng;
use crate::reference::*;
use std::collections::BTreeMap;
use std::io::Write;

/// How often each last line came up, by the version of the segments in use; 0 stands for none and
/// for both.
#[derive(Default, Debug)]
pub struct Seen(BTreeMap<(u8, String), usize>);

impl Seen {
    /// The account of an image, compared and counted. Its last line.
    pub fn tell(&mut self, store: &Store, image: &[u8], g: Geometry) -> String {
        let text = store.account(image, g);
        let last = text.lines().last().expect("a line").to_string();
        if let Some(place) = last.strip_prefix("fails ") {
            if g.fits(image.len()) && g.n * g.b <= 64 {
                assert_eq!(Some(place.to_string()), letter(image, g));
            }
        }
        *self
            .0
            .entry((version_of(image, g), last.clone()))
            .or_insert(0) += 1;
        last
    }

    /// Each of these came up in this version, so often at least.
    pub fn met(&self, version: Version, lasts: &[&str], least: usize) {
        for last in lasts {
            let key = (version.bytes()[0], last.to_string());
            let count = self.0.get(&key).copied().unwrap_or(0);
            assert!(count >= least, "{version:?}: `{last}` {count} times");
        }
    }

    /// All eight conditions and every count of steps came up in both versions.
    fn all_met(&self, least: usize) {
        for version in VERSIONS {
            self.met(version, &FAILS, least);
            self.met(version, &STEPS[..3], least);
        }
        self.met(Version::Two, &STEPS[3..], least);
    }

    fn say(&self, test: &str) {
        let _ = writeln!(std::io::stderr(), "{test}: {:?}", self.0);
    }
}

/// The last lines of damaged images.
pub const FAILS: [&str; 8] = [
    "fails 1", "fails 2", "fails 3", "fails 4", "fails 5", "fails 6", "fails 7", "fails 8",
];
/// Those of the others. Recovery takes three steps in version 2 alone.
pub const STEPS: [&str; 4] = [
    "recover 0 steps 0",
    "recover 0 steps 1",
    "recover 0 steps 2",
    "recover 0 steps 3",
];

/// The place of the first condition that fails, by the letter.
fn letter(image: &[u8], g: Geometry) -> Option<String> {
    first_failing(image, g).map(|place| place.to_string())
}

fn version_of(image: &[u8], g: Geometry) -> u8 {
    if !g.fits(image.len()) {
        return 0;
    }
    let headers = (0..g.n).filter_map(|index| header(image, g, index));
    let mut versions: Vec<u8> = headers.map(|found| found.version.bytes()[0]).collect();
    versions.dedup();
    match versions[..] {
        [version] => version,
        _ => 0,
    }
}

#[test]
fn disturbed() {
    let store = Store::new("accounts of disturbed images");
    let mut rng = Rng::new(0x1011);
    let mut seen = Seen::default();
    for (n, b, images) in [
        (2, 2, 20_000),
        (2, 3, 10_000),
        (3, 2, 20_000),
        (4, 2, 10_000),
        (4, 15, 3_000),
        (5, 3, 8_000),
        (11, 2, 3_000),
        (3, 101, 200),
        (101, 2, 200),
        (2, 255, 200),
        (255, 2, 200),
        (16, 255, 10),
        (64, 255, 3),
        (255, 255, 2),
    ] {
        let g = Geometry { n, b };
        for _ in 0..images {
            let shape = images::shape(&mut rng, g);
            let mut image = images::clean(&mut rng, g, shape);
            for _ in 0..rng.pick(&[0, 1, 1, 1, 1, 2, 2, 3]) {
                images::disturb(&mut rng, g, &mut image);
            }
            seen.tell(&store, &image, g);
        }
    }
    seen.say("accounts of disturbed images");
    seen.all_met(5);
}

/// One fault for each condition, so that several can be had at once: the first is told.
fn spoil(rng: &mut Rng, image: &mut [u8], g: Geometry, top: InUse, place: usize) {
    let index = g.index(top.number);
    let oldest = top.number + 2 - g.n as u32;
    let after = top.number + 1;
    match place {
        // N in use
        1 => write_header_of(top.version, image, g, after - g.n as u32, SETTLED),
        2 => match rng.below(2) {
            0 => set_version(image, g, oldest, other(top.version)),
            _ => write_header_of(top.version, image, g, oldest + g.n as u32, OPENED),
        },
        3 => owe(image, g, rng.pick(&[oldest, oldest + 1])),
        // the one after the top neither in use nor blank, or another
        4 => {
            let near = rng.pick(&[g.index(after), g.index(oldest)]);
            image[g.page(near, 0)] = 0;
        }
        5 => image[g.page(index, 1)] = rng.pick(&[WRITING, 0xBF]),
        6 => {
            let at = g.page(index, 1);
            image.copy_within(at..at + PAGE, g.page(index, g.b));
        }
        7 => image[g.page(rng.pick(&[g.index(oldest), index]), 1)..][..PAGE].fill(0xFF),
        // the dead slot of a full ring live: none is left then
        _ => write_slot_page(
            &mut image[g.page(g.index(oldest), 1)..][..PAGE],
            LIVE,
            60_000,
            b"x",
        ),
    }
}

/// Every choice of the faults.
#[test]
fn the_first_that_fails() {
    let store = Store::new("accounts, the first condition that fails");
    let mut rng = Rng::new(0x1012);
    let mut seen = Seen::default();
    for (n, b) in [(3, 2), (4, 3), (5, 2)] {
        let g = Geometry { n, b };
        for version in VERSIONS {
            for faults in 0..1 << 8 {
                for _ in 0..8 {
                    let number = (n + rng.below(3 * n)) as u32;
                    let mut image = ring(&mut rng, g, number, version);
                    let top = header(&image, g, g.index(number)).expect("a top");
                    for place in (1..=8).rev().filter(|place| faults >> (place - 1) & 1 == 1) {
                        spoil(&mut rng, &mut image, g, top, place);
                    }
                    seen.tell(&store, &image, g);
                }
            }
        }
    }
    seen.say("accounts, the first condition that fails");
    for version in VERSIONS {
        seen.met(version, &FAILS, 1);
    }
}

/// A header that fits or nearly does, its number about a limit, with any status and version.
pub fn any_header(rng: &mut Rng, image: &mut [u8], g: Geometry, index: usize, base: u32) {
    let n = g.n as u32;
    let round = match rng.below(8) {
        0 => 0,
        1 => ENDURANCE - 1,
        2 => ENDURANCE,
        3 => u32::MAX / n - 1,
        _ => base / n + rng.below(2) as u32,
    };
    let number = round * n + index as u32;
    let status = rng.pick(&[OPENED, OPENED, SETTLED, SETTLED, OWING, OPENING, TIDYING]);
    let version = rng.pick(&[Version::One, Version::Two, Version::Two, Version::Two]);
    write_header_of(version, image, g, number, status);
    if version == Version::Two && rng.once_in(2) {
        set_total(image, g, number, any_total(rng));
        any_bits(rng, &mut head(image, g, number)[BITS]);
    }
    if rng.once_in(8) {
        image[g.page(index, 0) + rng.below(32)] ^= 1 << rng.below(8);
    }
}

/// A slot of any kind, with one of few block numbers, which lie about the lengths that numbers have.
pub fn any_slot(rng: &mut Rng, page: &mut [u8]) {
    let block = rng.pick(&[
        1, 2, 9, 10, 11, 99, 100, 255, 256, 999, 1_000, 9_999, 10_000, 65_533, 65_534,
    ]);
    let length = rng.pick(&[0, 1, 9, 10, 99, 100, 247, 248]);
    match rng.below(12) {
        0 => page.fill(0xFF),
        1 => write_slot_page(page, WRITING, block, b"torn"),
        2 | 3 => write_slot_page(page, rng.pick(&[DEAD, CUT_SLOT]), block, b"dead"),
        4 => {
            write_slot_page(page, LIVE, block, &vec![rng.byte(); length]);
            // wrong, most of the time
            page[rng.below(PAGE)] = rng.pick(&[0, 249, 250, 0xFF]);
        }
        5 => write_slot_page(page, LIVE, rng.pick(&[0, 65_535]), b"no block"),
        _ => write_slot_page(page, LIVE, block, &vec![rng.byte(); length]),
    }
}

/// Images put together from such headers and slots.
pub fn patchwork(rng: &mut Rng, g: Geometry) -> Vec<u8> {
    let mut image = images::blank(g);
    let base = rng.pick(&[0, g.n, 12 * g.n, 99_998 * g.n]) as u32;
    let unused = rng.pick(&[0, 1, 2, 4]);
    for index in 0..g.n {
        if rng.below(8) < unused {
            if rng.once_in(2) {
                any_slot(rng, &mut image[g.page(index, 1)..][..PAGE]);
            }
            continue;
        }
        any_header(rng, &mut image, g, index, base);
        let live_only = rng.once_in(2);
        for slot in 1..=g.b {
            let page = &mut image[g.page(index, slot)..][..PAGE];
            if live_only {
                let block = rng.between(1, 2 * g.b) as u16;
                write_slot_page(page, LIVE, block, b"live");
            } else {
                any_slot(rng, page);
            }
        }
    }
    image
}

#[test]
fn put_together() {
    let store = Store::new("accounts of images put together");
    let mut rng = Rng::new(0x1013);
    let mut seen = Seen::default();
    for (n, b, images) in [
        (2, 2, 20_000),
        (3, 4, 10_000),
        (4, 15, 3_000),
        (5, 2, 10_000),
        (12, 12, 500),
        (2, 255, 200),
        (255, 2, 200),
        (16, 255, 20),
        (255, 255, 3),
    ] {
        let g = Geometry { n, b };
        for _ in 0..images {
            seen.tell(&store, &patchwork(&mut rng, g), g);
        }
    }
    seen.say("accounts of images put together");
}

/// The segment after an owing top holds anything: it is not shown. With a fault elsewhere the image
/// is damaged, and it is.
#[test]
fn after_an_owing_top() {
    let store = Store::new("accounts, the one after an owing top");
    let mut rng = Rng::new(0x1014);
    let mut seen = Seen::default();
    for (n, b, rounds) in [(2, 2, 60), (3, 2, 60), (4, 15, 20), (5, 3, 60), (255, 2, 2)] {
        let g = Geometry { n, b };
        for version in VERSIONS {
            for round in 0..AFTER_KINDS * rounds {
                let top = (4 * n + rng.below(n)) as u32;
                let mut image = ring(&mut rng, g, top, version);
                owe(&mut image, g, top);
                fill_after(&mut rng, &mut image, g, top, round % AFTER_KINDS);
                let blank = is_blank(&image, g, g.index(top + 1));
                let text = store.account(&image, g);
                let line = format!("seg {} {}", g.index(top + 1), shown(blank));
                assert!(text.lines().any(|found| found == line));
                seen.tell(&store, &image, g);

                let spoilt = g.index(top + 2 + rng.below(n - 1) as u32);
                let mut damaged = image.clone();
                damaged[g.page(spoilt, rng.between(1, b))] = rng.pick(&[WRITING, 0]);
                assert!(seen.tell(&store, &damaged, g).starts_with("fails "));
                // One segment less: what follows the top may be the top itself then.
                Step::Erase { index: spoilt }.apply(g, &mut image);
                seen.tell(&store, &image, g);
            }
        }
    }
    seen.say("accounts, the one after an owing top");
    seen.met(Version::One, &STEPS[1..3], 20);
    seen.met(Version::Two, &STEPS[1..4], 20);
}

fn is_blank(image: &[u8], g: Geometry, index: usize) -> bool {
    let segment = &image[g.page(index, 0)..][..g.segment_len()];
    segment.iter().all(|&byte| byte == 0xFF)
}

fn shown(blank: bool) -> &'static str {
    if blank {
        "blank"
    } else {
        "torn"
    }
}

/// The steps of (a) and (b) by the bits that are left to count the erase.
#[test]
fn bits_left() {
    let store = Store::new("accounts by the bits left");
    let mut seen = Seen::default();
    for (n, b) in [(2, 2), (4, 15), (255, 2)] {
        let g = Geometry { n, b };
        let top = 3 * n as u32 + 1;
        for (left, counted) in [(0, 0), (1, 1), (7, 1), (8, 1), (ALL_BITS, 1)] {
            let mut image = full_ring(g, top);
            leave_last(&mut image, g, top, left);
            image[g.page(g.index(top + 1), b) + 255] = 0xFE;
            assert_eq!(seen.tell(&store, &image, g), STEPS[1 + counted]);
            owe(&mut image, g, top);
            assert_eq!(seen.tell(&store, &image, g), STEPS[2 + counted]);
            let after = g.index(top + 1);
            Step::Erase { index: after }.apply(g, &mut image);
            assert_eq!(seen.tell(&store, &image, g), STEPS[1]);
        }
    }
}

/// Every N and every B, clean and disturbed: the lines have numbers of each length.
#[test]
fn every_geometry() {
    let store = Store::new("accounts of every geometry");
    let mut rng = Rng::new(0x1015);
    let mut seen = Seen::default();
    for i in 2..=255 {
        let [few, some] = [(); 2].map(|()| rng.between(2, 12));
        for (n, b) in [(i, 2), (2, i), (i, few), (some, i)] {
            let g = Geometry { n, b };
            let mut shape = images::shape(&mut rng, g);
            shape.heads = rng.pick(&[Heads::Former, Heads::Any]);
            let mut image = images::clean(&mut rng, g, shape);
            assert_eq!(seen.tell(&store, &image, g), STEPS[0]);
            images::disturb(&mut rng, g, &mut image);
            seen.tell(&store, &image, g);
            seen.tell(&store, &patchwork(&mut rng, g), g);
        }
    }
}
