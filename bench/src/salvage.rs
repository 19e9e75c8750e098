//! The salvage of request #113 and its second part, the rebuild, of full clean chips and of damaged ones
//! whose blocks are there many times, beside a plain Rust
//! (`bindings/rust/tests/store/salvage_plain.rs`, its blank test by words).
//!
//! Both sides are called as a library is, and each has a buffer or a target of its own, which is written
//! before each run, outside the time taken.

use crate::accounts::shuffled;
use crate::by_words::reference::{Geometry, Reply, DONE};
use crate::by_words::salvage_plain as plain;
use crate::moving::{anywhere, full, print_heads, print_row, row, SOURCE, TARGETS};
use crate::prng::Rng;
use crate::{pages, reference, timed, typed};
use reference::{LIVE, PAGE, SETTLED};
use std::hint::black_box;
use std::time::Duration;

/// How often each block is there in a damaged chip.
const COPIES: usize = 4;

/// A chip with all its segments in use and every slot live: each block is there four times, in places that
/// follow no order, and of half of the blocks one copy has another last byte.
fn crowded(g: Geometry, length: usize) -> Vec<u8> {
    let Geometry { n, b } = g;
    let g = reference::Geometry { n, b };
    let blocks = n * b / COPIES;
    let mut places: Vec<usize> = (0..n * b).collect();
    Rng::new(113).shuffle(&mut places);
    let mut image = vec![0xFF; n * g.segment_len()];
    for number in n..2 * n {
        pages::write_header(&mut image, g, number as u32, SETTLED);
    }
    for (i, place) in places.into_iter().take(COPIES * blocks).enumerate() {
        let block = 1 + i % blocks;
        let mut contents = vec![0x41; length];
        if i < blocks && block % 2 == 0 {
            contents[length - 1] = 0x42;
        }
        let at = g.page(place / b, 1 + place % b);
        let page = &mut image[at..at + PAGE];
        pages::write_slot_page(page, LIVE, block as u16, &contents);
    }
    assert_eq!(reference::state_of(&image, g), reference::State::Damaged);
    image
}

fn of_words(g: reference::Geometry) -> Geometry {
    Geometry { n: g.n, b: g.b }
}

/// A row of the reports for each chip, N and B with the number of runs: clean, and damaged.
pub fn reports(chips: &[(usize, usize, usize)]) {
    print_heads("salvage, blocks in any order", "bytes");
    for &(n, b, runs) in chips {
        let g = reference::Geometry { n, b };
        let clean = shuffled(g);
        let name = format!("N={n}, B={b}, clean, {} blocks", g.capacity());
        report(&name, of_words(g), &clean, runs);
        let damaged = crowded(of_words(g), 100);
        let name = format!("N={n}, B={b}, {} blocks {COPIES} times", n * b / COPIES);
        report(&name, of_words(g), &damaged, runs);
    }
}

type Report = fn(&[u8], Geometry, &mut [u8]) -> (u8, usize);

fn library_report(image: &[u8], g: Geometry, text: &mut [u8]) -> (u8, usize) {
    let Geometry { n, b } = g;
    let salvage = typed(reference::Geometry { n, b }).salvage_into(image, text);
    (salvage.answer.number(), salvage.length)
}

fn report(name: &str, g: Geometry, image: &[u8], runs: usize) {
    // The compiler does not know here which they are.
    let sides: [Report; 2] = black_box([plain::salvage, library_report]);
    let Geometry { n, b } = g;
    let most = typed(reference::Geometry { n, b }).salvage_len();
    let most = most.expect("a geometry in range");
    let mut buffers = [(); 2].map(|()| vec![0; most]);
    let mut replies = [(0, 0); 2];
    let mut times: [Vec<Duration>; 2] = Default::default();
    for run in 0..runs {
        for side in [run % 2, (run + 1) % 2] {
            buffers[side].fill(run as u8);
            let (image, buffer) = (black_box(image), black_box(&mut buffers[side]));
            let (reply, time) = timed(|| sides[side](image, black_box(g), buffer));
            replies[side] = reply;
            times[side].push(time);
        }
        assert_eq!(replies[0].0, DONE);
        assert!(replies[0] == replies[1]);
        assert!(buffers[0] == buffers[1], "the texts differ");
    }
    print_row(name, replies[0].1 as u64, times);
}

fn library_rebuild(
    source: &[u8],
    g: Geometry,
    target: &mut [u8],
    to: Geometry,
    allowance: u64,
) -> Reply {
    let [chip, wanted] = [g, to].map(|Geometry { n, b }| typed(reference::Geometry { n, b }));
    let outcome = chip.rebuild(source, wanted, target, allowance);
    Reply {
        code: outcome.answer.number(),
        steps: outcome.steps,
    }
}

/// A row for each length of the records, source and target.
pub fn rebuilds(runs: usize) {
    print_heads("rebuild of a full chip, N=16, B=255", "steps");
    for length in [100, 248] {
        let clean = full(&anywhere(), &vec![0x41; length]);
        let damaged = crowded(SOURCE, length);
        for (state, source) in [("clean", clean), ("damaged", damaged)] {
            for to in TARGETS {
                let name = format!("{length} bytes, {state}, to N={}, B={}", to.n, to.b);
                row(&name, [plain::rebuild, library_rebuild], &source, to, runs);
            }
        }
    }
}
