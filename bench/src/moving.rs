//! The move of request #106: full chips moved to one of the same N and B and to one of others, beside
//! a plain Rust (`bindings/rust/tests/store/moving_plain.rs`, its blank test by words).
//!
//! The plain one is called as a library is: it is not drawn into the loop, where N and B would be
//! constants. Each side has a target of its own, which is written before each move, outside the time
//! taken.

use crate::by_words::moving_plain as plain;
use crate::by_words::reference::{Geometry, Reply, DONE, UNLIMITED};
use crate::prng::Rng;
use crate::{median, pages, reference, timed, typed};
use reference::{LIVE, OPENED, PAGE};
use std::hint::black_box;
use std::time::Duration;

/// The old board's chip, and those that its blocks are moved to.
pub const SOURCE: Geometry = Geometry { n: 16, b: 255 };
pub const TARGETS: [Geometry; 2] = [SOURCE, Geometry { n: 32, b: 127 }];

/// A row for each length of the records, order of the blocks and target.
pub fn rows(runs: usize) {
    print_heads("move of a full chip, N=16, B=255", "steps");
    for length in [100, 248] {
        for (order, blocks) in [("in turn", in_turn()), ("anywhere", anywhere())] {
            let source = full(&blocks, &vec![0x41; length]);
            for to in TARGETS {
                let name = format!("{length} bytes, {order}, to N={}, B={}", to.n, to.b);
                row(&name, [plain::move_to, library], &source, to, runs);
            }
        }
    }
}

/// The heads of a table of two sides.
pub fn print_heads(first: &str, second: &str) {
    println!(
        "  {:<36}{:>8}{:>14}{:>14}{:>10}{:>16}",
        first, second, "plain Rust", "library", "ratio", "half the runs"
    );
}

/// As many blocks as the chip holds: 1, 2, 3 and so on.
fn in_turn() -> Vec<u16> {
    (1..=SOURCE.capacity() as u16).collect()
}

/// As many from all over the range, in any order.
pub fn anywhere() -> Vec<u16> {
    let mut blocks: Vec<u16> = (1..=65_534).collect();
    Rng::new(106).shuffle(&mut blocks);
    blocks.truncate(SOURCE.capacity());
    blocks
}

/// The old chip with these blocks, slot by slot.
pub fn full(blocks: &[u16], contents: &[u8]) -> Vec<u8> {
    let Geometry { n, b } = SOURCE;
    let g = reference::Geometry { n, b };
    let mut image = vec![0xFF; n * g.segment_len()];
    for (i, &block) in blocks.iter().enumerate() {
        let number = (i / b) as u32;
        if i % b == 0 {
            pages::write_header(&mut image, g, number, OPENED);
        }
        let at = g.page(g.index(number), 1 + i % b);
        pages::write_slot_page(&mut image[at..at + PAGE], LIVE, block, contents);
    }
    image
}

/// What builds a target from a source.
pub type Moving = fn(&[u8], Geometry, &mut [u8], Geometry, u64) -> Reply;

fn library(source: &[u8], g: Geometry, target: &mut [u8], to: Geometry, allowance: u64) -> Reply {
    let [chip, wanted] = [g, to].map(|Geometry { n, b }| typed(reference::Geometry { n, b }));
    let outcome = chip.move_to(source, wanted, target, allowance);
    Reply {
        code: outcome.answer.number(),
        steps: outcome.steps,
    }
}

/// A row of the plain one and the library.
pub fn row(name: &str, sides: [Moving; 2], source: &[u8], to: Geometry, runs: usize) {
    // The compiler does not know here which they are.
    let sides = black_box(sides);
    let mut targets = [(); 2].map(|()| vec![0; to.n * to.segment_len()]);
    let mut replies = [Reply { code: 0, steps: 0 }; 2];
    let mut times: [Vec<Duration>; 2] = Default::default();
    for run in 0..runs {
        for side in [run % 2, (run + 1) % 2] {
            targets[side].fill(run as u8);
            let (source, target) = (black_box(source), black_box(&mut targets[side]));
            let (reply, time) =
                timed(|| sides[side](source, SOURCE, target, black_box(to), UNLIMITED));
            replies[side] = reply;
            times[side].push(time);
        }
        assert_eq!(replies[0].code, DONE);
        assert!(replies[0] == replies[1]);
        assert!(targets[0] == targets[1], "the targets differ");
    }
    print_row(name, replies[0].steps, times);
}

/// The medians of both, the library's over that of the plain one, and between which ratios half of the
/// runs lie.
pub fn print_row(name: &str, count: u64, times: [Vec<Duration>; 2]) {
    let (low, high) = middle_half(&times);
    let [plain, library] = times.map(|times| median(times) * 1e6);
    let ratio = library / plain;
    println!(
        "  {name:<36}{count:>8}{plain:>11.1} µs{library:>11.1} µs{ratio:>10.2}{low:>8.2} to {high:.2}"
    );
}

/// Between which ratios half of the runs lie, without the highest and the lowest quarter.
fn middle_half([plain, library]: &[Vec<Duration>; 2]) -> (f64, f64) {
    let pairs = plain.iter().zip(library);
    let mut ratios: Vec<f64> = pairs
        .map(|(plain, library)| library.as_secs_f64() / plain.as_secs_f64())
        .collect();
    ratios.sort_by(f64::total_cmp);
    (ratios[ratios.len() / 4], ratios[ratios.len() * 3 / 4])
}
