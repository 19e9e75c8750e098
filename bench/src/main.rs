//! How fast is the proved store? Times of each request beside those of a straightforward Rust
//! implementation of the same rules, which is compiled twice: with its blank test byte by byte,
//! and with its blank test by words of eight bytes.
//!
//!     tools/build qanbillox                  # at the root of the repository
//!     cargo run --release --offline           # here; with mounted, move, salvage, shares or settings those tables alone
//!
//! One process; the three sides get the same images in turn, and their answers, steps and images
//! are compared, and the texts of their accounts. The mounted form, the move, the salvage, puts by
//! tenant and settings have two sides of their own (`mounted.rs`, `moving.rs`, `salvage.rs`, `shares.rs`,
//! `settings.rs`). The buffer is filled from a prepared image before each request, outside the time taken,
//! so each finds it in the cache as far as it fits. The figures are medians.

mod accounts;
mod by_bytes;
mod by_words;
mod mounted;
mod moving;
#[path = "../../bindings/rust/tests/store/pages.rs"]
mod pages;
// The tests use the rest of it.
#[allow(dead_code)]
#[path = "../../bindings/rust/tests/store/prng.rs"]
mod prng;
mod salvage;
mod settings;
mod shares;

use by_bytes::reference;
use by_words::reference as words;
use qanbillox::Block;
use reference::{Geometry, Reply, Request, State, DEAD, LIVE, OPENED, PAGE, UNLIMITED};
use std::hint::black_box;
use std::time::{Duration, Instant};

/// The tables that come alone if they are asked for.
const PARTS: [&str; 5] = ["mounted", "move", "salvage", "shares", "settings"];

/// Contents of the length that records usually have.
const CONTENTS: [u8; 100] = [0x41; 100];

fn main() {
    let words: Vec<String> = std::env::args().skip(1).collect();
    let is_none = |word: &&String| !PARTS.contains(&word.as_str());
    if let Some(word) = words.iter().find(is_none) {
        eprintln!("{word} is none of the tables: {}", PARTS.join(", "));
        std::process::exit(2);
    }
    let wanted = |part| words.is_empty() || words.iter().any(|word| word == part);
    if words.is_empty() {
        unmounted_tables();
    }
    if wanted("mounted") {
        mounted::rows(21);
        println!();
        mounted::beside_unmounted(&[16, 64, 255], 31);
        println!();
    }
    if wanted("move") {
        moving::rows(201);
        println!();
    }
    if wanted("salvage") {
        salvage::reports(&[(4, 15, 401), (16, 255, 201), (255, 255, 31)]);
        println!();
        salvage::rebuilds(201);
        println!();
    }
    if wanted("shares") {
        shares::rows(201);
        println!();
    }
    if wanted("settings") {
        settings::rows(&[8, 128], 1_001);
    }
}

fn unmounted_tables() {
    blank_row(16 * 1024 * 1024, 51);
    for (n, b, runs) in [(4, 15, 401), (16, 255, 101), (64, 255, 51), (255, 255, 31)] {
        let g = Geometry { n, b };
        let capacity = g.capacity();
        for (fill, blocks) in [("half full", capacity / 2), ("full", capacity)] {
            let bytes = n * g.segment_len();
            println!("N={n}, B={b}, {bytes} bytes, {fill}: {blocks} blocks");
            print_heads("request", "steps");
            chip(g, blocks, runs);
            println!();
        }
    }
    by_segments(&[16, 64, 128, 255], 1001);
    println!();
    accounts::rows(&[(16, 255, 101), (255, 255, 31)]);
    println!();
}

/// How the time grows with the number of segments, each with the fewest slots. The block that is
/// read is the last one.
fn by_segments(numbers: &[usize], runs: usize) {
    println!("B=2, full: the library's time for each segment");
    println!("  {:<8}{:>14}{:>28}", "N", "read", "recover, nothing to do");
    for &n in numbers {
        let g = Geometry { n, b: 2 };
        let blocks = g.capacity();
        let mut image = written(g, blocks, blocks, 0);
        let mut times = [Vec::new(), Vec::new()];
        for _ in 0..runs {
            let last = Block(blocks as u16);
            let (read, time) = timed(|| typed(g).read(black_box(&image), last));
            assert!(read.into_result().is_ok());
            times[0].push(time);
            let (outcome, time) = timed(|| typed(g).recover(black_box(&mut image), UNLIMITED));
            assert!(outcome.into_result().is_ok());
            times[1].push(time);
        }
        let [read, recover] = times.map(|times| median(times) * 1e9 / n as f64);
        println!("  {n:<8}{read:>11.0} ns{recover:>25.0} ns");
    }
}

/// All requests on a chip with this many blocks.
fn chip(g: Geometry, blocks: usize, runs: usize) {
    let slots = (g.n - 1) * g.b;
    let roomy = written(g, blocks, blocks, 0);
    // So many that the next put has to compact: the dead slots are in the oldest segments.
    let crowded = written(g, slots, blocks, 0);
    let cut = erase_pending(&crowded, g);
    let middle = (blocks / 2) as u16;

    let put = |block: u16| Request::Put {
        block,
        contents: CONTENTS.to_vec(),
    };
    write_row("format", &roomy, g, &Request::Format, runs);
    write_row("put, a rewrite with room", &roomy, g, &put(middle), runs);
    write_row("put, compacting first", &crowded, g, &put(1), runs);
    if blocks == g.capacity() {
        // The one dead slot is the top's last, so that every segment is compacted.
        let packed = written(g, slots, blocks, slots - 1);
        write_row("put, compacting everything", &packed, g, &put(1), runs);
    }
    read_row("read", &roomy, g, middle, runs);
    read_row("read, not stored", &roomy, g, 65_000, runs);
    let delete = Request::Delete { block: middle };
    write_row("delete", &roomy, g, &delete, runs);
    write_row("recover, nothing to do", &roomy, g, &Request::Recover, runs);
    write_row(
        "recover, an erase pending",
        &cut,
        g,
        &Request::Recover,
        runs,
    );
}

// ---------------------------------------------------------------------------------------------
// Images
// ---------------------------------------------------------------------------------------------

/// A fresh chip with this many written slots, of the blocks in turn. As many of them are live as
/// there are blocks; the dead ones stand together, from a place on.
fn written(g: Geometry, slots: usize, blocks: usize, dead_from: usize) -> Vec<u8> {
    let mut image = vec![0xFF; g.n * g.segment_len()];
    for i in 0..slots {
        let number = (i / g.b) as u32;
        if i % g.b == 0 {
            pages::write_header(&mut image, g, number, OPENED);
        }
        let at = g.page(g.index(number), 1 + i % g.b);
        let dead = dead_from..dead_from + (slots - blocks);
        let status = if dead.contains(&i) { DEAD } else { LIVE };
        let block = (i % blocks) as u16 + 1;
        pages::write_slot_page(&mut image[at..at + PAGE], status, block, &CONTENTS);
    }
    let State::Clean(view) = reference::state_of(&image, g) else {
        panic!("a clean image");
    };
    assert_eq!(view.live, blocks);
    image
}

/// A power cut in a compaction just before the old segment is erased.
fn erase_pending(image: &[u8], g: Geometry) -> Vec<u8> {
    let request = Request::Put {
        block: 1,
        contents: CONTENTS.to_vec(),
    };
    let (_, list) = reference::steps_of(image, g, &request);
    let erase = list
        .iter()
        .position(|step| matches!(step, reference::Step::Erase { .. }))
        .expect("a compaction");
    let mut image = image.to_vec();
    reference::perform(&mut image, g, &request, erase as u64);
    image
}

// ---------------------------------------------------------------------------------------------
// Times
// ---------------------------------------------------------------------------------------------

fn typed(g: Geometry) -> qanbillox::Geometry {
    qanbillox::Geometry {
        segments: g.n,
        slots: g.b,
    }
}

fn perform_library(image: &mut [u8], g: Geometry, request: &Request) -> Reply {
    let typed_request = match request {
        Request::Format => qanbillox::Request::Format,
        Request::Put { block, contents } => qanbillox::Request::Put {
            block: Block(*block),
            contents,
        },
        Request::Delete { block } => qanbillox::Request::Delete {
            block: Block(*block),
        },
        Request::Recover => qanbillox::Request::Recover,
    };
    let outcome = typed(g).perform(image, typed_request, UNLIMITED);
    Reply {
        code: outcome.answer.number(),
        steps: outcome.steps,
    }
}

fn perform_words(image: &mut [u8], g: Geometry, request: &words::Request) -> Reply {
    let g = words::Geometry { n: g.n, b: g.b };
    let reply = words::perform(image, g, request, UNLIMITED);
    Reply {
        code: reply.code,
        steps: reply.steps,
    }
}

/// The same request for the other yardstick, whose types are its own.
fn in_words(request: &Request) -> words::Request {
    match request {
        Request::Format => words::Request::Format,
        Request::Put { block, contents } => words::Request::Put {
            block: *block,
            contents: contents.clone(),
        },
        Request::Delete { block } => words::Request::Delete { block: *block },
        Request::Recover => words::Request::Recover,
    }
}

/// The times of the three sides: the reference by bytes, by words, and the library.
#[derive(Default)]
struct Times([Vec<Duration>; 3]);

impl Times {
    /// Adds how long a side takes.
    fn add<T>(&mut self, side: usize, work: impl FnOnce() -> T) -> T {
        let (result, time) = timed(work);
        self.0[side].push(time);
        result
    }

    /// The medians in microseconds.
    fn medians(self) -> [f64; 3] {
        self.0.map(|times| median(times) * 1e6)
    }
}

/// What some work gives, and how long it takes.
fn timed<T>(work: impl FnOnce() -> T) -> (T, Duration) {
    let start = Instant::now();
    let result = black_box(work());
    (result, start.elapsed())
}

/// The median in seconds.
fn median(mut times: Vec<Duration>) -> f64 {
    times.sort();
    times[times.len() / 2].as_secs_f64()
}

/// The order of the sides in a run: each goes first in turn.
fn turns(run: usize) -> [usize; 3] {
    [run % 3, (run + 1) % 3, (run + 2) % 3]
}

fn write_row(name: &str, image: &[u8], g: Geometry, request: &Request, runs: usize) {
    let mut times = Times::default();
    let mut buffers = [image.to_vec(), image.to_vec(), image.to_vec()];
    let mut replies = [Reply { code: 0, steps: 0 }; 3];
    let other = in_words(request);
    for run in 0..runs {
        for side in turns(run) {
            let buffer = &mut buffers[side];
            buffer.copy_from_slice(image);
            let buffer = black_box(buffer.as_mut_slice());
            replies[side] = times.add(side, || match side {
                0 => reference::perform(buffer, g, request, UNLIMITED),
                1 => perform_words(buffer, g, &other),
                _ => perform_library(buffer, g, request),
            });
        }
        assert_eq!(replies[0].code, reference::DONE);
        assert!(replies[0] == replies[1] && replies[0] == replies[2]);
        assert!(
            buffers[0] == buffers[1] && buffers[0] == buffers[2],
            "the images differ after {request:?}"
        );
    }
    print_row(name, &replies[0].steps.to_string(), times);
}

fn read_row(name: &str, image: &[u8], g: Geometry, block: u16, runs: usize) {
    let mut times = Times::default();
    let other = words::Geometry { n: g.n, b: g.b };
    for run in 0..runs {
        let mut replies = [(0, 0, 0); 3];
        for side in turns(run) {
            let image = black_box(image);
            replies[side] = times.add(side, || match side {
                0 => {
                    let reply = reference::read(image, g, block);
                    (reply.code, reply.offset, reply.length)
                }
                1 => {
                    let reply = words::read(image, other, block);
                    (reply.code, reply.offset, reply.length)
                }
                _ => {
                    let read = typed(g).read(image, Block(block));
                    (read.answer.number(), read.offset, read.contents.len())
                }
            });
        }
        assert!(replies[0] == replies[1] && replies[0] == replies[2]);
    }
    print_row(name, "0", times);
}

/// The blank test alone, on this many bytes 255.
fn blank_row(bytes: usize, runs: usize) {
    let blank = vec![0xFF; bytes];
    let mut times = Times::default();
    for run in 0..runs {
        for side in turns(run) {
            let bytes = black_box(blank.as_slice());
            assert!(times.add(side, || match side {
                0 => by_bytes::all_255(bytes),
                1 => by_words::all_255(bytes),
                _ => qanbillox::blank_test(bytes).blank,
            }));
        }
    }
    print_heads("blank test", "");
    print_row(&format!("{bytes} bytes, all 255"), "", times);
    println!();
}

fn print_heads(first: &str, second: &str) {
    println!(
        "  {:<28}{:>8}{:>14}{:>14}{:>14}{:>10}{:>10}",
        first, second, "by bytes", "by words", "library", "to bytes", "to words"
    );
}

/// The ratios are the library's time over that of the reference by bytes, and by words.
fn print_row(name: &str, count: &str, times: Times) {
    let [bytes, words, library] = times.medians();
    let (to_bytes, to_words) = (library / bytes, library / words);
    println!(
        "  {name:<28}{count:>8}{bytes:>11.1} µs{words:>11.1} µs{library:>11.1} µs{to_bytes:>10.2}{to_words:>10.2}"
    );
}
