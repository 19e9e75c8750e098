//! Request #109: settings on boards with the older partition format, of 4 KiB a partition, beside a plain
//! Rust (`bindings/rust/tests/store/settings_plain.rs`, its blank test by words).
//!
//! A request takes well under a microsecond, so that a run is many of them. Both sides are called as a
//! library is, and each has an image of its own, which is written before each run, outside the time taken.

use crate::by_words::reference::{ReadReply, Reply, DONE, UNLIMITED};
use crate::by_words::settings_plain as plain;
use crate::moving::{print_heads, print_row};
use crate::prng::Rng;
use crate::timed;
use qanbillox::Settings;
use std::hint::black_box;
use std::time::Duration;

/// Bytes in a partition, as an erase unit of many chips has.
const SIZE: usize = 4096;

/// Twenty items: flags, numbers, addresses, names and a certificate's worth of bytes.
const LENGTHS: [u8; 20] = [
    1, 1, 1, 2, 2, 4, 4, 4, 4, 6, 8, 8, 16, 16, 32, 32, 64, 64, 128, 255,
];

/// How many requests a run has, but for the first writes of all items.
const REQUESTS: usize = 1_000;

/// The table as it is lent. Identifiers follow no order.
fn layout() -> Vec<u8> {
    let identifier = |i: usize| (37 * i % 255) as u8;
    let pairs = LENGTHS.iter().enumerate();
    pairs
        .flat_map(|(i, &length)| [identifier(i), length])
        .collect()
}

type Read = fn(&[u8], usize, &[u8], u8) -> ReadReply;
type Write = fn(&mut [u8], usize, &[u8], u8, &[u8], u64) -> Reply;

fn library_read(image: &[u8], partitions: usize, layout: &[u8], item: u8) -> ReadReply {
    let board = Settings { partitions, layout };
    match board.read(image, item) {
        Ok(piece) => ReadReply {
            code: DONE,
            offset: piece.as_ptr() as usize - image.as_ptr() as usize,
            length: piece.len(),
        },
        Err(error) => ReadReply {
            code: error.number(),
            offset: 0,
            length: 0,
        },
    }
}

fn library_write(
    image: &mut [u8],
    partitions: usize,
    layout: &[u8],
    item: u8,
    data: &[u8],
    allowance: u64,
) -> Reply {
    let board = Settings { partitions, layout };
    match board.write(image, item, data, allowance) {
        Ok(steps) => Reply { code: DONE, steps },
        Err(error) => Reply {
            code: error.number(),
            steps: 0,
        },
    }
}

/// What is asked for in turn.
type Entries = Vec<(u8, Vec<u8>)>;

/// Each item once, in table order.
fn all_items(layout: &[u8]) -> Entries {
    let pairs = layout.chunks_exact(2);
    pairs
        .map(|pair| (pair[0], vec![0x41; usize::from(pair[1])]))
        .collect()
}

/// Items in any order.
fn any_items(layout: &[u8]) -> Entries {
    let (all, mut rng) = (all_items(layout), Rng::new(109));
    (0..REQUESTS).map(|_| rng.pick(&all)).collect()
}

/// The rows of boards with these numbers of partitions.
pub fn rows(numbers: &[usize], runs: usize) {
    let layout = layout();
    let (all, any) = (all_items(&layout), any_items(&layout));
    print_heads("settings, 20 items, P of 4 KiB", "requests");
    for &partitions in numbers {
        let erased = vec![0xFF; partitions * SIZE];
        let full = full(partitions, &layout, &all);
        let name = |what| format!("P={partitions}, {what}");
        write_row(
            &name("each item first"),
            partitions,
            &layout,
            &erased,
            &all,
            runs,
        );
        write_row(
            &name("rewrites, any item"),
            partitions,
            &layout,
            &full,
            &any,
            runs,
        );
        read_row(
            &name("reads, any item"),
            partitions,
            &layout,
            &full,
            &any,
            runs,
        );
    }
}

/// A board in the middle of its life: every partition has been in use, and the newest is in the middle.
fn full(partitions: usize, layout: &[u8], all: &Entries) -> Vec<u8> {
    let mut image = vec![0xFF; partitions * SIZE];
    for (item, data) in all.iter().cycle().take(all.len() + 3 * partitions / 2) {
        let reply = plain::write(&mut image, partitions, layout, *item, data, UNLIMITED);
        assert_eq!(reply.code, DONE);
    }
    image
}

/// Writes in turn, all of them finished: the sum of their steps.
fn write_all(
    write: Write,
    image: &mut [u8],
    partitions: usize,
    layout: &[u8],
    what: &Entries,
) -> u64 {
    let mut steps = 0;
    for (item, data) in what {
        let reply = write(image, partitions, layout, *item, data, UNLIMITED);
        assert_eq!(reply.code, DONE);
        steps += reply.steps;
    }
    steps
}

fn write_row(
    name: &str,
    partitions: usize,
    layout: &[u8],
    image: &[u8],
    what: &Entries,
    runs: usize,
) {
    // The compiler does not know here which they are.
    let sides: [Write; 2] = black_box([plain::write, library_write]);
    let mut images = [(); 2].map(|()| image.to_vec());
    let mut steps = [0; 2];
    let mut times: [Vec<Duration>; 2] = Default::default();
    for run in 0..runs {
        for side in [run % 2, (run + 1) % 2] {
            images[side].copy_from_slice(image);
            let lent = black_box(&mut images[side][..]);
            let (taken, time) = timed(|| write_all(sides[side], lent, partitions, layout, what));
            steps[side] = taken;
            times[side].push(time);
        }
        assert!(steps[0] == steps[1]);
        assert!(images[0] == images[1], "the images differ");
    }
    print_row(name, what.len() as u64, times);
}

/// Reads in turn: the sum of their places and lengths.
fn read_all(read: Read, image: &[u8], partitions: usize, layout: &[u8], what: &Entries) -> usize {
    let mut sum = 0;
    for (item, _) in what {
        let found = read(image, partitions, layout, *item);
        assert_eq!(found.code, DONE);
        sum += found.offset + found.length;
    }
    sum
}

fn read_row(
    name: &str,
    partitions: usize,
    layout: &[u8],
    image: &[u8],
    what: &Entries,
    runs: usize,
) {
    let sides: [Read; 2] = black_box([plain::read, library_read]);
    let mut sums = [0; 2];
    let mut times: [Vec<Duration>; 2] = Default::default();
    for run in 0..runs {
        for side in [run % 2, (run + 1) % 2] {
            let lent = black_box(image);
            let (sum, time) = timed(|| read_all(sides[side], lent, partitions, layout, what));
            sums[side] = sum;
            times[side].push(time);
        }
        assert!(sums[0] == sums[1], "another place");
    }
    print_row(name, what.len() as u64, times);
}
