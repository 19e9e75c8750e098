//! The mounted form (request #102): the workload of request #111 beside a plain mounted Rust
//! (`bindings/rust/tests/store/mounted_plain.rs`, its blank test by words), and mounted calls of the
//! library beside its unmounted ones.
//!
//! The plain one is called as a library is: its functions are not drawn into the loop, where N and B
//! would be constants and the checks of all calls be made once.

use crate::by_words::mounted_plain as plain;
use crate::by_words::reference::{format, Geometry, ReadReply, Reply, DONE, UNLIMITED};
use crate::prng::Rng;
use crate::{median, reference, timed, typed, written, CONTENTS};
use qanbillox::{Answer, Block, Mounted, PLACES};
use std::hint::black_box;
use std::time::Duration;

/// How many puts there are, and as many reads.
const CALLS: usize = 100_000;
/// Of so many blocks.
const BLOCKS: usize = 3_000;

/// The puts of a run: the block of each, and the byte that its contents repeat is its place.
struct Workload {
    name: &'static str,
    blocks: Vec<u16>,
}

/// Two rows of puts and reads with a mount between, for the blocks in turn and in any order.
pub fn rows(runs: usize) {
    let g = Geometry { n: 16, b: 255 };
    let mut rng = Rng::new(111);
    let in_turn = (0..CALLS).map(|i| (i % BLOCKS) as u16 + 1).collect();
    let any_order = (0..CALLS).map(|_| rng.between(1, BLOCKS) as u16).collect();
    println!(
        "  {:<28}{:>8}{:>14}{:>14}{:>10}",
        "mounted, N=16, B=255", "calls", "plain Rust", "library", "ratio"
    );
    for (name, blocks) in [("in turn", in_turn), ("in any order", any_order)] {
        workload(g, &Workload { name, blocks }, runs);
    }
}

fn workload(g: Geometry, work: &Workload, runs: usize) {
    compare(g, work);
    let mut sides = [Side::new(g), Side::new(g)];
    for run in 0..runs {
        for side in [run % 2, (run + 1) % 2] {
            match side {
                0 => sides[0].run_plain(g, work),
                _ => sides[1].run_library(g, work),
            }
        }
        let [plain, library] = &sides;
        assert!(plain.steps == library.steps && plain.places == library.places);
        assert!(plain.image == library.image, "the images differ");
        assert!(plain.table == library.table, "the tables differ");
    }
    let [plain, library] = sides.map(|side| side.times.map(median));
    let name = work.name;
    for (row, name, calls) in [
        (0, format!("puts, blocks {name}"), CALLS),
        (1, "mount of the final image".to_string(), 1),
        (2, format!("reads, blocks {name}"), CALLS),
    ] {
        let [plain, library] = [plain, library].map(|times| times[row] * 1e6);
        let ratio = library / plain;
        println!("  {name:<28}{calls:>8}{plain:>11.1} µs{library:>11.1} µs{ratio:>10.2}");
    }
}

/// What each put holds, by the lowest byte of its place.
fn contents() -> Vec<[u8; 100]> {
    (0..=255).map(|byte| [byte; 100]).collect()
}

/// A fresh chip, and a table that is not filled yet.
fn fresh(g: Geometry) -> (Vec<u8>, Vec<u32>) {
    let mut image = vec![0; g.n * g.segment_len()];
    assert_eq!(format(&mut image, g, UNLIMITED).code, DONE);
    (image, vec![u32::MAX; PLACES])
}

/// The workload once, call by call: each answer and count of steps, the images and tables at the end,
/// and the contents of each read.
fn compare(g: Geometry, work: &Workload) {
    let contents = contents();
    let (mut image, mut table) = fresh(g);
    let (mut other, mut places) = fresh(g);
    assert_eq!(plain::mount(&image, g, &mut table), DONE);
    let mut store = mounted(g, &mut other, &mut places);
    let mut last = vec![0; BLOCKS + 1];
    for (i, &block) in work.blocks.iter().enumerate() {
        let contents = &contents[i % 256];
        let reply = plain::put(&mut image, g, &mut table, block, contents, UNLIMITED);
        let outcome = store.put(Block(block), contents, UNLIMITED);
        assert_eq!((outcome.answer, reply.code), (Answer::Done, DONE));
        assert_eq!(outcome.steps, reply.steps, "put {i}");
        last[usize::from(block)] = i % 256;
    }
    assert!(store.image() == image, "the images differ");
    for &block in &work.blocks {
        let reply = plain::read(&image, g, &table, block);
        let read = store.read(Block(block));
        assert_eq!((read.answer, reply.code), (Answer::Done, DONE));
        assert_eq!(
            (read.offset, read.contents.len()),
            (reply.offset, reply.length)
        );
        assert_eq!(read.contents, contents[last[usize::from(block)]]);
    }
    let fresh_table = &mut vec![u32::MAX; PLACES];
    assert_eq!(plain::mount(&image, g, fresh_table), DONE);
    assert!(
        places == *fresh_table && places == table,
        "the tables differ"
    );
}

fn mounted<'a>(g: Geometry, image: &'a mut [u8], places: &'a mut [u32]) -> Mounted<'a> {
    let g = reference::Geometry { n: g.n, b: g.b };
    typed(g).mount(image, places).expect("a clean image")
}

type Mount = fn(&[u8], Geometry, &mut [u32]) -> u8;
type Put = fn(&mut [u8], Geometry, &mut [u32], u16, &[u8], u64) -> Reply;
type Read = fn(&[u8], Geometry, &[u32], u16) -> ReadReply;

/// The plain functions, of which the compiler does not know here which they are.
fn plain_calls() -> (Mount, Put, Read) {
    black_box((plain::mount, plain::put, plain::read))
}

/// One side: the times of its puts, its mount and its reads, and what is compared.
struct Side {
    image: Vec<u8>,
    table: Vec<u32>,
    contents: Vec<[u8; 100]>,
    times: [Vec<Duration>; 3],
    /// The sum of the steps of the last run, and that of the places read.
    steps: u64,
    places: usize,
}

impl Side {
    fn new(g: Geometry) -> Side {
        let (image, table) = fresh(g);
        Side {
            image,
            table,
            contents: contents(),
            times: Default::default(),
            steps: 0,
            places: 0,
        }
    }

    fn begin(&mut self, g: Geometry) {
        assert_eq!(format(&mut self.image, g, UNLIMITED).code, DONE);
    }

    fn run_plain(&mut self, g: Geometry, work: &Workload) {
        self.begin(g);
        let (mount, put, read) = plain_calls();
        let g = black_box(g);
        let (image, table) = (black_box(&mut self.image), black_box(&mut self.table));
        assert_eq!(mount(image, g, table), DONE);
        let (steps, time) = timed(|| {
            let mut steps = 0;
            for (i, &block) in work.blocks.iter().enumerate() {
                let contents = &self.contents[i % 256];
                let reply = put(image, g, table, block, contents, UNLIMITED);
                assert_eq!(reply.code, DONE);
                steps += reply.steps;
            }
            steps
        });
        self.steps = steps;
        self.times[0].push(time);

        table.fill(u32::MAX);
        let (code, time) = timed(|| mount(image, g, table));
        assert_eq!(code, DONE);
        self.times[1].push(time);

        let (places, time) = timed(|| {
            let mut places = 0;
            for &block in &work.blocks {
                let reply = read(image, g, table, block);
                assert_eq!(reply.code, DONE);
                places += reply.offset + reply.length;
            }
            places
        });
        self.places = places;
        self.times[2].push(time);
    }

    fn run_library(&mut self, g: Geometry, work: &Workload) {
        self.begin(g);
        let (image, table) = (black_box(&mut self.image), black_box(&mut self.table));
        let mut store = mounted(g, image, table);
        let (steps, time) = timed(|| {
            let mut steps = 0;
            for (i, &block) in work.blocks.iter().enumerate() {
                let outcome = store.put(Block(block), &self.contents[i % 256], UNLIMITED);
                assert_eq!(outcome.answer, Answer::Done);
                steps += outcome.steps;
            }
            steps
        });
        self.steps = steps;
        self.times[0].push(time);

        table.fill(u32::MAX);
        let (store, time) = timed(|| mounted(g, image, table));
        self.times[1].push(time);

        let (places, time) = timed(|| {
            let mut places = 0;
            for &block in &work.blocks {
                let read = store.read(Block(block));
                assert_eq!(read.answer, Answer::Done);
                places += read.offset + read.contents.len();
            }
            places
        });
        self.places = places;
        self.times[2].push(time);
    }
}

// ---------------------------------------------------------------------------------------------
// Mounted beside unmounted
// ---------------------------------------------------------------------------------------------

/// How many calls are timed together: rewrites that find room, and reads.
const TOGETHER: usize = 64;

/// A put with room and a read on chips about half full, the library's alone. The times are those of
/// one call among a few of the kind.
pub fn beside_unmounted(numbers: &[usize], runs: usize) {
    println!(
        "  {:<28}{:>8}{:>14}{:>14}{:>10}",
        "library, about half full", "blocks", "unmounted", "mounted", "faster"
    );
    for &n in numbers {
        let g = reference::Geometry { n, b: 255 };
        // The top is half full too.
        let blocks = g.capacity() / 2 / g.b * g.b + g.b / 2;
        let image = written(g, blocks, blocks, 0);
        let spread: Vec<u16> = (0..TOGETHER)
            .map(|i| (i * (blocks / TOGETHER)) as u16 + 1)
            .collect();
        let times = calls(g, &image, &spread, runs);
        for (name, [unmounted, mounted]) in [("put with room", times[0]), ("read", times[1])] {
            let name = format!("{name}, N={n}, B=255");
            let faster = unmounted / mounted;
            println!("  {name:<28}{blocks:>8}{unmounted:>11.1} µs{mounted:>11.3} µs{faster:>9.0}x");
        }
    }
}

/// The medians in microseconds of a put and of a read, unmounted and mounted.
fn calls(g: reference::Geometry, image: &[u8], blocks: &[u16], runs: usize) -> [[f64; 2]; 2] {
    let chip = typed(g);
    let (mut plain, mut lent) = (image.to_vec(), image.to_vec());
    let mut places = vec![0; PLACES];
    let mut times: [[Vec<Duration>; 2]; 2] = Default::default();
    for _ in 0..runs {
        plain.copy_from_slice(image);
        let buffer = black_box(plain.as_mut_slice());
        let ((), time) = timed(|| {
            for &block in blocks {
                let outcome = chip.put(buffer, Block(block), &CONTENTS, UNLIMITED);
                assert_eq!(outcome.answer, Answer::Done);
            }
        });
        times[0][0].push(time);
        let (_, time) = timed(|| each(blocks, |block| chip.read(buffer, block).offset));
        times[1][0].push(time);

        lent.copy_from_slice(image);
        let mut store = chip.mount(&mut lent, &mut places).expect("a clean image");
        let ((), time) = timed(|| {
            for &block in blocks {
                let outcome = store.put(Block(block), &CONTENTS, UNLIMITED);
                assert_eq!(outcome.answer, Answer::Done);
            }
        });
        times[0][1].push(time);
        let (_, time) = timed(|| each(blocks, |block| store.read(block).offset));
        times[1][1].push(time);
        assert!(store.image() == plain, "the images differ");
    }
    times.map(|row| row.map(|times| median(times) * 1e6 / blocks.len() as f64))
}

/// The sum of what reads tell of each block.
fn each(blocks: &[u16], read: impl Fn(Block) -> usize) -> usize {
    blocks.iter().map(|&block| read(Block(block))).sum()
}
