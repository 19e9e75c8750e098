//! Request #102: long runs of mounted calls, in step. After each call the answer, the steps and the
//! image are those of the request without a table, and the table is that of a fresh mount.

use crate::harness::{put_of, Store};
use crate::heads::Heads;
use crate::images::{self, formatted, with_statuses};
use crate::mounted_harness::Board;
use crate::mounted_reference::PLACES;
use crate::prng::Rng;
use crate::reference::*;
use crate::sequences::{choose, HABITS};
use std::collections::BTreeMap;
use std::io::Write;

/// How often what came up.
#[derive(Default, Debug)]
struct Seen {
    answers: BTreeMap<u8, usize>,
    openings: usize,
    /// Puts with one compaction, and with several.
    compacting: usize,
    compacting_on: usize,
    /// Rewrites of a block that was moved first.
    moved: usize,
}

impl Seen {
    /// Counts what a call did: the image and the block's entry before it, its reply, the image after.
    fn count(&mut self, g: Geometry, before: (View, u32), reply: Reply, after: View) {
        *self.answers.entry(reply.code).or_default() += 1;
        let (view, entry) = before;
        let compacted = (after.oldest - view.oldest) as usize;
        self.openings += usize::from(after.used > view.used);
        self.compacting += usize::from(compacted == 1);
        self.compacting_on += usize::from(compacted > 1);
        let index = entry as usize / g.segment_len();
        let mut gone = view.oldest..after.oldest;
        self.moved += usize::from(entry != 0 && gone.any(|number| g.index(number) == index));
    }

    fn tell(&self, test: &str) {
        let _ = writeln!(std::io::stderr(), "{test}: {self:?}");
    }
}

pub fn view_of(board: &Board) -> View {
    match state_of(&board.image, board.g) {
        State::Clean(view) => view,
        state => panic!("a clean image and not {state:?}"),
    }
}

/// A call, and then reads: of its block, of any, and of one that there cannot be.
fn call(store: &Store, rng: &mut Rng, board: &mut Board, request: &Request, seen: &mut Seen) {
    let (Request::Put { block, .. } | Request::Delete { block }) = request else {
        return;
    };
    let before = (view_of(board), board.table[usize::from(*block)]);
    // At times the allowance is just what is needed, or little more.
    let allowance = if rng.once_in(4) {
        let (_, list) = steps_of(&board.image, board.g, request);
        (list.len() + rng.below(2)) as u64
    } else {
        UNLIMITED
    };
    let reply = board.perform(store, request, allowance);
    seen.count(board.g, before, reply, view_of(board));
    let any = rng.between(1, board.g.capacity() + 2) as u16;
    let never = rng.pick(&[0, 65_534, 65_535]);
    for block in [*block, any, never] {
        board.read(store, block);
    }
}

/// A request on a board of any age, most of them puts.
fn any_request(rng: &mut Rng, board: &Board) -> Request {
    let found = images::some_block(rng, board.g, &board.image);
    let any = rng.between(1, 65_534) as u16;
    let block = match rng.below(16) {
        0 => rng.pick(&[0, 65_535]),
        1 => rng.pick(&[1, 65_534]),
        2..=5 => any,
        _ => found,
    };
    match rng.below(6) {
        0 => Request::Delete { block },
        1 if rng.once_in(8) => put_of(block, &rng.bytes(249)),
        _ => put_of(block, &images::put_contents(rng)),
    }
}

#[test]
fn from_a_format() {
    let store = Store::new("mounted calls from a format");
    let mut rng = Rng::new(0x1021);
    let mut seen = Seen::default();
    for (n, b, calls) in [
        (2, 2, 500),
        (2, 3, 300),
        (3, 2, 500),
        (4, 3, 400),
        (4, 15, 500),
        (9, 2, 200),
    ] {
        let g = Geometry { n, b };
        for habit in HABITS {
            let mut board = Board::new(&store, g, formatted(g));
            for i in 0..calls {
                let stored = board.stored();
                let request = choose(&mut rng, habit, g, i, &stored);
                call(&store, &mut rng, &mut board, &request, &mut seen);
            }
        }
    }
    seen.tell("mounted calls from a format");
    let refusals = [NUMBER, LENGTH, ABSENT, FULL];
    assert!(refusals.iter().all(|code| seen.answers[code] > 50));
    assert!(seen.openings > 20 && seen.compacting > 500);
    assert!(seen.compacting_on > 100 && seen.moved > 100);
}

/// Runs from clean images of any fill, age and version, worn ones among them.
#[test]
fn from_any_clean_image() {
    let store = Store::new("mounted calls from any clean image");
    let mut rng = Rng::new(0x1022);
    let mut seen = Seen::default();
    for (n, b, boards, calls) in [
        (2, 2, 60, 12),
        (3, 2, 60, 12),
        (5, 4, 40, 20),
        (4, 15, 40, 20),
        (2, 255, 4, 20),
        (64, 2, 6, 30),
        (255, 2, 6, 30),
        (16, 255, 3, 25),
    ] {
        let g = Geometry { n, b };
        for _ in 0..boards {
            let shape = images::shape(&mut rng, g);
            let image = images::clean(&mut rng, g, shape);
            let mut board = Board::new(&store, g, image);
            for _ in 0..calls {
                let request = any_request(&mut rng, &board);
                call(&store, &mut rng, &mut board, &request, &mut seen);
            }
        }
    }
    seen.tell("mounted calls from any clean image");
    let refusals = [NUMBER, LENGTH, ABSENT, FULL, WORN, FORMER_VERSION];
    assert!(refusals.iter().all(|code| seen.answers[code] > 20));
    assert!(seen.openings > 10 && seen.compacting > 100);
    assert!(seen.compacting_on > 20 && seen.moved > 50);
}

/// Chips that are nearly full, so that every few puts compact.
#[test]
fn nearly_full() {
    let store = Store::new("mounted calls on chips nearly full");
    let mut rng = Rng::new(0x1023);
    let mut seen = Seen::default();
    for (n, b, dead, calls) in [
        (4, 15, 1, 300),
        (16, 255, 1, 150),
        (16, 255, 0, 60),
        (255, 2, 1, 300),
        (255, 2, 4, 300),
        (255, 255, 0, 8),
    ] {
        let g = Geometry { n, b };
        let shape = images::Shape {
            oldest: rng.below(3 * n) as u32,
            used: n - 1,
            filled: b - rng.below(3),
            dead,
            heads: Heads::Early,
        };
        let image = images::clean(&mut rng, g, shape);
        let mut board = Board::new(&store, g, image);
        for _ in 0..calls {
            let request = any_request(&mut rng, &board);
            call(&store, &mut rng, &mut board, &request, &mut seen);
        }
    }
    seen.tell("mounted calls on chips nearly full");
    assert!(seen.compacting > 50 && seen.compacting_on > 5 && seen.moved > 10);
}

/// A full ring with one dead slot anywhere, and a rewrite of each block: as many compactions as the
/// dead slot asks for, and the block before them, among them, or behind.
#[test]
fn every_block_with_every_dead_slot() {
    let store = Store::new("mounted rewrites with one dead slot");
    for (n, b, oldest) in [(2, 3, 5), (3, 2, 0), (4, 3, 6), (5, 2, 3)] {
        let g = Geometry { n, b };
        for dead in 0..(n - 1) * b {
            let image = with_statuses(g, (oldest, n - 1), b"x", |place, slot| {
                if (place - 1) * b + slot - 1 == dead {
                    DEAD
                } else {
                    LIVE
                }
            });
            let board = Board::new(&store, g, image);
            assert_eq!(board.stored().len(), g.capacity());
            let blocks: Vec<u16> = board.stored().into_keys().collect();
            for &block in &blocks {
                let mut board = board.clone();
                let compactions = dead / b + 1;
                let copies = compactions * b - 1;
                let steps = compactions * 24 + copies * 6 + 6 + 1;
                assert_eq!(board.done(&store, &put_of(block, b"y")), steps as u64);
                // The next one has the dead slot of this one.
                board.done(&store, &put_of(blocks[0], b"z"));
                board.done(&store, &Request::Delete { block });
                let new = board.perform(&store, &put_of(60_000, b"n"), UNLIMITED);
                assert_eq!(new.code, DONE);
                let full = board.perform(&store, &put_of(60_001, b"n"), UNLIMITED);
                assert_eq!(full.code, FULL);
            }
        }
    }
}

/// Boards of version 1: 11 to each put, and the table is kept by deletes.
#[test]
fn version_one() {
    let store = Store::new("mounted calls on version 1");
    let mut rng = Rng::new(0x1024);
    for (n, b, boards) in [(2, 2, 12), (3, 2, 12), (4, 15, 8), (255, 2, 2)] {
        let g = Geometry { n, b };
        for _ in 0..boards {
            let mut shape = images::shape(&mut rng, g);
            shape.heads = Heads::Former;
            let image = images::clean(&mut rng, g, shape);
            let mut board = Board::new(&store, g, image);
            for block in board.stored().into_keys().take(20) {
                for (block, allowance) in [(block, UNLIMITED), (60_000, 0)] {
                    let reply = board.perform(&store, &put_of(block, b"new"), allowance);
                    let code = FORMER_VERSION;
                    assert_eq!(reply, Reply { code, steps: 0 });
                }
                assert_eq!(board.read(&store, block).code, DONE);
                assert_eq!(board.done(&store, &Request::Delete { block }), 1);
                assert_eq!(board.read(&store, block).code, ABSENT);
            }
        }
    }
}

/// Every block number, and a table with entries past the last.
#[test]
fn every_block_number() {
    let store = Store::new("mounted calls with every block number");
    let g = Geometry { n: 2, b: 6 };
    let mut board = Board::new(&store, g, formatted(g));
    let past = board.table[PLACES..].to_vec();
    assert_eq!(board.table[65_535], 0);
    let blocks = [1, 255, 256, 65_534];
    for block in blocks {
        board.done(&store, &put_of(block, b"x"));
        assert_eq!(board.table[0], 1);
    }
    for block in 0..=u16::MAX {
        let code = match block {
            0 | 0xFFFF => NUMBER,
            _ if blocks.contains(&block) => DONE,
            _ => ABSENT,
        };
        assert_eq!(board.read(&store, block).code, code);
    }
    for block in [0, 2, 254, 257, 32_768, 65_533, 65_535] {
        let reply = board.perform(&store, &Request::Delete { block }, UNLIMITED);
        assert!([NUMBER, ABSENT].contains(&reply.code));
    }
    for block in blocks {
        board.done(&store, &Request::Delete { block });
    }
    assert!(board.table[PLACES..] == past);
}
