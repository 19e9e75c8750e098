//! Request #102: mounted calls that are cut, after every step and with no allowance at all. Each
//! leaves what the cut request without a table leaves, and a table that is not usable; after a
//! recovery the image is mounted again, and calls go on.

use crate::cuts;
use crate::harness::{put_of, Store};
use crate::heads::Heads;
use crate::images::{self, formatted, full_ring, rewrite_in_turn, with_statuses};
use crate::mounted_harness::Board;
use crate::mounted_reference::PLACES;
use crate::mounted_runs::view_of;
use crate::prng::Rng;
use crate::reference::*;

/// While the table is not usable each call answers 5, unless its arguments are wrong, and changes
/// nothing: the harness compares.
fn is_refused(store: &Store, board: &mut Board) {
    for (request, code) in [
        (put_of(1, b"new"), UNFINISHED),
        (put_of(60_000, b"new"), UNFINISHED),
        (Request::Delete { block: 1 }, UNFINISHED),
        (put_of(0, b"new"), NUMBER),
        (put_of(1, b""), LENGTH),
        (Request::Delete { block: 65_535 }, NUMBER),
    ] {
        for allowance in [0, UNLIMITED] {
            let reply = board.perform(store, &request, allowance);
            assert_eq!(reply, Reply { code, steps: 0 });
        }
    }
    assert_eq!(board.read(store, 1).code, UNFINISHED);
    assert_eq!(board.read(store, 0).code, NUMBER);
}

/// Cuts a call after so many steps; then come the recovery, a mount, and more calls.
fn cut_at(store: &Store, rng: &mut Rng, board: &Board, request: &Request, allowance: u64) {
    let mut board = board.clone();
    let (_, list) = steps_of(&board.image, board.g, request);
    let reply = board.perform(store, request, allowance);
    assert_eq!((reply.code, reply.steps), (CUT, allowance));
    assert_eq!(board.table[0], 0);
    is_refused(store, &mut board);
    let state = state_of(&board.image, board.g);
    // The image alone says whether anything is left to recover; a cut may fall inside a step too.
    if rng.once_in(2) {
        let mut inside = board.image.clone();
        cuts::inside(rng, board.g, &mut inside, list[allowance as usize]);
        board.write_image(&inside);
    } else {
        let code = match state {
            State::Clean(_) => DONE,
            State::Unfinished(_) => UNFINISHED,
            State::Damaged => panic!("a cut damages nothing"),
        };
        assert_eq!(board.mount(store), code);
    }
    board.recover(store);
    let again = board.perform(store, request, UNLIMITED);
    assert!([DONE, ABSENT].contains(&again.code));
    let (Request::Put { block, .. } | Request::Delete { block }) = *request else {
        return;
    };
    board.read(store, block);
    for request in [Request::Delete { block }, put_of(block, b"after")] {
        board.perform(store, &request, UNLIMITED);
        board.read(store, block);
    }
}

/// A call that is cut after every step, or after so many of them at most.
fn cut_everywhere(store: &Store, rng: &mut Rng, board: &Board, request: &Request, most: usize) {
    let (code, list) = steps_of(&board.image, board.g, request);
    assert_eq!(code, DONE, "{request:?}");
    let steps = list.len();
    for allowance in 0..steps {
        let near = allowance < most / 4 || steps - allowance <= most / 4;
        if steps <= most || near || rng.below(steps) < most / 2 {
            cut_at(store, rng, board, request, allowance as u64);
        }
    }
    let mut whole = board.clone();
    let reply = whole.perform(store, request, steps as u64);
    assert_eq!((reply.code, reply.steps), (DONE, steps as u64));
}

/// A new block, a rewrite and a delete, with room, with a segment to be opened, and with one or more
/// compactions first.
#[test]
fn after_every_step() {
    let store = Store::new("mounted calls cut after every step");
    let mut rng = Rng::new(0x1025);
    for (n, b) in [(2, 2), (3, 2), (4, 3)] {
        let g = Geometry { n, b };
        let mut board = Board::new(&store, g, formatted(g));
        // Twice round the ring.
        for i in 0..4 * n * b {
            let block = (i % g.capacity()) as u16 + 1;
            let request = put_of(block, b"turn");
            if i % (b + 1) == 0 || (i % b == 0 && i < 2 * n * b) {
                cut_everywhere(&store, &mut rng, &board, &request, 60);
            }
            board.done(&store, &request);
            if i % 5 == 0 {
                let delete = Request::Delete { block };
                cut_everywhere(&store, &mut rng, &board, &delete, 60);
            }
        }
        // The only dead slot is the top's last: every segment is compacted.
        let packed = with_statuses(g, (4, n - 1), b"x", |place, slot| {
            if (place, slot) == (n - 1, b) {
                DEAD
            } else {
                LIVE
            }
        });
        let board = Board::new(&store, g, packed);
        for block in [1, g.capacity() as u16] {
            cut_everywhere(&store, &mut rng, &board, &put_of(block, b"c"), 200);
        }
    }
}

/// The end of a run on larger chips: the put that compacts, of a block that is moved.
#[test]
fn compactions_of_larger_chips() {
    let store = Store::new("mounted compactions cut");
    let mut rng = Rng::new(0x1026);
    for (n, b, most) in [(4, 15, 120), (16, 255, 24), (255, 2, 80), (2, 255, 24)] {
        let g = Geometry { n, b };
        let mut board = Board::new(&store, g, full_ring(g, 3 * n as u32 + 1));
        if n > 2 {
            for _ in 0..3 {
                let request = rewrite_in_turn(&board.image, g);
                board.done(&store, &request);
            }
        }
        let view = view_of(&board);
        let oldest = g.index(view.oldest);
        let mut slots = (1..=g.b).map(|slot| g.page(oldest, slot));
        let at = slots.find(|&at| board.image[at] == LIVE).expect("live");
        let block = u16::from_le_bytes([board.image[at + 2], board.image[at + 3]]);
        cut_everywhere(&store, &mut rng, &board, &put_of(block, b"moved"), most);
    }
}

/// Lives with cuts anywhere: each is followed by a recovery and a mount.
#[test]
fn lives() {
    let store = Store::new("mounted lives with cuts");
    let mut rng = Rng::new(0x1027);
    for (n, b, calls) in [(2, 2, 250), (3, 2, 250), (4, 15, 200), (255, 2, 60)] {
        let g = Geometry { n, b };
        let mut shape = images::shape(&mut rng, g);
        shape.oldest %= 1_000;
        shape.heads = Heads::Fresh;
        let image = images::clean(&mut rng, g, shape);
        let mut board = Board::new(&store, g, image);
        for _ in 0..calls {
            let found = images::some_block(&mut rng, g, &board.image);
            let any = rng.between(1, 2 * g.capacity()) as u16;
            let block = rng.pick(&[found, any]);
            let request = match rng.below(5) {
                0 => Request::Delete { block },
                _ => put_of(block, &images::put_contents(&mut rng)),
            };
            let (_, list) = steps_of(&board.image, g, &request);
            let allowance = rng.between(0, list.len() + list.len() / 2) as u64;
            let reply = board.perform(&store, &request, allowance);
            if reply.code == CUT {
                is_refused(&store, &mut board);
                board.recover(&store);
            }
            board.read(&store, block);
        }
    }
}

/// Allowance 0: a call that would be done answers 9, and the table is not usable although the image
/// is as it was. A call that is refused leaves the table.
#[test]
fn no_allowance() {
    let store = Store::new("mounted calls without allowance");
    for (n, b) in [(2, 2), (4, 15), (255, 2)] {
        let g = Geometry { n, b };
        let board = Board::new(&store, g, full_ring(g, 3 * n as u32));
        let before = board.image.clone();
        let block = *board.stored().keys().next().expect("a block");
        for (request, code) in [
            (put_of(block, b"y"), CUT),
            (Request::Delete { block }, CUT),
            (put_of(60_000, b"n"), FULL),
            (Request::Delete { block: 60_000 }, ABSENT),
            (put_of(0, b"n"), NUMBER),
            (put_of(block, &[0; 249]), LENGTH),
        ] {
            let mut board = board.clone();
            let reply = board.perform(&store, &request, 0);
            assert_eq!(reply, Reply { code, steps: 0 });
            assert!(board.image == before);
            assert_eq!(board.table[0], u32::from(code != CUT));
            if code == CUT {
                is_refused(&store, &mut board);
                assert_eq!(board.mount(&store), DONE);
            }
            assert_eq!(board.read(&store, block).code, DONE);
            board.done(&store, &put_of(block, b"z"));
        }
    }
}

/// A cut leaves the entries past the last as they were, in a table of any length.
#[test]
fn longer_tables() {
    let store = Store::new("mounted calls cut with longer tables");
    let g = Geometry { n: 3, b: 2 };
    for length in [PLACES, PLACES + 1, 70_000] {
        let table = crate::mounted_harness::any_table(length);
        let mut board = Board::unmounted(g, formatted(g), table.clone());
        assert_eq!(board.mount(&store), DONE);
        board.done(&store, &put_of(7, b"x"));
        assert_eq!(board.perform(&store, &put_of(7, b"y"), 3).code, CUT);
        assert!(board.table[PLACES..] == table[PLACES..]);
        board.recover(&store);
        assert!(board.table[PLACES..] == table[PLACES..]);
        board.done(&store, &put_of(7, b"y"));
    }
}
