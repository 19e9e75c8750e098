//! Request #104: boards of version 1, made by the former rules, in every state. They are read,
//! deleted from and recovered as before, through cuts of the recovery too, are not put to, and a
//! format makes them version 2.

use crate::conditions::by_the_reference;
use crate::cuts;
use crate::harness::{put_of, Store};
use crate::heads::{set_version, Heads};
use crate::images::{self, blank, formatted, full_ring};
use crate::power_cuts::recovered;
use crate::prng::Rng;
use crate::reference::*;
use crate::sequences::{table_of, Table};
use crate::step_lists::every_allowance;
use std::collections::BTreeMap;
use std::io::Write;

/// A request to the store as it was, which only wrote version 1.
fn former(image: &mut [u8], g: Geometry, request: &Request, allowance: u64) -> Reply {
    perform_by(Rules::Former, image, g, request, allowance)
}

fn former_done(image: &mut [u8], g: Geometry, request: &Request) {
    assert_eq!(former(image, g, request, UNLIMITED).code, DONE);
}

fn fresh(g: Geometry) -> Vec<u8> {
    let mut image = blank(g);
    former_done(&mut image, g, &Request::Format);
    image
}

/// A ring at its capacity, its top at this number.
fn former_ring(g: Geometry, top: u32) -> Vec<u8> {
    let mut image = full_ring(g, top);
    for number in top + 2 - g.n as u32..=top {
        set_version(&mut image, g, number, Version::One);
    }
    image
}

/// Clean boards: fresh, with a block, a segment full, at the capacity with room for one slot and
/// with none, twice round the ring, with dead slots only, and worn.
fn clean_boards(g: Geometry) -> Vec<Vec<u8>> {
    let mut boards = vec![fresh(g)];
    let mut image = fresh(g);
    for block in 1..=g.capacity() as u16 {
        former_done(&mut image, g, &put_of(block, b"x"));
        if [1, g.b, g.capacity()].contains(&usize::from(block)) {
            boards.push(image.clone());
        }
    }
    former_done(&mut image, g, &put_of(1, b"y"));
    boards.push(image.clone());
    for i in 0..2 * g.n * g.b {
        former_done(&mut image, g, &put_of((i % g.capacity()) as u16 + 1, b"z"));
    }
    boards.push(image.clone());
    for block in 1..=g.capacity() as u16 {
        former_done(&mut image, g, &Request::Delete { block });
    }
    boards.push(image);
    boards.push(former_ring(g, g.wear_limit() - 1));
    boards
}

/// A board after a put that was cut: after so many steps, and inside the next.
fn cut_boards(rng: &mut Rng, g: Geometry, board: &[u8], request: &Request) -> Vec<Vec<u8>> {
    let (_, list) = steps_by(Rules::Former, board, g, request);
    let mut boards = Vec::new();
    for (done, step) in list.iter().enumerate() {
        let mut cut = board.to_vec();
        former(&mut cut, g, request, done as u64);
        let ways = match step {
            Step::Program { .. } => 1,
            Step::Erase { .. } => 6,
        };
        for _ in 0..ways {
            let mut inside = cut.clone();
            cuts::inside(rng, g, &mut inside, *step);
            boards.push(inside);
        }
        boards.push(cut);
    }
    boards
}

/// A put has one answer, whatever its block and allowance; arguments that are wrong come before it.
fn puts_are_refused(store: &Store, image: &[u8], g: Geometry, code: u8) {
    for allowance in [0, 1, 20, UNLIMITED] {
        for (block, contents, code) in [
            (1, &b"new"[..], code),
            (2, b"n", code),
            (60_000, b"new", code),
            (0, b"new", NUMBER),
            (1, b"", LENGTH),
            (1, &[0; 249], LENGTH),
        ] {
            let request = put_of(block, contents);
            let reply = store.perform(&mut image.to_vec(), g, &request, allowance);
            assert_eq!(reply, Reply { code, steps: 0 });
        }
    }
    let request = put_of(1, b"new");
    let reply = store.perform(&mut image[1..].to_vec(), g, &request, UNLIMITED);
    assert_eq!(reply.code, SIZE);
}

/// How many steps the recovery of a version 1 image takes.
fn recovery_steps(image: &[u8], g: Geometry) -> usize {
    match state_of(image, g) {
        State::Clean(_) => 0,
        State::Unfinished(Unfinished::B { top }) => {
            let after = &image[g.page(g.index(top.number + 1), 0)..][..g.segment_len()];
            1 + usize::from(after.iter().any(|&byte| byte != 0xFF))
        }
        _ => 1,
    }
}

/// Every request on a board that is clean or unfinished, under every allowance. Gives the table that
/// its recovery shows; the recovery is cut too, after every step and inside the erase, up to twice.
fn try_board(store: &Store, rng: &mut Rng, image: &[u8], g: Geometry) -> Table {
    let clean = matches!(state_of(image, g), State::Clean(_));
    puts_are_refused(
        store,
        image,
        g,
        if clean { FORMER_VERSION } else { UNFINISHED },
    );
    for block in [1, 2, 60_000] {
        every_allowance(store, image, g, &Request::Delete { block });
        store.read(image, g, block);
    }
    every_allowance(store, image, g, &Request::Recover);
    let table = recovered(store, rng, g, image, 2);
    let mut whole = image.to_vec();
    let steps = store.done(&mut whole, g, &Request::Recover);
    assert_eq!(steps, recovery_steps(image, g) as u64);
    // It was recovered by the old rules: nothing is counted, and the bytes are the former store's.
    for index in 0..g.n {
        let header = &whole[g.page(index, 0)..][..PAGE];
        assert!(header[17..].iter().all(|&byte| byte == 0xFF));
    }
    let mut by_former = image.to_vec();
    former_done(&mut by_former, g, &Request::Recover);
    assert!(whole == by_former);
    puts_are_refused(store, &whole, g, FORMER_VERSION);

    store.done(&mut whole, g, &Request::Format);
    assert!(whole == formatted(g));
    table
}

/// A put of the former store, cut after every step and inside it, and each board that it leaves:
/// it shows the table of before the put or of after it. Counts the boards by their states.
fn try_cuts_of_put(
    store: &Store,
    rng: &mut Rng,
    g: Geometry,
    board: &[u8],
    request: &Request,
    seen: &mut BTreeMap<char, usize>,
) {
    let old = table_of(board, g).expect("clean");
    let mut after = board.to_vec();
    former(&mut after, g, request, UNLIMITED);
    let new = table_of(&after, g).expect("clean");
    for cut in cut_boards(rng, g, board, request) {
        *seen.entry(by_the_reference(&cut, g)).or_default() += 1;
        let shown = try_board(store, rng, &cut, g);
        assert!(shown == old || shown == new);
    }
}

#[test]
fn every_state() {
    let store = Store::new("version 1 in every state");
    let mut rng = Rng::new(0x1041);
    let mut seen = BTreeMap::new();
    for (n, b) in [(2, 2), (2, 3), (3, 2), (4, 3)] {
        let g = Geometry { n, b };
        for board in clean_boards(g) {
            try_board(&store, &mut rng, &board, g);
            every_allowance(&store, &board, g, &Request::Format);
            for block in [1, 60_000] {
                let request = put_of(block, b"c");
                try_cuts_of_put(&store, &mut rng, g, &board, &request, &mut seen);
            }
        }
    }
    let _ = writeln!(std::io::stderr(), "version 1 in every state: {seen:?}");
    assert!("-abcd".chars().all(|state| seen[&state] > 15) && seen.len() == 5);
}

/// The former store's answers 7 and 8 on such boards: today they are all 11.
#[test]
fn full_and_worn() {
    let store = Store::new("version 1, full and worn");
    for (n, b) in [(2, 2), (3, 2), (4, 15), (64, 2), (255, 2)] {
        let g = Geometry { n, b };
        for (top, block, code) in [
            (3 * n as u32, 60_000, FULL),
            (g.wear_limit() - 1, 60_000, FULL),
            (g.wear_limit() - 1, 2, WORN),
            (g.wear_limit() - 2, 2, DONE),
        ] {
            let image = former_ring(g, top);
            let request = put_of(block, b"y");
            assert_eq!(
                former(&mut image.clone(), g, &request, UNLIMITED).code,
                code
            );
            puts_are_refused(&store, &image, g, FORMER_VERSION);
        }
    }
}

/// The same on boards of any age and fill, most of them so full that the put compacts.
#[test]
fn every_state_at_any_age() {
    let store = Store::new("version 1 in every state at any age");
    let mut rng = Rng::new(0x1042);
    let mut seen = BTreeMap::new();
    for (n, b, boards) in [(2, 2, 20), (3, 3, 12), (4, 15, 2), (9, 2, 6), (255, 2, 1)] {
        let g = Geometry { n, b };
        for i in 0..boards {
            let mut shape = images::shape(&mut rng, g);
            shape.heads = Heads::Former;
            if i % 4 < 3 {
                shape.oldest %= 50_000;
                shape.used = g.n - 1;
                shape.filled = g.b;
            }
            let board = images::clean(&mut rng, g, shape);
            let block = images::some_block(&mut rng, g, &board);
            every_allowance(&store, &board, g, &Request::Delete { block });
            let request = put_of(block, b"c");
            try_cuts_of_put(&store, &mut rng, g, &board, &request, &mut seen);
        }
    }
    let _ = writeln!(
        std::io::stderr(),
        "version 1 in every state at any age: {seen:?}"
    );
    assert!("-abcd".chars().all(|state| seen[&state] > 15) && seen.len() == 5);
}

/// The former store puts, today's deletes and recovers, with cuts anywhere: the table is that of
/// the acknowledged requests.
#[test]
fn a_life_under_both_stores() {
    let store = Store::new("version 1, a life under both stores");
    let mut rng = Rng::new(0x1043);
    for (n, b, requests) in [
        (2, 2, 3_000),
        (3, 2, 3_000),
        (4, 15, 1_500),
        (5, 4, 2_000),
        (65, 2, 400),
    ] {
        let g = Geometry { n, b };
        let mut image = fresh(g);
        for _ in 0..requests {
            let old = table_of(&image, g).expect("clean");
            let block = rng.between(1, g.capacity() + 1) as u16;
            let request = match rng.below(5) {
                0 => Request::Delete { block },
                _ => put_of(block, &images::contents(&mut rng)),
            };
            let (code, list) = steps_by(Rules::Former, &image, g, &request);
            let mut new = image.clone();
            former(&mut new, g, &request, UNLIMITED);
            let new = table_of(&new, g).expect("clean");

            let allowance = rng.between(0, list.len());
            let reply = match request {
                Request::Put { .. } => former(&mut image, g, &request, allowance as u64),
                _ => store.perform(&mut image, g, &request, allowance as u64),
            };
            assert_eq!(reply.code, if allowance < list.len() { CUT } else { code });
            if reply.code == CUT && rng.once_in(2) {
                cuts::inside(&mut rng, g, &mut image, list[allowance]);
            }
            a_put_is_refused(&store, &image, g);
            store.done(&mut image, g, &Request::Recover);
            let shown = table_of(&image, g).expect("a finished recovery is clean");
            assert!(shown == new || (reply.code == CUT && shown == old));
            store.read(&image, g, block);
        }
    }
}

/// A put today: 11 on a clean image, 5 on one that is unfinished.
fn a_put_is_refused(store: &Store, image: &[u8], g: Geometry) {
    let clean = matches!(state_of(image, g), State::Clean(_));
    let reply = store.perform(&mut image.to_vec(), g, &put_of(1, b"new"), UNLIMITED);
    assert_eq!(reply.code, if clean { FORMER_VERSION } else { UNFINISHED });
}
