//! Request #110 with power cuts: a tenant's put or delete cut between steps or inside one. Until a
//! recovery all tenants get 5; after it the block is as before or as asked for, and every other
//! tenant's blocks are as they were. Then the run goes on, and shares are still guaranteed.

use crate::cuts;
use crate::harness::Store;
use crate::images::formatted;
use crate::prng::Rng;
use crate::reference::*;
use crate::shares_harness::{ask, numbers, put_of, read_of, share};
use crate::shares_reference::{Asked, Share};
use std::collections::BTreeMap;

const G: Geometry = Geometry { n: 3, b: 4 };

fn shares() -> [Share; 3] {
    [share(1, 4, 2), share(5, 9, 3), share(20, 30, 2)]
}

type Table = BTreeMap<u16, Vec<u8>>;

/// All that the tenants can read.
fn shown(store: &Store, image: &mut [u8], list: &[u32]) -> Table {
    let mut table = Table::new();
    for (i, own) in shares().iter().enumerate() {
        for block in own.first as u16..=own.last as u16 {
            let told = ask(store, image, G, list, i as u32 + 1, &read_of(block, 248));
            if told.code == DONE {
                table.insert(block, told.buffer[..told.length].to_vec());
            } else {
                assert_eq!(told.code, ABSENT);
            }
        }
    }
    table
}

/// The store's steps of what a tenant asks for, some of them done and perhaps one begun; those of
/// a request that is refused are none.
fn cut(rng: &mut Rng, image: &mut [u8], list: &[u32], tenant: u32, asked: &Asked) -> bool {
    let mut copy = image.to_vec();
    if crate::shares_reference::ask(&mut copy, G, list, tenant, asked).code != DONE {
        return false;
    }
    let request = match asked {
        Asked::Put { block, contents } => Request::Put {
            block: *block,
            contents: contents.clone(),
        },
        Asked::Delete { block } => Request::Delete { block: *block },
        Asked::Read { .. } => return false,
    };
    let (_, steps) = steps_of(image, G, &request);
    let done = rng.below(steps.len());
    for step in &steps[..done] {
        step.apply(G, image);
    }
    if rng.once_in(2) {
        cuts::inside(rng, G, image, steps[done]);
    }
    true
}

/// A recovery, cut some times on the way.
fn recover(store: &Store, rng: &mut Rng, image: &mut [u8]) {
    while rng.once_in(3) {
        store.perform(image, G, &Request::Recover, rng.below(3) as u64);
    }
    store.done(image, G, &Request::Recover);
}

/// Until a recovery all tenants get 5, if the cut left anything to recover.
fn all_wait(store: &Store, image: &mut [u8], list: &[u32]) {
    if !matches!(state_of(image, G), State::Unfinished(_)) {
        return;
    }
    for (i, own) in shares().iter().enumerate() {
        let asked = read_of(own.first as u16, 248);
        let told = ask(store, image, G, list, i as u32 + 1, &asked);
        assert_eq!(told.code, UNFINISHED);
    }
}

/// The table with what was asked for done.
fn with(table: &Table, asked: &Asked) -> Table {
    let mut table = table.clone();
    match asked {
        Asked::Put { block, contents } => table.insert(*block, contents.clone()),
        asked => table.remove(&asked.block()),
    };
    table
}

/// What a put or a delete has to be answered, by the table.
fn expected(table: &Table, own: Share, asked: &Asked) -> u8 {
    let is_stored = table.contains_key(&asked.block());
    let mine = table.keys().filter(|&&block| own.has(block)).count();
    match asked {
        Asked::Put { .. } if !is_stored && mine >= own.quota as usize => FULL,
        Asked::Delete { .. } if !is_stored => ABSENT,
        _ => DONE,
    }
}

#[test]
fn cut_requests_of_tenants() {
    let store = Store::new("cut_requests_of_tenants");
    let mut rng = Rng::new(6_110);
    let list = numbers(&shares());
    let (mut lost, mut made, mut full) = (0, 0, 0);
    for _ in 0..150 {
        let mut image = formatted(G);
        let mut table = Table::new();
        for _ in 0..60 {
            let i = rng.below(3);
            let (own, tenant) = (shares()[i], i as u32 + 1);
            let block = rng.between(own.first as usize, own.last as usize) as u16;
            let asked = match rng.below(5) {
                0 => Asked::Delete { block },
                _ => put_of(block, &rng.bytes(2)),
            };
            let wanted = with(&table, &asked);
            if rng.once_in(3) && cut(&mut rng, &mut image, &list, tenant, &asked) {
                all_wait(&store, &mut image, &list);
                recover(&store, &mut rng, &mut image);
                let after = shown(&store, &mut image, &list);
                assert!(after == table || after == wanted);
                lost += usize::from(after == table);
                made += usize::from(after != table);
                table = after;
                continue;
            }
            let told = ask(&store, &mut image, G, &list, tenant, &asked);
            assert_eq!(told.code, expected(&table, own, &asked));
            full += usize::from(told.code == FULL);
            if told.code == DONE {
                table = wanted;
            }
        }
        assert!(shown(&store, &mut image, &list) == table);
    }
    assert!(
        lost > 200 && made > 50 && full > 500,
        "{lost} {made} {full}"
    );
}
