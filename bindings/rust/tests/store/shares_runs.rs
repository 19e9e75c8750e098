//! Request #110 over runs: two runs with the same requests of one tenant and any of the others give it
//! the same; a tenant below its quota always has room; and no block shows what its tenant did not put.

use crate::harness::Store;
use crate::images::{formatted, full_ring};
use crate::prng::Rng;
use crate::reference::*;
use crate::shares_harness::{any_asked, ask, numbers, put_of, read_of, share};
use crate::shares_reference::{Asked, Share, Told};
use std::collections::BTreeMap;

/// A chip of few slots, and a list for it: up to six tenants with a few numbers each, in any order, that
/// share all of C, or some of it.
fn any_board(rng: &mut Rng) -> (Geometry, Vec<Share>) {
    let g = Geometry {
        n: rng.between(2, 5),
        b: rng.between(2, 6),
    };
    let mut left = g.capacity();
    let mut at = 0;
    let mut shares: Vec<Share> = (0..rng.between(1, 6))
        .map(|_| {
            let quota = rng.below(left + 1);
            left -= quota;
            let first = at + rng.between(1, 3) as u32;
            at = first + rng.below(6) as u32;
            share(first, at, quota as u32)
        })
        .collect();
    if rng.once_in(2) {
        shares.last_mut().expect("one at least").quota += left as u32;
    }
    rng.shuffle(&mut shares);
    (g, shares)
}

/// Any request of any tenant, or of none: mostly for a block of its own.
fn any_request(rng: &mut Rng, shares: &[Share]) -> (u32, Asked) {
    let tenant = rng.below(shares.len() + 2) as u32;
    let of = if rng.once_in(8) {
        rng.below(shares.len())
    } else {
        (tenant as usize + shares.len() - 1) % shares.len()
    };
    let Share { first, last, .. } = shares[of];
    let block = match rng.below(40) {
        0 => rng.pick(&[0, 65_535]),
        1 => rng.pick(&[first - 1, last + 1]) as u16,
        _ => rng.between(first as usize, last as usize) as u16,
    };
    (tenant, any_asked(rng, block))
}

/// What tenant `a` gets in a run, up to the first 8 that anybody gets.
fn told_to(
    store: &Store,
    image: &mut [u8],
    g: Geometry,
    list: &[u32],
    run: &[(u32, Asked)],
    a: u32,
) -> Vec<Told> {
    let mut got = Vec::new();
    for (tenant, asked) in run {
        let told = ask(store, image, g, list, *tenant, asked);
        if told.code == WORN {
            break;
        }
        if *tenant == a {
            got.push(told);
        }
    }
    got
}

/// A run with these requests of tenant `a` in order and any of the others among them.
fn interleaved(rng: &mut Rng, shares: &[Share], a: u32, own: &[Asked]) -> Vec<(u32, Asked)> {
    let busy = rng.pick(&[0, 1, 4, 12]);
    let mut run = Vec::new();
    for asked in own {
        for _ in 0..rng.below(busy + 1) {
            let other = any_request(rng, shares);
            if other.0 != a {
                run.push(other);
            }
        }
        run.push((a, asked.clone()));
    }
    run
}

#[test]
fn two_runs() {
    let store = Store::new("two_runs");
    let mut rng = Rng::new(2_110);
    let mut codes = [0; 15];
    for _ in 0..1_500 {
        let (g, shares) = any_board(&mut rng);
        let list = numbers(&shares);
        let a = rng.between(0, shares.len() + 1) as u32;
        let mut own = Vec::new();
        while own.len() < 30 {
            let (tenant, asked) = any_request(&mut rng, &shares);
            if tenant == a {
                own.push(asked);
            }
        }
        let [first, second] = [(); 2].map(|()| {
            let run = interleaved(&mut rng, &shares, a, &own);
            told_to(&store, &mut formatted(g), g, &list, &run, a)
        });
        assert_eq!(first.len(), own.len(), "no chip is worn so soon");
        assert_eq!(first, second, "tenant {a} by {list:?}, {g:?}");
        for told in first {
            codes[usize::from(told.code)] += 1;
        }
    }
    for code in [DONE, NUMBER, LENGTH, ABSENT, FULL, FOREIGN, SHORT_BUFFER] {
        assert!(codes[usize::from(code)] > 300, "{code}: {codes:?}");
    }
}

/// Where the chip wears out on the way, up to the first 8 of either run.
#[test]
fn two_runs_to_the_end_of_a_chip() {
    let store = Store::new("two_runs_to_the_end_of_a_chip");
    let mut rng = Rng::new(3_110);
    let mut worn = 0;
    for _ in 0..300 {
        let g = Geometry { n: 3, b: 4 };
        let shares = [share(2, 4, 3), share(5, 8, 4)];
        let list = numbers(&shares);
        // Blocks 2 to 8 are stored, as if the two tenants had put them; few numbers are left.
        let image = full_ring(g, g.wear_limit() - rng.between(2, 6) as u32);
        let own: Vec<Asked> = (0..20)
            .map(|_| {
                let block = rng.between(2, 4) as u16;
                any_asked(&mut rng, block)
            })
            .collect();
        let [first, second] = [(); 2].map(|()| {
            let run = interleaved(&mut rng, &shares, 1, &own);
            told_to(&store, &mut image.clone(), g, &list, &run, 1)
        });
        let both = first.len().min(second.len());
        worn += usize::from(both < own.len());
        assert_eq!(first[..both], second[..both]);
    }
    assert!(worn > 100, "{worn}");
}

type Table = BTreeMap<u16, Vec<u8>>;

/// Of all its blocks a tenant reads what it put last.
fn reads_back(
    store: &Store,
    image: &mut [u8],
    g: Geometry,
    list: &[u32],
    (tenant, own): (u32, Share),
    table: &Table,
) {
    for block in own.first as u16..=own.last as u16 {
        let told = ask(store, image, g, list, tenant, &read_of(block, 3));
        match table.get(&block) {
            Some(contents) => assert_eq!((told.code, &told.buffer), (DONE, contents)),
            None => assert_eq!(told.code, ABSENT),
        }
    }
}

/// Everybody stores as much as it can: whoever is below its quota has room, and reads what it put.
#[test]
fn a_guaranteed_share() {
    let store = Store::new("a_guaranteed_share");
    let mut rng = Rng::new(4_110);
    let (mut full, mut filled) = (0, 0);
    for _ in 0..600 {
        let (g, shares) = any_board(&mut rng);
        let list = numbers(&shares);
        let mut image = formatted(g);
        let mut tables = vec![Table::new(); shares.len()];
        for _ in 0..120 {
            let i = rng.below(shares.len());
            let (Share { first, last, quota }, table) = (shares[i], &mut tables[i]);
            let block = rng.between(first as usize, last as usize) as u16;
            let tenant = i as u32 + 1;
            if rng.once_in(6) {
                let asked = Asked::Delete { block };
                let told = ask(&store, &mut image, g, &list, tenant, &asked);
                let stored = table.remove(&block).is_some();
                assert_eq!(told.code, if stored { DONE } else { ABSENT });
                continue;
            }
            let contents = rng.bytes(3);
            let room = table.contains_key(&block) || table.len() < quota as usize;
            let asked = put_of(block, &contents);
            let told = ask(&store, &mut image, g, &list, tenant, &asked);
            assert_eq!(told.code, if room { DONE } else { FULL });
            if room {
                table.insert(block, contents);
            } else {
                full += 1;
            }
        }
        for (i, table) in tables.iter().enumerate() {
            reads_back(
                &store,
                &mut image,
                g,
                &list,
                (i as u32 + 1, shares[i]),
                table,
            );
        }
        filled += usize::from(tables.iter().map(Table::len).sum::<usize>() == g.capacity());
    }
    assert!(full > 1_000 && filled > 20, "{full} refused, {filled} full");
}
