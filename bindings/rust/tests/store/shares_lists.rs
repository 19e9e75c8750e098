//! Request #110: which lists of shares are taken, whose a block is, and the order of 1, 13, 2, 12 and 3.

use crate::harness::Store;
use crate::images::formatted;
use crate::moving_refusals::wrong_geometries;
use crate::prng::Rng;
use crate::reference::*;
use crate::shares_harness::{ask, numbers, put_of, read_of, share};
use crate::shares_reference::{Asked, Share};

const SMALL: Geometry = Geometry { n: 3, b: 4 };
const C: u32 = 7;

/// Whether the list is taken, by all three requests of tenant 1 for block 7 on an empty store: they
/// answer 13, or, where tenant 1 has block 7, 0 or 7 or 6, or 12.
fn takes(store: &Store, list: &[u32]) -> bool {
    let mut image = formatted(SMALL);
    let asked = [read_of(7, 8), put_of(7, b"x"), Asked::Delete { block: 7 }];
    let codes = asked.map(|asked| ask(store, &mut image, SMALL, list, 1, &asked).code);
    let refused = codes.map(|code| code == SHARES);
    assert!(refused == [true; 3] || refused == [false; 3], "{codes:?}");
    !refused[0]
}

/// Forty tenants, each with ten numbers of its own.
fn forty() -> Vec<Share> {
    (0..40).map(|i| share(10 * i + 1, 10 * i + 10, 0)).collect()
}

#[test]
fn the_rules_of_a_list() {
    let store = Store::new("the_rules_of_a_list");
    let taken = |shares: &[Share]| takes(&store, &numbers(shares));

    // No tenant, a quota of 0, one larger than its range.
    assert!(taken(&[]));
    assert!(taken(&[share(7, 7, 0)]));
    assert!(taken(&[share(7, 7, C)]));

    // Ranges: from 1 to 65,534, not empty. Numbers that only their lowest sixteen bits make right are wrong.
    assert!(taken(&[share(1, 65_534, C)]));
    assert!(!taken(&[share(0, 65_534, C)]));
    assert!(!taken(&[share(1, 65_535, C)]));
    assert!(taken(&[share(65_534, 65_534, C)]));
    assert!(!taken(&[share(65_535, 65_535, C)]));
    assert!(!taken(&[share(8, 7, C)]));
    for wide in [65_536, 65_536 + 7, 1 << 31, u32::MAX] {
        assert!(!taken(&[share(1, wide, C)]));
        assert!(!taken(&[share(wide, wide, C)]));
        assert!(!taken(&[share(wide, 7, C)]));
    }

    // Quotas add up to at most C, reckoned wide.
    assert!(taken(&[share(7, 7, C - 1), share(8, 8, 1)]));
    assert!(!taken(&[share(7, 7, C), share(8, 8, 1)]));
    assert!(!taken(&[share(7, 7, C + 1)]));
    assert!(!taken(&[share(7, 7, u32::MAX), share(8, 8, 1)]));
    assert!(!taken(&[share(7, 7, 1 << 31), share(8, 8, 1 << 31)]));
    assert!(!taken(&[share(7, 7, u32::MAX), share(8, 8, C + 1)]));

    // At most forty, in any order.
    let mut many = forty();
    assert!(taken(&many));
    many.reverse();
    assert!(taken(&many));
    many.push(share(1_000, 1_000, 0));
    assert!(!taken(&many));
}

#[test]
fn ranges_that_meet() {
    let store = Store::new("ranges_that_meet");
    // Every pair of ranges in a few numbers, in places all over a long list.
    let ranges: Vec<(u32, u32)> = (5..=9).flat_map(|a| (a..=9).map(move |b| (a, b))).collect();
    for &(a, b) in &ranges {
        for &(c, d) in &ranges {
            let apart = b < c || d < a;
            for (i, j) in [(0, 1), (1, 0), (0, 39), (20, 21), (39, 3)] {
                let mut many: Vec<Share> = forty();
                for share in &mut many {
                    share.first += 100;
                    share.last += 100;
                }
                many[i] = share(a, b, 1);
                many[j] = share(c, d, 1);
                assert_eq!(takes(&store, &numbers(&many)), apart, "{a}-{b}, {c}-{d}");
            }
        }
    }
}

#[test]
fn counts_that_are_no_shares() {
    let store = Store::new("counts_that_are_no_shares");
    let all = numbers(&forty());
    for length in 0..=all.len() {
        assert_eq!(takes(&store, &all[..length]), length % 3 == 0);
    }
    let mut more = all.clone();
    for number in [1_000, 1_001, 0, 1_002, 1_003, 0] {
        more.push(number);
        assert!(!takes(&store, &more));
    }
    assert!(!takes(&store, &vec![1; 30_000]));
}

#[test]
fn random_lists() {
    let store = Store::new("random_lists");
    let mut rng = Rng::new(110);
    let (mut taken, mut refused) = (0, 0);
    for _ in 0..20_000 {
        let count = rng.pick(&[1, 2, 3, 4, 40]);
        let mut at = rng.between(0, 3) as u32;
        let mut list = Vec::new();
        for _ in 0..count {
            // Mostly one range after the other; now and then one begins too early.
            let first = if rng.once_in(60) { at } else { at + 1 };
            let last =
                (first + rng.pick(&[0, 0, 1, 5, 1_000])).saturating_sub(rng.below(50) as u32 / 49);
            list.push(share(first, last, rng.pick(&[0, 0, 0, 1, 2])));
            at = last;
        }
        rng.shuffle(&mut list);
        let mut list = numbers(&list);
        if rng.once_in(6) {
            let i = rng.below(list.len());
            list[i] = rng.pick(&[
                0,
                65_534,
                65_535,
                65_543,
                u32::MAX,
                list[(i + 3) % list.len()],
            ]);
        }
        if takes(&store, &list) {
            taken += 1;
        } else {
            refused += 1;
        }
    }
    assert!(
        taken > 3_000 && refused > 3_000,
        "{taken} taken, {refused} refused"
    );
}

#[test]
fn the_order_of_answers() {
    let store = Store::new("the_order_of_answers");
    let g = SMALL;
    let good = numbers(&[share(5, 9, 2), share(10, 14, 5)]);
    let bad = numbers(&[share(5, 10, 2), share(10, 14, 5)]);
    let image = formatted(g);
    let long = [0; 249];
    // Each of the five may apply or not; the first in this order is the answer.
    for case in 0..32 {
        let applies = |i: usize| case >> i & 1 == 1;
        for wrong in wrong_geometries(g) {
            let asked_of = if applies(0) { wrong } else { g };
            let list = if applies(1) { &bad } else { &good };
            let block = match (applies(2), applies(3)) {
                (true, foreign) => [0, 65_535][usize::from(foreign)],
                (false, true) => 10,
                (false, false) => 5,
            };
            let contents = if applies(4) { &long[..] } else { b"x" };
            let mut image = image.clone();
            let told = ask(
                &store,
                &mut image,
                asked_of,
                list,
                1,
                &put_of(block, contents),
            );
            let order = [SIZE, SHARES, NUMBER, FOREIGN, LENGTH];
            let first = (0..5).find(|&i| applies(i) && (i != 3 || !applies(2)));
            assert_eq!(told.code, first.map_or(DONE, |i| order[i]), "{case:05b}");
            if !applies(0) {
                break;
            }
        }
    }
}

#[test]
fn whose_a_block_is() {
    let store = Store::new("whose_a_block_is");
    let g = Geometry { n: 8, b: 8 };
    let mut shares = forty();
    for share in &mut shares {
        share.quota = 1;
    }
    let list = numbers(&shares);
    let mut image = formatted(g);
    let tenants = (0..=42).chain([256, 257, 1 << 16, (1 << 16) + 1, 1 << 31, u32::MAX]);
    for tenant in tenants {
        for block in (0..=402).chain([65_534, 65_535]) {
            let own = u32::from(block).wrapping_sub(1) / 10 + 1 == tenant && block != 0;
            let expected = match block {
                0 | 65_535 => NUMBER,
                _ if own && tenant <= 40 => ABSENT,
                _ => FOREIGN,
            };
            let delete = Asked::Delete { block };
            for asked in [read_of(block, 0), delete] {
                let told = ask(&store, &mut image, g, &list, tenant, &asked);
                assert_eq!(told.code, expected, "{block} of {tenant}");
            }
        }
    }
}
