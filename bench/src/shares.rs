//! Request #110: forty tenants on one chip. A put by tenant beside a plain Rust
//! (`bindings/rust/tests/store/shares_plain.rs`, its blank test by words), and beside the store's own put
//! and one count: a put by tenant of too many bytes, which is refused behind the count (3).

use crate::by_words::reference::{Geometry, DONE, FULL};
use crate::by_words::shares_plain as plain;
use crate::moving::{print_heads, print_row};
use crate::{median, reference, timed, typed, written, CONTENTS};
use qanbillox::{Answer, Block, Share};
use std::hint::black_box;
use std::time::Duration;

const CHIP: Geometry = Geometry { n: 16, b: 255 };
const TENANTS: u32 = 40;

/// Forty ranges of 96 numbers; the quotas add up to at most C.
fn shares(quota: u32) -> Vec<Share> {
    let firsts = (0..TENANTS).map(|i| 96 * i + 1);
    let share = |first| Share {
        first,
        last: first + 95,
        quota,
    };
    firsts.map(share).collect()
}

/// As the exports take them.
fn numbers(shares: &[Share]) -> Vec<u32> {
    let each = shares.iter();
    each.flat_map(|s| [s.first, s.last, s.quota]).collect()
}

/// A put by tenant: what is put where, and the answer that it has to get.
struct Put<'a> {
    name: &'a str,
    image: &'a [u8],
    shares: &'a [Share],
    tenant: u32,
    block: u16,
    code: u8,
}

/// A row for each kind of put, beside the plain one; and each beside the store's put and one count.
pub fn rows(runs: usize) {
    let g = reference::Geometry {
        n: CHIP.n,
        b: CHIP.b,
    };
    // Blocks 1 to 3,800 are stored: 96 of each tenant but the last, who has 56.
    let slots = (g.n - 1) * g.b;
    let roomy = written(g, 3_800, 3_800, 0);
    let crowded = written(g, slots, 3_800, 0);
    let (most, less) = (shares(95), shares(40));
    let put = |name, image, shares, tenant, block, code| Put {
        name,
        image,
        shares,
        tenant,
        block,
        code,
    };
    let puts = [
        put(
            "a rewrite with room",
            &roomy[..],
            &most[..],
            20,
            1_900,
            DONE,
        ),
        put("a new block with room", &roomy, &most, 40, 3_840, DONE),
        put(
            "a rewrite, compacting first",
            &crowded,
            &most,
            20,
            1_900,
            DONE,
        ),
        put("a rewrite, the quota used", &roomy, &less, 20, 1_900, DONE),
        put(
            "a new block, the quota used",
            &roomy,
            &less,
            40,
            3_840,
            FULL,
        ),
    ];
    print_heads("put by one of 40, N=16, B=255", "answer");
    let times: Vec<_> = puts.iter().map(|put| row(put, runs)).collect();
    println!();
    println!(
        "  {:<36}{:>14}{:>14}{:>14}{:>10}",
        "", "by tenant", "store's put", "one count", "ratio"
    );
    for (put, by_tenant) in puts.iter().zip(times) {
        beside_the_store(put, by_tenant, runs);
    }
}

/// The plain one and the library, in turn, on copies of the image. The library's median.
fn row(put: &Put, runs: usize) -> f64 {
    let list = numbers(put.shares);
    let mut images = [(); 2].map(|()| put.image.to_vec());
    let mut times: [Vec<Duration>; 2] = Default::default();
    for run in 0..runs {
        for side in [run % 2, (run + 1) % 2] {
            images[side].copy_from_slice(put.image);
            let image = black_box(&mut images[side][..]);
            let (code, time) = if side == 0 {
                timed(|| plain_put(image, &list, put.tenant, put.block))
            } else {
                timed(|| library_put(image, put.shares, put.tenant, put.block))
            };
            assert_eq!(code, put.code, "{}", put.name);
            times[side].push(time);
        }
        assert!(images[0] == images[1], "the images differ");
    }
    let library = median(times[1].clone());
    print_row(put.name, u64::from(put.code), times);
    library
}

/// Not drawn into the loop, where N and B would be constants.
#[inline(never)]
fn plain_put(image: &mut [u8], list: &[u32], tenant: u32, block: u16) -> u8 {
    plain::put_by(image, black_box(CHIP), list, tenant, block, &CONTENTS)
}

fn library_put(image: &mut [u8], shares: &[Share], tenant: u32, block: u16) -> u8 {
    let Geometry { n, b } = black_box(CHIP);
    let chip = typed(reference::Geometry { n, b });
    let done = chip
        .tenant(image, shares, tenant)
        .put(Block(block), &CONTENTS);
    done.err().unwrap_or(Answer::Done).number()
}

/// The library's time over that of its put without shares and of a count.
fn beside_the_store(put: &Put, by_tenant: f64, runs: usize) {
    let Geometry { n, b } = CHIP;
    let chip = typed(reference::Geometry { n, b });
    let mut image = put.image.to_vec();
    let mut times: [Vec<Duration>; 2] = Default::default();
    for _ in 0..runs {
        image.copy_from_slice(put.image);
        let lent = black_box(&mut image[..]);
        let mut tenant = chip.tenant(lent, put.shares, put.tenant);
        let (refused, time) = timed(|| tenant.put(Block(put.block), &[0; 249]));
        assert_eq!(refused, Err(Answer::Length));
        times[1].push(time);
        image.copy_from_slice(put.image);
        let lent = black_box(&mut image[..]);
        // Where the quota is used, the store is asked without a step to spend.
        let budget = if put.code == FULL { 0 } else { u64::MAX };
        let (_, time) = timed(|| chip.put(lent, Block(put.block), &CONTENTS, budget));
        times[0].push(time);
    }
    let [store, count] = times.map(median);
    let (name, ratio) = (put.name, by_tenant / (store + count));
    let [by_tenant, store, count] = [by_tenant, store, count].map(|time| time * 1e6);
    println!("  {name:<36}{by_tenant:>11.1} µs{store:>11.1} µs{count:>11.1} µs{ratio:>10.2}");
}
