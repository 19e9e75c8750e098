//! Request #104: answer 8 by the total, by the bits and by the number, each at its limit; and the
//! sum that new headers carry on.

use crate::harness::{put_of, Store};
use crate::heads::{clear_first, head, leave_last, set_total, ALL_BITS};
use crate::images::{full_ring, rewrite_in_turn, with_statuses};
use crate::power_cuts::cut_everywhere;
use crate::prng::Rng;
use crate::reference::*;
use crate::sequences::table_of;
use crate::step_lists::every_allowance;

const CHIPS: [Geometry; 6] = [
    Geometry { n: 2, b: 2 },
    Geometry { n: 3, b: 2 },
    Geometry { n: 4, b: 2 },
    Geometry { n: 5, b: 3 },
    Geometry { n: 64, b: 2 },
    Geometry { n: 255, b: 2 },
];

/// What a rewrite of the first block needs: the next segment opened, or so many compacted.
#[derive(Clone, Copy, Debug)]
enum Need {
    Opening,
    Compactions(usize),
}

impl Need {
    fn of(g: Geometry) -> Vec<Need> {
        let mut needs: Vec<Need> = [1, 2, 3, g.n - 1]
            .into_iter()
            .filter(|&count| count < g.n)
            .map(Need::Compactions)
            .collect();
        if g.n > 2 {
            needs.push(Need::Opening);
        }
        needs
    }

    /// How many headers it makes.
    fn headers(self) -> u32 {
        match self {
            Need::Opening => 1,
            Need::Compactions(count) => count as u32,
        }
    }

    fn steps(self, g: Geometry) -> u64 {
        let headers = match self {
            Need::Opening => 21,
            // All slots of the segments are copied but one.
            Need::Compactions(count) => 24 * count + 6 * (count * g.b - 1),
        };
        headers as u64 + 6 + 1
    }

    /// A chip with a full top of this number that has this need. All slots are live but one.
    fn image(self, g: Geometry, top: u32) -> Vec<u8> {
        let (used, dead) = match self {
            Need::Opening => (g.n - 2, 1),
            Need::Compactions(count) => (g.n - 1, count),
        };
        with_statuses(g, (top + 1 - used as u32, used), b"x", |place, slot| {
            if (place, slot) == (dead, 2) {
                // either kind, by turns of the number
                [DEAD, CUT_SLOT][top as usize % 2]
            } else {
                LIVE
            }
        })
    }
}

/// A rewrite that is done: every new header has the tally as its total, and all its bits.
fn carries_on(store: &Store, image: &[u8], g: Geometry, need: Need) {
    let State::Clean(view) = state_of(image, g) else {
        panic!("clean");
    };
    let sum = tally(image, g, view.top()).sum;
    let mut after = image.to_vec();
    let steps = store.done(&mut after, g, &put_of(1, b"y"));
    assert_eq!(steps, need.steps(g));
    for number in view.top() + 1..=view.top() + need.headers() {
        let page = head(&mut after, g, number);
        assert_eq!(page[TOTAL], sum.to_le_bytes());
        assert!(page[TOTAL.end..].iter().all(|&byte| byte == 0xFF));
    }
    let mut table = table_of(image, g).expect("clean");
    table.insert(1, b"y".to_vec());
    assert!(table_of(&after, g) == Some(table));
}

/// A rewrite that is refused as worn, with any allowance; reads and deletes are not.
fn is_worn(store: &Store, image: &[u8], g: Geometry) {
    for allowance in [0, 1, UNLIMITED] {
        let reply = store.perform(&mut image.to_vec(), g, &put_of(1, b"y"), allowance);
        let code = WORN;
        assert_eq!(reply, Reply { code, steps: 0 });
    }
    assert_eq!(store.read(image, g, 1).code, DONE);
    store.done(&mut image.to_vec(), g, &Request::Delete { block: 1 });
}

/// Numbers for the top: small ones, some in the middle, each where the last new number begins a
/// round of the ring and just before that.
fn tops(g: Geometry, need: Need) -> Vec<u32> {
    let n = g.n as u32;
    let mut tops = Vec::new();
    for round in [2, 3, 50_000, 98_000, 99_998, 99_999] {
        tops.extend([round * n - need.headers(), round * n - need.headers() - 1]);
    }
    tops.retain(|&top| top + 2 >= n);
    tops
}

/// The total and the cleared bits fill up what the number leaves: worn at 100,000, and not at one
/// less.
#[test]
fn by_the_sum() {
    let store = Store::new("worn by the sum");
    let mut worn = 0;
    for g in CHIPS {
        for need in Need::of(g) {
            for top in tops(g, need) {
                let image = need.image(g, top);
                let rounds = (top + need.headers()) / g.n as u32;
                for cleared in [0, 1, 8, 13, 1_000, ALL_BITS - 1] {
                    let mut image = image.clone();
                    clear_first(&mut head(&mut image, g, top)[BITS], cleared);
                    let Some(total) = 100_000_u32.checked_sub(rounds + cleared as u32) else {
                        continue;
                    };
                    if total < 100_000 {
                        set_total(&mut image, g, top, total);
                        is_worn(&store, &image, g);
                        worn += 1;
                    }
                    if total > 0 {
                        set_total(&mut image, g, top, total - 1);
                        carries_on(&store, &image, g, need);
                    }
                }
            }
        }
    }
    assert!(worn > 500);
}

/// The last put that fits, cut after each step and recovered: whatever the tally is then, the old
/// table stands or the new one, and the put again is done or refused as worn.
#[test]
fn cuts_at_the_limit() {
    let store = Store::new("cuts at the limit of the tally");
    let mut rng = Rng::new(0x99999);
    for g in &CHIPS[..4] {
        let g = *g;
        for need in Need::of(g) {
            let top = 3 * g.n as u32;
            let rounds = (top + need.headers()) / g.n as u32;
            for cleared in [0, 13, ALL_BITS - 1] {
                let mut image = need.image(g, top);
                clear_first(&mut head(&mut image, g, top)[BITS], cleared);
                set_total(&mut image, g, top, 99_999 - rounds - cleared as u32);
                let request = put_of(1, b"y");
                cut_everywhere(&store, &mut rng, g, &image, &request, 2, 1);
                let codes = put_again_after_cuts(&store, &image, g, &request);
                assert!(codes.contains(&WORN) && codes.contains(&DONE));
            }
        }
    }
}

/// What the put answers the second time, after each cut of the first and its recovery.
fn put_again_after_cuts(store: &Store, image: &[u8], g: Geometry, request: &Request) -> Vec<u8> {
    let old = table_of(image, g).expect("clean");
    let mut whole = image.to_vec();
    store.done(&mut whole, g, request);
    let new = table_of(&whole, g).expect("clean");
    let (_, list) = steps_of(image, g, request);
    let again = (0..list.len()).map(|steps| {
        let mut cut = image.to_vec();
        store.perform(&mut cut, g, request, steps as u64);
        store.done(&mut cut, g, &Request::Recover);
        let code = store.perform(&mut cut, g, request, UNLIMITED).code;
        let shown = table_of(&cut, g).expect("clean");
        assert!(shown == new || (code == WORN && shown == old));
        code
    });
    again.collect()
}

/// By the number alone, as in version 1; and with one erase counted a whole round earlier.
#[test]
fn by_the_number() {
    let store = Store::new("worn by the number");
    for g in CHIPS {
        for need in Need::of(g) {
            for (cleared, rounds) in [(0, 100_000), (1, 99_999), (2, 99_998)] {
                let limit = rounds * g.n as u32 - need.headers();
                let mut image = need.image(g, limit);
                clear_first(&mut head(&mut image, g, limit)[BITS], cleared);
                is_worn(&store, &image, g);
                let mut image = need.image(g, limit - 1);
                clear_first(&mut head(&mut image, g, limit - 1)[BITS], cleared);
                carries_on(&store, &image, g, need);
            }
        }
    }
}

/// Without a bit left, whatever the total and the number; one is enough, wherever it is.
#[test]
fn by_the_bits() {
    let store = Store::new("worn by the bits");
    for g in CHIPS {
        for need in Need::of(g) {
            for top in [g.n as u32, 7 * g.n as u32 + 1] {
                for total in [0, 1, 90_000] {
                    let mut image = need.image(g, top);
                    set_total(&mut image, g, top, total);
                    leave_last(&mut image, g, top, 0);
                    is_worn(&store, &image, g);
                    for (at, bit) in [
                        (255, 0x01),
                        (255, 0x80),
                        (32, 0x80),
                        (32, 0x01),
                        (100, 0x10),
                    ] {
                        let mut image = image.clone();
                        head(&mut image, g, top)[at] = bit;
                        carries_on(&store, &image, g, need);
                    }
                }
            }
        }
    }
}

/// With room a put is never worn, though the tally is above the limit; once there is none it is. 7
/// comes before 8.
#[test]
fn not_with_room() {
    let store = Store::new("a put with room is not worn");
    for g in CHIPS {
        for (total, left) in [(99_999, 0), (99_999, 1), (0, 0), (99_999, ALL_BITS)] {
            let top = g.wear_limit() - 1;
            let mut image = with_statuses(
                g,
                (top + 2 - g.n as u32, g.n - 1),
                b"x",
                |place, slot| match (place, slot) {
                    (1, 1) => DEAD,
                    (place, slot) if place == g.n - 1 && slot == g.b => 0xFF,
                    _ => LIVE,
                },
            );
            set_total(&mut image, g, top, total);
            leave_last(&mut image, g, top, left);
            let table = table_of(&image, g).expect("clean");
            let stored = table.keys().next().copied().unwrap_or(60_000);
            let request = put_of(stored, b"y");
            every_allowance(&store, &image, g, &request);
            store.done(&mut image, g, &request);
            assert_eq!(store.perform(&mut image, g, &request, UNLIMITED).code, WORN);
            let live = table_of(&image, g).expect("clean").len();
            let code = if live == g.capacity() { FULL } else { WORN };
            let reply = store.perform(&mut image, g, &put_of(50_000, b"y"), UNLIMITED);
            assert_eq!(reply.code, code);
        }
    }
}

/// Totals and bits of the other segments say nothing.
#[test]
fn only_the_top_counts() {
    let store = Store::new("only the top's tally counts");
    for g in CHIPS.into_iter().filter(|g| g.n > 2) {
        for need in Need::of(g) {
            let top = 5 * g.n as u32 + 1;
            for (total, left) in [(99_999, 0), (99_999, ALL_BITS), (0, 0), (12_345, 17)] {
                let mut image = need.image(g, top);
                let State::Clean(view) = state_of(&image, g) else {
                    panic!("clean");
                };
                for number in view.oldest..top {
                    set_total(&mut image, g, number, total);
                    leave_last(&mut image, g, number, left);
                }
                set_total(&mut image, g, top, 3);
                leave_last(&mut image, g, top, ALL_BITS - 4);
                carries_on(&store, &image, g, need);
            }
        }
    }
}

/// Example 9 with a tally: the second compaction does not add the bits again. Every allowance, and
/// cuts everywhere.
#[test]
fn two_compactions_in_one_put() {
    let store = Store::new("two compactions in one put");
    let mut rng = Rng::new(0x2C0);
    let g = Geometry { n: 3, b: 2 };
    let mut image = vec![0; 3 * g.segment_len()];
    store.done(&mut image, g, &Request::Format);
    for block in [1, 2, 3, 3] {
        store.done(&mut image, g, &put_of(block, b"x"));
    }
    set_total(&mut image, g, 1, 70_000);
    clear_first(&mut head(&mut image, g, 1)[BITS], 777);
    let request = put_of(3, b"y");
    every_allowance(&store, &image, g, &request);
    cut_everywhere(&store, &mut rng, g, &image, &request, 8, 2);
    assert_eq!(store.done(&mut image, g, &request), 73);
    for number in [2, 3] {
        assert_eq!(head(&mut image, g, number)[TOTAL], 70_777_u32.to_le_bytes());
        assert!(head(&mut image, g, number)[BITS]
            .iter()
            .all(|&byte| byte == 0xFF));
    }
}

/// Round the ring three times: the tally is carried through each compaction, and grows by the
/// recoveries in between.
#[test]
fn carried_through_many_compactions() {
    let store = Store::new("the tally carried through many compactions");
    for g in CHIPS {
        let mut top = 2 * g.n as u32;
        let mut image = full_ring(g, top);
        let mut expected = 0;
        let last_before_9f = 24 + 6 * (g.b as u64 - 1) - 3;
        for turn in 0..3 * g.n {
            let request = match g.n {
                2 => put_of(2, b"y"),
                _ => rewrite_in_turn(&image, g),
            };
            // Up to two cuts, and a recovery that is cut after its bit counts one more.
            for allowance in &[last_before_9f, 3][..turn % 3] {
                store.perform(&mut image, g, &request, *allowance);
                store.perform(&mut image, g, &Request::Recover, turn as u64 % 2);
                store.done(&mut image, g, &Request::Recover);
                expected += 1 + turn as u32 % 2;
            }
            assert_eq!(tally(&image, g, top).sum, expected);
            store.done(&mut image, g, &request);
            top += 1;
            assert_eq!(head(&mut image, g, top)[TOTAL], expected.to_le_bytes());
            assert_eq!(tally(&image, g, top).sum, expected);
        }
        assert!(expected > 0);
    }
}
