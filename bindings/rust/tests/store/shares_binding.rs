//! Request #110: the `Tenant` view of the binding says what the exports say.

use crate::harness::Store;
use crate::images::formatted;
use crate::prng::Rng;
use crate::reference::*;
use crate::shares_harness::{any_asked, numbers, share};
use crate::shares_reference::{self as shares, Asked};
use qanbillox::{Answer, Block, Share};

const G: Geometry = Geometry { n: 4, b: 4 };

fn code(result: Result<(), Answer>) -> u8 {
    result.err().map_or(DONE, Answer::number)
}

#[test]
fn a_tenants_view() {
    let store = Store::new("a_tenants_view");
    let mut rng = Rng::new(1_110);
    let chip = qanbillox::Geometry {
        segments: G.n,
        slots: G.b,
    };
    let plain = [share(1, 6, 4), share(7, 9, 3), share(10, 65_534, 4)];
    let typed = plain.map(|s| Share {
        first: s.first,
        last: s.last,
        quota: s.quota,
    });
    let list = numbers(&plain);
    let mut image = formatted(G);
    let mut seen = [0; 15];
    for _ in 0..20_000 {
        let tenant = rng.below(5) as u32;
        let block = rng.pick(&[0, 1, 2, 3, 4, 5, 6, 7, 8, 9, 10, 11, 12, 65_534, 65_535]);
        let asked = any_asked(&mut rng, block);
        store.count();
        let mut copy = image.clone();
        let told = shares::ask(&mut image, G, &list, tenant, &asked);
        let mut view = chip.tenant(&mut copy, &typed, tenant);
        match &asked {
            Asked::Put { block, contents } => {
                assert_eq!(code(view.put(Block(*block), contents)), told.code);
            }
            Asked::Delete { block } => assert_eq!(code(view.delete(Block(*block))), told.code),
            Asked::Read { block, buffer } => {
                let mut lent = buffer.clone();
                let read = view.read(Block(*block), &mut lent);
                let expected = match told.code {
                    DONE => Ok(&told.buffer[..told.length]),
                    code => Err(Answer::from_number(code).expect("an answer")),
                };
                assert_eq!(read, expected);
                assert!(lent == told.buffer);
            }
        }
        assert!(copy == image);
        seen[usize::from(told.code)] += 1;
    }
    for code in [DONE, NUMBER, LENGTH, ABSENT, FULL, FOREIGN, SHORT_BUFFER] {
        assert!(seen[usize::from(code)] > 50, "{code}: {seen:?}");
    }
}
