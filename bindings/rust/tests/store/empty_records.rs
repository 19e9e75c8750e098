//! Request #105: a put of 0 bytes is refused in its place among the answers, and empty records from
//! before live on.

use crate::cuts;
use crate::harness::{put_of, Store};
use crate::images::{self, blank, formatted, with_empty_records};
use crate::prng::Rng;
use crate::reference::*;
use crate::sequences::table_of;

/// Images for each answer that a put could have, were its contents not empty.
fn images_by_answer(g: Geometry) -> Vec<(u8, Vec<u8>)> {
    let mut full = formatted(g);
    for block in 1..=g.capacity() as u16 {
        put(&mut full, g, block, b"x", UNLIMITED);
    }
    let mut cut = full.clone();
    put(&mut cut, g, 1, b"y", 3);
    let mut worn = blank(g);
    for i in 0..g.n as u32 - 1 {
        let number = g.wear_limit() - (g.n as u32 - 1) + i;
        images::write_header(&mut worn, g, number, OPENED);
        for slot in 1..=g.b {
            let at = g.page(g.index(number), slot);
            worn[at] = DEAD;
        }
    }
    vec![
        (DONE, formatted(g)),
        (DAMAGED, blank(g)),
        (UNFINISHED, cut),
        (FULL, full),
        (WORN, worn),
    ]
}

#[test]
fn refused_in_its_place() {
    let store = Store::new("a put of 0 bytes");
    for (n, b) in [
        (2, 2),
        (3, 2),
        (4, 15),
        (2, 255),
        (64, 2),
        (65, 2),
        (255, 2),
    ] {
        let g = Geometry { n, b };
        for (code, mut image) in images_by_answer(g) {
            let with_contents = put_of(60_000, b"x");
            assert_eq!(steps_of(&image, g, &with_contents).0, code);
            for (block, code) in [(60_000, LENGTH), (1, LENGTH), (0, NUMBER), (65_535, NUMBER)] {
                for allowance in [0, 3, UNLIMITED] {
                    let reply = store.perform(&mut image, g, &put_of(block, b""), allowance);
                    assert_eq!(reply, Reply { code, steps: 0 });
                }
            }
            image.pop();
            let reply = store.perform(&mut image, g, &put_of(1, b""), UNLIMITED);
            assert_eq!(reply.code, SIZE);
        }
    }
}

/// Where an empty record is: its slot's offset.
fn empty_record(store: &Store, image: &[u8], g: Geometry, block: u16) -> usize {
    let read = store.read(image, g, block);
    assert_eq!((read.code, read.length), (DONE, 0));
    let slot = read.offset - 8;
    let header = [LIVE, 0, (block % 256) as u8, (block / 256) as u8];
    assert_eq!(image[slot..slot + 4], header);
    assert!(image[slot + 4..slot + PAGE]
        .iter()
        .all(|&byte| byte == 0xFF));
    slot
}

/// Rewrites of another block compact the ring again and again: the empty records are copied each
/// time, and are there at the end to be deleted and rewritten.
#[test]
fn those_from_before_live_on() {
    let store = Store::new("empty records from before");
    for (n, b) in [
        (2, 3),
        (3, 2),
        (4, 15),
        (5, 4),
        (16, 16),
        (64, 2),
        (2, 255),
        (128, 2),
        (255, 2),
    ] {
        let g = Geometry { n, b };
        let last = g.capacity() as u16 - 1;
        let mut image = with_empty_records(g, 1..=last);
        let mut moves = 0;
        let mut slot = empty_record(&store, &image, g, 1);
        while moves < 3 * n {
            store.done(&mut image, g, &put_of(60_000, &[moves as u8]));
            let now = empty_record(&store, &image, g, 1);
            moves += usize::from(now != slot);
            slot = now;
        }
        for block in 1..=last {
            empty_record(&store, &image, g, block);
            let request = match block % 2 {
                0 => Request::Delete { block },
                _ => put_of(block, b"an owner"),
            };
            store.done(&mut image, g, &request);
        }
        let table = table_of(&image, g).expect("clean");
        assert_eq!(table.len(), 1 + usize::from(last).div_ceil(2));
        assert!(table.values().all(|contents| !contents.is_empty()));
    }
}

/// From a format on no read that answers 0 shows contents of 0 bytes, whatever is put and wherever
/// the power is cut.
#[test]
fn none_from_a_format_on() {
    let store = Store::new("no empty record from a format on");
    let mut rng = Rng::new(0x105);
    for (n, b) in [(2, 2), (2, 3), (3, 2), (4, 3), (4, 15)] {
        let g = Geometry { n, b };
        let mut image = with_empty_records(g, 1..=g.capacity() as u16);
        store.done(&mut image, g, &Request::Format);
        for _ in 0..3_000 {
            let block = rng.between(1, g.capacity() + 1) as u16;
            let contents = rng.pick(&[vec![], vec![0xFF], vec![0; 3]]);
            let request = Request::Put { block, contents };
            let (_, list) = steps_of(&image, g, &request);
            let allowance = rng.between(0, list.len());
            store.perform(&mut image, g, &request, allowance as u64);
            if allowance < list.len() && rng.once_in(2) {
                cuts::inside(&mut rng, g, &mut image, list[allowance]);
            }
            store.done(&mut image, g, &Request::Recover);
            let table = table_of(&image, g).expect("clean");
            assert!(table.values().all(|contents| !contents.is_empty()));
            store.read(&image, g, block);
        }
    }
}
