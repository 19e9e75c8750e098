//! Request #102 through the binding: a mounted store that owns its borrows gives what the reference
//! gives, and a cut takes it away.

use crate::harness::{put_of, Store};
use crate::images::{self, formatted};
use crate::mounted_harness::any_table;
use crate::mounted_reference::{self as mounted, Lent};
use crate::prng::Rng;
use crate::reference::{self, *};
use crate::sequences;
use qanbillox::{Answer, Block, Mounted, PLACES};

fn typed(g: Geometry) -> qanbillox::Geometry {
    qanbillox::Geometry {
        segments: g.n,
        slots: g.b,
    }
}

fn perform(store: &mut Mounted<'_>, request: &Request, allowance: u64) -> Reply {
    let outcome = match request {
        Request::Put { block, contents } => store.put(Block(*block), contents, allowance),
        Request::Delete { block } => store.delete(Block(*block), allowance),
        _ => unreachable!("no mounted request"),
    };
    Reply {
        code: outcome.answer.number(),
        steps: outcome.steps,
    }
}

/// The same piece of the same image.
fn compare_read(store: &Mounted<'_>, lent: Lent, block: u16) {
    let read = store.read(Block(block));
    let expected = mounted::read(lent, block);
    let told = ReadReply {
        code: read.answer.number(),
        offset: read.offset,
        length: read.contents.len(),
    };
    assert_eq!(told, expected);
    let piece = &store.image()[expected.offset..][..expected.length];
    assert_eq!(read.contents.as_ptr_range(), piece.as_ptr_range());
}

fn any_request(rng: &mut Rng, g: Geometry) -> Request {
    let block = rng.between(0, g.capacity() + 2) as u16;
    match rng.below(4) {
        0 => Request::Delete { block },
        _ => put_of(block, &images::put_contents(rng)),
    }
}

/// Runs that end with a cut; then come refusals, a recovery without the table, and another mount.
#[test]
fn runs() {
    let count = Store::new("mounted stores of the binding");
    let mut rng = Rng::new(0x102E);
    for (n, b) in [(2, 2), (3, 2), (4, 15), (255, 2)] {
        let g = Geometry { n, b };
        let mut image = formatted(g);
        let mut places = any_table(PLACES);
        let mut expected = image.clone();
        let mut table = places.clone();
        for _ in 0..12 {
            assert_eq!(mounted::mount(&expected, g, &mut table), DONE);
            let mut store = typed(g).mount(&mut image, &mut places).expect("clean");
            for _ in 0..60 {
                count.count();
                let request = any_request(&mut rng, g);
                let reply = mounted::perform(&mut expected, g, &mut table, &request, UNLIMITED);
                assert_eq!(perform(&mut store, &request, UNLIMITED), reply);
                assert!(store.image() == expected);
                let (image, table) = (&expected[..], &table[..]);
                let block = rng.between(0, g.capacity() + 2) as u16;
                compare_read(&store, Lent { g, image, table }, block);
            }
            // The one that is cut: a rewrite, if there is a block, so that it is not refused.
            let stored = sequences::table_of(&expected, g).expect("clean");
            let request = put_of(stored.keys().next().copied().unwrap_or(1), b"cut");
            let (_, list) = steps_of(&expected, g, &request);
            let allowance = rng.below(list.len()) as u64;
            let reply = mounted::perform(&mut expected, g, &mut table, &request, allowance);
            assert_eq!(reply.code, CUT);
            assert_eq!(perform(&mut store, &request, allowance), reply);
            assert!(store.image() == expected);
            for request in [put_of(1, b"on"), Request::Delete { block: 1 }] {
                let code = UNFINISHED;
                let reply = perform(&mut store, &request, UNLIMITED);
                assert_eq!(reply, Reply { code, steps: 0 });
            }
            assert_eq!(store.read(Block(1)).answer, Answer::Unfinished);
            assert_eq!(store.read(Block(1)).contents, b"");
            assert!(store.image() == expected);

            reference::perform(&mut expected, g, &Request::Recover, UNLIMITED);
            let recovery = typed(g).recover(&mut image, UNLIMITED);
            assert_eq!(recovery.answer, Answer::Done);
            assert!(image == expected);
        }
    }
}

/// What a mount refuses, and that the image is free again then.
#[test]
fn refused_mounts() {
    let chip = typed(Geometry { n: 3, b: 2 });
    let length = chip.image_len().expect("in range");
    let mut image = vec![0xFF; length];
    let mut places = any_table(PLACES);
    let before = places.clone();
    let refused = chip.mount(&mut image[1..], &mut places).err();
    assert_eq!(refused, Some(Answer::Size));
    let refused = chip.mount(&mut image, &mut places[1..]).err();
    assert_eq!(refused, Some(Answer::ShortTable));
    let refused = chip.mount(&mut image, &mut []).err();
    assert_eq!(refused, Some(Answer::ShortTable));
    assert!(places == before);
    match chip.mount(&mut image, &mut places) {
        Err(Answer::Damaged) => assert_eq!(chip.format(&mut image, 5).answer, Answer::Cut),
        other => panic!("{other:?}"),
    }
    assert_eq!(places[0], 0);
    assert_eq!(chip.format(&mut image, UNLIMITED).answer, Answer::Done);
    let cut = chip.put(&mut image, Block(1), b"x", 2).answer;
    assert_eq!(cut, Answer::Cut);
    let unfinished = chip.mount(&mut image, &mut places).unwrap_err();
    assert_eq!(unfinished, Answer::Unfinished);
    assert_eq!(chip.recover(&mut image, UNLIMITED).answer, Answer::Done);
    let store = chip.mount(&mut image, &mut places).expect("clean");
    assert!(format!("{store:?}").len() < 100);
    assert_eq!(store.image().len(), length);
    assert_eq!(store.read(Block(1)).answer, Answer::Absent);
}
