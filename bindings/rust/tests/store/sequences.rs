//! Long sequences of requests without a cut: the plain table (demand 2) and the erases (demand 3).

use crate::harness::Store;
use crate::heads::Heads;
use crate::images::{self, formatted};
use crate::prng::Rng;
use crate::reference::*;
use std::collections::{BTreeMap, HashSet};

/// What the acknowledged requests made.
pub type Table = BTreeMap<u16, Vec<u8>>;

pub fn table_of(image: &[u8], g: Geometry) -> Option<Table> {
    table(image, g).map(|entries| entries.into_iter().collect())
}

/// How a sequence chooses its requests.
#[derive(Clone, Copy, Debug)]
pub enum Habit {
    /// Anything, refused requests included.
    Mixed,
    /// One block again and again beside a full store: the most tidying for each rewrite.
    OneBlock,
    /// All blocks in turn.
    InTurn,
    /// Deletes and new blocks at the capacity.
    Churn,
}

pub const HABITS: [Habit; 4] = [Habit::Mixed, Habit::OneBlock, Habit::InTurn, Habit::Churn];

pub fn choose(rng: &mut Rng, habit: Habit, g: Geometry, i: usize, stored: &Table) -> Request {
    let capacity = g.capacity();
    let contents = if g.n * g.b > 200 {
        rng.bytes(2)
    } else {
        images::put_contents(rng)
    };
    let any = rng.between(1, capacity + 2) as u16;
    let put = |block, contents| Request::Put { block, contents };
    match habit {
        Habit::OneBlock if stored.len() < capacity => put(stored.len() as u16 + 1, contents),
        Habit::OneBlock => put(1, contents),
        Habit::InTurn => put((i % capacity) as u16 + 1, contents),
        Habit::Churn if stored.len() == capacity && rng.once_in(2) => {
            Request::Delete { block: any }
        }
        Habit::Churn => put(any, contents),
        Habit::Mixed => match rng.below(16) {
            0 | 1 => Request::Delete { block: any },
            2 => Request::Recover,
            3 => put(rng.pick(&[0, 1, 65_534, 65_535]), contents),
            4 => put(any, rng.bytes(249)),
            _ => put(any, contents),
        },
    }
}

/// The counts of demand 3 since the format.
struct Erases {
    g: Geometry,
    by_index: Vec<usize>,
    rewrites: usize,
    most_stored: usize,
}

impl Erases {
    fn new(g: Geometry) -> Erases {
        Erases {
            g,
            by_index: vec![0; g.n],
            rewrites: 0,
            most_stored: 0,
        }
    }

    /// Counts what a request does. `list` is its step list.
    fn count(&mut self, list: &[Step]) {
        let mut here = 0;
        for step in list {
            if let Step::Erase { index } = step {
                self.by_index[*index] += 1;
                here += 1;
            }
        }
        assert!(here < self.g.n, "at most N-1 erases in a request");
    }

    fn check(&self) {
        let Geometry { n, b } = self.g;
        let total: usize = self.by_index.iter().sum();
        let free = (n - 1) * b - self.most_stored;
        assert!(total / (n - 1) * free <= self.rewrites, "the bound");
        let most = self.by_index.iter().max().unwrap();
        let fewest = self.by_index.iter().min().unwrap();
        assert!(most - fewest <= 1, "the balance");
    }
}

/// What a plain table answers to a request, which it carries out.
fn plain(request: &Request, g: Geometry, stored: &mut Table, erases: &mut Erases) -> u8 {
    match request {
        Request::Put {
            block: 0 | 0xFFFF, ..
        }
        | Request::Delete { block: 0 | 0xFFFF } => NUMBER,
        Request::Put { contents, .. } if !(1..=MAX_LENGTH).contains(&contents.len()) => LENGTH,
        Request::Put { block, contents } => {
            let is_stored = stored.contains_key(block);
            if !is_stored && stored.len() == g.capacity() {
                FULL
            } else {
                stored.insert(*block, contents.clone());
                erases.rewrites += usize::from(is_stored);
                DONE
            }
        }
        Request::Delete { block } => match stored.remove(block) {
            Some(_) => {
                erases.rewrites += 1;
                DONE
            }
            None => ABSENT,
        },
        Request::Recover | Request::Format => DONE,
    }
}

/// A sequence from a format; returns the erases.
fn sequence(store: &Store, rng: &mut Rng, g: Geometry, habit: Habit, requests: usize) -> usize {
    let start = (formatted(g), Table::new());
    sequence_from(store, rng, g, start, habit, requests)
}

/// One from a fresh image on, with the blocks that it has at the start.
pub fn sequence_from(
    store: &Store,
    rng: &mut Rng,
    g: Geometry,
    (mut image, mut stored): (Vec<u8>, Table),
    habit: Habit,
    requests: usize,
) -> usize {
    let mut erases = Erases::new(g);
    erases.most_stored = stored.len();
    for i in 0..requests {
        let request = choose(rng, habit, g, i, &stored);
        let (_, list) = steps_of(&image, g, &request);
        let reply = store.perform(&mut image, g, &request, UNLIMITED);
        assert_eq!(reply.steps, list.len() as u64);
        erases.count(&list);

        let expected = plain(&request, g, &mut stored, &mut erases);
        assert_eq!(reply.code, expected, "{request:?}");
        erases.most_stored = erases.most_stored.max(stored.len());
        erases.check();

        let block = rng.between(1, g.capacity() + 2) as u16;
        let read = store.read(&image, g, block);
        match stored.get(&block) {
            Some(contents) => {
                assert_eq!(read.code, DONE);
                assert_eq!(image[read.offset..read.offset + read.length], contents[..]);
            }
            None => assert_eq!(read.code, ABSENT),
        }
        if i % 16 == 0 {
            assert!(table_of(&image, g) == Some(stored.clone()));
        }
    }
    assert!(table_of(&image, g) == Some(stored));
    erases.by_index.iter().sum()
}

#[test]
fn small_chips() {
    let store = Store::new("sequences on small chips");
    let mut rng = Rng::new(0x5E91);
    for (n, b) in [
        (2, 2),
        (2, 3),
        (3, 2),
        (3, 3),
        (4, 2),
        (5, 4),
        (4, 15),
        (7, 3),
        (2, 9),
        (9, 2),
    ] {
        for habit in HABITS {
            let erases = sequence(&store, &mut rng, Geometry { n, b }, habit, 1_500);
            assert!(erases > n, "{habit:?} tidies at N={n}, B={b}");
        }
    }
}

#[test]
fn corners_of_the_geometry() {
    let store = Store::new("sequences at the corners of the geometry");
    let mut rng = Rng::new(0xC0DE);
    for (n, b, requests) in [
        (2, 255, 1_200),
        (64, 2, 1_200),
        (64, 3, 600),
        (63, 2, 600),
        (65, 2, 600),
        (128, 2, 600),
        (254, 2, 800),
        (255, 2, 1_200),
        (3, 254, 700),
        (16, 16, 700),
        (33, 7, 500),
    ] {
        for habit in HABITS {
            sequence(&store, &mut rng, Geometry { n, b }, habit, requests);
        }
    }
}

/// The large chips, from images made up nearly full, so that tidying comes at once.
#[test]
fn large_chips() {
    let store = Store::new("sequences on large chips");
    let mut rng = Rng::new(0xB16);
    for (n, b, rounds, requests) in [
        (16, 255, 6, 40),
        (64, 255, 3, 16),
        (63, 254, 2, 16),
        (2, 255, 10, 40),
        (64, 100, 3, 25),
        (40, 64, 6, 25),
        (65, 255, 1, 10),
        (128, 128, 2, 10),
        (254, 255, 1, 4),
        (255, 254, 1, 4),
        (255, 255, 2, 6),
    ] {
        let g = Geometry { n, b };
        for _ in 0..rounds {
            let mut shape = images::shape(&mut rng, g);
            shape.oldest %= 90_000;
            shape.dead = rng.pick(&[0, 1]);
            shape.heads = rng.pick(&[Heads::Fresh, Heads::Early]);
            let mut image = images::clean(&mut rng, g, shape);
            for _ in 0..requests {
                let before = table_of(&image, g).expect("clean");
                let any = match rng.below(3) {
                    0 => rng.between(1, 65_534) as u16,
                    _ => {
                        let keys: Vec<u16> = before.keys().copied().collect();
                        rng.pick(&keys)
                    }
                };
                let request = match rng.below(8) {
                    0 => Request::Delete { block: any },
                    1 => Request::Recover,
                    _ => Request::Put {
                        block: any,
                        contents: images::put_contents(&mut rng),
                    },
                };
                let reply = store.perform(&mut image, g, &request, UNLIMITED);
                let mut expected = before;
                if reply.code == DONE {
                    match request {
                        Request::Put { block, contents } => {
                            expected.insert(block, contents);
                        }
                        Request::Delete { block } => {
                            expected.remove(&block);
                        }
                        _ => {}
                    }
                }
                assert!(table_of(&image, g) == Some(expected));
                store.read(&image, g, any);
            }
        }
    }
}

/// Every sequence of a few requests with two blocks, image by image.
#[test]
fn all_short_sequences() {
    let store = Store::new("all short sequences");
    for (n, b, depth) in [(2, 2, 12), (2, 3, 10), (3, 2, 9)] {
        let g = Geometry { n, b };
        let mut requests = vec![Request::Recover];
        for block in 1..=2 {
            requests.push(Request::Delete { block });
            for contents in [vec![], vec![0x41], vec![0x42, 0x43]] {
                requests.push(Request::Put { block, contents });
            }
        }
        let mut seen: HashSet<Vec<u8>> = HashSet::new();
        let mut level = vec![formatted(g)];
        for _ in 0..depth {
            let mut next = Vec::new();
            for image in level {
                for request in &requests {
                    let mut after = image.clone();
                    store.perform(&mut after, g, request, UNLIMITED);
                    if seen.insert(after.clone()) {
                        next.push(after);
                    }
                }
            }
            level = next;
        }
    }
}

/// Every block number, on an image that holds some of them.
#[test]
fn every_block_number() {
    let store = Store::new("every block number");
    let g = Geometry { n: 2, b: 6 };
    let mut image = formatted(g);
    let blocks = [1, 255, 256, 65_534];
    for block in blocks {
        put(&mut image, g, block, b"x", UNLIMITED);
    }
    for block in 0..=u16::MAX {
        let code = match block {
            0 | 0xFFFF => NUMBER,
            _ if blocks.contains(&block) => DONE,
            _ => ABSENT,
        };
        assert_eq!(store.read(&image, g, block).code, code);
        let delete = Request::Delete { block };
        let mut copy = image.clone();
        assert_eq!(store.perform(&mut copy, g, &delete, UNLIMITED).code, code);
    }
}
