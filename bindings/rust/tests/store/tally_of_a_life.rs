//! Request #104: what the tally says of a chip's life. From a format on, with cuts anywhere, it
//! counts the bits that recoveries cleared; while the top has one left, it is at least the number
//! of erases that recoveries began and at most that of the cuts, and the number and the tally bound
//! the erases of each segment.

use crate::cuts;
use crate::harness::{put_of, Store};
use crate::images::formatted;
use crate::prng::Rng;
use crate::reference::*;
use crate::sequences::table_of;
use std::collections::HashSet;

/// A chip and what has happened to it since its format.
#[derive(Clone, PartialEq, Eq, Hash)]
struct Life {
    g: Geometry,
    image: Vec<u8>,
    cuts: u32,
    /// Bits that recoveries cleared.
    bits: u32,
    /// Erases that recoveries began.
    recovery_erases: u32,
    /// Erases begun on each segment, by whatever request.
    erases: Vec<u32>,
}

impl Life {
    fn new(g: Geometry) -> Life {
        Life {
            g,
            image: formatted(g),
            cuts: 0,
            bits: 0,
            recovery_erases: 0,
            erases: vec![0; g.n],
        }
    }

    fn top(&self) -> u32 {
        let numbers = (0..self.g.n).filter_map(|index| header(&self.image, self.g, index));
        numbers.map(|found| found.number).max().expect("a top")
    }

    /// Counts a step that is done or at least begun. Only recoveries program the bits of a header.
    fn count(&mut self, step: Step, by_recovery: bool) {
        match step {
            Step::Erase { index } => {
                self.erases[index] += 1;
                self.recovery_erases += u32::from(by_recovery);
            }
            Step::Program { at, .. } => {
                let in_header = at % self.g.segment_len() < PAGE;
                let is_bit = in_header && BITS.contains(&(at % PAGE));
                assert!(by_recovery || !is_bit);
                self.bits += u32::from(is_bit);
            }
        }
    }

    /// A request that is cut after so many steps, or inside the next one.
    fn cut(&mut self, store: &Store, rng: &mut Rng, request: &Request, steps: usize, inside: bool) {
        let (_, list) = steps_of(&self.image, self.g, request);
        let by_recovery = *request == Request::Recover;
        let reply = store.perform(&mut self.image, self.g, request, steps as u64);
        list[..steps]
            .iter()
            .for_each(|step| self.count(*step, by_recovery));
        if reply.code == CUT {
            self.cuts += 1;
            if inside {
                let before = self.image.clone();
                cuts::inside(rng, self.g, &mut self.image, list[steps]);
                let erase = matches!(list[steps], Step::Erase { .. });
                if erase || before != self.image {
                    self.count(list[steps], by_recovery);
                }
            }
        }
        self.check();
    }

    /// A request that runs to its end.
    fn whole(&mut self, store: &Store, rng: &mut Rng, request: &Request) {
        let steps = steps_of(&self.image, self.g, request).1.len();
        self.cut(store, rng, request, steps, false);
    }

    fn check(&self) {
        let top = self.top();
        let tally = tally(&self.image, self.g, top);
        assert_eq!(tally.sum, self.bits, "the bits cleared since the format");
        if tally.bit_left {
            assert!(self.recovery_erases <= tally.sum && tally.sum <= self.cuts);
            let most = self.erases.iter().max().expect("a segment");
            assert!(*most <= top / self.g.n as u32 + tally.sum + 1);
        }
    }
}

#[test]
fn many_cuts() {
    let store = Store::new("the tally of a life with many cuts");
    let mut rng = Rng::new(0x11FE2);
    for (n, b, requests) in [
        (2, 2, 6_000),
        (2, 3, 4_000),
        (3, 2, 5_000),
        (4, 3, 3_000),
        (4, 15, 1_500),
        (9, 2, 2_000),
        (64, 2, 500),
        (255, 2, 300),
    ] {
        let g = Geometry { n, b };
        let mut life = Life::new(g);
        for _ in 0..requests {
            let block = rng.between(1, g.capacity()) as u16;
            let request = match rng.below(6) {
                0 => Request::Delete { block },
                _ => put_of(block, &[rng.byte()]),
            };
            let (_, list) = steps_of(&life.image, g, &request);
            let before_erase = list.iter().position(|s| matches!(s, Step::Erase { .. }));
            // Where the erase is comes often.
            let steps = match before_erase {
                Some(place) if rng.once_in(2) => place + rng.below(2),
                _ => rng.between(0, list.len()),
            };
            let inside = rng.once_in(2);
            life.cut(&store, &mut rng, &request, steps, inside);
            while rng.once_in(2) {
                let (_, list) = steps_of(&life.image, g, &Request::Recover);
                let (steps, inside) = (rng.between(0, list.len()), rng.once_in(2));
                life.cut(&store, &mut rng, &Request::Recover, steps, inside);
            }
            life.whole(&store, &mut rng, &Request::Recover);
            assert!(table_of(&life.image, g).is_some());
        }
    }
}

/// Every way to cut a few rewrites and their recoveries between steps, up to three cuts.
#[test]
fn every_life_with_three_cuts() {
    let store = Store::new("the tally of every life with three cuts");
    let mut rng = Rng::new(0x11FE3);
    for (n, b, rewrites) in [(2, 2, 5), (3, 2, 4)] {
        let g = Geometry { n, b };
        let mut level = HashSet::from([Life::new(g)]);
        for i in 0..rewrites {
            // Two different blocks where there is room for them, then the first again and again.
            let block = if i == 1 && g.capacity() > 1 { 2 } else { 1 };
            let mut next = HashSet::new();
            for life in level {
                for cut in every_end(&store, &mut rng, &life, &put_of(block, &[i])) {
                    recoveries(&store, &mut rng, cut, &mut next);
                }
            }
            level = next;
        }
        assert!(level.iter().any(|life| life.recovery_erases >= 2));
        assert!(level.iter().any(|life| life.bits > life.recovery_erases));
    }
}

/// The lives after a request: cut after each number of steps, if there are cuts left, and whole.
fn every_end(store: &Store, rng: &mut Rng, life: &Life, request: &Request) -> Vec<Life> {
    let length = steps_of(&life.image, life.g, request).1.len();
    let first = if life.cuts < 3 { 0 } else { length };
    let ends = (first..=length).map(|steps| {
        let mut life = life.clone();
        life.cut(store, rng, request, steps, false);
        life
    });
    ends.collect()
}

/// Recovers a life in every way, until nothing is left to recover.
fn recoveries(store: &Store, rng: &mut Rng, life: Life, found: &mut HashSet<Life>) {
    if steps_of(&life.image, life.g, &Request::Recover)
        .1
        .is_empty()
    {
        found.insert(life);
        return;
    }
    for next in every_end(store, rng, &life, &Request::Recover) {
        recoveries(store, rng, next, found);
    }
}
