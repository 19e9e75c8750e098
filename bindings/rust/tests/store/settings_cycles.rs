//! Request #109: "The newest is the run's last: prove for every P and every point of the cycle, from all
//! statuses 255 on with one P and only this writer, that its status was set last." Here it is run: 255 × P
//! moves, after which partitions and statuses meet as in the beginning, and some more; a cut before every
//! status and at an earlier step, and on small boards at all of them.

use crate::harness::Store;
use crate::prng::Rng;
use crate::reference::{CUT, DONE};
use crate::settings_boards::{any_entry, any_layout, POWERS};
use crate::settings_harness::{Board, Table};
use crate::settings_reference::{statuses, steps_of, Step, BLANK};

/// A board in the course of its life, and what is known of it without looking at its statuses.
struct Life {
    board: Board,
    image: Vec<u8>,
    table: Table,
    /// How many statuses were set.
    moves: usize,
    /// Which of them each partition has: none, if it was erased since.
    set: Vec<Option<usize>>,
}

impl Life {
    /// All statuses 255, and anything in the other bytes.
    fn new(rng: &mut Rng, partitions: usize) -> Life {
        let (items, longest) = (rng.between(2, 4), rng.pick(&[1, 2, 4]));
        let board = Board::new(partitions, &any_layout(rng, items, longest));
        let size = board.used() + rng.below(3);
        let mut image = rng.bytes(partitions * size);
        image
            .iter_mut()
            .step_by(size)
            .for_each(|status| *status = BLANK);
        Life {
            board,
            image,
            table: Table::new(),
            moves: 0,
            set: vec![None; partitions],
        }
    }

    /// Each item reads as in the plain map, in the partition whose status was set last; and every status
    /// is what was set there.
    fn check(&self, store: &Store) {
        let last = self.moves.checked_sub(1);
        let newest = last.map(|last| last % self.board.partitions);
        assert!(self.board.shown(store, &self.image, newest) == self.table);
        let size = self.image.len() / self.board.partitions;
        let statuses = statuses(&self.image, size);
        for (status, set) in statuses.into_iter().zip(&self.set) {
            assert_eq!(status, set.map_or(BLANK, |set| (set % 255) as u8));
        }
    }

    /// The steps of a write, and whether it sets a status.
    fn steps(&self, item: u8, data: &[u8]) -> (u64, bool) {
        let Board { partitions, layout } = &self.board;
        let list = steps_of(&self.image, *partitions, layout, item, data);
        let list = list.expect("a board that is right");
        (list.len() as u64, matches!(list[0], Step::Erase { .. }))
    }

    /// A write with this allowance, which cuts it.
    fn cut(&mut self, store: &Store, item: u8, data: &[u8], allowance: u64) {
        let (_, sets) = self.steps(item, data);
        let board = &self.board;
        let reply = board.write(store, &mut self.image, item, data, allowance);
        assert_eq!((reply.code, reply.steps), (CUT, allowance));
        if sets && allowance > 0 {
            self.set[self.moves % self.board.partitions] = None;
        }
        self.check(store);
    }

    /// A write that is finished.
    fn write(&mut self, store: &Store, item: u8, data: &[u8]) {
        let (steps, sets) = self.steps(item, data);
        let board = &self.board;
        let reply = board.write(store, &mut self.image, item, data, steps);
        assert_eq!((reply.code, reply.steps), (DONE, steps));
        self.table.insert(item, data.to_vec());
        if sets {
            self.set[self.moves % self.board.partitions] = Some(self.moves);
            self.moves += 1;
        }
        self.check(store);
    }
}

/// A whole cycle and a little more. Each write is cut before its last step; where `everywhere`, at all
/// earlier ones too, otherwise at one of them; and then begun again, or left for another.
fn cycle(store: &Store, rng: &mut Rng, partitions: usize, everywhere: bool) {
    let mut life = Life::new(rng, partitions);
    life.check(store);
    while life.moves < 255 * partitions + 3 {
        let (mut item, mut data) = any_entry(rng, &life.board);
        // A cut of a write in place leaves half an item, so that the list is another one afterwards.
        let (steps, _) = life.steps(item, &data);
        let early = if everywhere {
            (0..steps - 1).collect()
        } else {
            vec![rng.below(steps as usize) as u64]
        };
        for allowance in early {
            if allowance < life.steps(item, &data).0 {
                life.cut(store, item, &data, allowance);
            }
        }
        let (steps, _) = life.steps(item, &data);
        life.cut(store, item, &data, steps - 1);
        if rng.once_in(8) {
            (item, data) = any_entry(rng, &life.board);
        }
        life.write(store, item, &data);
    }
}

#[test]
fn whole_cycles() {
    let store = Store::new("whole_cycles of settings");
    let mut rng = Rng::new(7_109);
    for partitions in POWERS {
        cycle(&store, &mut rng, partitions, false);
    }
}

#[test]
fn whole_cycles_cut_at_every_step() {
    let store = Store::new("whole_cycles_cut_at_every_step");
    let mut rng = Rng::new(8_109);
    for partitions in [2, 4, 8, 16] {
        cycle(&store, &mut rng, partitions, true);
    }
}

/// Without a cut, the largest P and many layouts for the smallest.
#[test]
fn whole_cycles_without_a_cut() {
    let store = Store::new("whole_cycles_without_a_cut");
    let mut rng = Rng::new(9_109);
    let small = std::iter::repeat_n(2, 20);
    for partitions in small.chain(POWERS) {
        let mut life = Life::new(&mut rng, partitions);
        while life.moves < 255 * partitions + 3 {
            let (item, data) = any_entry(&mut rng, &life.board);
            life.write(&store, item, &data);
        }
    }
}
