//! Request #107: a slot that reads 5F comes from a cut, one that reads 1F from a rewrite or a delete.
//! Lives of small stores from a format on, each request cut anywhere or not at all.

use crate::cuts;
use crate::harness::{put_of, Store};
use crate::images::formatted;
use crate::prng::Rng;
use crate::reference::*;
use std::collections::BTreeSet;

/// The slots of this kind, each by its segment's number and its place there. The segment after an
/// owing top is being erased and is left aside.
fn slots_of(wanted: Kind, image: &[u8], g: Geometry) -> BTreeSet<(u32, usize)> {
    let headers: Vec<_> = (0..g.n).map(|index| header(image, g, index)).collect();
    let top = headers.iter().flatten().max_by_key(|found| found.number);
    let owing = top.filter(|top| top.owing);
    let aside = owing.map(|top| g.index(top.number + 1));
    let mut found = BTreeSet::new();
    for (index, head) in headers.iter().enumerate() {
        let Some(head) = head.filter(|_| aside != Some(index)) else {
            continue;
        };
        for slot in 1..=g.b {
            if kind(&image[g.page(index, slot)..][..PAGE]) == wanted {
                found.insert((head.number, slot));
            }
        }
    }
    found
}

/// How the power was while a request ran.
#[derive(Clone, Copy, PartialEq, Eq)]
enum Power {
    Stayed,
    WentBetween,
    WentInside,
}

/// A request of a life, and the images before and after it.
struct Turn<'a> {
    g: Geometry,
    what: &'a Request,
    power: Power,
    before: &'a [u8],
    after: &'a [u8],
}

impl Turn<'_> {
    /// The slots that are of this kind now and were not.
    fn made(&self, wanted: Kind) -> BTreeSet<(u32, usize)> {
        &slots_of(wanted, self.after, self.g) - &slots_of(wanted, self.before, self.g)
    }

    /// 5F is made by the recovery of (c), of the one slot that was torn, and by nothing else. How
    /// many there are more.
    fn hold_cut(&self) -> usize {
        let cut = self.made(Kind::Cut);
        let torn = slots_of(Kind::Torn, self.before, self.g);
        let state = state_of(self.before, self.g);
        if matches!(state, State::Unfinished(Unfinished::C { .. })) && self.before != self.after {
            assert_eq!((&cut, torn.len()), (&torn, 1));
            assert_eq!(*self.what, Request::Recover);
        } else {
            assert!(cut.is_empty());
        }
        cut.len()
    }

    /// A torn slot is what a cut put leaves, and it leaves one at most.
    fn hold_torn(&self) {
        let torn = self.made(Kind::Torn);
        let cut_put = self.power != Power::Stayed && matches!(self.what, Request::Put { .. });
        assert!(torn.len() <= usize::from(cut_put));
    }

    /// 1F is made by a put of a block that is stored, a delete, or the recovery of (d), which ends a
    /// rewrite that was cut; one each.
    fn hold_dead(&self) {
        let replaces = match self.what {
            Request::Format => false,
            Request::Put { block, .. } => read(self.before, self.g, *block).code == DONE,
            Request::Delete { .. } => true,
            Request::Recover => matches!(
                state_of(self.before, self.g),
                State::Unfinished(Unfinished::D { .. })
            ),
        };
        assert!(self.made(Kind::Dead).len() <= usize::from(replaces));
    }
}

/// A request, whole or cut. The image afterwards.
fn ask(store: &Store, rng: &mut Rng, turn: (&[u8], Geometry, &Request, Power)) -> Vec<u8> {
    let (image, g, what, power) = turn;
    let mut after = image.to_vec();
    let (_, list) = steps_by(Rules::Present, image, g, what);
    if power == Power::Stayed || list.is_empty() {
        store.perform(&mut after, g, what, UNLIMITED);
        return after;
    }
    let done = rng.below(list.len());
    store.perform(&mut after, g, what, done as u64);
    if power == Power::WentInside {
        cuts::inside(rng, g, &mut after, list[done]);
    }
    after
}

/// Puts, deletes and recoveries of few blocks, of which one in `cut_in` is cut, if that is not 0.
/// How many slots were marked 5F.
fn live(store: &Store, g: Geometry, seed: u64, cut_in: usize) -> usize {
    let mut rng = Rng::new(seed);
    let mut image = formatted(g);
    let (mut cuts, mut marked) = (0, 0);
    for _ in 0..400 {
        let block = rng.between(1, 1 + g.capacity()) as u16;
        let what = match rng.below(6) {
            0 => Request::Delete { block },
            1 => Request::Recover,
            _ if matches!(state_of(&image, g), State::Unfinished(_)) => Request::Recover,
            _ => put_of(block, &[rng.byte()]),
        };
        let power = match cut_in {
            0 => Power::Stayed,
            _ if !rng.once_in(cut_in) => Power::Stayed,
            _ => rng.pick(&[Power::WentBetween, Power::WentInside]),
        };
        let after = ask(store, &mut rng, (&image, g, &what, power));
        cuts += usize::from(power != Power::Stayed);
        let turn = Turn {
            g,
            what: &what,
            power,
            before: &image,
            after: &after,
        };
        marked += turn.hold_cut();
        turn.hold_torn();
        turn.hold_dead();
        image = after;
    }
    assert!(marked <= cuts, "one for each cut at most");
    store.account(&image, g);
    marked
}

#[test]
fn marks_tell_where_they_come_from() {
    let store = Store::new("where marks come from");
    for (n, b) in [(2, 2), (2, 3), (3, 2), (4, 15), (16, 5)] {
        let g = Geometry { n, b };
        for seed in 0..12 {
            assert_eq!(live(&store, g, seed, 0), 0, "no cut, no mark");
            let marked: usize = [1, 2, 5]
                .map(|cut_in| live(&store, g, seed, cut_in))
                .iter()
                .sum();
            assert!(marked > 10, "marks were made");
        }
    }
}
