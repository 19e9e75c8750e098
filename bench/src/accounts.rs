//! The account of request #101 on full chips whose block numbers lie in any order: the references
//! sort, and format each line; the library does not.

use crate::prng::Rng;
use crate::reference::{Geometry, DONE, LIVE};
use crate::{by_bytes, by_words, print_heads, print_row, turns, typed, written, Times};
use std::hint::black_box;

/// A row for each chip, N and B with the number of runs.
pub fn rows(chips: &[(usize, usize, usize)]) {
    print_heads("account, blocks in any order", "bytes");
    for &(n, b, runs) in chips {
        let g = Geometry { n, b };
        row(g, &shuffled(g), runs);
    }
}

/// A clean image at its capacity, each slot with another number than its place.
pub fn shuffled(g: Geometry) -> Vec<u8> {
    let blocks = g.capacity();
    let mut image = written(g, blocks, blocks, 0);
    let mut numbers: Vec<u16> = (1..=blocks as u16).collect();
    Rng::new(101).shuffle(&mut numbers);
    let slots = (0..g.n).flat_map(|index| (1..=g.b).map(move |slot| g.page(index, slot)));
    let live: Vec<usize> = slots.filter(|&at| image[at] == LIVE).collect();
    for (at, number) in live.into_iter().zip(numbers) {
        image[at + 2..at + 4].copy_from_slice(&number.to_le_bytes());
    }
    image
}

fn row(g: Geometry, image: &[u8], runs: usize) {
    let words = by_words::reference::Geometry { n: g.n, b: g.b };
    let most = typed(g).account_len().expect("a geometry in range");
    let mut times = Times::default();
    let mut buffers = [(); 3].map(|()| vec![0; most]);
    let mut replies = [(0, 0); 3];
    for run in 0..runs {
        for side in turns(run) {
            let image = black_box(image);
            let buffer = black_box(buffers[side].as_mut_slice());
            buffer.fill(0);
            replies[side] = times.add(side, || match side {
                0 => by_bytes::account::account_into(image, g, buffer),
                1 => by_words::account::account_into(image, words, buffer),
                _ => {
                    let account = typed(g).account_into(image, buffer);
                    (account.answer.number(), account.length)
                }
            });
        }
        assert_eq!(replies[0].0, DONE);
        assert!(replies[0] == replies[1] && replies[0] == replies[2]);
        assert!(
            buffers[0] == buffers[1] && buffers[0] == buffers[2],
            "the texts differ"
        );
    }
    assert!(buffers[0][..replies[0].1].ends_with(b"recover 0 steps 0\n"));
    let name = format!("N={}, B={}, {} blocks", g.n, g.b, g.capacity());
    print_row(&name, &replies[0].1.to_string(), times);
}
