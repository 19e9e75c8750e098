//! Every number of segments and every number of slots.

use crate::damage::try_all;
use crate::harness::Store;
use crate::images;
use crate::prng::Rng;
use crate::reference::*;

/// A life in short: format, some puts and a delete, then images of any age, sound and disturbed.
fn visit(store: &Store, rng: &mut Rng, g: Geometry) {
    let mut image = rng.bytes(64);
    image.resize(g.n * g.segment_len(), 0);
    assert_eq!(store.done(&mut image, g, &Request::Format), g.n as u64 + 21);
    for block in [1, 65_534, 1] {
        let mut contents = images::contents(rng);
        if contents.is_empty() {
            contents.push(0x41);
        }
        let request = Request::Put { block, contents };
        let reply = store.perform(&mut image, g, &request, UNLIMITED);
        assert_eq!(reply.code == FULL, g.capacity() == 1 && block == 65_534);
    }
    store.done(&mut image, g, &Request::Delete { block: 1 });
    assert_eq!(store.read(&image, g, 1).code, ABSENT);

    let shape = images::shape(rng, g);
    let mut image = images::clean(rng, g, shape);
    try_all(store, rng, &image, g);
    images::disturb(rng, g, &mut image);
    try_all(store, rng, &image, g);
}

#[test]
fn every_n() {
    let store = Store::new("every N");
    let mut rng = Rng::new(0x4);
    for n in 2..=255 {
        let few = rng.between(3, 12);
        let many = rng.between(13, 255);
        visit(&store, &mut rng, Geometry { n, b: 2 });
        visit(&store, &mut rng, Geometry { n, b: few });
        // Large images take long: above 64, one N in sixteen.
        if n <= 64 || n % 16 == 15 {
            visit(&store, &mut rng, Geometry { n, b: many });
        }
    }
}

#[test]
fn every_b() {
    let store = Store::new("every B");
    let mut rng = Rng::new(0xB);
    for b in 2..=255 {
        for n in [2, rng.between(3, 8)] {
            visit(&store, &mut rng, Geometry { n, b });
        }
    }
}
