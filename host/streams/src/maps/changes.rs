//! Sections that arrive and are pruned.

use super::{both, sections, MapScript};
use super::{ABSENT, KINDS, WINDOW};

pub fn scripts() -> Vec<MapScript> {
    let mut scripts = places();
    scripts.extend(orders());
    scripts.extend(edges());
    scripts
}

/// Every place of every kind of height, and places that it lacks.
fn places() -> Vec<MapScript> {
    let mut scripts = Vec::new();
    for height in KINDS {
        let number = |place| if place < sections(height) { 0 } else { 12 };
        let name = format!("places of a height {height}");
        scripts.extend(both(&name, 10, 11, &[height], |mut b| {
            for place in [0, 1, 2, 3, 255] {
                b = b.arrived(11, place, number(place));
            }
            b = b.passable(u32::from(height != ABSENT));
            for place in [255, 3, 2, 1, 0] {
                b = b.pruned(11, place, number(place));
            }
            b.passable(u32::from(height == 0))
        }));
    }
    scripts
}

/// Three sections in every order, each twice, and pruned again.
fn orders() -> Vec<MapScript> {
    let mut scripts = Vec::new();
    for order in [
        [0, 1, 2],
        [0, 2, 1],
        [1, 0, 2],
        [1, 2, 0],
        [2, 0, 1],
        [2, 1, 0],
    ] {
        let name = format!("arrivals in the order {order:?}");
        let [first, second, third] = order;
        scripts.extend(both(&name, 10, 12, &[48, 0], |b| {
            b.arrived(11, first, 0)
                .arrived(11, first, 0)
                .passable(0)
                .arrived(11, second, 0)
                .passable(0)
                .arrived(11, third, 0)
                .passable(2)
                .arrived(11, second, 0)
                .passable(2)
                .pruned(11, first, 0)
                .passable(0)
                .pruned(11, first, 0)
                .arrived(11, first, 0)
                .passable(2)
        }));
    }
    scripts
}

/// At both ends of the window and one outside, of the words of marks, and of the chain.
fn edges() -> Vec<MapScript> {
    let mut scripts = Vec::new();
    let ends = "the first and the last height of the window";
    scripts.extend(both(ends, 1_000, 1_500, &[16; WINDOW], |b| {
        b.arrived(1_000, 0, 12)
            .arrived(1_193, 0, 12)
            .pruned(1_000, 0, 12)
            .pruned(1_193, 0, 12)
            .arrived(0, 0, 12)
            .arrived(u32::MAX, 0, 12)
            .arrived(1_192, 0, 0)
            .passable(0)
            .arrived(1_001, 0, 0)
            .passable(1)
    }));
    let words = "heights at the ends of the words";
    scripts.extend(both(words, 1_000, 1_192, &[16; WINDOW], |b| {
        b.arrived(1_064, 0, 0)
            .arrived(1_065, 0, 0)
            .arrived(1_128, 0, 0)
            .arrived(1_129, 0, 0)
            .pruned(1_064, 0, 0)
            .pruned(1_129, 0, 0)
            .passable(0)
    }));
    let above = "heights above the chain height";
    scripts.extend(both(above, 10, 12, &[33, 17], |b| {
        b.arrived(12, 0, 0)
            .arrived(13, 0, 12)
            .pruned(13, 0, 12)
            .arrived(202, 0, 12)
            .arrived(203, 0, 12)
            .arrived(11, 1, 0)
            .passable(2)
            .pruned(12, 0, 0)
            .passable(1)
    }));
    let far = "arrivals behind an absent header";
    scripts.extend(both(far, 10, 14, &[16, ABSENT, 16, 32], |b| {
        b.arrived(14, 1, 0)
            .arrived(13, 0, 0)
            .arrived(12, 0, 12)
            .arrived(11, 0, 0)
            .passable(1)
    }));
    scripts
}
