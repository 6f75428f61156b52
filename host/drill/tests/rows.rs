//! A block of more sections than a row has places is refused as the core would refuse it: in its order.

use drill::play::play;
use drill::scenario::read;

/// What each step of a scenario comes to: 0, or the refusal's number.
fn numbers(text: &str) -> Vec<u32> {
    let played = play(&read(text).expect("a scenario")).expect("opened");
    let moments = played.moments();
    moments
        .map(|moment| moment.result.map_or_else(|refusal| refusal.number(), |_| 0))
        .collect()
}

#[test]
fn four_sections_are_refused_in_order() {
    let text = "open 0 0\npeer north 4\npeers north\nchain 1\nheader 1 block:a extension:b proofs:c header:d\n\
        at 0 start\nat 1 pick\nchain 0\nat 2 start\nat 2 pick\nchain 1\nat 3 progress\nat 1 progress\n";
    assert_eq!(numbers(text), [8, 5, 0, 0, 8, 4]);
}

#[test]
fn what_is_cut_off_is_not_lent() {
    let text = "open 0 0\npeer north 4\npeers north\nat 0 start\nat 0 pick\nchain 2\nheader 1 block:a\n\
        header 2 block:b extension:c proofs:d header:e\nat 1 progress\nview 1\nat 1 progress\nview 0\nat 1 progress\n\
        view whole\nchain 1\nat 1 progress\n";
    assert_eq!(numbers(text), [0, 0, 8, 9, 9, 0]);
}
