//! The fixed list: its text form, the reference's answers, and the variants.

use keeper_compare::{keepers, list, tell};

const LIST: &str = include_str!("../../fixed/streams.txt");

#[test]
fn under_a_megabyte() {
    assert!(LIST.len() < 1_000_000);
}

#[test]
fn written_as_it_is_read() {
    let lines = keeper_play::read(LIST).expect("every line is one");
    assert_eq!(list::write(&lines), LIST);
}

#[test]
fn reference_and_core_answer_so() {
    let lines = keeper_play::read(LIST).expect("every line is one");
    for keeper in keepers::all() {
        assert!(keeper_play::replay(keeper, &lines).is_ok());
    }
}

#[test]
fn every_variant_is_told_apart() {
    let lines = keeper_play::read(LIST).expect("every line is one");
    let variants = keeper_variants::all();
    assert!(variants.len() >= 50);
    let untold = tell::untold(&variants, &lines);
    let faults: Vec<&str> = untold.iter().map(|variant| variant.fault).collect();
    assert!(faults.is_empty(), "{faults:?}");
}

#[test]
fn a_variant_that_nothing_tells_is_named() {
    let lines = keeper_play::read(LIST).expect("every line is one");
    let plain = keeper_variants::Variant {
        place: "",
        fault: "none",
        keeper: keeper_reference::Reference::plain(),
    };
    let untold = tell::untold(&[plain], &lines);
    assert_eq!(untold.len(), 1);
}
