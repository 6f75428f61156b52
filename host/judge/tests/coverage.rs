//! The judge's streams begin with an opening and hold no damaged byte. They still tell every faulty variant of a rule
//! from the plain rules.

use keeper_judge::{streams, Draw, Stream};
use keeper_play::{record, told_apart};
use keeper_reference::Reference;
use keeper_streams::text::Line;
use keeper_variants::Variant;
use std::collections::BTreeSet;

/// Numbers that a pupil can meet. The other refusals are given for malformed areas, lists and views.
const MET: [u64; 7] = [0, 4, 5, 6, 9, 10, 11];

/// Whether only bytes, a state, a map, a forecast or a mean age show the fault that no pupil's keeper meets.
fn not_asked(variant: &Variant) -> bool {
    const PLACES: [&str; 11] = [
        "refusal 1",
        "refusal 2",
        "refusal 3",
        "refusal 6",
        "refusal 7",
        "refusal 8",
        "order of refusals",
        keeper_variants::MAP,
        keeper_variants::FORECAST,
        keeper_variants::VERSIONS,
        keeper_variants::MEAN_AGE,
    ];
    const FLAGS: [&str; 2] = [
        "flags of a sync info are looked at in a sync info only",
        "any other byte than 0 is an open gate",
    ];
    // 2^32 sends, and a sync peer that is stalled: picking it empties the set.
    const STATES: [&str; 2] = [
        "sends counted stop at 2^32 - 1",
        "the stalled peer joins a second time",
    ];
    let fault = &variant.fault;
    PLACES.contains(&variant.place) || FLAGS.contains(fault) || STATES.contains(fault)
}

fn recorded(stream: &Stream) -> Vec<Line> {
    let name = Line::Stream(stream.name.clone());
    let calls: Vec<Line> = std::iter::once(name).chain(stream.asked()).collect();
    record(&Reference::plain(), &calls).expect("the reference plays it")
}

#[test]
fn every_variant_of_a_rule_is_told() {
    let draw = Draw {
        streams: 150,
        seed: 1,
        steps: 60,
        questions: true,
    };
    let mut left = keeper_variants::all();
    left.retain(|variant| !not_asked(variant));
    assert!(left.len() > 100);
    let mut numbers = BTreeSet::new();
    let drawn: Vec<Stream> = streams(draw)
        .map(|stream| stream.expect("the core plays it"))
        .collect();
    // Far apart in the list, so that streams of every sort come soon and few variants are left early.
    for index in 0..drawn.len() {
        let lines = recorded(&drawn[index * 397 % drawn.len()]);
        left.retain(|variant| !told_apart(&variant.keeper, &lines));
        numbers.extend(lines.iter().filter_map(|line| match line {
            Line::Answer(numbers) => numbers.first().copied(),
            _ => None,
        }));
        if left.is_empty() && numbers.iter().eq(&MET) {
            break;
        }
    }
    assert_eq!(Vec::from_iter(numbers), MET);
    let untold: Vec<&str> = left.iter().map(|variant| variant.fault).collect();
    assert!(untold.is_empty(), "{untold:?}");
}
