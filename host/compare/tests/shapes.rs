//! The streams with ids of a shape go where they are meant to go: full tables, one call too many.

use keeper_compare::cases::script_lines;
use keeper_play::record;
use keeper_reference::Reference;
use keeper_streams::directed;
use keeper_streams::shapes::Shape;
use keeper_streams::text::Line;

#[test]
fn every_step_finishes_but_the_one_that_asks_for_too_much() {
    let mut streams = 0;
    for script in directed::scripts() {
        if !script.name.starts_with("ids of a shape") {
            continue;
        }
        let lines = record(&Reference::plain(), &script_lines(&script)).expect("can be played");
        let refused = lines.iter().filter_map(|line| match line {
            Line::Answer(numbers) if numbers[0] != 0 => Some(numbers[0]),
            _ => None,
        });
        assert_eq!(refused.collect::<Vec<_>>(), [10], "{}", script.name);
        streams += 1;
    }
    assert_eq!(streams, Shape::HOSTILE.len());
}
