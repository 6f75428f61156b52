//! Without the original's source the crate has the same functions, so that what calls them builds.

use std::collections::BTreeSet;

/// The names behind `pub fn`.
fn functions(files: &[&'static str]) -> BTreeSet<&'static str> {
    let lines = files.iter().flat_map(|file| file.lines());
    let rests = lines.filter_map(|line| line.trim_start().strip_prefix("pub fn "));
    rests.filter_map(|rest| rest.split('(').next()).collect()
}

#[test]
fn the_oracle_that_cannot_be_made_has_every_function() {
    let made = functions(&[
        include_str!("../src/driver.rs"),
        include_str!("../src/trackers.rs"),
    ]);
    let absent = functions(&[include_str!("../src/absent.rs")]);
    assert!(made.contains("run") && made.contains("tracker"));
    assert_eq!(absent, made);
}
