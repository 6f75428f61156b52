//! The shipped scenarios: they hold, they are told as stored, and they are drawn whole.

use drill::drawing::Drawing;
use drill::play::{play, Played};
use drill::scenario::read;
use drill::shipped::SCENARIOS;
use drill::timeline;
use std::collections::BTreeSet;
use std::path::PathBuf;
use std::{env, fs};

fn played(text: &str) -> Played {
    play(&read(text).expect("well formed")).expect("opened")
}

#[test]
fn every_file_of_the_folder_is_shipped() {
    let folder = PathBuf::from(env!("CARGO_MANIFEST_DIR")).join("scenarios");
    let mut files = BTreeSet::new();
    for entry in fs::read_dir(folder).expect("the folder") {
        let path = entry.expect("an entry").path();
        if path.extension().is_some_and(|ending| ending == "drill") {
            let name = path.file_stem().expect("a name").to_string_lossy();
            files.insert(name.into_owned());
        }
    }
    let shipped = SCENARIOS.iter().map(|(name, _)| name.to_string());
    assert_eq!(files, shipped.collect());
}

#[test]
fn all_expectations_hold() {
    for (name, text) in SCENARIOS {
        let played = played(text);
        assert!(
            played.as_expected(),
            "{name}\n{}",
            timeline::timeline(&played)
        );
        assert!(played.verdicts().count() > 10, "{name}");
        assert!(!played.title.is_empty(), "{name}");
    }
}

/// `DRILL_WRITE_TIMELINES=1 cargo test -p drill` writes them anew.
#[test]
fn timelines_are_as_stored() {
    let folder = PathBuf::from(env!("CARGO_MANIFEST_DIR")).join("tests/timelines");
    for (name, text) in SCENARIOS {
        let told = timeline::timeline(&played(text));
        let file = folder.join(format!("{name}.txt"));
        if env::var_os("DRILL_WRITE_TIMELINES").is_some() {
            fs::write(&file, &told).expect("written");
        }
        let stored = fs::read_to_string(&file).unwrap_or_default();
        assert!(stored == told, "{name} is told otherwise:\n{told}");
    }
}

/// The numbers behind "line" in a scenario's comments.
fn lines_named(text: &str) -> Vec<usize> {
    let comments = text.lines().filter_map(|line| line.strip_prefix('#'));
    let comments: Vec<&str> = comments.collect();
    let named = comments.join("").replace("  ", " ");
    let numbers = named.split(" line ").skip(1).map(|after| {
        let digits: String = after.chars().take_while(char::is_ascii_digit).collect();
        digits.parse().expect("a line number")
    });
    numbers.collect()
}

/// A comment that says "goes wrong in line N" points at the line marked `# here`; other numbers at expectations.
#[test]
fn comments_point_at_the_right_line() {
    let mut found = 0;
    for (name, text) in SCENARIOS {
        let line = |number: usize| text.lines().nth(number - 1).expect("a line");
        let named = lines_named(text);
        for number in &named {
            assert!(line(*number).starts_with("expect"), "{name}: {number}");
        }
        if let Some(first) = named.first() {
            assert!(line(*first).ends_with("# here"), "{name}: {first}");
            found += 1;
        }
    }
    assert_eq!(found, 7);
}

/// Tags that are opened and not closed, in order; an error for a wrong end.
fn balanced(svg: &str) -> Result<(), String> {
    let mut open = Vec::new();
    for part in svg.split('<').skip(1) {
        let (tag, _) = part.split_once('>').ok_or("a tag without its end")?;
        if tag.starts_with('?') || tag.ends_with('/') {
            continue;
        }
        let name = tag
            .split_whitespace()
            .next()
            .unwrap_or_default()
            .to_string();
        match name.strip_prefix('/') {
            None => open.push(name),
            Some(name) => {
                if open.pop().as_deref() != Some(name) {
                    return Err(format!("</{name}> closes another tag"));
                }
            }
        }
    }
    if open.is_empty() {
        Ok(())
    } else {
        Err(format!("not closed: {open:?}"))
    }
}

#[test]
fn drawings_are_well_formed_with_one_lane_an_id() {
    for (name, text) in SCENARIOS {
        let played = played(text);
        let drawing = Drawing::of(&played).expect("not too long");
        assert_eq!(drawing.pages(), 1, "{name}");
        let svg = drawing.svg(0);
        balanced(&svg).unwrap_or_else(|fault| panic!("{name}: {fault}"));
        assert!(
            svg.starts_with("<?xml") && svg.ends_with("</svg>\n"),
            "{name}"
        );
        let ids: BTreeSet<_> = played
            .moments()
            .flat_map(|moment| &moment.fates)
            .map(|fate| fate.id)
            .collect();
        assert_eq!(svg.matches("class=\"lane\"").count(), ids.len(), "{name}");
        let steps = played.moments().count();
        assert_eq!(svg.matches("class=\"step\"").count(), steps, "{name}");
    }
    assert!(balanced("<a><b></a>").is_err() && balanced("<a>").is_err());
}
