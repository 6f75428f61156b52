//! Examples and versions in the pages are those of the files, and the fixed list is the same wherever it stands.

use keeper_pages::root;
use std::fs;

fn text(name: &str) -> String {
    fs::read_to_string(root().join(name)).unwrap_or_else(|error| panic!("{name}: {error}"))
}

#[test]
fn the_worked_example_is_the_stored_one() {
    let page = text("docs/KEEPER.md");
    for name in ["crates/keeper/stdin", "crates/keeper/stdout"] {
        let lines: String = text(name)
            .lines()
            .map(|line| format!("    {line}\n"))
            .collect();
        assert!(page.contains(&format!("\n\n{lines}\n")), "{name}");
    }
}

#[test]
fn the_newest_changes_are_those_of_the_version() {
    let changes = text("docs/changes/README.md");
    let newest = changes.lines().find_map(|line| line.strip_prefix("## "));
    assert_eq!(newest, Some(env!("CARGO_PKG_VERSION")));
    for name in ["host/speed/Cargo.toml", "host/leaf-speed/Cargo.toml"] {
        let version = format!("version = \"{}\"", env!("CARGO_PKG_VERSION"));
        assert!(text(name).contains(&version), "{name}");
    }
}

#[test]
fn the_fixed_list_is_what_replay_reads() {
    assert!(text("host/fixed/streams.txt") == text("crates/replay/stdin"));
}

#[test]
fn both_licences_are_there() {
    for name in ["LICENSE", "NOTICE"] {
        assert!(text(name).contains("MIT License"), "{name}");
    }
}
