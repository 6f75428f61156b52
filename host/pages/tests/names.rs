//! Every link of the pages leads somewhere, every function, definition and edit that they name is there, and every edit fits
//! its crate.

use keeper_pages::edits::misfit;
use keeper_pages::{root, Missing, Tree};
use std::fs;
use std::path::{Path, PathBuf};

fn pages(root: &Path) -> Vec<PathBuf> {
    let mut pages = Vec::new();
    for folder in ["docs", "docs/changes"] {
        let entries = fs::read_dir(root.join(folder)).expect("there is such a folder");
        let listed = entries.map(|entry| entry.expect("a page").path());
        // The pages on the port and on the design pass list names that are gone.
        let gone = |path: &Path| path.ends_with("PORT.md") || path.ends_with("DESIGN-PASS.md");
        pages.extend(listed.filter(|path| path.is_file() && !gone(path)));
    }
    pages.extend(
        ["README.md", "host/README.md", "host/fixed/README.md"].map(|page| root.join(page)),
    );
    pages
}

#[test]
fn what_the_pages_name_is_there() {
    let root = root();
    let tree = Tree::read(&root).expect("crates can be read");
    for page in pages(&root) {
        let text = fs::read_to_string(&page).expect("the page can be read");
        let folder = page.parent().expect("a page has a folder");
        let missing = tree.missing(folder, &text);
        assert!(missing.is_empty(), "{}: {missing:?}", page.display());
    }
}

#[test]
fn a_name_that_nothing_has_is_noticed() {
    let root = root();
    let tree = Tree::read(&root).expect("crates can be read");
    let text = "`step::run` `step::walk` `Calls.step` `Calls.stride` `Asks.needed` `Asks.heeded`\n\
        `Rattle.model.specs.Calls` `Rattle.model.specs.Calls.step` `Rattle.model.specs.Promises.Asked`\n\
        `Rattle.model.specs.Cells` `Rattle.model.specs.Calls.stride` `Rattle.step.specs.Calls.step`\n\
        edits `step/nine-at-every-step`, `always-continue`, `never-continue`\n\
        [here](docs/LAYOUT.md) [nowhere](docs/NOWHERE.md)";
    let missing = tree.missing(&root, text);
    let expected = [
        (1, "step::walk"),
        (1, "Calls.stride"),
        (1, "Asks.heeded"),
        (3, "Rattle.model.specs.Cells"),
        (3, "Rattle.model.specs.Calls.stride"),
        (3, "Rattle.step.specs.Calls.step"),
        (4, "never-continue"),
        (5, "docs/NOWHERE.md"),
    ];
    let expected = expected.map(|(line, name)| Missing {
        line,
        name: name.to_string(),
    });
    assert_eq!(missing, expected);
}

#[test]
fn every_edit_fits_its_crate() {
    let tree = Tree::read(&root()).expect("crates can be read");
    assert!(tree.misfits.is_empty(), "{:#?}", tree.misfits);
}

#[test]
fn an_edit_that_does_not_fit_is_noticed() {
    let folder = root().join("crates/step");
    let cases = [
        (
            "file: src/lib.rt\nold: pub fn run(\nnew: pub fn walk(",
            true,
        ),
        (
            "file: src/lib.rt\nold: pub fn walk(\nnew: pub fn run(",
            false,
        ),
        ("file: src/lib.rt\nold: ghost use\nnew: use", false),
        ("file: src/gone.rt\nold: a\nnew: b", false),
        ("file: stdin\nold: a\nnew: b", false),
        (
            "file: src/lib.rt\nold: pub fn run(\nnew: pub fn run(",
            false,
        ),
        ("file: src/lib.rt", false),
    ];
    for (edit, fits) in cases {
        assert_eq!(misfit(&folder, edit).is_none(), fits, "{edit}");
    }
}
