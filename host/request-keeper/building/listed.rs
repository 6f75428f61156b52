//! crates.txt: a line `NAME: DEP DEP` for each crate, with `staticlib` behind the name of a static library, `#` before a
//! comment.

use super::fault;
use std::collections::BTreeMap;
use std::fs;
use std::path::Path;

/// A crate of the list with all that it needs of it, what is needed first; each with its line.
pub fn needed(list: &Path, name: &str) -> Result<Vec<(String, String)>, String> {
    let text = fs::read_to_string(list).map_err(fault(list))?;
    let lines = text
        .lines()
        .map(|line| line.split('#').next().unwrap_or_default().trim());
    let listed: BTreeMap<&str, &str> = lines
        .filter_map(|line| Some((line.split([' ', ':']).next()?, line)))
        .collect();
    let mut found = Vec::new();
    visit(&listed, name, &mut found);
    match found.is_empty() {
        true => Err(format!("{} does not list {name}", list.display())),
        false => Ok(found),
    }
}

/// What is not listed is a library of the kit.
fn visit(listed: &BTreeMap<&str, &str>, name: &str, found: &mut Vec<(String, String)>) {
    let Some(line) = listed.get(name) else {
        return;
    };
    if found.iter().any(|(seen, _)| seen == name) {
        return;
    }
    let needs = line.split_once(':').map_or("", |(_, needs)| needs);
    for need in needs.split_whitespace() {
        visit(listed, need, found);
    }
    found.push((name.to_string(), line.to_string()));
}
