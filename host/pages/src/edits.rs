//! Whether an edit fits its crate. The gate tries those of `must-fail/`; those of `wrong-answers/` are tried by hand
//! (`./edits`), so that nothing else would notice one that the code has left behind.

use std::collections::HashMap;
use std::fs;
use std::path::Path;

/// What keeps an edit from being applied to the crate in `folder`, if anything does. As `rt` reads it: a `file:` line holds
/// for the pairs of `old:` and `new:` behind it, an old text stands in its file once, and something changes.
pub fn misfit(folder: &Path, edit: &str) -> Option<String> {
    let mut texts: HashMap<&str, String> = HashMap::new();
    let mut changed = false;
    let mut file = "";
    let mut old = "";
    let mut pairs = 0;
    for line in edit.lines() {
        if let Some(name) = line.strip_prefix("file: ") {
            file = name;
        } else if let Some(text) = line.strip_prefix("old: ") {
            old = text;
        } else if let Some(new) = line.strip_prefix("new:") {
            if !texts.contains_key(file) {
                let parts = ["src/", "specs/", "proofs/"];
                if !parts.iter().any(|part| file.starts_with(part)) {
                    return Some(format!("{file} is no file of src/, specs/ or proofs/"));
                }
                let Ok(text) = fs::read_to_string(folder.join(file)) else {
                    return Some(format!("no file {file}"));
                };
                texts.insert(file, text);
            }
            let text = texts.get_mut(file)?;
            let times = text.matches(old).count();
            if old.is_empty() || times != 1 {
                return Some(format!("{times} times in {file}: {old}"));
            }
            let new = new.strip_prefix(' ').unwrap_or(new);
            changed |= new != old;
            *text = text.replacen(old, new, 1);
            old = "";
            pairs += 1;
        }
    }
    match (pairs, changed) {
        (0, _) => Some("no pair of old and new".to_string()),
        (_, false) => Some("it changes nothing".to_string()),
        (_, true) => None,
    }
}
