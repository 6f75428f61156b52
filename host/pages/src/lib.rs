//! What the pages name, and the edits of the crates. The tests of this crate see that each name is there and each edit fits,
//! and that nothing is divided where ids are cut.

pub mod division;
pub mod edits;

use std::collections::{HashMap, HashSet};
use std::path::{Path, PathBuf};
use std::{fs, io};

/// The functions, definitions and edits of `crates/`.
#[derive(Debug, Default)]
pub struct Tree {
    /// A crate's words in `src/`.
    code: HashMap<String, HashSet<String>>,
    /// The words of the files of definitions and laws with this name, of whatever crate.
    laws: HashMap<String, HashSet<String>>,
    /// The same of each file alone, by its path: `crate.specs.Folder.File`.
    modules: HashMap<String, HashSet<String>>,
    /// The fields of records and the cases of types with this name.
    parts: HashMap<String, HashSet<String>>,
    /// Edits as `name` and as `crate/name`.
    edits: HashSet<String>,
    /// Edits that do not fit their crate, and why.
    pub misfits: Vec<String>,
}

/// A name in a page that nothing has.
#[derive(Debug, PartialEq, Eq)]
pub struct Missing {
    pub line: usize,
    pub name: String,
}

/// The repository's root.
pub fn root() -> PathBuf {
    Path::new(env!("CARGO_MANIFEST_DIR")).join("../..")
}

/// The files of a crate, but for what `rt` keeps in `out/`.
fn files(folder: &Path) -> io::Result<Vec<PathBuf>> {
    let mut found = Vec::new();
    for entry in fs::read_dir(folder)? {
        let path = entry?.path();
        if path.is_dir() && path.ends_with("out") {
            continue;
        }
        if path.is_dir() {
            found.extend(files(&path)?);
        } else {
            found.push(path);
        }
    }
    Ok(found)
}

fn is_part(letter: char) -> bool {
    letter.is_alphanumeric() || matches!(letter, '_' | '\'' | '-')
}

fn words(text: &str) -> impl Iterator<Item = String> + '_ {
    text.split(|letter| !is_part(letter)).map(str::to_string)
}

/// The records and types that a file declares, each with its fields or cases.
fn declared(text: &str) -> Vec<(String, HashSet<String>)> {
    let mut all: Vec<(String, HashSet<String>)> = Vec::new();
    let mut within = false;
    for line in text.lines() {
        let mut parts = line.split_whitespace();
        if line.starts_with(' ') {
            let name = |word: &&str| *word != "pub" && !word.starts_with("--");
            if let (true, Some((_, last))) = (within && line.contains(':'), all.last_mut()) {
                let before = parts.take_while(|word| *word != ":");
                last.extend(before.filter(name).map(str::to_string));
            }
            continue;
        }
        let kind = parts.find(|word| *word != "pub");
        within = matches!(kind, Some("record" | "data"));
        if let (true, Some(name)) = (within, parts.next()) {
            all.push((name.to_string(), HashSet::new()));
        }
    }
    all
}

fn stem(path: &Path) -> String {
    path.file_stem()
        .map(|name| name.to_string_lossy().into_owned())
        .unwrap_or_default()
}

impl Tree {
    /// Reads `crates/` at the repository's root.
    pub fn read(root: &Path) -> io::Result<Self> {
        let mut tree = Self::default();
        for entry in fs::read_dir(root.join("crates"))? {
            let folder = entry?.path();
            let name = stem(&folder);
            tree.code.entry(name.clone()).or_default();
            for path in files(&folder)? {
                tree.take(&name, &folder, &path)?;
            }
        }
        Ok(tree)
    }

    fn take(&mut self, name: &str, folder: &Path, path: &Path) -> io::Result<()> {
        match path.extension().and_then(|ending| ending.to_str()) {
            Some("rt") => {
                let text = fs::read_to_string(path)?;
                self.code
                    .entry(name.to_string())
                    .or_default()
                    .extend(words(&text));
            }
            Some("antt") => {
                let text = fs::read_to_string(path)?;
                let inside = path.strip_prefix(folder).unwrap_or(path).with_extension("");
                let parts = inside.iter().map(|part| part.to_string_lossy());
                let module: Vec<_> = [name.into()].into_iter().chain(parts).collect();
                self.modules
                    .insert(module.join("."), words(&text).collect());
                self.laws
                    .entry(stem(path))
                    .or_default()
                    .extend(words(&text));
                for (name, parts) in declared(&text) {
                    self.parts.entry(name).or_default().extend(parts);
                }
            }
            Some("edit") => {
                self.edits.insert(stem(path));
                let edit = format!("{name}/{}", stem(path));
                if let Some(why) = edits::misfit(folder, &fs::read_to_string(path)?) {
                    self.misfits.push(format!("{edit}: {why}"));
                }
                self.edits.insert(edit);
            }
            _ => {}
        }
        Ok(())
    }

    /// `crate::module::function`, if the crate has these words; `None` for what is no such path. Crates in Rust, whose names
    /// begin with `keeper_`, are passed over.
    fn has_path(&self, name: &str) -> Option<bool> {
        let parts: Vec<&str> = name.split("::").collect();
        let plain = |part: &&str| part.chars().all(|c| c.is_alphanumeric() || c == '_');
        if parts.len() < 2 || !parts.iter().all(plain) || !parts[0].starts_with(char::is_lowercase)
        {
            return None;
        }
        match self.code.get(parts[0]) {
            Some(words) => Some(parts[1..].iter().all(|part| words.contains(*part))),
            None if parts[0].starts_with("keeper_") => None,
            None => Some(false),
        }
    }

    /// `File.name`, a definition or a law, or `Record.field`; or with the whole path, `Rattle.crate.specs.File.name`.
    fn has_law(&self, name: &str) -> Option<bool> {
        let parts: Vec<&str> = name.split('.').collect();
        let plain = |part: &&str| !part.is_empty() && part.chars().all(is_part);
        if parts.len() < 2 || !parts.iter().all(plain) || !parts[0].starts_with(char::is_uppercase)
        {
            return None;
        }
        if let ["Rattle", folder @ .., last] = parts.as_slice() {
            return Some(self.has_whole_path(folder, last));
        }
        let has = |names: &HashMap<String, HashSet<String>>| {
            let words = names.get(parts[0]);
            words.is_some_and(|words| parts[1..].iter().all(|part| words.contains(*part)))
        };
        Some(has(&self.laws) || has(&self.parts))
    }

    /// The path of a file of `specs/` or `proofs/`, or of a name in it.
    fn has_whole_path(&self, folder: &[&str], last: &str) -> bool {
        let file = |parts: &[&str]| self.modules.get(&parts.join("."));
        let words = file(folder);
        file(&[folder, &[last]].concat()).is_some()
            || words.is_some_and(|words| words.contains(last))
    }

    /// Several words joined by `-`, or such an edit of a crate, in a line that speaks of edits.
    fn has_edit(&self, name: &str, line: &str) -> Option<bool> {
        let (_, last) = name.split_once('/').unwrap_or(("", name));
        let plain = last.split('-').all(|part| {
            !part.is_empty()
                && part
                    .chars()
                    .all(|c| c.is_ascii_lowercase() || c.is_ascii_digit())
        });
        if !line.contains("edit") || !last.contains('-') || !plain {
            return None;
        }
        Some(self.edits.contains(name))
    }

    /// What a page names and nothing has. Links count from the page's folder.
    pub fn missing(&self, folder: &Path, text: &str) -> Vec<Missing> {
        let mut missing = Vec::new();
        for (line, words) in text.lines().enumerate() {
            let quoted = words.split('`').skip(1).step_by(2);
            let named = quoted.filter(|name| {
                let there = self
                    .has_path(name)
                    .or_else(|| self.has_law(name))
                    .or_else(|| self.has_edit(name, words));
                there == Some(false)
            });
            let linked = words.split("](").skip(1).filter_map(|rest| {
                let target = rest.split([')', '#']).next().unwrap_or_default();
                (!target.is_empty() && !folder.join(target).exists()).then_some(target)
            });
            missing.extend(named.chain(linked).map(|name| Missing {
                line: line + 1,
                name: name.to_string(),
            }));
        }
        missing
    }
}
