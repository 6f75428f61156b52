//! Whether a quotient or a remainder is worked out where ids are cut into requests (F-4): the files that cut and all that they
//! call are searched for the signs.

use std::collections::BTreeSet;

/// What was searched, and what is wrong with it.
#[derive(Debug, Default, PartialEq, Eq)]
pub struct Searched {
    /// The files that cut and those that they lead to.
    pub files: BTreeSet<String>,
    /// `FILE:LINE: ..` for a sign and for a path that leads nowhere, `FILE: ..` for a file that is not there.
    pub faults: Vec<String>,
}

/// Gives the text of a file, named from the repository's root on; `None` where there is none.
pub type Read<'a> = &'a dyn Fn(&str) -> Option<String>;

const SIGNS: [&str; 2] = ["/", "%"];

/// Where ids are cut a shift would be a quotient too. Elsewhere it makes the bytes of a number.
const SIGNS_OF_CUTTING: [&str; 3] = ["/", "%", ">>"];

/// What the names of functions have in them that divide, or that cut a slice at multiples of a length: `div_euclid`,
/// `checked_rem`, `is_multiple_of`, `chunks_exact`.
const PARTS_OF_NAMES: [&str; 5] = ["div", "rem", "multiple", "quotient", "chunks"];

/// Searches the files that cut and, whole file by whole file, all that they lead to: code, contracts and the names of specs.
pub fn search(read: Read, cutting: &[&str]) -> Searched {
    let mut searched = Searched::default();
    let mut left: Vec<String> = cutting.iter().map(ToString::to_string).collect();
    while let Some(file) = left.pop() {
        if searched.files.contains(&file) {
            continue;
        }
        let Some(text) = read(&file) else {
            searched.faults.push(format!("{file}: no such file"));
            continue;
        };
        let signs: &[&str] = if cutting.contains(&file.as_str()) {
            &SIGNS_OF_CUTTING
        } else {
            &SIGNS
        };
        for (index, line) in text.lines().enumerate() {
            let place = format!("{file}:{}", index + 1);
            let code = without_comment(line);
            if signs.iter().any(|sign| code.contains(sign)) || names_division(code) {
                searched.faults.push(format!("{place}: {}", line.trim()));
            }
            // `f::<32>(..)` is a call of `f`.
            let code = opened(&code.replace("::<", "<"));
            for path in paths(&code) {
                let found = led(read, &file, path);
                if found.is_empty() {
                    let fault = format!("{place}: {path} leads to no file");
                    searched.faults.push(fault);
                }
                left.extend(found);
            }
        }
        searched.files.insert(file);
    }
    searched
}

/// A line up to its comment. A comment stands alone or behind a whole statement. Behind a quote or in a contract `//` may be
/// something else, so that nothing is left aside there; nor is any other form of comment, as no file has one.
fn without_comment(line: &str) -> &str {
    match line.split_once("//") {
        Some((code, _)) if code.trim().is_empty() || is_statement(code) => code,
        _ => line,
    }
}

/// Whether the text before a comment is code alone, up to the end of a statement, a block or an argument.
fn is_statement(code: &str) -> bool {
    let of_contracts = ["requires", "ensures", "ghost"];
    let is_code = code.is_ascii() && !code.contains('"');
    is_code
        && code.trim_end().ends_with([';', ',', '{', '}'])
        && !code
            .split_whitespace()
            .any(|word| of_contracts.contains(&word))
}

fn names_division(code: &str) -> bool {
    let letters = |letter: char| !letter.is_alphanumeric();
    code.split(letters)
        .any(|part| PARTS_OF_NAMES.contains(&part))
}

/// A `use` with one list in braces as a `use` of each name; any other line as it is.
fn opened(code: &str) -> String {
    let list = code.trim().strip_prefix("use ");
    let parts = list.and_then(|list| list.strip_suffix("};")?.split_once("::{"));
    match parts {
        Some((path, names)) if !names.contains(['{', '}']) => names
            .split(", ")
            .map(|name| format!("use {path}::{name};"))
            .collect(),
        _ => code.to_string(),
    }
}

/// The paths of a line of code. `ghost use` names definitions, where no code runs.
fn paths(code: &str) -> Vec<&str> {
    if code.trim_start().starts_with("ghost use") {
        return Vec::new();
    }
    let parted = |letter: char| !letter.is_alphanumeric() && !matches!(letter, '_' | ':');
    let words = code.split(parted);
    words.filter(|word| word.contains("::")).collect()
}

/// The files that a path in a file may lead to: `a::b::f` to the module `b` of crate `a`, `a::f` to the crate's root, and
/// either to a module of its last name. Lists within lists and stars lead to none, so that they are noticed.
fn led(read: Read, file: &str, path: &str) -> Vec<String> {
    let (name, item) = path.split_once("::").unwrap_or_default();
    if name.is_empty() || item.split("::").any(str::is_empty) {
        return Vec::new();
    }
    let name = match name {
        "crate" => file.split('/').nth(1).unwrap_or_default(),
        name => name,
    };
    let module = item.rsplit_once("::").map_or("lib", |(module, _)| module);
    let files = [item, module].map(|module| {
        let module = module.replace("::", "/");
        format!("crates/{name}/src/{module}.rt")
    });
    let there = files.into_iter().filter(|file| read(file).is_some());
    there.collect()
}
