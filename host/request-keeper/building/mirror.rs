//! Copies of files and folders. Contents alone are copied: the sources may be read-only, the copies must not be. A file
//! that is the same already is left alone; each function says whether it changed anything.

use std::fs;
use std::io::{ErrorKind, Result};
use std::path::Path;

pub fn write(to: &Path, bytes: &[u8]) -> Result<bool> {
    if fs::read(to).is_ok_and(|there| there == bytes) {
        return Ok(false);
    }
    if let Some(folder) = to.parent() {
        fs::create_dir_all(folder)?;
    }
    fs::write(to, bytes)?;
    Ok(true)
}

/// Makes a folder the same as another; without the other there is none.
pub fn folder(from: &Path, to: &Path) -> Result<bool> {
    let entries = match fs::read_dir(from) {
        Err(error) if error.kind() == ErrorKind::NotFound => return remove_all(to),
        entries => entries?,
    };
    fs::create_dir_all(to)?;
    let mut changed = false;
    for entry in entries {
        let name = entry?.file_name();
        let (from, to) = (from.join(&name), to.join(&name));
        changed |= match from.is_dir() {
            true => folder(&from, &to)?,
            false => write(&to, &fs::read(&from)?)?,
        };
    }
    Ok(remove(to, |name| !from.join(name).exists())? || changed)
}

/// Removes the entries of a folder whose names the test finds.
pub fn remove(folder: &Path, gone: impl Fn(&str) -> bool) -> Result<bool> {
    let mut changed = false;
    for entry in fs::read_dir(folder)? {
        let entry = entry?;
        if entry.file_name().to_str().is_some_and(&gone) {
            changed |= remove_all(&entry.path())?;
        }
    }
    Ok(changed)
}

pub fn remove_all(path: &Path) -> Result<bool> {
    let removed = match path.is_dir() {
        true => fs::remove_dir_all(path),
        false => fs::remove_file(path),
    };
    match removed {
        Err(error) if error.kind() == ErrorKind::NotFound => Ok(false),
        removed => removed.map(|()| true),
    }
}
