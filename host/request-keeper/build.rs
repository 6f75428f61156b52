//! Builds the static library with `rt`, or takes the one that REQUEST_KEEPER_LIB names, and links it.

#[path = "building/mod.rs"]
mod building;

use building::{archive, room, watched, Places};
use std::fs::OpenOptions;
use std::io::Write;
use std::path::{Path, PathBuf};
use std::process::exit;
use std::{env, fs};

const HELP: &str =
    "put rt on the path or its path into RT, so that it can be built, or name a built archive, \
by its whole path, in REQUEST_KEEPER_LIB";

/// Tells people who wait, at the terminal itself: cargo keeps a build script's output back unless it is run with `-vv`.
fn tell(verb: &str, what: &str) {
    eprintln!("{verb} {what}");
    if let Ok(mut terminal) = OpenOptions::new().write(true).open("/dev/tty") {
        // Over cargo's bar, which it draws again below.
        let _ = writeln!(terminal, "\r\x1b[K{verb:>12} {what}");
    }
}

fn built(root: &Path, out: &Path) -> Result<Vec<u8>, String> {
    for path in watched(root)? {
        println!("cargo::rerun-if-changed={}", path.display());
    }
    let rt = env::var("RT").unwrap_or_else(|_| "rt".to_string());
    let places = Places {
        root,
        room: &room(root, out),
        rt: &rt,
    };
    archive(&places, &mut tell)
}

fn found(here: &Path, out: &Path) -> Result<Vec<u8>, String> {
    println!("cargo::rerun-if-changed=build.rs");
    println!("cargo::rerun-if-changed=building");
    println!("cargo::rerun-if-env-changed=REQUEST_KEEPER_LIB");
    println!("cargo::rerun-if-env-changed=RT");
    match env::var_os("REQUEST_KEEPER_LIB") {
        Some(path) => {
            println!("cargo::rerun-if-changed={}", path.to_string_lossy());
            let path = PathBuf::from(path);
            fs::read(&path).map_err(building::fault(&path))
        }
        None => built(&here.join("../.."), out),
    }
}

/// A copy in the build folder is linked, under the name that C callers know, whatever the archive is called.
fn linked() -> Result<(), String> {
    let folder = |name| env::var_os(name).map(PathBuf::from).ok_or(name);
    let out = folder("OUT_DIR")?;
    let archive = found(&folder("CARGO_MANIFEST_DIR")?, &out)?;
    let copy = out.join("librequest_keeper.a");
    fs::write(&copy, archive).map_err(building::fault(&copy))?;
    println!("cargo::rustc-link-search=native={}", out.display());
    println!("cargo::rustc-link-lib=static=request_keeper");
    // For the test in C.
    println!("cargo::rustc-env=REQUEST_KEEPER_ARCHIVE={}", copy.display());
    Ok(())
}

fn main() {
    if let Err(fault) = linked() {
        println!("cargo::error=no static library of the request keeper: {fault}; {HELP}");
        exit(1);
    }
}
