//! Proves and compiles the crate `leaf_speed`, and links its archive.

use std::env;
use std::path::PathBuf;
use std::process::Command;

fn main() {
    let here =
        PathBuf::from(env::var("CARGO_MANIFEST_DIR").expect("cargo sets CARGO_MANIFEST_DIR"));
    let root = here.join("../..");
    println!("cargo:rerun-if-env-changed=RT");
    println!("cargo:rerun-if-changed=build.rs");
    println!(
        "cargo:rerun-if-changed={}",
        root.join("crates.txt").display()
    );
    for name in ["fields", "spans", "keys", "leaf_speed"] {
        for part in ["src", "specs", "proofs"] {
            let folder = root.join("crates").join(name).join(part);
            if folder.exists() {
                println!("cargo:rerun-if-changed={}", folder.display());
            }
        }
    }

    let folder = root.join("crates/leaf_speed");
    let rt = env::var("RT").unwrap_or_else(|_| "rt".to_string());
    let run = Command::new(&rt)
        .arg("lib")
        .current_dir(&folder)
        .output()
        .unwrap_or_else(|error| panic!("{rt} does not start ({error}); set RT to its path"));
    if !run.status.success() {
        panic!(
            "{rt} lib in crates/leaf_speed: {}\n{}{}",
            run.status,
            String::from_utf8_lossy(&run.stdout),
            String::from_utf8_lossy(&run.stderr)
        );
    }
    println!(
        "cargo:rustc-link-search=native={}",
        folder.join("out").display()
    );
    println!("cargo:rustc-link-lib=static=leaf_speed");
}
