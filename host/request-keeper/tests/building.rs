//! The build script with an `rt` that proves nothing: the sources are left alone, also where they are read-only, what was
//! proved is not proved again, and people see what is being proved.

#[path = "../building/mod.rs"]
mod building;

use building::{archive, room, watched, Places};
use std::fs::{self, File, Permissions};
use std::os::unix::fs::PermissionsExt;
use std::path::{Path, PathBuf};
use std::sync::OnceLock;
use std::thread;
use std::time::{Duration, SystemTime};
use std::{env, process};

/// Prints and leaves what `rt` prints and leaves.
const RT: &str = r#"#!/bin/sh
[ "$1" = version ] || cd ../..
echo "$1${2:+ $2}" >>calls
case $1 in
version) echo "a kit" ;;
all)
    for name in fields model request_keeper request_keeper_c; do
        out=crates/$name/out
        text=$(cat crates/$name/src/*)
        echo "== $name"
        if [ "$text" = wrong ]; then
            echo "logic=not-proved"
            echo "== summary"
            exit 1
        elif [ "$(cat $out/rlib/stamp 2>/dev/null)" != "$text" ]; then
            mkdir -p $out/rlib
            echo "$text" >$out/rlib/stamp
            echo "checked $name::run, 1 of 1"
            echo "logic=proved functions=1"
        fi
    done
    echo "== summary"
    ;;
lib) cat crates/*/src/* >crates/request_keeper_c/out/librequest_keeper_c.a ;;
esac
"#;

/// That `rt`. It is written once, before any process is started: none may hold it open when it is run.
fn rt() -> &'static str {
    static WRITTEN: OnceLock<String> = OnceLock::new();
    WRITTEN.get_or_init(|| {
        let path = Path::new(env!("CARGO_TARGET_TMPDIR")).join("rt");
        fs::write(&path, RT).expect("a file of this test");
        let executable = fs::set_permissions(&path, Permissions::from_mode(0o755));
        executable.expect("a file of this test");
        path.to_str().expect("a name in UTF-8").to_string()
    })
}

/// A repository of five crates, one of which is not needed. It does not stand in cargo's folder: that may be in the real
/// repository, where `rt ci` refuses a second list of crates.
struct Trial {
    folder: PathBuf,
}

impl Trial {
    fn new(name: &str) -> Self {
        let folder = env::temp_dir().join(format!("request-keeper-{}-{name}", process::id()));
        let trial = Self { folder };
        let list = "# A comment.\nfields:\nmodel: fields std # Another.\nother: fields\nrequest_keeper: fields model\n\
            request_keeper_c staticlib: model request_keeper\n";
        trial.write("root/crates.txt", list);
        for name in [
            "fields",
            "model",
            "other",
            "request_keeper",
            "request_keeper_c",
        ] {
            trial.write(&format!("root/crates/{name}/src/code"), &format!("{name} "));
            trial.write(&format!("root/crates/{name}/must-fail/a.edit"), "");
        }
        trial.write("root/crates/fields/specs/law", "");
        trial
    }

    fn path(&self, name: &str) -> PathBuf {
        self.folder.join(name)
    }

    fn write(&self, name: &str, text: &str) {
        let path = self.path(name);
        fs::create_dir_all(path.parent().expect("in a folder")).expect("a folder of this test");
        fs::write(path, text).expect("a file of this test");
    }

    /// Builds in a room. What was told, and what `rt` was asked for besides its version.
    fn build(&self, room: &str) -> Result<(Vec<String>, String), String> {
        self.build_with(rt(), room)
    }

    fn build_with(&self, rt: &str, room: &str) -> Result<(Vec<String>, String), String> {
        let calls = self.path(room).join("calls");
        let _ = fs::remove_file(&calls);
        let mut told = Vec::new();
        let places = Places {
            root: &self.path("root"),
            room: &self.path(room),
            rt,
        };
        let built = archive(&places, &mut |verb, what| {
            told.push(format!("{verb} {what}"))
        })?;
        assert_eq!(String::from_utf8_lossy(&built), self.archive(room));
        let calls = fs::read_to_string(calls).expect("rt was called");
        let asked = calls.strip_prefix("version\n").unwrap_or(&calls);
        Ok((told, asked.to_string()))
    }

    fn archive(&self, room: &str) -> String {
        let path = "crates/request_keeper_c/out/librequest_keeper_c.a";
        fs::read_to_string(self.path(room).join(path)).expect("an archive")
    }
}

impl Drop for Trial {
    fn drop(&mut self) {
        permit(&self.folder, true);
        let _ = fs::remove_dir_all(&self.folder);
    }
}

fn below(folder: &Path) -> Vec<PathBuf> {
    let mut found = vec![folder.to_path_buf()];
    for entry in fs::read_dir(folder).into_iter().flatten().flatten() {
        found.extend(below(&entry.path()));
    }
    found.sort();
    found
}

/// Makes all of a folder writable, or read-only.
fn permit(folder: &Path, writable: bool) {
    for path in below(folder) {
        let mode = if writable { 0o755 } else { 0o555 };
        let _ = fs::set_permissions(path, Permissions::from_mode(mode));
    }
}

/// All files and folders with the times of their last change.
fn state(folder: &Path) -> Vec<(PathBuf, SystemTime)> {
    let changed = |path: PathBuf| {
        let about = fs::metadata(&path).expect("it is there");
        (path, about.modified().expect("a time"))
    };
    below(folder).into_iter().map(changed).collect()
}

const BOTH: &str = "all check\nlib\n";

#[test]
fn a_read_only_checkout_is_left_alone() {
    let trial = Trial::new("read-only");
    let root = trial.path("root");
    let before = state(&root);
    permit(&root, false);
    let (told, asked) = trial.build("room").expect("built");
    // The copies are not read-only with it.
    trial.write("room/crates/fields/src/code", "else");
    assert!(trial.build("room").is_ok());
    permit(&root, true);
    assert_eq!(state(&root), before);
    assert_eq!(asked, BOTH);
    assert_eq!(
        told,
        [
            "Proving 4 crates of the request keeper: minutes, once (REQUEST_KEEPER_LIB links a built archive instead)",
            "Proved fields, 1 of 4",
            "Proved model, 2 of 4",
            "Proved request_keeper, 3 of 4",
            "Proved request_keeper_c, 4 of 4",
            "Compiling the proved request keeper",
        ]
    );
    assert!(!trial.path("room/crates/other").exists());
    assert!(!trial.path("room/crates/fields/must-fail").exists());
    let list = fs::read_to_string(trial.path("room/crates.txt")).expect("a list");
    assert!(
        list.ends_with("\nrequest_keeper_c staticlib: model request_keeper\n"),
        "{list}"
    );
    let names = watched(&root).expect("a list");
    assert!(names.contains(&root.join("crates/model/src")));
    assert!(!names
        .iter()
        .any(|path| path.starts_with(root.join("crates/other"))));
}

#[test]
fn where_cargo_s_folder_is_in_the_repository_it_is_built_there() {
    let trial = Trial::new("inside");
    let root = trial.path("root");
    let out = "target/release/build/request_keeper-1/out";
    trial.write(&format!("root/host/{out}/file"), "");
    trial.write(&format!("outside/{out}/file"), "");
    assert_eq!(room(&root, &root.join("host").join(out)), root);
    let outside = trial.path("outside");
    assert_eq!(
        room(&root, &outside.join(out)),
        outside.join("target/proving")
    );

    let sources = |name: &str| state(&root.join("crates").join(name).join("src"));
    let names = ["fields", "model", "request_keeper", "request_keeper_c"];
    let before = names.map(sources);
    for _ in 0..2 {
        assert_eq!(trial.build("root").expect("built").1, BOTH);
    }
    assert_eq!(
        trial.archive("root"),
        "fields model other request_keeper request_keeper_c "
    );
    assert_eq!(names.map(sources), before);
    let listed = |folder: &Path| {
        let entries = fs::read_dir(folder).expect("a folder");
        let names = entries.map(|entry| entry.expect("an entry").file_name());
        let mut names: Vec<_> = names.collect();
        names.sort();
        names
    };
    assert_eq!(listed(&root), ["calls", "crates", "crates.txt", "host"]);
    // What is proved stands in `out/`, which is not committed.
    let parts = listed(&root.join("crates/fields"));
    assert_eq!(parts, ["must-fail", "out", "specs", "src"]);
}

#[test]
fn what_is_proved_is_not_proved_again() {
    let trial = Trial::new("again");
    trial.build("room").expect("built");
    let (told, asked) = trial.build("room").expect("built");
    assert_eq!((told.len(), asked.as_str()), (0, ""));

    trial.write("root/crates/other/src/code", "not needed");
    assert_eq!(trial.build("room").expect("built").1, "");

    trial.write("root/crates/model/src/code", "changed ");
    let (told, asked) = trial.build("room").expect("built");
    assert_eq!(asked, BOTH);
    assert_eq!(
        told,
        [
            "Proved model, 2 of 4",
            "Compiling the proved request keeper"
        ]
    );
    assert_eq!(
        trial.archive("room"),
        "fields changed request_keeper request_keeper_c "
    );

    fs::remove_file(trial.path("root/crates/fields/specs/law")).expect("it was there");
    assert_eq!(trial.build("room").expect("built").1, BOTH);
    assert!(!trial.path("room/crates/fields/specs/law").exists());

    // Another `rt` may say otherwise of the same sources.
    trial.write("room/made-with", "an older kit\n");
    assert_eq!(trial.build("room").expect("built").1, BOTH);
}

#[test]
fn builds_of_all_profiles_share_what_is_proved() {
    let trial = Trial::new("profiles");
    let rooms = ["release", "debug"].map(|profile| {
        let out = format!("target/{profile}/build/request_keeper-{profile}/out");
        trial.write(&format!("{out}/file"), "");
        room(&trial.path("root"), &trial.path(&out))
    });
    assert_eq!(rooms, [trial.path("target/proving"), rooms[0].clone()]);
    trial.build("target/proving").expect("built");
    let (told, asked) = trial.build("target/proving").expect("built");
    assert_eq!((told.len(), asked.as_str()), (0, ""));
}

#[test]
fn a_build_waits_for_another_in_its_room() {
    let trial = Trial::new("waiting");
    trial.write("room/lock", "");
    let other = File::create(trial.path("room/lock")).expect("a file of this test");
    other.lock().expect("it can be locked");
    thread::scope(|scope| {
        let build = scope.spawn(|| trial.build("room"));
        thread::sleep(Duration::from_millis(200));
        assert!(!build.is_finished() && !trial.path("room/calls").exists());
        drop(other);
        let built = build.join().expect("it ends").expect("built");
        assert_eq!(built.1, BOTH);
    });
}

#[test]
fn a_failure_is_told_and_not_remembered() {
    let trial = Trial::new("failure");
    trial.build("room").expect("built");
    trial.write("root/crates/model/src/code", "wrong");
    for _ in 0..2 {
        let fault = trial.build("room").expect_err("not proved");
        let at = fault.find("rt all check --jobs ").expect("what was run");
        assert!(fault[at..].ends_with(": exit status: 1"), "{fault}");
    }
    // Nor is the archive taken of what was proved before, once the sources are that again.
    trial.write("root/crates/model/src/code", "model ");
    assert_eq!(trial.build("room").expect("built").1, BOTH);
    let fault = trial.build_with("no-such-rt", "room").expect_err("no rt");
    assert!(fault.contains("does not start"), "{fault}");
}
