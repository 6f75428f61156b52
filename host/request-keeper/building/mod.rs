//! Builds the static library with `rt` in a room of cargo's own, and leaves the sources alone.
//!
//! `rt` works on the repository that it stands in, and keeps in each crate's `out/` what it has proved. So what the static
//! library needs of the repository is copied into the room, where builds of every profile find what is proved. Where cargo's
//! folder is in the repository itself, the room is the repository.

mod listed;
mod mirror;

use std::fs::{self, File};
use std::io::{BufRead, BufReader};
use std::path::{Path, PathBuf};
use std::process::{Command, Stdio};
use std::thread::available_parallelism;

/// The static library: the entries of the crate `request_keeper`, exported.
const CRATE: &str = "request_keeper_c";
/// What a proof reads of a library.
const PARTS: [&str; 3] = ["src", "specs", "proofs"];

/// Where things are.
pub struct Places<'a> {
    /// The repository.
    pub root: &'a Path,
    /// A folder to write to, which is kept from build to build.
    pub room: &'a Path,
    /// The command.
    pub rt: &'a str,
}

impl Places<'_> {
    fn archive(&self) -> PathBuf {
        let name = format!("crates/{CRATE}/out/lib{CRATE}.a");
        self.room.join(name)
    }
}

/// Something that people may want to see while they wait: a verb and what it is about.
pub type Tell<'a> = dyn FnMut(&str, &str) + 'a;

pub fn fault(path: &Path) -> impl FnOnce(std::io::Error) -> String + '_ {
    move |error| format!("{}: {error}", path.display())
}

/// Where to build, for a package's folder `out` in cargo's, `PROFILE/build/NAME-HASH/out`. `rt ci` refuses a repository that
/// has files of Rattle outside its crates, as a room inside it would be; and a repository that cargo writes to is not
/// read-only.
pub fn room(root: &Path, out: &Path) -> PathBuf {
    let within = |out: PathBuf| root.canonicalize().is_ok_and(|root| out.starts_with(root));
    match out.canonicalize().is_ok_and(within) {
        true => root.to_path_buf(),
        false => out.ancestors().nth(4).unwrap_or(out).join("proving"),
    }
}

/// What a change of has to lead to a new build.
pub fn watched(root: &Path) -> Result<Vec<PathBuf>, String> {
    let list = root.join("crates.txt");
    let crates = listed::needed(&list, CRATE)?;
    let parts = crates.iter().flat_map(|(name, _)| {
        let folder = root.join("crates").join(name);
        PARTS.map(|part| folder.join(part))
    });
    let mut watched: Vec<PathBuf> = parts.filter(|part| part.exists()).collect();
    watched.push(list);
    Ok(watched)
}

/// The archive, made of the sources at the root as they are now.
pub fn archive(places: &Places<'_>, tell: &mut Tell<'_>) -> Result<Vec<u8>, String> {
    let crates = listed::needed(&places.root.join("crates.txt"), CRATE)?;
    let archive = places.archive();
    let read = || fs::read(&archive).map_err(fault(&archive));
    if places.room == places.root {
        proven(places, &crates, tell)?;
        return read();
    }
    let _held = held(places.room)?;
    let version = said(places, "version")?;
    // Which `rt` made the archive. The file is there only while the archive is one of the room's sources.
    let record = places.room.join("made-with");
    let made = fs::read_to_string(&record).ok();
    mirror::remove_all(&record).map_err(fault(&record))?;
    let changed = copied(places, &crates)?;
    if changed || made.as_ref() != Some(&version) || !archive.is_file() {
        proven(places, &crates, tell)?;
    }
    mirror::write(&record, version.as_bytes()).map_err(fault(&record))?;
    read()
}

/// Waits until no other build works in a room, and keeps others out until it is closed: cargo may run one for each profile.
fn held(room: &Path) -> Result<File, String> {
    fs::create_dir_all(room).map_err(fault(room))?;
    let path = room.join("lock");
    let file = File::create(&path).map_err(fault(&path))?;
    file.lock().map_err(fault(&path))?;
    Ok(file)
}

/// Brings the room's copy of the sources up to date; whether it was not.
fn copied(places: &Places<'_>, crates: &[(String, String)]) -> Result<bool, String> {
    let list = places.room.join("crates.txt");
    let lines: String = crates.iter().map(|(_, line)| format!("{line}\n")).collect();
    let mut changed = mirror::write(&list, lines.as_bytes()).map_err(fault(&list))?;
    let room = places.room.join("crates");
    for (name, _) in crates {
        for part in PARTS {
            let from = places.root.join("crates").join(name).join(part);
            changed |= mirror::folder(&from, &room.join(name).join(part)).map_err(fault(&from))?;
        }
    }
    let gone = |name: &str| !crates.iter().any(|(listed, _)| listed == name);
    Ok(mirror::remove(&room, gone).map_err(fault(&room))? || changed)
}

/// Runs `rt` with these words, and hands on each line that it prints. All of it goes to standard error, which cargo shows
/// with `-vv` and when the build fails.
fn run(
    places: &Places<'_>,
    folder: &Path,
    words: &[&str],
    mut line: impl FnMut(&str),
) -> Result<(), String> {
    let rt = places.rt;
    let mut child = Command::new(rt)
        .args(words)
        .current_dir(folder)
        .stdin(Stdio::null())
        .stdout(Stdio::piped())
        .spawn()
        .map_err(|error| format!("{rt} does not start ({error})"))?;
    if let Some(out) = child.stdout.take() {
        for said in BufReader::new(out).split(b'\n').map_while(Result::ok) {
            let said = String::from_utf8_lossy(&said);
            eprintln!("{said}");
            line(&said);
        }
    }
    match child.wait() {
        Ok(status) if status.success() => Ok(()),
        Ok(status) => Err(format!("{rt} {}: {status}", words.join(" "))),
        Err(error) => Err(format!("{rt} {}: {error}", words.join(" "))),
    }
}

/// What `rt` says to one word.
fn said(places: &Places<'_>, word: &str) -> Result<String, String> {
    let mut said = String::new();
    run(places, places.room, &[word], |line| {
        said.push_str(line);
        said.push('\n');
    })?;
    Ok(said)
}

/// Proves and compiles. `rt all check` proves several crates at a time, which `rt lib` would not.
fn proven(
    places: &Places<'_>,
    crates: &[(String, String)],
    tell: &mut Tell<'_>,
) -> Result<(), String> {
    let folder = places.room.join("crates").join(CRATE);
    let missing = crates.iter().filter(|(name, _)| !proved(places, name));
    let (missing, count) = (missing.count(), crates.len());
    if missing > 0 {
        let what = format!(
            "{missing} crates of the request keeper: minutes, once (REQUEST_KEEPER_LIB links a built archive instead)"
        );
        tell("Proving", &what);
    }
    let (mut last, mut done) = (String::new(), 0);
    let jobs = at_once().to_string();
    run(
        places,
        &folder,
        &["all", "check", "--jobs", &jobs],
        |line| {
            let named = line.strip_prefix("== ");
            if let Some((name, _)) = crates.iter().find(|(name, _)| Some(&**name) == named) {
                last.clone_from(name);
                done += 1;
            } else if line.starts_with("logic=proved") {
                tell("Proved", &format!("{last}, {done} of {count}"));
            }
        },
    )?;
    tell("Compiling", "the proved request keeper");
    run(places, &folder, &["lib"], |_| {})
}

/// Whether a crate has ever been proved in the room.
fn proved(places: &Places<'_>, name: &str) -> bool {
    let out = places.room.join("crates").join(name).join("out");
    out.join("rlib/stamp").exists() || (name == CRATE && places.archive().exists())
}

/// How many crates to prove at a time: a check takes a processor and up to 4 GB.
fn at_once() -> usize {
    let processors = available_parallelism().map_or(1, |number| number.get());
    let about = fs::read_to_string("/proc/meminfo").unwrap_or_default();
    let available = about
        .lines()
        .find_map(|line| line.strip_prefix("MemAvailable:")?.strip_suffix(" kB"))
        .and_then(|kilobytes| kilobytes.trim().parse::<usize>().ok());
    let memory = available.map_or(1, |kilobytes| kilobytes >> 22);
    processors.min(memory).max(1)
}
