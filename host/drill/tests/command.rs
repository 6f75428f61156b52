//! The command: what it prints where, and its exit status.

use std::path::PathBuf;
use std::process::{Command, Output, Stdio};
use std::{env, fs};

fn drill() -> Command {
    Command::new(env!("CARGO_BIN_EXE_drill"))
}

fn run(words: &[&str]) -> Output {
    drill().args(words).output().expect("started")
}

fn text(bytes: &[u8]) -> String {
    String::from_utf8_lossy(bytes).into_owned()
}

/// A folder of its own for what a test writes.
fn folder(name: &str) -> PathBuf {
    let folder = env::temp_dir().join(format!("drill-{name}-{}", std::process::id()));
    fs::create_dir_all(&folder).expect("a folder");
    folder
}

#[test]
fn help_and_version_are_printed_where_asked() {
    let help = run(&["--help"]);
    assert!(help.status.success() && help.stderr.is_empty());
    assert!(text(&help.stdout).starts_with("drill FILE.."));
    let version = run(&["--version"]);
    assert!(version.status.success() && version.stderr.is_empty());
    assert_eq!(
        text(&version.stdout),
        concat!("drill ", env!("CARGO_PKG_VERSION"), "\n")
    );
}

#[test]
fn forecasts_are_printed_where_asked() {
    let forecast = "\n            forecast   finished, outcome Synced, pending 1, evicted 0, commands 1, bytes 49\n";
    let plain = run(&["shut-gate"]);
    assert!(plain.status.success() && !text(&plain.stdout).contains("forecast"));
    let shown = run(&["--forecast", "shut-gate"]);
    assert!(shown.status.success() && shown.stderr.is_empty());
    assert!(text(&shown.stdout).contains(forecast), "{shown:?}");
    let quiet = run(&["shut-gate", "--forecast", "--quiet"]);
    assert_eq!(text(&quiet.stdout).lines().count(), 1, "{quiet:?}");
}

#[test]
fn mean_ages_are_printed_where_asked() {
    let plain = run(&["shut-gate"]);
    assert!(plain.status.success() && !text(&plain.stdout).contains("mean age"));
    let shown = run(&["--mean-age", "shut-gate"]);
    assert!(shown.status.success() && shown.stderr.is_empty());
    let told = text(&shown.stdout);
    let lines = told.matches("\n            mean age   ");
    assert!(lines.count() > 3 && !told.contains("forecast"), "{told}");
    let both = run(&["--mean-age", "shut-gate", "--forecast"]);
    let told = text(&both.stdout);
    assert!(told.contains("mean age   ") && told.contains("forecast   "));
}

/// Each fault of the arguments has a line of its own, and the usage is not printed with it.
#[test]
fn faults_have_a_line_each() {
    let cases: [(&[&str], usize); 5] = [
        (&[], 1),
        (&["--fast", "--slow"], 2),
        (&["shut-gate", "--judge", "true"], 1),
        (&["a-day", "shut-gate", "--svg", "one.svg"], 1),
        (&["--svg"], 1),
    ];
    for (words, lines) in cases {
        let output = run(words);
        assert_eq!(output.status.code(), Some(2), "{words:?}");
        assert!(output.stdout.is_empty(), "{words:?}");
        let told = text(&output.stderr);
        assert_eq!(told.lines().count(), lines, "{words:?}: {told}");
        assert!(
            told.lines()
                .all(|line| line.starts_with("drill: ") && line.contains("`drill --help`")),
            "{told}"
        );
    }
}

#[test]
fn a_file_that_cannot_be_read_is_named() {
    let folder = folder("unread");
    let file = folder.join("wide.drill");
    fs::write(&file, b"\xff\xfeo\0p\0e\0n\0").expect("written");
    for (name, expected) in [
        (
            file.to_string_lossy().into_owned(),
            "UTF-16 text: save it as UTF-8",
        ),
        ("nowhere".to_string(), "`drill --list` names the scenarios"),
    ] {
        let output = run(&[&name]);
        assert_eq!(output.status.code(), Some(2));
        assert!(text(&output.stderr).contains(expected), "{output:?}");
    }
    fs::remove_dir_all(folder).expect("removed");
}

/// A full disk is no success. A reader who has gone away is: `drill shut-gate | head -1`.
#[cfg(target_os = "linux")]
#[test]
fn a_failed_write_is_a_failure() {
    for words in [
        &["shut-gate"][..],
        &["--list"],
        &["--help"],
        &["a-day", "shut-gate", "--quiet"],
    ] {
        let full = fs::File::create("/dev/full").expect("there");
        let output = drill().args(words).stdout(full).output().expect("started");
        assert_eq!(output.status.code(), Some(2), "{words:?}");
        let told = text(&output.stderr);
        assert!(told.starts_with("drill: standard output: "), "{told}");
        assert_eq!(told.lines().count(), 1, "{told}");
    }
    let mut gone = drill()
        .args(["shut-gate"])
        .stdout(Stdio::piped())
        .stderr(Stdio::piped())
        .spawn()
        .expect("started");
    drop(gone.stdout.take());
    let output = gone.wait_with_output().expect("ended");
    assert!(output.status.success() && output.stderr.is_empty());
}

/// Many steps with few ids make several files; many steps with many ids are refused, and the bound is said.
#[test]
fn long_drawings_are_cut_or_refused() {
    let folder = folder("long");
    let scenario = |name: &str, text: String| {
        let file = folder.join(name);
        fs::write(&file, text).expect("written");
        file.to_string_lossy().into_owned()
    };
    let files = || {
        let entries = fs::read_dir(&folder).expect("the folder");
        let names = entries.map(|entry| entry.expect("an entry").file_name());
        let mut names: Vec<_> = names
            .map(|name| name.to_string_lossy().into_owned())
            .collect();
        names.sort();
        names
    };
    let head =
        "ids a001..a900\nopen 0 0\npeers 4\nat 0 start\nat 1000 pick\nat 1000 announced 4 header";
    let checks = "at +5000 check\n".repeat(58);
    let cut = scenario("cut.drill", format!("{head} a001..a003\n{checks}"));
    let output = run(&[&cut, "--svg", "--quiet"]);
    assert!(output.status.success(), "{output:?}");
    let told = text(&output.stdout);
    assert!(
        told.contains("cut-1.svg to ") && told.contains("cut-3.svg, 3 pages"),
        "{told}"
    );
    assert_eq!(
        files(),
        ["cut-1.svg", "cut-2.svg", "cut-3.svg", "cut.drill"]
    );
    let checks = "at +5000 check\n".repeat(200);
    let refused = scenario("refused.drill", format!("{head} a001..a900\n{checks}"));
    let output = run(&[&refused, "--svg", "--quiet"]);
    assert_eq!(output.status.code(), Some(2));
    let told = text(&output.stderr);
    assert!(
        told.contains("not drawn: ") && told.contains("at most 100 are drawn"),
        "{told}"
    );
    assert_eq!(files().len(), 5);
    fs::remove_dir_all(folder).expect("removed");
}
