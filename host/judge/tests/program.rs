//! The judge as a program: its status, its words, and what an interrupt does.

mod common;

use common::Scratch;
use std::fs;
use std::io::Write;
use std::process::{Command, Stdio};
use std::thread::sleep;
use std::time::{Duration, Instant};

fn judge(words: &[&str]) -> Command {
    let mut command = Command::new(env!("CARGO_BIN_EXE_keeper_judge"));
    command.args(words);
    command
}

/// Its status, standard output and standard error.
fn program(words: &[&str]) -> (Option<i32>, String, String) {
    let output = judge(words).output().expect("the judge starts");
    let text = |bytes| String::from_utf8(bytes).expect("text");
    (
        output.status.code(),
        text(output.stdout),
        text(output.stderr),
    )
}

#[test]
fn exit_status() {
    let few = ["--streams", "0", "--patience", "20000", "--go-on", "0"];
    let judged = |command: &str| program(&[&[command], &few[..]].concat());
    let (status, report, _) = judged(&common::shipped("older-stamp"));
    assert_eq!(status, Some(1));
    assert!(report.starts_with("Your keeper differs"));
    assert_eq!(judged("sh -c 'exit 0'").0, Some(1));
    assert_eq!(judged("no-such-keeper-anywhere").0, Some(2));
}

#[test]
fn an_error_is_one_line() {
    for (words, says) in [
        (&[][..], "the command that starts a keeper was expected"),
        (&["cat", "--unknown"], "there is no option --unknown"),
        (&["-"], "there is no option -"),
        (&["cat", "cat"], "one word too many: cat"),
        (&["cat", "--seed"], "--seed needs a value"),
        (&["cat", "--seed", "x"], "from 0 to 18446744073709551615"),
        (&["cat", "--patience", "0"], "a number from 1 to 31536000"),
        (&["cat", "--save", "-"], "--save -: a file's name"),
        (&["cat", "--replay", "/no/such/file"], "/no/such/file: "),
        (&["no-such-keeper-anywhere"], "does not start"),
    ] {
        let (status, out, error) = program(words);
        assert_eq!(status, Some(2), "{words:?}");
        assert!(error.starts_with("keeper_judge: "), "{error}");
        assert!(error.contains(says), "{error}");
        assert_eq!(error.lines().count(), 1, "{error}");
        assert_eq!(out, "");
    }
}

#[test]
fn each_error_has_its_line() {
    let (status, _, error) = program(&["--unknown", "cat", "--steps", "-1", "dog"]);
    let lines: Vec<&str> = error.lines().collect();
    assert_eq!((status, lines.len()), (Some(2), 3), "{error}");
    assert!(lines[1].contains("--steps -1: a number from 0 to 4294967295"));
}

#[test]
fn help_and_version() {
    for word in ["--help", "-h"] {
        let (status, out, error) = program(&["cat", word]);
        assert_eq!((status, error.as_str()), (Some(0), ""));
        assert!(out.starts_with("usage: keeper_judge COMMAND"));
        assert!(out.contains("--shrink S"));
    }
    let (status, out, _) = program(&["--version"]);
    let version = format!("keeper_judge {}\n", env!("CARGO_PKG_VERSION"));
    assert_eq!((status, out), (Some(0), version));
}

#[test]
fn the_fixed_list_can_be_played() {
    let list = concat!(env!("CARGO_MANIFEST_DIR"), "/../fixed/streams.txt");
    let (status, report, _) = program(&[&common::shipped("none"), "--replay", list]);
    assert_eq!(status, Some(0));
    assert!(report.contains("streams left out: they put a state in"));
}

#[test]
fn streams_from_standard_input() {
    let mut judge = judge(&[&common::shipped("none"), "--replay", "-"])
        .stdin(Stdio::piped())
        .stdout(Stdio::piped())
        .spawn()
        .expect("the judge starts");
    let mut pipe = judge.stdin.take().expect("a pipe");
    pipe.write_all(b"stream one\nopen 0 0 0 0 0 0\nstream two\nareas 1 1\n")
        .expect("it is read");
    drop(pipe);
    let output = judge.wait_with_output().expect("it ends");
    let says = "1 stream left out: it puts a state in, damages an area or calls on a map\n\
                No difference in 1 stream, 1 call.\n";
    assert_eq!(String::from_utf8_lossy(&output.stdout), says);
    assert_eq!(output.status.code(), Some(0));
}

#[test]
fn shrinking_shows_how_far_it_is() {
    let keeper = common::shipped("hangs-in-a-reorg");
    let limits = ["--patience", "400", "--go-on", "0", "--shrink", "3"];
    let (status, report, told) = program(&[&[&keeper, "--progress"], &limits[..]].concat());
    assert_eq!(status, Some(1), "{report}");
    assert!(told.contains("making it short: "), "{told}");
    assert!(told.contains(" tried"), "{told}");
}

#[test]
fn an_interrupt_ends_the_keeper_too() {
    let file = Scratch::new("interrupted");
    let keeper = common::writing_on(&file);
    let mut judge = judge(&[&keeper, "--patience", "60000"])
        .spawn()
        .expect("the judge starts");
    let start = Instant::now();
    while !file.0.exists() && start.elapsed() < Duration::from_secs(20) {
        sleep(Duration::from_millis(10));
    }
    let ended = Command::new("kill").arg(judge.id().to_string()).status();
    assert!(ended.expect("kill starts").success());
    assert!(!judge.wait().expect("it ends").success());
    let length = || fs::metadata(&file.0).expect("it was started").len();
    let before = length();
    sleep(Duration::from_millis(400));
    assert_eq!(length(), before);
}
