//! A keeper that ends, hangs, closes its output or writes nonsense is reported where it does, and never holds the
//! judge up.

mod common;

use common::{before_the_right_one, broken, few_streams, judged, writing_on, Scratch, DRAW};
use keeper_judge::{judge, streams, Options, Wrong};
use std::fs;
use std::time::{Duration, Instant};

#[test]
fn ends_at_once() {
    let (found, broken, report) = broken("sh -c 'echo out of luck >&2; exit 3'");
    assert_eq!(found.fault.at, 0);
    assert!(broken.how.words().contains("exit status: 3"));
    assert_eq!(broken.errors, ["out of luck"]);
    assert!(report.starts_with("Your keeper breaks off at call 0, the opening."));
    assert!(report.contains("  out of luck\n"));
    assert!(report.contains("  core   = 0\n"));
}

#[test]
fn ends_on_the_way() {
    // The stream's name, the opening and the first step are passed on.
    let script = "for line in 1 2 3; do read -r text; echo $text; done";
    let (found, broken, report) = broken(&before_the_right_one(script));
    assert_eq!(found.fault.at, 2, "{report}");
    assert!(broken.how.words().starts_with("ended"), "{report}");
}

#[test]
fn hangs() {
    let start = Instant::now();
    let (found, broken, report) = broken("sleep 100");
    assert_eq!(found.fault.at, 0);
    assert!(broken.how.is_waiting());
    assert!(report
        .contains("It gave no whole answer within 300 ms (--patience). Is each answer flushed?\n"));
    assert!(start.elapsed() < Duration::from_secs(20));
}

#[test]
fn closes_its_output() {
    let (_, broken, report) = broken("sh -c 'exec >&-; exec sleep 100'");
    assert_eq!(
        broken.how.words(),
        "closed its standard output.",
        "{report}"
    );
}

#[test]
fn writes_nonsense() {
    for (command, says) in [
        (
            "yes hello",
            "wrote `hello` where `=` and one number has to stand",
        ),
        ("yes =", "wrote `=` where"),
        (
            "yes '= 0 0'",
            "wrote `= 0 0` where `=` and one number has to stand",
        ),
        (
            "yes '= 0'",
            "wrote `= 0` where the state `. ..` has to stand",
        ),
        ("yes '= -1'", "wrote `= -1` where"),
        ("yes ''", "wrote `` where"),
        ("cat", "wrote `stream "),
        ("cat /dev/zero", "a line of more than 262144 bytes"),
    ] {
        let (_, broken, report) = broken(command);
        assert!(report.contains(says), "{command}: {report}");
        assert!(!broken.how.is_waiting());
    }
}

#[test]
fn random_bytes_end_in_a_report() {
    let (_, broken, _) = broken("cat /dev/urandom");
    assert!(!broken.how.is_waiting());
}

#[test]
fn remarks_alone_are_no_answer() {
    let (_, broken, _) = broken("yes '# thinking'");
    assert!(broken.how.is_waiting());
}

#[test]
fn the_same_in_other_letters() {
    let keeper = env!("CARGO_BIN_EXE_faulty_keeper");
    let command = format!("sh -c \"'{keeper}' none | sed -u 's/^= 0/= 00/'\"");
    let (verdict, report) = judged(&command, &few_streams());
    let found = verdict.found.expect("it is found");
    assert!(matches!(found.fault.wrong, Wrong::Written(_)), "{report}");
    assert!(report.contains("but not in the form"));
}

#[test]
fn something_kept_from_stream_to_stream() {
    // From the fourth stream on the opening's height is 9.
    let keeper = env!("CARGO_BIN_EXE_faulty_keeper");
    let file = Scratch::new("leaky.sh");
    let text = format!(
        "n=0\nwhile read -r word rest; do\n  case $word in\n    stream) n=$((n + 1)) ;;\n    open) \
         if [ $n -gt 3 ]; then set -- $rest; rest=\"$1 9 $3 $4 $5 $6\"; fi ;;\n  esac\n  echo \
         \"$word $rest\"\ndone | '{keeper}' none\n"
    );
    fs::write(&file.0, text).expect("a script is written");
    let (verdict, report) = judged(&format!("sh '{}'", file.0.display()), &few_streams());
    let found = verdict.found.expect("it is found");
    assert!(!found.alone, "{report}");
    let mut all = streams(DRAW).map(|stream| stream.expect("the core plays it").name);
    assert_eq!(Some(found.from), all.nth(3), "the first one is shown");
    assert!(report.contains("something is kept from one `stream` line to the next"));
}

#[test]
fn does_not_start() {
    let mut out = Vec::new();
    for command in ["no-such-keeper-anywhere", "", "'open quote"] {
        assert!(judge(command, &Options::default(), &mut out).is_err());
    }
    assert!(out.is_empty());
}

#[test]
fn nothing_is_left_behind() {
    let file = Scratch::new("alive");
    let (_, broken, _) = broken(&writing_on(&file));
    assert!(broken.how.is_waiting());
    let length = || fs::metadata(&file.0).map(|file| file.len());
    let before = length().expect("it was started");
    std::thread::sleep(Duration::from_millis(400));
    assert_eq!(length().expect("the file stays"), before);
}
