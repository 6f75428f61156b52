//! A line that is not well formed is named with its number, and the error says what was expected. No input panics.

use drill::scenario::read;

/// Four good lines, then the bad one.
fn fault_of(line: &str) -> String {
    let text = format!("peer north 4\nids a\nopen 1000 400\nat 1000 start\n{line}\n");
    match read(&text) {
        Ok(_) => panic!("`{line}` was read"),
        Err(fault) => {
            assert_eq!(fault.line, 5, "{line}: {fault}");
            fault.what
        }
    }
}

#[test]
fn each_malformed_line_is_named() {
    let cases = [
        ("attack", "`attack` begins no line: expected title, setting"),
        ("title", "the title's text was expected"),
        ("setting timeout 5", "a setting after `open`"),
        ("peer", "a peer's name was expected"),
        ("peer south", "the peer's number was expected"),
        ("peer south x", "`x` is not the peer's number"),
        (
            "peer north 5",
            "`north` is the name of another peer already",
        ),
        ("peer south 4", "peer 4 has the name `north` already"),
        ("peer none 5", "`none` can't be a name"),
        ("ids", "names of ids or `none` was expected"),
        ("ids 7up", "`7up` can't be a name"),
        ("ids x1..y9", "`x1..y9` is no range"),
        ("ids x1..x9999", "`x1..x9999` is no range"),
        ("id b 00", "`00` is not an id: expected 64 hex digits"),
        ("open 0 0", "a second `open`"),
        ("peers nowhere", "no peer has the name `nowhere`"),
        (
            "gate ajar",
            "`ajar` was not expected here, but `open` or `shut`",
        ),
        ("gate", "the line ends where `open` or `shut` was expected"),
        ("chain high", "`high` is not a height"),
        ("chain 4294967296", "`4294967296` is not a height"),
        (
            "chain 1 2",
            "`2` was not expected: the line should end before it",
        ),
        ("header", "a height, or a range of heights"),
        ("header 401 a", "`a` is not a section: expected TYPE:NAME"),
        ("header 401 blob:a", "`blob` is not a type"),
        ("stored", "ids or `none` was expected"),
        (
            "stored b",
            "no id has the name `b`: introduce it with `ids b`",
        ),
        (
            "view half",
            "`half` was not expected here, but `whole` or a number of rows",
        ),
        ("at", "a clock in ms"),
        ("at noon check", "`noon` is not a clock in ms"),
        ("at 5", "a step (start, pick"),
        ("at 5 jump", "`jump` is not a step: expected start, pick"),
        (
            "at 5 check now",
            "`now` was not expected: the line should end before it",
        ),
        ("at 5 needed", "a type (transaction"),
        ("at 5 needed header", "an id was expected"),
        ("at 5 reorg", "the fork point, a height was expected"),
        ("at 5 lost", "a peer was expected"),
        ("at 5 announced north", "a type (transaction"),
        ("at 5 announced north header", "ids or `none` was expected"),
        ("at 5 announced north 65536 a", "`65536` is not a type"),
        (
            "at 5 sync-info north",
            "`tip HEIGHT`, `no-tip` or `unparsed` was expected",
        ),
        (
            "at 5 sync-info north tip",
            "the peer's tip, a height was expected",
        ),
        (
            "at 5 sync-info north tip 5 a",
            "`continues ID..` or the end of the line",
        ),
        ("expect", "outcome, refused"),
        (
            "expect rain",
            "`rain` can't be expected: after `expect` comes outcome",
        ),
        (
            "expect outcome Fine",
            "`Fine` is not an outcome (Continue, Synced",
        ),
        ("expect mode up", "`up` is not a mode (new, seeking"),
        (
            "expect refused 12",
            "`12` is not a refusal's number, 1 to 11",
        ),
        (
            "expect forecast",
            "`finished` or `refused NUMBER` was expected",
        ),
        (
            "expect forecast rain",
            "`rain` was not expected here, but `finished` or `refused NUMBER`",
        ),
        (
            "expect forecast refused",
            "a refusal's number, 1 to 11 was expected",
        ),
        (
            "expect forecast refused 12",
            "`12` is not a refusal's number, 1 to 11",
        ),
        (
            "expect forecast refused 9 bytes 0",
            "`bytes` was not expected: the line should end before it",
        ),
        (
            "expect forecast finished sends 1",
            "`sends` was not expected here, but outcome, pending, evicted, commands or bytes",
        ),
        (
            "expect forecast finished outcome Fine",
            "`Fine` is not an outcome (Continue, Synced",
        ),
        (
            "expect forecast finished bytes",
            "a number of bytes was expected",
        ),
        (
            "expect forecast finished commands many",
            "`many` is not a number of commands",
        ),
        ("expect mean-age many", "`many` is not a number of requests"),
        ("expect mean-age 3 1", "the remainder was expected"),
        (
            "expect mean-age 3 1 0 9",
            "`9` was not expected: the line should end before it",
        ),
        (
            "expect request a colour red",
            "`colour` was not expected here, but peer, type",
        ),
        ("expect nothing", "`sent` was expected"),
        (
            "expect nothing else",
            "`else` was not expected here, but `sent`",
        ),
        (
            "expect sent north",
            "`sync-info`, `announcement ID..` or a request's `TYPE ID..`",
        ),
        ("expect sent north header", "ids or `none` was expected"),
        ("expect retried many", "`many` is not a number of requests"),
    ];
    for (line, expected) in cases {
        let what = fault_of(line);
        assert!(what.contains(expected), "`{line}` gives: {what}");
    }
}

#[test]
fn what_a_file_lacks_is_said() {
    let cases = [
        ("", 1, "without an `open CLOCK HEIGHT` line"),
        (
            "title a\n# nothing\n",
            2,
            "without an `open CLOCK HEIGHT` line",
        ),
        ("open 0 0\n", 1, "without a step"),
        ("at 0 start\n", 1, "a step before `open CLOCK HEIGHT`"),
        (
            "open 0 0\nexpect mode new\n",
            2,
            "an expectation without its step",
        ),
        (
            "open 0 0\nat 0 start\ngate shut\nexpect mode new\n",
            4,
            "an expectation without its step",
        ),
        ("title a\ntitle b\n", 2, "a second title"),
        (
            "setting speed 5\n",
            1,
            "`speed` is not a setting: expected timeout",
        ),
        ("setting timeout\n", 1, "a number of 32 bits was expected"),
    ];
    for (text, line, expected) in cases {
        let fault = read(text).expect_err("a fault");
        assert_eq!(fault.line, line, "{text}");
        assert!(fault.what.contains(expected), "{text}: {fault}");
    }
}

/// Who names a number that is too great is told the greatest.
#[test]
fn bounds_are_named() {
    let most = ": at most 4,294,967,295";
    let cases = [
        ("chain 4294967296", most),
        ("header 4294967296 block:a", most),
        ("at 5 reorg 9,999,999,999", most),
        (
            "peers 18446744073709551616",
            "at most 18,446,744,073,709,551,615",
        ),
        (
            "at 18446744073709551616 check",
            "at most 18,446,744,073,709,551,615",
        ),
        (
            "at +18446744073709551615 check",
            "at most 18,446,744,073,709,551,615",
        ),
        ("view 18446744073709551616", ": at most "),
        ("at 5 needed 65,536 a", "a number up to 65,535"),
        ("ids x1..x9999", "at most 2,000"),
        ("ids x1..x1500 y1..y1500", "at most 2,000 entries"),
        ("ids a123456789012345678901234567890123", "at most 32"),
    ];
    for (line, expected) in cases {
        let what = fault_of(line);
        assert!(what.contains(expected), "`{line}` gives: {what}");
    }
    let steps = format!("open 0 0\n{}", "at 0 start\n".repeat(2_001));
    let fault = read(&steps).expect_err("a fault");
    assert_eq!(fault.what, "a scenario has at most 2,000 steps");
}

#[test]
fn a_byte_order_mark_is_passed_over() {
    let text = "\u{feff}title A day\nopen 0 0\nat 0 start\n";
    assert_eq!(read(text).expect("well formed").title, "A day");
}

#[test]
fn comments_blanks_and_grouped_numbers_are_read() {
    let text = "  open 1,000 4_00   # the opening\n\n\tat\t1000  start # first\n# end";
    let scenario = read(text).expect("well formed");
    assert_eq!(scenario.open, (1_000, 400));
    assert_eq!(scenario.lines.len(), 1);
}

/// Every cut of a scenario is read or named, and plays or not: none panics.
#[test]
fn no_text_panics() {
    let (_, text) = drill::shipped::SCENARIOS[1];
    let words: Vec<&str> = text.split_inclusive(' ').collect();
    for end in 0..words.len() {
        for cut in [words[..end].concat(), words[end..].concat()] {
            if let Ok(scenario) = read(&cut) {
                let played = drill::play::play(&scenario).expect("opened");
                let _ = drill::timeline::timeline(&played);
                let drawing = drill::drawing::Drawing::of(&played).expect("not too long");
                let _ = drawing.svg(0);
            }
        }
    }
}
