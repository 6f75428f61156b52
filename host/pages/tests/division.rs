//! F-4: where ids are cut into requests, and in all that is called for it, no quotient and no remainder is worked out.

use keeper_pages::division::{search, Searched};
use keeper_pages::root;
use std::collections::BTreeMap;
use std::fs;

/// The files that cut: a list into runs, runs into commands with their counts; and that count an announcement's ids.
const CUTTING: [&str; 3] = [
    "crates/commands/src/chunk.rt",
    "crates/commands/src/counting.rt",
    "crates/commands/src/writing.rt",
];

/// What they call, all the way down: kinds and places, numbers as bytes, sizes, copies.
const CALLED: [&str; 7] = [
    "crates/commands/src/kind.rt",
    "crates/commands/src/place.rt",
    "crates/fields/src/lib.rt",
    "crates/model/src/layout.rt",
    "crates/model/src/lib.rt",
    "crates/spans/src/copying.rt",
    "crates/spans/src/moving.rt",
];

fn searched() -> Searched {
    let read = |file: &str| fs::read_to_string(root().join(file)).ok();
    search(&read, &CUTTING)
}

#[test]
fn no_division_where_ids_are_cut() {
    let faults = searched().faults;
    assert!(faults.is_empty(), "{faults:#?}");
}

#[test]
fn the_files_searched_are_these() {
    let files = Vec::from_iter(searched().files);
    let mut these = [&CUTTING[..], &CALLED].concat();
    these.sort_unstable();
    assert_eq!(files, these);
}

const CUT: &str = "crates/cut/src/lib.rt";

/// A tree of these files, the first of which cuts.
fn searched_in(files: &[(&str, &str)]) -> Searched {
    let texts: BTreeMap<&str, &str> = files.iter().copied().collect();
    let read = |file: &str| texts.get(file).map(ToString::to_string);
    search(&read, &[CUT])
}

#[test]
fn a_sign_is_told_with_its_line() {
    for line in [
        "    let number = ids.len() / ID_SIZE;",
        "    rest /= 32;",
        "    if ids.len() % 32 == 0 {",
        "    let half = number >> 1;",
        "    requires { ⌜ length (now ids) % idSize ≡ 0 ⌝ }",
        "    ensures { λ r. ⌜ r ≡ length (now ids) / idSize ⌝ }",
        "ghost use Prim.Native.Nat.{_+_, _/_};",
        "    let half = number / 2; // A half.",
        "    put(\"//\", number / 2);",
        "    ensures { λ r. ⌜ r ≡ length (now ids) // idSize ⌝ }",
        "/* No comment of this form. */",
        "    requires { length ids.now % id_size ≡ 0 }",
        "    ensures whole { result ≡ length ids.now / id_size }",
        "    ensures { result ≡ length ids.now // id_size }",
        "    ensures { result < n // 2 }",
        "        < n // 2",
        "ghost use Rattle.std.specs.Prelude.{◌+◌, ◌/◌};",
        "ghost use Rattle.std.specs.Prelude.{◌%◌};",
        "ghost use Rattle.std.specs.Prelude.{◌+◌}; // ◌/◌",
        "    let number = ids.len().div_euclid(ID_SIZE);",
        "    let number = ids.len().div_ceil(ID_SIZE);",
        "    let rest = ids.len().checked_rem(ID_SIZE);",
        "    if ids.len().is_multiple_of(32) {",
        "    for run in ids.chunks_exact(12800) {",
    ] {
        let searched = searched_in(&[(CUT, &format!("// A file.\n{line}\n"))]);
        assert_eq!(searched.faults, [format!("{CUT}:2: {}", line.trim())]);
    }
}

#[test]
fn a_comment_has_any_sign() {
    for line in [
        "// The sizes of docs/LAYOUT.md, under 50 % of a page, >> 8.",
        "    // 12,800 / 32",
        "    let end = at + 12800; // 12,800 / 32",
        "    let end = at + 12800;",
        "    if at < end { // at most 12,800 / 32",
        "    let left = remaining_chunk(ids, 400);",
    ] {
        assert_eq!(searched_in(&[(CUT, line)]).faults, [""; 0], "{line}");
    }
}

#[test]
fn calls_are_followed_all_the_way() {
    let files = [
        (CUT, "crate::chunk::next(ids);\nput(ids);"),
        (
            "crates/cut/src/chunk.rt",
            "use sizes::{RUN, runs::MOST};\nghost use Prim::Nat;\n// fields::none()",
        ),
        ("crates/cut/src/other.rt", "uncalled / 2"),
        ("crates/sizes/src/lib.rt", "fields::bytes::write(out, 400)"),
        (
            "crates/fields/src/bytes.rt",
            "out[0] = n >> 8;\nout[1] = n % 256;",
        ),
        ("crates/fields/src/lib.rt", "uncalled / 2"),
        ("crates/sizes/src/runs.rt", "400"),
    ];
    let searched = searched_in(&files);
    let expected = ["crates/fields/src/bytes.rt:2: out[1] = n % 256;"];
    assert_eq!(searched.faults, expected);
    let expected = [
        "crates/cut/src/chunk.rt",
        CUT,
        "crates/fields/src/bytes.rt",
        "crates/sizes/src/lib.rt",
        "crates/sizes/src/runs.rt",
    ];
    assert_eq!(Vec::from_iter(searched.files), expected);
}

#[test]
fn a_file_that_is_gone_is_told() {
    let searched = searched_in(&[]);
    assert_eq!(searched.faults, [format!("{CUT}: no such file")]);
    assert!(searched.files.is_empty());
}

#[test]
fn a_path_that_leads_nowhere_is_told() {
    for (line, path) in [
        ("crate::chunk::next(ids)", "crate::chunk::next"),
        ("chunk::next(ids)", "chunk::next"),
        ("use sizes::gone::RUN;", "sizes::gone::RUN"),
        ("use sizes::{RUN, gone::WIDTH};", "sizes::gone::WIDTH"),
        ("use sizes::{RUN, {WIDTH}};", "sizes::"),
        ("use sizes::*;", "sizes::"),
        ("u64::from(n)", "u64::from"),
        (
            "u32::from_be_bytes(s[at..at + 4].try_into().unwrap())",
            "u32::from_be_bytes",
        ),
    ] {
        let searched = searched_in(&[(CUT, line), ("crates/sizes/src/lib.rt", "")]);
        let expected = format!("{CUT}:1: {path} leads to no file");
        assert_eq!(searched.faults, [expected]);
    }
}

#[test]
fn a_call_with_a_size_is_told_of_nothing() {
    let line = "put::<32>(s, from + done, to + done);";
    assert_eq!(searched_in(&[(CUT, line)]).faults, [""; 0]);
}
