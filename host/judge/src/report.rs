//! What the judge says.

use crate::count::count;
use crate::difference::differences;
use crate::gloss;
use crate::names::Names;
use crate::process::KEPT;
use crate::pupil::{shortened, Broken};
use crate::rows::{self, rows, Row};
use crate::stream::Stream;
use crate::trial::{Fault, Wrong};
use crate::value::Value;
use crate::Found;
use keeper_streams::text::Line;
use std::fmt::Write;

/// Differences named beside the first.
const ALSO: usize = 8;

/// Rows of a table; a longer one has only those that differ.
const ROWS: usize = 40;

/// Other kinds of wrong answers that are named.
const KINDS: usize = 6;

/// Calls of a stream that are shown of its beginning and of its end, and the longest line.
const CALLS: usize = 12;
const LINE: usize = 1_000;

fn names(stream: &Stream, fault: &Fault) -> Names {
    let mut ids = stream.ids();
    ids.extend(rows::ids(&fault.core));
    if let Wrong::Differs(yours) = &fault.wrong {
        ids.extend(rows::ids(yours));
    }
    Names::new(&ids)
}

/// The stream in the text form, each call said in words above it.
fn stream_lines(stream: &Stream, names: &Names) -> Vec<(String, String)> {
    let said = stream.calls.iter().map(|call| gloss::call(call, names));
    let said = std::iter::once(gloss::opening(&stream.opening)).chain(said);
    let lines = said.zip(stream.asked()).enumerate();
    lines
        .map(|(at, (said, line))| (format!("# {at} {said}"), line.write()))
        .collect()
}

fn stream_text(stream: &Stream, lines: &[(String, String)]) -> String {
    let mut text = Line::Stream(stream.name.clone()).write() + "\n";
    for (said, line) in lines {
        // Writing to a string does not fail.
        let _ = writeln!(text, "{said}\n{line}");
    }
    text
}

/// The stream for a reader, without the middle of a long one. What is left out is marked by what is not of the form, so
/// that a part is not played for the whole.
fn shown(stream: &Stream, names: &Names) -> String {
    let mut lines = stream_lines(stream, names);
    let mut left_out = false;
    if lines.len() > 2 * CALLS + 1 {
        let middle = CALLS..lines.len() - CALLS;
        let gap = format!(".. {} are left out ..", count(middle.len() as u64, "call"));
        lines.splice(middle, [(gap, "..".to_string())]);
        left_out = true;
    }
    for (_, line) in lines.iter_mut().filter(|(_, line)| line.len() > LINE) {
        *line = shortened(line);
        left_out = true;
    }
    let mut text = stream_text(stream, &lines);
    if left_out {
        text += "\nThis is not the whole stream: `--save FILE` writes it.\n";
    }
    text
}

/// A stream as `--save` keeps it.
pub fn saved(found: &Found) -> String {
    let stream = &found.stream;
    stream_text(stream, &stream_lines(stream, &names(stream, &found.fault)))
}

fn table(all: &[Row]) -> String {
    let differs = |row: &&Row| row.yours != row.core;
    let short = all.len() <= ROWS;
    let shown: Vec<&Row> = all
        .iter()
        .filter(|row| short || differs(row))
        .take(ROWS)
        .collect();
    let cell = |value: &Option<Value>, other: &Option<Value>| {
        value
            .as_ref()
            .map_or("-".to_string(), |value| value.beside(other.as_ref()))
    };
    let cells: Vec<[String; 3]> = shown
        .iter()
        .map(|row| {
            let (yours, core) = (cell(&row.yours, &row.core), cell(&row.core, &row.yours));
            [row.name.clone(), yours, core]
        })
        .collect();
    let width = |column: usize| cells.iter().map(|row| row[column].chars().count()).max();
    let (first, second) = (width(0).unwrap_or(0), width(1).unwrap_or(0).max(5));
    let mut text = format!("  {:first$}  {:second$}  the core's\n", "", "yours");
    for (row, [name, yours, core]) in shown.iter().zip(&cells) {
        let mark = if differs(row) { '*' } else { ' ' };
        let line = format!("{mark} {name:first$}  {yours:second$}  {core}");
        text += line.trim_end();
        text.push('\n');
    }
    let differing = all.iter().filter(differs).count();
    if !short {
        let alike = count((all.len() - differing) as u64, "row");
        let _ = writeln!(text, "  {alike} without a difference left out");
    }
    if !short && differing > ROWS {
        let more = count((differing - ROWS) as u64, "row");
        let _ = writeln!(
            text,
            "  {more} with a difference left out, {ROWS} are shown"
        );
    }
    text
}

fn text_form(whose: &str, lines: impl Iterator<Item = String>) -> String {
    lines
        .map(|line| format!("  {whose}  {}\n", shortened(&line)))
        .collect()
}

fn difference_text(found: &Found, yours: &[Line], names: &Names) -> (String, String) {
    let fault = &found.fault;
    let all = rows(yours, &fault.core, names);
    let differences = differences(&all, found.stream.kind(fault.at));
    let mut head = String::new();
    if let Some(first) = differences.first() {
        let _ = writeln!(head, "{}", first.words);
        if let Some(hint) = &first.hint {
            let _ = writeln!(head, "Read {hint}.");
        }
    }
    for also in differences.iter().skip(1).take(ALSO) {
        let _ = writeln!(head, "Also {}", also.words);
    }
    if differences.len() > ALSO + 1 {
        let _ = writeln!(head, "and {} more", differences.len() - ALSO - 1);
    }
    (
        head,
        format!("Both answers, `*` where they differ:\n\n{}", table(&all)),
    )
}

fn broken_text(broken: &Broken) -> String {
    let mut text = format!("It {}\n", broken.how.words());
    if !broken.errors.is_empty() {
        let most = "The last lines of its standard error";
        let _ = writeln!(text, "{most}, {KEPT} at most:");
        for line in &broken.errors {
            let _ = writeln!(text, "  {line}");
        }
    }
    text
}

fn origin(found: &Found) -> String {
    let (before, after) = (found.met as u64, found.stream.calls.len() as u64);
    let mut shrunk = if after < before {
        let before = count(before, "call");
        format!("shrunk from {before} after the opening to {after}")
    } else {
        format!("{} after the opening", count(after, "call"))
    };
    if let Some(time) = found.out_of_time {
        let seconds = count(time.as_secs(), "second");
        let _ = write!(shrunk, ", cut off after {seconds} (--shrink)");
    }
    format!("The stream, {shrunk}; met in \"{}\":", found.from)
}

/// A line on the other kinds that were met.
fn others(found: &Found) -> String {
    let were = match found.others.len() {
        0 => return String::new(),
        1 => "1 other kind of wrong answer was met".to_string(),
        more => format!("{more} other kinds of wrong answers were met"),
    };
    let more = match found.others.len().saturating_sub(KINDS) {
        0 => String::new(),
        more => format!("; and {more} more"),
    };
    let named: Vec<&str> = found
        .others
        .iter()
        .take(KINDS)
        .map(String::as_str)
        .collect();
    format!("{were}: {}{more}.\n", named.join("; "))
}

/// The whole report of a wrong answer.
pub fn found(found: &Found) -> String {
    let (stream, fault) = (&found.stream, &found.fault);
    let names = names(stream, fault);
    let place = format!("call {}, {}", fault.at, stream.call_name(fault.at));
    let core = || text_form("core ", fault.core.iter().map(Line::write));
    let (title, head, tail) = match &fault.wrong {
        Wrong::Differs(yours) => {
            let (head, table) = difference_text(found, yours, &names);
            let written = text_form("yours", yours.iter().map(Line::write));
            let tail = format!("{table}\nIn the text form:\n\n{written}{}", core());
            (
                format!("Your keeper differs from the proved core at {place}."),
                head,
                tail,
            )
        }
        Wrong::Written(texts) => {
            let head =
                "It says what the core says, but not in the form: numbers in decimal without \
                        a sign, hex in lower case, marks 0 or 1, pending records by rising id.\n";
            let written = text_form("yours", texts.iter().cloned());
            let title = format!("Your keeper writes its answer otherwise at {place}.");
            (title, head.to_string(), format!("{written}{}", core()))
        }
        Wrong::Broken(broken) => {
            let title = format!("Your keeper breaks off at {place}.");
            let tail = format!("The core's answer:\n\n{}", core());
            (title, broken_text(broken), tail)
        }
    };
    let alone = if found.alone {
        ""
    } else {
        "It answers this stream rightly in a new process: something is kept from one `stream` line \
         to the next, or an answer is left to chance. Nothing was shrunk.\n"
    };
    let (others, origin, text) = (others(found), origin(found), shown(stream, &names));
    format!("{title}\n\n{head}{alone}{others}\n{origin}\n\n{text}\n{tail}")
}
