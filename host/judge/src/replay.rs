//! Streams of a file, played as they are.

use crate::count::count;
use crate::pupil::Pupil;
use crate::stream::Stream;
use crate::trial::play;
use crate::{say, Found, Verdict};
use std::fs;
use std::io::{stdin, Read, Write};
use std::path::Path;

/// What stands for standard input.
const STANDARD_INPUT: &str = "-";

fn text(path: &Path) -> std::io::Result<String> {
    if path.as_os_str() != STANDARD_INPUT {
        return fs::read_to_string(path);
    }
    let mut text = String::new();
    stdin().lock().read_to_string(&mut text)?;
    Ok(text)
}

/// The streams of a file, and how many of its streams a pupil can't be asked.
fn streams(path: &Path) -> Result<(Vec<Stream>, usize), String> {
    let named = |fault: String| format!("{}: {fault}", name(path));
    let text = text(path).map_err(|error| named(error.to_string()))?;
    let lines = keeper_play::read(&text)
        .map_err(|line| named(format!("line {line} is not of the text form")))?;
    let (streams, left_out) = Stream::of_lines(&lines);
    if streams.is_empty() {
        return Err(named("no stream that begins with `open`".to_string()));
    }
    Ok((streams, left_out))
}

fn name(path: &Path) -> String {
    if path.as_os_str() == STANDARD_INPUT {
        return "standard input".to_string();
    }
    path.display().to_string()
}

pub fn replay(pupil: &mut Pupil, path: &Path, out: &mut dyn Write) -> Result<Verdict, String> {
    let (streams, left_out) = streams(path)?;
    if left_out > 0 {
        let (count, they) = match left_out {
            1 => (
                count(1, "stream"),
                "it puts a state in, damages an area or calls on a map",
            ),
            more => (
                count(more as u64, "stream"),
                "they put a state in, damage an area or call on a map",
            ),
        };
        say(out, &format!("{count} left out: {they}\n"))?;
    }
    let mut verdict = Verdict::default();
    for stream in streams {
        let fault = play(pupil, &stream, None)?;
        verdict.streams += 1;
        verdict.calls = pupil.calls;
        if let Some(fault) = fault {
            let stream = stream.cut(fault.at);
            verdict.found = Some(Found {
                from: name(path),
                met: stream.calls.len(),
                stream,
                fault,
                alone: true,
                others: Vec::new(),
                out_of_time: None,
            });
            break;
        }
    }
    Ok(verdict)
}
