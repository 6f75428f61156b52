//! The run: directed streams, then random ones. After the first wrong answer it goes on for a while, since another one
//! may be simpler to look at.

use crate::count::count;
use crate::kind::Kinds;
use crate::progress::Progress;
use crate::pupil::Pupil;
use crate::settle::settle;
use crate::source::{directed_count, streams, Draw};
use crate::trial::play;
use crate::{Options, Verdict};
use std::time::Instant;

fn told(verdict: &Verdict, all: u64, kinds: usize, seconds: f64) -> String {
    let (streams, calls) = (verdict.streams, verdict.calls);
    let wrong = match kinds {
        0 => String::new(),
        kinds => format!("; wrong: {}", count(kinds as u64, "kind")),
    };
    let rate = calls as f64 / seconds;
    format!("{streams} of {all} streams, {calls} calls, {rate:.0} calls a second{wrong}")
}

pub fn search(pupil: &mut Pupil, options: &Options) -> Result<Verdict, String> {
    let draw = Draw {
        streams: options.streams,
        seed: options.seed,
        steps: options.steps,
        questions: options.questions,
    };
    let mut progress = Progress::new(options.progress);
    let all = directed_count() + options.streams;
    let mut verdict = Verdict::default();
    let mut kinds = Kinds::default();
    let mut deadline = None;
    for stream in streams(draw) {
        if deadline.is_some_and(|deadline| Instant::now() >= deadline) {
            break;
        }
        let stream = stream?;
        let fault = play(pupil, &stream, deadline)?;
        verdict.streams += 1;
        verdict.calls = pupil.calls;
        if let Some(fault) = fault {
            if kinds.is_empty() {
                deadline = Some(Instant::now() + options.go_on);
                pupil.hurry(true);
            }
            kinds.take(&stream, fault);
        }
        let seconds = progress.seconds();
        progress.now_and_then(|| told(&verdict, all, kinds.count(), seconds));
    }
    verdict.found = settle(pupil, &kinds, options.shrink, &mut progress)?;
    progress.end();
    Ok(verdict)
}
