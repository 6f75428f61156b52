//! Of the wrong answers that were met, the one to show: the one whose stream gets the shortest.

use crate::kind::{Kind, Kinds, Met};
use crate::progress::Progress;
use crate::pupil::Pupil;
use crate::shrink::Shrinker;
use crate::stream::Stream;
use crate::trial::{play, Fault};
use crate::Found;
use std::time::{Duration, Instant};

/// Kinds that are looked at, those with short streams.
const KINDS: usize = 8;

/// A wrong answer that is one in a new process too, and how far it is shrunk.
struct Short<'m> {
    met: &'m Met,
    stream: Stream,
    fault: Fault,
    in_time: bool,
}

struct Settling<'p> {
    pupil: &'p mut Pupil,
    progress: &'p mut Progress,
    end: Instant,
}

impl Settling<'_> {
    fn shrink(&mut self, short: &mut Short, deadline: Instant, wholly: bool) -> Result<(), String> {
        let mut shrinker = Shrinker {
            pupil: self.pupil,
            progress: self.progress,
            best: short.stream.clone(),
            fault: short.fault.clone(),
            deadline,
            tries: 0,
            in_vain: 0,
        };
        if wholly {
            shrinker.wholly()?;
        } else {
            shrinker.roughly()?;
        }
        short.in_time = !shrinker.is_over();
        (short.stream, short.fault) = (shrinker.best, shrinker.fault);
        Ok(())
    }

    /// Each in a new process, roughly shrunk; short ones first. They share half of the time.
    fn rough<'m>(&mut self, all: &[&'m Met]) -> Result<Vec<Short<'m>>, String> {
        let half = Instant::now() + self.end.saturating_duration_since(Instant::now()) / 2;
        let mut shorts: Vec<Short> = Vec::new();
        for (index, met) in all.iter().enumerate() {
            let now = Instant::now();
            if now >= half && !shorts.is_empty() {
                break;
            }
            self.pupil.stop();
            let Some(fault) = play(self.pupil, &met.stream, None)? else {
                continue;
            };
            let mut short = Short {
                met,
                stream: met.stream.cut(fault.at),
                fault,
                in_time: true,
            };
            let left = (all.len() - index) as u32;
            let share = now + half.saturating_duration_since(now) / left;
            self.shrink(&mut short, share, false)?;
            shorts.push(short);
        }
        shorts.sort_by_key(|short| short.stream.length());
        Ok(shorts)
    }

    /// What the keeper does wrong in this stream, in a new process and with the whole patience.
    fn surely(&mut self, stream: &Stream) -> Result<Option<Fault>, String> {
        self.pupil.stop();
        self.pupil.hurry(false);
        let fault = play(self.pupil, stream, None);
        self.pupil.hurry(true);
        fault
    }
}

/// The wrong answer to show, within the time that shrinking may take; none if none was met.
pub fn settle(
    pupil: &mut Pupil,
    kinds: &Kinds,
    time: Duration,
    progress: &mut Progress,
) -> Result<Option<Found>, String> {
    let Some((first, mut met)) = kinds.sorted() else {
        return Ok(None);
    };
    let found = |met: &Met, stream: Stream, fault: Fault| Found {
        from: met.stream.name.clone(),
        met: met.stream.calls.len(),
        others: kinds.others(&Kind::of(&stream, &fault)),
        stream: stream.cut(fault.at),
        fault,
        alone: true,
        out_of_time: None,
    };
    progress.say("making its stream short");
    met.truncate(KINDS);
    let mut settling = Settling {
        pupil,
        progress,
        end: Instant::now() + time,
    };
    settling.pupil.hurry(true);
    for mut short in settling.rough(&met)? {
        let end = settling.end;
        settling.shrink(&mut short, end, true)?;
        let mut stream = short.stream;
        stream.name = format!("shrunk from {}", stream.name);
        // A keeper that is slow at times, or lets something pass from stream to stream, may have misled the shrinking.
        if let Some(fault) = settling.surely(&stream)? {
            let out_of_time = (!short.in_time).then_some(time);
            return Ok(Some(Found {
                out_of_time,
                ..found(short.met, stream, fault)
            }));
        }
        if let Some(fault) = settling.surely(&short.met.stream)? {
            return Ok(Some(found(short.met, short.met.stream.clone(), fault)));
        }
    }
    Ok(Some(Found {
        alone: false,
        ..found(first, first.stream.clone(), first.fault.clone())
    }))
}
