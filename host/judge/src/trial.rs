//! One stream, asked of the pupil's keeper and of the proved core, up to the first call on which they part.

use crate::pupil::{Broken, Pupil};
use crate::stream::Stream;
use keeper_core::Core;
use keeper_play::Player;
use keeper_streams::text::Line;
use std::time::Instant;

/// What is wrong with an answer.
#[derive(Debug, Clone, PartialEq, Eq)]
pub enum Wrong {
    /// It says something else.
    Differs(Vec<Line>),
    /// It says the same in other letters than the form's.
    Written(Vec<String>),
    /// There is none.
    Broken(Broken),
}

/// The first call that is answered wrongly.
#[derive(Debug, Clone, PartialEq, Eq)]
pub struct Fault {
    /// Its place in the stream, the opening being 0.
    pub at: usize,
    /// The core's answer.
    pub core: Vec<Line>,
    pub wrong: Wrong,
}

fn written_so(texts: &[String], expected: &[Line]) -> bool {
    texts.iter().cloned().eq(expected.iter().map(Line::write))
}

impl Fault {
    /// The number by which the core turns the call back, if it does.
    pub fn refusal(&self) -> Option<u32> {
        match self.core.first() {
            Some(Line::Answer(numbers)) => {
                let number = numbers.first().filter(|number| **number != 0)?;
                u32::try_from(*number).ok()
            }
            _ => None,
        }
    }
}

/// Plays a stream up to its end, a wrong answer or the deadline. An error is the judge's own: the keeper does not start.
pub fn play(
    pupil: &mut Pupil,
    stream: &Stream,
    deadline: Option<Instant>,
) -> Result<Option<Fault>, String> {
    pupil.begin(&stream.name)?;
    let mut core = Player::new(&Core);
    for (at, call) in stream.asked().iter().enumerate() {
        if deadline.is_some_and(|deadline| Instant::now() >= deadline) {
            return Ok(None);
        }
        let expected = core.play(call)?;
        let wrong = match pupil.ask(call) {
            Err(broken) => Wrong::Broken(broken),
            Ok(answer) if answer.lines != expected => Wrong::Differs(answer.lines),
            Ok(answer) if !written_so(&answer.texts, &expected) => Wrong::Written(answer.texts),
            Ok(_) => continue,
        };
        return Ok(Some(Fault {
            at,
            core: expected,
            wrong,
        }));
    }
    Ok(None)
}
