//! The streams that a pupil's keeper meets: the directed ones, which go to each rule and limit, then random ones.

use crate::lead::{later, lead, Lead};
use crate::stream::{Call, Opening, Stream};
use keeper_core::Core;
use keeper_play::Player;
use keeper_streams::random::Random;
use keeper_streams::{directed, Opening as Given, Script};
use keeper_values::Mode;

/// What is drawn.
#[derive(Debug, Clone, Copy)]
pub struct Draw {
    /// Random streams, from this seed on.
    pub streams: u64,
    pub seed: u64,
    /// Steps in one random stream, at most.
    pub steps: usize,
    /// Whether questions are asked.
    pub questions: bool,
}

fn begin(given: &Given) -> Lead {
    match given {
        Given::Open {
            settings,
            clock,
            height,
        } => Lead {
            opening: Opening {
                settings: *settings,
                clock: *clock,
                height: *height,
            },
            calls: Vec::new(),
            shift: 0,
        },
        Given::Put(state) => lead(state),
    }
}

/// A directed stream, with both questions after its last step.
fn directed_stream(script: &Script, questions: bool) -> Stream {
    let Lead {
        opening,
        mut calls,
        shift,
    } = begin(&script.opening);
    let own = script.calls.iter();
    calls.extend(own.map(|call| later(call.to_arguments(), shift)));
    if questions {
        calls.extend([Call::Ask(0), Call::Ask(1)]);
    }
    Stream {
        name: script.name.clone(),
        opening,
        calls,
    }
}

/// A random stream, drawn from what the core holds; now and then a question.
pub fn random_stream(seed: u64, draw: &Draw) -> Result<Stream, String> {
    let mut random = Random::new(seed);
    let Lead { opening, calls, .. } = begin(random.opening());
    let mut stream = Stream {
        name: format!("random {seed}"),
        opening,
        calls,
    };
    let mut player = Player::new(&Core);
    for line in stream.asked() {
        player.play(&line)?;
    }
    let mut after_end = 0;
    for step in 0..random.length.min(draw.steps) {
        let state = player.read()?;
        after_end += u32::from(state.mode == Mode::Ended);
        if after_end > 3 {
            break;
        }
        let call = Call::Step(Box::new(random.next(&state).to_arguments()));
        player.play(&call.line())?;
        stream.calls.push(call);
        if draw.questions && step % 8 == 3 {
            stream.calls.push(Call::Ask((step / 8 % 2) as u8));
        }
    }
    Ok(stream)
}

pub fn directed_count() -> u64 {
    directed::scripts().len() as u64
}

/// All streams, in the order in which they are played.
pub fn streams(draw: Draw) -> impl Iterator<Item = Result<Stream, String>> {
    let scripts = directed::scripts().into_iter();
    let directed = scripts.map(move |script| Ok(directed_stream(&script, draw.questions)));
    let random =
        (0..draw.streams).map(move |index| random_stream(draw.seed.wrapping_add(index), &draw));
    directed.chain(random)
}
