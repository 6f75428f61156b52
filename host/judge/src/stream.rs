//! A stream as a pupil meets it: an opening, then steps and questions. No state is put in, no byte is damaged, and no
//! map is kept.

use keeper_streams::text::Line;
use keeper_values::numbers::kinds;
use keeper_values::numbers::widths::{ID, PAIR, PLACE, ROW, TYPE};
use keeper_values::{Arguments, Id, Settings};

#[derive(Debug, Clone, Copy, PartialEq, Eq)]
pub struct Opening {
    pub settings: Settings,
    pub clock: u64,
    pub height: u32,
}

#[derive(Debug, Clone, PartialEq, Eq)]
pub enum Call {
    Step(Box<Arguments>),
    Ask(u8),
}

impl Call {
    pub fn line(&self) -> Line {
        match self {
            Call::Step(arguments) => Line::Step(arguments.clone(), Vec::new()),
            Call::Ask(flag) => Line::Ask(*flag),
        }
    }

    /// The kind, if it is a step.
    pub fn kind(&self) -> Option<u8> {
        match self {
            Call::Step(arguments) => Some(arguments.kind),
            Call::Ask(_) => None,
        }
    }
}

#[derive(Debug, Clone, PartialEq, Eq)]
pub struct Stream {
    pub name: String,
    pub opening: Opening,
    pub calls: Vec<Call>,
}

impl Stream {
    pub fn open_line(&self) -> Line {
        Line::Open {
            settings: self.opening.settings,
            clock: self.opening.clock,
            height: self.opening.height,
        }
    }

    /// What is answered: the opening, then each call. A place in the stream counts these from 0.
    pub fn asked(&self) -> Vec<Line> {
        let calls = self.calls.iter().map(Call::line);
        std::iter::once(self.open_line()).chain(calls).collect()
    }

    /// The stream up to and with the call at this place.
    pub fn cut(&self, at: usize) -> Self {
        let mut cut = self.clone();
        cut.calls.truncate(at);
        cut
    }

    /// The kind of the step at this place; none for the opening and a question.
    pub fn kind(&self, at: usize) -> Option<u8> {
        self.calls.get(at.checked_sub(1)?)?.kind()
    }

    /// What the call at this place is.
    pub fn call_name(&self, at: usize) -> &'static str {
        match (at, self.kind(at)) {
            (0, _) => "the opening",
            (_, Some(kind)) => kinds::name(kind),
            (_, None) => "question",
        }
    }

    /// The length of its text, which grows with its calls and with their lists: the shorter stream is the simpler one.
    pub fn length(&self) -> usize {
        self.asked().iter().map(|line| line.write().len()).sum()
    }

    /// Every id in its lists.
    pub fn ids(&self) -> Vec<Id> {
        let mut ids = Vec::new();
        for call in &self.calls {
            let Call::Step(step) = call else { continue };
            let places = view_ids(&step.view);
            let lists = entries(&step.ids, ID).chain(entries(&step.continuation, ID));
            let stored = entries(&step.stored, PAIR).map(|pair| &pair[TYPE..]);
            ids.extend(lists.chain(stored).chain(places).filter_map(id));
        }
        ids
    }

    /// The streams of a file. One that puts a state in, damages an area or calls on a map is left out; how many were,
    /// comes second.
    pub fn of_lines(lines: &[Line]) -> (Vec<Self>, usize) {
        let mut streams = Vec::new();
        let mut left_out = 0;
        let mut name = String::new();
        let mut reading = Reading::Before;
        for line in lines {
            match line {
                Line::Stream(text) => {
                    reading.end(&mut streams, &mut left_out);
                    name.clone_from(text);
                }
                Line::Open {
                    settings,
                    clock,
                    height,
                } if matches!(reading, Reading::Before) => {
                    let opening = Opening {
                        settings: *settings,
                        clock: *clock,
                        height: *height,
                    };
                    reading = Reading::Within(Stream {
                        name: name.clone(),
                        opening,
                        calls: Vec::new(),
                    });
                }
                Line::Step(arguments, _) => reading.call(Call::Step(arguments.clone())),
                Line::Ask(flag) => reading.call(Call::Ask(*flag)),
                Line::Open { .. }
                | Line::Put(_)
                | Line::Areas(..)
                | Line::Poke(..)
                | Line::Map(_)
                | Line::MapCall(_)
                | Line::Passable => reading = Reading::LeftOut,
                // Answers are the core's to give, and no pupil is asked for a mean age.
                Line::Age(_)
                | Line::Answer(_)
                | Line::Command(_)
                | Line::Pairs(_)
                | Line::State(_)
                | Line::MapAfter(_) => {}
            }
        }
        reading.end(&mut streams, &mut left_out);
        (streams, left_out)
    }
}

/// How far the stream at hand has been read.
enum Reading {
    Before,
    Within(Stream),
    LeftOut,
}

impl Reading {
    fn call(&mut self, call: Call) {
        match self {
            Reading::Within(stream) => stream.calls.push(call),
            // A call before the opening is none that a pupil can be asked.
            Reading::Before => *self = Reading::LeftOut,
            Reading::LeftOut => {}
        }
    }

    fn end(&mut self, streams: &mut Vec<Stream>, left_out: &mut usize) {
        match std::mem::replace(self, Reading::Before) {
            Reading::Within(stream) => streams.push(stream),
            Reading::LeftOut => *left_out += 1,
            Reading::Before => {}
        }
    }
}

/// The entries of a list, without a rest that is none.
pub fn entries(bytes: &[u8], width: usize) -> impl Iterator<Item = &[u8]> {
    bytes.chunks_exact(width)
}

pub fn id(bytes: &[u8]) -> Option<Id> {
    bytes.try_into().ok()
}

/// Bytes of a view before its rows, and of a row.
pub const VIEW_HEAD: usize = 4;
pub const VIEW_ROW: usize = ROW;

/// Where the used places of a view begin: each with its type and id.
pub fn view_pairs(view: &[u8]) -> Vec<usize> {
    let mut places = Vec::new();
    let rows = view.len().saturating_sub(VIEW_HEAD) / VIEW_ROW;
    for row in (0..rows).map(|row| VIEW_HEAD + row * VIEW_ROW) {
        let used = if view[row] <= 3 { view[row] } else { 0 };
        places.extend((0..usize::from(used)).map(|place| row + 1 + PLACE * place));
    }
    places
}

fn view_ids(view: &[u8]) -> impl Iterator<Item = &[u8]> {
    view_pairs(view)
        .into_iter()
        .filter_map(|at| view.get(at + TYPE..at + PAIR))
}

#[cfg(test)]
mod tests {
    use super::*;

    #[test]
    fn streams_with_a_map_are_left_out() {
        let of_a_map = [
            "map 00",
            "fill 0 0 00000000",
            "arrived 1 0",
            "pruned 1 0",
            "slide 0 00000000",
            "passable",
        ];
        let mut text = "stream without\nopen 0 0 0 0 0 0\n".to_string();
        for line in of_a_map {
            text += &format!("stream {line}\nopen 0 0 0 0 0 0\n{line}\n= 0\n% 45444d01\n");
        }
        let lines = keeper_play::read(&text).expect("of the form");
        let (streams, left_out) = Stream::of_lines(&lines);
        let names: Vec<&str> = streams.iter().map(|stream| stream.name.as_str()).collect();
        assert_eq!((names, left_out), (vec!["without"], of_a_map.len()));
    }
}
