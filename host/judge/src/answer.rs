//! A pupil's answer to one call, read by its form (`fixed/README.md`, "What follows a call").

use keeper_streams::text::Line;

/// More commands than this fill no command area.
const MOST_COMMANDS: usize = 4_096;

/// The lines as written, and what they say.
#[derive(Debug, Clone, PartialEq, Eq, Default)]
pub struct Answer {
    pub texts: Vec<String>,
    pub lines: Vec<Line>,
}

/// What the next line has to be.
#[derive(Debug, Clone, Copy, PartialEq, Eq)]
pub enum Expected {
    /// `=` and so many numbers.
    Numbers(usize),
    /// `>` or `.`
    CommandOrState,
    /// `.`, after as many commands as there may be.
    StateAtLast,
    State,
    Pairs,
}

impl Expected {
    /// After `open`, `step` and `ask`.
    pub fn first(call: &Line) -> Self {
        match call {
            Line::Open { .. } => Expected::Numbers(1),
            Line::Ask(_) => Expected::Numbers(2),
            _ => Expected::Numbers(9),
        }
    }

    pub fn words(self) -> String {
        match self {
            Expected::Numbers(1) => "`=` and one number".to_string(),
            Expected::Numbers(count) => format!("`=` and {count} numbers"),
            Expected::CommandOrState => "a command `> ..` or the state `. ..`".to_string(),
            Expected::State => "the state `. ..`".to_string(),
            Expected::StateAtLast => {
                format!("the state `. ..`, after {MOST_COMMANDS} commands,")
            }
            Expected::Pairs => "the pairs `? ..`".to_string(),
        }
    }

    /// What comes after this line, if it is as expected: `None` within is the end of the answer.
    fn after(self, line: &Line, commands: usize) -> Option<Option<Self>> {
        match (self, line) {
            (Expected::Numbers(count), Line::Answer(numbers)) if numbers.len() == count => {
                let finished = numbers.first() == Some(&0);
                Some(match count {
                    1 => finished.then_some(Expected::State),
                    2 => Some(Expected::Pairs),
                    _ => finished.then_some(Expected::CommandOrState),
                })
            }
            (Expected::CommandOrState, Line::Command(_)) => {
                let more = commands < MOST_COMMANDS;
                Some(Some(if more { self } else { Expected::StateAtLast }))
            }
            (
                Expected::CommandOrState | Expected::State | Expected::StateAtLast,
                Line::State(_),
            ) => Some(None),
            (Expected::Pairs, Line::Pairs(_)) => Some(None),
            _ => None,
        }
    }
}

/// A line that is not of the form, and what it should have been.
#[derive(Debug, Clone, PartialEq, Eq)]
pub struct Unexpected {
    pub line: String,
    pub expected: Expected,
}

/// An answer under way.
pub struct Reading {
    answer: Answer,
    next: Option<Expected>,
}

impl Reading {
    pub fn new(call: &Line) -> Self {
        Self {
            answer: Answer::default(),
            next: Some(Expected::first(call)),
        }
    }

    pub fn is_whole(&self) -> bool {
        self.next.is_none()
    }

    pub fn line(&mut self, text: String) -> Result<(), Unexpected> {
        let Some(expected) = self.next else {
            return Ok(());
        };
        if text.starts_with('#') {
            return Ok(());
        }
        let commands = self.answer.lines.len();
        let read =
            Line::read(&text).and_then(|line| Some((expected.after(&line, commands)?, line)));
        let Some((next, line)) = read else {
            return Err(Unexpected {
                line: text,
                expected,
            });
        };
        self.next = next;
        self.answer.texts.push(text);
        self.answer.lines.push(line);
        Ok(())
    }

    pub fn whole(self) -> Answer {
        self.answer
    }
}

#[cfg(test)]
mod tests {
    use super::{Expected, Reading};
    use keeper_streams::text::Line;

    fn read(call: &Line, lines: &[&str]) -> Result<bool, Expected> {
        let mut reading = Reading::new(call);
        for line in lines {
            reading
                .line(line.to_string())
                .map_err(|unexpected| unexpected.expected)?;
        }
        Ok(reading.is_whole())
    }

    #[test]
    fn the_form_says_where_an_answer_ends() {
        let step = Line::read("step 1 0 1 0 - - 00000000 0 0 0 0 0 0 - - -").expect("a step");
        let state = ". 1 - 0 0 0 0 0 0 0 0 - - -";
        let finished = "= 0 0 0 0 0 0 0 0 0";
        assert_eq!(read(&step, &["= 5 0 0 0 0 0 0 0 0"]), Ok(true));
        assert_eq!(read(&step, &[finished]), Ok(false));
        assert_eq!(read(&step, &["# a remark", finished, state]), Ok(true));
        assert_eq!(read(&step, &[finished, "> 3 0 0 4 0 -", state]), Ok(true));
        assert_eq!(read(&step, &["= 0 0"]), Err(Expected::Numbers(9)));
        assert_eq!(read(&step, &[state]), Err(Expected::Numbers(9)));
        assert_eq!(
            read(&step, &[finished, "? -"]),
            Err(Expected::CommandOrState)
        );
        assert_eq!(read(&Line::Ask(0), &["= 0 0", "? -"]), Ok(true));
        assert_eq!(read(&Line::Ask(0), &["= 0 0", state]), Err(Expected::Pairs));
    }

    #[test]
    fn commands_without_an_end_are_none() {
        let step = Line::read("step 1 0 1 0 - - 00000000 0 0 0 0 0 0 - - -").expect("a step");
        let mut lines = vec!["= 0 0 0 0 0 0 0 0 0"];
        lines.extend(["> 3 0 0 4 0 -"; 5_000]);
        assert_eq!(read(&step, &lines), Err(Expected::StateAtLast));
        assert!(Expected::StateAtLast.words().contains("4096 commands"));
    }
}
