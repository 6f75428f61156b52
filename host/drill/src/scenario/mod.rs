//! A scenario: what happens at which clock, in what surroundings, and what is expected of it. docs/DRILL.md has every
//! word of the format.

mod changes;
mod expectations;
mod names;
mod read;
mod wakes;
mod words;

pub use changes::{Change, Sections};
pub use expectations::{Expectation, Figures, Foretold, Record, SentWhat};
pub use names::{show_type, Names};
pub use read::read;
pub use wakes::{Info, Wake};
pub use words::Fault;

use request_keeper::Settings;

/// A scenario, read and found well formed.
#[derive(Debug, Clone)]
pub struct Scenario {
    pub title: String,
    pub settings: Settings,
    pub names: Names,
    /// The clock of the opening, and the height up to which all blocks are stored.
    pub open: (u64, u32),
    pub lines: Vec<Line>,
}

/// A line after the opening.
#[derive(Debug, Clone)]
pub struct Line {
    pub number: usize,
    /// As written, without its comment.
    pub text: String,
    pub what: What,
}

#[derive(Debug, Clone)]
pub enum What {
    /// A remark to the reader.
    Say(String),
    /// The surroundings change, and stay so until they change again.
    Change(Change),
    /// A step.
    At(u64, Wake),
    /// What the step before is to have come to.
    Expect(Expectation),
}
