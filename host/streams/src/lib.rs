//! Streams of calls: random ones from a seed, directed ones at each limit, short ones exhaustively, damaged copies, and
//! the text form in which the repository keeps a fixed list.

pub mod build;
pub mod damage;
pub mod directed;
pub mod exhaustive;
pub mod hostile;
pub mod maps;
pub mod noise;
pub mod random;
pub mod rng;
pub mod shapes;
mod stalling;
pub mod text;
pub mod version_1;
mod world;

use keeper_values::{Call, Settings, State};

/// How a stream begins.
#[derive(Debug, Clone, PartialEq, Eq)]
pub enum Opening {
    Open {
        settings: Settings,
        clock: u64,
        height: u32,
    },
    /// A state put in directly, reachable or not.
    Put(Box<State>),
}

/// A stream that is known from the start.
#[derive(Debug, Clone, PartialEq, Eq)]
pub struct Script {
    pub name: String,
    pub opening: Opening,
    pub calls: Vec<Call>,
}
