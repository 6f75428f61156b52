//! One line of a table: how its call is made anew for each round, what is timed beside it, and what it is held to.

use crate::area::Area;
use crate::bound::{Bound, QUIET};
use crate::ids::{Ids, Kind};
use keeper_core::Core;
use keeper_reference::image;
use keeper_values::{Arguments, Call, Keeper, State, STATE_BYTES};
use std::hint::black_box;

/// What is called.
#[derive(Debug, Clone, Copy, PartialEq, Eq)]
pub enum Entry {
    Step,
    Question(u8),
}

/// What no core can do without: the state area read, and copied to a scratch and back.
#[derive(Debug, Clone, Copy, PartialEq, Eq)]
pub enum Memory {
    /// The call is refused before the area is read.
    None,
    Read,
    ReadAndCopied,
}

/// The same work in Rust.
#[derive(Debug, Clone, Copy, PartialEq, Eq)]
pub enum Beside {
    Nothing,
    /// The original's tracker.
    Tracker,
    /// A vector of pairs, sorted and without repeats.
    Pairs,
    /// The reference's test of the image. Not part of the limit.
    ImageTest,
}

/// The data of one round, for all sides.
pub struct Prepared {
    pub state: State,
    pub call: Call,
    pub image: Box<Area>,
    pub arguments: Arguments,
}

impl Prepared {
    pub fn new(state: State, call: Call) -> Self {
        Self {
            image: Area::of(&image::write(&state)),
            arguments: call.to_arguments(),
            state,
            call,
        }
    }

    pub fn restore(&self, areas: &mut Areas) {
        areas.state.bytes_mut().copy_from_slice(self.image.bytes());
    }
}

pub type Recipe = Box<dyn Fn(&mut Ids) -> Prepared>;

pub struct Case {
    pub name: String,
    pub entry: Entry,
    pub memory: Memory,
    pub beside: Beside,
    /// Of the state area that is handed in.
    pub length: usize,
    /// The number of the answer.
    pub number: u32,
    pub bounds: &'static [Bound],
    pub recipe: Recipe,
}

impl Case {
    /// A step that leaves the tracker alone.
    pub fn idle(name: &str, recipe: impl Fn(&mut Ids) -> Prepared + 'static) -> Self {
        Self {
            name: name.to_string(),
            entry: Entry::Step,
            memory: Memory::ReadAndCopied,
            beside: Beside::Nothing,
            length: STATE_BYTES,
            number: 0,
            bounds: QUIET,
            recipe: Box::new(recipe),
        }
    }

    /// One that the original's tracker has an operation for.
    pub fn tracked(
        name: &str,
        bounds: &'static [Bound],
        recipe: impl Fn(&mut Ids) -> Prepared + 'static,
    ) -> Self {
        Self {
            beside: Beside::Tracker,
            bounds,
            ..Self::idle(name, recipe)
        }
    }

    pub fn refused(
        name: &str,
        number: u32,
        recipe: impl Fn(&mut Ids) -> Prepared + 'static,
    ) -> Self {
        Self {
            number,
            beside: Beside::ImageTest,
            ..Self::idle(name, recipe)
        }
    }

    pub fn question(name: &str, flag: u8, state: impl Fn(&mut Ids) -> State + 'static) -> Self {
        Self {
            entry: Entry::Question(flag),
            memory: Memory::Read,
            beside: Beside::Pairs,
            ..Self::idle(name, move |ids| Prepared::new(state(ids), Call::default()))
        }
    }

    /// The data of a round, with ids that no other round and no other case has.
    pub fn prepare(&self, kind: Kind, round: usize) -> Prepared {
        (self.recipe)(&mut Ids::new(kind, &self.name, round))
    }

    /// Calls the core and answers the number.
    pub fn run(&self, areas: &mut Areas, arguments: &Arguments) -> u32 {
        let state = &mut areas.state.bytes_mut()[..self.length];
        let commands = areas.commands.bytes_mut();
        match self.entry {
            Entry::Step => Core.step(state, commands, black_box(arguments)).number,
            Entry::Question(flag) => Core.question(state, commands, flag).0,
        }
    }
}

/// The areas that all cases share.
pub struct Areas {
    pub state: Box<Area>,
    pub commands: Box<Area>,
    pub scratch: Box<Area>,
}

impl Areas {
    pub fn new() -> Self {
        Self {
            state: Area::zero(),
            commands: Area::zero(),
            scratch: Area::zero(),
        }
    }

    /// How many are pending in the state area.
    pub fn pending(&self) -> usize {
        let bytes = self.state.bytes();
        usize::from(u16::from_be_bytes([bytes[70], bytes[71]]))
    }

    /// The downloaded height in the state area.
    pub fn downloaded(&self) -> u32 {
        let bytes = self.state.bytes();
        u32::from_be_bytes([bytes[60], bytes[61], bytes[62], bytes[63]])
    }
}
