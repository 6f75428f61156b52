use crate::{MapCall, MeanAge, Settings, TypeId};

/// Length of the state area.
pub const STATE_BYTES: usize = 65_536;

/// Least length of the command area.
pub const COMMAND_BYTES: usize = 65_536;

/// A step's arguments as they cross the boundary, other than the areas (docs/LAYOUT.md, `request_keeper_step`).
#[derive(Debug, Clone, PartialEq, Eq, Default)]
pub struct Arguments {
    pub kind: u8,
    pub clock: u64,
    pub gate: u8,
    pub height: u32,
    pub peer: u64,
    pub type_id: TypeId,
    pub fork: u32,
    pub parsed: u8,
    pub has_tip: u8,
    pub tip: u32,
    pub ids: Vec<u8>,
    pub continuation: Vec<u8>,
    pub stored: Vec<u8>,
    pub peers: Vec<u8>,
    pub view: Vec<u8>,
}

/// A step's answer.
#[derive(Debug, Clone, Copy, PartialEq, Eq, Default)]
pub struct Answer {
    pub number: u32,
    pub outcome: u32,
    pub retried: u32,
    pub fresh: u32,
    pub abandoned: u32,
    pub forgotten: u32,
    pub pending: u32,
    pub evicted: u32,
    pub length: u32,
}

impl Answer {
    pub fn refused(number: u32) -> Self {
        Self {
            number,
            ..Self::default()
        }
    }

    /// The nine numbers in the order of docs/LAYOUT.md.
    pub fn numbers(self) -> [u32; 9] {
        [
            self.number,
            self.outcome,
            self.retried,
            self.fresh,
            self.abandoned,
            self.forgotten,
            self.pending,
            self.evicted,
            self.length,
        ]
    }

    pub fn from_numbers(numbers: [u32; 9]) -> Self {
        let [number, outcome, retried, fresh, abandoned, forgotten, pending, evicted, length] =
            numbers;
        Self {
            number,
            outcome,
            retried,
            fresh,
            abandoned,
            forgotten,
            pending,
            evicted,
            length,
        }
    }
}

/// What a step would answer and write, with 65,536 command bytes (F-3).
#[derive(Debug, Clone, Copy, PartialEq, Eq, Default)]
pub struct Forecast {
    pub number: u32,
    pub outcome: u32,
    pub pending: u32,
    pub evicted: u32,
    /// How many commands.
    pub commands: u32,
    /// Their bytes.
    pub length: u32,
}

impl Forecast {
    /// What a step has shown that answered this and wrote so many commands.
    pub fn of(answer: &Answer, commands: u32) -> Self {
        Self {
            number: answer.number,
            outcome: answer.outcome,
            pending: answer.pending,
            evicted: answer.evicted,
            commands,
            length: answer.length,
        }
    }

    pub fn refused(number: u32) -> Self {
        Self {
            number,
            ..Self::default()
        }
    }
}

/// The entries on areas of any length and content: five of a core, and those of F-1's map. The reference, its faulty
/// variants and any core that is to be held against them are keepers.
pub trait Keeper {
    fn open(&self, state: &mut [u8], settings: Settings, clock: u64, height: u32) -> u32;

    fn step(&self, state: &mut [u8], commands: &mut [u8], arguments: &Arguments) -> Answer;

    /// What the step would show.
    fn forecast(&self, state: &[u8], arguments: &Arguments) -> Forecast;

    /// The mean age of what is pending at a clock.
    fn mean_age(&self, state: &[u8], clock: u64) -> MeanAge;

    /// The number and the length.
    fn question(&self, state: &[u8], commands: &mut [u8], flag: u8) -> (u32, u32);

    /// The number of a call that writes the map.
    fn map_call(&self, map: &mut [u8], call: &MapCall) -> u32;

    /// The number, and how many heights can be passed.
    fn map_passable(&self, map: &[u8]) -> (u32, u32);
}
