//! A keeper and a map that note in a transcript what they are asked and answer, and the values of the calls.

pub mod map;

use request_keeper::{
    Answer, Id, ModifierType, Peer, Question, Refusal, RequestKeeper, Section, Settings, Step,
    StoredPairs, Surroundings, View,
};
use std::fmt::Write;

pub const BASE: u64 = 0x0102_0304_0506_0000;
pub const SENDER: Peer = Peer(0x1122_3344_5566_7788);
pub const SEVEN: Peer = Peer(0x0700_0000_0000_0007);
pub const EIGHT: Peer = Peer(0x0800_0000_0000_0008);
pub const BLOCK: ModifierType = ModifierType::BLOCK_TRANSACTIONS;
pub const EXTENSION: ModifierType = ModifierType::EXTENSION;
pub const HEADER: ModifierType = ModifierType::HEADER;
/// Types of two bytes, that either byte alone does not tell.
pub const NEEDED: ModifierType = ModifierType::from_number(0x6865);
pub const SECTION: ModifierType = ModifierType::from_number(0x6c66);

pub fn id(number: u8) -> Id {
    [number; 32]
}

pub fn ids<const COUNT: usize>(first: u8) -> [Id; COUNT] {
    std::array::from_fn(|index| id(first + index as u8))
}

pub fn row(modifier_type: ModifierType, number: u8, stored: bool) -> [Section; 1] {
    [Section {
        modifier_type,
        id: id(number),
        stored,
    }]
}

pub fn view(first: u32, rows: &[[Section; 1]]) -> View {
    let mut view = View::from_height(first);
    for row in rows {
        view.push_header(row).expect("one section");
    }
    view
}

/// A command's bytes.
pub fn command(kind: u8, type_id: u16, batch: u16, to: Peer, ids: &[Id]) -> Vec<u8> {
    let mut bytes = vec![kind];
    bytes.extend(type_id.to_be_bytes());
    bytes.extend(batch.to_be_bytes());
    bytes.extend(to.0.to_be_bytes());
    bytes.extend((ids.len() as u32).to_be_bytes());
    bytes.extend(ids.as_flattened());
    bytes
}

/// The keeper of the scenario, and what it has answered.
pub struct Scenario {
    pub keeper: RequestKeeper,
    pub transcript: String,
}

fn hex(transcript: &mut String, bytes: &[u8]) {
    for byte in bytes {
        write!(transcript, "{byte:02x}").expect("a string takes all");
    }
    transcript.push('\n');
}

fn hash(bytes: &[u8]) -> u64 {
    bytes.iter().fold(0xcbf2_9ce4_8422_2325_u64, |hash, byte| {
        (hash ^ u64::from(*byte)).wrapping_mul(0x0100_0000_01b3)
    })
}

impl Scenario {
    fn state(&mut self) {
        let hash = hash(self.keeper.as_bytes());
        writeln!(self.transcript, "state {hash:016x}").expect("a string takes all");
    }

    /// The forecast of a step, noted in the transcript.
    fn forecast(&mut self, step: Step<'_>, now: &Surroundings<'_>) -> [u32; 6] {
        let numbers = match self.keeper.forecast(step, now) {
            Ok(forecast) => [
                0,
                forecast.outcome.number(),
                forecast.pending,
                forecast.evicted,
                forecast.commands,
                forecast.command_bytes,
            ],
            Err(refusal) => [refusal.number(), 0, 0, 0, 0, 0],
        };
        writeln!(self.transcript, "forecast {numbers:?}").expect("a string takes all");
        self.state();
        numbers
    }

    /// The mean age at a step's clock, noted in the transcript.
    fn mean_age(&mut self, clock: u64) {
        let numbers = match self.keeper.mean_age(clock) {
            Ok(mean) => [0, u64::from(mean.count), mean.quotient, mean.remainder],
            Err(refusal) => [u64::from(refusal.number()), 0, 0, 0],
        };
        writeln!(self.transcript, "mean {numbers:?}").expect("a string takes all");
    }

    /// A step, its forecast and the mean age before it, noted in the transcript. What was foretold is shown.
    pub fn step(
        &mut self,
        step: Step<'_>,
        now: Surroundings<'_>,
    ) -> Result<(Answer, Vec<u8>), Refusal> {
        self.mean_age(now.clock);
        let forecast = self.forecast(step, &now);
        let mut count = 0;
        let finished = self.keeper.step(step, &now).map(|finished| {
            count = finished.commands().count() as u32;
            (finished.answer, finished.commands().as_bytes().to_vec())
        });
        let numbers = match &finished {
            Ok((answer, commands)) => [
                0,
                answer.outcome.number(),
                answer.retried,
                answer.fresh,
                answer.abandoned,
                answer.forgotten,
                answer.pending,
                answer.evicted,
                commands.len() as u32,
            ],
            Err(refusal) => [refusal.number(), 0, 0, 0, 0, 0, 0, 0, 0],
        };
        let [number, outcome, .., pending, evicted, length] = numbers;
        let shown = [number, outcome, pending, evicted, count, length];
        assert_eq!(forecast, shown, "{step:?}");
        writeln!(self.transcript, "{numbers:?}").expect("a string takes all");
        let commands = finished.as_ref().map(|(_, commands)| commands.as_slice());
        hex(&mut self.transcript, commands.unwrap_or_default());
        self.state();
        finished
    }

    /// A step that is finished and writes these commands.
    pub fn writes(
        &mut self,
        step: Step<'_>,
        now: Surroundings<'_>,
        expected: &[Vec<u8>],
    ) -> Answer {
        let (answer, commands) = self.step(step, now).expect("the step is finished");
        assert_eq!(commands, expected.concat(), "{step:?}");
        answer
    }

    /// A question that names these pairs.
    pub fn asks(&mut self, question: Question, expected: &[(ModifierType, Id)]) {
        let pairs = self.keeper.question(question).expect("well formed");
        let stored = pairs.stored_by(|_, _| true);
        assert_eq!(
            stored,
            expected.iter().copied().collect::<StoredPairs>(),
            "{question:?}"
        );
        let length = stored.as_bytes().len();
        writeln!(self.transcript, "[0, {length}]").expect("a string takes all");
        hex(&mut self.transcript, stored.as_bytes());
    }

    /// A number in the state area.
    pub fn field(&self, at: usize, width: usize) -> u64 {
        let bytes = &self.keeper.as_bytes()[at..at + width];
        bytes
            .iter()
            .fold(0, |number, byte| number << 8 | u64::from(*byte))
    }

    /// An opened keeper, every argument of the opening in its place.
    pub fn opened() -> Self {
        let settings = Settings {
            timeout: 10_000,
            max_checks: 2,
            min_sync_send_interval: 200,
            stall_timeout: 60_000,
        };
        let keeper = RequestKeeper::open(settings, BASE, 9).expect("an area of the right length");
        let mut scenario = Self {
            keeper,
            transcript: String::new(),
        };
        let fields = [(8, 8), (16, 4), (20, 4), (24, 4), (28, 4), (60, 4)];
        assert_eq!(
            fields.map(|(at, width)| scenario.field(at, width)),
            [BASE, 10_000, 2, 200, 60_000, 9]
        );
        scenario.state();
        scenario
    }
}

pub fn at<'a>(after: u64) -> Surroundings<'a> {
    Surroundings::at(BASE + after)
}
