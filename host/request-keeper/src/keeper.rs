use crate::boundary;
use crate::refusal::numbered;
use crate::surroundings::Pairs;
use crate::{
    Answer, Finished, Forecast, MeanAge, Mode, Outcome, Peer, Refusal, Settings, Step, Surroundings,
};
use std::fmt::{self, Debug, Display, Formatter};

/// Bytes of a stored keeper.
pub const STATE_BYTES: usize = 65_536;

const COMMAND_BYTES: usize = 65_536;

/// A request keeper: its state area and the area that it writes its commands to.
#[derive(Clone)]
pub struct RequestKeeper {
    state: Box<[u8]>,
    commands: Box<[u8]>,
    /// The bytes of the last peer list, kept so that a step need not allocate.
    peers: Vec<u8>,
}

/// What a check or a lost peer may read of the store.
#[derive(Debug, Clone, Copy, PartialEq, Eq, Hash)]
pub enum Question {
    /// The next step is [`Step::Check`].
    Check,
    /// The next step is [`Step::LostPeer`].
    LostPeer,
}

impl Display for Question {
    fn fmt(&self, out: &mut Formatter<'_>) -> fmt::Result {
        out.write_str(match self {
            Self::Check => "question before a check",
            Self::LostPeer => "question before a lost peer",
        })
    }
}

fn area(length: usize) -> Box<[u8]> {
    vec![0; length].into_boxed_slice()
}

impl RequestKeeper {
    /// A fresh keeper in mode new. The start height becomes the downloaded height.
    pub fn open(settings: Settings, clock: u64, start_height: u32) -> Result<Self, Refusal> {
        let mut keeper = Self::with_state(area(STATE_BYTES));
        numbered(boundary::open(
            &mut keeper.state,
            settings.timeout,
            settings.max_checks,
            settings.min_sync_send_interval,
            settings.stall_timeout,
            clock,
            start_height,
        ))?;
        Ok(keeper)
    }

    /// The keeper that [`as_bytes`](Self::as_bytes) stored, by this version of the crate or by one before it. Other bytes are
    /// refused by the core's own test of an image. What an older version stored is kept as it is up to the first finished
    /// step.
    pub fn from_bytes(image: &[u8]) -> Result<Self, Refusal> {
        let mut keeper = Self::with_state(image.into());
        keeper.question(Question::Check)?;
        Ok(keeper)
    }

    /// All that the keeper knows, to be stored and restored by [`from_bytes`](Self::from_bytes).
    pub fn as_bytes(&self) -> &[u8] {
        &self.state
    }

    fn with_state(state: Box<[u8]>) -> Self {
        Self {
            state,
            commands: area(COMMAND_BYTES),
            peers: Vec::new(),
        }
    }

    /// Runs a step. A refusal changes nothing.
    pub fn step(
        &mut self,
        step: Step<'_>,
        now: &Surroundings<'_>,
    ) -> Result<Finished<'_>, Refusal> {
        self.peers.clear();
        list_peers(&mut self.peers, now.peers);
        let call = arguments(step, now, &self.peers);
        let answer = boundary::step(&mut self.state, &mut self.commands, &call);
        numbered(answer.number)?;
        let length = answer.length;
        let answer = Answer {
            outcome: Outcome::of(answer.outcome),
            retried: answer.retried,
            fresh: answer.fresh,
            abandoned: answer.abandoned,
            forgotten: answer.forgotten,
            pending: answer.pending,
            evicted: answer.evicted,
        };
        let entry = self.field(ENTRY_MARK) == [1];
        Ok(Finished::new(
            answer,
            written(&self.commands, length),
            entry,
        ))
    }

    /// What [`step`](Self::step) would answer, without taking it: the outcome, the counts afterwards, and how many commands
    /// it would write, with their bytes. A refusal is the step's. Changes nothing.
    ///
    /// ```
    /// use request_keeper::{Outcome, Peer, Refusal, RequestKeeper, Settings, Step, Surroundings};
    ///
    /// let mut keeper = RequestKeeper::open(Settings::default(), 1_000, 400)?;
    /// let now = Surroundings { peers: &[Peer(4)], ..Surroundings::at(2_000) };
    /// assert_eq!(keeper.forecast(Step::Pick, &now), Err(Refusal::WrongStep));
    /// let _ = keeper.step(Step::Start, &now)?;
    ///
    /// // A pick would send one sync info, of 17 bytes.
    /// let forecast = keeper.forecast(Step::Pick, &now)?;
    /// assert_eq!((forecast.outcome, forecast.pending), (Outcome::Continue, 0));
    /// assert_eq!((forecast.commands, forecast.command_bytes), (1, 17));
    ///
    /// // The step then shows the same.
    /// let picked = keeper.step(Step::Pick, &now)?;
    /// assert_eq!((picked.answer.outcome, picked.answer.pending), (Outcome::Continue, 0));
    /// assert_eq!(picked.commands().count(), 1);
    /// assert_eq!(picked.commands().as_bytes().len(), 17);
    /// # Ok::<(), Refusal>(())
    /// ```
    pub fn forecast(&self, step: Step<'_>, now: &Surroundings<'_>) -> Result<Forecast, Refusal> {
        let mut peers = Vec::new();
        list_peers(&mut peers, now.peers);
        let forecast = boundary::forecast(&self.state, &arguments(step, now, &peers));
        numbered(forecast.number)?;
        Ok(Forecast {
            outcome: Outcome::of(forecast.outcome),
            pending: forecast.pending,
            evicted: forecast.evicted,
            commands: forecast.commands,
            command_bytes: forecast.length,
        })
    }

    /// The mean age of what is pending, exactly: of the time since each request was noted or last retried. A clock before the
    /// last step's is refused. Changes nothing.
    ///
    /// ```
    /// use request_keeper::{Id, MeanAge, ModifierType, Peer, Refusal, RequestKeeper, Settings, Step, Surroundings};
    ///
    /// let mut keeper = RequestKeeper::open(Settings::default(), 1_000, 400)?;
    /// assert_eq!(keeper.mean_age(2_000)?, MeanAge { count: 0, quotient: 0, remainder: 0 });
    ///
    /// // One request at clock 2,000, two at 2,400.
    /// let _ = keeper.step(Step::Start, &Surroundings::at(2_000))?;
    /// let picked = Surroundings { peers: &[Peer(4)], ..Surroundings::at(2_000) };
    /// let _ = keeper.step(Step::Pick, &picked)?;
    /// let mut announced = |clock, ids: &[Id]| {
    ///     let step = Step::Announced { from: Peer(4), modifier_type: ModifierType::HEADER, ids };
    ///     keeper.step(step, &Surroundings::at(clock)).map(|_| ())
    /// };
    /// announced(2_000, &[[1; 32]])?;
    /// announced(2_400, &[[2; 32], [3; 32]])?;
    ///
    /// // Ages of 500, 100 and 100: their sum is 233 * 3 + 1.
    /// let mean = keeper.mean_age(2_500)?;
    /// assert_eq!(mean, MeanAge { count: 3, quotient: 233, remainder: 1 });
    /// assert_eq!(mean.rounded(), 233);
    /// assert_eq!(keeper.mean_age(2_399), Err(Refusal::ClockWentBack));
    /// # Ok::<(), Refusal>(())
    /// ```
    pub fn mean_age(&self, clock: u64) -> Result<MeanAge, Refusal> {
        let mean = boundary::mean_age(&self.state, clock);
        numbered(mean.number)?;
        Ok(MeanAge {
            count: mean.count,
            quotient: mean.quotient,
            remainder: mean.remainder,
        })
    }

    /// The pairs that the next check or lost peer may read, so that the node need ask its store for no others. Changes
    /// nothing.
    pub fn question(&mut self, question: Question) -> Result<Pairs<'_>, Refusal> {
        let flag = match question {
            Question::Check => 0,
            Question::LostPeer => 1,
        };
        let answer = boundary::question(&self.state, &mut self.commands, flag);
        numbered(answer.number)?;
        Ok(Pairs::read(written(&self.commands, answer.length)))
    }
}

/// Writes the bytes of a peer list.
fn list_peers(bytes: &mut Vec<u8>, peers: &[Peer]) {
    for peer in peers {
        bytes.extend_from_slice(&peer.0.to_be_bytes());
    }
}

/// A step's arguments, of its own and of its surroundings.
fn arguments<'a>(
    step: Step<'a>,
    now: &Surroundings<'a>,
    peers: &'a [u8],
) -> boundary::Arguments<'a> {
    boundary::Arguments {
        clock: now.clock,
        gate: u8::from(now.gate_open),
        height: now.chain_height,
        stored: now.stored.as_bytes(),
        peers,
        view: now.view.as_bytes(),
        ..step.arguments()
    }
}

/// The bytes that a call wrote; never more than there are.
fn written(commands: &[u8], length: u32) -> &[u8] {
    let length = usize::try_from(length).unwrap_or(usize::MAX);
    commands.get(..length).unwrap_or(commands)
}

/// Offsets of the fields that a shell may want to read (docs/LAYOUT.md, "State area").
const MODE: usize = 5;
const ENTRY_MARK: usize = 7;
const LAST_CLOCK: usize = 8;
const SYNC_PEER: usize = 48;
const DOWNLOADED: usize = 60;
const KNOWN_TIP: usize = 64;

impl RequestKeeper {
    /// The bytes of a field; the state area is always whole.
    pub(crate) fn field<const WIDTH: usize>(&self, at: usize) -> [u8; WIDTH] {
        let bytes = self.state.get(at..).unwrap_or_default();
        bytes.first_chunk().copied().unwrap_or([0; WIDTH])
    }

    /// Which steps the keeper takes now.
    pub fn mode(&self) -> Mode {
        let [number] = self.field(MODE);
        Mode::of(number)
    }

    /// The peer that headers come from; in syncing and synced only.
    pub fn sync_peer(&self) -> Option<Peer> {
        match self.mode() {
            Mode::Syncing | Mode::Synced => Some(Peer(u64::from_be_bytes(self.field(SYNC_PEER)))),
            Mode::New | Mode::Seeking | Mode::Ended | Mode::Unknown(_) => None,
        }
    }

    /// Up to this height all sections of all blocks are stored.
    pub fn downloaded_height(&self) -> u32 {
        u32::from_be_bytes(self.field(DOWNLOADED))
    }

    /// The highest tip that a peer has named.
    pub fn known_tip(&self) -> u32 {
        u32::from_be_bytes(self.field(KNOWN_TIP))
    }

    /// The clock of the last finished step or of the opening; no later step may have an earlier one.
    pub fn last_clock(&self) -> u64 {
        u64::from_be_bytes(self.field(LAST_CLOCK))
    }
}

impl Display for RequestKeeper {
    fn fmt(&self, out: &mut Formatter<'_>) -> fmt::Result {
        write!(out, "{}", self.mode())?;
        if let Some(peer) = self.sync_peer() {
            write!(out, " with {peer}")?;
        }
        let downloaded = self.downloaded_height();
        write!(out, ", downloaded height {downloaded}")
    }
}

impl Debug for RequestKeeper {
    fn fmt(&self, out: &mut Formatter<'_>) -> fmt::Result {
        out.debug_struct("RequestKeeper")
            .field("mode", &self.mode())
            .field("sync_peer", &self.sync_peer())
            .field("downloaded_height", &self.downloaded_height())
            .field("known_tip", &self.known_tip())
            .field("last_clock", &self.last_clock())
            .finish_non_exhaustive()
    }
}
