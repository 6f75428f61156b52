use crate::{Command, Commands, Message};
use std::fmt::{self, Display, Formatter};

/// A step's commands as they are sent: after a failed send the rest of its batch is dropped.
///
/// Take a command, send it, and say so with [`failed`](Self::failed) if that did not work. It goes with asynchronous
/// sends; for others [`Finished::send`](crate::Finished::send) does the same with a closure.
///
/// ```
/// # use request_keeper::{Peer, Refusal, RequestKeeper, Settings, Step, Surroundings};
/// # fn main() -> Result<(), Refusal> {
/// # let mut keeper = RequestKeeper::open(Settings::default(), 0, 0)?;
/// # let now = Surroundings { peers: &[Peer(7)], ..Surroundings::at(1_000) };
/// # let _ = keeper.step(Step::Start, &now)?;
/// let mut outbox = keeper.step(Step::Pick, &now)?.outbox();
/// while let Some(command) = outbox.next() {
///     let sent: Result<(), &str> = Err("connection reset"); // transport.send_to(command.to, ..).await
///     if sent.is_err() {
///         outbox.failed();
///     }
/// }
/// if outbox.entry_failed() {
///     let _ = keeper.step(Step::SendFailure, &now)?; // sends nothing
/// }
/// # Ok(())
/// # }
/// ```
#[derive(Debug)]
pub struct Outbox<'a> {
    commands: Commands<'a>,
    /// Whether the step was an entry to syncing that sent.
    entry: bool,
    last: Option<Command<'a>>,
    dropping: Option<u16>,
    entry_failed: bool,
    dropped: usize,
}

impl<'a> Outbox<'a> {
    pub(crate) fn new(commands: Commands<'a>, entry: bool) -> Self {
        Self {
            commands,
            entry,
            last: None,
            dropping: None,
            entry_failed: false,
            dropped: 0,
        }
    }

    /// The command last taken could not be sent. Said twice, it counts once.
    pub fn failed(&mut self) {
        if let Some(command) = self.last {
            self.dropping = Some(command.batch);
            self.entry_failed |= self.entry && command.message == Message::SyncInfo;
        }
    }

    /// Whether the sync info of an entry to syncing failed: then [`Step::SendFailure`](crate::Step::SendFailure) is the
    /// next step, before any other.
    pub fn entry_failed(&self) -> bool {
        self.entry_failed
    }

    /// How many commands were dropped so far because a send of their batch had failed.
    pub fn dropped(&self) -> usize {
        self.dropped
    }
}

impl<'a> Iterator for Outbox<'a> {
    type Item = Command<'a>;

    fn next(&mut self) -> Option<Command<'a>> {
        for command in self.commands.by_ref() {
            if self.dropping != Some(command.batch) {
                self.last = Some(command);
                return Some(command);
            }
            self.dropped += 1;
        }
        self.last = None;
        None
    }
}

/// How the sends of a step went.
#[derive(Debug, Clone, Copy, PartialEq, Eq, Default)]
#[must_use = "a failed entry has to be the next step"]
pub struct Sends {
    pub sent: usize,
    pub failed: usize,
    /// Not tried, because a send of their batch had failed.
    pub dropped: usize,
    /// The next step is [`Step::SendFailure`](crate::Step::SendFailure).
    pub entry_failed: bool,
}

impl Display for Sends {
    fn fmt(&self, out: &mut Formatter<'_>) -> fmt::Result {
        let Self {
            sent,
            failed,
            dropped,
            entry_failed,
        } = self;
        let entry = if *entry_failed {
            "; the entry failed"
        } else {
            ""
        };
        write!(
            out,
            "{sent} sent, {failed} failed, {dropped} dropped{entry}"
        )
    }
}
