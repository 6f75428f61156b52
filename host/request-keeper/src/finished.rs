use crate::{Answer, Command, Commands, Outbox, Sends};
use std::fmt::{self, Debug, Formatter};

/// A finished step: its numbers, and what is to be sent, once.
///
/// Sending takes the value, so that a step's commands can't go out twice:
///
/// ```compile_fail,E0382
/// # use request_keeper::Finished;
/// fn twice(finished: Finished<'_>) {
///     let _ = finished.send(|_command| Ok::<(), ()>(()));
///     let _ = finished.send(|_command| Ok::<(), ()>(()));
/// }
/// ```
#[must_use = "a step's commands have to be sent"]
pub struct Finished<'k> {
    pub answer: Answer,
    written: &'k [u8],
    /// Whether the step was an entry to syncing that sent.
    entry: bool,
}

impl<'k> Finished<'k> {
    pub(crate) fn new(answer: Answer, written: &'k [u8], entry: bool) -> Self {
        Self {
            answer,
            written,
            entry,
        }
    }

    /// The commands, to look at. [`send`](Self::send) or [`outbox`](Self::outbox) sends them.
    pub fn commands(&self) -> Commands<'k> {
        Commands::read(self.written)
    }

    /// The commands as they are sent, one by one.
    pub fn outbox(self) -> Outbox<'k> {
        Outbox::new(self.commands(), self.entry)
    }

    /// Sends the commands one after another. After an `Err` the rest of that batch is dropped; what went wrong is the
    /// closure's to log.
    ///
    /// ```
    /// # use request_keeper::{Peer, Refusal, RequestKeeper, Settings, Step, Surroundings};
    /// # fn main() -> Result<(), Refusal> {
    /// # let mut keeper = RequestKeeper::open(Settings::default(), 0, 0)?;
    /// # let now = Surroundings { peers: &[Peer(7)], ..Surroundings::at(1_000) };
    /// # let _ = keeper.step(Step::Start, &now)?;
    /// let sends = keeper.step(Step::Pick, &now)?.send(|_command| Err("connection reset"));
    /// assert!(sends.entry_failed);
    /// let _ = keeper.step(Step::SendFailure, &now)?; // sends nothing
    /// # Ok(())
    /// # }
    /// ```
    pub fn send<E>(self, mut send: impl FnMut(Command<'k>) -> Result<(), E>) -> Sends {
        let mut outbox = self.outbox();
        let mut sends = Sends::default();
        while let Some(command) = outbox.next() {
            match send(command) {
                Ok(()) => sends.sent += 1,
                Err(_) => {
                    sends.failed += 1;
                    outbox.failed();
                }
            }
        }
        sends.dropped = outbox.dropped();
        sends.entry_failed = outbox.entry_failed();
        sends
    }
}

impl Debug for Finished<'_> {
    fn fmt(&self, out: &mut Formatter<'_>) -> fmt::Result {
        out.debug_struct("Finished")
            .field("answer", &self.answer)
            .field("commands", &self.commands())
            .field("entry", &self.entry)
            .finish()
    }
}
