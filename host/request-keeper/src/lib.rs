//! The request keeper of an Ergo node: which block sections, headers and transactions are on order, from which peer, and
//! when to turn elsewhere; and the downloaded height. The core is proved; this crate is the door to it.
//!
//! The node is the core's shell. It waits for events and timers, hands in each wake as a [`Step`] with the
//! [`Surroundings`] of the moment, sends the commands of the answer, and keeps the bytes. Nothing is decided here: every
//! list is handed on as it is, and what can't be served comes back as a [`Refusal`] that has changed nothing. A
//! [`WindowMap`] beside the keeper follows which sections of the next heights are stored. What a shell owes is on the page
//! [`shell`].
//!
//! ```
//! use request_keeper::{Message, Mode, ModifierType, Outcome, Peer, Question, Refusal, RequestKeeper, Section};
//! use request_keeper::{Settings, Step, Surroundings, SyncInfo, View};
//!
//! fn main() -> Result<(), Refusal> {
//!     let mut sent = Vec::new();
//!     let mut transport = |to: Peer, message: Message<'_>| {
//!         sent.push((to, format!("{message:?}")));
//!         Ok::<(), &str>(())
//!     };
//!
//!     // Opened at clock 1,000 with all blocks up to height 400, then started. Our header chain ends at 401.
//!     let mut keeper = RequestKeeper::open(Settings::default(), 1_000, 400)?;
//!     let mut view = View::from_height(401);
//!     let block = Section { modifier_type: ModifierType::BLOCK_TRANSACTIONS, id: [0xcc; 32], stored: false };
//!     view.push_header(&[block])?;
//!     let now = Surroundings { chain_height: 401, peers: &[Peer(4), Peer(5)], view: &view, ..Surroundings::at(1_000) };
//!     let _ = keeper.step(Step::Start, &now)?; // sends nothing
//!
//!     // A peer is picked, and our sync info goes to it.
//!     let now = Surroundings { clock: 2_000, ..now };
//!     let sends = keeper.step(Step::Pick, &now)?.send(|command| transport(command.to, command.message));
//!     assert_eq!((keeper.mode(), sends.entry_failed), (Mode::Syncing, false));
//!
//!     // Its sync info says that we have what it has: synced, and the missing section is asked for.
//!     let info = SyncInfo { tip: Some(401), continuation: &[] };
//!     let synced = keeper.step(Step::SyncInfo { from: Peer(4), parsed: Some(info) }, &now)?;
//!     assert_eq!((synced.answer.outcome, synced.answer.pending), (Outcome::Synced, 1));
//!     let _ = synced.send(|command| transport(command.to, command.message));
//!     assert_eq!(sent.len(), 2);
//!
//!     // The section comes in: the view says so, the keeper is told, and the downloaded height rises.
//!     let mut view = View::from_height(401);
//!     view.push_header(&[Section { stored: true, ..block }])?;
//!     let _ = keeper.step(Step::Received { ids: &[[0xcc; 32]] }, &Surroundings { view: &view, ..now })?;
//!     assert_eq!(keeper.downloaded_height(), 401);
//!
//!     // The state is bytes, to be stored and restored.
//!     let mut restored = RequestKeeper::from_bytes(keeper.as_bytes())?;
//!
//!     // Before a check the store is asked only for what the check may read.
//!     let stored = restored.question(Question::Check)?.stored_by(|_type, _id| false);
//!     let checked = restored.step(Step::Check, &Surroundings { clock: 7_000, stored: &stored, ..now })?;
//!     assert_eq!(checked.answer.retried, 0);
//!     Ok(())
//! }
//! ```

mod answer;
pub mod boundary;
mod command;
mod finished;
mod forecast;
mod hex;
mod keeper;
mod mean_age;
mod modifier_type;
mod outbox;
mod reading;
mod refusal;
mod step;
mod step_shown;
mod surroundings;
mod values;
mod view;
mod view_shown;
mod window_map;
mod window_map_shown;

pub use answer::{Answer, Outcome};
pub use command::{Command, Commands, Message};
pub use finished::Finished;
pub use forecast::Forecast;
pub use hex::Hex;
pub use keeper::{Question, RequestKeeper, STATE_BYTES};
pub use mean_age::MeanAge;
pub use modifier_type::ModifierType;
pub use outbox::{Outbox, Sends};
pub use reading::PendingRequest;
pub use refusal::Refusal;
pub use step::{Step, SyncInfo};
pub use surroundings::{Pairs, StoredPairs, Surroundings};
pub use values::{Id, Mode, Peer, Settings};
pub use view::{Section, View};
pub use window_map::{WindowMap, MAP_BYTES};

#[doc = include_str!("../../../docs/SHELL.md")]
pub mod shell {}
