//! The values that cross the boundary of the request keeper, as plain records: its state, a call, an answer, the
//! commands. No rule stands here, so that the reference and the oracle share nothing that decides.

mod arguments;
mod call;
mod command;
mod map;
mod mean_age;
pub mod numbers;
mod state;

pub use arguments::{Answer, Arguments, Forecast, Keeper, COMMAND_BYTES, STATE_BYTES};
pub use call::{Call, Place, Row, View};
pub use command::{read_commands, Command};
pub use map::{MapCall, MAP_BYTES};
pub use mean_age::MeanAge;
pub use state::{Id, Mode, Request, Settings, State, TypeId};
