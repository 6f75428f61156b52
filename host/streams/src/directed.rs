//! Directed streams: each limit of document 01, one below, at, and one above; and the corners that random streams meet
//! seldom.

use crate::Script;

mod delivery;
mod headers;
mod heights;
mod limits;
mod messages;
mod peers;
mod runs;
mod shapes;
mod types;

pub use delivery::{d2, d2_parting};
pub use headers::d3;
pub use peers::d1;
pub use types::d4;

/// All directed streams.
pub fn scripts() -> Vec<Script> {
    let mut scripts = delivery::scripts();
    scripts.extend(runs::scripts());
    scripts.extend(messages::scripts());
    scripts.extend(headers::scripts());
    scripts.extend(peers::scripts());
    scripts.extend(heights::scripts());
    scripts.extend(limits::scripts());
    scripts.extend(shapes::scripts());
    scripts.extend(types::scripts());
    scripts
}
