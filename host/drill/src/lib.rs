//! The drill player: plays a scenario against the proved request keeper and tells what happened and why.
//!
//! A scenario is a small file of lines ([`scenario`]); [`play`](play::play) hands its steps to the core one after another
//! and notes what stood before and after each; [`timeline`] tells it as text, [`drawing`] draws it. The core decides, the
//! player only reads: docs/DRILL.md.

pub mod drawing;
mod fate_words;
pub mod fates;
pub mod play;
mod reasons;
mod refused;
pub mod scenario;
pub mod sending;
pub mod shipped;
pub mod standing;
mod text;
pub mod timeline;
pub mod verdict;
pub mod world;
