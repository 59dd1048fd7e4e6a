//! Avenues through junctions, and plans for them made by letting traffic run. The same seed makes the same texts.

mod avenue;
mod chance;
mod phases;
mod traffic;

pub use avenue::{Avenue, MAX_JUNCTIONS};
pub use chance::Chance;
pub use traffic::plan_text;
