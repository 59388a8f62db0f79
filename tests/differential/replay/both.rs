// The calls of the replay list with both builds of the Rust: list.rs has these modules twice, each time
// beside another `oracle`.
#[path = "calls.rs"]
mod replay_calls;
#[path = "edges.rs"]
pub mod replay_edges;
#[path = "rebuilds.rs"]
mod replay_rebuilds;
#[path = "sets.rs"]
pub mod replay_sets;
