//! The gate of the archive, held to the reference: every answer and every field of every next state.
//!
//! - `runs`: random and edge runs from a fresh state, with the book over them
//! - `sound_states`: sound states that no run need reach
//! - `broken_states`: states with one rule of soundness broken
//! - `bursts`: many offers in one call
//! - `displaced`: what an offer does to a full queue
//! - `second`: thirty milliseconds in any second
//! - `refusals`: which refusal comes first, and that it changes nothing
//! - `samples`: the busy count of words, and the load
//! - `harmonised`: profile 4, which goes by the latest load
//! - `first_edition`: profile 5, which goes by a list of levels and its last loads
//! - `sample_log`: the requirement's own log
//! - `safe`: what `Gate` makes of the archive's calls
//! - `shown`: a gate in a screenful
//! - `stored`: states as bytes
//! - `writer`: calls written to a log
//! - `plain`: the plain engine's archive beside the gate's
//! - `plain_runs`: both archives through random runs, single calls and bursts, with damaged states in between
//! - `plain_states`: sound lists that no run need reach, and lists with one rule of soundness broken
//! - `layout`: sizes and offsets, the same as C sees

mod broken_states;
mod bursts;
mod displaced;
mod first_edition;
mod harmonised;
mod help;
mod layout;
mod plain;
mod plain_runs;
mod plain_states;
mod refusals;
mod runs;
mod safe;
mod sample_log;
mod samples;
mod second;
mod shown;
mod sound_states;
mod stored;
mod writer;
