//! A model of the whole machine in plain Rust, written from the rules and the pages in `docs/`.
//!
//! It shares no text with the proved code. `compare` plays scripts on both.

mod bank;
mod core;
mod machine;
mod memory;
mod message;
mod net;
mod player;
mod policy;
mod refusal;
pub mod scripts;

pub use machine::{Delivered, Issued, Machine, Protocol, Ticket};
pub use memory::{Fault, MAX_SIZE, Memory, Words};
pub use message::{Answer, Op, Reply, Request};
pub use net::{LANES, Net};
pub use player::{INPUT_MAX, Letters, play};
pub use policy::{Event, Fixed, LIFETIME_MAX, Learner, Policy};
pub use refusal::Refusal;

/// The last tick.
pub const CLOCK_END: u32 = 4_294_963_199;

/// A stamp runs up to and including the tick that equals it.
#[inline]
pub(crate) fn runs(stamp: u32, clock: u32) -> bool {
    stamp >= clock
}
