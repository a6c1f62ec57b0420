//! Runs, and inputs for rehearse, made from a seed alone.
//!
//! - `chance`: the numbers drawn from a seed.
//! - `habits`: how a run goes.
//! - `driver`: steps of servers that follow the protocol.
//! - `noise`: steps of any kind, many of which are refused.
//! - `calls`: the steps of a driver with Asks and Puts among them.
//! - `inputs`: whole inputs, damaged ones among them.
//! - `limits`: limits of cabinets that open accepts.
//! - `tally`: how often each answer occurs in what rehearse prints.
//! - `replay`: the steps of an input, taken once more.
//! - `halves`: how often exactly half of the drives decide a step.
//! - `learning`: how often servers tell what is settled, and others learn it.

mod calls;
mod chance;
mod driver;
mod habits;
mod halves;
mod inputs;
mod learning;
mod limits;
mod noise;
mod replay;
mod tally;

pub use calls::{Call, Caller, Reply};
pub use chance::Chance;
pub use driver::Driver;
pub use habits::Habits;
pub use halves::Halves;
pub use inputs::{make_input, SIZES};
pub use learning::Learning;
pub use limits::any_limits;
pub use noise::any_step;
pub use replay::{replay, Taken};
pub use tally::Tally;
