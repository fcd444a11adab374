//! What the live runs against the crate ssh-key and the replay of its stored answers have in common: our answers, the walk that finds a
//! difference's cause, and the judgement of two answers. Nothing of the crate is needed here.
#![forbid(unsafe_code)]

pub mod answer;
pub mod causes;
pub mod judge;
mod key_fields;
pub mod ours;
mod steps;
pub mod stored;
mod strangers;
pub mod walk;
pub mod width;
