//! A plain second implementation of the replay judge for one Kafka partition.
//! It is written from the rules alone and shares no code with the proved one.

pub mod actions;
pub mod flat;
pub mod images;
pub mod names;
pub mod printed;
pub mod questions;
pub mod replies;
pub mod run;
pub mod state;
