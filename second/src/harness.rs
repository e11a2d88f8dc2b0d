//! What the programs around the two implementations share. It needs no proved library.

pub mod answers;
pub mod course;
pub mod draw;
pub mod fixed;
pub mod layout;
pub mod random;
