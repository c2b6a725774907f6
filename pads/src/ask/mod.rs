//! What is asked of the proved archive, and what follows from its answers: reasons, roots of never, orders, pads, privacy.

pub mod archive;
pub mod model;
pub mod never;
pub mod pads;
pub mod ranking;
pub mod upstream;
pub mod why;
