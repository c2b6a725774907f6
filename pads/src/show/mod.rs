//! The command line and the page: what a person types and reads.

pub mod args;
pub mod commands;
pub mod cost;
pub mod forms;
pub mod help;
pub mod json;
pub mod messages;
pub mod page;
pub mod text;
