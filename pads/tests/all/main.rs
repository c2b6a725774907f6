//! Tests over whole designs, in one program.

mod common;
mod fewer;
mod figures;
mod formats;
mod hierarchy;
mod json;
mod macros;
mod names;
mod reading;
