//! From a chip's netlist to its pads. This program computes no Goldstein number: every one comes from the proved
//! archive. What it adds are names, sums, orders and counts.

pub mod ask;
pub mod read;
pub mod rows;
pub mod show;
