//! Netlists, libraries and folders: a reader for each format, and the hub that every reader fills.

pub mod bench;
pub mod blif;
pub mod blocks;
pub mod boxes;
pub mod csv;
pub mod expr;
pub mod genlib;
pub mod hub;
pub mod json;
pub mod liberty;
pub mod load;
pub mod modules;
pub mod names;
pub mod native;
pub mod prices;
pub mod structural;
pub mod verilog;
pub mod yosys;
