//! The refusal numbers. Their names are those of crates/reading, their words those of README's table:
//! tests/refusals compares them.

/// a lent table is shorter than its published size
pub const TABLE_SHORT: u32 = 1;
/// a text has more than 65,535 bytes
pub const TEXT_LONG: u32 = 2;
/// bad form: a wrong word, a missing or empty field, a bad number or name, an `M` or a `Z` out of
/// place, no byte 10 at the end, an entry broken off
pub const LIBRARY_FORM: u32 = 3;
/// the name was used before
pub const NAME_USED: u32 = 4;
/// more than 8 pins
pub const PINS_BAD: u32 = 5;
/// a wrong count of groups, or a group of more than 16 rows
pub const GROUPS_BAD: u32 = 6;
/// a row has a bit above its columns
pub const BIT_ABOVE: u32 = 7;
/// a CC or SC row names no pin while the other group of its line has rows, or a CO or SO row does not
/// observe the output
pub const ROW_IDLE: u32 = 8;
/// a 33rd entry
pub const CELLS_MANY: u32 = 9;
/// bad form
pub const NETLIST_FORM: u32 = 10;
/// a line number is not 1 to 1,000
pub const LINE_BAD: u32 = 11;
/// the library has no such cell
pub const CELL_UNKNOWN: u32 = 12;
/// the count of pins differs from the cell's
pub const PINS_DIFFER: u32 = 13;
/// the line is driven already, by an input or a gate, or declared open
pub const DRIVEN_BEFORE: u32 = 14;
/// the line is marked output already
pub const MARKED_BEFORE: u32 = 15;
/// the report is longer than its buffer; of a netlist with ranges both reports together
pub const REPORT_LONG: u32 = 17;
/// the number is over or never, or there is none
pub const NO_FIGURE: u32 = 18;
/// the plan's text is longer than its buffer
pub const PLAN_LONG: u32 = 19;
/// a line is read by a pin or marked output, and neither driven nor declared open
pub const UNDECLARED: u32 = 20;
/// a range on a line that is not marked input above
pub const NOT_INPUT: u32 = 21;
/// a bound of a range is not 1 to 999, LOW is above HIGH, or the line has a range already
pub const RANGE_BAD: u32 = 22;
/// the netlist does not mention the line, or it is an output already; or the standing table holds such a pad, or
/// a count of pads above 1,000
pub const UNPADDABLE: u32 = 23;
/// the ticket's count of pads is not the present one
pub const TICKET_STALE: u32 = 24;
