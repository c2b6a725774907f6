//! Costs: 0 to 999,999,999, then "over", then "never", in this order.

pub type Cost = u32;

pub const LARGEST: Cost = 999_999_999;
pub const OVER: Cost = 1_000_000_000;
pub const NEVER: Cost = 1_000_000_001;

/// Never if a term is never, otherwise over if the exact sum exceeds 999,999,999.
#[inline]
pub fn add(a: Cost, b: Cost) -> Cost {
    if a == NEVER || b == NEVER {
        NEVER
    } else {
        // Two costs up to "over" add to no more than 2,000,000,000, which a u32 holds.
        (a + b).min(OVER)
    }
}
