//! The charge for a run, by its sum.

/// What a plan costs before anything is added, in cents.
const PLAN: u32 = 150;

/// The charge for a sum, in cents: a started thousand adds 5, one of the first 100 adds 4 more, and one of the first 20 another 3.
#[inline]
#[allow(clippy::manual_div_ceil)]
pub fn charge(sum: u32) -> u32 {
    // In 64 bits no sum wraps, and this is one multiplication; `div_ceil` is two.
    let thousands = ((u64::from(sum) + 999) / 1_000) as u32;
    PLAN + 5 * thousands + 4 * thousands.min(100) + 3 * thousands.min(20)
}
