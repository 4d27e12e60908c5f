//! The market-wide limit of a stock and the charge of a violation, as futeq proves them: safe Rust over the static library of
//! `crates/capi`. Each call answers 0 to input out of range, and nothing else, so that 0 is `None` here.

use std::num::NonZeroU64;

// `crates/capi/src/lib.rt` has these as `futeq_limit(free_float: u64, deliveries: &[u8]) -> u64`, where a slice crosses as a
// pointer and then a length, and `futeq_charge(violated: u64, price: u64) -> u64`. Nothing compares the two declarations.
unsafe extern "C" {
    fn futeq_limit(free_float: u64, deliveries: *const u8, length: usize) -> u64;
    safe fn futeq_charge(violated: u64, price: u64) -> u64;
}

/// The limit, in units, for a free float and the deliveries of each day; `None` where the free float is outside 10 to 10^12, a
/// delivery is above 10^10, or there are not 1 to 92 days.
#[must_use]
pub fn limit(free_float: u64, deliveries: &[u64]) -> Option<u64> {
    let bytes: Vec<u8> = deliveries
        .iter()
        .flat_map(|day| day.to_be_bytes())
        .collect();
    limit_of_bytes(free_float, &bytes)
}

/// The same for days that are bytes already, eight a day, high byte first; `None` also where they are not whole days.
#[must_use]
pub fn limit_of_bytes(free_float: u64, deliveries: &[u8]) -> Option<u64> {
    // SAFETY: the pointer and the length are those of one slice, which is lent for the call.
    some(unsafe { futeq_limit(free_float, deliveries.as_ptr(), deliveries.len()) })
}

/// The charge, in paise, for a violated quantity in ten-thousandths of a unit at a closing price in paise; `None` where the
/// quantity is outside 1 to 3.2 × 10^14 or the price outside 1 to 10^8.
#[must_use]
pub fn charge(violated: u64, price: u64) -> Option<u64> {
    some(futeq_charge(violated, price))
}

fn some(answer: u64) -> Option<u64> {
    NonZeroU64::new(answer).map(NonZeroU64::get)
}
