// The limit, from days that are bytes, and the charge, as a host asks for them: through the C calls of crates/capi where this
// is built with `--cfg host`, and else in plain Rust.
#[cfg(host)]
mod by {
    unsafe extern "C" {
        fn futeq_limit(free_float: u64, deliveries: *const u8, length: usize) -> u64;
        safe fn futeq_charge(violated: u64, price: u64) -> u64;
    }

    pub fn limit(free_float: u64, deliveries: &[u8]) -> u64 {
        // SAFETY: the pointer and the length are those of one slice, which is lent for the call.
        unsafe { futeq_limit(free_float, deliveries.as_ptr(), deliveries.len()) }
    }

    pub fn charge(violated: u64, price: u64) -> u64 {
        futeq_charge(violated, price)
    }
}

#[cfg(not(host))]
mod by {
    use crate::monitor;

    // Not inlined, as a call through C is not.
    #[inline(never)]
    pub fn limit(free_float: u64, deliveries: &[u8]) -> u64 {
        let (whole, odd) = deliveries.as_chunks::<8>();
        if !odd.is_empty() || whole.len() > 92 {
            return 0;
        }
        let mut daily = [0; 92];
        for (day, bytes) in daily.iter_mut().zip(whole) {
            *day = u64::from_be_bytes(*bytes);
        }
        monitor::limit(free_float, &daily[..whole.len()]).unwrap_or(0)
    }

    #[inline(never)]
    pub fn charge(violated: u64, price: u64) -> u64 {
        if !(1..=320_000_000_000_000).contains(&violated) || !(1..=100_000_000).contains(&price) {
            return 0;
        }
        monitor::charge(violated, price)
    }
}

pub use by::{charge, limit};
