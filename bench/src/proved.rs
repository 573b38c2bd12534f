//! The proved side: `widest_gap` and `widest_worth` of the archive that `rt lib` makes in `crates/measure`.

use crate::market::{Market, Proposal};

#[link(name = "measure", kind = "static")]
unsafe extern "C" {
    fn widest_gap(
        prices: *const i32,
        price_count: usize,
        shares: *const i16,
        share_count: usize,
        system: i32,
        shadow: *const u32,
        shadow_count: usize,
        base: *const u16,
        base_count: usize,
        answer: &mut i64,
    ) -> bool;
    fn widest_worth(
        prices: *const i32,
        price_count: usize,
        base: *const u16,
        base_count: usize,
        answer: &mut i64,
    ) -> bool;
}

/// The gap, or nothing where the library declines a number. Each call loads the market first.
pub fn gap(market: &Market, proposal: &Proposal) -> Option<i64> {
    let (prices, shares) = (&market.prices, &market.shares);
    let (shadow, base) = (&proposal.shadow, &proposal.base);
    let mut answer = 0;
    let told = unsafe {
        widest_gap(
            prices.as_ptr(),
            prices.len(),
            shares.as_ptr(),
            shares.len(),
            proposal.system,
            shadow.as_ptr(),
            shadow.len(),
            base.as_ptr(),
            base.len(),
            &mut answer,
        )
    };
    told.then_some(answer)
}

/// The worth, in the same way.
pub fn worth(market: &Market, base: &[u16]) -> Option<i64> {
    let prices = &market.prices;
    let mut answer = 0;
    let told = unsafe {
        widest_worth(
            prices.as_ptr(),
            prices.len(),
            base.as_ptr(),
            base.len(),
            &mut answer,
        )
    };
    told.then_some(answer)
}
