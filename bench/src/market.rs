//! The widest market as lists of numbers, and the proposals that are measured.

pub const PARTICIPANTS: usize = 64;
pub const POINTS: usize = 10;
pub const LINES: usize = 32;
pub const BUSES: usize = 64;

/// Ten prices for each participant, and 64 shares for each line.
pub struct Market {
    pub prices: Vec<i32>,
    pub shares: Vec<i16>,
}

/// A system price, a shadow price for each line and a base point for each participant.
pub struct Proposal {
    pub system: i32,
    pub shadow: Vec<u32>,
    pub base: Vec<u16>,
}

impl Market {
    /// Rising prices from 3,000 cents on, and shares of either sign at every bus.
    pub fn widest() -> Market {
        let price = |place: usize| 3_000 * (place % POINTS + 1) + 37 * (place / POINTS);
        let share = |place: usize| 37 * (place / BUSES + 1) * (place % BUSES + 1) % 2_001;
        Market {
            prices: (0..PARTICIPANTS * POINTS)
                .map(|place| price(place) as i32)
                .collect(),
            shares: (0..LINES * BUSES)
                .map(|place| share(place) as i16 - 1_000)
                .collect(),
        }
    }
}
