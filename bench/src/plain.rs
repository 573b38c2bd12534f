//! The plain side: curve, gap and worth as they are defined, over all levels, and a gap that stops where nobody objects.

use crate::market::{BUSES, Market, POINTS, Proposal};

const HIGH: u16 = 20_000;
const LIMIT: i64 = 1_000_000;

struct Point {
    level: i64,
    price: i64,
}

/// A thermal unit from 0 to 20,000 tenths, with its completed curve.
pub struct Unit {
    bus: usize,
    curve: Vec<Point>,
}

pub struct Plain {
    units: Vec<Unit>,
    lines: Vec<Vec<i64>>,
}

impl Unit {
    /// The submitted points, with −25,000 from level 0, a knee ten tenths before them and the last price after them.
    fn new(bus: usize, prices: &[i32]) -> Unit {
        let submitted = |(place, price): (usize, &i32)| Point {
            level: 1_900 * (place as i64 + 1),
            price: *price as i64,
        };
        let first = prices[0] as i64;
        let last = prices[prices.len() - 1] as i64;
        let mut curve = vec![
            Point {
                level: 0,
                price: -25_000,
            },
            Point {
                level: 1_890,
                price: first.min(-24_999),
            },
        ];
        curve.extend(prices.iter().enumerate().map(submitted));
        curve.push(Point {
            level: HIGH as i64,
            price: last,
        });
        Unit { bus, curve }
    }

    fn price(&self, level: u16) -> i64 {
        let level = level as i64;
        let [first, ..] = &self.curve[..] else {
            return 0;
        };
        if level <= first.level {
            return first.price;
        }
        for pair in self.curve.windows(2) {
            let (from, to) = (&pair[0], &pair[1]);
            if level <= to.level {
                return from.price
                    + ((to.price - from.price) * (level - from.level))
                        .div_euclid(to.level - from.level);
            }
        }
        self.curve[self.curve.len() - 1].price
    }

    fn gain(&self, lmp: i64, level: u16) -> i64 {
        lmp - 1_000 * self.price(level)
    }

    /// The greatest sum of gains up to any level, less that up to the base point.
    fn forgone(&self, lmp: i64, base: u16) -> i64 {
        let (mut total, mut best, mut at_base) = (0, 0, 0);
        for level in 1..=HIGH {
            total += self.gain(lmp, level);
            best = best.max(total);
            if level == base {
                at_base = total;
            }
        }
        best - at_base
    }

    /// The same, by the tenths that object alone.
    fn objections(&self, lmp: i64, base: u16) -> i64 {
        let up = (base + 1..=HIGH)
            .map(|level| self.gain(lmp, level))
            .take_while(|gain| *gain > 0);
        let down = (1..=base)
            .rev()
            .map(|level| -self.gain(lmp, level))
            .take_while(|loss| *loss > 0);
        up.sum::<i64>() + down.sum::<i64>()
    }
}

impl Plain {
    pub fn new(market: &Market) -> Plain {
        Plain {
            units: market
                .prices
                .chunks(POINTS)
                .enumerate()
                .map(|(bus, prices)| Unit::new(bus, prices))
                .collect(),
            lines: market
                .shares
                .chunks(BUSES)
                .map(|line| line.iter().map(|share| *share as i64).collect())
                .collect(),
        }
    }

    fn lmp(&self, unit: &Unit, proposal: &Proposal) -> i64 {
        let shadows: i64 = self
            .lines
            .iter()
            .zip(&proposal.shadow)
            .map(|(line, u)| line[unit.bus] * *u as i64)
            .sum();
        1_000 * proposal.system as i64 - shadows
    }

    fn slack(&self, proposal: &Proposal) -> i64 {
        let mut injections = [0; BUSES];
        for (unit, base) in self.units.iter().zip(&proposal.base) {
            injections[unit.bus] += *base as i64;
        }
        let flow = |line: &[i64]| {
            line.iter()
                .zip(&injections)
                .map(|(share, amount)| share * amount)
                .sum::<i64>()
        };
        self.lines
            .iter()
            .zip(&proposal.shadow)
            .map(|(line, u)| *u as i64 * (1_000 * LIMIT - flow(line)))
            .sum()
    }

    fn gap_by(&self, proposal: &Proposal, forgone: impl Fn(&Unit, i64, u16) -> i64) -> i64 {
        let units = self.units.iter().zip(&proposal.base);
        units
            .map(|(unit, base)| forgone(unit, self.lmp(unit, proposal), *base))
            .sum::<i64>()
            + self.slack(proposal)
    }

    pub fn gap(&self, proposal: &Proposal) -> i64 {
        self.gap_by(proposal, Unit::forgone)
    }

    pub fn gap_by_objections(&self, proposal: &Proposal) -> i64 {
        self.gap_by(proposal, Unit::objections)
    }

    pub fn worth(&self, base: &[u16]) -> i64 {
        let cost =
            |(unit, base): (&Unit, &u16)| (1..=*base).map(|level| unit.price(level)).sum::<i64>();
        -self.units.iter().zip(base).map(cost).sum::<i64>()
    }

    /// Base points at which nobody objects: each unit up to its last tenth that gains.
    pub fn settled(&self, system: i32, shadow: Vec<u32>) -> Proposal {
        let mut proposal = Proposal {
            system,
            shadow,
            base: Vec::new(),
        };
        for unit in &self.units {
            let lmp = self.lmp(unit, &proposal);
            let gaining = (1..=HIGH)
                .take_while(|level| unit.gain(lmp, *level) > 0)
                .count();
            proposal.base.push(gaining as u16);
        }
        proposal
    }
}
