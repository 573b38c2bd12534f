//! Times the proved gap and worth against plain Rust, in the widest market.
//!
//! Without arguments it checks that all sides agree and prints a table. With a case, a side and a number it makes so
//! many calls, for a count of instructions.

mod market;
mod plain;
mod proved;

use market::{LINES, Market, PARTICIPANTS, Proposal};
use plain::Plain;
use std::hint::black_box;
use std::time::{Duration, Instant};

#[derive(Clone, Copy, PartialEq)]
enum Case {
    /// The gap where nobody objects.
    Settled,
    /// The gap where every participant walks all its levels.
    Walk,
    /// The worth where every participant is at its high limit.
    Worth,
}

#[derive(Clone, Copy, PartialEq)]
enum Side {
    /// The definitions, over all levels.
    Plain,
    /// Plain Rust that looks only at tenths that object.
    Stopping,
    /// The proved library, which loads the market in each call.
    Proved,
    /// The same call, declined after it has loaded the market.
    Loading,
}

const CASES: [(&str, Case); 3] = [
    ("settled", Case::Settled),
    ("walk", Case::Walk),
    ("worth", Case::Worth),
];
const SIDES: [(&str, Side); 4] = [
    ("plain", Side::Plain),
    ("stopping", Side::Stopping),
    ("proved", Side::Proved),
    ("loading", Side::Loading),
];

struct Bench {
    market: Market,
    plain: Plain,
    settled: Proposal,
    walk: Proposal,
    full: Vec<u16>,
    declined: Proposal,
}

impl Bench {
    fn new() -> Bench {
        let market = Market::widest();
        let plain = Plain::new(&market);
        let settled = plain.settled(16_500, (0..LINES as u32).map(|line| 10 * line).collect());
        let walk = Proposal {
            system: 1_000_000,
            shadow: vec![0; LINES],
            base: vec![0; PARTICIPANTS],
        };
        // a system price out of range, and a base point too many
        let declined = Proposal {
            system: 1_000_001,
            shadow: vec![0; LINES],
            base: vec![0; PARTICIPANTS + 1],
        };
        Bench {
            market,
            plain,
            settled,
            walk,
            full: vec![20_000; PARTICIPANTS],
            declined,
        }
    }

    fn call(&self, case: Case, side: Side) -> Option<i64> {
        match case {
            Case::Settled => self.gap(&self.settled, side),
            Case::Walk => self.gap(&self.walk, side),
            Case::Worth => self.worth(side),
        }
    }

    fn gap(&self, proposal: &Proposal, side: Side) -> Option<i64> {
        match side {
            Side::Plain => Some(self.plain.gap(proposal)),
            Side::Stopping => Some(self.plain.gap_by_objections(proposal)),
            Side::Proved => proved::gap(&self.market, proposal),
            Side::Loading => proved::gap(&self.market, &self.declined),
        }
    }

    /// A worth has no tenths to leave out, so nothing stops early.
    fn worth(&self, side: Side) -> Option<i64> {
        match side {
            Side::Plain | Side::Stopping => Some(self.plain.worth(&self.full)),
            Side::Proved => proved::worth(&self.market, &self.full),
            Side::Loading => proved::worth(&self.market, &self.declined.base),
        }
    }

    fn repeat(&self, case: Case, side: Side, calls: u32) -> Duration {
        let start = Instant::now();
        for _ in 0..calls {
            black_box(black_box(self).call(case, side));
        }
        start.elapsed()
    }

    /// Nanoseconds of a call: the least of nine means over about 30 milliseconds each.
    fn time(&self, case: Case, side: Side) -> f64 {
        let once = self.repeat(case, side, 1).max(Duration::from_nanos(100));
        let calls =
            (Duration::from_millis(30).as_nanos() / once.as_nanos()).clamp(1, 100_000) as u32;
        let mean = |_| self.repeat(case, side, calls).as_nanos() as f64 / calls as f64;
        (0..9).map(mean).fold(f64::INFINITY, f64::min)
    }

    fn agree(&self, case: Case) -> i64 {
        let plain = self.call(case, Side::Plain);
        assert_eq!(
            plain,
            self.call(case, Side::Stopping),
            "plain Rust differs from itself"
        );
        assert_eq!(
            plain,
            self.call(case, Side::Proved),
            "the proved library differs from plain Rust"
        );
        assert_eq!(
            None,
            self.call(case, Side::Loading),
            "a number out of range is not declined"
        );
        plain.expect("plain Rust declines nothing")
    }

    fn print_table(&self) {
        println!(
            "ns a call  {:>20} {:>12} {:>12} {:>12} {:>12} {:>9} {:>9}",
            "answer", "plain", "stopping", "proved", "loading", "plain/p.", "stop./p."
        );
        for (name, case) in CASES {
            let answer = self.agree(case);
            let [plain, stopping, whole, loading] = SIDES.map(|(_, side)| self.time(case, side));
            let proved = whole - loading;
            println!(
                "{name:<10} {answer:>20} {plain:>12.0} {stopping:>12.0} {proved:>12.0} {loading:>12.0} {:>9.2} {:>9.2}",
                plain / proved,
                stopping / proved
            );
        }
    }
}

fn named<T: Copy>(table: &[(&str, T)], name: &str) -> T {
    table
        .iter()
        .find(|(known, _)| *known == name)
        .expect("a case or side of the table")
        .1
}

fn main() {
    let bench = Bench::new();
    let words: Vec<String> = std::env::args().skip(1).collect();
    match &words[..] {
        [case, side, calls] => {
            bench.repeat(
                named(&CASES, case),
                named(&SIDES, side),
                calls.parse().expect("a number of calls"),
            );
        }
        _ => bench.print_table(),
    }
}
