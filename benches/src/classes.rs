//! How long the class of a size takes by itself: by arithmetic, row by row of document 01's table; by
//! request d)'s table as a request looks it up, by itself each time; and by one table for many sizes.
//!
//!     cargo run --release --offline --locked -p benches --bin classes
//!
//! One line for each order of the sizes: nanoseconds a size, and the ratio of the table that is
//! shared to arithmetic, which has a bar. The exit status is 1 if one is missed. Figures are the
//! fastest of many repetitions.

mod bars;
mod timing;

use bars::remark;
use reference::histories::Xorshift;
use reference::sizes::DIRECT_FROM;
use std::process::ExitCode;
use tests::classes::{by_rows, by_shared_table, by_table};
use timing::{lower, Function};

/// The greatest ratio of the shared table to arithmetic.
const BAR: f64 = 1.0;
/// How many sizes: more than a processor remembers the turns of.
const SIZES: u32 = 1 << 18;
/// How often all orders are gone through.
const PASSES: u32 = 3;
/// Sizes that take a chunk are 1 to this.
const LARGEST: u32 = DIRECT_FROM - 1;

const FUNCTIONS: [Function; 3] = [by_rows, by_table, by_shared_table];

/// Sizes in some order, as the numbers that stand for them, and the fastest times on them.
struct Measured {
    order: &'static str,
    numbers: Vec<u32>,
    nanoseconds: [f64; 3],
}

/// The number of a size: the one before it.
fn number_of(size: u32) -> u32 {
    assert!((1..=LARGEST).contains(&size), "{size}");
    size - 1
}

/// A size up to the largest, each as likely as another.
fn any(random: &mut Xorshift) -> u32 {
    1 + random.below(LARGEST)
}

/// A size of which each number of bits is as likely: small sizes come as often as large ones do.
fn of_any_length(random: &mut Xorshift) -> u32 {
    let least = 1 << random.below(13);
    least + random.below(least)
}

/// A size below 1,024.
fn small(random: &mut Xorshift) -> u32 {
    1 + random.below(1_023)
}

impl Measured {
    fn new(order: &'static str, sizes: impl Iterator<Item = u32>) -> Measured {
        Measured {
            order,
            numbers: sizes.take(SIZES as usize).map(number_of).collect(),
            nanoseconds: [f64::INFINITY; 3],
        }
    }

    /// In no order: each size is drawn by itself.
    fn drawn(order: &'static str, size: fn(&mut Xorshift) -> u32) -> Measured {
        let mut random = Xorshift::new(1);
        Measured::new(order, std::iter::repeat_with(move || size(&mut random)))
    }

    fn ratio(&self) -> f64 {
        let [rows, _, shared] = self.nanoseconds;
        shared / rows
    }

    fn is_met(&self) -> bool {
        self.ratio() <= BAR
    }

    fn print(&self) {
        let [rows, table, shared] = self.nanoseconds.map(|time| time / f64::from(SIZES));
        let (order, ratio) = (self.order, self.ratio());
        let remark = remark(self.is_met(), BAR);
        println!("{order:<36}{rows:>10.2}{table:>10.2}{shared:>10.2}{ratio:>8.2}  {remark}");
    }
}

fn main() -> ExitCode {
    let mut measured = [
        Measured::new("one size, 100", std::iter::repeat(100)),
        Measured::new("all in order", (1..=LARGEST).cycle()),
        Measured::drawn("in no order", any),
        Measured::drawn("in no order, small and large alike", of_any_length),
        Measured::drawn("in no order, up to 1,023", small),
    ];
    for _ in 0..PASSES {
        for one in &mut measured {
            lower(&mut one.nanoseconds, &FUNCTIONS, &mut one.numbers);
        }
    }
    println!(
        "{:<36}{:>10}{:>10}{:>10}{:>8}",
        "sizes, ns each", "rows", "table", "shared", "ratio"
    );
    measured.iter().for_each(Measured::print);
    let missed = measured.iter().any(|one| !one.is_met());
    ExitCode::from(u8::from(missed))
}
