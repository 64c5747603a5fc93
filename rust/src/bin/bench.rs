//! bench: nanoseconds for a whole gas day at 4,096 points, by each share rule.
//!
//! Each program runs the same days on a new ledger: 64 traders, 4,096 points, the even profile of
//! 764,445; day d (from 0) is opened at 10.0 degrees in season 0, trader d % 64 has 1,000 metered
//! litres, inflow is 900,000,000 + d, the loss rate 20,000. Point p is trader p % 64's, of segment
//! p % 8, 5 digits, 1,000 litres per unit, reading 0, scale factor p * 7,919 % 2,000,001. A program
//! takes the number of days and gives the account of trader 7 after them.
//!
//! With the feature `rattle` the proved ledger is timed too, in turns with the plain one: the
//! static library of `crates/bench`, which `tools/bench` builds and links. Their accounts have to
//! agree; no time is ever a fault.

use std::hint::black_box;
use std::process::ExitCode;
use std::time::Instant;

use keldrava_second::ledger::Ledger;
use keldrava_second::point::{Particulars, Point};
use keldrava_second::profiles::Even;
use keldrava_second::shares::{LargestRemainder, Running, ShareRule};
use keldrava_second::Refusal;

const POINTS: usize = 4_096;
const DAYS: u32 = 50;
const ROUNDS: usize = 101;

/// What is timed: so many days on a new ledger.
type Days = fn(u32) -> u64;

/// The days by one share rule, in plain Rust and, where it is linked, by the proved ledger.
struct Rule {
    name: &'static str,
    plain: Days,
    proved: Option<Days>,
}

const RULES: [Rule; 2] = [
    Rule { name: "running", plain: running, proved: proved::RUNNING },
    Rule { name: "largest", plain: largest, proved: proved::LARGEST },
];

#[cfg(feature = "rattle")]
mod proved {
    use super::Days;

    unsafe extern "C" {
        safe fn keldrava_bench_running(days: u32) -> u64;
        safe fn keldrava_bench_largest(days: u32) -> u64;
    }
    pub const RUNNING: Option<Days> = Some(|days| keldrava_bench_running(days));
    pub const LARGEST: Option<Days> = Some(|days| keldrava_bench_largest(days));
}

#[cfg(not(feature = "rattle"))]
mod proved {
    use super::Days;

    pub const RUNNING: Option<Days> = None;
    pub const LARGEST: Option<Days> = None;
}

fn main() -> ExitCode {
    let mut agree = true;
    for rule in RULES {
        agree &= compare(&rule);
    }
    if agree {
        return ExitCode::SUCCESS;
    }
    eprintln!("the accounts differ");
    ExitCode::FAILURE
}

/// Times a rule's days and prints what came out; tells whether the accounts agree.
fn compare(rule: &Rule) -> bool {
    let Rule { name, plain, proved } = rule;
    let (mut plain_rounds, mut proved_rounds) = (Vec::new(), Vec::new());
    for _ in 0..ROUNDS {
        plain_rounds.push(nanoseconds_a_day(*plain));
        proved_rounds.extend(proved.map(nanoseconds_a_day));
    }
    let (account, time) = (plain(DAYS), median(plain_rounds));
    println!("{name}, plain Rust: {time} ns a day, account {account}");
    let Some(proved) = proved else {
        return true;
    };
    let (proved_account, proved_time) = (proved(DAYS), median(proved_rounds));
    println!("{name}, Rattle: {proved_time} ns a day, account {proved_account}");
    println!("{name}: {:.2} times plain Rust", proved_time as f64 / time as f64);
    account == proved_account
}

/// One round: the time of the days alone, without making the ledger.
fn nanoseconds_a_day(run: Days) -> u128 {
    let making = nanoseconds(run, 0);
    nanoseconds(run, DAYS).saturating_sub(making) / u128::from(DAYS)
}

fn median(mut rounds: Vec<u128>) -> u128 {
    rounds.sort_unstable();
    rounds[rounds.len() / 2]
}

fn nanoseconds(run: Days, days: u32) -> u128 {
    let start = Instant::now();
    black_box(run(black_box(days)));
    start.elapsed().as_nanos()
}

fn running(days: u32) -> u64 {
    run(days, &Running).expect("the benchmark's days are all in order")
}

fn largest(days: u32) -> u64 {
    run(days, &LargestRemainder).expect("the benchmark's days are all in order")
}

fn run(days: u32, rule: &impl ShareRule) -> Result<u64, Refusal> {
    let mut points = vec![Point::UNUSED; POINTS];
    let mut ledger = station(&mut points)?;
    let even = Even::new(764_445)?;
    let (mut consumptions, mut shares) = (vec![0; POINTS], vec![0; POINTS]);
    for number in 0..days {
        let day = ledger.open(100, 0)?;
        ledger.enter(&day, number % 64, 1_000)?;
        let inflow = 900_000_000 + u64::from(number);
        let day = ledger.take_inflow(day, inflow, 20_000).map_err(|refused| refused.why)?;
        ledger
            .share_out(day, &even, rule, &mut points, &mut consumptions, &mut shares)
            .map_err(|refused| refused.why)?;
    }
    Ok(ledger.account(7)? as u64)
}

fn station(points: &mut [Point]) -> Result<Ledger, Refusal> {
    let mut ledger = Ledger::new(0);
    for _ in 0..64 {
        ledger.admit_trader()?;
    }
    for place in 0..POINTS as u32 {
        let particulars = Particulars {
            trader: place % 64,
            segment: place % 8,
            digits: 5,
            litres_per_unit: 1_000,
            reading: 0,
            scale_factor: place * 7_919 % 2_000_001,
        };
        ledger.admit_point(points, particulars)?;
    }
    Ok(ledger)
}
