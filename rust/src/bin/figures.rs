//! figures [SHEET]: prints figures that the proved program has to print too, byte for byte.
//!
//! SHEET is a table profile's sheet, `data/table.txt` of the current folder where none is named.
//! Every line is words and numbers separated by single spaces and ends with a line feed. In order:
//!
//! 1. `table SEGMENT TEMPERATURE FACTOR`, the multiplier of a table profile filled from SHEET, in
//!    season 0. Segment 0, then 1; within a segment the temperatures, in tenths: -400, -81, then
//!    each from -80 to 300, then 301 and 500.
//! 2. `layer SEGMENT SEASON TEMPERATURE MULTIPLIER DAY`, both numbers of a season layer on
//!    segment 1 over that table; its season number at (season, column) is
//!    (season * 381 + column) * 13127 % 20000001. Segments 0, 1, 2; within each the seasons 0 to 3;
//!    within each the temperatures -100 -80 -33 0 105 299 300 301.
//! 3. `running A W.. : SHARES..`, then `largest A W.. : SHARES..` for the same A and weights, for 60
//!    drawn cases and then for A 100, weights 1 1 1; A 4, weights 2 3; A 7, weights 5 5 5 5;
//!    A 9, weights 0 0.
//!    A draw is x <- x * 6364136223846793005 + 1442695040888963407 modulo 2^64 and gives x >> 33;
//!    x begins at 2009 and goes on from case to case. A case draws n - 1 as draw % 9; then for each
//!    of its n weights a draw, and where that is divisible by 5 the weight is 0, else another
//!    draw % 2000001 is the weight; last A as draw % 1000000001.
//! 4. The worked day by the running rule and then, on another new ledger, by largest remainder:
//!    first day 3561, one trader, two points of segments 0 and 1 with scale factors 1000000 and
//!    500000 (digits 5, 1000 litres per unit, reading 0), opened at 10.0 degrees in season 0,
//!    metered 380000, inflow 1000000, loss rate 20000, even profile of 764445.
//!    `day RULE INFLOW RATE METERED : LOSS A S` with the rule `running` or `largest`, then for each
//!    point `point RULE SCALE_FACTOR DAY_FACTOR : CONSUMPTION SHARE`.

use std::process::ExitCode;

use keldrava_second::ledger::{Ledger, SharedOut};
use keldrava_second::point::{Particulars, Point};
use keldrava_second::profiles::{Even, Profile, SeasonLayer, Table, COLUMNS};
use keldrava_second::shares::{LargestRemainder, Running, ShareRule};
use keldrava_second::{text, Refusal};

fn main() -> ExitCode {
    let path = std::env::args().nth(1).unwrap_or_else(|| "data/table.txt".to_string());
    match listing(&path) {
        Ok(listing) => {
            print!("{listing}");
            ExitCode::SUCCESS
        }
        Err(message) => {
            eprintln!("{path}: {message}");
            ExitCode::FAILURE
        }
    }
}

fn listing(path: &str) -> Result<String, String> {
    let bytes = std::fs::read(path).map_err(|error| error.to_string())?;
    let sheet = text::sheet(&bytes).ok_or("not a sheet of numbers")?;
    let mut table = Table::new();
    table.fill(&sheet).map_err(|why| why.to_string())?;
    let mut lines = table_lines(&table);
    let refused = |why: Refusal| why.to_string();
    lines.extend(layer_lines(table).map_err(refused)?);
    lines.extend(share_lines());
    lines.extend(day_lines("running", &Running).map_err(refused)?);
    lines.extend(day_lines("largest", &LargestRemainder).map_err(refused)?);
    Ok(lines.iter().map(|line| format!("{line}\n")).collect())
}

fn table_lines(table: &Table) -> Vec<String> {
    let mut temperatures = vec![-400, -81];
    temperatures.extend(-80..=300);
    temperatures.extend([301, 500]);
    let mut lines = Vec::new();
    for segment in 0..2 {
        for &temperature in &temperatures {
            let factor = table.tell(segment, temperature, 0).multiplier;
            lines.push(format!("table {segment} {temperature} {factor}"));
        }
    }
    lines
}

fn layer_lines(table: Table) -> Result<Vec<String>, Refusal> {
    let numbers: Vec<u64> =
        (0..4 * COLUMNS as u64).map(|place| place * 13_127 % 20_000_001).collect();
    let mut layer = SeasonLayer::new(table, 1)?;
    layer.fill(&numbers)?;
    let mut lines = Vec::new();
    for segment in 0..3 {
        for season in 0..4 {
            for temperature in [-100, -80, -33, 0, 105, 299, 300, 301] {
                let told = layer.tell(segment, temperature, season);
                let (multiplier, day) = (told.multiplier, told.day_factor);
                lines.push(format!("layer {segment} {season} {temperature} {multiplier} {day}"));
            }
        }
    }
    Ok(lines)
}

/// Draws numbers of 31 bits.
struct Draws(u64);

impl Draws {
    fn draw(&mut self) -> u64 {
        self.0 = self.0.wrapping_mul(6_364_136_223_846_793_005);
        self.0 = self.0.wrapping_add(1_442_695_040_888_963_407);
        self.0 >> 33
    }

    fn weight(&mut self) -> u64 {
        if self.draw().is_multiple_of(5) {
            return 0;
        }
        self.draw() % 2_000_001
    }

    /// A quantity and its weights.
    fn case(&mut self) -> (u64, Vec<u64>) {
        let count = self.draw() % 9 + 1;
        let weights = (0..count).map(|_| self.weight()).collect();
        (self.draw() % 1_000_000_001, weights)
    }
}

fn share_lines() -> Vec<String> {
    let mut draws = Draws(2009);
    let mut cases: Vec<(u64, Vec<u64>)> = (0..60).map(|_| draws.case()).collect();
    cases.push((100, vec![1, 1, 1]));
    cases.push((4, vec![2, 3]));
    cases.push((7, vec![5, 5, 5, 5]));
    cases.push((9, vec![0, 0]));
    let mut lines = Vec::new();
    for (quantity, weights) in &cases {
        lines.push(share_line("running", &Running, *quantity, weights));
        lines.push(share_line("largest", &LargestRemainder, *quantity, weights));
    }
    lines
}

fn share_line(name: &str, rule: &impl ShareRule, quantity: u64, weights: &[u64]) -> String {
    let mut shares = vec![0; weights.len()];
    rule.share(quantity, weights, &mut shares);
    format!("{name} {quantity} {} : {}", spaced(weights), spaced(&shares))
}

fn spaced(numbers: &[u64]) -> String {
    let words: Vec<String> = numbers.iter().map(u64::to_string).collect();
    words.join(" ")
}

fn day_lines(name: &str, rule: &impl ShareRule) -> Result<Vec<String>, Refusal> {
    const FACTOR: u64 = 764_445;
    const SCALE_FACTORS: [u32; 2] = [1_000_000, 500_000];
    let (inflow, rate, metered) = (1_000_000, 20_000, 380_000);
    let mut ledger = Ledger::new(3_561);
    let mut points = [Point::UNUSED; 2];
    let trader = ledger.admit_trader()?;
    for (segment, scale_factor) in (0..).zip(SCALE_FACTORS) {
        let dial = Particulars {
            trader,
            segment,
            digits: 5,
            litres_per_unit: 1_000,
            reading: 0,
            scale_factor,
        };
        ledger.admit_point(&mut points, dial)?;
    }
    let day = ledger.open(100, 0)?;
    ledger.enter(&day, trader, metered)?;
    let day = ledger.take_inflow(day, inflow, rate).map_err(|refused| refused.why)?;
    let even = Even::new(FACTOR)?;
    let (mut consumptions, mut shares) = ([0; 2], [0; 2]);
    let told = ledger
        .share_out(day, &even, rule, &mut points, &mut consumptions, &mut shares)
        .map_err(|refused| refused.why)?;
    let SharedOut { quantity, weight_sum, loss } = told;
    let mut lines =
        vec![format!("day {name} {inflow} {rate} {metered} : {loss} {quantity} {weight_sum}")];
    for (place, scale_factor) in SCALE_FACTORS.iter().enumerate() {
        let (consumption, share) = (consumptions[place], shares[place]);
        lines.push(format!("point {name} {scale_factor} {FACTOR} : {consumption} {share}"));
    }
    Ok(lines)
}
