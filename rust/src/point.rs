//! A point: one row of the sheet that the distributor hands in.

use crate::ledger::MOST_TRADERS;
use crate::profiles::MOST_SEGMENTS;
use crate::ONE;

pub const LARGEST_SCALE_FACTOR: u32 = 2_000_000;
pub const LARGEST_OPEN_SUM: u64 = 5_000_000_000_000;
pub const LARGEST_PERIOD_SUM: u64 = 40_000_000_000;
/// What a point may have had before a day is shared out, so that it cannot pass the two above.
const OPEN_SUM_BEFORE_A_DAY: u64 = 4_500_000_000_000;
const PERIOD_SUM_BEFORE_A_DAY: u64 = 39_990_000_000;

#[derive(Clone, Copy, PartialEq, Eq, Debug)]
pub struct Point {
    pub trader: u32,
    pub segment: u32,
    /// Digits of the dial.
    pub digits: u32,
    pub litres_per_unit: u32,
    /// The dial reading last booked, or the one at admission.
    pub reading: u32,
    pub scale_factor: u32,
    /// Litres shared to the point since the last booking.
    pub open_sum: u64,
    /// Multipliers told since the last booking.
    pub period_sum: u64,
    /// The number of the open slip; 0 where there is none.
    pub slip: u32,
    /// The open slip's reading.
    pub kept_reading: u32,
}

/// What is given when a point is admitted.
#[derive(Clone, Copy, PartialEq, Eq, Debug)]
pub struct Particulars {
    pub trader: u32,
    pub segment: u32,
    pub digits: u32,
    pub litres_per_unit: u32,
    pub reading: u32,
    pub scale_factor: u32,
}

/// Ten to the power of 0 to 8: at how many units a dial of that many digits rolls over.
const POWERS: [u32; 9] = [1, 10, 100, 1_000, 10_000, 100_000, 1_000_000, 10_000_000, 100_000_000];

/// Whether a dial of that many digits can show the reading.
fn dial_shows(digits: u32, reading: u32) -> bool {
    reading < POWERS[digits as usize]
}

impl Particulars {
    /// The ranges of everything but the trader.
    pub fn are_in_range(&self) -> bool {
        self.segment < MOST_SEGMENTS
            && (4..=8).contains(&self.digits)
            && (1..=2_000).contains(&self.litres_per_unit)
            && dial_shows(self.digits, self.reading)
            && self.scale_factor <= LARGEST_SCALE_FACTOR
    }
}

impl Point {
    /// A place not yet used.
    pub const UNUSED: Point = Point {
        trader: 0,
        segment: 0,
        digits: 4,
        litres_per_unit: 1,
        reading: 0,
        scale_factor: 0,
        open_sum: 0,
        period_sum: 0,
        slip: 0,
        kept_reading: 0,
    };

    pub fn admitted(particulars: Particulars) -> Point {
        let Particulars { trader, segment, digits, litres_per_unit, reading, scale_factor } =
            particulars;
        Point { trader, segment, digits, litres_per_unit, reading, scale_factor, ..Point::UNUSED }
    }

    fn particulars(&self) -> Particulars {
        let Point { trader, segment, digits, litres_per_unit, reading, scale_factor, .. } = *self;
        Particulars { trader, segment, digits, litres_per_unit, reading, scale_factor }
    }

    pub fn is_in_range(&self) -> bool {
        (self.trader as usize) < MOST_TRADERS
            && self.particulars().are_in_range()
            && dial_shows(self.digits, self.kept_reading)
            && self.open_sum <= LARGEST_OPEN_SUM
            && self.period_sum <= LARGEST_PERIOD_SUM
    }

    /// Whether another day's share and multiplier still find room.
    pub fn has_room_for_a_day(&self) -> bool {
        self.open_sum <= OPEN_SUM_BEFORE_A_DAY && self.period_sum <= PERIOD_SUM_BEFORE_A_DAY
    }

    pub fn can_show(&self, reading: u32) -> bool {
        dial_shows(self.digits, reading)
    }

    pub fn has_open_slip(&self) -> bool {
        self.slip != 0
    }

    pub fn profile_consumption(&self, day_factor: u64) -> u64 {
        self.scale_factor as u64 * day_factor / ONE
    }

    /// Litres from the reading last booked to the kept one; the dial may have rolled over once.
    pub fn consumption(&self) -> u64 {
        let rolled =
            if self.kept_reading < self.reading { POWERS[self.digits as usize] } else { 0 };
        let units = self.kept_reading as u64 + rolled as u64 - self.reading as u64;
        units * self.litres_per_unit as u64
    }

    pub fn correction(&self) -> i64 {
        self.consumption() as i64 - self.open_sum as i64
    }

    /// Ends the slip and begins a new period at the kept reading.
    pub fn book(&mut self) {
        if let Some(factor) = (self.consumption() * ONE).checked_div(self.period_sum) {
            self.scale_factor = factor.min(LARGEST_SCALE_FACTOR as u64) as u32;
        }
        self.open_sum = 0;
        self.period_sum = 0;
        self.reading = self.kept_reading;
        self.end_slip();
    }

    pub fn end_slip(&mut self) {
        self.slip = 0;
        self.kept_reading = 0;
    }
}

#[cfg(test)]
mod tests {
    use super::*;

    fn point() -> Point {
        Point {
            trader: 63,
            segment: 7,
            digits: 5,
            litres_per_unit: 1_000,
            reading: 99_990,
            scale_factor: 1_000_000,
            open_sum: 30_000,
            period_sum: 764_445,
            slip: 4,
            kept_reading: 15,
        }
    }

    #[test]
    fn the_worked_reading() {
        let mut point = point();
        assert_eq!(point.consumption(), 25_000);
        assert_eq!(point.correction(), -5_000);
        point.book();
        let booked = Point { scale_factor: 327_034, reading: 15, ..self::point() };
        assert_eq!(point, Point { open_sum: 0, period_sum: 0, slip: 0, kept_reading: 0, ..booked });
    }

    #[test]
    fn the_worked_consumptions() {
        let with = |scale_factor| Point { scale_factor, ..point() };
        assert_eq!(with(1_000_000).profile_consumption(764_445), 76_444);
        assert_eq!(with(500_000).profile_consumption(764_445), 38_222);
        assert_eq!(with(2_000_000).profile_consumption(ONE), 2_000_000);
    }

    #[test]
    fn the_same_reading_is_no_consumption() {
        let mut point = Point { reading: 15, open_sum: 0, ..point() };
        assert_eq!(point.consumption(), 0);
        point.book();
        assert_eq!(point.scale_factor, 0);
    }

    #[test]
    fn without_a_period_the_scale_factor_stays() {
        let mut point = Point { period_sum: 0, ..point() };
        point.book();
        assert_eq!((point.scale_factor, point.reading), (1_000_000, 15));
    }

    #[test]
    fn the_scale_factor_is_cut() {
        let largest = Point { digits: 8, litres_per_unit: 2_000, reading: 0, ..point() };
        let mut point = Point { kept_reading: 99_999_999, period_sum: 1, ..largest };
        assert_eq!(point.consumption(), 199_999_998_000);
        point.book();
        assert_eq!(point.scale_factor, 2_000_000);
    }

    #[test]
    fn ranges() {
        let ok = Point { digits: 4, reading: 9_999, kept_reading: 9_999, ..point() };
        let at_most = Point { open_sum: LARGEST_OPEN_SUM, period_sum: LARGEST_PERIOD_SUM, ..ok };
        assert!(Point::UNUSED.is_in_range());
        assert!(at_most.is_in_range());
        assert!(Point { digits: 8, reading: 99_999_999, slip: u32::MAX, ..ok }.is_in_range());
        for bad in [
            Point { trader: 64, ..ok },
            Point { segment: 8, ..ok },
            Point { digits: 3, reading: 0, kept_reading: 0, ..ok },
            Point { digits: 9, ..ok },
            Point { digits: u32::MAX, ..ok },
            Point { litres_per_unit: 0, ..ok },
            Point { litres_per_unit: 2_001, ..ok },
            Point { reading: 10_000, ..ok },
            Point { kept_reading: 10_000, ..ok },
            Point { scale_factor: 2_000_001, ..ok },
            Point { open_sum: LARGEST_OPEN_SUM + 1, ..ok },
            Point { period_sum: LARGEST_PERIOD_SUM + 1, ..ok },
        ] {
            assert!(!bad.is_in_range(), "{bad:?}");
        }
    }
}
