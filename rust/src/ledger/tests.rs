//! The calls one by one: what an accepted one does, each ground of a refused one, which ground is
//! met first, and that a refused call leaves ledger, points and work sheets as they were.

// A day or slip made up for a test may be let go.
#![allow(unused_must_use)]

use super::*;
use crate::point::{LARGEST_OPEN_SUM, LARGEST_PERIOD_SUM};
use crate::profiles::{Even, SeasonLayer, Table, SEASON_SHEET};
use crate::shares::{LargestRemainder, Running};
use crate::ONE;

/// A ledger with everything that is handed to it.
#[derive(Clone, PartialEq, Eq, Debug)]
struct Station {
    ledger: Ledger,
    points: Vec<Point>,
    consumptions: Vec<u64>,
    shares: Vec<u64>,
}

fn particulars() -> Particulars {
    Particulars {
        trader: 0,
        segment: 0,
        digits: 5,
        litres_per_unit: 1_000,
        reading: 99_990,
        scale_factor: 1_000_000,
    }
}

fn flat() -> Even {
    Even::new(764_445).unwrap()
}

fn no_use() -> Even {
    Even::new(0).unwrap()
}

impl Station {
    /// Two traders; point 0 is trader 0's, point 1 trader 1's; one place is left.
    fn new() -> Station {
        let mut ledger = Ledger::new(3_561);
        let mut points = vec![Point::UNUSED; 3];
        ledger.admit_trader().unwrap();
        ledger.admit_trader().unwrap();
        let second = Particulars { trader: 1, segment: 1, scale_factor: 500_000, ..particulars() };
        ledger.admit_point(&mut points, particulars()).unwrap();
        ledger.admit_point(&mut points, second).unwrap();
        Station { ledger, points, consumptions: vec![7; 4], shares: vec![8; 4] }
    }

    fn open(&mut self) -> OpenDay {
        self.ledger.open(100, 1).unwrap()
    }

    fn measure(&mut self, inflow: u64) -> MeasuredDay {
        let day = self.open();
        self.ledger.take_inflow(day, inflow, 0).unwrap()
    }

    fn share(
        &mut self,
        day: MeasuredDay,
        profile: &impl Profile,
    ) -> Result<SharedOut, Refused<MeasuredDay>> {
        let Station { ledger, points, consumptions, shares } = self;
        ledger.share_out(day, profile, &Running, points, consumptions, shares)
    }

    fn share_a_day(&mut self, inflow: u64) {
        let day = self.measure(inflow);
        self.share(day, &flat()).unwrap();
    }

    fn read(&mut self, point: u32, reading: u32) -> Slip {
        self.ledger.read(&mut self.points, point, reading).unwrap()
    }

    fn accounts(&self) -> (i64, i64) {
        (self.ledger.account(0).unwrap(), self.ledger.account(1).unwrap())
    }

    /// Does what is refused, and sees that it is refused by `why` and leaves everything.
    fn refuses<T: std::fmt::Debug>(
        &mut self,
        why: Refusal,
        call: impl FnOnce(&mut Station) -> Result<T, Refusal>,
    ) {
        let before = self.clone();
        assert_eq!(call(self).unwrap_err(), why);
        assert_eq!(*self, before);
    }

    /// The same for a call that takes a day or slip, which comes back.
    fn hands_back<T: std::fmt::Debug, U: std::fmt::Debug>(
        &mut self,
        why: Refusal,
        token: T,
        call: impl FnOnce(&mut Station, T) -> Result<U, Refused<T>>,
    ) -> T {
        let before = self.clone();
        let shown = format!("{token:?}");
        let refused = call(self, token).unwrap_err();
        assert_eq!(refused.why, why);
        assert_eq!(format!("{:?}", refused.token), shown);
        assert_eq!(*self, before);
        refused.token
    }
}

/// A day and a slip that nothing here gave out.
fn foreign_open_day(number: u32) -> OpenDay {
    OpenDay { number }
}

fn foreign_slip(number: u32, point: u32) -> Slip {
    Slip { number, point }
}

#[test]
fn a_new_ledger() {
    for first_day in [0, 36_524, 36_525, u32::MAX] {
        let ledger = Ledger::new(first_day);
        assert_eq!((ledger.next_day(), ledger.loss(), ledger.correction()), (first_day, 0, 0));
        assert_eq!((ledger.trader_count(), ledger.point_count()), (0, 0));
    }
}

#[test]
fn traders_are_numbered_as_admitted_up_to_64() {
    let mut ledger = Ledger::new(0);
    for number in 0..64 {
        assert_eq!(ledger.account(number), Err(Refusal::NoSuchTrader));
        assert_eq!(ledger.admit_trader(), Ok(number));
        assert_eq!((ledger.account(number), ledger.metered(number)), (Ok(0), Ok(0)));
    }
    let before = ledger.clone();
    assert_eq!(ledger.admit_trader(), Err(Refusal::NoPlace));
    assert_eq!(ledger, before);
}

#[test]
fn a_point_is_admitted_into_the_next_place() {
    let mut station = Station::new();
    let before = station.points.clone();
    let third = Particulars { trader: 1, digits: 4, reading: 9_999, ..particulars() };
    assert_eq!(station.ledger.admit_point(&mut station.points, third), Ok(2));
    assert_eq!(station.points[..2], before[..2]);
    let row = Point {
        trader: 1,
        segment: 0,
        digits: 4,
        litres_per_unit: 1_000,
        reading: 9_999,
        scale_factor: 1_000_000,
        open_sum: 0,
        period_sum: 0,
        slip: 0,
        kept_reading: 0,
    };
    assert_eq!(station.points[2], row);
}

#[test]
fn admitting_a_point_is_refused_in_order() {
    let mut station = Station::new();
    let nobody = Particulars { trader: 2, segment: 8, ..particulars() };
    let bad = Particulars { segment: 8, ..particulars() };
    station.points.truncate(1);
    station.refuses(Refusal::PointSheetLength, |s| s.ledger.admit_point(&mut s.points, nobody));
    station.points.resize(4_097, Point::UNUSED);
    station.refuses(Refusal::PointSheetLength, |s| s.ledger.admit_point(&mut s.points, nobody));
    station.points.truncate(2);
    station.refuses(Refusal::NoSuchTrader, |s| s.ledger.admit_point(&mut s.points, nobody));
    station.refuses(Refusal::Particulars, |s| s.ledger.admit_point(&mut s.points, bad));
    station.refuses(Refusal::NoPlace, |s| s.ledger.admit_point(&mut s.points, particulars()));
}

#[test]
fn each_particular_has_its_range() {
    let mut station = Station::new();
    let given = particulars();
    for bad in [
        Particulars { segment: 8, ..given },
        Particulars { digits: 3, reading: 0, ..given },
        Particulars { digits: 9, ..given },
        Particulars { litres_per_unit: 0, ..given },
        Particulars { litres_per_unit: 2_001, ..given },
        Particulars { reading: 100_000, ..given },
        Particulars { scale_factor: 2_000_001, ..given },
    ] {
        station.refuses(Refusal::Particulars, |s| s.ledger.admit_point(&mut s.points, bad));
    }
    station.points.resize(5, Point::UNUSED);
    let least = Particulars { digits: 4, litres_per_unit: 1, reading: 0, scale_factor: 0, ..given };
    let most = Particulars {
        segment: 7,
        digits: 8,
        litres_per_unit: 2_000,
        reading: 99_999_999,
        scale_factor: 2_000_000,
        ..given
    };
    assert_eq!(station.ledger.admit_point(&mut station.points, least), Ok(2));
    assert_eq!(station.ledger.admit_point(&mut station.points, most), Ok(3));
}

#[test]
fn a_full_sheet_has_4096_points() {
    let mut ledger = Ledger::new(0);
    ledger.admit_trader().unwrap();
    let mut points = vec![Point::UNUSED; 4_096];
    for number in 0..4_096 {
        assert_eq!(ledger.admit_point(&mut points, particulars()), Ok(number));
    }
    assert_eq!(ledger.admit_point(&mut points, particulars()), Err(Refusal::NoPlace));
    assert_eq!(ledger.point_count(), 4_096);
}

#[test]
fn open_is_refused_in_order() {
    let mut station = Station::new();
    for (temperature, season) in [(-401, 0), (501, 0), (0, 4), (i32::MAX, u32::MAX)] {
        station.refuses(Refusal::Weather, |s| s.ledger.open(temperature, season));
    }
    let day = station.open();
    station.refuses(Refusal::Weather, |s| s.ledger.open(501, 0));
    station.ledger.next_day = 36_525;
    station.refuses(Refusal::DayRunning, |s| s.ledger.open(0, 0));
    station.ledger.abandon_open(day).unwrap();
    station.refuses(Refusal::NoMoreDays, |s| s.ledger.open(0, 0));
    station.ledger.next_day = 36_524;
    let day = station.ledger.open(-400, 0).unwrap();
    let day = station.ledger.take_inflow(day, 0, 0).unwrap();
    station.refuses(Refusal::DayRunning, |s| s.ledger.open(500, 3));
    station.share(day, &flat()).unwrap();
    assert_eq!(station.ledger.next_day(), 36_525);
    station.refuses(Refusal::NoMoreDays, |s| s.ledger.open(500, 3));
}

#[test]
fn four_thousand_days_can_be_shared_and_a_million_opened() {
    let mut station = Station::new();
    station.ledger.days_shared = 3_999;
    station.share_a_day(0);
    station.refuses(Refusal::NoMoreDays, |s| s.ledger.open(0, 0));

    let mut station = Station::new();
    station.ledger.days_opened = 999_999;
    let day = station.open();
    assert_eq!(day.number(), 1_000_000);
    station.ledger.abandon_open(day).unwrap();
    station.refuses(Refusal::NoMoreDays, |s| s.ledger.open(0, 0));
}

#[test]
fn days_are_numbered_by_openings_from_1() {
    let mut station = Station::new();
    for number in 1..4 {
        let day = station.open();
        assert_eq!(day.number(), number);
        let day = station.ledger.take_inflow(day, 5, 0).unwrap();
        assert_eq!(day.number(), number);
        station.ledger.abandon_measured(day).unwrap();
        assert_eq!(station.ledger.next_day(), 3_561);
    }
}

#[test]
fn entries_are_refused_in_order() {
    let mut station = Station::new();
    let stranger = foreign_open_day(1);
    station.refuses(Refusal::NoSuchTrader, |s| s.ledger.enter(&stranger, 2, MOST_LITRES + 1));
    station.refuses(Refusal::Litres, |s| s.ledger.enter(&stranger, 0, MOST_LITRES + 1));
    station.refuses(Refusal::NotRunning, |s| s.ledger.enter(&stranger, 0, MOST_LITRES));
    let day = station.open();
    let stranger = foreign_open_day(2);
    station.ledger.enter(&day, 0, 600_000_000).unwrap();
    station.refuses(Refusal::NotRunning, |s| s.ledger.enter(&stranger, 1, 400_000_001));
    station.refuses(Refusal::TooMuchMetered, |s| s.ledger.enter(&day, 1, 400_000_001));
    station.ledger.enter(&day, 1, 300_000_000).unwrap();
    station.ledger.enter(&day, 1, 100_000_000).unwrap();
    station.ledger.enter(&day, 1, 0).unwrap();
    assert_eq!(station.ledger.metered(0), Ok(600_000_000));
    assert_eq!(station.ledger.metered(1), Ok(400_000_000));
    station.refuses(Refusal::TooMuchMetered, |s| s.ledger.enter(&day, 0, 1));
    assert_eq!(station.accounts(), (0, 0));
}

#[test]
fn a_measured_day_takes_no_entries() {
    let mut station = Station::new();
    let day = station.measure(5);
    let same_number = foreign_open_day(day.number());
    station.refuses(Refusal::NotRunning, |s| s.ledger.enter(&same_number, 0, 1));
}

#[test]
fn taking_inflow_is_refused_in_order() {
    let mut station = Station::new();
    let stranger = foreign_open_day(1);
    for (inflow, rate) in [(MOST_LITRES + 1, 0), (0, 1_000_001)] {
        station.hands_back(Refusal::Litres, foreign_open_day(1), |s, day| {
            s.ledger.take_inflow(day, inflow, rate)
        });
    }
    station.hands_back(Refusal::NotRunning, stranger, |s, day| s.ledger.take_inflow(day, 0, 0));
    let day = station.open();
    station.ledger.enter(&day, 0, 380_000).unwrap();
    let day = station
        .hands_back(Refusal::InflowTooSmall, day, |s, day| s.ledger.take_inflow(day, 379_999, 0));
    let day = station.hands_back(Refusal::InflowTooSmall, day, |s, day| {
        s.ledger.take_inflow(day, 400_000, 50_003) // loss 20,001
    });
    station.hands_back(Refusal::NotRunning, foreign_open_day(9), |s, day| {
        s.ledger.take_inflow(day, 379_999, 0)
    });
    let day = station.ledger.take_inflow(day, 400_000, 50_002).unwrap(); // loss 20,000
    let same_number = foreign_open_day(day.number());
    station.hands_back(Refusal::NotRunning, same_number, |s, day| {
        s.ledger.take_inflow(day, 400_000, 0)
    });
}

#[test]
fn all_inflow_can_be_loss() {
    let mut station = Station::new();
    let day = station.open();
    let day = station.ledger.take_inflow(day, MOST_LITRES, 1_000_000).unwrap();
    let told = station.share(day, &no_use()).unwrap();
    assert_eq!(told, SharedOut { quantity: 0, weight_sum: 0, loss: MOST_LITRES });
    assert_eq!((station.ledger.loss(), station.accounts()), (MOST_LITRES, (0, 0)));
}

/// The worked day: inflow 1,000,000 at a loss rate of 20,000, metered 380,000.
#[test]
fn the_worked_day() {
    let mut station = Station::new();
    let day = station.open();
    station.ledger.enter(&day, 0, 300_000).unwrap();
    station.ledger.enter(&day, 1, 80_000).unwrap();
    let day = station.ledger.take_inflow(day, 1_000_000, 20_000).unwrap();
    let before = station.points.clone();
    let told = station.share(day, &flat()).unwrap();
    assert_eq!(told, SharedOut { quantity: 600_000, weight_sum: 114_666, loss: 20_000 });
    assert_eq!(station.consumptions, [76_444, 38_222, 7, 7]);
    assert_eq!(station.shares, [400_000, 200_000, 8, 8]);
    assert_eq!(station.points[0], Point { open_sum: 400_000, period_sum: 764_445, ..before[0] });
    assert_eq!(station.points[1], Point { open_sum: 200_000, period_sum: 764_445, ..before[1] });
    assert_eq!(station.points[2], before[2]);
    assert_eq!(station.accounts(), (700_000, 280_000));
    assert_eq!((station.ledger.metered(0), station.ledger.metered(1)), (Ok(0), Ok(0)));
    assert_eq!((station.ledger.loss(), station.ledger.correction()), (20_000, 0));
    assert_eq!(station.ledger.next_day(), 3_562);
    assert_eq!(station.ledger.running, None);
}

#[test]
fn the_multiplier_goes_to_the_period_sum_and_the_day_factor_weighs() {
    let mut station = Station::new();
    let mut layer = SeasonLayer::new(Even::new(962_833).unwrap(), 1).unwrap();
    layer.fill(&[5_000_000; SEASON_SHEET]).unwrap();
    let day = station.measure(1_000);
    station.share(day, &layer).unwrap();
    assert_eq!(station.consumptions[..2], [96_283, 24_070]);
    assert_eq!((station.points[0].period_sum, station.points[1].period_sum), (962_833, 962_833));
}

#[test]
fn the_profile_is_asked_with_what_the_opening_took() {
    let mut station = Station::new();
    let mut sheet = vec![0; 762];
    sheet[80 + 123] = 3_000_000;
    sheet[381 + 80 + 123] = 4_000_000;
    let mut table = Table::new();
    table.fill(&sheet).unwrap();
    let mut layer = SeasonLayer::new(table, 0).unwrap();
    let mut numbers = vec![0; SEASON_SHEET];
    numbers[2 * 381 + 80 + 123] = 10_000_000;
    layer.fill(&numbers).unwrap();
    let day = station.ledger.open(123, 2).unwrap();
    let day = station.ledger.take_inflow(day, 10, 0).unwrap();
    station.share(day, &layer).unwrap();
    assert_eq!(station.consumptions[..2], [300_000, 200_000]);
}

#[test]
fn a_day_without_points() {
    let mut ledger = Ledger::new(0);
    let day = ledger.open(0, 0).unwrap();
    let day = ledger.take_inflow(day, 10, 0).unwrap();
    let share = |ledger: &mut Ledger, day| {
        ledger.share_out(day, &flat(), &LargestRemainder, &mut [], &mut [], &mut [])
    };
    let refused = share(&mut ledger, day).unwrap_err();
    assert_eq!(refused.why, Refusal::NoWeight);
    ledger.abandon_measured(refused.token).unwrap();
    let day = ledger.open(0, 0).unwrap();
    let day = ledger.take_inflow(day, 10, 1_000_000).unwrap();
    let told = share(&mut ledger, day).unwrap();
    assert_eq!(told, SharedOut { quantity: 0, weight_sum: 0, loss: 10 });
}

/// Everything that a share-out can be refused for, put right one ground after the other.
#[test]
fn a_share_out_is_refused_in_order() {
    let mut station = Station::new();
    let table = Table::new();
    let day = MeasuredDay { number: 9 };
    station.points[0].segment = 2;
    station.points[0].slip = 5;
    station.points[1].trader = 2;
    station.points.truncate(1);
    station.consumptions.truncate(1);
    let share = |s: &mut Station, day| s.share(day, &table);
    let day = station.hands_back(Refusal::PointSheetLength, day, share);
    station.points.push(Point { trader: 2, ..Point::UNUSED });
    let day = station.hands_back(Refusal::WorkSheetLength, day, share);
    station.consumptions.push(7);
    station.shares.truncate(1);
    let day = station.hands_back(Refusal::WorkSheetLength, day, share);
    station.shares.push(8);
    let day = station.hands_back(Refusal::ForeignSheet, day, share);
    station.points[1].trader = 1;
    let _ = station.hands_back(Refusal::NotRunning, day, share);
    let day = station.measure(1_000);
    let day = station.hands_back(Refusal::SlipOpenAtShareOut, day, share);
    station.points[0].slip = 0;
    let day = station.hands_back(Refusal::SegmentNotServed, day, share);
    station.points[0].segment = 0;

    let before = station.clone();
    let refused = station.share(day, &table).unwrap_err();
    assert_eq!((refused.why, refused.token.number()), (Refusal::NoWeight, 1));
    assert_eq!(station, Station { consumptions: vec![0, 0], ..before });
    station.share(refused.token, &flat()).unwrap();
}

#[test]
fn without_use_only_a_day_with_nothing_to_share_passes() {
    let mut station = Station::new();
    let day = station.measure(1);
    let refused = station.share(day, &no_use()).unwrap_err();
    assert_eq!(refused.why, Refusal::NoWeight);
    assert_eq!((&station.consumptions, &station.shares), (&vec![0, 0, 7, 7], &vec![8; 4]));
    station.ledger.abandon_measured(refused.token).unwrap();
    let day = station.measure(0);
    station.share(day, &no_use()).unwrap();
    assert_eq!(station.shares, [0, 0, 8, 8]);
    assert_eq!(station.ledger.next_day(), 3_562);
}

#[test]
fn a_sheet_of_4097_places_is_refused_and_one_of_4096_is_not() {
    let mut station = Station::new();
    let day = station.measure(5);
    station.points.resize(4_097, Point::UNUSED);
    let day = station.hands_back(Refusal::PointSheetLength, day, |s, day| s.share(day, &flat()));
    station.points.truncate(4_096);
    station.share(day, &flat()).unwrap();
}

#[test]
fn the_sheets_later_places_may_hold_anything() {
    let mut station = Station::new();
    let nonsense = Point { trader: 99, digits: 0, slip: 1, ..Point::UNUSED };
    station.points[2] = nonsense;
    station.share_a_day(900);
    assert_eq!(station.points[2], nonsense);
    assert_eq!(station.ledger.open_quantity(&station.points, 0), Ok(600));
}

#[test]
fn each_row_to_be_shared_must_be_in_its_ranges_with_room_for_a_day() {
    let mut station = Station::new();
    let mut day = station.measure(1_000_000_000);
    let own = station.points[1];
    for bad in [
        Point { trader: 2, ..own },
        Point { segment: 8, ..own },
        Point { digits: 3, ..own },
        Point { litres_per_unit: 0, ..own },
        Point { reading: 100_000, ..own },
        Point { kept_reading: 100_000, ..own },
        Point { scale_factor: 2_000_001, ..own },
        Point { open_sum: 4_500_000_000_001, ..own },
        Point { period_sum: 39_990_000_001, ..own },
    ] {
        station.points[1] = bad;
        day = station.hands_back(Refusal::ForeignSheet, day, |s, day| s.share(day, &flat()));
    }
    let most = Point { open_sum: 4_500_000_000_000, period_sum: 39_990_000_000, ..own };
    station.points[1] = most;
    station.share(day, &Even::new(ONE).unwrap()).unwrap();
    assert_eq!(station.points[1].period_sum, LARGEST_PERIOD_SUM);
    assert!(station.points[1].is_in_range());
}

#[test]
fn a_day_is_known_by_number_and_phase() {
    let mut station = Station::new();
    let day = station.open();
    let early = MeasuredDay { number: day.number() };
    let early = station.hands_back(Refusal::NotRunning, early, |s, day| s.share(day, &flat()));
    station.hands_back(Refusal::NotRunning, early, |s, day| s.ledger.abandon_measured(day));
    let day = station.ledger.take_inflow(day, 10, 0).unwrap();
    let late = foreign_open_day(day.number());
    station.hands_back(Refusal::NotRunning, late, |s, day| s.ledger.abandon_open(day));
    let other = MeasuredDay { number: day.number() + 1 };
    station.hands_back(Refusal::NotRunning, other, |s, day| s.share(day, &flat()));
    // Another ledger's day with the same number and phase cannot be told apart.
    let mut other = Station::new();
    let twin = other.measure(3);
    assert_eq!(station.share(twin, &flat()).unwrap().quantity, 10);
    station.hands_back(Refusal::NotRunning, day, |s, day| s.share(day, &flat()));
}

#[test]
fn a_day_of_an_earlier_opening_is_over() {
    let mut station = Station::new();
    let day = station.measure(10);
    station.ledger.abandon_measured(day).unwrap();
    let second = station.open();
    let first = foreign_open_day(1);
    station.refuses(Refusal::NotRunning, |s| s.ledger.enter(&first, 0, 1));
    let first =
        station.hands_back(Refusal::NotRunning, first, |s, day| s.ledger.take_inflow(day, 10, 0));
    station.hands_back(Refusal::NotRunning, first, |s, day| s.ledger.abandon_open(day));
    let second = station.ledger.take_inflow(second, 10, 0).unwrap();
    let first = MeasuredDay { number: 1 };
    let first = station.hands_back(Refusal::NotRunning, first, |s, day| s.share(day, &flat()));
    station.hands_back(Refusal::NotRunning, first, |s, day| s.ledger.abandon_measured(day));
    station.share(second, &flat()).unwrap();
}

#[test]
fn abandoning_ends_a_day_of_either_phase() {
    let mut station = Station::new();
    let before = station.clone();
    let day = station.open();
    station.ledger.enter(&day, 0, 5).unwrap();
    station.ledger.abandon_open(day).unwrap();
    let mut after = before.clone();
    after.ledger.days_opened = 1;
    assert_eq!(station, after);
    let day = station.open();
    station.ledger.enter(&day, 1, 5).unwrap();
    let day = station.ledger.take_inflow(day, 9, 0).unwrap();
    station.ledger.abandon_measured(day).unwrap();
    after.ledger.days_opened = 2;
    assert_eq!(station, after);
    station
        .hands_back(Refusal::NotRunning, foreign_open_day(2), |s, day| s.ledger.abandon_open(day));
    station.hands_back(Refusal::NotRunning, MeasuredDay { number: 2 }, |s, day| {
        s.ledger.abandon_measured(day)
    });
}

#[test]
fn a_reading_is_kept_with_its_slips_number() {
    let mut station = Station::new();
    let before = station.clone();
    let slip = station.read(1, 15);
    assert_eq!((slip.number(), slip.point()), (1, 1));
    let mut after = before;
    after.ledger.readings = 1;
    after.points[1] = Point { slip: 1, kept_reading: 15, ..after.points[1] };
    assert_eq!(station, after);
    assert_eq!(station.read(0, 99_999).number(), 2);
}

#[test]
fn reading_is_refused_in_order() {
    let mut station = Station::new();
    station.ledger.readings = MOST_READINGS;
    station.points[0] = Point { slip: 3, litres_per_unit: 0, ..station.points[0] };
    let full = station.points.clone();
    station.points.truncate(1);
    station.refuses(Refusal::PointSheetLength, |s| s.ledger.read(&mut s.points, 2, 100_000));
    station.points = full;
    station.refuses(Refusal::NoSuchPoint, |s| s.ledger.read(&mut s.points, 2, 100_000));
    station.refuses(Refusal::ForeignSheet, |s| s.ledger.read(&mut s.points, 0, 100_000));
    station.points[0].litres_per_unit = 1;
    station.refuses(Refusal::Particulars, |s| s.ledger.read(&mut s.points, 0, 100_000));
    station.refuses(Refusal::SlipOpen, |s| s.ledger.read(&mut s.points, 0, 99_999));
    station.points[0].slip = 0;
    station.refuses(Refusal::NoMoreReadings, |s| s.ledger.read(&mut s.points, 0, 99_999));
    station.ledger.readings = MOST_READINGS - 1;
    assert_eq!(station.read(0, 99_999).number(), MOST_READINGS);
}

#[test]
fn a_row_without_an_admitted_trader_can_be_read_but_not_booked() {
    let mut station = Station::new();
    station.points[0].trader = 2;
    let slip = station.read(0, 15);
    let slip = station
        .hands_back(Refusal::ForeignSheet, slip, |s, slip| s.ledger.book(&mut s.points, slip));
    let slip = station.hands_back(Refusal::ForeignSheet, slip, |s, slip| {
        s.ledger.hand_over(&mut s.points, slip, 1)
    });
    station.ledger.withdraw(&mut station.points, slip).unwrap();
}

#[test]
fn booking_the_worked_reading() {
    let mut station = Station::new();
    let row = Point { open_sum: 30_000, period_sum: 764_445, ..station.points[0] };
    station.points[0] = row;
    let slip = station.read(0, 15);
    assert_eq!(station.ledger.book(&mut station.points, slip).unwrap(), -5_000);
    let booked = Point { reading: 15, scale_factor: 327_034, open_sum: 0, period_sum: 0, ..row };
    assert_eq!(station.points[0], booked);
    assert_eq!(station.accounts(), (-5_000, 0));
    assert_eq!(station.ledger.correction(), 5_000);
}

#[test]
fn a_hand_over_books_to_the_old_trader_first() {
    let mut station = Station::new();
    station.points[0].open_sum = 30_000;
    let row = station.points[0];
    let slip = station.read(0, 15);
    assert_eq!(station.ledger.hand_over(&mut station.points, slip, 1).unwrap(), -5_000);
    assert_eq!(station.points[0], Point { trader: 1, reading: 15, open_sum: 0, ..row });
    assert_eq!(station.accounts(), (-5_000, 0));
    assert_eq!(station.ledger.correction(), 5_000);
}

#[test]
fn withdrawing_only_ends_the_slip() {
    let mut station = Station::new();
    let mut before = station.clone();
    let slip = station.read(0, 15);
    station.ledger.withdraw(&mut station.points, slip).unwrap();
    before.ledger.readings = 1;
    assert_eq!(station, before);
    assert_eq!(station.read(0, 16).number(), 2);
}

#[test]
fn booking_is_refused_in_order() {
    let mut station = Station::new();
    let slip = station.read(0, 15);
    let own = station.clone();
    let book = |s: &mut Station, slip| s.ledger.book(&mut s.points, slip);
    station.points.truncate(1);
    let wrong = foreign_slip(1, 2);
    let wrong = station.hands_back(Refusal::PointSheetLength, wrong, book);
    station = own.clone();
    station.hands_back(Refusal::NoSuchPoint, wrong, book);
    station.points[0].digits = 9;
    let wrong = station.hands_back(Refusal::ForeignSheet, foreign_slip(2, 0), book);
    station = own.clone();
    station.hands_back(Refusal::NotOpenSlip, wrong, book);
    station.hands_back(Refusal::NotOpenSlip, foreign_slip(1, 1), book);
    station.ledger.book(&mut station.points, slip).unwrap();
    // The same number and point a second time: the slip has ended.
    station.hands_back(Refusal::NotOpenSlip, foreign_slip(1, 0), book);
}

#[test]
fn there_are_no_more_bookings_than_readings() {
    let mut station = Station::new();
    let slip = station.read(0, 15);
    let before = station.points.clone();
    station.ledger.book(&mut station.points, slip).unwrap();
    station.points = before; // an old copy of the sheet still has the slip
    let twin = foreign_slip(1, 0);
    let twin = station
        .hands_back(Refusal::NotOpenSlip, twin, |s, slip| s.ledger.book(&mut s.points, slip));
    let twin = station.hands_back(Refusal::NotOpenSlip, twin, |s, slip| {
        s.ledger.hand_over(&mut s.points, slip, 0) // before 29
    });
    station.ledger.withdraw(&mut station.points, twin).unwrap();
}

#[test]
fn handing_over_is_refused_in_order() {
    let mut station = Station::new();
    let slip = station.read(0, 15);
    let own = station.clone();
    let to = |to| move |s: &mut Station, slip| s.ledger.hand_over(&mut s.points, slip, to);
    station.points.truncate(1);
    let wrong = station.hands_back(Refusal::PointSheetLength, foreign_slip(2, 2), to(2));
    station = own.clone();
    let wrong = station.hands_back(Refusal::NoSuchTrader, wrong, to(2));
    station.hands_back(Refusal::NoSuchPoint, wrong, to(0));
    station.points[0].scale_factor = 2_000_001;
    let wrong = station.hands_back(Refusal::ForeignSheet, foreign_slip(2, 0), to(0));
    station = own.clone();
    station.hands_back(Refusal::NotOpenSlip, wrong, to(0));
    let slip = station.hands_back(Refusal::SameTrader, slip, to(0));
    station.ledger.hand_over(&mut station.points, slip, 1).unwrap();
}

#[test]
fn withdrawing_is_refused_in_order() {
    let mut station = Station::new();
    let slip = station.read(0, 15);
    let own = station.clone();
    let withdraw = |s: &mut Station, slip| s.ledger.withdraw(&mut s.points, slip);
    station.points.truncate(1);
    let wrong = station.hands_back(Refusal::PointSheetLength, foreign_slip(2, 2), withdraw);
    station = own.clone();
    station.hands_back(Refusal::NoSuchPoint, wrong, withdraw);
    station.hands_back(Refusal::NotOpenSlip, foreign_slip(2, 0), withdraw);
    station.hands_back(Refusal::NotOpenSlip, foreign_slip(1, 1), withdraw);
    // A row out of range does not keep a slip from being withdrawn.
    station.points[0].digits = 9;
    station.ledger.withdraw(&mut station.points, slip).unwrap();
}

#[test]
fn open_quantity_sums_a_traders_points() {
    let mut station = Station::new();
    station.ledger.admit_point(&mut station.points, particulars()).unwrap();
    for (row, open_sum) in station.points.iter_mut().zip([10, 200, 3_000]) {
        row.open_sum = open_sum;
    }
    assert_eq!(station.ledger.open_quantity(&station.points, 0), Ok(3_010));
    assert_eq!(station.ledger.open_quantity(&station.points, 1), Ok(200));
    station.points[0].open_sum = LARGEST_OPEN_SUM;
    assert_eq!(station.ledger.open_quantity(&station.points, 0), Ok(LARGEST_OPEN_SUM + 3_000));
}

#[test]
fn open_quantity_is_refused_in_order() {
    let mut station = Station::new();
    station.points[0].digits = 3;
    let full = station.points.clone();
    station.points.truncate(1);
    station.refuses(Refusal::PointSheetLength, |s| s.ledger.open_quantity(&s.points, 2));
    station.points = full;
    station.refuses(Refusal::NoSuchTrader, |s| s.ledger.open_quantity(&s.points, 2));
    station.refuses(Refusal::ForeignSheet, |s| s.ledger.open_quantity(&s.points, 0));
    // Only his own points are looked at.
    assert_eq!(station.ledger.open_quantity(&station.points, 1), Ok(0));
}

/// Over a long mixed run every litre of inflow is found again in the accounts.
#[test]
fn inflows_balance_to_the_litre() {
    let mut station = Station::new();
    let mut inflows = 0;
    for round in 0..500_u64 {
        let day = station.ledger.open((round * 37 % 900) as i32 - 400, (round % 4) as u32).unwrap();
        station.ledger.enter(&day, (round % 2) as u32, round * 1_009).unwrap();
        let inflow = 1_000_000 + round * 7_919;
        let day = station.ledger.take_inflow(day, inflow, round * 31).unwrap();
        if round % 7 == 3 {
            station.ledger.abandon_measured(day).unwrap();
        } else {
            station.share(day, &flat()).unwrap();
            inflows += inflow as i64;
        }
        if round % 5 == 0 {
            let point = (round % 2) as u32;
            let slip = station.read(point, (round * 613 % 100_000) as u32);
            let to = 1 - station.points[point as usize].trader;
            let points = &mut station.points;
            if round % 3 == 0 {
                station.ledger.hand_over(points, slip, to).unwrap();
            } else {
                station.ledger.book(points, slip).unwrap();
            }
        }
        let (first, second) = station.accounts();
        let ledger = &station.ledger;
        assert_eq!(ledger.loss() as i64 + first + second + ledger.correction(), inflows);
    }
}
