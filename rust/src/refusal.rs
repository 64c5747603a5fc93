//! Why a call is refused.

use std::fmt;

/// The grounds, in the order in which they are met; `number` tells the number of each.
#[derive(Clone, Copy, PartialEq, Eq, PartialOrd, Ord, Debug)]
pub enum Refusal {
    PointSheetLength = 1,
    WorkSheetLength = 2,
    NoSuchTrader = 3,
    NoSuchPoint = 4,
    Weather = 5,
    Litres = 6,
    Particulars = 7,
    ProfileSheet = 8,
    NoSuchDay = 9,
    Energy = 10,
    ForeignSheet = 11,
    NotRunning = 20,
    NotOpenSlip = 21,
    DayRunning = 22,
    NoMoreDays = 23,
    TooMuchMetered = 24,
    InflowTooSmall = 25,
    NoPlace = 26,
    SlipOpen = 27,
    NoMoreReadings = 28,
    SameTrader = 29,
    SlipOpenAtShareOut = 30,
    SegmentNotServed = 31,
    NoWeight = 32,
}

impl Refusal {
    pub fn number(self) -> u8 {
        self as u8
    }
}

impl fmt::Display for Refusal {
    fn fmt(&self, f: &mut fmt::Formatter) -> fmt::Result {
        f.write_str(match self {
            Refusal::PointSheetLength => {
                "the point sheet is shorter than the points admitted, or has more than 4096 places"
            }
            Refusal::WorkSheetLength => "a work sheet is shorter than the points admitted",
            Refusal::NoSuchTrader => "no such trader",
            Refusal::NoSuchPoint => "no such point",
            Refusal::Weather => {
                "the temperature is outside -400 to 500 tenths, or the season outside 0 to 3"
            }
            Refusal::Litres => {
                "more than 1000000000 litres, or a loss rate above 1000000 millionths"
            }
            Refusal::Particulars => "a point's particulars, a segment or a reading out of range",
            Refusal::ProfileSheet => {
                "a profile sheet of the wrong length, or a value in it too large"
            }
            Refusal::NoSuchDay => "no such day",
            Refusal::Energy => "an energy above 1000000000000 MJ, or a rate above 1000000",
            Refusal::ForeignSheet => {
                "the point sheet is another ledger's: a point in it is out of its ranges"
            }
            Refusal::NotRunning => "not this ledger's running day in that phase",
            Refusal::NotOpenSlip => {
                "not its point's open slip, or as many bookings as readings already"
            }
            Refusal::DayRunning => "a day is running",
            Refusal::NoMoreDays => {
                "no more days: 4000 shared out, 1000000 opened, or past 31 December 2099"
            }
            Refusal::TooMuchMetered => {
                "all traders' metered litres of the day would pass 1000000000"
            }
            Refusal::InflowTooSmall => "loss and metered litres exceed the inflow",
            Refusal::NoPlace => "no place for another trader or point",
            Refusal::SlipOpen => "a slip of this point is open",
            Refusal::NoMoreReadings => "no more readings: 1000000 were made",
            Refusal::SameTrader => "the point is that trader's already",
            Refusal::SlipOpenAtShareOut => "a point to be shared out has an open slip",
            Refusal::SegmentNotServed => "the profile does not serve a point's segment",
            Refusal::NoWeight => "litres to share, and no point with any profile consumption",
        })
    }
}

/// A refusal that hands back the day or slip the call was given.
#[derive(PartialEq, Eq, Debug)]
#[must_use]
pub struct Refused<T> {
    pub why: Refusal,
    pub token: T,
}
