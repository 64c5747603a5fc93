//! Day numbers, dates, and the daily part of a flat-rate customer's month.

use crate::{Refusal, MOST_LITRES};

/// Day 0 is 1 January 2000, this is 31 December 2099.
pub const LAST_DAY: u32 = 36_524;
const FIRST_YEAR: u32 = 2000;
const LAST_YEAR: u32 = 2099;

#[derive(Clone, Copy, PartialEq, Eq, Debug)]
pub struct Date {
    pub year: u32,
    pub month: u32,
    pub day: u32,
}

/// Month lengths and the days before each month, for one kind of year.
struct YearTable {
    lengths: [u32; 12],
    before: [u32; 12],
}

const COMMON: YearTable = YearTable {
    lengths: [31, 28, 31, 30, 31, 30, 31, 31, 30, 31, 30, 31],
    before: [0, 31, 59, 90, 120, 151, 181, 212, 243, 273, 304, 334],
};
const LEAP: YearTable = YearTable {
    lengths: [31, 29, 31, 30, 31, 30, 31, 31, 30, 31, 30, 31],
    before: [0, 31, 60, 91, 121, 152, 182, 213, 244, 274, 305, 335],
};

/// Every fourth year from 2000 to 2099 is a leap year, 2000 among them.
fn table(year: u32) -> &'static YearTable {
    if year.is_multiple_of(4) {
        &LEAP
    } else {
        &COMMON
    }
}

fn days_before_year(year: u32) -> u32 {
    let years = year - FIRST_YEAR;
    365 * years + years.div_ceil(4)
}

/// The date of a day number.
pub fn date(day: u32) -> Result<Date, Refusal> {
    if day > LAST_DAY {
        return Err(Refusal::NoSuchDay);
    }
    let year = (FIRST_YEAR..=LAST_YEAR)
        .rev()
        .find(|&year| days_before_year(year) <= day)
        .unwrap_or(FIRST_YEAR);
    let of_year = day - days_before_year(year);
    let before = &table(year).before;
    let month = before.iter().filter(|&&days| days <= of_year).count();
    Ok(Date { year, month: month as u32, day: of_year - before[month - 1] + 1 })
}

/// The length of the date's month, where there is such a date.
fn month_length(date: Date) -> Result<u32, Refusal> {
    let Date { year, month, day } = date;
    if !(FIRST_YEAR..=LAST_YEAR).contains(&year) || !(1..=12).contains(&month) {
        return Err(Refusal::NoSuchDay);
    }
    let length = table(year).lengths[month as usize - 1];
    if (1..=length).contains(&day) {
        Ok(length)
    } else {
        Err(Refusal::NoSuchDay)
    }
}

/// The day number of a date.
pub fn day_number(date: Date) -> Result<u32, Refusal> {
    month_length(date)?;
    let before_month = table(date.year).before[date.month as usize - 1];
    Ok(days_before_year(date.year) + before_month + date.day - 1)
}

/// What a flat-rate customer with `quantity` litres a month uses on this date.
pub fn flat_rate(quantity: u64, date: Date) -> Result<u64, Refusal> {
    if quantity > MOST_LITRES {
        return Err(Refusal::Litres);
    }
    let length = month_length(date)? as u64;
    let until = |day: u64| quantity * day / length;
    Ok(until(date.day as u64) - until(date.day as u64 - 1))
}

#[cfg(test)]
mod tests {
    use super::*;

    fn on(year: u32, month: u32, day: u32) -> Date {
        Date { year, month, day }
    }

    #[test]
    fn days_before_each_month_are_the_lengths_added_up() {
        for table in [&COMMON, &LEAP] {
            let mut sum = 0;
            for (length, before) in table.lengths.iter().zip(table.before) {
                assert_eq!(before, sum);
                sum += length;
            }
        }
        assert_eq!(COMMON.lengths.iter().sum::<u32>(), 365);
        assert_eq!(LEAP.lengths.iter().sum::<u32>(), 366);
    }

    #[test]
    fn known_days() {
        assert_eq!(date(0), Ok(on(2000, 1, 1)));
        assert_eq!(date(59), Ok(on(2000, 2, 29)));
        assert_eq!(date(366), Ok(on(2001, 1, 1)));
        assert_eq!(day_number(on(2009, 10, 1)), Ok(3_561));
        assert_eq!(date(36_524), Ok(on(2099, 12, 31)));
    }

    #[test]
    fn every_day_follows_the_day_before_and_comes_back() {
        let mut expected = on(2000, 1, 1);
        for day in 0..=LAST_DAY {
            assert_eq!(date(day), Ok(expected));
            assert_eq!(day_number(expected), Ok(day));
            expected.day += 1;
            if day_number(expected).is_err() {
                expected = on(expected.year, expected.month + 1, 1);
            }
            if expected.month == 13 {
                expected = on(expected.year + 1, 1, 1);
            }
        }
        assert_eq!(expected, on(2100, 1, 1));
    }

    #[test]
    fn what_is_no_day() {
        for bad in [
            on(1999, 12, 31),
            on(2100, 1, 1),
            on(2001, 0, 1),
            on(2001, 13, 1),
            on(2001, 1, 0),
            on(2001, 2, 29),
            on(2000, 2, 30),
            on(2001, 4, 31),
            on(u32::MAX, u32::MAX, u32::MAX),
        ] {
            assert_eq!(day_number(bad), Err(Refusal::NoSuchDay), "{bad:?}");
            assert_eq!(flat_rate(1, bad), Err(Refusal::NoSuchDay), "{bad:?}");
        }
        assert_eq!(date(LAST_DAY + 1), Err(Refusal::NoSuchDay));
        assert_eq!(date(u32::MAX), Err(Refusal::NoSuchDay));
    }

    #[test]
    fn flat_rate_days_make_up_the_month() {
        for (year, month, length) in [(2001, 2, 28), (2004, 2, 29), (2009, 10, 31), (2009, 9, 30)] {
            for quantity in [0, 1, 100, 999_999_999, MOST_LITRES] {
                let days =
                    (1..=length).map(|day| flat_rate(quantity, on(year, month, day)).unwrap());
                assert_eq!(days.sum::<u64>(), quantity);
            }
        }
        assert_eq!(flat_rate(100, on(2009, 10, 1)), Ok(3));
        assert_eq!(flat_rate(100, on(2009, 10, 5)), Ok(4));
    }

    #[test]
    fn too_many_litres_are_met_before_a_bad_date() {
        assert_eq!(flat_rate(MOST_LITRES + 1, on(2001, 2, 29)), Err(Refusal::Litres));
        assert_eq!(flat_rate(MOST_LITRES + 1, on(2001, 2, 28)), Err(Refusal::Litres));
    }
}
