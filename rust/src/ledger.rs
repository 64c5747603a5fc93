//! The ledger of one transfer station: traders, gas days and readings.
//!
//! Each call tests its grounds for a refusal in the order in which they are listed with it, and
//! changes nothing before the last of them has passed.

use crate::calendar::LAST_DAY;
use crate::point::{Particulars, Point};
use crate::profiles::{is_weather, Factors, Profile, MOST_SEGMENTS};
use crate::shares::ShareRule;
use crate::{Refusal, Refused, MOST_LITRES};

pub const MOST_TRADERS: usize = 64;
pub const MOST_POINTS: usize = 4_096;
pub const MOST_DAYS_SHARED: u32 = 4_000;
pub const MOST_DAYS_OPENED: u32 = 1_000_000;
pub const MOST_READINGS: u32 = 1_000_000;
/// A loss rate of one, in millionths.
pub const WHOLE_RATE: u64 = 1_000_000;

/// A day that takes metered entries. It is only its number; the ledger keeps the rest.
#[derive(PartialEq, Eq, Debug)]
#[must_use]
pub struct OpenDay {
    number: u32,
}

/// A day whose inflow was taken.
#[derive(PartialEq, Eq, Debug)]
#[must_use]
pub struct MeasuredDay {
    number: u32,
}

/// A reading that is to be booked, handed over or withdrawn.
#[derive(PartialEq, Eq, Debug)]
#[must_use]
pub struct Slip {
    number: u32,
    point: u32,
}

impl OpenDay {
    pub fn number(&self) -> u32 {
        self.number
    }
}

impl MeasuredDay {
    pub fn number(&self) -> u32 {
        self.number
    }
}

impl Slip {
    pub fn number(&self) -> u32 {
        self.number
    }
    pub fn point(&self) -> u32 {
        self.point
    }
}

#[derive(Clone, Copy, PartialEq, Eq, Default, Debug)]
struct Trader {
    account: i64,
    metered: u64,
}

/// What an inflow comes to.
#[derive(Clone, Copy, PartialEq, Eq, Debug)]
struct Figures {
    loss: u64,
    to_share: u64,
}

#[derive(Clone, Copy, PartialEq, Eq, Debug)]
enum Phase {
    Open,
    Measured(Figures),
}

#[derive(Clone, Copy, PartialEq, Eq, Debug)]
struct Day {
    number: u32,
    temperature: i32,
    season: u32,
    phase: Phase,
}

/// What a share-out tells: the quantity shared (A), the sum of the weights (S), and the loss.
#[derive(Clone, Copy, PartialEq, Eq, Debug)]
pub struct SharedOut {
    pub quantity: u64,
    pub weight_sum: u64,
    pub loss: u64,
}

#[derive(Clone, PartialEq, Eq, Debug)]
pub struct Ledger {
    traders: [Trader; MOST_TRADERS],
    trader_count: usize,
    point_count: usize,
    loss: u64,
    correction: i64,
    next_day: u32,
    running: Option<Day>,
    days_opened: u32,
    days_shared: u32,
    readings: u32,
    bookings: u32,
}

/// Says `why` where the ground holds.
fn refuse(ground: bool, why: Refusal) -> Result<(), Refusal> {
    if ground {
        Err(why)
    } else {
        Ok(())
    }
}

impl Ledger {
    pub fn new(first_day: u32) -> Ledger {
        Ledger {
            traders: [Trader::default(); MOST_TRADERS],
            trader_count: 0,
            point_count: 0,
            loss: 0,
            correction: 0,
            next_day: first_day,
            running: None,
            days_opened: 0,
            days_shared: 0,
            readings: 0,
            bookings: 0,
        }
    }

    pub fn trader_count(&self) -> u32 {
        self.trader_count as u32
    }

    pub fn point_count(&self) -> u32 {
        self.point_count as u32
    }

    pub fn next_day(&self) -> u32 {
        self.next_day
    }

    pub fn loss(&self) -> u64 {
        self.loss
    }

    /// The distributor's correction account.
    pub fn correction(&self) -> i64 {
        self.correction
    }

    pub fn account(&self, trader: u32) -> Result<i64, Refusal> {
        self.allow_trader(trader)?;
        Ok(self.traders[trader as usize].account)
    }

    /// Today's metered litres of a trader.
    pub fn metered(&self, trader: u32) -> Result<u64, Refusal> {
        self.allow_trader(trader)?;
        Ok(self.traders[trader as usize].metered)
    }

    fn allow_sheet(&self, points: &[Point]) -> Result<(), Refusal> {
        let bad = points.len() < self.point_count || points.len() > MOST_POINTS;
        refuse(bad, Refusal::PointSheetLength)
    }

    fn allow_trader(&self, trader: u32) -> Result<(), Refusal> {
        refuse(!self.has_trader(trader), Refusal::NoSuchTrader)
    }

    fn has_trader(&self, trader: u32) -> bool {
        (trader as usize) < self.trader_count
    }

    fn allow_point(&self, point: u32) -> Result<(), Refusal> {
        refuse(point as usize >= self.point_count, Refusal::NoSuchPoint)
    }

    fn metered_of_all(&self) -> u64 {
        self.traders.iter().map(|trader| trader.metered).sum()
    }

    /// Gives the trader's number. Refuses by 26.
    pub fn admit_trader(&mut self) -> Result<u32, Refusal> {
        refuse(self.trader_count == MOST_TRADERS, Refusal::NoPlace)?;
        self.trader_count += 1;
        Ok(self.trader_count as u32 - 1)
    }

    /// Gives the point's number, its place in the sheet. Refuses by 1, 3, 7, 26.
    pub fn admit_point(
        &mut self,
        points: &mut [Point],
        particulars: Particulars,
    ) -> Result<u32, Refusal> {
        self.allow_sheet(points)?;
        self.allow_trader(particulars.trader)?;
        refuse(!particulars.are_in_range(), Refusal::Particulars)?;
        let place = points.get_mut(self.point_count).ok_or(Refusal::NoPlace)?;
        *place = Point::admitted(particulars);
        self.point_count += 1;
        Ok(self.point_count as u32 - 1)
    }

    /// Refuses by 5, 22, 23.
    pub fn open(&mut self, temperature: i32, season: u32) -> Result<OpenDay, Refusal> {
        refuse(!is_weather(temperature, season), Refusal::Weather)?;
        refuse(self.running.is_some(), Refusal::DayRunning)?;
        let no_more = self.days_shared >= MOST_DAYS_SHARED
            || self.days_opened >= MOST_DAYS_OPENED
            || self.next_day > LAST_DAY;
        refuse(no_more, Refusal::NoMoreDays)?;
        self.days_opened += 1;
        let number = self.days_opened;
        self.running = Some(Day { number, temperature, season, phase: Phase::Open });
        Ok(OpenDay { number })
    }

    /// Whether the open day with this number is running here.
    fn is_open(&self, number: u32) -> bool {
        self.running.is_some_and(|day| day.number == number && day.phase == Phase::Open)
    }

    /// The running day with this number and its figures, once measured.
    fn measured(&self, number: u32) -> Result<(Day, Figures), Refusal> {
        match self.running {
            Some(day @ Day { phase: Phase::Measured(figures), .. }) if day.number == number => {
                Ok((day, figures))
            }
            _ => Err(Refusal::NotRunning),
        }
    }

    /// Refuses by 3, 6, 20, 24.
    pub fn enter(&mut self, day: &OpenDay, trader: u32, litres: u64) -> Result<(), Refusal> {
        self.allow_trader(trader)?;
        refuse(litres > MOST_LITRES, Refusal::Litres)?;
        refuse(!self.is_open(day.number), Refusal::NotRunning)?;
        refuse(self.metered_of_all() + litres > MOST_LITRES, Refusal::TooMuchMetered)?;
        self.traders[trader as usize].metered += litres;
        Ok(())
    }

    /// Refuses by 6, 20, 25.
    pub fn take_inflow(
        &mut self,
        day: OpenDay,
        inflow: u64,
        loss_rate: u64,
    ) -> Result<MeasuredDay, Refused<OpenDay>> {
        match self.figures_of(&day, inflow, loss_rate) {
            Err(why) => Err(Refused { why, token: day }),
            Ok(figures) => {
                if let Some(running) = &mut self.running {
                    running.phase = Phase::Measured(figures);
                }
                Ok(MeasuredDay { number: day.number })
            }
        }
    }

    fn figures_of(&self, day: &OpenDay, inflow: u64, loss_rate: u64) -> Result<Figures, Refusal> {
        refuse(inflow > MOST_LITRES || loss_rate > WHOLE_RATE, Refusal::Litres)?;
        refuse(!self.is_open(day.number), Refusal::NotRunning)?;
        let loss = inflow * loss_rate / WHOLE_RATE;
        let left = inflow.checked_sub(loss + self.metered_of_all());
        left.map(|to_share| Figures { loss, to_share }).ok_or(Refusal::InflowTooSmall)
    }

    /// Writes the points' profile consumptions and shares into the first places of the work
    /// sheets and books the day. Refuses by 1, 2, 11, 20, 30, 31, 32; after 32 the first places of
    /// `consumptions` hold 0.
    pub fn share_out(
        &mut self,
        day: MeasuredDay,
        profile: &(impl Profile + ?Sized),
        rule: &(impl ShareRule + ?Sized),
        points: &mut [Point],
        consumptions: &mut [u64],
        shares: &mut [u64],
    ) -> Result<SharedOut, Refused<MeasuredDay>> {
        match self.try_share_out(&day, profile, rule, points, consumptions, shares) {
            Ok(told) => Ok(told),
            Err(why) => Err(Refused { why, token: day }),
        }
    }

    fn try_share_out(
        &mut self,
        day: &MeasuredDay,
        profile: &(impl Profile + ?Sized),
        rule: &(impl ShareRule + ?Sized),
        points: &mut [Point],
        consumptions: &mut [u64],
        shares: &mut [u64],
    ) -> Result<SharedOut, Refusal> {
        self.allow_sheet(points)?;
        let count = self.point_count;
        let short = consumptions.len() < count || shares.len() < count;
        refuse(short, Refusal::WorkSheetLength)?;
        let points = &mut points[..count];
        let (running, figures) = self.allow_points(day, profile, points)?;

        let consumptions = &mut consumptions[..count];
        // What the profile tells is the same for all points of a segment.
        let told: [Factors; MOST_SEGMENTS as usize] = std::array::from_fn(|segment| {
            profile.tell(segment as u32, running.temperature, running.season)
        });
        for (consumption, point) in consumptions.iter_mut().zip(points.iter()) {
            *consumption = point.profile_consumption(told[point.segment as usize].day_factor);
        }
        let weight_sum = consumptions.iter().sum();
        refuse(figures.to_share > 0 && weight_sum == 0, Refusal::NoWeight)?;

        let shares = &mut shares[..count];
        rule.share(figures.to_share, consumptions, shares);
        for (point, &share) in points.iter_mut().zip(shares.iter()) {
            point.open_sum += share;
            point.period_sum += told[point.segment as usize].multiplier;
            self.traders[point.trader as usize].account += share as i64;
        }
        self.close(figures.loss);
        Ok(SharedOut { quantity: figures.to_share, weight_sum, loss: figures.loss })
    }

    /// The measured day and its figures, where the rows handed in can be shared out to.
    fn allow_points(
        &self,
        day: &MeasuredDay,
        profile: &(impl Profile + ?Sized),
        points: &[Point],
    ) -> Result<(Day, Figures), Refusal> {
        let ours = |point: &Point| {
            point.is_in_range() && self.has_trader(point.trader) && point.has_room_for_a_day()
        };
        refuse(!points.iter().all(ours), Refusal::ForeignSheet)?;
        let measured = self.measured(day.number)?;
        refuse(points.iter().any(Point::has_open_slip), Refusal::SlipOpenAtShareOut)?;
        let unserved = |point: &Point| point.segment >= profile.segments();
        refuse(points.iter().any(unserved), Refusal::SegmentNotServed)?;
        Ok(measured)
    }

    /// Books the loss and the metered litres of a day shared out.
    fn close(&mut self, loss: u64) {
        for trader in &mut self.traders {
            trader.account += trader.metered as i64;
            trader.metered = 0;
        }
        self.loss += loss;
        self.next_day += 1;
        self.days_shared += 1;
        self.running = None;
    }

    /// Refuses by 20.
    pub fn abandon_open(&mut self, day: OpenDay) -> Result<(), Refused<OpenDay>> {
        if !self.is_open(day.number) {
            return Err(Refused { why: Refusal::NotRunning, token: day });
        }
        self.drop_day();
        Ok(())
    }

    /// Refuses by 20.
    pub fn abandon_measured(&mut self, day: MeasuredDay) -> Result<(), Refused<MeasuredDay>> {
        if let Err(why) = self.measured(day.number) {
            return Err(Refused { why, token: day });
        }
        self.drop_day();
        Ok(())
    }

    fn drop_day(&mut self) {
        for trader in &mut self.traders {
            trader.metered = 0;
        }
        self.running = None;
    }

    /// Refuses by 1, 4, 11, 7, 27, 28: a row out of range is met before a reading out of range.
    pub fn read(
        &mut self,
        points: &mut [Point],
        point: u32,
        reading: u32,
    ) -> Result<Slip, Refusal> {
        self.allow_sheet(points)?;
        self.allow_point(point)?;
        let row = &mut points[point as usize];
        refuse(!row.is_in_range(), Refusal::ForeignSheet)?;
        refuse(!row.can_show(reading), Refusal::Particulars)?;
        refuse(row.has_open_slip(), Refusal::SlipOpen)?;
        refuse(self.readings >= MOST_READINGS, Refusal::NoMoreReadings)?;
        self.readings += 1;
        row.slip = self.readings;
        row.kept_reading = reading;
        Ok(Slip { number: self.readings, point })
    }

    /// Tells the correction. Refuses by 1, 4, 11, 21.
    pub fn book(&mut self, points: &mut [Point], slip: Slip) -> Result<i64, Refused<Slip>> {
        match self.try_end(points, &slip, None) {
            Ok(correction) => Ok(correction),
            Err(why) => Err(Refused { why, token: slip }),
        }
    }

    /// Books to the old trader, then gives the point to the new one; tells the correction.
    /// Refuses by 1, 3, 4, 11, 21, 29.
    pub fn hand_over(
        &mut self,
        points: &mut [Point],
        slip: Slip,
        to: u32,
    ) -> Result<i64, Refused<Slip>> {
        match self.try_end(points, &slip, Some(to)) {
            Ok(correction) => Ok(correction),
            Err(why) => Err(Refused { why, token: slip }),
        }
    }

    fn try_end(
        &mut self,
        points: &mut [Point],
        slip: &Slip,
        to: Option<u32>,
    ) -> Result<i64, Refusal> {
        self.allow_sheet(points)?;
        if let Some(to) = to {
            self.allow_trader(to)?;
        }
        self.allow_point(slip.point)?;
        let row = &mut points[slip.point as usize];
        let ours = row.is_in_range() && self.has_trader(row.trader);
        refuse(!ours, Refusal::ForeignSheet)?;
        let spent = row.slip != slip.number || self.bookings >= self.readings;
        refuse(spent, Refusal::NotOpenSlip)?;
        refuse(to == Some(row.trader), Refusal::SameTrader)?;

        let correction = row.correction();
        self.traders[row.trader as usize].account += correction;
        self.correction -= correction;
        self.bookings += 1;
        row.book();
        row.trader = to.unwrap_or(row.trader);
        Ok(correction)
    }

    /// Only ends the slip. Refuses by 1, 4, 21.
    pub fn withdraw(&mut self, points: &mut [Point], slip: Slip) -> Result<(), Refused<Slip>> {
        match self.try_withdraw(points, &slip) {
            Ok(()) => Ok(()),
            Err(why) => Err(Refused { why, token: slip }),
        }
    }

    fn try_withdraw(&mut self, points: &mut [Point], slip: &Slip) -> Result<(), Refusal> {
        self.allow_sheet(points)?;
        self.allow_point(slip.point)?;
        let row = &mut points[slip.point as usize];
        refuse(row.slip != slip.number, Refusal::NotOpenSlip)?;
        row.end_slip();
        Ok(())
    }

    /// The open sums of a trader's points together. Refuses by 1, 3, 11.
    pub fn open_quantity(&self, points: &[Point], trader: u32) -> Result<u64, Refusal> {
        self.allow_sheet(points)?;
        self.allow_trader(trader)?;
        let his = || points[..self.point_count].iter().filter(|point| point.trader == trader);
        refuse(!his().all(Point::is_in_range), Refusal::ForeignSheet)?;
        Ok(his().map(|point| point.open_sum).sum())
    }
}

#[cfg(test)]
mod tests;
