//! Profiles: how much a point of a segment uses at a temperature, in a season.

use std::rc::Rc;

use crate::{Refusal, ONE};

pub const COLDEST: i32 = -400;
pub const WARMEST: i32 = 500;
pub const SEASONS: u32 = 4;
/// The most segments that a profile can serve.
pub const MOST_SEGMENTS: u32 = 8;

/// The tenths of a degree that a table has a column for: -8.0 to 30.0.
const FIRST_COLUMN: i32 = -80;
const LAST_COLUMN: i32 = 300;
pub const COLUMNS: usize = 381;
pub const TABLE_SHEET: usize = 2 * COLUMNS;
pub const SEASON_SHEET: usize = SEASONS as usize * COLUMNS;
pub const LARGEST_SEASON_NUMBER: u64 = 20_000_000;

/// What a profile tells, in ten-millionths: each at most `ONE`.
#[derive(Clone, Copy, PartialEq, Eq, Default, Debug)]
pub struct Factors {
    /// Added to a point's period sum.
    pub multiplier: u64,
    /// Times the scale factor it is a point's profile consumption.
    pub day_factor: u64,
}

impl Factors {
    fn both(factor: u64) -> Factors {
        Factors { multiplier: factor, day_factor: factor }
    }
}

pub trait Profile {
    /// The number of segments served, 1 to 8; the same for as long as the profile lives.
    fn segments(&self) -> u32;
    /// Both numbers are 0 for a segment not served, and for what is no temperature or season.
    fn tell(&self, segment: u32, temperature: i32, season: u32) -> Factors;
}

impl<P: Profile + ?Sized> Profile for Rc<P> {
    fn segments(&self) -> u32 {
        (**self).segments()
    }
    fn tell(&self, segment: u32, temperature: i32, season: u32) -> Factors {
        (**self).tell(segment, temperature, season)
    }
}

/// Whether a day can have this temperature and season.
pub fn is_weather(temperature: i32, season: u32) -> bool {
    (COLDEST..=WARMEST).contains(&temperature) && season < SEASONS
}

/// The column of a temperature; outside the table, the nearer end's.
fn column(temperature: i32) -> usize {
    (temperature.clamp(FIRST_COLUMN, LAST_COLUMN) - FIRST_COLUMN) as usize
}

/// Copies a sheet where its length is the held one's and no value passes the limit.
fn fill(held: &mut [u64], sheet: &[u64], limit: u64) -> Result<(), Refusal> {
    if sheet.len() != held.len() || sheet.iter().any(|&value| value > limit) {
        return Err(Refusal::ProfileSheet);
    }
    held.copy_from_slice(sheet);
    Ok(())
}

/// Segment 0 is residential, 1 business; one factor for each tenth of a degree.
#[derive(Clone, PartialEq, Eq, Debug)]
pub struct Table {
    factors: [u64; TABLE_SHEET],
}

impl Table {
    pub const SEGMENTS: u32 = 2;

    pub fn new() -> Table {
        Table { factors: [0; TABLE_SHEET] }
    }

    /// Takes a sheet of 2 x 381 factors, residential first.
    pub fn fill(&mut self, sheet: &[u64]) -> Result<(), Refusal> {
        fill(&mut self.factors, sheet, ONE)
    }
}

impl Default for Table {
    fn default() -> Table {
        Table::new()
    }
}

impl Profile for Table {
    fn segments(&self) -> u32 {
        Table::SEGMENTS
    }
    fn tell(&self, segment: u32, temperature: i32, season: u32) -> Factors {
        if segment >= Table::SEGMENTS || !is_weather(temperature, season) {
            return Factors::default();
        }
        Factors::both(self.factors[segment as usize * COLUMNS + column(temperature)])
    }
}

/// One factor for all eight segments, at every temperature.
#[derive(Clone, Copy, PartialEq, Eq, Default, Debug)]
pub struct Even {
    factor: u64,
}

impl Even {
    pub fn new(factor: u64) -> Result<Even, Refusal> {
        if factor > ONE {
            return Err(Refusal::ProfileSheet);
        }
        Ok(Even { factor })
    }
}

impl Profile for Even {
    fn segments(&self) -> u32 {
        MOST_SEGMENTS
    }
    fn tell(&self, segment: u32, temperature: i32, season: u32) -> Factors {
        if segment >= MOST_SEGMENTS || !is_weather(temperature, season) {
            return Factors::default();
        }
        Factors::both(self.factor)
    }
}

/// Corrects one segment's day factor of the profile below by season and temperature.
#[derive(Clone, PartialEq, Eq, Debug)]
pub struct SeasonLayer<P> {
    below: P,
    segment: u32,
    numbers: [u64; SEASON_SHEET],
}

impl<P: Profile> SeasonLayer<P> {
    /// The season numbers are all 1 until a sheet fills them.
    pub fn new(below: P, segment: u32) -> Result<SeasonLayer<P>, Refusal> {
        if segment >= MOST_SEGMENTS {
            return Err(Refusal::Particulars);
        }
        Ok(SeasonLayer { below, segment, numbers: [ONE; SEASON_SHEET] })
    }

    /// Takes a sheet of 4 x 381 season numbers, season 0 first, tenths rising.
    pub fn fill(&mut self, sheet: &[u64]) -> Result<(), Refusal> {
        fill(&mut self.numbers, sheet, LARGEST_SEASON_NUMBER)
    }
}

impl<P: Profile> Profile for SeasonLayer<P> {
    fn segments(&self) -> u32 {
        self.below.segments()
    }
    fn tell(&self, segment: u32, temperature: i32, season: u32) -> Factors {
        let below = self.below.tell(segment, temperature, season);
        if segment != self.segment || !is_weather(temperature, season) {
            return below;
        }
        let number = self.numbers[season as usize * COLUMNS + column(temperature)];
        Factors { day_factor: ONE.min(below.day_factor * number / ONE), ..below }
    }
}

#[cfg(test)]
mod tests {
    use super::*;

    /// A table whose factor names its segment and column.
    fn marked() -> Table {
        let mut table = Table::new();
        let sheet: Vec<u64> = (0..TABLE_SHEET as u64).map(|place| 1_000_000 + place).collect();
        table.fill(&sheet).unwrap();
        table
    }

    #[test]
    fn a_table_tells_its_columns_and_the_nearer_end_outside() {
        let table = marked();
        assert_eq!(table.segments(), 2);
        for (temperature, place) in
            [(-80, 0), (-79, 1), (0, 80), (300, 380), (-81, 0), (-400, 0), (301, 380), (500, 380)]
        {
            for season in 0..4 {
                assert_eq!(table.tell(0, temperature, season), Factors::both(1_000_000 + place));
                assert_eq!(table.tell(1, temperature, season), Factors::both(1_000_381 + place));
            }
        }
    }

    fn is_zero_outside(profile: &impl Profile) {
        for (segment, temperature, season) in [
            (profile.segments(), 0, 0),
            (8, 0, 0),
            (u32::MAX, 0, 0),
            (0, -401, 0),
            (0, 501, 0),
            (0, i32::MIN, 0),
            (0, i32::MAX, 0),
            (0, 0, 4),
            (0, 0, u32::MAX),
        ] {
            assert_eq!(profile.tell(segment, temperature, season), Factors::default());
        }
    }

    #[test]
    fn asked_outside_every_profile_gives_zero() {
        is_zero_outside(&marked());
        is_zero_outside(&Even::new(5).unwrap());
        is_zero_outside(&SeasonLayer::new(marked(), 0).unwrap());
        is_zero_outside(&SeasonLayer::new(Even::new(5).unwrap(), 7).unwrap());
        is_zero_outside(&SeasonLayer::new(marked(), 7).unwrap());
    }

    #[test]
    fn a_new_table_gives_zero() {
        assert_eq!(Table::new().tell(1, 100, 0), Factors::default());
    }

    #[test]
    fn a_refused_sheet_leaves_what_was_held() {
        let mut table = marked();
        let mut sheet = vec![3; TABLE_SHEET];
        sheet[TABLE_SHEET - 1] = ONE + 1;
        assert_eq!(table.fill(&sheet), Err(Refusal::ProfileSheet));
        assert_eq!(table.fill(&[3; TABLE_SHEET - 1]), Err(Refusal::ProfileSheet));
        assert_eq!(table.fill(&[3; TABLE_SHEET + 1]), Err(Refusal::ProfileSheet));
        assert_eq!(table.fill(&[]), Err(Refusal::ProfileSheet));
        assert_eq!(table, marked());
        assert_eq!(table.fill(&[ONE; TABLE_SHEET]), Ok(()));
        assert_eq!(table.tell(0, 0, 0), Factors::both(ONE));
    }

    #[test]
    fn even_serves_eight_segments_alike() {
        let even = Even::new(ONE).unwrap();
        assert_eq!(even.segments(), 8);
        for segment in 0..8 {
            assert_eq!(even.tell(segment, -400, 3), Factors::both(ONE));
            assert_eq!(even.tell(segment, 500, 0), Factors::both(ONE));
        }
        assert_eq!(Even::new(ONE + 1), Err(Refusal::ProfileSheet));
    }

    #[test]
    fn a_layer_corrects_its_segments_day_factor_alone() {
        let mut layer = SeasonLayer::new(Even::new(962_833).unwrap(), 3).unwrap();
        assert_eq!(layer.segments(), 8);
        assert_eq!(layer.tell(3, 100, 2), Factors::both(962_833));
        layer.fill(&[5_000_000; SEASON_SHEET]).unwrap();
        let corrected = Factors { multiplier: 962_833, day_factor: 481_416 };
        assert_eq!(layer.tell(3, 100, 2), corrected);
        assert_eq!(layer.tell(2, 100, 2), Factors::both(962_833));
    }

    #[test]
    fn a_day_factor_is_cut_at_one() {
        let mut layer = SeasonLayer::new(Even::new(5_000_001).unwrap(), 0).unwrap();
        layer.fill(&[LARGEST_SEASON_NUMBER; SEASON_SHEET]).unwrap();
        assert_eq!(layer.tell(0, 0, 0), Factors { multiplier: 5_000_001, day_factor: ONE });
    }

    #[test]
    fn a_layer_has_its_own_number_for_each_season_and_tenth() {
        let mut layer = SeasonLayer::new(Even::new(ONE).unwrap(), 1).unwrap();
        let sheet: Vec<u64> = (0..SEASON_SHEET as u64).collect();
        layer.fill(&sheet).unwrap();
        for season in 0..4 {
            for (temperature, place) in [(-400, 0), (-80, 0), (-79, 1), (300, 380), (500, 380)] {
                let number = season as u64 * 381 + place;
                assert_eq!(layer.tell(1, temperature, season).day_factor, number);
            }
        }
    }

    #[test]
    fn layers_pile_up() {
        let mut below = SeasonLayer::new(marked(), 1).unwrap();
        below.fill(&[5_000_000; SEASON_SHEET]).unwrap();
        let mut pile = SeasonLayer::new(SeasonLayer::new(below, 0).unwrap(), 1).unwrap();
        pile.fill(&[4_000_000; SEASON_SHEET]).unwrap();
        assert_eq!(pile.segments(), 2);
        assert_eq!(pile.tell(1, -80, 0), Factors { multiplier: 1_000_381, day_factor: 200_076 });
        assert_eq!(pile.tell(0, -80, 0), Factors::both(1_000_000));
    }

    #[test]
    fn a_layer_refuses_its_segment_and_its_sheet() {
        let even = Even::new(1).unwrap();
        assert_eq!(SeasonLayer::new(even, 8), Err(Refusal::Particulars));
        let mut layer = SeasonLayer::new(even, 7).unwrap();
        let before = layer.clone();
        let mut sheet = vec![0; SEASON_SHEET];
        sheet[0] = LARGEST_SEASON_NUMBER + 1;
        assert_eq!(layer.fill(&sheet), Err(Refusal::ProfileSheet));
        assert_eq!(layer.fill(&[0; SEASON_SHEET - 1]), Err(Refusal::ProfileSheet));
        assert_eq!(layer.fill(&[0; SEASON_SHEET + 1]), Err(Refusal::ProfileSheet));
        assert_eq!(layer, before);
    }
}
