//! Charges for what was nominated or sourced against what was used, and the tariff.

use crate::Refusal;

pub const MOST_ENERGY: u64 = 1_000_000_000_000;
pub const LARGEST_RATE: u64 = 1_000_000;

/// Says whether a deviation is inside what is tolerated.
pub trait Tolerance {
    const PERCENT: u64;
    /// What the percentage is taken of.
    fn basis(&self) -> u64;
    /// The size of the deviation.
    fn deviation(&self) -> u64;

    fn tolerance(&self) -> u64 {
        self.basis() * Self::PERCENT / 100
    }
    fn is_inside(&self) -> bool {
        self.deviation() <= self.tolerance()
    }
}

/// Tells the MJ to be charged: at most the deviation, and 0 exactly where it is inside.
pub trait Charge: Tolerance {
    fn charge(&self) -> u64 {
        self.deviation().saturating_sub(self.tolerance())
    }

    /// In thousandths of a forint, at a rate in thousandths of a forint for each MJ.
    fn fee(&self, rate: u64) -> Result<u64, Refusal> {
        allow_rate(rate)?;
        Ok(self.charge() * rate)
    }
}

fn allow_energies(energies: &[u64]) -> Result<(), Refusal> {
    if energies.iter().any(|&energy| energy > MOST_ENERGY) {
        return Err(Refusal::Energy);
    }
    Ok(())
}

fn allow_rate(rate: u64) -> Result<(), Refusal> {
    if rate > LARGEST_RATE {
        return Err(Refusal::Energy);
    }
    Ok(())
}

/// Actual against nominated use.
#[derive(Clone, Copy, PartialEq, Eq, Debug)]
pub struct Nomination {
    nominated: u64,
    actual: u64,
}

impl Nomination {
    pub fn new(nominated: u64, actual: u64) -> Result<Nomination, Refusal> {
        allow_energies(&[nominated, actual])?;
        Ok(Nomination { nominated, actual })
    }
}

impl Tolerance for Nomination {
    const PERCENT: u64 = 12;
    fn basis(&self) -> u64 {
        self.nominated
    }
    fn deviation(&self) -> u64 {
        self.actual.abs_diff(self.nominated)
    }
}

impl Charge for Nomination {}

/// Source against consumption, by one who offered nothing.
#[derive(Clone, Copy, PartialEq, Eq, Debug)]
pub struct Balance {
    source: u64,
    consumption: u64,
}

impl Balance {
    pub fn new(source: u64, consumption: u64) -> Result<Balance, Refusal> {
        allow_energies(&[source, consumption])?;
        Ok(Balance { source, consumption })
    }
}

impl Tolerance for Balance {
    const PERCENT: u64 = 2;
    fn basis(&self) -> u64 {
        self.source
    }
    fn deviation(&self) -> u64 {
        self.source.abs_diff(self.consumption)
    }
}

impl Charge for Balance {}

/// Balancing gas (HEG) and options on it (HEGO), offered in one direction.
#[derive(Clone, Copy, PartialEq, Eq, Default, Debug)]
pub struct Offers {
    pub heg: u64,
    pub hego: u64,
}

/// Source against consumption, by one who offered balancing gas.
#[derive(Clone, Copy, PartialEq, Eq, Debug)]
pub struct BalanceWithOffers {
    balance: Balance,
    negative: Offers,
    positive: Offers,
}

impl BalanceWithOffers {
    pub fn new(
        source: u64,
        consumption: u64,
        negative: Offers,
        positive: Offers,
    ) -> Result<BalanceWithOffers, Refusal> {
        let balance = Balance::new(source, consumption)?;
        allow_energies(&[negative.heg, negative.hego, positive.heg, positive.hego])?;
        Ok(BalanceWithOffers { balance, negative, positive })
    }

    /// The offers that answer this deviation: negative ones where the source suffices.
    fn offered(&self) -> u64 {
        let enough = self.balance.source >= self.balance.consumption;
        let offers = if enough { self.negative } else { self.positive };
        offers.heg + offers.hego
    }
}

impl Tolerance for BalanceWithOffers {
    const PERCENT: u64 = Balance::PERCENT;
    fn basis(&self) -> u64 {
        self.balance.basis()
    }
    fn deviation(&self) -> u64 {
        self.balance.deviation()
    }
    fn is_inside(&self) -> bool {
        self.balance.is_inside() || self.deviation() <= self.offered()
    }
}

impl Charge for BalanceWithOffers {
    fn charge(&self) -> u64 {
        self.deviation().saturating_sub(self.tolerance().max(self.offered()))
    }
}

/// A rate and how often it was set.
#[derive(Clone, Copy, PartialEq, Eq, Debug)]
pub struct Tariff {
    rate: u64,
    settings: u32,
}

impl Tariff {
    pub fn new(rate: u64) -> Result<Tariff, Refusal> {
        allow_rate(rate)?;
        Ok(Tariff { rate, settings: 0 })
    }

    /// Every accepted setting counts, also to the same figure; the count stays at its largest.
    pub fn set_rate(&mut self, rate: u64) -> Result<(), Refusal> {
        allow_rate(rate)?;
        self.rate = rate;
        self.settings = self.settings.saturating_add(1);
        Ok(())
    }

    pub fn rate(&self) -> u64 {
        self.rate
    }

    pub fn settings(&self) -> u32 {
        self.settings
    }
}

#[cfg(test)]
mod tests {
    use super::*;

    const NONE: Offers = Offers { heg: 0, hego: 0 };

    fn offers(heg: u64, hego: u64) -> Offers {
        Offers { heg, hego }
    }

    fn with_offers(source: u64, consumption: u64, negative: Offers, positive: Offers) -> u64 {
        BalanceWithOffers::new(source, consumption, negative, positive).unwrap().charge()
    }

    #[test]
    fn nomination() {
        let charge = |nominated, actual| Nomination::new(nominated, actual).unwrap().charge();
        assert_eq!(charge(1_000, 1_120), 0);
        assert_eq!(charge(1_000, 1_121), 1);
        assert_eq!(charge(1_000, 880), 0);
        assert_eq!(charge(1_000, 879), 1);
        assert_eq!(charge(0, 5), 5);
        assert_eq!(charge(99, 111), 1); // 12 per cent of 99 is 11 whole MJ
    }

    #[test]
    fn balance() {
        let charge = |source, consumption| Balance::new(source, consumption).unwrap().charge();
        assert_eq!(charge(5_049, 5_049 - 101), 1);
        assert_eq!(charge(5_049, 5_049 + 101), 1);
        assert_eq!(charge(5_049, 5_049 - 100), 0);
        assert_eq!(charge(0, MOST_ENERGY), MOST_ENERGY);
    }

    #[test]
    fn balance_with_offers() {
        assert_eq!(with_offers(10_000, 9_000, offers(700, 0), NONE), 300);
        assert_eq!(with_offers(10_000, 9_000, offers(300, 400), NONE), 300);
        assert_eq!(with_offers(10_000, 9_000, NONE, offers(700, 0)), 800);
        assert_eq!(with_offers(10_000, 11_000, offers(700, 0), NONE), 800);
        assert_eq!(with_offers(10_000, 11_000, NONE, offers(300, 400)), 300);
        assert_eq!(with_offers(10_000, 9_000, offers(100, 50), NONE), 800);
        assert_eq!(with_offers(10_000, 9_000, offers(1_000, 0), NONE), 0);
        assert_eq!(with_offers(10_000, 9_000, offers(MOST_ENERGY, MOST_ENERGY), NONE), 0);
    }

    fn is_lawful(rule: &impl Charge) -> bool {
        rule.charge() <= rule.deviation() && (rule.charge() == 0) == rule.is_inside()
    }

    #[test]
    fn a_charge_is_zero_exactly_where_inside() {
        for a in (0..400).step_by(7) {
            for b in 0..400 {
                assert!(is_lawful(&Nomination::new(a, b).unwrap()));
                assert!(is_lawful(&Balance::new(a, b).unwrap()));
                let both = BalanceWithOffers::new(a, b, offers(b % 5, a % 9), offers(3, b % 7));
                assert!(is_lawful(&both.unwrap()));
            }
        }
    }

    #[test]
    fn too_much_energy() {
        let over = MOST_ENERGY + 1;
        assert_eq!(Nomination::new(over, 0), Err(Refusal::Energy));
        assert_eq!(Nomination::new(0, over), Err(Refusal::Energy));
        assert_eq!(Balance::new(over, 0), Err(Refusal::Energy));
        assert_eq!(Balance::new(0, over), Err(Refusal::Energy));
        for place in 0..6 {
            let mut given = [MOST_ENERGY; 6];
            given[place] = over;
            let [source, consumption, a, b, c, d] = given;
            let made = BalanceWithOffers::new(source, consumption, offers(a, b), offers(c, d));
            assert_eq!(made, Err(Refusal::Energy));
        }
    }

    #[test]
    fn fees() {
        let rule = Nomination::new(0, MOST_ENERGY).unwrap();
        assert_eq!(rule.fee(LARGEST_RATE), Ok(1_000_000_000_000_000_000));
        assert_eq!(rule.fee(LARGEST_RATE + 1), Err(Refusal::Energy));
        assert_eq!(Nomination::new(1_000, 1_121).unwrap().fee(350), Ok(350));
    }

    #[test]
    fn a_tariff_counts_its_settings() {
        assert_eq!(Tariff::new(LARGEST_RATE + 1), Err(Refusal::Energy));
        let mut tariff = Tariff::new(5).unwrap();
        assert_eq!((tariff.rate(), tariff.settings()), (5, 0));
        tariff.set_rate(5).unwrap();
        tariff.set_rate(LARGEST_RATE).unwrap();
        assert_eq!((tariff.rate(), tariff.settings()), (LARGEST_RATE, 2));
        let before = tariff;
        assert_eq!(tariff.set_rate(LARGEST_RATE + 1), Err(Refusal::Energy));
        assert_eq!(tariff, before);
    }

    #[test]
    fn the_number_of_settings_stays_at_its_largest() {
        let mut tariff = Tariff { rate: 1, settings: u32::MAX - 1 };
        tariff.set_rate(2).unwrap();
        assert_eq!(tariff.settings(), u32::MAX);
        tariff.set_rate(3).unwrap();
        assert_eq!(tariff, Tariff { rate: 3, settings: u32::MAX });
    }
}
