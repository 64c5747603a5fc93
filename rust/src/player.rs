//! Plays a journal from a new ledger and writes what each call told, as `docs/JOURNAL.md` has it.

use std::collections::BTreeMap;
use std::path::{Path, PathBuf};
use std::rc::Rc;

use crate::journal::{parse, Call, Making, Reason, Rule};
use crate::ledger::{Ledger, MeasuredDay, OpenDay, Slip, MOST_POINTS, WHOLE_RATE};
use crate::point::Point;
use crate::profiles::{Even, Profile, SeasonLayer, Table};
use crate::report::Field::{self, Name, Word};
use crate::report::Report;
use crate::shares::{LargestRemainder, Running, ShareRule};
use crate::{text, Refusal, Refused, MOST_LITRES};

const MOST_PLACES: u32 = 65_536;
const MOST_LAYERS: u32 = 2;

/// Why a run ended before its closing report.
#[derive(Clone, PartialEq, Eq, Debug)]
pub enum Stop {
    Malformed { line: usize, text: String, reason: Reason },
    NoCall,
}

/// A day as the player holds it between calls.
enum HeldDay {
    Open(OpenDay),
    Measured { day: MeasuredDay, inflow: u64 },
}

#[derive(Clone)]
struct Pile {
    layers: u32,
    profile: Rc<dyn Profile>,
}

/// A ledger with its sheets, profiles and what is still open.
struct Station {
    ledger: Ledger,
    points: Vec<Point>,
    consumptions: Vec<u64>,
    shares: Vec<u64>,
    sheet_stands: bool,
    point_was_called: bool,
    profiles: BTreeMap<Vec<u8>, Pile>,
    names: Vec<Vec<u8>>,
    day: Option<HeldDay>,
    slips: BTreeMap<u32, Slip>,
    /// The inflows of the days shared out.
    inflow: u64,
}

/// Plays a journal; gives what is printed, and why it stopped where it did not come to its end.
pub fn play(journal: &[u8], folder: &Path, csv: bool) -> (Vec<u8>, Result<(), Stop>) {
    let mut player = Player { folder: folder.to_path_buf(), report: Report::new(csv), line: 0 };
    let result = player.play(journal);
    (player.report.into_bytes(), result)
}

struct Player {
    folder: PathBuf,
    report: Report,
    line: usize,
}

/// What a call comes to: malformed, else refused or told.
type Done = Result<Result<(), Refusal>, Reason>;

impl Player {
    fn play(&mut self, journal: &[u8]) -> Result<(), Stop> {
        let mut station = None;
        for (index, line) in text::lines(journal).enumerate() {
            self.line = index + 1;
            self.play_line(&mut station, line).map_err(|reason| Stop::Malformed {
                line: self.line,
                text: String::from_utf8_lossy(line).into_owned(),
                reason,
            })?;
        }
        self.close(&mut station.ok_or(Stop::NoCall)?);
        Ok(())
    }

    fn play_line(&mut self, station: &mut Option<Station>, line: &[u8]) -> Result<(), Reason> {
        let Some(call) = parse(line)? else { return Ok(()) };
        match (station.as_mut(), call) {
            (None, Call::Ledger { day }) => {
                *station = Some(Station::new(day));
                self.tell("ledger", &[Word("day"), day.into()]);
                Ok(())
            }
            (None, _) => Err("the first call has to be ledger".into()),
            (Some(_), Call::Ledger { .. }) => Err("ledger comes a second time".into()),
            (Some(station), call) => {
                if let Err(why) = self.call(station, call)? {
                    self.tell(first_word(call), &[Field::Refused(why)]);
                }
                Ok(())
            }
        }
    }

    fn tell(&mut self, first: &str, fields: &[Field]) {
        let start = [Field::Number(self.line as i128), Word(first)];
        self.report.line(&[&start, fields].concat());
    }

    fn call(&mut self, station: &mut Station, call: Call) -> Done {
        Ok(match call {
            Call::Ledger { .. } => return Err("ledger comes a second time".into()),
            Call::Sheet { places } => return self.sheet(station, places).map(Ok),
            Call::Profile { name, making } => return self.profile(station, name, making),
            Call::Share { profile, rule } => return self.share(station, profile, rule),
            Call::Trader { name } => self.trader(station, name),
            Call::Point(particulars) => {
                station.point_was_called = true;
                let given = station.ledger.admit_point(&mut station.points, particulars);
                given.map(|point| self.tell("point", &[point.into()]))
            }
            Call::Open { temperature, season } => self.open(station, temperature, season),
            Call::Enter { trader, litres } => self.enter(station, trader, litres),
            Call::Inflow { litres, rate } => self.inflow(station, litres, rate.into()),
            Call::Abandon => {
                let number = station.abandon();
                number.map(|number| self.tell("abandon", &[Word("opening"), number.into()]))
            }
            Call::Quantity { trader } => {
                let told = station.ledger.open_quantity(&station.points, trader);
                told.map(|litres| {
                    let fields = [Word("trader"), trader.into(), Word("litres"), litres.into()];
                    self.tell("quantity", &fields)
                })
            }
            Call::Read { point, reading } => self.read(station, point, reading),
            Call::Book { point } => self.book(station, point),
            Call::HandOver { point, trader } => self.hand_over(station, point, trader),
            Call::Withdraw { point } => {
                let number = station.withdraw(point);
                number.map(|slip| {
                    let fields = [Word("point"), point.into(), Word("slip"), slip.into()];
                    self.tell("withdraw", &fields)
                })
            }
        })
    }

    fn sheet(&mut self, station: &mut Station, places: u32) -> Result<(), Reason> {
        if station.sheet_stands || station.point_was_called {
            return Err("sheet comes a second time, or after a point".into());
        }
        if places > MOST_PLACES {
            return Err(format!("a sheet has at most {MOST_PLACES} places"));
        }
        station.sheet_stands = true;
        station.resize(places as usize);
        self.tell("sheet", &[Word("places"), places.into()]);
        Ok(())
    }

    fn profile(&mut self, station: &mut Station, name: &[u8], making: Making) -> Done {
        if station.profiles.contains_key(name) {
            return Err("the profile's name is taken".into());
        }
        let made = self.make(station, making)?;
        Ok(made.map(|pile| {
            let segments = pile.profile.segments();
            self.tell("profile", &[Name(name), Word("segments"), segments.into()]);
            station.profiles.insert(name.to_vec(), pile);
        }))
    }

    fn make(&self, station: &Station, making: Making) -> Result<Result<Pile, Refusal>, Reason> {
        match making {
            Making::Even { factor } => Ok(Even::new(factor.into()).map(Pile::of)),
            Making::Table { file } => {
                let numbers = self.numbers(file)?;
                let mut table = Table::new();
                Ok(table.fill(&numbers).map(|()| Pile::of(table)))
            }
            Making::Season { segment, file, below } => {
                let below = station.pile(below)?;
                if below.layers >= MOST_LAYERS {
                    return Err(format!("a pile has at most {MOST_LAYERS} layers"));
                }
                let numbers = self.numbers(file)?;
                Ok(below.under_layer(segment, &numbers))
            }
        }
    }

    fn numbers(&self, file: &str) -> Result<Vec<u64>, Reason> {
        let path = self.folder.join(file);
        let bytes = std::fs::read(&path).map_err(|error| format!("{}: {error}", path.display()))?;
        let bad = || format!("{}: holds something other than numbers of 32 bits", path.display());
        text::sheet(&bytes).ok_or_else(bad)
    }

    fn trader(&mut self, station: &mut Station, name: Option<&[u8]>) -> Result<(), Refusal> {
        let number = station.ledger.admit_trader()?;
        let name = name.unwrap_or(b"-");
        station.names.push(name.to_vec());
        self.tell("trader", &[number.into(), Name(name)]);
        Ok(())
    }

    fn open(
        &mut self,
        station: &mut Station,
        temperature: i32,
        season: u32,
    ) -> Result<(), Refusal> {
        let day = station.ledger.open(temperature, season)?;
        let (number, next) = (day.number(), station.ledger.next_day());
        station.day = Some(HeldDay::Open(day));
        self.tell("open", &[Word("opening"), number.into(), Word("day"), next.into()]);
        Ok(())
    }

    fn enter(&mut self, station: &mut Station, trader: u32, litres: u64) -> Result<(), Refusal> {
        let Some(HeldDay::Open(day)) = &station.day else {
            station.ledger.account(trader)?;
            return Err(if litres > MOST_LITRES { Refusal::Litres } else { Refusal::NotRunning });
        };
        station.ledger.enter(day, trader, litres)?;
        let metered = station.ledger.metered(trader)?;
        self.tell("enter", &[Word("trader"), trader.into(), Word("metered"), metered.into()]);
        Ok(())
    }

    fn inflow(&mut self, station: &mut Station, inflow: u64, rate: u64) -> Result<(), Refusal> {
        let day = match station.day.take() {
            Some(HeldDay::Open(day)) => day,
            other => {
                station.day = other;
                let too_much = inflow > MOST_LITRES || rate > WHOLE_RATE;
                return Err(if too_much { Refusal::Litres } else { Refusal::NotRunning });
            }
        };
        match station.ledger.take_inflow(day, inflow, rate) {
            Ok(day) => {
                self.tell("inflow", &[Word("opening"), day.number().into()]);
                station.day = Some(HeldDay::Measured { day, inflow });
                Ok(())
            }
            Err(Refused { why, token }) => {
                station.day = Some(HeldDay::Open(token));
                Err(why)
            }
        }
    }

    fn share(&mut self, station: &mut Station, profile: &[u8], rule: Rule) -> Done {
        let profile = station.pile(profile)?.profile;
        let shared = match rule {
            Rule::Running => station.share_out(&*profile, &Running),
            Rule::Largest => station.share_out(&*profile, &LargestRemainder),
        };
        Ok(shared.map(|fields| {
            self.tell("share", &fields);
            for point in 0..station.ledger.point_count() {
                let consumption = station.consumptions[point as usize].into();
                let share = station.shares[point as usize].into();
                let fields = [point.into(), Word("consumption"), consumption, Word("share"), share];
                self.tell("point", &fields);
            }
        }))
    }

    fn read(&mut self, station: &mut Station, point: u32, reading: u32) -> Result<(), Refusal> {
        let slip = station.ledger.read(&mut station.points, point, reading)?;
        self.tell("read", &[Word("point"), point.into(), Word("slip"), slip.number().into()]);
        station.slips.insert(point, slip);
        Ok(())
    }

    fn book(&mut self, station: &mut Station, point: u32) -> Result<(), Refusal> {
        let slip = station.take_slip(point, None)?;
        let booked = station.ledger.book(&mut station.points, slip);
        let correction = booked.map_err(|refused| station.put_back(refused))?;
        self.tell("book", &[Word("point"), point.into(), Word("correction"), correction.into()]);
        Ok(())
    }

    fn hand_over(&mut self, station: &mut Station, point: u32, to: u32) -> Result<(), Refusal> {
        let slip = station.take_slip(point, Some(to))?;
        let booked = station.ledger.hand_over(&mut station.points, slip, to);
        let correction = booked.map_err(|refused| station.put_back(refused))?;
        let whose = [Word("point"), point.into(), Word("trader"), to.into()];
        let what = [Word("correction"), correction.into()];
        self.tell("hand-over", &[&whose[..], &what].concat());
        Ok(())
    }

    /// Names and ends what is still open, then gives the accounts and the balance.
    fn close(&mut self, station: &mut Station) {
        for point in 0..station.ledger.point_count() {
            if let Ok(slip) = station.withdraw(point) {
                let what = [Word("withdraw"), Word("point"), point.into()];
                self.end(&[&what[..], &[Word("slip"), slip.into()]].concat());
            }
        }
        if let Ok(number) = station.abandon() {
            self.end(&[Word("abandon"), Word("opening"), number.into()]);
        }
        let ledger = &station.ledger;
        self.end(&[Word("loss"), ledger.loss().into()]);
        let mut accounts = 0;
        for (trader, name) in (0..ledger.trader_count()).zip(&station.names) {
            let account = ledger.account(trader).unwrap_or(0);
            accounts += i128::from(account);
            let open = match ledger.open_quantity(&station.points, trader) {
                Ok(litres) => litres.into(),
                Err(why) => Field::Refused(why),
            };
            let whose = [Word("trader"), trader.into(), Name(name)];
            let what = [Word("account"), account.into(), Word("open"), open];
            self.end(&[&whose[..], &what].concat());
        }
        self.end(&[Word("correction"), ledger.correction().into()]);
        self.balance(station, accounts);
    }

    fn balance(&mut self, station: &Station, accounts: i128) {
        let (inflow, loss) = (station.inflow, station.ledger.loss());
        let correction = station.ledger.correction();
        let found = i128::from(loss) + accounts + i128::from(correction);
        let difference = Field::Number(i128::from(inflow) - found);
        let given = [Word("balance"), Word("inflow"), inflow.into()];
        let loss = [Word("loss"), loss.into()];
        let accounts = [Word("accounts"), Field::Number(accounts)];
        let correction = [Word("correction"), correction.into()];
        let difference = [Word("difference"), difference];
        self.end(&[&given[..], &loss, &accounts, &correction, &difference].concat());
    }

    fn end(&mut self, fields: &[Field]) {
        self.report.line(&[&[Word("end")], fields].concat());
    }
}

/// The word under which a call stands in the journal.
fn first_word(call: Call) -> &'static str {
    match call {
        Call::Ledger { .. } => "ledger",
        Call::Sheet { .. } => "sheet",
        Call::Profile { .. } => "profile",
        Call::Trader { .. } => "trader",
        Call::Point(_) => "point",
        Call::Open { .. } => "open",
        Call::Enter { .. } => "enter",
        Call::Inflow { .. } => "inflow",
        Call::Share { .. } => "share",
        Call::Abandon => "abandon",
        Call::Quantity { .. } => "quantity",
        Call::Read { .. } => "read",
        Call::Book { .. } => "book",
        Call::HandOver { .. } => "hand-over",
        Call::Withdraw { .. } => "withdraw",
    }
}

impl Pile {
    fn of(profile: impl Profile + 'static) -> Pile {
        Pile { layers: 0, profile: Rc::new(profile) }
    }

    fn under_layer(self, segment: u32, numbers: &[u64]) -> Result<Pile, Refusal> {
        let mut layer = SeasonLayer::new(self.profile, segment)?;
        layer.fill(numbers)?;
        Ok(Pile { layers: self.layers + 1, profile: Rc::new(layer) })
    }
}

impl Station {
    fn new(first_day: u32) -> Station {
        let mut station = Station {
            ledger: Ledger::new(first_day),
            points: Vec::new(),
            consumptions: Vec::new(),
            shares: Vec::new(),
            sheet_stands: false,
            point_was_called: false,
            profiles: BTreeMap::new(),
            names: Vec::new(),
            day: None,
            slips: BTreeMap::new(),
            inflow: 0,
        };
        station.resize(MOST_POINTS);
        station
    }

    fn resize(&mut self, places: usize) {
        self.points.resize(places, Point::UNUSED);
        self.consumptions.resize(places, 0);
        self.shares.resize(places, 0);
    }

    fn pile(&self, name: &[u8]) -> Result<Pile, Reason> {
        self.profiles.get(name).cloned().ok_or_else(|| "there is no such profile".into())
    }

    fn share_out(
        &mut self,
        profile: &dyn Profile,
        rule: &impl ShareRule,
    ) -> Result<[Field<'static>; 6], Refusal> {
        let (day, inflow) = match self.day.take() {
            Some(HeldDay::Measured { day, inflow }) => (day, inflow),
            other => {
                self.day = other;
                self.allow_length()?;
                return Err(Refusal::NotRunning);
            }
        };
        let Station { ledger, points, consumptions, shares, .. } = self;
        match ledger.share_out(day, profile, rule, points, consumptions, shares) {
            Ok(told) => {
                self.inflow += inflow;
                let (quantity, sum) = (told.quantity.into(), told.weight_sum.into());
                let loss = told.loss.into();
                Ok([Word("A"), quantity, Word("S"), sum, Word("loss"), loss])
            }
            Err(Refused { why, token }) => {
                self.day = Some(HeldDay::Measured { day: token, inflow });
                Err(why)
            }
        }
    }

    /// Ends the running day and gives the number of its opening.
    fn abandon(&mut self) -> Result<u32, Refusal> {
        match self.day.take().ok_or(Refusal::NotRunning)? {
            HeldDay::Open(day) => {
                let number = day.number();
                self.ledger.abandon_open(day).map_err(|refused| refused.why)?;
                Ok(number)
            }
            HeldDay::Measured { day, .. } => {
                let number = day.number();
                self.ledger.abandon_measured(day).map_err(|refused| refused.why)?;
                Ok(number)
            }
        }
    }

    fn allow_length(&self) -> Result<(), Refusal> {
        if self.points.len() > MOST_POINTS {
            return Err(Refusal::PointSheetLength);
        }
        Ok(())
    }

    /// The open slip of a point; where it has none, the refusal that comes first.
    fn take_slip(&mut self, point: u32, to: Option<u32>) -> Result<Slip, Refusal> {
        if let Some(slip) = self.slips.remove(&point) {
            return Ok(slip);
        }
        self.allow_length()?;
        if let Some(to) = to {
            self.ledger.account(to)?;
        }
        let there = point < self.ledger.point_count();
        Err(if there { Refusal::NotOpenSlip } else { Refusal::NoSuchPoint })
    }

    fn put_back(&mut self, refused: Refused<Slip>) -> Refusal {
        self.slips.insert(refused.token.point(), refused.token);
        refused.why
    }

    /// Ends a point's slip without booking and gives its number.
    fn withdraw(&mut self, point: u32) -> Result<u32, Refusal> {
        let slip = self.take_slip(point, None)?;
        let number = slip.number();
        let ended = self.ledger.withdraw(&mut self.points, slip);
        ended.map_err(|refused| self.put_back(refused))?;
        Ok(number)
    }
}

#[cfg(test)]
mod tests;
