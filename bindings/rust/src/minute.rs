//! Times.
use crate::calls::NO_TIME;
use std::fmt;

/// A minute of the years 2000 to 2099, in UTC. It is printed as its stamp, such as
/// `180103T1530Z`.
#[derive(Clone, Copy, Debug, PartialEq, Eq, PartialOrd, Ord, Hash)]
pub struct Minute(u32);

const COUNT: u32 = 52_596_000;

const LENGTHS: [u32; 12] = [31, 28, 31, 30, 31, 30, 31, 31, 30, 31, 30, 31];

/// The days of a year of 2000 to 2099, of which every fourth is a leap year.
fn days_in(year: u32) -> u32 {
    [366, 365, 365, 365][year as usize % 4]
}

fn days_of(year: u32, month: u32) -> u32 {
    LENGTHS[month as usize - 1] + if month == 2 { days_in(year) - 365 } else { 0 }
}

impl Minute {
    /// The minute of so many since 2000-01-01T00:00Z.
    ///
    /// ```
    /// use warn_codes::Minute;
    /// assert_eq!(Minute::new(0).unwrap().to_string(), "000101T0000Z");
    /// assert_eq!(Minute::new(52_596_000), None);
    /// ```
    pub fn new(count: u32) -> Option<Minute> {
        (count < COUNT).then_some(Minute(count))
    }

    /// The minute of a stamp.
    ///
    /// ```
    /// use warn_codes::Minute;
    /// assert_eq!(Minute::from_stamp("180103T1530Z").unwrap().unix_seconds(), 1_514_993_400);
    /// assert_eq!(Minute::from_stamp("180229T1530Z"), None);
    /// ```
    pub fn from_stamp(stamp: &str) -> Option<Minute> {
        // A P-VTEC text spells it: the library reads the calendar.
        let text = format!("/O.NEW.KLWX.WS.W.0001.{stamp}-000000T0000Z/");
        crate::calls::read_vtec(text.as_bytes())
            .ok()
            .and_then(|v| Minute::from_raw(v.begin))
    }

    /// How many minutes since 2000-01-01T00:00Z.
    pub fn count(self) -> u32 {
        self.0
    }

    /// How many seconds since 1970-01-01T00:00Z.
    pub fn unix_seconds(self) -> i64 {
        946_684_800 + 60 * i64::from(self.0)
    }

    pub(crate) fn from_raw(raw: u32) -> Option<Minute> {
        if raw == NO_TIME {
            None
        } else {
            Minute::new(raw)
        }
    }

    pub(crate) fn to_raw(time: Option<Minute>) -> u32 {
        time.map_or(NO_TIME, |minute| minute.0)
    }
}

impl fmt::Display for Minute {
    fn fmt(&self, f: &mut fmt::Formatter<'_>) -> fmt::Result {
        let (mut day, minute) = (self.0 / 1440, self.0 % 1440);
        let (mut year, mut month) = (0, 1);
        while day >= days_in(year) {
            day -= days_in(year);
            year += 1;
        }
        while day >= days_of(year, month) {
            day -= days_of(year, month);
            month += 1;
        }
        write!(
            f,
            "{year:02}{month:02}{:02}T{:02}{:02}Z",
            day + 1,
            minute / 60,
            minute % 60
        )
    }
}

/// A day of a month, an hour and a minute, in UTC.
#[derive(Clone, Copy, Debug, PartialEq, Eq, Hash)]
pub struct DayTime {
    /// 1 to 31.
    pub day: u8,
    /// 0 to 23.
    pub hour: u8,
    /// 0 to 59.
    pub minute: u8,
}

impl fmt::Display for DayTime {
    fn fmt(&self, f: &mut fmt::Formatter<'_>) -> fmt::Result {
        write!(f, "{:02}{:02}{:02}", self.day, self.hour, self.minute)
    }
}
