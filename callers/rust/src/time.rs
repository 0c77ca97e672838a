//! Times.
#[cfg(feature = "std")]
use crate::error::Reason;
use crate::ffi::{self, MomentFields, TimeFields};
use core::cmp::Ordering;
use core::fmt;
use core::num::Wrapping;
#[cfg(feature = "std")]
use std::time::{Duration, SystemTime};

/// A UTCTime or a GeneralizedTime.
///
/// Times sort by moment, then by fields. A local time counts as UTC.
///
/// ```
/// use dumarewhi::{Any, Zone};
///
/// let time = Any::from_der(b"\x17\x0d491231235959Z")?.as_time()?;
/// assert_eq!((time.year, time.month, time.day), (2049, 12, 31));
/// assert_eq!(time.zone, Zone::Utc);
/// assert_eq!(time.to_string(), "2049-12-31T23:59:59Z");
/// assert!(time > Any::from_der(b"\x18\x0f20491231235958Z")?.as_time()?);
/// # Ok::<(), dumarewhi::Error>(())
/// ```
#[derive(Clone, Copy, Debug, PartialEq, Eq, Hash)]
pub struct Time {
    /// The year. A UTCTime has 1950 to 2049 (RFC 5280 4.1.2.5.1).
    pub year: u32,
    /// The month, 1 to 12.
    pub month: u8,
    /// The day, 1 to 31, whatever the month.
    pub day: u8,
    /// The hour, 0 to 23.
    pub hour: u8,
    /// The minute, 0 to 59.
    pub minute: u8,
    /// The second, 0 to 59.
    pub second: u8,
    /// The fraction of a second, in nanoseconds.
    pub nanosecond: u32,
    /// The zone.
    pub zone: Zone,
}

/// The zone of a time.
#[derive(Clone, Copy, Debug, PartialEq, Eq, PartialOrd, Ord, Hash)]
pub enum Zone {
    /// Local time, wherever that is.
    Local,
    /// UTC.
    Utc,
    /// An offset from UTC. Both numbers are negative to the west.
    Offset {
        /// Whole hours.
        hours: i8,
        /// Minutes.
        minutes: i8,
    },
}

/// A number of days or seconds. None that a [`Time`] has comes near its limits.
type Count = Wrapping<i64>;

fn count(number: impl Into<i64>) -> Count {
    Wrapping(number.into())
}

const SECONDS_OF_A_DAY: i64 = 86_400;

/// The days from the 1st of March to a month, of which March is number 0.
fn days_to_month(month: i64) -> i64 {
    (count(month) * count(153) + count(2)).0 / 5
}

/// The days of 400 years, after which the calendar repeats.
const DAYS_OF_400_YEARS: i64 = 146_097;

/// The days from the 1st of March of the year -400 to the 1st of January of 1970.
const DAYS_TO_1970: i64 = 865_565;

impl Time {
    /// Seconds since 1970-01-01T00:00:00Z, without leap seconds or the fraction. A local time counts as UTC, and a day
    /// that its month doesn't have as one of the next month.
    ///
    /// ```
    /// use dumarewhi::Any;
    ///
    /// let time = Any::from_der(b"\x17\x0d700102000001Z")?.as_time()?;
    /// assert_eq!(time.unix_seconds(), 86_401);
    /// # Ok::<(), dumarewhi::Error>(())
    /// ```
    pub fn unix_seconds(&self) -> i64 {
        let (hours, minutes) = match self.zone {
            Zone::Offset { hours, minutes } => (count(hours), count(minutes)),
            _ => (count(0), count(0)),
        };
        let minutes = (count(self.hour) - hours) * count(60) + count(self.minute) - minutes;
        let seconds = minutes * count(60) + count(self.second);
        (self.days() * count(SECONDS_OF_A_DAY) + seconds).0
    }

    /// The days from 1970-01-01. A year is counted from March on, so that a leap day is its last, and from -400 on, so
    /// that none is negative.
    fn days(&self) -> Count {
        let year = (count(self.year) + count(400) - count(self.month <= 2)).0;
        let month = (count(self.month) + count(9)).0 % 12;
        let leap_days = count(year / 4) - count(year / 100) + count(year / 400);
        let day = count(days_to_month(month)) + count(self.day) - count(1);
        count(year) * count(365) + leap_days + day - count(DAYS_TO_1970)
    }

    /// The date that is so many days from 1970-01-01, at 0 o'clock in UTC. `None` unless its year is 0 to 9999.
    fn from_days(days: Count) -> Option<Time> {
        let days = (days + count(DAYS_TO_1970)).0;
        let era = count(days.div_euclid(DAYS_OF_400_YEARS));
        let day = days.rem_euclid(DAYS_OF_400_YEARS);
        let leap_days = count(day / 1460) - count(day / 36_524) + count(day / 146_096);
        let year = (count(day) - leap_days).0 / 365;
        let leap_days = count(year / 4) - count(year / 100);
        let day = count(day) - count(year) * count(365) - leap_days;
        let month = (day * count(5) + count(2)).0 / 153;
        let year = era * count(400) + count(year) + count(month >= 10) - count(400);
        if !(0..=9999).contains(&year.0) {
            return None;
        }
        Some(Time {
            year: year.0 as u32,
            month: ((count(month) + count(2)).0 % 12).saturating_add(1) as u8,
            day: (day - count(days_to_month(month)) + count(1)).0 as u8,
            hour: 0,
            minute: 0,
            second: 0,
            nanosecond: 0,
            zone: Zone::Utc,
        })
    }

    /// Whether its month has its day.
    pub fn is_date(&self) -> bool {
        let found = Time::from_days(self.days());
        found.map_or(false, |found| {
            (found.year, found.month, found.day) == (self.year, self.month, self.day)
        })
    }

    /// What it sorts by.
    fn key(&self) -> impl Ord {
        let date = (self.year, self.month, self.day);
        let clock = (self.hour, self.minute, self.second);
        (self.unix_seconds(), self.nanosecond, date, clock, self.zone)
    }
}

impl Ord for Time {
    fn cmp(&self, other: &Self) -> Ordering {
        self.key().cmp(&other.key())
    }
}

forward!(PartialOrd for Time);

/// An error if the time is local, its month doesn't have its day, or the system has no such time.
///
/// ```
/// use dumarewhi::Any;
/// use std::time::{Duration, SystemTime};
///
/// let time = Any::from_der(b"\x17\x0d700102000001Z")?.as_time()?;
/// assert_eq!(SystemTime::try_from(time), Ok(SystemTime::UNIX_EPOCH + Duration::from_secs(86_401)));
/// # Ok::<(), dumarewhi::Error>(())
/// ```
#[cfg(feature = "std")]
impl TryFrom<Time> for SystemTime {
    type Error = Reason;

    fn try_from(time: Time) -> Result<SystemTime, Reason> {
        if time.zone == Zone::Local {
            return Err(Reason::MISSING_TIME_ZONE);
        }
        if !time.is_date() {
            return Err(Reason::INVALID_TIME);
        }
        let seconds = time.unix_seconds();
        let whole = Duration::from_secs(seconds.unsigned_abs());
        let moment = match seconds < 0 {
            true => SystemTime::UNIX_EPOCH.checked_sub(whole),
            false => SystemTime::UNIX_EPOCH.checked_add(whole),
        };
        let fraction = Duration::from_nanos(time.nanosecond.into());
        let moment = moment.and_then(|moment| moment.checked_add(fraction));
        moment.ok_or(Reason::INVALID_TIME)
    }
}

/// In UTC. An error unless the year is 0 to 9999.
///
/// ```
/// use dumarewhi::Time;
/// use std::time::SystemTime;
///
/// assert_eq!(Time::try_from(SystemTime::UNIX_EPOCH).unwrap().to_string(), "1970-01-01T00:00:00Z");
/// ```
#[cfg(feature = "std")]
impl TryFrom<SystemTime> for Time {
    type Error = Reason;

    fn try_from(moment: SystemTime) -> Result<Time, Reason> {
        let nanoseconds = match moment.duration_since(SystemTime::UNIX_EPOCH) {
            Ok(after) => after.as_nanos() as i128,
            Err(before) => (before.duration().as_nanos() as i128).wrapping_neg(),
        };
        let seconds = nanoseconds.div_euclid(1_000_000_000) as i64;
        let days = count(seconds.div_euclid(SECONDS_OF_A_DAY));
        let date = Time::from_days(days).ok_or(Reason::INVALID_TIME)?;
        let clock = seconds.rem_euclid(SECONDS_OF_A_DAY);
        Ok(Time {
            hour: (clock / 3600) as u8,
            minute: (clock / 60 % 60) as u8,
            second: (clock % 60) as u8,
            nanosecond: nanoseconds.rem_euclid(1_000_000_000) as u32,
            ..date
        })
    }
}

/// The fields that a [`Time`] and the library's have alike, and then others.
macro_rules! time {
    ($type:ident of $it:ident, $($other:ident),*) => {
        $type {
            year: $it.year,
            month: $it.month,
            day: $it.day,
            hour: $it.hour,
            minute: $it.minute,
            second: $it.second,
            nanosecond: $it.nanosecond,
            $($other,)*
        }
    };
}

impl From<TimeFields> for Time {
    fn from(fields: TimeFields) -> Time {
        let (hours, minutes) = (fields.zone_hours, fields.zone_minutes);
        let zone = match fields.zone {
            ffi::LOCAL => Zone::Local,
            ffi::UTC => Zone::Utc,
            _ => Zone::Offset { hours, minutes },
        };
        time!(Time of fields, zone)
    }
}

impl From<MomentFields> for Time {
    fn from(fields: MomentFields) -> Time {
        fields.time.into()
    }
}

impl From<MomentFields> for Option<Time> {
    fn from(fields: MomentFields) -> Option<Time> {
        (fields.number != 0).then(|| fields.time.into())
    }
}

impl From<Time> for TimeFields {
    fn from(time: Time) -> TimeFields {
        let (zone, zone_hours, zone_minutes) = match time.zone {
            Zone::Local => (ffi::LOCAL, 0, 0),
            Zone::Utc => (ffi::UTC, 0, 0),
            Zone::Offset { hours, minutes } => (ffi::OFFSET, hours, minutes),
        };
        time!(TimeFields of time, zone, zone_hours, zone_minutes)
    }
}

/// As in RFC 3339. A fraction has nine digits.
impl fmt::Display for Time {
    fn fmt(&self, f: &mut fmt::Formatter<'_>) -> fmt::Result {
        let Time {
            year,
            month,
            day,
            hour,
            minute,
            second,
            ..
        } = self;
        write!(
            f,
            "{year:04}-{month:02}-{day:02}T{hour:02}:{minute:02}:{second:02}"
        )?;
        if self.nanosecond != 0 {
            write!(f, ".{:09}", self.nanosecond)?;
        }
        self.zone.fmt(f)
    }
}

/// Nothing, `Z`, or an offset as `+01:00`.
impl fmt::Display for Zone {
    fn fmt(&self, f: &mut fmt::Formatter<'_>) -> fmt::Result {
        match self {
            Zone::Local => Ok(()),
            Zone::Utc => f.write_str("Z"),
            Zone::Offset { hours, minutes } => {
                let sign = if *hours < 0 || *minutes < 0 { '-' } else { '+' };
                write!(
                    f,
                    "{sign}{:02}:{:02}",
                    hours.unsigned_abs(),
                    minutes.unsigned_abs()
                )
            }
        }
    }
}
