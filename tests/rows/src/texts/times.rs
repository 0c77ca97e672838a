//! Times by their fields.
use der_base::header::Tag;
use der_base::time::{ASN1DateTime, ASN1TimeZone, TimeText};

/// A time by its year, month, day, hour, minute, second, nanosecond and zone.
pub fn time(words: &[&str]) -> Option<ASN1DateTime> {
    let [
        year,
        month,
        day,
        hour,
        minute,
        second,
        nanosecond,
        zone @ ..,
    ] = words
    else {
        return None;
    };
    Some(ASN1DateTime::new(
        year.parse().ok()?,
        month.parse().ok()?,
        day.parse().ok()?,
        hour.parse().ok()?,
        minute.parse().ok()?,
        second.parse().ok()?,
        nanosecond_of(nanosecond)?,
        zone_of(zone)?,
    ))
}

/// A nanosecond, or none.
fn nanosecond_of(word: &str) -> Option<Option<u32>> {
    match word {
        "none" => Some(None),
        number => Some(Some(number.parse().ok()?)),
    }
}

/// A zone by its parts.
fn zone_of(words: &[&str]) -> Option<ASN1TimeZone> {
    match words {
        ["undefined"] => Some(ASN1TimeZone::Undefined),
        ["z"] => Some(ASN1TimeZone::Z),
        ["offset", hours, minutes] => Some(ASN1TimeZone::Offset(
            hours.parse().ok()?,
            minutes.parse().ok()?,
        )),
        _ => None,
    }
}

/// The time as a UTCTime has it.
pub fn utc_time(words: &[&str]) -> Option<TimeText> {
    let time = time(words)?;
    Some(TimeText {
        tag: Tag::UtcTime,
        time,
    })
}

/// The year of the time by RFC 5280 (4.1.2.5.1).
pub fn rfc5280_year(words: &[&str]) -> Option<u32> {
    Some(time(words)?.rfc5280_year())
}
