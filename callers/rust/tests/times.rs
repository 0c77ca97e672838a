//! Times: their order, and the system's. Expected numbers are those of `date` (GNU) and arithmetic.
use dumarewhi::{Any, Time};

fn generalized(text: &str) -> Time {
    let input = [&[24, text.len() as u8], text.as_bytes()].concat();
    Any::from_ber(&input).unwrap().as_time().unwrap()
}

/// `date -u -d DATE +%s`
const SECONDS: &[(&str, i64)] = &[
    ("19700101000000Z", 0),
    ("19691231235959Z", -1),
    ("20000229120000Z", 951_825_600),
    ("20000301000000Z", 951_868_800),
    ("19000228235959Z", -2_203_891_201),
    ("19000301000000Z", -2_203_891_200),
    ("20491231235959Z", 2_524_607_999),
    ("99991231235959Z", 253_402_300_799),
    ("00010101000000Z", -62_135_596_800),
    ("20240229000000+0130", 1_709_159_400),
    ("20240229000000-0130", 1_709_170_200),
];

#[test]
fn seconds() {
    for (text, seconds) in SECONDS {
        assert_eq!(generalized(text).unix_seconds(), *seconds, "{text}");
    }
}

#[test]
fn order() {
    let sorted: Vec<_> = [
        "20240228235959Z",
        "20240229000000.1Z",
        "20240229000000.2Z",
        "20240229013000+0100",
        "20240229003000Z",
        "20240229003000-0000",
        "20240301000000Z",
    ]
    .map(generalized)
    .into();
    let mut shuffled = sorted.clone();
    shuffled.reverse();
    shuffled.sort();
    let moments = |times: &[Time]| times.iter().map(|time| time.unix_seconds()).collect::<Vec<_>>();
    assert_eq!(moments(&shuffled), moments(&sorted));
    assert_eq!(shuffled[..3], sorted[..3]);
    // The same moment, and not the same fields.
    assert!(sorted[3] != sorted[4] && sorted[3].unix_seconds() == sorted[4].unix_seconds());
}

#[test]
fn dates() {
    assert!(generalized("20240229000000Z").is_date());
    assert!(!generalized("20230229000000Z").is_date());
    assert!(!generalized("20240431000000Z").is_date());
    assert!(generalized("20001231000000Z").is_date());
}

#[test]
#[cfg(feature = "std")]
fn times_of_the_system() {
    use dumarewhi::Zone;
    use std::time::{Duration, SystemTime};
    for (text, seconds) in SECONDS {
        let time = generalized(text);
        let moment = SystemTime::try_from(time).unwrap();
        let whole = Duration::from_secs(seconds.unsigned_abs());
        match *seconds < 0 {
            true => assert_eq!(SystemTime::UNIX_EPOCH.duration_since(moment).unwrap(), whole),
            false => assert_eq!(moment.duration_since(SystemTime::UNIX_EPOCH).unwrap(), whole),
        }
        let back = Time::try_from(moment).unwrap();
        assert_eq!(back.unix_seconds(), *seconds);
        assert_eq!(back.zone, Zone::Utc);
        assert!(time.zone != Zone::Utc || back == time, "{text}");
    }
    let half = generalized("19691231235959.25Z");
    let before = SystemTime::UNIX_EPOCH - Duration::from_millis(750);
    assert_eq!(SystemTime::try_from(half), Ok(before));
    assert_eq!(Time::try_from(before), Ok(half));
    assert!(SystemTime::try_from(generalized("20230229000000Z")).is_err());
    assert!(SystemTime::try_from(generalized("20230228000000")).is_err());
    let last = SystemTime::UNIX_EPOCH + Duration::from_secs(253_402_300_799);
    assert!(Time::try_from(last).is_ok() && Time::try_from(last + Duration::from_secs(1)).is_err());
}

/// Each day of 801 years, one after the other.
#[test]
#[cfg(feature = "std")]
fn days_in_order() {
    use std::time::{Duration, SystemTime};
    let lengths = |year: u32| {
        let leap = year % 4 == 0 && (year % 100 != 0 || year % 400 == 0);
        [31, 28 + u8::from(leap), 31, 30, 31, 30, 31, 31, 30, 31, 30, 31]
    };
    let mut moment = SystemTime::UNIX_EPOCH - Duration::from_secs(11_676_096_000); // 1600-01-01
    for year in 1600..=2400 {
        for (month, length) in lengths(year).iter().enumerate() {
            for day in 1..=*length {
                let time = Time::try_from(moment).unwrap();
                assert_eq!((time.year, time.month, time.day), (year, month as u8 + 1, day));
                assert_eq!(SystemTime::try_from(time), Ok(moment));
                moment += Duration::from_secs(86_400);
            }
        }
    }
}
