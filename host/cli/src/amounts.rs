//! Numbers and times for people.
use std::time::Duration;

/// A number in groups of three digits: 171,798,691,800.
pub fn grouped(number: u64) -> String {
    let digits = number.to_string();
    let mut grouped = String::new();
    for (at, digit) in digits.chars().enumerate() {
        if at > 0 && (digits.len() - at).is_multiple_of(3) {
            grouped.push(',');
        }
        grouped.push(digit);
    }
    grouped
}

/// So many HMAC values, in words.
pub fn hmac_values(values: u64) -> String {
    match values {
        1 => "1 HMAC value".into(),
        _ => format!("{} HMAC values", grouped(values)),
    }
}

/// How long something takes, in one or two units that fit: "0.052 s", "12.3 s", "4 min 10 s", "2 h 5 min", "3 days 7 h".
pub fn duration(time: Duration) -> String {
    // What a unit shows is rounded before the unit is chosen: 59.96 s are a minute.
    let milliseconds = (time.as_nanos() + 500_000) / 1_000_000;
    if milliseconds < 10_000 {
        return format!("{}.{:03} s", milliseconds / 1000, milliseconds % 1000);
    }
    let tenths = (time.as_millis() + 50) / 100;
    if tenths < 600 {
        return format!("{}.{} s", tenths / 10, tenths % 10);
    }
    let seconds = (time.as_millis() + 500) / 1000;
    let minutes = (seconds + 30) / 60;
    let hours = (seconds + 1800) / 3600;
    if seconds < 3600 {
        format!("{} min {} s", seconds / 60, seconds % 60)
    } else if minutes < 24 * 60 {
        format!("{} h {} min", minutes / 60, minutes % 60)
    } else {
        let days = hours / 24;
        format!("{days} {} {} h", if days == 1 { "day" } else { "days" }, hours % 24)
    }
}

/// The same for a time that runs down: in whole seconds, rounded up, up to a minute.
pub fn in_seconds(time: Duration) -> String {
    match time.as_millis().div_ceil(1000) {
        seconds @ 0..=60 => format!("{seconds} s"),
        _ => duration(time),
    }
}

#[cfg(test)]
mod tests {
    use super::*;

    #[test]
    fn digits_stand_in_threes() {
        let numbers = [0, 7, 999, 1000, 2002, 123_456, 1_234_567, 171_798_691_800];
        let said = ["0", "7", "999", "1,000", "2,002", "123,456", "1,234,567", "171,798,691,800"];
        assert_eq!(numbers.map(grouped), said);
        assert_eq!(grouped(u64::MAX), "18,446,744,073,709,551,615");
        assert_eq!([0, 1, 2000].map(hmac_values), ["0 HMAC values", "1 HMAC value", "2,000 HMAC values"]);
    }

    #[test]
    fn a_time_has_units_that_fit() {
        let milliseconds = |time| duration(Duration::from_millis(time));
        assert_eq!(duration(Duration::from_micros(499)), "0.000 s");
        assert_eq!(milliseconds(52), "0.052 s");
        assert_eq!(milliseconds(9999), "9.999 s");
        assert_eq!(duration(Duration::from_micros(9_999_600)), "10.0 s");
        assert_eq!(milliseconds(12_340), "12.3 s");
        assert_eq!(milliseconds(59_949), "59.9 s");
        assert_eq!(milliseconds(59_950), "1 min 0 s");
        assert_eq!(milliseconds(250_499), "4 min 10 s");
        assert_eq!(milliseconds(3_599_499), "59 min 59 s");
        let seconds = |time| duration(Duration::from_secs(time));
        assert_eq!(seconds(3600), "1 h 0 min");
        assert_eq!(seconds(7529), "2 h 5 min");
        assert_eq!(seconds(86_369), "23 h 59 min");
        assert_eq!(seconds(86_370), "1 day 0 h");
        assert_eq!(seconds(3 * 86_400 + 7 * 3600 + 1799), "3 days 7 h");
        assert_eq!(seconds(17_179_869), "198 days 20 h");
        assert_eq!(
            [0, 1, 1000, 1001, 58_999].map(Duration::from_millis).map(in_seconds),
            ["0 s", "1 s", "1 s", "2 s", "59 s"]
        );
        assert_eq!(
            [59_001, 60_001, 90_000].map(Duration::from_millis).map(in_seconds),
            ["60 s", "1 min 0 s", "1 min 30 s"]
        );
    }
}
