//! Times of day in UTC, as the campus file and MADCAP count them: whole seconds since 1970, 32 bits.

/// Days from 1970-01-01 to the first of March of the year 0, by the calendar of today.
const EPOCH: i64 = 719_468;
/// Days of 400 years.
const ERA: i64 = 146_097;
const DAY: i64 = 86_400;

/// A time in words, `2026-11-17T09:30:00Z`.
pub fn in_words(time: u32) -> String {
    let (days, second) = (i64::from(time) / DAY, i64::from(time) % DAY);
    let (year, month, day) = date(days);
    let (hour, minute, second) = (second / 3600, second / 60 % 60, second % 60);
    format!("{year:04}-{month:02}-{day:02}T{hour:02}:{minute:02}:{second:02}Z")
}

/// The time that words such as `2026-11-17T09:30:00Z` say, from 1970 to the last second of 32 bits.
pub fn read(words: &str) -> Option<u32> {
    let octets = words.as_bytes();
    let marks = [
        (4, b'-'),
        (7, b'-'),
        (10, b'T'),
        (13, b':'),
        (16, b':'),
        (19, b'Z'),
    ];
    if octets.len() != 20 || marks.iter().any(|&(at, mark)| octets[at] != mark) {
        return None;
    }
    let number = |from: usize, to: usize| {
        let digits = octets.get(from..to)?;
        let is_number = digits.iter().all(u8::is_ascii_digit);
        is_number.then(|| {
            digits
                .iter()
                .fold(0, |n, digit| n * 10 + i64::from(digit - b'0'))
        })
    };
    let (year, month, day) = (number(0, 4)?, number(5, 7)?, number(8, 10)?);
    let (hour, minute, second) = (number(11, 13)?, number(14, 16)?, number(17, 19)?);
    if !(1..=12).contains(&month) || hour > 23 || minute > 59 || second > 59 {
        return None;
    }
    let days = days(year, month, day);
    // A day that its month hasn't would be read as one of the next.
    if date(days) != (year, month, day) {
        return None;
    }
    u32::try_from(days * DAY + hour * 3600 + minute * 60 + second).ok()
}

/// A number of seconds for people: `3600 s (1 h)`.
pub fn span(seconds: u32) -> String {
    let parts = [
        (seconds / 86_400, "d"),
        (seconds / 3600 % 24, "h"),
        (seconds / 60 % 60, "min"),
        (seconds % 60, "s"),
    ];
    let parts = parts.iter().filter(|(count, _)| *count > 0);
    let parts: Vec<String> = parts
        .map(|(count, unit)| format!("{count} {unit}"))
        .collect();
    match seconds {
        0..=59 => format!("{seconds} s"),
        _ => format!("{seconds} s ({})", parts.join(" ")),
    }
}

/// Year, month and day of a day since 1970. Years are counted from March, so that the leap day is a year's last.
fn date(days: i64) -> (i64, i64, i64) {
    let days = days + EPOCH;
    let (era, day) = (days.div_euclid(ERA), days.rem_euclid(ERA));
    let year = (day - day / 1460 + day / 36_524 - day / 146_096) / 365;
    let day = day - (365 * year + year / 4 - year / 100);
    let month = (5 * day + 2) / 153;
    let day = day - (153 * month + 2) / 5 + 1;
    let month = if month < 10 { month + 3 } else { month - 9 };
    (year + era * 400 + i64::from(month <= 2), month, day)
}

/// The day since 1970 of a year, month and day.
fn days(year: i64, month: i64, day: i64) -> i64 {
    let year = year - i64::from(month <= 2);
    let (era, year) = (year.div_euclid(400), year.rem_euclid(400));
    let month = if month > 2 { month - 3 } else { month + 9 };
    let day = (153 * month + 2) / 5 + day - 1;
    era * ERA + year * 365 + year / 4 - year / 100 + day - EPOCH
}

#[cfg(test)]
mod tests {
    use super::{in_words, read, span};

    #[test]
    fn known_times() {
        for (time, words) in [
            (0, "1970-01-01T00:00:00Z"),
            (951_782_399, "2000-02-28T23:59:59Z"),
            (951_782_400, "2000-02-29T00:00:00Z"),
            (1_700_000_000, "2023-11-14T22:13:20Z"),
            (4_107_542_399, "2100-02-28T23:59:59Z"),
            (4_107_542_400, "2100-03-01T00:00:00Z"),
            (u32::MAX, "2106-02-07T06:28:15Z"),
        ] {
            assert_eq!(in_words(time), words);
            assert_eq!(read(words), Some(time));
        }
    }

    #[test]
    fn every_day_is_read_back() {
        for time in (0..=u32::MAX).step_by(86_399) {
            assert_eq!(read(&in_words(time)), Some(time));
        }
    }

    #[test]
    fn what_is_no_time() {
        for words in [
            "",
            "2023-11-14",
            "2023-11-14 22:13:20Z",
            "2023-13-01T00:00:00Z",
            "2023-02-29T00:00:00Z",
            "2100-02-29T00:00:00Z",
            "2023-11-00T00:00:00Z",
            "2023-11-14T24:00:00Z",
            "2023-11-14T23:59:60Z",
            "1969-12-31T23:59:59Z",
            "2106-02-07T06:28:16Z",
            "+023-11-14T22:13:20Z",
            "2023-11-14T22:13:2\u{e9}",
        ] {
            assert_eq!(read(words), None, "{words}");
        }
    }

    #[test]
    fn spans() {
        assert_eq!(span(0), "0 s");
        assert_eq!(span(59), "59 s");
        assert_eq!(span(3600), "3600 s (1 h)");
        assert_eq!(span(694_861), "694861 s (8 d 1 h 1 min 1 s)");
    }
}
