//! A time in words: the day, the date and the hour, in UTC.

const DAYS: [&str; 7] = ["Thursday", "Friday", "Saturday", "Sunday", "Monday", "Tuesday", "Wednesday"];
const MONTHS: [&str; 12] =
    ["January", "February", "March", "April", "May", "June", "July", "August", "September", "October", "November", "December"];

fn leap(year: u64) -> bool {
    year.is_multiple_of(4) && (!year.is_multiple_of(100) || year.is_multiple_of(400))
}

fn length(year: u64, month: usize) -> u64 {
    match month {
        1 => 28 + u64::from(leap(year)),
        3 | 5 | 8 | 10 => 30,
        _ => 31,
    }
}

/// Year, month from 0 and day from 1 of a number of days since 1970. Four centuries always have 146,097 days.
fn date(days: u64) -> (u64, usize, u64) {
    let (mut year, mut left) = (1970 + days / 146_097 * 400, days % 146_097);
    while left >= 365 + u64::from(leap(year)) {
        left -= 365 + u64::from(leap(year));
        year += 1;
    }
    let mut month = 0;
    while left >= length(year, month) {
        left -= length(year, month);
        month += 1;
    }
    (year, month, left + 1)
}

/// Seconds since 1970 as words.
pub fn words(seconds: u64) -> String {
    let (days, rest) = (seconds / 86_400, seconds % 86_400);
    let (year, month, day) = date(days);
    let weekday = DAYS[(days % 7) as usize];
    format!("{weekday}, {day} {} {year}, {:02}:{:02}:{:02} UTC", MONTHS[month], rest / 3600, rest / 60 % 60, rest % 60)
}

/// The same, short.
pub fn short(seconds: u64) -> String {
    let (days, rest) = (seconds / 86_400, seconds % 86_400);
    let (year, month, day) = date(days);
    format!("{year:04}-{:02}-{day:02} {:02}:{:02}:{:02}", month + 1, rest / 3600, rest / 60 % 60, rest % 60)
}

#[cfg(test)]
mod tests {
    use super::*;

    #[test]
    fn days() {
        assert_eq!(words(0), "Thursday, 1 January 1970, 00:00:00 UTC");
        assert_eq!(short(951_782_400), "2000-02-29 00:00:00");
        assert_eq!(short(4_107_542_400), "2100-03-01 00:00:00");
        assert_eq!(words(1_234_567_890), "Friday, 13 February 2009, 23:31:30 UTC");
        assert_eq!(words(17_179_869_183), "Wednesday, 30 May 2514, 01:53:03 UTC");
    }
}
