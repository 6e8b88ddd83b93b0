//! Time: whole minutes from 2000-01-01 0000Z to the end of 2099, and what a group of day, hour and minute means.
//! Dates are worked out from the day's number, year by year of the era, and no month's first day is kept anywhere.

/// The first minute that is none: 2100-01-01 0000Z.
pub const OVER: u32 = 36_525 * 1_440;

/// The day of the month of a day counted from 2000-01-01. Years begin in March here, so that a leap day is a year's last.
pub fn day_of_month(days: u32) -> u32 {
    // 1600-03-01 begins an era of 400 years, and is 146,037 days before 2000-01-01: the 146,097 of the era less January and February 2000.
    let in_era = (days + 146_097 - 60) % 146_097;
    let year = (in_era - in_era / 1_460 + in_era / 36_524 - in_era / 146_096) / 365;
    let in_year = in_era - (365 * year + year / 4 - year / 100);
    // From March on the months have 31, 30, 31, 30, 31 days, over and over: 153 in five.
    let month = (5 * in_year + 2) / 153;
    in_year - (153 * month + 2) / 5 + 1
}

/// The group of an instant: day, hour and minute in six digits.
pub fn group(instant: u32) -> String {
    let minutes = instant % 1_440;
    format!("{:02}{:02}{:02}", day_of_month(instant / 1_440), minutes / 60, minutes % 60)
}

/// Whether the instant has this day, hour and minute.
fn has(instant: u32, group: &str) -> bool {
    let number: u32 = group.parse().expect("six digits");
    let (day, hour, minute) = (number / 10_000, number / 100 % 100, number % 100);
    instant < OVER && instant % 1_440 == hour * 60 + minute && day_of_month(instant / 1_440) == day
}

/// "WS 240, WV 360"
pub fn limit(kind: &str) -> u32 {
    if kind == "WS" { 240 } else { 360 }
}

/// "A start group means the one instant within 1,440 minutes of the clock, either side, both ends counted, that has that day, hour and minute."
pub fn start(clock: u32, group: &str) -> Option<u32> {
    let found: Vec<u32> = (clock.saturating_sub(1_440)..=clock + 1_440).filter(|&t| has(t, group)).collect();
    assert!(found.len() <= 1, "two instants for {group} at {clock}");
    found.first().copied()
}

/// "The end is the first such instant after the start, at most 240 minutes later for WS and 360 for WV."
pub fn end(kind: &str, start: u32, group: &str) -> Option<u32> {
    (start + 1..=start + limit(kind)).find(|&t| has(t, group))
}

/// "its start is the latest matching instant before that, under the same limit"
pub fn target_start(kind: &str, end: u32, group: &str) -> Option<u32> {
    (end.saturating_sub(limit(kind))..end).rev().find(|&t| has(t, group))
}
