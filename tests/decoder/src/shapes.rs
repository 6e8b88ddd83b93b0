//! The shapes of single words, each judged without its neighbours.

pub const COMPASS: &[&str] = &[
    "N", "NNE", "NE", "ENE", "E", "ESE", "SE", "SSE", "S", "SSW", "SW", "WSW", "W", "WNW", "NW", "NNW",
];
pub const INTENSITY: &[&str] = &["INTSF", "WKN", "NC"];

/// The value of a run of exactly `count` digits.
fn number(text: &str, count: usize) -> Option<u32> {
    let digits = text.len() == count && text.bytes().all(|b| b.is_ascii_digit());
    if digits { text.parse().ok() } else { None }
}

fn letters(text: &str, count: usize) -> bool {
    text.len() == count && text.bytes().all(|b| b.is_ascii_uppercase())
}

pub fn four_letters(word: &str) -> bool {
    letters(word, 4)
}

/// `WS` or `WV`, two letters, two digits.
pub fn kind(word: &str) -> bool {
    word.len() == 6 && ["WS", "WV"].contains(&&word[..2]) && letters(&word[2..4], 2) && number(&word[4..], 2).is_some()
}

pub fn correction(word: &str) -> bool {
    word.len() == 3 && word.starts_with("CC") && ('A'..='X').contains(&(word.as_bytes()[2] as char))
}

fn hour_minute(text: &str) -> bool {
    number(text, 4).is_some_and(|n| n / 100 <= 23 && n % 100 <= 59)
}

/// Day, hour and minute in six digits.
pub fn group(word: &str) -> bool {
    number(word, 6).is_some_and(|n| (1..=31).contains(&(n / 10000))) && hour_minute(&word[2..])
}

/// `GGggZ`.
pub fn time(word: &str) -> bool {
    word.strip_suffix('Z').is_some_and(hour_minute)
}

/// The two groups of `group/group`.
pub fn period(word: &str) -> Option<(&str, &str)> {
    word.split_once('/').filter(|(a, b)| group(a) && group(b))
}

pub fn office(word: &str) -> bool {
    word.strip_suffix('-').is_some_and(four_letters)
}

/// 1 to 3 characters: perhaps a letter, then digits that are not all zero.
pub fn sequence(word: &str) -> bool {
    let digits = word.strip_prefix(|c: char| c.is_ascii_uppercase()).unwrap_or(word);
    word.len() <= 3 && number(digits, digits.len()).is_some_and(|n| n > 0)
}

/// A word of a name: letters and hyphens, a letter at both ends.
pub fn name_word(word: &str) -> bool {
    word.bytes().all(|b| b.is_ascii_uppercase() || b == b'-') && !word.starts_with('-') && !word.ends_with('-')
}

/// A letter, `wide` digits of degrees, then perhaps two of minutes; in signed minutes.
fn coordinate(word: &str, plus: &str, minus: &str, wide: usize, most: u32) -> Option<i32> {
    let (sign, digits) = match (word.strip_prefix(plus), word.strip_prefix(minus)) {
        (Some(rest), _) => (1, rest),
        (_, Some(rest)) => (-1, rest),
        _ => return None,
    };
    let (degrees, minutes) = match digits.len() {
        n if n == wide => (number(digits, wide)?, 0),
        n if n == wide + 2 => (number(&digits[..wide], wide)?, number(&digits[wide..], 2)?),
        _ => return None,
    };
    let good = degrees <= most && minutes <= 59 && (degrees < most || minutes == 0);
    good.then_some(sign * (degrees * 60 + minutes) as i32)
}

pub fn latitude(word: &str) -> Option<i32> {
    coordinate(word, "N", "S", 2, 90)
}

pub fn longitude(word: &str) -> Option<i32> {
    coordinate(word, "E", "W", 3, 180)
}

/// `FLnnn`, not zero.
pub fn flight(word: &str) -> bool {
    word.strip_prefix("FL").and_then(|d| number(d, 3)).is_some_and(|n| n > 0)
}

/// A level of one word.
pub fn level(word: &str) -> bool {
    let Some((low, high)) = word.split_once('/') else { return flight(word) };
    if low == "SFC" {
        let metres = high.strip_suffix('M').and_then(|d| number(d, 4));
        let feet = high.strip_suffix("FT").and_then(|d| number(d, 4));
        let more_feet = high.strip_suffix("FT").and_then(|d| number(d, 5));
        flight(high)
            || metres.is_some_and(|n| n > 0)
            || feet.is_some_and(|n| n > 0)
            || more_feet.is_some_and(|n| n >= 10000)
    } else {
        flight(low) && number(high, 3).is_some_and(|n| number(&low[2..], 3).unwrap() < n)
    }
}

/// `nnKT` or `nnKMH`, 01 to 99.
pub fn speed(word: &str) -> bool {
    let digits = word.strip_suffix("KT").or(word.strip_suffix("KMH"));
    digits.and_then(|d| number(d, 2)).is_some_and(|n| n > 0)
}
