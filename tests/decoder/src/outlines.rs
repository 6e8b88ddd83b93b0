//! How many points the outlines of random bulletins have.

use crate::decode::decode;
use crate::generate::bulletin;
use crate::shapes::{latitude, longitude, INTENSITY};
use std::collections::BTreeMap;

/// An outline of so many points is a long one: before CR 7 none had more than 7.
pub const LONG: usize = 8;

/// Latitude and longitude words joined by `-`, from the first of these words on.
fn points(words: &[&str]) -> usize {
    let mut count = 0;
    for point in words.chunks(3) {
        match point {
            [lat, lon, ..] if latitude(lat).is_some() && longitude(lon).is_some() => count += 1,
            _ => break,
        }
        if point.get(2) != Some(&"-") {
            break;
        }
    }
    count
}

/// The greatest number of points written after a `WI`, in the location and in the forecast; whatever becomes of the bulletin.
pub fn outlines(text: &[u8]) -> (usize, usize) {
    let text: String = text.iter().map(|&b| if b.is_ascii() { b as char } else { '?' }).collect();
    let words: Vec<&str> = text.split([' ', '\r', '\n', '=']).filter(|word| !word.is_empty()).collect();
    let (mut location, mut forecast) = (0, 0);
    for i in (0..words.len()).filter(|&i| words[i] == "WI") {
        // Before the forecast's stand the intensity, `FCST`, `AT` and the time.
        let last = i >= 4 && INTENSITY.contains(&words[i - 4]);
        let greatest = if last { &mut forecast } else { &mut location };
        *greatest = points(&words[i + 1..]).max(*greatest);
    }
    (location, forecast)
}

/// Bulletins by their points in the location, in the forecast and at most in either, and how many of these last are read; then the share of
/// the long ones.
pub fn table(seed: u64, count: u64) -> String {
    let mut rows: BTreeMap<usize, [u64; 4]> = BTreeMap::new();
    for index in 0..count {
        let (_, text) = bulletin(seed, index);
        let (location, forecast) = outlines(&text);
        let most = location.max(forecast);
        rows.entry(location).or_default()[0] += 1;
        rows.entry(forecast).or_default()[1] += 1;
        rows.entry(most).or_default()[2] += 1;
        rows.entry(most).or_default()[3] += u64::from(decode(&text).number == 0);
    }
    let mut out = format!("{:>6}{:>10}{:>10}{:>10}{:>10}\n", "points", "location", "forecast", "at most", "read");
    for (points, [location, forecast, most, read]) in &rows {
        out += &format!("{points:>6}{location:>10}{forecast:>10}{most:>10}{read:>10}\n");
    }
    let long: u64 = rows.range(LONG..).map(|(_, row)| row[2]).sum();
    out + &format!("{long} of {count} have {LONG} points or more: {:.1} in 100\n", long as f64 * 100.0 / count as f64)
}
