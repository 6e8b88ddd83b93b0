//! Good messages as lists of words; on demand with slips that only the
//! neighbouring words give away (a slip is a part against the rules).

use crate::grammar::{LEAST_POINTS, MOST_POINTS};
use crate::outlines::LONG;
use crate::rng::Rng;
use crate::shapes::{COMPASS, INTENSITY};

pub struct Maker<'a> {
    rng: &'a mut Rng,
    /// One part in so many is a slip; 0 for none.
    slips: usize,
    words: Vec<String>,
}

pub fn group(rng: &mut Rng) -> String {
    format!("{:02}{:02}{:02}", rng.within(1, 31), rng.within(0, 23), rng.within(0, 59))
}

pub fn time(rng: &mut Rng) -> String {
    format!("{:02}{:02}Z", rng.within(0, 23), rng.within(0, 59))
}

pub fn sequence(rng: &mut Rng) -> String {
    let digits = rng.within(1, 3);
    let value = rng.within(1, 10usize.pow(digits as u32) - 1);
    if digits < 3 && rng.one_in(3) {
        format!("{}{value:0digits$}", rng.letters(1))
    } else {
        format!("{value:0digits$}")
    }
}

fn coordinate(rng: &mut Rng, letters: &[&str], wide: usize, most: usize) -> String {
    let degrees = rng.within(0, most);
    let minutes = if degrees == most { 0 } else { rng.within(0, 59) };
    let letter = rng.pick(letters);
    if rng.one_in(2) {
        format!("{letter}{degrees:0wide$}")
    } else {
        format!("{letter}{degrees:0wide$}{minutes:02}")
    }
}

pub fn latitude(rng: &mut Rng) -> String {
    coordinate(rng, &["N", "S"], 2, 90)
}

pub fn longitude(rng: &mut Rng) -> String {
    coordinate(rng, &["E", "W"], 3, 180)
}

/// The same value, perhaps in other letters and digits.
fn respell(rng: &mut Rng, word: &str) -> String {
    let wide = if word.starts_with(['N', 'S']) { 2 } else { 3 };
    let (letter, degrees, minutes) = (&word[..1], &word[1..1 + wide], &word[1 + wide..]);
    if minutes != "" && minutes != "00" {
        return word.to_string();
    }
    let letter = match degrees {
        "00" => rng.pick(&["N", "S"]),
        "000" | "180" => rng.pick(&["E", "W"]),
        _ => letter,
    };
    // W000 is not E180: only the letter of the same degrees changes.
    format!("{letter}{degrees}{}", rng.pick(&["", "00"]))
}

/// An equal point, perhaps in other letters and digits.
fn respelled(rng: &mut Rng, point: &(String, String)) -> (String, String) {
    (respell(rng, &point.0), respell(rng, &point.1))
}

pub fn level(rng: &mut Rng) -> String {
    let fl = rng.within(1, 999);
    match rng.below(9) {
        0 => format!("FL{fl:03}"),
        1 => format!("SFC/FL{fl:03}"),
        2 => format!("SFC/{:04}M", rng.within(1, 9999)),
        3 => format!("SFC/{:04}FT", rng.within(1, 9999)),
        4 => format!("SFC/{}FT", rng.within(10000, 99999)),
        5 => {
            let low = rng.within(1, 998);
            format!("FL{low:03}/{:03}", rng.within(low + 1, 999))
        }
        6 => format!("TOP FL{fl:03}"),
        7 => format!("ABV FL{fl:03}"),
        _ => format!("TOP ABV FL{fl:03}"),
    }
}

impl Maker<'_> {
    fn say(&mut self, words: &str) {
        self.words.extend(words.split(' ').map(str::to_string));
    }

    fn slip(&mut self) -> bool {
        self.slips > 0 && self.rng.one_in(self.slips)
    }

    /// A whole message, `=` included.
    pub fn message(rng: &mut Rng, slips: usize) -> Vec<String> {
        let mut m = Maker { rng, slips, words: Vec::new() };
        let ash = m.rng.one_in(3);
        let four = |m: &mut Maker| m.rng.letters(4);
        let kind = format!("{}{}{:02}", if ash { "WV" } else { "WS" }, m.rng.letters(2), m.rng.within(0, 99));
        let (centre, issued) = (four(&mut m), group(m.rng));
        m.say(&format!("{kind} {centre} {issued}"));
        if m.rng.one_in(4) {
            let which = m.rng.within(0, 23) as u8;
            m.say(&format!("CC{}", (b'A' + which) as char));
        }
        let (unit, office, seq) = (four(&mut m), four(&mut m), sequence(m.rng));
        let (start, end) = (group(m.rng), group(m.rng));
        m.say(&format!("{unit} SIGMET {seq} VALID {start}/{end} {office}-"));
        let area = if m.rng.one_in(3) { four(&mut m) } else { unit };
        m.say(&area);
        m.name(50, &["FIR", "CTA"]);
        let closing = m.rng.pick(&["FIR", "FIR/UIR", "CTA"]);
        m.say(closing);
        match m.rng.below(12) {
            0 => m.test(),
            1 | 2 => m.cancellation(&seq, &start, &end),
            _ => {
                let other = m.slip() && m.rng.one_in(4);
                m.report(ash != other, closing, &end)
            }
        }
        if m.slip() {
            let more = m.rng.pick(&["AND", "-", "FCST", "STNR", "MOV", "NC", "WKN", "SIGMET", "OF", "FL100", "E", "N10"]);
            m.say(more);
        }
        m.say("=");
        m.words
    }

    fn test(&mut self) {
        let forms = if self.slip() { 6 } else { 3 };
        let text = match self.rng.below(forms) {
            0 => "TEST",
            1 => "TEST SIGMET PLEASE DISREGARD",
            2 => "TEST. THIS IS A TEST SIGMET, PLEASE DISREGARD",
            3 => "TEST THIS IS A TEST SIGMET, PLEASE DISREGARD",
            4 => "TEST. SIGMET PLEASE DISREGARD",
            _ => "TEST SIGMET, PLEASE DISREGARD",
        };
        self.say(text);
    }

    fn cancellation(&mut self, seq: &str, start: &str, end: &str) {
        let target = match self.rng.below(5) {
            0 | 1 => seq.to_string(),
            2 if seq.len() < 3 && seq.bytes().all(|b| b.is_ascii_digit()) => format!("0{seq}"),
            _ => sequence(self.rng),
        };
        let same = self.rng.one_in(3) && (target != seq || self.slip());
        let mut from = if same { start.to_string() } else { group(self.rng) };
        if self.slips == 0 && target == seq && from == start {
            from = if start == "010000" { "020000" } else { "010000" }.to_string();
        }
        let to = if self.slip() { group(self.rng) } else { end.to_string() };
        self.say(&format!("CNL SIGMET {target} {from}/{to}"));
    }

    fn report(&mut self, ash: bool, closing: &str, end: &str) {
        if !ash {
            let plain = [
                "OBSC TS", "OBSC TSGR", "EMBD TS", "EMBD TSGR", "FRQ TS", "FRQ TSGR", "SQL TS", "SQL TSGR", "SEV TURB",
                "SEV ICE", "SEV ICE (FZRA)", "SEV MTW", "HVY DS", "HVY SS", "RDOACT CLD",
            ];
            let wrong = [
                "SEV TURB (FZRA)", "SEV MTW (FZRA)", "SEV ICE (FZRA) (FZRA)", "SEV TS", "SQL CLD", "HVY TS", "RDOACT TS",
                "HVY ICE", "OBSC DS", "ICE", "TS", "SEV (FZRA)", "EMBD TS TSGR", "FRQ TURB", "VA CLD",
            ];
            let phenomenon = if self.slip() { self.rng.pick(&wrong) } else { self.rng.pick(&plain) };
            self.say(phenomenon);
        } else if self.rng.one_in(3) {
            self.say("VA CLD");
        } else {
            self.say("VA ERUPTION");
            if self.rng.one_in(2) {
                self.say("MT");
                self.name(30, &["PSN"]);
            }
            if !self.slip() {
                let point = format!("PSN {} {}", latitude(self.rng), longitude(self.rng));
                self.say(&point);
            }
            self.say("VA CLD");
        }
        let observed = self.rng.pick(&["OBS", "FCST"]);
        self.say(observed);
        if self.rng.one_in(2) {
            let at = time(self.rng);
            self.say(&format!("AT {at}"));
        }
        self.location(closing);
        let wrong = [
            "TOP FL100/200", "TOP SFC/FL100", "ABV TOP FL100", "TOP TOP FL100", "ABV ABV FL100", "BLW FL100", "FL100 FL200",
            "TOP ABV ABV FL100", "ABV FL000", "TOP FL000", "TOP ABV SFC/0100M", "SFC FL100", "TOP", "ABV FL100/200",
        ];
        let level = if self.slip() { self.rng.pick(&wrong).to_string() } else { level(self.rng) };
        self.say(&level);
        self.ending(ash, closing, end);
    }

    fn location(&mut self, closing: &str) {
        let (lat, lon) = (latitude(self.rng), longitude(self.rng));
        let (ns, ew) = (self.rng.pick(&["N", "S"]), self.rng.pick(&["E", "W"]));
        // Mostly outlines, and these mostly long: what is counted in `outlines.rs` rests on it.
        match self.rng.below(18) {
            0 => self.say(&format!("{ns} OF {lat}")),
            1 => self.say(&format!("{ew} OF {lon}")),
            2 if self.slip() => self.say(&format!("{ew} OF {lon} AND {ns} OF {lat}")),
            2 if self.slip() => self.say(&format!("{ns} OF {lat} AND S OF {lat}")),
            2 | 3 => self.say(&format!("{ns} OF {lat} AND {ew} OF {lon}")),
            4 if self.slip() => {
                let any = self.rng.pick(&["FIR", "CTA", "FIR/UIR"]);
                self.say(&format!("ENTIRE {any}"));
            }
            4 => self.say(if closing == "CTA" { "ENTIRE CTA" } else { "ENTIRE FIR" }),
            _ => self.outline(),
        }
    }

    fn outline(&mut self) {
        // Few values, so that points share a latitude or a longitude often.
        let small = self.rng.one_in(2);
        let few_lats = ["N00", "S0000", "N10", "S10", "N1000", "N90", "S9000"];
        let few_lons = ["E180", "W180", "W18000", "E000", "W00000", "E01000", "E010"];
        let mut points: Vec<(String, String)> = Vec::new();
        let count = if self.slip() {
            [LEAST_POINTS - 2, LEAST_POINTS - 1, MOST_POINTS + 1][self.rng.below(3)]
        } else if self.rng.one_in(5) {
            self.rng.within(LEAST_POINTS, LONG - 1)
        } else {
            self.rng.within(LONG, MOST_POINTS)
        };
        while points.len() < count - 1 {
            let lat = if small { self.rng.pick(&few_lats).to_string() } else { latitude(self.rng) };
            let lon = if small { self.rng.pick(&few_lons).to_string() } else { longitude(self.rng) };
            let again = points.first().is_some_and(|p| same(p, &lat, &lon));
            if !again || self.slip() {
                points.push((lat, lon));
            }
        }
        let mut last = respelled(self.rng, &points[0]);
        if self.slip() {
            match self.rng.below(4) {
                0 => last.0 = latitude(self.rng),
                1 => last.1 = longitude(self.rng),
                2 => last.0 = last.0.replace('N', "?").replace('S', "N").replace('?', "S"),
                _ => last.1 = last.1.replace('E', "?").replace('W', "E").replace('?', "W"),
            }
        }
        points.push(last);
        // Closed before its last point.
        if self.slip() && self.rng.one_in(3) {
            let early = 1 + self.rng.below(points.len() - 1);
            points[early] = respelled(self.rng, &points[0]);
        }
        if self.slip() && self.rng.one_in(3) {
            points.push((latitude(self.rng), longitude(self.rng)));
        }
        let texts: Vec<String> = points.iter().map(|(lat, lon)| format!("{lat} {lon}")).collect();
        self.say(&format!("WI {}", texts.join(" - ")));
    }

    fn ending(&mut self, ash: bool, closing: &str, end: &str) {
        let intensity = self.rng.pick(INTENSITY);
        let unit = self.rng.pick(&["KT", "KMH"]);
        match self.rng.below(4) {
            0 => self.say(&format!("STNR {intensity}")),
            1 | 2 if !ash || self.slip() => {
                let at = if self.slip() { time(self.rng) } else { format!("{}Z", &end[2..]) };
                self.say(&format!("{intensity} FCST AT {at}"));
                self.location(closing);
            }
            _ => {
                let (point, speed) = (self.rng.pick(COMPASS), self.rng.within(1, 99));
                self.say(&format!("MOV {point} {speed:02}{unit} {intensity}"));
                if self.slip() && self.rng.one_in(3) {
                    self.say(&format!("FCST AT {}Z", &end[2..]));
                    self.location(closing);
                }
            }
        }
    }

    /// A name of up to `limit` characters, often just as many; with slips a little more.
    fn name(&mut self, limit: usize, closing: &[&str]) {
        let over = if self.slip() && self.rng.one_in(3) { 1 + self.rng.below(3) } else { 0 };
        let length = if over > 0 || self.rng.one_in(4) { limit + over } else { 1 + self.rng.below(20) };
        let odd = ["TEST", "PSN", "FIR", "CTA", "MT", "SIGMET", "CNL", "FCST", "UIR", "E", "A"];
        let mut left = length;
        while left > 0 {
            let mut word = match self.rng.below(8) {
                0 => self.rng.pick(&odd).to_string(),
                1 => self.hyphened(left),
                _ => {
                    let size = self.rng.within(1, left.min(12));
                    self.rng.letters(size)
                }
            };
            // A last single place is taken by a longer word, for a space needs one too.
            if word.len() > left || word.len() + 1 == left {
                word = self.rng.letters(left);
            }
            if !closing.contains(&word.as_str()) || self.slip() {
                left = left.saturating_sub(word.len() + 1);
                self.say(&word);
            }
        }
    }

    fn hyphened(&mut self, left: usize) -> String {
        let size = self.rng.within(1, left.min(15));
        let inner = |i: usize, c: char, hyphen: bool| if i > 0 && i + 1 < size && hyphen { '-' } else { c };
        let letters = self.rng.letters(size);
        letters.chars().enumerate().map(|(i, c)| inner(i, c, self.rng.one_in(3))).collect()
    }
}

/// Whether a point has the value of another.
fn same(point: &(String, String), lat: &str, lon: &str) -> bool {
    use crate::shapes::{latitude, longitude};
    let apart = longitude(&point.1).unwrap() - longitude(lon).unwrap();
    latitude(&point.0) == latitude(lat) && (apart == 0 || apart.abs() == 21600)
}
