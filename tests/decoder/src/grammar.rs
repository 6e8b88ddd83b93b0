//! The grammar as a pile of parts still to come, each with its refusal number.
//! A word is held against the top: an optional part that it is not goes away,
//! and the first required part takes the word or refuses it.

use crate::shapes::*;
use Part::*;

#[derive(Clone, Copy)]
enum Part {
    /// One of these words.
    One(&'static [&'static str]),
    /// A word of this shape.
    Like(fn(&str) -> bool),
    /// Optional: this word, and what must then follow.
    Maybe(&'static str, &'static [Part]),
    Kind,
    Correction,
    Sequence,
    Period,
    /// A name of at most so many characters that none of these words belongs to.
    Name(usize, &'static [&'static str]),
    /// Optional: a further word of a name, for which so many characters are left.
    MoreName(usize, &'static [&'static str]),
    Closing,
    Content,
    TargetSequence,
    TargetPeriod,
    Severe,
    Ash,
    Location,
    LongitudeBound,
    Entire,
    OutlineLatitude,
    OutlineLongitude,
    Level,
    Ending,
    EndTime,
    End,
}

/// "Outlines may have 4 to 20 written points, for the location and for the forecast."
pub const LEAST_POINTS: usize = 4;
pub const MOST_POINTS: usize = 20;

const CLOSING: &[&str] = &["FIR", "FIR/UIR", "CTA"];
const LATITUDE: Part = Like(|w| latitude(w).is_some());
const LONGITUDE: Part = Like(|w| longitude(w).is_some());

/// A word of a name that has so many characters left for it.
fn in_name(word: &str, room: usize, closing: &[&str]) -> bool {
    !closing.contains(&word) && name_word(word) && word.len() <= room
}

/// Whether the part is optional and the word is not that thing.
fn passed_over(part: Part, word: &str) -> bool {
    match part {
        Maybe(first, _) => word != first,
        Correction => !correction(word),
        MoreName(room, closing) => !in_name(word, room, closing),
        _ => false,
    }
}

#[derive(Default)]
pub struct Parser {
    pile: Vec<(u8, Part)>,
    pub corrected: bool,
    ash: bool,
    cta: bool,
    sequence: String,
    start: String,
    end: String,
    own_sequence: bool,
    points: Vec<(i32, i32)>,
    latitude: i32,
}

impl Parser {
    pub fn new() -> Parser {
        let mut p = Parser::default();
        p.push(12, &[End]);
        p.push(7, &[Content]);
        p.push(6, &[Like(four_letters), Name(50, CLOSING), Closing]);
        p.push(5, &[Correction, Like(four_letters), One(&["SIGMET"]), Sequence, One(&["VALID"]), Period, Like(office)]);
        p.push(4, &[Kind, Like(four_letters), Like(group)]);
        p
    }

    /// Puts parts on the pile, the first of them uppermost.
    fn push(&mut self, number: u8, parts: &[Part]) {
        self.pile.extend(parts.iter().rev().map(|&part| (number, part)));
    }

    /// Takes the next word, or gives the number of its refusal.
    pub fn take(&mut self, word: &str) -> Result<(), u8> {
        loop {
            // Under all parts lies `=`, which is only ever the last word.
            let (number, part) = self.pile.pop().unwrap();
            if !passed_over(part, word) {
                return if self.fits(number, part, word) { Ok(()) } else { Err(number) };
            }
        }
    }

    /// Whether the word is this part, or its first word; what must follow goes on the pile.
    fn fits(&mut self, number: u8, part: Part, word: &str) -> bool {
        match part {
            Maybe(_, rest) => {
                self.push(number, rest);
                true
            }
            Correction => {
                self.corrected = true;
                true
            }
            Name(room, closing) | MoreName(room, closing) => {
                let left = room.saturating_sub(word.len()).saturating_sub(1);
                self.push(number, &[MoreName(left, closing)]);
                in_name(word, room, closing)
            }
            One(words) => words.contains(&word),
            Like(shape) => shape(word),
            Kind => {
                self.ash = word.starts_with("WV");
                kind(word)
            }
            Sequence => {
                self.sequence = word.to_string();
                sequence(word)
            }
            Period => match period(word) {
                Some((start, end)) => {
                    (self.start, self.end) = (start.to_string(), end.to_string());
                    true
                }
                None => false,
            },
            Closing => {
                self.cta = word == "CTA";
                CLOSING.contains(&word)
            }
            Content => self.content(word),
            TargetSequence => {
                self.own_sequence = word == self.sequence;
                sequence(word)
            }
            // The same end, and not all three those of the message itself.
            TargetPeriod => period(word)
                .is_some_and(|(start, end)| end == self.end && !(self.own_sequence && start == self.start)),
            Severe => {
                if word == "ICE" {
                    self.push(number, &[Maybe("(FZRA)", &[])]);
                }
                ["TURB", "ICE", "MTW"].contains(&word)
            }
            Ash => {
                if word == "ERUPTION" {
                    let name = &[Name(30, &["PSN"])];
                    let rest = [Maybe("MT", name), One(&["PSN"]), LATITUDE, LONGITUDE, One(&["VA"]), One(&["CLD"])];
                    self.push(number, &rest);
                }
                ["CLD", "ERUPTION"].contains(&word)
            }
            Location => self.location(number, word),
            LongitudeBound => {
                self.push(number, &[One(&["OF"]), LONGITUDE]);
                ["E", "W"].contains(&word)
            }
            Entire => word == if self.cta { "CTA" } else { "FIR" },
            OutlineLatitude => self.outline_latitude(word),
            OutlineLongitude => self.outline_longitude(number, word),
            Level => {
                match word {
                    "TOP" => self.push(number, &[Maybe("ABV", &[]), Like(flight)]),
                    "ABV" => self.push(number, &[Like(flight)]),
                    _ => {}
                }
                word == "TOP" || word == "ABV" || level(word)
            }
            Ending => self.ending(number, word),
            EndTime => word.strip_suffix('Z').is_some_and(|t| t == &self.end[2..]),
            End => word == "=",
        }
    }

    /// The first word of a test, a cancellation or a phenomenon.
    fn content(&mut self, word: &str) -> bool {
        const THIS: &[Part] = &[
            One(&["THIS"]), One(&["IS"]), One(&["A"]), One(&["TEST"]), One(&["SIGMET,"]), One(&["PLEASE"]), One(&["DISREGARD"]),
        ];
        let report = !["TEST", "TEST.", "CNL"].contains(&word);
        let rest: &[Part] = match (word, self.ash) {
            ("TEST", _) => &[Maybe("SIGMET", &[One(&["PLEASE"]), One(&["DISREGARD"])])],
            ("TEST.", _) => THIS,
            ("CNL", _) => &[One(&["SIGMET"]), TargetSequence, TargetPeriod],
            ("OBSC" | "EMBD" | "FRQ" | "SQL", false) => &[One(&["TS", "TSGR"])],
            ("SEV", false) => &[Severe],
            ("HVY", false) => &[One(&["DS", "SS"])],
            ("RDOACT", false) => &[One(&["CLD"])],
            ("VA", true) => &[Ash],
            _ => return false,
        };
        if report {
            self.push(11, &[Ending]);
            self.push(10, &[Level]);
            self.push(9, &[Location]);
            self.push(8, &[One(&["OBS", "FCST"]), Maybe("AT", &[Like(time)])]);
        }
        self.push(7, rest);
        true
    }

    fn location(&mut self, number: u8, word: &str) -> bool {
        self.points.clear();
        match word {
            "N" | "S" => self.push(number, &[One(&["OF"]), LATITUDE, Maybe("AND", &[LongitudeBound])]),
            "E" | "W" => self.push(number, &[One(&["OF"]), LONGITUDE]),
            "WI" => self.push(number, &[OutlineLatitude, OutlineLongitude]),
            "ENTIRE" => self.push(number, &[Entire]),
            _ => return false,
        }
        true
    }

    /// The last point that an outline may have can only be the first again.
    fn outline_latitude(&mut self, word: &str) -> bool {
        let Some(value) = latitude(word) else { return false };
        self.latitude = value;
        self.points.len() + 1 < MOST_POINTS || value == self.points[0].0
    }

    fn outline_longitude(&mut self, number: u8, word: &str) -> bool {
        let Some(value) = longitude(word) else { return false };
        self.points.push((self.latitude, value));
        let (count, first) = (self.points.len(), self.points[0]);
        let closed = count > 1 && self.latitude == first.0 && [0, 21600].contains(&(value - first.1).abs());
        if !closed {
            self.push(number, &[One(&["-"]), OutlineLatitude, OutlineLongitude]);
        }
        if closed { count >= LEAST_POINTS } else { count < MOST_POINTS }
    }

    fn ending(&mut self, number: u8, word: &str) -> bool {
        match word {
            "MOV" => self.push(number, &[One(COMPASS), Like(speed), One(INTENSITY)]),
            "STNR" => self.push(number, &[One(INTENSITY)]),
            _ if INTENSITY.contains(&word) && !self.ash => {
                self.push(number, &[One(&["FCST"]), One(&["AT"]), EndTime, Location])
            }
            _ => return false,
        }
        true
    }
}
