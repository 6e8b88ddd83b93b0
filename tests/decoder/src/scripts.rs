//! Scripts from a seed: a clock that goes on, jumps and sometimes goes back; messages about it, their corrections and cancellations; boards that
//! fill; listings with every room.

use crate::generate::bulletin;
use crate::instants::{group, limit, OVER};
use crate::rng::Rng;
use crate::script::MOST;

const FIRST: u32 = 1_440;
const LAST: u32 = 52_591_679;
const TESTS: &[&str] = &["TEST", "TEST SIGMET PLEASE DISREGARD", "TEST. THIS IS A TEST SIGMET, PLEASE DISREGARD"];

/// What a message is about.
#[derive(Clone)]
struct Known {
    kind: &'static str,
    area: String,
    sequence: String,
    start: u32,
    end: u32,
}

/// How a script goes: one in so many commands advances the clock; how far at most, mostly; how many areas and sequences there are; one in so
/// many is a listing; whether most messages are long.
struct Style {
    advance: usize,
    pace: usize,
    areas: usize,
    sequences: usize,
    listing: usize,
    long: bool,
}

const STYLES: &[Style] = &[
    Style { advance: 2, pace: 60, areas: 4, sequences: 12, listing: 4, long: false },
    Style { advance: 4, pace: 10, areas: 3, sequences: 60, listing: 8, long: true },
    Style { advance: 20, pace: 4, areas: 20, sequences: 999, listing: 10, long: true },
    Style { advance: 3, pace: 1, areas: 2, sequences: 5, listing: 3, long: false },
    Style { advance: 1, pace: 400, areas: 5, sequences: 30, listing: 3, long: false },
    Style { advance: 60, pace: 2, areas: 6, sequences: 400, listing: 20, long: true },
];

struct Writer<'a> {
    rng: &'a mut Rng,
    style: &'static Style,
    seed: u64,
    clock: u32,
    known: Vec<Known>,
    script: Vec<u8>,
}

fn moved(instant: u32, by: i64) -> u32 {
    (i64::from(instant) + by).clamp(0, i64::from(OVER) - 1) as u32
}

impl Writer<'_> {
    /// A number from -most to most, often at an end or one past it.
    fn about(&mut self, most: i64) -> i64 {
        let sign = if self.rng.one_in(2) { 1 } else { -1 };
        sign * match self.rng.below(12) {
            0 => most,
            1 => most + 1,
            2 => most - 1,
            3 => 0,
            4 => 1,
            _ => self.rng.below(most as usize + 1) as i64,
        }
    }

    /// An instant near the end of a month, a year or February, or any.
    fn a_date(&mut self) -> u32 {
        let year = match self.rng.below(4) {
            0 => [0, 4, 23, 24, 96, 98, 99][self.rng.below(7)],
            _ => self.rng.below(100),
        } as u32;
        let first = year * 365 + (year + 3) / 4;
        let leap = u32::from(year % 4 == 0);
        let day = first
            + match self.rng.below(4) {
                0 => 58 + self.rng.below(4) as u32,
                1 => 364 + leap,
                2 => 31 * self.rng.below(12) as u32,
                _ => self.rng.below(365) as u32,
            };
        let hour = if self.rng.one_in(2) { 23 } else { self.rng.below(24) };
        moved(day * 1_440 + hour as u32 * 60, self.rng.below(120) as i64 - 30)
    }

    fn advance(&mut self) {
        let by = match self.rng.below(40) {
            0 => 1_440,
            1 => 240 + self.rng.below(240),
            2 => self.rng.below(60_000),
            3..=19 => 1,
            _ => self.rng.below(self.style.pace + 1),
        };
        self.clock = (self.clock + by as u32).min(LAST);
        // The rest of the month at once.
        if self.rng.one_in(600) {
            let next = self.a_date();
            if (FIRST..=LAST).contains(&next) && next > self.clock && next - self.clock < 3_000_000 {
                self.clock = next;
            }
        }
    }

    /// The clock of a call: mostly the script's own.
    fn time(&mut self) -> u32 {
        match self.rng.below(60) {
            0 => moved(self.clock, -1),
            1 => moved(self.clock, -(self.rng.below(3_000) as i64)),
            2 => [0, FIRST - 1, LAST + 1, u32::MAX, FIRST, OVER][self.rng.below(6)],
            _ => self.clock,
        }
    }

    fn some_known(&mut self) -> Option<Known> {
        let count = self.known.len();
        if count == 0 {
            return None;
        }
        // Mostly one of the last that has not ended.
        for _ in 0..6 {
            let back = self.rng.below(count.min(80));
            let known = &self.known[count - 1 - back];
            if known.end > self.clock {
                return Some(known.clone());
            }
        }
        Some(self.known[self.rng.below(count)].clone())
    }

    fn sequence(&mut self) -> String {
        let n = 1 + self.rng.below(self.style.sequences);
        match self.rng.below(12) {
            0 if n < 100 => format!("{}{n}", self.rng.letters(1)),
            1 if n < 10 => format!("{}0{n}", self.rng.letters(1)),
            2 if n < 100 => format!("{n:02}"),
            3 => format!("{n:03}"),
            _ => format!("{n}"),
        }
    }

    /// A message about the clock, with the start and the length often at a limit.
    fn new_known(&mut self) -> Known {
        let kind = ["WS", "WV"][usize::from(self.rng.one_in(3))];
        let most = i64::from(limit(kind));
        let start = match self.rng.below(20) {
            0 => moved(self.clock, self.about(1_440)),
            1 if self.rng.one_in(3) => moved(self.clock, self.about(2_900)),
            2..=10 => self.clock,
            11..=18 if self.style.long => moved(self.clock, -(self.rng.below(30) as i64)),
            _ => moved(self.clock, self.about(most)),
        };
        let length = match self.rng.below(30) {
            0 => 0,
            1 => most + 1,
            2 if self.rng.one_in(3) => self.about(1_500),
            3..=6 => most,
            _ if self.style.long => most - self.rng.below(60) as i64,
            _ => 1 + self.rng.below(most as usize) as i64,
        };
        let area = format!("Q{}", ["AAA", "AAB", "ABA", "BAA", "ZZZ"][self.rng.below(5.min(self.style.areas))]);
        let area = if self.style.areas > 5 { format!("{}{}", &area[..3], self.rng.letters(1)) } else { area };
        Known { kind, area, sequence: self.sequence(), start, end: moved(start, length) }
    }

    /// One part of it changed, and sometimes none.
    fn altered(&mut self, known: &Known) -> Known {
        let mut other = known.clone();
        match self.rng.below(16) {
            0 => other.kind = ["WS", "WV"][self.rng.below(2)],
            1 => other.area = self.new_known().area,
            2 => other.sequence = self.sequence(),
            3 => other.start = moved(other.start, self.about(2)),
            4 => other.end = moved(other.end, self.about(2)),
            _ => {}
        }
        other
    }

    fn correction(&mut self) -> String {
        match self.rng.below(3) {
            0 => String::new(),
            1 => format!("CC{} ", (b'A' + self.rng.below(4) as u8) as char),
            _ => format!("CC{} ", (b'A' + self.rng.below(24) as u8) as char),
        }
    }

    fn text(&mut self, known: &Known, correction: &str, body: &str) -> String {
        let (from, to) = (group(known.start), group(known.end));
        let blank = if self.rng.one_in(2) { "\r\n" } else { " " };
        let Known { kind, area, sequence, .. } = known;
        format!("{kind}ZZ31 QAAA {from} {correction}QBBB SIGMET {sequence} VALID {from}/{to} QAAA-{blank}{area} A FIR {body}=")
    }

    fn report(&mut self) -> String {
        let known = if self.rng.one_in(3) { self.some_known() } else { None };
        let (known, correction) = match known {
            Some(known) => (self.altered(&known), self.correction()),
            None => {
                let known = self.new_known();
                self.known.push(known.clone());
                (known, if self.rng.one_in(5) { self.correction() } else { String::new() })
            }
        };
        let body = if known.kind == "WS" { "SEV ICE OBS S OF N50 FL100 STNR NC" } else { "VA CLD OBS S OF N50 FL100 STNR NC" };
        self.text(&known, &correction, body)
    }

    /// A cancellation of a message that was there, of one that was not yet, or of none.
    fn cancellation(&mut self) -> String {
        let target = match self.some_known() {
            Some(known) if !self.rng.one_in(5) => self.altered(&known),
            _ => self.new_known(),
        };
        self.known.push(target.clone());
        let most = limit(target.kind);
        let start = match self.rng.below(6) {
            0 => moved(target.end, -i64::from(most) - self.rng.below(2) as i64),
            1 => target.start,
            _ => moved(self.clock, -(self.rng.below(20) as i64)),
        };
        let own = Known { sequence: self.sequence(), start, ..target.clone() };
        let correction = if self.rng.one_in(6) { self.correction() } else { String::new() };
        let body = format!("CNL SIGMET {} {}/{}", target.sequence, group(target.start), group(target.end));
        self.text(&own, &correction, &body)
    }

    fn a_test(&mut self) -> String {
        let known = self.new_known();
        let body = self.rng.pick(TESTS);
        self.text(&known, "", body)
    }

    /// Any bulletin of the decoder's, which is seldom read.
    fn any_bulletin(&mut self) -> Vec<u8> {
        loop {
            let index = self.rng.below(1 << 40) as u64;
            let (_, text) = bulletin(self.seed, index);
            if text.len() < 1_000 || self.rng.one_in(20) {
                return text;
            }
        }
    }

    fn number(&mut self, n: u64) -> String {
        if self.rng.one_in(100) { format!("{n:0width$}", width = 1 + self.rng.below(30)) } else { n.to_string() }
    }

    fn push_post(&mut self) {
        let text = match self.rng.below(40) {
            0 => self.a_test().into_bytes(),
            1 => self.any_bulletin(),
            2..=9 => self.cancellation().into_bytes(),
            _ => self.report().into_bytes(),
        };
        let (clock, count) = (self.time(), text.len());
        let head = format!("P {} {}\n", self.number(clock.into()), self.number(count as u64));
        self.script.extend(head.into_bytes());
        self.script.extend(text);
        self.script.push(b'\n');
    }

    fn push_listing(&mut self) {
        let time = match self.rng.below(4) {
            0 => self.time(),
            1 => moved(self.clock, self.rng.below(400) as i64),
            2 => match self.some_known() {
                Some(known) => [known.start, known.end, moved(known.start, -1), moved(known.end, -1)][self.rng.below(4)],
                None => self.clock,
            },
            _ => self.clock,
        };
        let room = match self.rng.below(6) {
            0 => self.rng.below(2_001),
            1 => 5 + 17 * self.rng.below(65),
            2 => (4 + 17 * self.rng.below(65)).min(2_000),
            _ => 1_093 + self.rng.below(2_000 - 1_092),
        };
        let line = format!("L {} {}\n", self.number(time.into()), self.number(room as u64));
        self.script.extend(line.into_bytes());
    }

    /// One command, its bytes spoilt where it is to be so.
    fn push(&mut self, spoilt: bool) {
        let at = self.script.len();
        if self.rng.one_in(self.style.advance) {
            self.advance();
        }
        if self.rng.one_in(self.style.listing) {
            self.push_listing();
        } else {
            self.push_post();
        }
        if spoilt {
            let place = at + self.rng.below((self.script.len() - at).min(24));
            match self.rng.below(4) {
                0 => drop(self.script.remove(place)),
                1 => self.script.insert(place, b" 0\n9x"[self.rng.below(5)]),
                2 => self.script[place] = b" 0\n9xLP"[self.rng.below(7)],
                _ => self.script.truncate(self.script.len() - 1),
            }
        }
    }
}

/// The script of this index. One in four is as long as a script may be, or all but; some end with what is no command.
pub fn script(seed: u64, index: u64) -> Vec<u8> {
    let rng = &mut Rng::new(seed, index);
    let length = match rng.below(4) {
        0 => MOST,
        1 => rng.below(MOST),
        _ => rng.below(150_000),
    };
    let style = &STYLES[rng.below(STYLES.len())];
    let mut writer = Writer { rng, style, seed, clock: FIRST, known: Vec::new(), script: Vec::new() };
    writer.clock = match writer.rng.below(8) {
        0 => FIRST,
        1 => LAST - writer.rng.below(3_000) as u32,
        _ => writer.a_date().clamp(FIRST, LAST),
    };
    let spoilt = writer.rng.one_in(4);
    loop {
        let before = writer.script.len();
        writer.push(false);
        if writer.script.len() > length {
            writer.script.truncate(before);
            break;
        }
    }
    if spoilt {
        writer.push(true);
        writer.push(false);
        writer.script.truncate(MOST);
    }
    writer.script
}
