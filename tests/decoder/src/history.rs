//! A board that remembers every accepted post and works each answer out of that history by the paper's sentences. It has no places: how many are
//! in use is how many identities have been told of and have not ended.

use crate::instants;

#[derive(Clone, Debug, PartialEq)]
pub struct Identity {
    pub kind: String,
    pub area: String,
    pub sequence: String,
    pub start: u32,
    pub end: u32,
}

/// What a bulletin says that matters here. Groups as written.
#[derive(Clone, Debug)]
pub struct Message {
    pub kind: String,
    pub area: String,
    pub sequence: String,
    pub correction: Option<char>,
    pub from: String,
    pub to: String,
    pub form: Form,
}

#[derive(Clone, Debug)]
pub enum Form {
    Test,
    /// The target's sequence and first group.
    Cancellation(String, String),
    Report,
}

enum Event {
    Reported(Identity, Option<char>),
    Cancelled(Identity),
}

impl Event {
    fn identity(&self) -> &Identity {
        match self {
            Event::Reported(identity, _) | Event::Cancelled(identity) => identity,
        }
    }
}

/// The accepted posts, the first one first, and the clock of the last.
#[derive(Default)]
pub struct History {
    clock: u32,
    events: Vec<Event>,
}

const PLACES: usize = 64;

impl History {
    /// 16 or 17 where a call is refused for its clock.
    fn untimely(&self, clock: u32) -> Option<u8> {
        if !(1_440..=52_591_679).contains(&clock) {
            Some(16)
        } else if clock < self.clock {
            Some(17)
        } else {
            None
        }
    }

    fn is_marked(&self, identity: &Identity) -> bool {
        self.events.iter().any(|e| matches!(e, Event::Cancelled(target) if target == identity))
    }

    /// The latest correction reported, where the identity was reported at all.
    fn latest(&self, identity: &Identity) -> Option<Option<char>> {
        let told = |e: &Event| match e {
            Event::Reported(other, correction) if other == identity => Some(*correction),
            _ => None,
        };
        self.events.iter().filter_map(told).max()
    }

    /// Every identity told of that has not ended at a time, once.
    fn alive(&self, time: u32) -> Vec<&Identity> {
        let mut found: Vec<&Identity> = Vec::new();
        for event in &self.events {
            let identity = event.identity();
            if identity.end > time && !found.contains(&identity) {
                found.push(identity);
            }
        }
        found
    }

    /// The number of the refusal, or 0 for an accepted post.
    pub fn post(&mut self, clock: u32, message: &Message) -> u8 {
        if let Some(number) = self.untimely(clock) {
            return number;
        }
        match self.judge(clock, message) {
            Ok(event) => {
                self.clock = clock;
                self.events.push(event);
                0
            }
            Err(number) => number,
        }
    }

    fn judge(&self, clock: u32, message: &Message) -> Result<Event, u8> {
        if let Form::Test = message.form {
            return Err(15);
        }
        let start = instants::start(clock, &message.from).ok_or(18)?;
        let end = instants::end(&message.kind, start, &message.to).ok_or(19)?;
        let identity = |sequence: &String, start| Identity {
            kind: message.kind.clone(),
            area: message.area.clone(),
            sequence: sequence.clone(),
            start,
            end,
        };
        let event = match &message.form {
            Form::Cancellation(sequence, from) => {
                let start = instants::target_start(&message.kind, end, from).ok_or(19)?;
                Event::Cancelled(identity(sequence, start))
            }
            _ => Event::Reported(identity(&message.sequence, start), message.correction),
        };
        if end <= clock {
            return Err(20);
        }
        self.object(clock, &event)?;
        Ok(event)
    }

    /// 22, 21 and 23.
    fn object(&self, clock: u32, event: &Event) -> Result<(), u8> {
        let identity = event.identity();
        let marked = self.is_marked(identity);
        match event {
            Event::Reported(..) if marked => return Err(22),
            Event::Reported(_, correction) if self.latest(identity) >= Some(*correction) => return Err(21),
            Event::Cancelled(_) if marked => return Err(21),
            _ => {}
        }
        let alive = self.alive(clock);
        if !alive.contains(&identity) && alive.len() >= PLACES {
            return Err(23);
        }
        Ok(())
    }

    /// The number of the refusal, or the bytes written into a buffer with this room.
    pub fn list(&self, time: u32, room: usize) -> Result<Vec<u8>, u8> {
        if let Some(number) = self.untimely(time) {
            return Err(number);
        }
        let mut rows: Vec<&Identity> = self.alive(time).into_iter().filter(|i| i.start <= time && !self.is_marked(i)).collect();
        let key = |i: &Identity| (i.area.clone(), i.kind.clone(), i.start, format!("{:3}", i.sequence), i.end);
        rows.sort_by_key(|i| key(i));
        let mut bytes = vec![1];
        bytes.extend(time.to_be_bytes());
        for identity in rows {
            bytes.push(if identity.kind == "WS" { 2 } else { 3 });
            bytes.extend(identity.area.bytes());
            bytes.extend(format!("{:3}", identity.sequence).bytes());
            bytes.push(self.latest(identity).flatten().map_or(b' ', |letter| letter as u8));
            bytes.extend(identity.start.to_be_bytes());
            bytes.extend(identity.end.to_be_bytes());
        }
        if bytes.len() <= room { Ok(bytes) } else { Err(14) }
    }
}

impl Message {
    /// What a canonical text says. It has been read before, so that every word is where the paper has it.
    pub fn of(canonical: &[u8]) -> Message {
        let text = std::str::from_utf8(canonical).expect("ASCII").trim_end_matches('=');
        let words: Vec<&str> = text.split_whitespace().collect();
        let correction = words[3].strip_prefix("CC").filter(|rest| rest.len() == 1).and_then(|rest| rest.chars().next());
        let line = &words[if correction.is_some() { 4 } else { 3 }..];
        let (from, to) = line[4].split_once('/').expect("a period");
        let closing = line.iter().skip(7).position(|w| ["FIR", "FIR/UIR", "CTA"].contains(w)).expect("a closing word");
        let form = match line[7 + closing + 1..] {
            ["TEST" | "TEST.", ..] => Form::Test,
            ["CNL", _, sequence, period] => Form::Cancellation(sequence.to_string(), period[..6].to_string()),
            _ => Form::Report,
        };
        Message {
            kind: words[0][..2].to_string(),
            area: line[6].to_string(),
            sequence: line[2].to_string(),
            correction,
            from: from.to_string(),
            to: to.to_string(),
            form,
        }
    }
}
