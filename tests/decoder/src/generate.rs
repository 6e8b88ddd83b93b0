//! Bulletins from a seed: good ones, spoilt ones, and noise.

use crate::decode::decode;
use crate::good::{group, latitude, longitude, sequence, time, Maker};
use crate::rng::Rng;

pub const CLASSES: &[&str] = &["good", "slips", "near", "damaged", "words", "walk", "bytes", "lengths"];

const ALLOWED: &[u8] = b"ABCDEFGHIJKLMNOPQRSTUVWXYZ0123456789 \r\n/-.,()=";

#[rustfmt::skip]
const VOCABULARY: &[&str] = &[
    "WSZZ31", "WVZZ31", "WCZZ31", "QAAA", "QBBB", "CCA", "CCX", "CCY", "SIGMET", "VALID", "QAAA-", "QAAA", "NORTH",
    "SOUND", "A-B", "FIR", "FIR/UIR", "UIR", "CTA", "TEST", "TEST.", "THIS", "IS", "A", "SIGMET,", "PLEASE",
    "DISREGARD", "CNL", "OBSC", "EMBD", "FRQ", "SQL", "TS", "TSGR", "SEV", "TURB", "ICE", "(FZRA)", "MTW", "HVY", "DS",
    "SS", "RDOACT", "CLD", "VA", "ERUPTION", "MT", "PSN", "OBS", "FCST", "AT", "N", "S", "E", "W", "OF", "AND", "WI",
    "-", "ENTIRE", "TOP", "ABV", "BLW", "SFC", "MOV", "STNR", "INTSF", "WKN", "NC", "NNE", "SW", "KT", "N00", "S0000",
    "E180", "W18000", "E000", "N10", "E010", "FL100", "SFC/FL100", "FL100/200", "20KT", "20KMH", "=",
];

/// Words that just miss, by the kind of the word they stand for.
const NEAR: &[(fn(&str) -> bool, &[&str])] = &[
    (|w| w.len() == 6 && w.starts_with('W'), &["WSZZ3", "WSZZ311", "WCZZ31", "WSZ131", "WSZZ3A", "WVAA00", "VWZZ31"]),
    (|w| w.len() == 6 && digits(w), &["000000", "320000", "012400", "010060", "01000", "0100000", "312359", "010000Z"]),
    (|w| w.len() == 13 && w.contains('/'), &[
        "010000/010400", "010001/310000", "012359/016000", "320000/010000", "010000/000000", "010060/010000", "010000/320000", "000000/010000", "010000/012400", "016000/010000", "010000-010400",
        "010000/01040", "010000/010400/", "/010400", "010000/", "0100/00104000",
    ]),
    (|w| w.len() == 5 && w.ends_with('Z'), &["2400Z", "0060Z", "0000", "000Z", "00000Z", "2359Z", "0000z", "2360Z"]),
    (|w| w.starts_with(['N', 'S']) && digits(&w[1..]), &[
        "N91", "N9001", "S9000", "N0060", "N000", "N0", "N00000", "E00", "W0000", "N8959", "S90", "S9060", "N", "N1.0",
    ]),
    (|w| w.starts_with(['E', 'W']) && digits(&w[1..]), &[
        "E181", "E18001", "W18000", "E00060", "E0000", "E00", "E000000", "N000", "S00000", "E17959", "W180", "E19000",
    ]),
    (|w| w.contains("FL") || w.starts_with("SFC/"), &[
        "FL000", "FL00", "FL0000", "FL200/100", "FL100/100", "FL000/100", "FL100/FL200", "SFC/FL000", "SFC/0000M",
        "SFC/00000FT", "SFC/09999FT", "SFC/9999FT", "SFC/99999FT", "SFC/9999M", "FL999", "FL001/002", "SFC/10000FT", "SFC/10000M", "SFC/0000FT", "SFC/FL100/200", "SFC/100M", "SFC/",
        "FL1OO", "FL998/999", "FL100/1000", "FL100/", "SFC/0001FT", "SFC/0001KM", "FL001/000", "SFC/SFC",
    ]),
    (|w| w.ends_with("KT") || w.ends_with("KMH"), &[
        "00KT", "5KT", "100KT", "00KMH", "20KTS", "20MPS", "01KT", "99KMH", "05KM", "20", "2OKT",
    ]),
    (|w| w.len() <= 3 && w.ends_with(|c: char| c.is_ascii_digit()), &[
        "0", "00", "000", "A", "A0", "A00", "AB1", "1A", "A123", "1234", "0001", "A01", "001", "-1", "1-",
    ]),
    (|w| w.len() == 3 && w.starts_with("CC"), &["CCY", "CCZ", "CC", "CC1", "CCAA", "COR", "AAA"]),
    (|w| w.ends_with('-'), &["QAAA", "QAA-", "QAAAA-", "QAAA--", "-QAAA", "QAA1-", "QAAA/", "-"]),
    (|w| w.len() == 4, &["QAA", "QAAAA", "QAA1", "Q-AA", "QAAA-", "qaaa"]),
    (|_| true, &["-A", "A-", "A--B", "X1", "NORTH.", "A,B", "FIR/", "FIR-UIR", "TSGR,", "(FZRA", "FZRA", "TEST,"]),
];

const LEVELS: usize = 6;

fn digits(text: &str) -> bool {
    !text.is_empty() && text.bytes().all(|b| b.is_ascii_digit())
}

/// A word that might stand somewhere in a message.
fn some_word(rng: &mut Rng, message: &[String]) -> String {
    match rng.below(12) {
        0 => group(rng),
        1 => format!("{}/{}", group(rng), group(rng)),
        2 => time(rng),
        3 => sequence(rng),
        4 => latitude(rng),
        5 => longitude(rng),
        6 | 7 if !message.is_empty() => message[rng.below(message.len())].clone(),
        _ => rng.pick(VOCABULARY).to_string(),
    }
}

fn near_miss(rng: &mut Rng, word: &str) -> String {
    let cut = word.len() - 1;
    match rng.below(10) {
        0 => format!("{word}{}", ALLOWED[rng.below(36)] as char),
        1 if cut > 0 => word[..cut].to_string(),
        2 if cut > 0 => word[1..].to_string(),
        3 => word.to_ascii_lowercase(),
        4 if digits(&word[cut..]) => format!("{}{}", &word[..cut], rng.below(10)),
        _ => {
            let (_, misses) = NEAR.iter().find(|(fits, _)| fits(word)).unwrap();
            rng.pick(misses).to_string()
        }
    }
}

fn blanks(rng: &mut Rng, least: usize) -> String {
    let most = if rng.one_in(10) { 30 } else { 3 };
    let count = least + rng.below(most);
    (0..count).map(|_| rng.pick(&[" ", " ", "\r", "\n", "\r\n"])).collect()
}

/// The words as a text: with any blanks, laid out canonically, or parted by single spaces.
fn render(rng: &mut Rng, words: &[String]) -> Vec<u8> {
    let layout = rng.below(3);
    let free = layout == 0;
    let corrected = words.get(3).is_some_and(|word| word.len() == 3 && word.starts_with("CC"));
    let heading = if corrected { 4 } else { 3 };
    let mut text = if free { blanks(rng, 0) } else { String::new() };
    for (i, word) in words.iter().enumerate() {
        let least = usize::from(i > 0 && word != "=");
        let line_end = layout == 1 && (i == heading || i == heading + 6);
        text += &match (free, line_end) {
            (true, _) => blanks(rng, least),
            (_, true) => "\r\n".to_string(),
            _ => " ".repeat(least),
        };
        text += word;
    }
    if free || (layout == 2 && rng.one_in(10)) {
        text += &blanks(rng, 0);
    }
    text.into_bytes()
}

fn good(rng: &mut Rng) -> Vec<u8> {
    let words = Maker::message(rng, 0);
    render(rng, &words)
}

fn slips(rng: &mut Rng) -> Vec<u8> {
    let rate = [3, 10][rng.below(2)];
    let words = Maker::message(rng, rate);
    render(rng, &words)
}

/// One word of a kind drawn first, or any one word, becomes another.
fn near(rng: &mut Rng) -> Vec<u8> {
    let row = if rng.one_in(4) { LEVELS } else { rng.below(NEAR.len()) };
    let (fits, misses) = NEAR[row];
    let mut words = Maker::message(rng, 0);
    let fitting: Vec<usize> = (0..words.len()).filter(|&i| fits(&words[i])).collect();
    if fitting.is_empty() || rng.one_in(4) {
        let i = 1 + rng.below(words.len() - 1);
        words[i] = some_word(rng, &words);
    } else {
        let i = fitting[rng.below(fitting.len())];
        words[i] = if rng.one_in(4) { near_miss(rng, &words[i]) } else { rng.pick(misses).to_string() };
    }
    render(rng, &words)
}

fn damage_words(rng: &mut Rng, words: &mut Vec<String>) {
    if words.is_empty() {
        return;
    }
    // Mostly behind the first line and the name, where the grammar branches.
    let early = if rng.one_in(3) { 0 } else { words.len() * 2 / 5 };
    let (i, j) = (early + rng.below(words.len() - early), rng.below(words.len()));
    match rng.below(12) {
        0 => drop(words.remove(i)),
        1 => words.insert(i, words[i].clone()),
        2 => words.swap(i, j),
        3 | 4 => words[i] = some_word(rng, words),
        5..=7 => words[i] = near_miss(rng, &words[i]),
        8 | 9 => {
            words.truncate(i);
            words.push("=".to_string());
        }
        10 => words.insert(i, some_word(rng, words)),
        // A word too many, just before the `=`.
        _ => words.insert(words.len() - 1, some_word(rng, words)),
    }
}

fn any_byte(rng: &mut Rng) -> u8 {
    // The second list holds the neighbours of the allowed bytes.
    let near = b"@[`az{:;<>'*+!\"\t\x0b\x0c\0\x0e\x1f\x7f\x80";
    match rng.below(4) {
        0 => rng.below(256) as u8,
        1 => near[rng.below(near.len())],
        _ => ALLOWED[rng.below(ALLOWED.len())],
    }
}

fn damage_bytes(rng: &mut Rng, text: &mut Vec<u8>) {
    if text.is_empty() {
        return;
    }
    let at = rng.below(text.len());
    match rng.below(6) {
        0 | 1 => text[at] = any_byte(rng),
        2 => text.insert(at, any_byte(rng)),
        3 => drop(text.remove(at)),
        4 => text.truncate(at),
        _ => {
            text.extend(blanks(rng, 0).bytes());
            let more = some_word(rng, &[]);
            text.extend(more.bytes());
        }
    }
}

fn damaged(rng: &mut Rng) -> Vec<u8> {
    let mut words = Maker::message(rng, 0);
    let times = if rng.one_in(2) { 1 } else { 2 + rng.below(2) };
    let in_bytes = (0..times).filter(|_| rng.one_in(4)).count();
    for _ in in_bytes..times {
        damage_words(rng, &mut words);
    }
    let mut text = render(rng, &words);
    for _ in 0..in_bytes {
        damage_bytes(rng, &mut text);
    }
    text
}

/// A good beginning, then words; with a `guide` mostly words that may follow.
fn beginning(rng: &mut Rng, mut guide: bool) -> Vec<u8> {
    let mut message = Maker::message(rng, 0);
    let keep = if rng.one_in(3) { rng.below(message.len()) } else { rng.within(8, message.len() - 1) };
    let mut words = message[..keep].to_vec();
    // Words that only the end of VALID makes good ones.
    let end = message.iter().find_map(|w| w.split_once('/').map(|(_, end)| end.to_string())).unwrap();
    message.extend([format!("{}Z", &end[2..]), format!("{}/{end}", group(rng))]);
    let stray = 1 + rng.below(40);
    for count in 0..rng.below(60) {
        let mut word = some_word(rng, &message);
        let mut tries = if guide && count != stray { 500 } else { 0 };
        while tries > 0 && !may_follow(&words, &word) {
            word = some_word(rng, &message);
            tries -= 1;
        }
        guide &= tries > 0;
        if word == "=" || (!guide && rng.one_in(10)) {
            break;
        }
        words.push(word);
    }
    words.push("=".to_string());
    render(rng, &words)
}

/// Whether the decoder takes `word` after these words.
pub fn may_follow(words: &[String], word: &str) -> bool {
    let start = words.join(" ") + " ";
    if word == "=" {
        return decode((start + "=").as_bytes()).number == 0;
    }
    let reply = decode(format!("{start}{word} =").as_bytes());
    reply.number == 0 || (reply.number > 3 && reply.place > start.len())
}

fn a_length(rng: &mut Rng) -> usize {
    match rng.below(4) {
        0 => rng.below(4),
        1 | 2 => 2045 + rng.below(6),
        _ => rng.below(2101),
    }
}

/// Noise; sometimes with no byte that is not allowed.
fn bytes(rng: &mut Rng) -> Vec<u8> {
    let kind = rng.below(3);
    let mut text: Vec<u8> = (0..a_length(rng))
        .map(|_| match kind {
            0 => rng.below(256) as u8,
            1 => ALLOWED[rng.below(ALLOWED.len())],
            _ => ALLOWED[rng.below(ALLOWED.len() - 1)],
        })
        .collect();
    if kind == 2 && rng.one_in(2) {
        text.pop();
        text.push(b'=');
    }
    text
}

/// A message blown up with blanks to a length near the limit.
fn lengths(rng: &mut Rng) -> Vec<u8> {
    let mut text = if rng.one_in(3) { damaged(rng) } else { good(rng) };
    let gaps: Vec<usize> = (0..=text.len()).filter(|&i| i == 0 || i == text.len() || text[i] == b' ').collect();
    let at = gaps[rng.below(gaps.len())];
    let length = 2044 + rng.below(8);
    while text.len() < length {
        text.insert(at, b" \r\n"[rng.below(3)]);
    }
    text
}

/// The bulletin of this index, and the number of its class.
pub fn bulletin(seed: u64, index: u64) -> (usize, Vec<u8>) {
    let rng = &mut Rng::new(seed, index);
    const MAKERS: [fn(&mut Rng) -> Vec<u8>; 8] =
        [good, slips, near, damaged, |rng| beginning(rng, false), |rng| beginning(rng, true), bytes, lengths];
    let class = match rng.below(100) {
        0..=15 => 0,
        16..=38 => 1,
        39..=58 => 2,
        59..=78 => 3,
        79..=85 => 4,
        86..=91 => 5,
        92..=95 => 6,
        _ => 7,
    };
    (class, MAKERS[class](rng))
}
