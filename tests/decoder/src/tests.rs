use crate::decode::decode;
use crate::generate::{bulletin, may_follow, CLASSES};
use crate::grammar::{LEAST_POINTS, MOST_POINTS};
use crate::instants;
use crate::outlines::{outlines, LONG};
use crate::script::replay;
use crate::scripts::script;
use crate::shapes::{latitude, longitude};
use crate::table::{judge, row};
use crate::turns;
use crate::words::cut;

const SAMPLE: &str = "WSZZ31 QAAA 180830\r\nQBBB SIGMET 1 VALID 180830/181230 QAAA-\r\n\
    QBBB NORTH SOUND FIR SEV ICE FCST E OF E114 SFC/FL100 MOV E 20KT WKN=";

/// Number, place and length.
fn verdict(text: impl AsRef<[u8]>) -> (u8, usize, usize) {
    let reply = decode(text.as_ref());
    (reply.number, reply.place, reply.length)
}

#[test]
fn the_paper_s_cases() {
    assert_eq!(SAMPLE.len(), 130);
    assert_eq!(verdict(SAMPLE), (0, 0, 0));
    assert_eq!(decode(SAMPLE.as_bytes()).canonical, SAMPLE.as_bytes());
    assert_eq!(verdict(SAMPLE.replace("E114", "E180")), (0, 0, 0));
    assert_eq!(verdict(SAMPLE.replace("E114", "E181")), (9, 100, 4));
    assert_eq!(verdict(SAMPLE.replace("WKN", "FCST")), (11, 126, 4));
    assert_eq!(verdict(SAMPLE.replace("WKN", "WKN NC")), (12, 130, 2));
    assert_eq!(verdict(SAMPLE.replace('=', "")), (3, 129, 0));
    assert_eq!(verdict(SAMPLE.replace("E OF E114", "N OF N9001")), (9, 100, 5));
    assert_eq!(verdict(SAMPLE.replace("QAAA-", "QAAA")), (5, 54, 4));
}

#[test]
fn values_of_the_paper() {
    assert_eq!((latitude("N00"), latitude("S0000")), (Some(0), Some(0)));
    assert_eq!((latitude("S90"), latitude("N9001")), (Some(-5_400), None));
    assert_eq!((longitude("E180"), longitude("W18000"), longitude("E181")), (Some(10_800), Some(-10_800), None));
}

/// Bodies after the first line; the word refused stands between two `^`.
#[rustfmt::skip]
const BODIES: &[(&str, u8, &str)] = &[
    ("WS", 6, "QBBB ^FIR^ TEST="), ("WS", 6, "QBBB ^=^"), ("WS", 6, "QBBB A ^B1^ FIR TEST="), ("WS", 0, "QBBB A FIR/UIR TEST="),
    ("WS", 0, "QBBB ABCDEFGHIJ ABCDEFGHIJ ABCDEFGHIJ ABCDEFGHIJ ABCD-F FIR TEST="),
    ("WS", 6, "QBBB ABCDEFGHIJ ABCDEFGHIJ ABCDEFGHIJ ABCDEFGHIJ ^ABCDEFG^ FIR TEST="),
    ("WS", 6, "QBBB ABCDEFGHIJ ABCDEFGHIJ ABCDEFGHIJ ABCDEFGHIJ ABCDE ^A^ FIR TEST="),
    ("WS", 7, "QBBB A FIR ^FIR^ TEST="), ("WS", 12, "QBBB A FIR TEST ^PLEASE^="), ("WS", 7, "QBBB A FIR TEST SIGMET ^=^"),
    ("WV", 0, "QBBB A FIR TEST. THIS IS A TEST SIGMET, PLEASE DISREGARD="), ("WV", 7, "QBBB A FIR TEST. THIS IS A TEST ^SIGMET^="),
    ("WS", 12, "QBBB A FIR TEST SIGMET PLEASE DISREGARD ^TEST^="),
    ("WS", 0, "QBBB A FIR CNL SIGMET 2 010000/010400="), ("WS", 7, "QBBB A FIR CNL SIGMET 1 ^010000/010400^="),
    ("WS", 0, "QBBB A FIR CNL SIGMET 01 010000/010400="), ("WS", 0, "QBBB A FIR CNL SIGMET 1 010001/010400="),
    ("WS", 7, "QBBB A FIR CNL SIGMET 2 ^010000/010401^="), ("WS", 12, "QBBB A FIR CNL SIGMET 2 010000/010400 ^VA^="),
    ("WS", 7, "QBBB A FIR ^VA^ CLD OBS="), ("WV", 7, "QBBB A FIR ^SEV^ ICE OBS="), ("WS", 7, "QBBB A FIR ^=^"),
    ("WS", 8, "QBBB A FIR SEV ICE ^(FZRB)^ OBS="), ("WS", 8, "QBBB A FIR SEV TURB ^(FZRA)^ OBS="), ("WS", 7, "QBBB A FIR OBSC ^=^"),
    ("WS", 8, "QBBB A FIR SEV ICE OBS AT ^2400Z^="), ("WS", 9, "QBBB A FIR SEV ICE OBS ^2300Z^="), ("WS", 9, "QBBB A FIR SEV ICE OBS ^=^"),
    ("WS", 10, "QBBB A FIR SEV ICE OBS N OF N10 ^OF^="), ("WS", 9, "QBBB A FIR SEV ICE OBS N OF N10 AND ^N^ OF N20="),
    ("WS", 10, "QBBB A FIR SEV ICE OBS E OF E010 ^AND^ N OF N20="), ("WS", 9, "QBBB A CTA SEV ICE OBS ENTIRE ^FIR^="),
    ("WS", 9, "QBBB A FIR/UIR SEV ICE OBS ENTIRE ^CTA^="), ("WS", 0, "QBBB A CTA SEV ICE OBS ENTIRE CTA FL001 STNR NC="),
    ("WS", 10, "QBBB A FIR SEV ICE OBS ENTIRE FIR ^FL000^="), ("WS", 10, "QBBB A FIR SEV ICE OBS ENTIRE FIR TOP ^FL100/200^="),
    ("WS", 11, "QBBB A FIR SEV ICE OBS ENTIRE FIR TOP ABV FL100 ^=^"), ("WS", 11, "QBBB A FIR SEV ICE OBS ENTIRE FIR FL100 NC ^=^"),
    ("WV", 11, "QBBB A FIR VA CLD OBS ENTIRE FIR FL100 ^NC^ FCST AT 0400Z ENTIRE FIR="),
    ("WS", 0, "QBBB A FIR SEV ICE OBS ENTIRE FIR FL100 NC FCST AT 0400Z ENTIRE FIR="),
    ("WS", 11, "QBBB A FIR SEV ICE OBS ENTIRE FIR FL100 NC FCST AT ^0000Z^ ENTIRE FIR="),
    ("WS", 12, "QBBB A FIR SEV ICE OBS ENTIRE FIR FL100 NC FCST AT 0400Z N OF N10 ^E^="),
    ("WS", 11, "QBBB A FIR SEV ICE OBS ENTIRE FIR FL100 NC FCST AT 0400Z N OF N10 AND ^=^"),
    ("WS", 12, "QBBB A FIR SEV ICE OBS ENTIRE FIR FL100 NC FCST AT 0400Z WI N00 E180 - N01 E180 - N02 E180 - S00 W180 ^-^="),
    ("WS", 12, "QBBB A FIR SEV ICE OBS ENTIRE FIR FL100 STNR NC ^FCST^ AT 0400Z="),
    ("WS", 9, "QBBB A FIR SEV ICE OBS WI N00 E180 - S0000 ^W18000^ - N01 E001="),
    ("WS", 9, "QBBB A FIR SEV ICE OBS WI N00 E180 - N01 E001 - S0000 ^W18000^ FL100="),
    ("WS", 10, "QBBB A FIR SEV ICE OBS WI N00 E180 - N01 E001 - N02 E001 - S0000 W18000 ^-^ N01="),
    ("WS", 9, "QBBB A FIR SEV ICE OBS WI N00 E180 - N01 E001 - N02 E001 - N03 E001 ^FL100^="),
    ("WS", 9, "QBBB A FIR SEV ICE OBS WI N00 E180 - N01 E001 - N02 E001 - N03 E001 - N00 E001 - N00 E002 - N01 E180 ^=^"),
    ("WS", 9, "QBBB A FIR SEV ICE OBS WI N00 E180 - N01 E001 - N02 E001 - N03 E001 - N00 E001 - N00 E002 - S00 W179 ^=^"),
    ("WS", 10, "QBBB A FIR SEV ICE OBS WI N00 E180 - N01 E001 - N02 E001 - N03 E001 - N00 E001 - N00 E002 - S00 W180 ^=^"),
    ("WV", 7, "QBBB A FIR VA ERUPTION ^VA^ CLD="), ("WV", 7, "QBBB A FIR VA ERUPTION MT ^PSN^ N00 E000="),
    ("WV", 8, "QBBB A FIR VA ERUPTION MT FIR CTA PSN N00 E000 VA CLD ^=^"), ("WV", 7, "QBBB A FIR VA ERUPTION PSN N00 ^VA^ CLD="),
    ("WV", 8, "QBBB A FIR VA ERUPTION MT ABCDEFGHIJ ABCDEFGHIJ ABCDEFGH PSN N00 E000 VA CLD ^=^"),
    ("WV", 7, "QBBB A FIR VA ERUPTION MT ABCDEFGHIJ ABCDEFGHIJ ^ABCDEFGHI^ PSN N00 E000 VA CLD="),
];

#[test]
fn places_of_refusal() {
    for (kind, number, body) in BODIES {
        let text = format!("{kind}AA00 QAAA 010000 CCX QBBB SIGMET 1 VALID 010000/010400 QAAA- {body}");
        let (before, word) = match text.split('^').collect::<Vec<_>>()[..] {
            [before, word, _] => (before, word),
            _ => ("", ""),
        };
        assert_eq!(verdict(text.replace('^', "")), (*number, before.len(), word.len()), "{text}");
    }
}

/// Nineteen points of eleven bytes, ` - ` included, none of them the first again: the first k with their `WI ` are 11 k bytes.
const NINETEEN: &str = "WI N00 E180 - N01 E001 - N02 E002 - N03 E003 - N04 E004 - N05 E005 - N06 E006 - N07 E007 - N08 E008 - N09 E009 \
    - N10 E010 - N11 E011 - N12 E012 - N13 E013 - N14 E014 - N15 E015 - N16 E016 - N17 E017 - N18 E018";

/// So many points, the last of them this one.
fn outline(points: usize, last: &str) -> String {
    format!("{} - {last}", &NINETEEN[..11 * (points - 1)])
}

/// The sample with this location, which stands at 95.
fn located(location: &str) -> String {
    SAMPLE.replace("E OF E114", location)
}

/// The sample with this forecast's location, which stands at 133.
fn forecast(location: &str) -> String {
    SAMPLE.replace("MOV E 20KT WKN", &format!("WKN FCST AT 1230Z {location}"))
}

/// Points equal to the first of the nineteen, two of them across the meridian of 180 degrees.
const AGAIN: [&str; 4] = ["N00 E180", "S00 W180", "N0000 E18000", "S0000 W18000"];

#[test]
fn outlines_close_at_4_to_20_points() {
    assert_eq!((LEAST_POINTS, MOST_POINTS), (4, 20));
    for points in 4..=20 {
        for last in AGAIN {
            let closed = outline(points, last);
            let both = forecast(&closed).replace("E OF E114", &closed);
            for text in [located(&closed), forecast(&closed), both] {
                assert_eq!(verdict(&text), (0, 0, 0), "{text}");
                assert_eq!(decode(text.as_bytes()).canonical, text.as_bytes());
            }
            // It has ended: a `-` is a bad level, or stands where `=` would be accepted.
            let (more, end) = (format!("{closed} - N01 E001"), closed.len());
            assert_eq!(verdict(located(&more)), (10, 95 + end + 1, 1));
            assert_eq!(verdict(forecast(&more)), (12, 133 + end + 1, 1));
        }
    }
    // Twenty points of eleven bytes each for the nine of the bound, and 18 and as many again for the 14 of the movement.
    let twenty = outline(20, "N00 E180");
    let both = forecast(&twenty).replace("E OF E114", &twenty);
    assert_eq!((twenty.len(), both.len()), (220, 130 - 9 + 220 - 14 + 18 + 220));
    // Inner points may be equal to one another.
    assert_eq!(verdict(located("WI N00 E180 - N01 E001 - N01 E001 - N01 E001 - N0100 E00100 - N00 E180")), (0, 0, 0));
}

/// Point k stands 3 + 11 (k - 1) bytes into its outline, its longitude 4 bytes further: 14 and 18 for point 2, 25 and 29 for point 3.
#[test]
fn outlines_may_not_close_at_2_or_3_points() {
    for last in ["N00 E180", "S00 W180"] {
        assert_eq!(verdict(located(&outline(2, last))), (9, 95 + 18, 4));
        assert_eq!(verdict(located(&outline(3, last))), (9, 95 + 29, 4));
        assert_eq!(verdict(forecast(&outline(2, last))), (11, 133 + 18, 4));
        assert_eq!(verdict(forecast(&outline(3, last))), (11, 133 + 29, 4));
    }
    assert_eq!(verdict(located(&outline(3, "S0000 W18000"))), (9, 95 + 25 + 6, 6));
}

/// Point 20 stands 3 + 11 * 19 = 212 bytes into its outline, its longitude at 216.
#[test]
fn outlines_close_at_20_points_at_the_latest() {
    // Another latitude shows it, whatever the longitude; else the longitude does.
    for (last, into, length) in [
        ("N19 E019", 212, 3), ("N01 E180", 212, 3), ("N0001 W18000", 212, 5), ("N91 E180", 212, 3), ("- N00 E180", 212, 1),
        ("N00 E179", 216, 4), ("N00 E000", 216, 4), ("S00 W17959", 216, 6), ("S0000 W000", 218, 4), ("N00 E181", 216, 4), ("N00 -", 216, 1),
    ] {
        // Alone, and with a point 21 that would be the first again.
        for open in [outline(20, last), outline(20, last) + " - N00 E180"] {
            assert_eq!(verdict(located(&open)), (9, 95 + into, length), "{open}");
            assert_eq!(verdict(forecast(&open)), (11, 133 + into, length), "{open}");
            // Behind a location of twenty points, 220 bytes for nine.
            let both = forecast(&open).replace("E OF E114", &outline(20, "S0000 W180"));
            assert_eq!(verdict(both), (11, 133 + 211 + 2 + into, length), "{open}");
        }
    }
    // With fewer points a `-` must follow: the level's 9 bytes, or the `=`, stand for it.
    for points in 1..=19 {
        let open = &NINETEEN[..11 * points];
        assert_eq!(verdict(located(open)), (9, 95 + 11 * points + 1, 9));
        assert_eq!(verdict(forecast(open)), (11, 133 + 11 * points, 1));
    }
    // The first point's latitude does not close an outline, nor does its longitude.
    assert_eq!(verdict(located(&outline(19, "N00 E179"))), (9, 95 + 11 * 19 + 1, 9));
    assert_eq!(verdict(located(&outline(19, "N01 E180"))), (9, 95 + 11 * 19 + 1, 9));
}

/// More than a third of the random bulletins have a long outline and more than a third no long one; with every number of points, and every end.
#[test]
fn random_outlines_have_all() {
    assert_eq!(outlines(b"FCST AT 0000Z\nWI N00 E180 - N01\r\nE001 - FL100 NC FCST AT 0400Z WI N00 E000="), (2, 1));
    assert_eq!((outlines(located(NINETEEN).as_bytes()), outlines(forecast(&outline(8, "N91 E000")).as_bytes())), ((19, 0), (0, 7)));
    let (mut long, mut read, mut refused) = (0, std::collections::BTreeSet::new(), std::collections::BTreeSet::new());
    for index in 0..20_000 {
        let (_, text) = bulletin(1, index);
        let (location, forecast) = outlines(&text);
        long += usize::from(location.max(forecast) >= LONG);
        let reply = decode(&text);
        if reply.number == 0 {
            read.extend([("location", location), ("forecast", forecast)]);
            if (location, forecast) == (20, 20) {
                read.insert(("both", 20));
            }
        } else if reply.number > 8 {
            // How many words after `WI` the refused one stands, where it is one that another outline might have there.
            let words = cut(&text).unwrap();
            let at = words.iter().position(|w| w.place == reply.place).unwrap();
            let after = at - words[..at].iter().rposition(|w| w.text == "WI").unwrap_or(at);
            let word = words[at].text;
            if [word == "-", latitude(word).is_some(), longitude(word).is_some()][after % 3] {
                refused.insert((reply.number, after));
            }
        }
    }
    assert!(long * 3 > 20_000 && (20_000 - long) * 3 > 20_000, "{long}");
    for points in 4..=20 {
        assert!(read.contains(&("location", points)) && read.contains(&("forecast", points)), "{points}");
        // Closed, and on with a `-`.
        assert!(refused.contains(&(10, 3 * points)), "{points}");
    }
    assert!(read.contains(&("both", 20)));
    assert!((LONG..=20).any(|points| refused.contains(&(12, 3 * points))));
    for number in [9, 11] {
        // The longitudes of points 2 and 3, the latitude and the longitude of point 20.
        for word in [5, 8, 58, 59] {
            assert!(refused.contains(&(number, word)), "{number} {word}");
        }
    }
}

#[test]
fn bytes_before_words() {
    assert_eq!(verdict(""), (1, 0, 0));
    assert_eq!(verdict([b'a'; 2049]), (1, 0, 0));
    assert_eq!(verdict([b' '; 2048]), (3, 2048, 0));
    assert_eq!(verdict("= a"), (2, 2, 1));
    assert_eq!(verdict("= \r\n="), (3, 4, 1));
    assert_eq!(verdict(" \n="), (4, 2, 1));
    assert_eq!(verdict("WSAA00="), (4, 6, 1));
}

/// The whole word for 4 to 12, wherever it stands and whatever is next to it; elsewhere one byte, or none.
#[test]
fn lengths_of_refusal() {
    assert_eq!(verdict("WSAA0 QAAA 010000="), (4, 0, 5));
    assert_eq!(verdict("\r\n  WSAA0\nQAAA 010000="), (4, 4, 5));
    assert_eq!(verdict("WSAA00 QAAAAAA 010000="), (4, 7, 7));
    assert_eq!(verdict("WSAA00 Q\r\n010000="), (4, 7, 1));
    assert_eq!(verdict("WSAA00 QAAA 0100="), (4, 12, 4));
    assert_eq!(verdict("WSAA00 QAAA 0100 ="), (4, 12, 4));
    assert_eq!(verdict("WSAA00 QAAA\n="), (4, 12, 1));
    assert_eq!(verdict("A".repeat(2047) + "="), (4, 0, 2047));
    // A byte after the `=`, though its run is longer; a second `=` is one.
    assert_eq!(verdict("WSAA00=QAAA"), (3, 7, 1));
    assert_eq!(verdict("WSAA00= \nQAAA 010000="), (3, 9, 1));
    assert_eq!(verdict("WSAA00==="), (3, 7, 1));
    // No `=`: nothing stands at the end, not even after blanks.
    assert_eq!(verdict("WSAA00"), (3, 6, 0));
    assert_eq!(verdict("WSAA00 \r\n"), (3, 9, 0));
    // A byte, and not its word.
    assert_eq!(verdict("WSaa00 QAAA="), (2, 2, 1));
    assert_eq!(verdict(b"WSAA00 \xff\xfe="), (2, 7, 1));
}

/// Class (a) is accepted, and its canonical text is its own canonical text.
#[test]
fn good_ones_are_accepted() {
    for index in 0..30_000 {
        let (class, text) = bulletin(7, index);
        let reply = decode(&text);
        if CLASSES[class] == "good" {
            assert_eq!(verdict(&text), (0, 0, 0), "{}", text.escape_ascii());
        }
        if reply.number == 0 {
            let words: Vec<&str> = cut(&text).unwrap().iter().map(|w| w.text).collect();
            let canonical = String::from_utf8(reply.canonical.clone()).unwrap();
            assert_eq!(canonical.replace("\r\n", " "), words.join(" ").replace(" =", "="));
            assert_eq!(decode(&reply.canonical), reply);
        }
    }
}

/// What stands before a refused word does begin an accepted message: one is found.
#[test]
fn beginnings_can_be_ended() {
    let more = "= WSZZ31 QAAA 010000 SIGMET 1 VALID 010000/010400 QAAA- A FIR TEST PLEASE DISREGARD THIS IS SIGMET, CNL \
        TS TURB DS CLD PSN N10 N00 E010 E020 E030 VA OBS 0000Z ENTIRE CTA OF FL100 - STNR E 20KT NC FCST AT";
    for index in 0..10_000 {
        let (_, text) = bulletin(8, index);
        let reply = decode(&text);
        if reply.number < 4 {
            continue;
        }
        let words = cut(&text).unwrap();
        let before = words.iter().filter(|w| w.place < reply.place);
        let mut words: Vec<String> = before.map(|w| w.text.to_string()).collect();
        while words.last().is_none_or(|w| w != "=") {
            let mut tries: Vec<String> = more.split(' ').map(str::to_string).collect();
            tries.extend(words.clone());
            if let Some((start, end)) = words.iter().find_map(|w| w.split_once('/').filter(|_| w.len() == 13)) {
                tries.extend([format!("020000/{end}"), format!("{start}/{end}"), format!("{}Z", &end[2..])]);
            }
            let next = tries.into_iter().find(|w| may_follow(&words, w));
            words.push(next.unwrap_or_else(|| panic!("no way on: {}", words.join(" "))));
        }
    }
}

/// A row is read as it was written, whatever its bytes; another number, length or canonical text is wrong.
#[test]
fn rows_are_read_back() {
    let table: String = (0..10_000).map(|index| row(9, index)).collect();
    assert!(judge(&table).ends_with("\n10000 ok, 0 wrong\n"));
    let sample = SAMPLE.replace("\r\n", "\\r\\n");
    let one_line = SAMPLE.replace("\r\n", " ");
    assert_eq!(judge(&format!("a 0 0 0 {sample}\n")), "a: 0 0 0 ok\n1 ok, 0 wrong\n");
    assert_eq!(judge(&format!("a 0 0 0 {one_line}|{sample}\n")), "a: 0 0 0 ok\n1 ok, 0 wrong\n");
    assert_eq!(judge(&format!("a 0 0 0 {one_line}\n")), "a: 0 0 0 WRONG\n0 ok, 1 wrong\n");
    assert_eq!(judge(&format!("a 9 100 4 {sample}\n")), "a: 0 0 0 WRONG\n0 ok, 1 wrong\n");
    let refused = sample.replace("E114", "E181");
    assert_eq!(judge(&format!("a 9 100 4 {refused}\n")), "a: 9 100 4 ok\n1 ok, 0 wrong\n");
    assert_eq!(judge(&format!("a 9 100 1 {refused}\n")), "a: 9 100 4 WRONG\n0 ok, 1 wrong\n");
}

/// Nine bytes are two turns and a byte: something stands at 0 to 4, 7 and 8.
#[test]
fn ends_of_turns() {
    let all = turns::bulletins(9);
    let replies: Vec<(&str, String)> = all.iter().map(|text| (std::str::from_utf8(text).unwrap_or("no ASCII"), decode(text).numbers())).collect();
    for (text, reply) in [
        ("AAAAAAAAA", "3 9 0"),
        ("a        ", "2 0 1"),
        ("AAAAAAAAa", "2 8 1"),
        ("=        ", "4 0 1"),
        ("AAA=     ", "4 0 3"),
        ("AAAAAAA= ", "4 0 7"),
        ("AAA=A    ", "3 4 1"),
        ("AAA=   = ", "3 7 1"),
        ("AAA=A   >", "2 8 1"),
        ("A=A=     ", "3 2 1"),
        ("Aaa      ", "2 1 1"),
        ("Aa=      ", "2 1 1"),
        ("AAAAAAA=A", "3 8 1"),
    ] {
        assert!(replies.contains(&(text, reply.to_string())), "{text}: {reply}");
    }
    assert_eq!(turns::bulletins(0), [b""]);
}

/// Days counted month by month.
#[test]
fn days_of_months() {
    let mut days = 0;
    for year in 2000..2100 {
        for length in [31, if year % 4 == 0 { 29 } else { 28 }, 31, 30, 31, 30, 31, 31, 30, 31, 30, 31] {
            for day in 1..=length {
                assert_eq!(instants::day_of_month(days), day);
                days += 1;
            }
        }
    }
    assert_eq!(days * 1_440, instants::OVER);
}

#[test]
fn instants_of_the_paper() {
    assert_eq!(instants::group(12_648_030), "180830");
    assert_eq!(instants::start(12_648_030, "180830"), Some(12_648_030));
    assert_eq!(instants::end("WS", 12_648_030, "181230"), Some(12_648_270));
    assert_eq!(instants::start(12_709_380, "010100"), Some(12_709_500));
    // 2023-02-28 2300Z
    assert_eq!(instants::group(12_182_340), "282300");
    assert_eq!(instants::start(12_182_340, "290100"), None);
    assert_eq!(instants::target_start("WS", 12_648_270, "180830"), Some(12_648_030));
    assert_eq!(instants::target_start("WS", 12_648_270, "180829"), None);
}

#[test]
fn scripts_of_the_paper() {
    let said = |script: &[u8]| replay(script).into_iter().map(|(_, line)| line).collect::<String>();
    let posted = format!("P 12648030 130\n{SAMPLE}\nL 12648030 22\nL 12648030 21\nL 12648269 22\nL 12648270 5\n");
    let lines = "p 0\nl 0 22 0100c0fe5e02514242423120202000c0fe5e00c0ff4e\nl 14 0\n\
        l 0 22 0100c0ff4d02514242423120202000c0fe5e00c0ff4e\nl 0 5 0100c0ff4e\n";
    assert_eq!(said(posted.as_bytes()), lines);
    assert_eq!(said(format!("{posted}\n").as_bytes()), format!("{lines}?\n"));
    // The cancellation takes the sample off the list; the sample again, relayed late, gets 22, the cancellation again 21.
    let cancellation = "WSZZ31 QAAA 181100\r\nQBBB SIGMET 2 VALID 181100/181230 QAAA-\r\n\
        QBBB NORTH SOUND FIR CNL SIGMET 1 180830/181230=";
    let count = cancellation.len();
    let crossed = format!("{posted}P 12648180 {count}\n{cancellation}\nL 12648180 22\n");
    let late = format!("{crossed}P 12648181 130\n{SAMPLE}\nP 12648181 {count}\n{cancellation}\n");
    assert_eq!(said(late.as_bytes()), format!("{lines}p 0\nl 0 5 0100c0fef4\np 22\np 21\n"));
}

/// The scripts have every answer that a script can have, and are as long as they may be.
#[test]
fn scripts_have_all() {
    let mut found = std::collections::BTreeSet::new();
    let mut longest = 0;
    for index in 0..24 {
        let script = script(1, index);
        longest = longest.max(script.len());
        for (_, line) in replay(&script) {
            found.insert(line.trim_end().split(' ').take(2).collect::<Vec<_>>().join(" "));
        }
    }
    for key in ["p 0", "p 15", "p 16", "p 17", "p 18", "p 19", "p 20", "p 21", "p 22", "p 23", "l 0", "l 14", "l 16", "l 17", "?"] {
        assert!(found.contains(key), "{key}");
    }
    assert!((1_048_000..=1_048_576).contains(&longest), "{longest}");
}
