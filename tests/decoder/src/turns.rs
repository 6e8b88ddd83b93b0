//! Bulletins of every length with a byte that is not allowed, a `=` and something after it at both ends of turns of four bytes: a walk that
//! takes several bytes at a time goes wrong there first.

/// Bytes of a turn.
const TURN: usize = 4;

/// The words of a good one, without the `=`.
const GOOD: &str = "WSZZ31 QAAA 180830 QBBB SIGMET 1 VALID 180830/181230 QAAA- QCCC NORTH SOUND FIR SEV ICE FCST E OF E114 SFC/FL100 MOV E 20KT WKN";

/// Both ends of the first turn and of the last whole one, every byte of one between them that moves with the length, and the first and the last
/// of the bytes that fill no turn.
fn places(length: usize) -> Vec<usize> {
    let turns = length / TURN;
    let mut places = vec![turns * TURN, length.wrapping_sub(1)];
    if turns > 0 {
        let moving = turns * (length % 7 + 1) / 9 * TURN;
        places.extend([0, TURN - 1, turns * TURN - TURN, turns * TURN - 1]);
        places.extend(moving..moving + TURN);
    }
    places.retain(|&place| place < length);
    places.sort();
    places.dedup();
    places
}

/// Letters up to the first of these bytes, and blanks behind it.
fn text(length: usize, bytes: &[(usize, u8)]) -> Vec<u8> {
    let mut text = vec![b'A'; length];
    if let Some(&(first, _)) = bytes.first() {
        text[first..].fill(b' ');
    }
    for &(place, byte) in bytes {
        text[place] = byte;
    }
    text
}

/// The good one with blanks before it, so that its `=` stands at this place, and behind it.
fn good(length: usize, place: usize) -> Option<Vec<u8>> {
    let mut text = vec![b' '; length];
    let start = place.checked_sub(GOOD.len())?;
    text[start..place].copy_from_slice(GOOD.as_bytes());
    text[place] = b'=';
    Some(text)
}

/// All those of this length: no such byte, one at each place, the good one with its `=` there, a `=` and something behind it at every two
/// places; and, where these are next to one another, a byte before the `=` that is not allowed, and a third one behind what follows the `=`,
/// right there and at the end.
pub fn bulletins(length: usize) -> Vec<Vec<u8>> {
    let places = places(length);
    let mut all = vec![text(length, &[])];
    for (i, &p) in places.iter().enumerate() {
        all.extend([b'a', b'='].map(|byte| text(length, &[(p, byte)])));
        all.extend(good(length, p));
        for &q in &places[i + 1..] {
            all.extend([b'A', b'=', 0x80].map(|byte| text(length, &[(p, b'='), (q, byte)])));
        }
        let Some(&q) = places.get(i + 1) else { continue };
        all.extend([b'a', b'='].map(|byte| text(length, &[(p, b'a'), (q, byte)])));
        let beyond = &places[i + 2..];
        for &r in beyond.iter().take(1).chain(beyond.iter().skip(1).last()) {
            all.extend([b'>', b'='].map(|byte| text(length, &[(p, b'='), (q, b'A'), (r, byte)])));
        }
    }
    all
}
