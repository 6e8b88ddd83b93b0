//! From bytes to words: refusals 1 to 3, then the words with their places.

pub struct Word<'a> {
    pub text: &'a str,
    pub place: usize,
}

fn blank(b: u8) -> bool {
    b == b' ' || b == b'\r' || b == b'\n'
}

fn allowed(b: u8) -> bool {
    b.is_ascii_uppercase() || b.is_ascii_digit() || blank(b) || b"/-.,()=".contains(&b)
}

/// The words, the `=` last; or the number, the place and the length of the refusal: one byte, or 0 where there is none to show.
pub fn cut(bulletin: &[u8]) -> Result<Vec<Word<'_>>, (u8, usize, usize)> {
    if bulletin.is_empty() || bulletin.len() > 2048 {
        return Err((1, 0, 0));
    }
    if let Some(place) = bulletin.iter().position(|&b| !allowed(b)) {
        return Err((2, place, 1));
    }
    let Some(end) = bulletin.iter().position(|&b| b == b'=') else {
        return Err((3, bulletin.len(), 0));
    };
    if let Some(more) = bulletin[end + 1..].iter().position(|&b| !blank(b)) {
        return Err((3, end + 1 + more, 1));
    }
    // Only ASCII is left here.
    let text = std::str::from_utf8(bulletin).unwrap();
    let mut words = Vec::new();
    let mut at = 0;
    while at < end {
        let mut stop = at;
        while stop < end && !blank(bulletin[stop]) {
            stop += 1;
        }
        if stop > at {
            words.push(Word { text: &text[at..stop], place: at });
        }
        at = stop + 1;
    }
    words.push(Word { text: "=", place: end });
    Ok(words)
}
