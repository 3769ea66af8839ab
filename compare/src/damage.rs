//! Damaged lines. No damage makes a line feed.

use crate::rng::Rng;

/// Bytes put in the place of others: those with a part in the form, their neighbours in ASCII,
/// upper case, a plus, controls and bytes over 127.
const REPLACEMENTS: &[u8] = b" ()\"-+?0189/:acfgz`{AFGZ@[.,\t\r\0\x7f\x80\xbf\xe9\xff";

/// Bytes put between others.
const INSERTIONS: &[u8] = b" ()\"-+0a\r\0\x80\xff";

/// Every line with one byte dropped, doubled, replaced or added, and every beginning.
pub fn each(line: &[u8]) -> Vec<Vec<u8>> {
    let mut damaged = Vec::new();
    for at in 0..line.len() {
        damaged.push(line[..at].to_vec());
        damaged.push(with(line, at..at + 1, &[]));
        damaged.push(with(line, at..at, &line[at..at + 1]));
        for byte in REPLACEMENTS {
            damaged.push(with(line, at..at + 1, &[*byte]));
        }
    }
    for at in 0..=line.len() {
        for byte in INSERTIONS {
            damaged.push(with(line, at..at, &[*byte]));
        }
    }
    damaged
}

/// One damage of a line that is not empty.
pub fn one(rng: &mut Rng, line: &[u8]) -> Vec<u8> {
    let at = rng.below(line.len());
    match rng.below(10) {
        0 | 1 => with(line, at..at + 1, &[]),
        2 => with(line, at..at, &line[at..at + 1]),
        3 => with(line, at..at + 1, &[rng.pick(REPLACEMENTS)]),
        4 => with(line, at..at, &[rng.pick(INSERTIONS)]),
        5 => {
            let byte = rng.below(255) as u8;
            with(line, at..at + 1, &[if byte < b'\n' { byte } else { byte + 1 }])
        }
        // One of its spaces, if there is one, dropped or doubled.
        6 | 7 => {
            let spaces: Vec<usize> = (0..line.len()).filter(|i| line[*i] == b' ').collect();
            match spaces.is_empty() {
                true => line[..at].to_vec(),
                false => {
                    let at = rng.pick(&spaces);
                    with(line, at..at + 1, if rng.one_in(2) { b"" } else { b"  " })
                }
            }
        }
        // A letter in upper case, from some place on.
        8 => match line[at..].iter().position(u8::is_ascii_lowercase) {
            Some(ahead) => {
                let at = at + ahead;
                with(line, at..at + 1, &[line[at].to_ascii_uppercase()])
            }
            None => with(line, at..at, b"+"),
        },
        _ => line[..at].to_vec(),
    }
}

fn with(line: &[u8], place: std::ops::Range<usize>, bytes: &[u8]) -> Vec<u8> {
    [&line[..place.start], bytes, &line[place.end..]].concat()
}
