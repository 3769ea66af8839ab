//! The refusal card, docs/REFUSALS.md, and the C header have the refusals of this crate and no others, and the card's trial lines and
//! streams are answered as it says.
use goatminute::{NotARefusal, ReadRefusal, Reader, Refusal};
use std::fs;
use std::path::Path;

fn read(path: &str) -> Vec<u8> {
    let path = Path::new(env!("CARGO_MANIFEST_DIR")).join("..").join(path);
    fs::read(&path).unwrap_or_else(|why| panic!("{}: {why}", path.display()))
}

/// The rows of the card that begin with a number: that and the cells behind it.
fn rows() -> Vec<(u8, Vec<String>)> {
    let card = String::from_utf8(read("docs/REFUSALS.md")).unwrap();
    card.lines()
        .filter_map(|line| {
            let mut cells = line.split('|').skip(1).map(|cell| cell.trim().to_string());
            Some((cells.next()?.parse().ok()?, cells.collect()))
        })
        .collect()
}

/// What stands in the cell between backquotes.
fn quoted(cell: &str) -> Option<&str> {
    cell.split('`').nth(1)
}

/// The examples behind the card's rules, with the numbers that they are to be answered by.
fn examples() -> Vec<(u8, String)> {
    rows()
        .into_iter()
        .filter_map(|(number, cells)| {
            let example = cells[1..].iter().find_map(|cell| quoted(cell))?;
            Some((number, example.to_string()))
        })
        .collect()
}

/// Those of the writer and the reader, by their numbers; what has no name in this crate is only met by trial lines.
const REFUSALS: [Refusal; 11] = [
    Refusal::BufferTooLong,
    Refusal::StateUnfit,
    Refusal::Misplaced,
    Refusal::TooDeep,
    Refusal::NegativeZero,
    Refusal::NotUtf8,
    Refusal::BadTimestamp,
    Refusal::DecimalTooLong,
    Refusal::NoRoom,
    Refusal::NotIon,
    Refusal::CutShort,
];

#[test]
fn card_has_the_refusals_by_number_and_name() {
    let rows = rows();
    let numbers: Vec<u8> = rows.iter().map(|row| row.0).collect();
    assert_eq!(numbers, [1, 2, 3, 4, 5, 6, 7, 8, 10, 11, 12, 2, 13, 14, 4]);
    for (number, cells) in rows {
        let named: Vec<String> = REFUSALS
            .iter()
            .filter(|refusal| refusal.number() == number)
            .map(|refusal| format!("{refusal:?}"))
            .collect();
        match named.as_slice() {
            [name] => assert_eq!(quoted(&cells[0]), Some(name.as_str()), "{number}"),
            [] => assert!([11, 12].contains(&number), "{number} has no name"),
            _ => panic!("{number} has several names: {named:?}"),
        }
    }
}

#[test]
fn numbers_of_the_card_are_those_of_the_refusals() {
    let rows = rows();
    for number in 0..=u8::MAX {
        // 11 and 12 have no name
        let name = rows.iter().filter(|row| row.0 == number).find_map(|row| quoted(&row.1[0]));
        let named = name.filter(|_| ![11, 12].contains(&number));
        let answer = Refusal::try_from(number);
        assert_eq!(answer.ok().map(|refusal| format!("{refusal:?}")), named.map(str::to_string));
        assert_eq!(answer.map_or_else(|NotARefusal(number)| number, Refusal::number), number);
    }
    assert_eq!(NotARefusal(9).to_string(), "9 is the number of no refusal");
}

#[test]
fn words_of_each_refusal() {
    let words = [
        "the buffer is longer than 16,777,215 bytes (refusal 1)",
        "the state does not fit the buffer or itself, or a position lies past a stream's end (refusal 2)",
        "the call is out of place: a name, value, close, abandonment, marker, emptying or step that cannot stand here (refusal 3)",
        "32 containers are open (refusal 4)",
        "an int with a negative sign has magnitude zero (refusal 5)",
        "the string is not UTF-8 (refusal 6)",
        "a field of the timestamp is out of its range, or its UTC year outside 1 to 9999 (refusal 7)",
        "the decimal's body is over 32 bytes (refusal 8)",
        "the buffer has no room (refusal 10)",
        "the bytes are outside the grammar of Ion 1.0 (refusal 13)",
        "the stream stops inside a value, a pad or a version marker (refusal 14)",
    ];
    for (refusal, words) in REFUSALS.into_iter().zip(words) {
        assert_eq!(refusal.to_string(), words);
        // a reader has its own for 2 and 4
        let read = match refusal {
            Refusal::StateUnfit => "the position is past the stream's end (refusal 2)",
            Refusal::TooDeep => "a thirty-third container would be open (refusal 4)",
            _ => words,
        };
        assert_eq!(ReadRefusal { refusal, place: 7 }.to_string(), format!("{read} at byte 7"));
    }
    assert_eq!(
        Refusal::Unknown(9).to_string(),
        "the library answered 9, which is no refusal of this crate: crate and library are of different versions"
    );
}

#[test]
fn trial_lines_of_the_card_are_answered_by_their_numbers() {
    let (lines, answers) = (read("crates/trial/stdin"), read("crates/trial/stdout"));
    let answered: Vec<(&[u8], &[u8])> = lines.split(|&b| b == b'\n').zip(answers.split(|&b| b == b'\n')).collect();
    let mut met = Vec::new();
    for (number, line) in examples().iter().filter(|(_, example)| example.starts_with('(')) {
        let answer = answered.iter().find(|(sample, _)| *sample == line.as_bytes());
        let (_, answer) = answer.unwrap_or_else(|| panic!("{line} is not in the sample"));
        assert_eq!(*answer, format!("!{number}").as_bytes(), "{line}");
        met.push(*number);
    }
    assert_eq!(met, [5, 6, 7, 8, 11, 12]);
}

#[test]
fn streams_of_the_card_are_answered_by_their_numbers() {
    let mut met = Vec::new();
    for (number, hex) in examples().iter().filter(|(_, example)| !example.starts_with('(')) {
        let byte = |at: usize| u8::from_str_radix(&hex[at..at + 2], 16).unwrap();
        let stream: Vec<u8> = (0..hex.len()).step_by(2).map(byte).collect();
        let answer = Reader::new(&stream).check().map_err(|why| why.refusal.number());
        assert_eq!(answer, Err(*number), "{hex}");
        met.push(*number);
    }
    assert_eq!(met, [13, 14]);
}

/// A name of the crate as one of the header: `NotUtf8` as `GM_NOT_UTF8`.
fn of_c(name: &str) -> String {
    name.chars().fold("GM".to_string(), |c, letter| match letter {
        'A'..='Z' => c + "_" + &letter.to_string(),
        _ => c + &letter.to_uppercase().to_string(),
    })
}

#[test]
fn header_has_the_refusals_by_number_and_name() {
    let header = String::from_utf8(read("host/include/goatminute.h")).unwrap();
    let (_, answers) = header.split_once("enum gm_answer {").unwrap();
    let (answers, _) = answers.split_once('}').unwrap();
    let constants: Vec<(String, u8)> = answers
        .lines()
        .filter_map(|line| line.trim().split_once(" = "))
        .map(|(name, rest)| {
            let number = rest.split(|c: char| !c.is_ascii_digit()).next().unwrap();
            (name.to_string(), number.parse().unwrap())
        })
        .collect();
    let refusals = REFUSALS
        .iter()
        .map(|refusal| (of_c(&format!("{refusal:?}")), refusal.number()));
    let of_the_reader = [("GM_PAST_THE_END", 2), ("GM_READ_TOO_DEEP", 4)];
    let expected: Vec<(String, u8)> = [("GM_ACCEPTED".to_string(), 0)]
        .into_iter()
        .chain(refusals)
        .chain(of_the_reader.map(|(name, number)| (name.to_string(), number)))
        .collect();
    assert_eq!(constants, expected);
}
