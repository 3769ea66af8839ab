//! The fixed sample: the input of the trial program's own check.

use std::collections::{BTreeMap, HashSet};

use crate::families::{self, Line};
use crate::random;
use crate::refusal;
use crate::rng::Rng;

const SEED: u64 = 20_260_314;
const RANDOM_LINES: usize = 250;
/// Lines taken of a family for each answer: bytes, or one of the numbers.
const ACCEPTED: usize = 18;
const REFUSED: usize = 7;
const DAMAGED: usize = 60;
/// Longer lines are taken from "documents" and "line lengths" alone, and of these fewer.
const SHORT: usize = 1000;
const LONG_LINES: usize = 5;

/// All lines of the documents, forms and timestamp years, lines of every other family for each answer that the family
/// meets, and random lines. A line is never there twice, and none has a byte 0, so that the file
/// counts as text.
pub fn lines() -> Vec<Line> {
    let mut taken = HashSet::new();
    let mut lines = Vec::new();
    let mut take = |line: Line| {
        if !line.contains(&0) && taken.insert(line.clone()) {
            lines.push(line);
        }
    };
    for family in families::all() {
        if matches!(family.name, "documents" | "forms" | "timestamp years") {
            family.lines.into_iter().for_each(&mut take);
            continue;
        }
        let long = family.name == "line lengths";
        let mut by_answer: BTreeMap<Option<u8>, Vec<Line>> = BTreeMap::new();
        for line in family.lines {
            if long || line.len() <= SHORT {
                by_answer.entry(refusal::number(&line)).or_default().push(line);
            }
        }
        for (answer, lines) in by_answer {
            let count = match answer {
                _ if long => LONG_LINES,
                _ if family.name == "damaged" => DAMAGED,
                None => ACCEPTED,
                Some(_) => REFUSED,
            };
            spread(lines, count).into_iter().for_each(&mut take);
        }
    }
    let mut rng = Rng::new(SEED);
    for _ in 0..RANDOM_LINES {
        let line = random::line(&mut rng);
        if line.len() <= SHORT {
            take(line);
        }
    }
    lines
}

/// At most `count` of the lines, evenly spread, the first and the last among them.
fn spread(lines: Vec<Line>, count: usize) -> Vec<Line> {
    let last = lines.len() - 1;
    let mut places: Vec<usize> = (0..count).map(|i| i * last / (count - 1)).collect();
    places.dedup();
    places.into_iter().map(|place| lines[place].clone()).collect()
}
