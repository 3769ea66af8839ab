//! One stream through the host crate, the entry points and the model.

use std::collections::BTreeMap;
use std::fmt::Debug;

use compare::reading::text::{self, Hex};
use compare::reading::{self, fields::Bytes, scalar, Ending, Event, Place, Scalar};
use compare::rng::Rng;

/// Differences beyond these are counted only.
const PRINTED: u64 = 100;

#[derive(Default)]
pub struct Tally {
    pub streams: u64,
    pub differences: u64,
    /// How often each thing was compared.
    compared: BTreeMap<&'static str, u64>,
    /// Walks that ended whole, and by refusal's number.
    pub endings: [u64; 15],
    /// Timestamps that the walks showed, and those of them that are out of the calendar.
    pub timestamps: u64,
    pub out_of_calendar: u64,
}

impl Tally {
    /// Judges a walk from a position, and counts the stream.
    pub fn walk(&mut self, stream: &[u8], position: usize) {
        self.streams += 1;
        self.hold(stream, position, |tally| tally.judge(stream, position));
    }

    /// The walk by the host crate's reader, the same with containers passed over, and all places of it by the entry points.
    fn judge(&mut self, stream: &[u8], position: usize) -> Result<(), String> {
        let (events, ending) = reading::walk(stream, position);
        self.endings[match ending {
            Ending::Whole => 0,
            Ending::Refused { refusal, .. } => usize::from(refusal.number()),
        }] += 1;
        for event in &events {
            if let Event::Scalar { value: Scalar::Timestamp { out_of_calendar, .. }, .. } = event {
                self.timestamps += 1;
                self.out_of_calendar += u64::from(*out_of_calendar);
            }
        }
        let ours = crate::walk(stream, position).map(|(events, ending)| text::line(&events, ending));
        self.same("walk", ours, text::line(&events, ending))?;
        self.same("walk past containers", crate::pass_over(stream, position), ending)?;
        self.at_place(stream, Place::in_stream(stream, position))
    }

    /// The stream lent at an odd place, and as the body of scalars. It is counted with its walk.
    pub fn odd_uses(&mut self, rng: &mut Rng, stream: &[u8]) {
        let place = Place {
            end: if rng.one_in(8) { stream.len() + rng.below(2) } else { rng.below(stream.len() + 1) },
            parent: if rng.one_in(3) { rng.below(256) as u8 } else { rng.pick(&[0, 0xb3, 0xc3, 0xd3, 0xd1, 0xde]) },
            least: rng.of_bits(8),
            depth: if rng.one_in(3) { rng.below(256) as u8 } else { 28 + rng.below(6) as u8 },
            position: rng.below(stream.len() + 2),
        };
        self.hold(stream, place.position, |tally| tally.at_place(stream, place).map_err(|why| format!("{why} at {place:?}")));
        let position = rng.below(stream.len() + 1);
        self.hold(stream, position, |tally| tally.bodies(&stream[position..]));
    }

    /// Judges, and counts what differs.
    fn hold(&mut self, stream: &[u8], position: usize, judge: impl FnOnce(&mut Tally) -> Result<(), String>) {
        let judged = judge(self);
        self.count(stream, position, judged);
    }

    pub fn count(&mut self, stream: &[u8], position: usize, judged: Result<(), String>) {
        if let Err(why) = judged {
            self.differences += 1;
            if self.differences <= PRINTED {
                println!("{} from {position}: {why}", Hex(stream));
            }
        }
    }

    pub fn print(&self) {
        if self.differences > PRINTED {
            println!("{} more differences", self.differences - PRINTED);
        }
        let endings = [(0, "whole"), (2, "of 2"), (4, "of 4"), (13, "of 13"), (14, "of 14")];
        let endings: Vec<String> = endings.iter().map(|(at, name)| format!("{} {name}", self.endings[*at])).collect();
        println!("ends: {}", endings.join(", "));
        println!("timestamps: {}, {} of them out of calendar", self.timestamps, self.out_of_calendar);
        println!("{} streams, {} differences", self.streams, self.differences);
    }

    fn same<T: PartialEq + Debug>(&mut self, what: &'static str, ours: Result<T, crate::Odd>, model: T) -> Result<(), String> {
        *self.compared.entry(what).or_default() += 1;
        same(what, ours, model)
    }

    /// The items from a place on, by their parts, and the rest from there.
    fn at_place(&mut self, stream: &[u8], mut place: Place) -> Result<(), String> {
        self.same("rest", crate::rest(stream, place), reading::rest(stream, place).1)?;
        loop {
            let model = reading::item(stream, place);
            self.same("item", crate::item(stream, place), model.clone())?;
            let Ok(Some(item)) = model else {
                return Ok(());
            };
            if item.opens() {
                let inside =
                    Place { end: item.body.end, parent: item.kind, least: 0, depth: place.depth + 1, position: item.body.start };
                self.at_place(stream, inside)?;
            }
            if !item.is_pad() {
                place.least = item.name;
            }
            place.position = item.body.end;
        }
    }

    /// Any bytes as the body of a decimal, a timestamp and a symbol, and as sids.
    fn bodies(&mut self, body: &[u8]) -> Result<(), String> {
        self.same("decimal", crate::decimal(body), scalar::read(0x5e, body))?;
        self.same("timestamp", crate::timestamp_body(body), scalar::read(0x6e, body))?;
        self.same("symbol", crate::symbol(body), scalar::read(0x7e, body))?;
        let mut sids = Bytes::of(body);
        let model = sids.var_uint().map(|sid| (sid, sids.at));
        self.same("sid", crate::sid(body, 0), model)
    }
}

fn same<T: PartialEq + Debug>(what: &str, ours: Result<T, crate::Odd>, model: T) -> Result<(), String> {
    match ours {
        Ok(ours) if ours == model => Ok(()),
        Ok(ours) => Err(format!("{what}\n  ours  {ours:?}\n  model {model:?}")),
        Err(odd) => Err(format!("{what}\n  ours  {odd}\n  model {model:?}")),
    }
}

#[cfg(test)]
mod tests {
    use super::*;

    #[test]
    fn what_differs_is_counted() {
        let mut tally = Tally::default();
        for (ours, model, differences) in [(Ok(1), 1, 0), (Ok(1), 2, 1), (Err("odd".into()), 1, 2)] {
            tally.count(b"", 0, same("number", ours, model));
            assert_eq!(tally.differences, differences);
        }
    }

    #[test]
    fn what_differs_is_counted_beyond_what_is_printed() {
        let mut tally = Tally::default();
        for _ in 0..PRINTED + 2 {
            tally.hold(b"", 0, |tally| tally.same("number", Ok(1), 2));
        }
        assert_eq!(tally.differences, PRINTED + 2);
    }

    #[test]
    fn all_is_compared() {
        let mut tally = Tally::default();
        // An int in a list in a list, and an int behind: three places, with an item for each value and each end.
        let stream = [0xb2, 0xb1, 0x20, 0x20];
        tally.walk(&stream, 0);
        assert_eq!(tally.compared, BTreeMap::from([("walk", 1), ("walk past containers", 1), ("rest", 3), ("item", 7)]));
        tally.compared.clear();
        tally.odd_uses(&mut Rng::new(1), &stream);
        let things: Vec<&str> = tally.compared.into_keys().collect();
        assert_eq!(things, ["decimal", "item", "rest", "sid", "symbol", "timestamp"]);
        assert_eq!((tally.streams, tally.differences), (1, 0));
    }
}
