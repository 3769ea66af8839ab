//! The walk: the items from a place on, containers entered, up to the first that does not read.

use super::item::{annotations, has_names, item};
use super::{scalar, Place, Refusal, Scalar};

/// What a walk shows, in the order of the stream. Only what stands in a struct has a name.
#[derive(Clone, Debug, PartialEq, Eq)]
pub enum Event {
    Marker,
    Scalar { name: Option<u64>, annotations: Vec<u64>, value: Scalar },
    Begin { name: Option<u64>, annotations: Vec<u64>, container: Container },
    End,
}

#[derive(Clone, Copy, Debug, PartialEq, Eq)]
pub enum Container {
    List,
    Sexp,
    Struct,
}

#[derive(Clone, Copy, Debug, PartialEq, Eq)]
pub enum Ending {
    Whole,
    /// The item that does not read begins at `place`: a field with its name, an annotated value with its wrapper.
    Refused {
        refusal: Refusal,
        place: usize,
    },
}

/// From a position of a stream.
pub fn walk(stream: &[u8], position: usize) -> (Vec<Event>, Ending) {
    rest(stream, Place::in_stream(stream, position))
}

/// From a place to the end of what holds it.
pub fn rest(stream: &[u8], place: Place) -> (Vec<Event>, Ending) {
    let mut events = Vec::new();
    let ending = match walk_from(stream, place, &mut events) {
        Ok(()) => Ending::Whole,
        Err((refusal, place)) => Ending::Refused { refusal, place },
    };
    (events, ending)
}

fn walk_from(stream: &[u8], mut place: Place, events: &mut Vec<Event>) -> Result<(), (Refusal, usize)> {
    while let Some(found) = item(stream, place).map_err(|refusal| (refusal, place.position))? {
        place.position = found.body.end;
        if found.is_pad() {
            continue;
        }
        place.least = found.name;
        if found.is_marker() {
            events.push(Event::Marker);
            continue;
        }
        let name = has_names(place.parent).then_some(found.name);
        let annotations = annotations(&stream[found.sids.clone()]).expect("the item was read");
        if !found.opens() {
            let value = scalar::read(found.kind, &stream[found.body.clone()]).expect("the item was read");
            events.push(Event::Scalar { name, annotations, value });
            continue;
        }
        let container = match found.kind >> 4 {
            11 => Container::List,
            12 => Container::Sexp,
            _ => Container::Struct,
        };
        events.push(Event::Begin { name, annotations, container });
        let inside =
            Place { end: found.body.end, parent: found.kind, least: 0, depth: place.depth + 1, position: found.body.start };
        walk_from(stream, inside, events)?;
        events.push(Event::End);
    }
    Ok(())
}
