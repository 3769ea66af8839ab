//! Calls that must leave no trace.

use std::fmt;

use compare::rng::Rng;
use goatminute::{Decimal, Refusal, StructWriter, Timestamp, WriteValues};

pub struct Noise {
    rng: Rng,
    pub counts: Counts,
}

/// What was made and found in order.
#[derive(Default)]
pub struct Counts {
    /// Containers of the stream, by what their closings answered.
    pub closed: u64,
    pub emptied: u64,
    abandoned: u64,
    misplaced: u64,
    refused: u64,
}

impl fmt::Display for Counts {
    fn fmt(&self, f: &mut fmt::Formatter) -> fmt::Result {
        let Counts { closed, emptied, abandoned, misplaced, refused } = self;
        write!(f, "{closed} closed, {emptied} emptied, {abandoned} abandoned, {misplaced} misplaced, {refused} refused")
    }
}

impl Noise {
    pub fn new(rng: Rng) -> Noise {
        Noise { rng, counts: Counts::default() }
    }

    pub fn one_in(&mut self, n: usize) -> bool {
        self.rng.one_in(n)
    }

    /// One time in six, where a value may stand: an abandoned container or a refused value.
    pub fn make(&mut self, values: &mut dyn WriteValues) {
        match self.rng.below(12) {
            0 => self.abandon(values, 2),
            1 => self.refused(values),
            _ => {}
        }
    }

    /// Opens a container with members, some of them abandoned too, and drops it. With 32 open there is nothing to drop.
    fn abandon(&mut self, values: &mut dyn WriteValues, depth: usize) {
        self.counts.abandoned += 1;
        let sids: Vec<u64> = (0..self.rng.below(3)).map(|_| self.rng.of_bits(64)).collect();
        let writer = values.with_annotations(&sids);
        match self.rng.below(3) {
            0 => {
                if let Some(mut list) = opened(writer.list_writer()) {
                    self.fill(&mut list, depth);
                }
            }
            1 => {
                if let Some(mut sexp) = opened(writer.sexp_writer()) {
                    self.fill(&mut sexp, depth);
                }
            }
            _ => {
                if let Some(mut record) = opened(writer.struct_writer()) {
                    for _ in 0..self.rng.below(3) {
                        expect(record.field_name(self.rng.of_bits(64)).map(|_| ()), Ok(()));
                        self.fill_one(&mut record, depth);
                    }
                    // A name that waits is dropped with it.
                    if self.rng.one_in(2) {
                        expect(record.field_name(4).map(|_| ()), Ok(()));
                    }
                }
            }
        }
    }

    fn fill(&mut self, values: &mut dyn WriteValues, depth: usize) {
        for _ in 0..self.rng.below(4) {
            self.fill_one(values, depth);
        }
    }

    /// Writes a value, with an abandoned container before it while `depth` is left.
    fn fill_one(&mut self, values: &mut dyn WriteValues, depth: usize) {
        if depth > 0 && self.rng.one_in(2) {
            self.abandon(values, depth - 1);
        }
        let blob = vec![0xbb; self.rng.below(200)];
        expect(values.write_blob(&blob), Ok(()));
    }

    fn refused(&mut self, values: &mut dyn WriteValues) {
        let (answer, want) = match self.rng.below(5) {
            0 => (values.write_int(true, &[0, 0]), Refusal::NegativeZero),
            1 => (values.write_string_bytes(b"go\xff"), Refusal::NotUtf8),
            2 => (values.write_timestamp(Timestamp::day(1900, 2, 29)), Refusal::BadTimestamp),
            // in the UTC year 0
            3 => (values.write_timestamp(Timestamp::minute(1, 1, 1, 0, 30).with_offset(31)), Refusal::BadTimestamp),
            _ => (values.write_decimal(Decimal::from_bytes(false, &[0xff; 31], 0)), Refusal::DecimalTooLong),
        };
        expect(answer, Err(want));
        self.counts.refused += 1;
    }

    /// One time in eight, a value in a struct with no name waiting.
    pub fn misplaced_in(&mut self, record: &mut StructWriter) {
        if self.rng.one_in(8) {
            for answer in [record.write_bool(true), record.list_writer().map(drop)] {
                expect(answer, Err(Refusal::Misplaced));
                self.counts.misplaced += 1;
            }
        }
    }
}

/// The container, unless 32 are open.
fn opened<W>(answer: Result<W, Refusal>) -> Option<W> {
    match answer {
        Ok(container) => Some(container),
        Err(refusal) => {
            expect(Err(refusal), Err(Refusal::TooDeep));
            None
        }
    }
}

fn expect(answer: Result<(), Refusal>, want: Result<(), Refusal>) {
    assert_eq!(answer, want, "a call that leaves no trace");
}

#[cfg(test)]
mod tests {
    use super::*;
    use std::panic::{catch_unwind, AssertUnwindSafe};

    use goatminute::{ValueWriter, Writer};

    /// Answers every call that is to be refused with this.
    struct Faulty<'b>(Writer<'b>, Result<(), Refusal>);

    impl WriteValues for Faulty<'_> {
        fn value_writer(&mut self) -> ValueWriter<'_, 'static> {
            self.0.value_writer()
        }

        fn write_int(&mut self, _: bool, _: &[u8]) -> Result<(), Refusal> {
            self.1
        }

        fn write_string_bytes(&mut self, _: &[u8]) -> Result<(), Refusal> {
            self.1
        }

        fn write_timestamp(&mut self, _: Timestamp) -> Result<(), Refusal> {
            self.1
        }

        fn write_decimal(&mut self, _: Decimal<'_>) -> Result<(), Refusal> {
            self.1
        }
    }

    #[test]
    fn a_call_that_is_accepted_or_refused_by_another_number() {
        let mut buf = [0; 16];
        for answer in [Ok(()), Err(Refusal::Misplaced)] {
            let mut values = Faulty(Writer::new(&mut buf).expect("a start"), answer);
            for seed in 0..100 {
                let mut noise = Noise::new(Rng::new(seed));
                let refused = catch_unwind(AssertUnwindSafe(|| noise.refused(&mut values)));
                assert!(refused.is_err() && noise.counts.refused == 0, "{answer:?}");
            }
        }
        assert!(opened::<()>(Err(Refusal::TooDeep)).is_none());
        assert!(catch_unwind(|| opened::<()>(Err(Refusal::Misplaced))).is_err());
        assert!(catch_unwind(|| expect(Err(Refusal::NoRoom), Ok(()))).is_err());
    }
}
