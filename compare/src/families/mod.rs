//! The families of trial lines: for each rule of document 01 and of document 02, Item 2, the lines around its edges.

mod containers;
mod lines;
mod numbers;
mod texts;
mod timestamps;

use containers::{annotation_counts, container_bodies, member_counts, nesting};
use lines::{damaged, documents, forms, line_lengths, order_of_refusals};
use numbers::{decimal_coefficients, decimal_exponents, f32s, f64s, i64s, ints, nulls_and_bools};
use texts::{strings_and_lobs, symbols_and_names, utf8};
use timestamps::{
    timestamp_fractions, timestamp_months, timestamp_offsets, timestamp_precisions, timestamp_times, timestamp_years,
};

pub type Line = Vec<u8>;

pub struct Family {
    pub name: &'static str,
    pub lines: Vec<Line>,
}

/// All families, always the same lines.
pub fn all() -> Vec<Family> {
    let text = |name, lines: Vec<String>| Family { name, lines: lines.into_iter().map(String::into_bytes).collect() };
    vec![
        text("documents", documents()),
        text("nulls and bools", nulls_and_bools()),
        text("i64", i64s()),
        text("int", ints()),
        text("f64", f64s()),
        text("f32", f32s()),
        text("decimal exponents", decimal_exponents()),
        text("decimal coefficients", decimal_coefficients()),
        text("timestamp precisions", timestamp_precisions()),
        text("timestamp months", timestamp_months()),
        text("timestamp times", timestamp_times()),
        text("timestamp years", timestamp_years()),
        text("timestamp offsets", timestamp_offsets()),
        text("timestamp fractions", timestamp_fractions()),
        text("symbols and names", symbols_and_names()),
        text("strings and lobs", strings_and_lobs()),
        text("utf-8", utf8()),
        text("container bodies", container_bodies()),
        text("member counts", member_counts()),
        text("annotation counts", annotation_counts()),
        text("nesting", nesting()),
        text("order of refusals", order_of_refusals()),
        text("line lengths", line_lengths()),
        text("forms", forms()),
        Family { name: "damaged", lines: damaged() },
    ]
}
