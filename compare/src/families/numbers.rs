//! Nulls, bools, ints, floats and decimals.

use crate::value::Type;

pub fn nulls_and_bools() -> Vec<String> {
    let mut lines = Vec::new();
    for name in Type::ALL.map(Type::name) {
        lines.push(format!("(null {name})"));
        lines.push(format!("(ann (10) (null {name}))"));
        lines.push(format!("(list (null {name}))"));
        lines.push(format!("(struct (4 (null {name})))"));
        lines.push(format!("(null {}x)", name));
        lines.push(format!("(null {})", &name[1..]));
        lines.push(format!("(null {})", name.to_uppercase()));
        lines.push(format!("({name})"));
    }
    for bad in ["(null)", "(null )", "(null i64)", "(null f64)", "(null dec)", "(null ts)", "(null ann)", "(null 0)"] {
        lines.push(bad.to_string());
    }
    for bits in ["0", "1", "2", "00", "01", "10", "11", "-0", "-1", "+1", "a", "true", "1 1", ""] {
        lines.push(format!("(bool {bits})"));
        lines.push(format!("(ann (10) (bool {bits}))"));
    }
    lines.push("(bool)".to_string());
    lines
}

pub fn i64s() -> Vec<String> {
    let mut lines = Vec::new();
    for power in 0..=65 {
        for delta in -2..=2 {
            let number = (1i128 << power) + delta;
            for number in [number, -number] {
                lines.push(format!("(i64 {number})"));
            }
            if power % 8 == 0 {
                lines.push(format!("(ann (10) (i64 {number}))"));
                lines.push(format!("(i64 00{number})"));
            }
        }
    }
    for number in 0..=300 {
        lines.push(format!("(i64 {number})"));
        lines.push(format!("(i64 -{number})"));
    }
    for power in 0..=40 {
        let number = format!("1{}", "0".repeat(power));
        lines.push(format!("(i64 {number})"));
        lines.push(format!("(i64 -{number})"));
        lines.push(format!("(i64 {}7)", "0".repeat(power)));
        lines.push(format!("(i64 -{}7)", "0".repeat(power)));
    }
    for bad in ["-", "--1", "+1", "1-", "- 1", "a", "0x1", "1.0", "1 1", ""] {
        lines.push(format!("(i64 {bad})"));
    }
    lines
}

/// Hex digits of the least and greatest number of `bytes` bytes, and of those around its top bit.
fn magnitudes(bytes: usize) -> Vec<String> {
    let low = bytes - 1;
    vec![
        format!("1{}", "00".repeat(low)),
        format!("7f{}", "ff".repeat(low)),
        format!("80{}", "00".repeat(low)),
        format!("80{}", "01".repeat(low)),
        format!("ff{}", "ff".repeat(low)),
    ]
}

pub fn ints() -> Vec<String> {
    let mut lines = Vec::new();
    let sizes = (1..=40).chain(62..=66).chain(124..=131).chain(254..=258).chain([500, 1000, 2000]);
    for bytes in sizes {
        for digits in magnitudes(bytes) {
            for zeros in ["", "0", "00", "000", "0000000000000000"] {
                lines.push(format!("(int {zeros}{digits})"));
                lines.push(format!("(int -{zeros}{digits})"));
            }
            lines.push(format!("(ann (10) (int {digits}))"));
            lines.push(format!("(list (int -{digits}))"));
        }
    }
    for count in 4080..=4095 {
        lines.push(format!("(int {})", "f".repeat(count)));
        lines.push(format!("(int -{})", "1".repeat(count)));
        lines.push(format!("(int {})", "0".repeat(count)));
    }
    for zeros in 1..=70 {
        lines.push(format!("(int {})", "0".repeat(zeros)));
        lines.push(format!("(int -{})", "0".repeat(zeros)));
        lines.push(format!("(int {}1)", "0".repeat(zeros)));
    }
    for number in 0..=0x203 {
        lines.push(format!("(int {number:x})"));
        lines.push(format!("(int -{number:x})"));
    }
    for bad in ["", "-", "--1", "+1", "g", "1g", "A", "aF", "0x1", "1 1", "-\"a\""] {
        lines.push(format!("(int {bad})"));
    }
    lines
}

pub fn f64s() -> Vec<String> {
    const LOW_29: u64 = (1 << 29) - 1;
    const FRACTION: u64 = (1 << 52) - 1;
    let mut bits = Vec::new();
    for exponent in 0..2048u64 {
        for fraction in [
            0,
            1,
            LOW_29 - 1,
            LOW_29,
            LOW_29 + 1,
            LOW_29 + 2,
            1 << 28,
            3 << 28,
            1 << 51,
            (1 << 51) + 1,
            FRACTION - LOW_29,
            FRACTION - LOW_29 - 1,
            FRACTION - LOW_29 + 1,
            FRACTION,
        ] {
            bits.push(exponent << 52 | fraction);
        }
    }
    // Subnormals of binary32 begin at exponent 896, and the last is 874: one bit less each.
    for exponent in 868..=900u64 {
        for bit in 0..52 {
            let ones_above = FRACTION & !((1 << bit) - 1);
            bits.push(exponent << 52 | 1 << bit);
            bits.push(exponent << 52 | ones_above);
        }
    }
    // NaNs with payloads.
    for bit in 0..52 {
        bits.push(0x7ff << 52 | 1 << bit);
        bits.push(0x7ff << 52 | (1 << 51) | 1 << bit);
    }
    let sign = 1u64 << 63;
    let mut lines: Vec<String> = bits.iter().flat_map(|b| [*b, *b | sign]).map(|b| format!("(f64 {b:016x})")).collect();
    for count in 0..=20 {
        lines.push(format!("(f64 {})", "3".repeat(count)));
    }
    for bad in ["-3ff8000000000000", "3FF8000000000000", "3ff800000000000g", "1.5", "nan"] {
        lines.push(format!("(f64 {bad})"));
    }
    for bits in ["0000000000000000", "3ff8000000000000", "3fb999999999999a"] {
        lines.push(format!("(ann (10) (f64 {bits}))"));
        lines.push(format!("(list (f64 {bits}))"));
    }
    lines
}

pub fn f32s() -> Vec<String> {
    const FRACTION: u32 = (1 << 23) - 1;
    let mut bits = Vec::new();
    for exponent in 0..256u32 {
        for fraction in [0, 1, 2, 1 << 22, (1 << 22) + 1, FRACTION - 1, FRACTION] {
            bits.push(exponent << 23 | fraction);
        }
    }
    for bit in 0..23 {
        bits.push(1 << bit);
        bits.push(0xff << 23 | 1 << bit);
    }
    let sign = 1u32 << 31;
    let mut lines: Vec<String> = bits.iter().flat_map(|b| [*b, *b | sign]).map(|b| format!("(f32 {b:08x})")).collect();
    for count in 0..=10 {
        lines.push(format!("(f32 {})", "3".repeat(count)));
    }
    for bad in ["-3fc00000", "3FC00000", "3fc0000g", "1.5"] {
        lines.push(format!("(f32 {bad})"));
    }
    for bits in ["00000000", "3fc00000", "7fc00000"] {
        lines.push(format!("(ann (10) (f32 {bits}))"));
        lines.push(format!("(list (f32 {bits}))"));
    }
    lines
}

/// Exponents on both sides of each size of a VarInt, the limits of signed 64 bits and one past.
fn exponents() -> Vec<i128> {
    let mut exponents = vec![0, 1, -1, 5, -2];
    for bits in (6..=62).step_by(7) {
        for number in [(1 << bits) - 1, 1 << bits] {
            exponents.extend([number, -number]);
        }
    }
    let limit = 1i128 << 63;
    exponents.extend([limit - 1, -limit, limit, -limit - 1]);
    exponents
}

pub fn decimal_exponents() -> Vec<String> {
    let mut lines = Vec::new();
    for exponent in exponents() {
        for coefficient in ["0", "-0", "000", "-000", "1", "-1"] {
            lines.push(format!("(dec {coefficient} {exponent})"));
            lines.push(format!("(ann (10) (dec {coefficient} {exponent}))"));
        }
        // The body is 32 bytes with a coefficient of 22 to 31 bytes.
        for bytes in 20..=33 {
            for digits in magnitudes(bytes) {
                lines.push(format!("(dec {digits} {exponent})"));
                lines.push(format!("(dec -{digits} {exponent})"));
            }
        }
    }
    for exponent in -300..=300 {
        lines.push(format!("(dec 96 {exponent})"));
        lines.push(format!("(dec 0 {exponent})"));
    }
    for bad in ["", "1", "1 ", "- 1", "+1 1", "1 +1", "A 1", "1 a", "1 -", "1 --1", "1 1 1", "g 1", "\"a\" 1", "1 ?"] {
        lines.push(format!("(dec {bad})"));
    }
    lines
}

pub fn decimal_coefficients() -> Vec<String> {
    let mut lines = Vec::new();
    for number in 0..=0x203 {
        for exponent in ["0", "-0", "-1", "63", "-64"] {
            lines.push(format!("(dec {number:x} {exponent})"));
            lines.push(format!("(dec -{number:x} {exponent})"));
        }
    }
    for bytes in (1..=36).chain([100, 127, 128, 1000, 2000]) {
        for digits in magnitudes(bytes) {
            for zeros in ["", "0", "00", "0000000000000000"] {
                lines.push(format!("(dec {zeros}{digits} 0)"));
                lines.push(format!("(dec -{zeros}{digits} -2)"));
            }
        }
    }
    lines
}
