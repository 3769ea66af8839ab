//! Timestamps: precisions, calendar, the ends of its years, offsets, fractions.

const OFFSETS: [&str; 26] = [
    "?", "0", "-0", "00", "1", "-1", "59", "60", "-60", "63", "-63", "64", "-64", "1439", "-1439", "1440", "-1440", "32768",
    "65536", "-65536", "2147483647", "2147483648", "-2147483648", "-2147483649", "+1", "??",
];

pub fn timestamp_precisions() -> Vec<String> {
    let mut lines = Vec::new();
    let numbers = ["2000", "1", "1", "0", "30", "0", "3", "25", "0", "0"];
    for offset in OFFSETS {
        for count in 0..=numbers.len() {
            let parts = [&[offset], &numbers[..count]].concat();
            lines.push(format!("(ts {})", parts.join(" ")));
        }
    }
    // One number changed, at each precision.
    let changes = [
        "0", "00", "1", "2", "011", "12", "13", "31", "32", "23", "24", "59", "60", "127", "128", "255", "256", "257", "9999",
        "10000", "16383", "16384", "65535", "65536", "65537", "2147483647", "2147483648", "4294967296", "18446744073709551615",
        "18446744073709551616", "-1", "-0", "+1", "?", "a", "",
    ];
    for offset in ["?", "0", "-1439", "1439"] {
        for count in [1, 2, 3, 5, 6, 8] {
            for at in 0..count {
                for change in changes {
                    let mut parts = [&[offset], &numbers[..count]].concat();
                    parts[1 + at] = change;
                    lines.push(format!("(ts {})", parts.join(" ")));
                }
            }
        }
    }
    for count in [1, 2, 3, 5, 6, 8] {
        let numbers = numbers[..count].join(" ");
        lines.push(format!("(ann (10) (ts ? {numbers}))"));
        lines.push(format!("(struct (4 (ts 0 {numbers})))"));
    }
    lines
}

pub fn timestamp_months() -> Vec<String> {
    let mut lines = Vec::new();
    for year in [1, 4, 100, 400, 1900, 2000, 2001, 2004, 2100, 9999] {
        for month in 0..=13 {
            lines.push(format!("(ts ? {year} {month})"));
            for day in [0, 1, 28, 29, 30, 31, 32] {
                lines.push(format!("(ts ? {year} {month} {day})"));
                for offset in ["?", "0", "1", "-1", "1439", "-1439"] {
                    for time in ["0 0", "23 59"] {
                        lines.push(format!("(ts {offset} {year} {month} {day} {time})"));
                    }
                }
            }
        }
    }
    lines
}

pub fn timestamp_times() -> Vec<String> {
    let mut lines = Vec::new();
    for offset in ["?", "0", "1", "-1", "60", "-1439", "1439"] {
        for hour in [0, 1, 12, 22, 23, 24, 25, 255, 256] {
            for minute in [0, 1, 30, 58, 59, 60, 61, 256] {
                lines.push(format!("(ts {offset} 2000 2 29 {hour} {minute})"));
                for second in [0, 30, 59, 60, 61, 256] {
                    lines.push(format!("(ts {offset} 2000 2 29 {hour} {minute} {second})"));
                }
            }
        }
    }
    for year in [0, 1, 2, 127, 128, 1970, 9998, 9999, 10000] {
        for offset in ["?", "0", "1", "-1", "1439", "-1439"] {
            for fields in
                ["1 1 0 0", "1 1 0 0 0", "1 1 23 58", "1 1 23 59", "12 31 0 0", "12 31 0 1", "12 31 23 59", "12 31 23 59 59"]
            {
                lines.push(format!("(ts {offset} {year} {fields})"));
            }
        }
    }
    lines
}

/// The first and the last minute of the years 1 and 9999 with each kind of offset, in local time and in UTC.
pub fn timestamp_years() -> Vec<String> {
    let mut lines = Vec::new();
    for offset in ["?", "0", "-0", "1", "-1", "60", "-60", "720", "-720", "1439", "-1439", "1440", "-1440"] {
        for minute in ["1 1 1 0 0", "1 12 31 23 59", "9999 1 1 0 0", "9999 12 31 23 59"] {
            for second in ["", " 0", " 59 18 999999999999999999"] {
                lines.push(format!("(ts {offset} {minute}{second})"));
            }
        }
    }
    // The local minute that lies there in UTC, and the one beyond.
    for offset in [1, 59, 60, 61, 720, 1438, 1439] {
        for minute in [offset - 1, offset] {
            let (hour, minute) = (minute / 60, minute % 60);
            lines.push(format!("(ts {offset} 1 1 1 {hour} {minute})"));
            lines.push(format!("(ts {offset} 1 1 1 {hour} {minute} 59 1 9)"));
            let (hour, minute) = (23 - hour, 59 - minute);
            lines.push(format!("(ts -{offset} 9999 12 31 {hour} {minute})"));
            lines.push(format!("(ts -{offset} 9999 12 31 {hour} {minute} 0 1 0)"));
        }
    }
    for outside in ["(ts 60 1 1 1 0 30)", "(ts -60 9999 12 31 23 30)"] {
        for around in ["(ann (10) *)", "(list *)", "(sexp (bool 1) * (bool 0))", "(struct (4 (i64 5)) (5 (ann (10) *)))"] {
            lines.push(around.replace('*', outside));
        }
    }
    for wrong_fraction in ["0 0", "0 1", "19 0", "1 10"] {
        lines.push(format!("(ts 60 1 1 1 0 30 0 {wrong_fraction})"));
        lines.push(format!("(ts -60 9999 12 31 23 30 0 {wrong_fraction})"));
    }
    lines
}

pub fn timestamp_offsets() -> Vec<String> {
    let mut lines = Vec::new();
    for offset in -1442..=1442 {
        lines.push(format!("(ts {offset} 2000 3 1 12 0)"));
        lines.push(format!("(ts {offset} 1 1 1 12 30 0)"));
        lines.push(format!("(ts {offset} 9999 12 31 12 30 59 3 7)"));
    }
    lines
}

pub fn timestamp_fractions() -> Vec<String> {
    let mut lines = Vec::new();
    let digit_counts = (0..=21u64).chain([38, 63, 64, 127, 128, 255, 256, 2147483647, 2147483648, 4294967297]);
    for digits in digit_counts {
        let mut coefficients: Vec<u128> = vec![0, 1, 9, 10, 127, 128, 255, 256, 32767, 32768];
        for bits in [31, 32, 63, 64] {
            coefficients.extend([(1 << bits) - 1, 1 << bits, (1 << bits) + 1]);
        }
        if digits < 30 {
            let power = 10u128.pow(digits as u32);
            coefficients.extend([power / 2, power - 1, power, power + 1]);
        }
        coefficients.sort_unstable();
        coefficients.dedup();
        for coefficient in coefficients {
            for offset in ["?", "0", "60"] {
                lines.push(format!("(ts {offset} 2000 1 1 0 30 0 {digits} {coefficient})"));
            }
            lines.push(format!("(ts 1439 9999 12 31 23 59 59 {digits} 0{coefficient})"));
        }
    }
    for digits in 1..=18u32 {
        for bits in 1..64 {
            for coefficient in [(1u64 << bits) - 1, 1 << bits] {
                if coefficient < 10u64.pow(digits) {
                    lines.push(format!("(ts -60 2000 12 31 23 0 59 {digits} {coefficient})"));
                }
            }
        }
    }
    for bad in ["-1 0", "1 -0", "-0 0", "+1 0", "1 a", "? 0", "1", "1 ", "1 0 0"] {
        lines.push(format!("(ts ? 2000 1 1 0 0 0 {bad})"));
    }
    lines
}
