//! Trial lines of random shape and depth.

use crate::damage;
use crate::rng::Rng;
use crate::value::Type;

/// A random line; about one in eight is damaged.
pub fn line(rng: &mut Rng) -> Vec<u8> {
    let line = value(rng).into_bytes();
    match rng.one_in(8) {
        true => damage::one(rng, &line),
        false => line,
    }
}

/// A random value of the form. It may have faults.
pub fn value(rng: &mut Rng) -> String {
    let mut shape = Shape {
        depth: match rng.below(40) {
            0 => 28 + rng.below(12),
            _ => rng.below(6),
        },
        bytes_left: match rng.below(60) {
            0 => rng.between(1000, 4100) as isize,
            _ => rng.between(20, 420) as isize,
        },
    };
    let mut text = String::new();
    annotated(rng, &mut shape, 0, &mut text);
    text
}

/// How deep a line may get, and about how many bytes it may still take.
struct Shape {
    depth: usize,
    bytes_left: isize,
}

fn annotated(rng: &mut Rng, shape: &mut Shape, depth: usize, text: &mut String) {
    if !rng.one_in(5) {
        return plain(rng, shape, depth, text);
    }
    let count = match rng.below(20) {
        0 => 0,
        1 => rng.below(70),
        _ => 1 + rng.below(3),
    };
    let symbols: Vec<String> = (0..count).map(|_| symbol(rng)).collect();
    let annotations = format!("(ann ({}) ", symbols.join(" "));
    shape.bytes_left -= annotations.len() as isize;
    text.push_str(&annotations);
    plain(rng, shape, depth, text);
    text.push(')');
}

fn plain(rng: &mut Rng, shape: &mut Shape, depth: usize, text: &mut String) {
    // Down to the full depth first, then as it falls.
    let deeper = depth < shape.depth && shape.bytes_left > 0;
    if !deeper || (depth > 0 && shape.depth < 28 && rng.one_in(2)) {
        let scalar = scalar(rng);
        shape.bytes_left -= scalar.len() as isize;
        return text.push_str(&scalar);
    }
    let kind = rng.pick(&["list", "sexp", "struct"]);
    text.push('(');
    text.push_str(kind);
    let count = match rng.below(12) {
        _ if shape.depth >= 28 => 1 + rng.below(2),
        0 => rng.below(120),
        _ => rng.below(7),
    };
    for _ in 0..count {
        if shape.bytes_left <= 0 && shape.depth < 28 {
            break;
        }
        shape.bytes_left -= 8;
        text.push(' ');
        if kind == "struct" {
            text.push_str(&format!("({} ", symbol(rng)));
        }
        annotated(rng, shape, depth + 1, text);
        if kind == "struct" {
            text.push(')');
        }
    }
    text.push(')');
}

fn symbol(rng: &mut Rng) -> String {
    match rng.below(400) {
        0 => quoted(rng),
        1..=300 => rng.of_bits(16).to_string(),
        _ => rng.of_bits(64).to_string(),
    }
}

fn quoted(rng: &mut Rng) -> String {
    let count = 1 + rng.below(6);
    let letters: String = (0..count).map(|_| (b'a' + rng.below(26) as u8) as char).collect();
    format!("\"{letters}\"")
}

fn scalar(rng: &mut Rng) -> String {
    match rng.below(13) {
        0 => format!("(null {})", rng.pick(&Type::ALL).name()),
        1 => format!("(bool {})", rng.below(2)),
        2 | 3 => format!("(i64 {}{})", minus(rng), rng.of_bits(63)),
        4 => format!("(int {})", hex_number(rng, 40)),
        5 => format!("(f32 {:08x})", f32_bits(rng)),
        6 => format!("(f64 {:016x})", f64_bits(rng)),
        7 => format!("(dec {} {}{})", hex_number(rng, 36), minus(rng), exponent(rng)),
        8 | 9 => timestamp(rng),
        10 => format!("(symbol {})", symbol(rng)),
        11 => string(rng),
        _ => {
            let kind = rng.pick(&["clob", "blob"]);
            let count = length(rng);
            let pairs: String = (0..count).map(|_| format!("{:02x}", rng.below(256))).collect();
            if pairs.is_empty() {
                format!("({kind})")
            } else {
                format!("({kind} {pairs})")
            }
        }
    }
}

fn minus(rng: &mut Rng) -> &'static str {
    rng.pick(&["", "-"])
}

fn hex_number(rng: &mut Rng, most_bytes: usize) -> String {
    let most_bytes = if rng.one_in(4) { most_bytes } else { 9 };
    let digits = 1 + rng.below(2 * most_bytes);
    let number: String = match rng.below(30) {
        0 => "0".repeat(digits),
        1 => "f".repeat(digits),
        _ => (0..digits).map(|_| rng.pick(b"0123456789abcdef") as char).collect(),
    };
    let zeros = if rng.one_in(10) { rng.below(8) } else { 0 };
    format!("{}{}{number}", minus(rng), "0".repeat(zeros))
}

fn exponent(rng: &mut Rng) -> u64 {
    let bits = if rng.one_in(4) { 63 } else { 8 };
    rng.of_bits(bits)
}

fn f32_bits(rng: &mut Rng) -> u32 {
    match rng.below(8) {
        0 => rng.of_bits(32) as u32,
        1 => 0xff << 23 | rng.draw() as u32,
        _ => rng.draw() as u32,
    }
}

/// Half of them close to what binary32 holds.
fn f64_bits(rng: &mut Rng) -> u64 {
    let bits = match rng.below(4) {
        0 => rng.draw(),
        1 => f64::from(f32::from_bits(f32_bits(rng))).to_bits(),
        2 => rng.draw() & !((1 << rng.below(53)) - 1),
        // An exponent of binary32, subnormals included, and a short fraction.
        _ => {
            let exponent = (868 + rng.below(290)) as u64;
            let fraction = (rng.draw() >> 12) & !((1 << (24 + rng.below(29))) - 1);
            exponent << 52 | fraction
        }
    };
    if rng.one_in(10) {
        bits ^ 1
    } else {
        bits
    }
}

fn timestamp(rng: &mut Rng) -> String {
    let wild = rng.one_in(12);
    let year = match rng.below(6) {
        0 => rng.pick(&[1, 9999, 1900, 2000, 2100]),
        _ => rng.between(1, 9999),
    };
    let month = rng.between(1, 12);
    let last_day = if rng.one_in(6) { 31 } else { 28 };
    let day = rng.between(1, last_day);
    // Around the ends of the calendar's years.
    let (year, month, day) = match rng.below(24) {
        0 => (1, 1, 1),
        1 => (9999, 12, 31),
        _ => (year, month, day),
    };
    let mut fields = [year, month, day, rng.between(0, 23), rng.between(0, 59), rng.between(0, 59)];
    let count = rng.pick(&[1, 2, 3, 5, 5, 6, 6, 6]);
    let mut known = count >= 5 && !rng.one_in(3);
    let mut offset = match rng.below(4) {
        0 => rng.pick(&[0, 60, -210, 1439, -1439]),
        _ => rng.between(-1439, 1439),
    };
    let mut fraction = None;
    if count == 6 && rng.one_in(2) {
        let digits = rng.between(1, 18);
        let coefficient = match rng.below(6) {
            0 => 0,
            _ => rng.of_bits(60) % 10u64.pow(digits as u32),
        };
        fraction = Some((digits, coefficient));
    }
    if wild {
        match rng.below(4) {
            0 => fields[rng.below(count)] = rng.pick(&[0, 13, 24, 29, 31, 32, 60, 10000, 70000]),
            1 => offset = rng.pick(&[-1440, 1440, 70000, -70000]),
            2 => known = !known,
            _ if rng.one_in(3) => fraction = fraction.map(|_| (0, 0)),
            _ => fraction = fraction.map(|_| (rng.between(0, 20), rng.of_bits(64))),
        }
    }
    let mut text = if known { format!("(ts {offset}") } else { "(ts ?".to_string() };
    for field in &fields[..count] {
        text.push_str(&format!(" {field}"));
    }
    if let Some((digits, coefficient)) = fraction {
        text.push_str(&format!(" {digits} {coefficient}"));
    }
    text.push(')');
    text
}

fn length(rng: &mut Rng) -> usize {
    match rng.below(20) {
        0 => 0,
        1 => 100 + rng.below(60),
        2 => rng.below(400),
        _ => rng.below(24),
    }
}

fn string(rng: &mut Rng) -> String {
    let count = length(rng);
    let mut bytes = Vec::new();
    while bytes.len() < count {
        let point = match rng.below(8) {
            0 => rng.below(0x80),
            1 => rng.below(0x800),
            2 => rng.below(0x10000),
            3 => rng.below(0x110000),
            _ => b'a' as usize + rng.below(26),
        };
        let point = char::from_u32(point as u32).unwrap_or('\u{e000}');
        bytes.extend(point.to_string().into_bytes());
    }
    if !bytes.is_empty() && rng.one_in(25) {
        let at = rng.below(bytes.len());
        bytes[at] = rng.below(256) as u8;
    }
    let pairs: String = bytes.iter().map(|b| format!("{b:02x}")).collect();
    if pairs.is_empty() {
        "(string)".to_string()
    } else {
        format!("(string {pairs})")
    }
}
