//! Symbols, names, strings, clobs and blobs.

/// Sids around each size of a symbol's magnitude and of a VarUInt, the limit and past it.
fn sids() -> Vec<u128> {
    let mut sids: Vec<u128> = (0..=4).collect();
    for bits in 7..=66 {
        if bits % 7 == 0 || bits % 8 == 0 {
            let power = 1u128 << bits;
            sids.extend([power - 2, power - 1, power, power + 1, power + 2]);
        }
    }
    sids
}

pub fn symbols_and_names() -> Vec<String> {
    let mut lines = Vec::new();
    for sid in sids() {
        lines.push(format!("(symbol {sid})"));
        lines.push(format!("(symbol 00{sid})"));
        lines.push(format!("(ann (10) (symbol {sid}))"));
        lines.push(format!("(struct ({sid} (bool 1)))"));
        lines.push(format!("(struct ({sid} (bool 1)) ({sid} (bool 0)))"));
        lines.push(format!("(struct (0{sid} (list)))"));
        lines.push(format!("(ann ({sid}) (bool 1))"));
        lines.push(format!("(ann ({sid} {sid}) (list (symbol {sid})))"));
        lines.push(format!("(ann (0{sid}) (struct ({sid} (symbol {sid}))))"));
    }
    for symbol in [
        "\"a\"", "\"z\"", "\"go\"", "\"abcdefghijklmnopqrstuvwxyz\"", "\"\"", "\"", "\"a", "a\"", "a", "\"A\"", "\"a1\"",
        "\"a b\"", "\"a\"\"b\"", "\"{\"", "\"`\"", "'a'", "-1", "-0", "+1", "$1", "1.", "", " 1", "1 ",
    ] {
        lines.push(format!("(symbol {symbol})"));
        lines.push(format!("(struct ({symbol} (bool 1)))"));
        lines.push(format!("(ann ({symbol}) (bool 1))"));
        lines.push(format!("(ann (10 {symbol}) (list))"));
        lines.push(format!("(ann ({symbol} 10) (struct (4 (null int))))"));
    }
    // Text in the place of each other part.
    for line in [
        "(null \"go\")", "(bool \"go\")", "(i64 \"go\")", "(int \"go\")", "(f32 \"go\")", "(f64 \"go\")", "(dec \"go\" 1)",
        "(dec 1 \"go\")", "(ts \"go\" 2000)", "(ts ? \"go\")", "(ts ? 2000 \"go\")", "(ts ? 2000 1 1 0 0 0 \"go\" 1)",
        "(ts ? 2000 1 1 0 0 0 1 \"go\")", "(string \"go\")", "(clob \"go\")", "(blob \"go\")", "(list \"go\")", "(sexp \"go\")",
        "(struct \"go\")", "(struct (4 \"go\"))", "(ann \"go\" (bool 1))", "(ann (4) \"go\")", "(\"go\" (bool 1))", "(\"go\")",
    ] {
        lines.push(line.to_string());
    }
    lines
}

fn letters(count: usize) -> String {
    (0..count).map(|i| format!("{:02x}", b'a' + (i % 26) as u8)).collect()
}

fn bytes(count: usize) -> String {
    (0..count).map(|i| format!("{:02x}", (i * 37 + 11) % 256)).collect()
}

/// A string, clob or blob of `count` bytes.
pub fn lob(kind: &str, count: usize) -> String {
    let pairs = if kind == "string" { letters(count) } else { bytes(count) };
    match count {
        0 => format!("({kind})"),
        _ => format!("({kind} {pairs})"),
    }
}

pub fn strings_and_lobs() -> Vec<String> {
    let mut lines = Vec::new();
    for kind in ["string", "clob", "blob"] {
        for count in (0..=300).chain(510..=514).chain([1000, 1023, 1024]).chain(1995..=2050) {
            lines.push(lob(kind, count));
        }
        for count in (0..=20).chain(118..=132) {
            lines.push(format!("(ann (10) {})", lob(kind, count)));
            lines.push(format!("(ann (128 10) {})", lob(kind, count)));
            lines.push(format!("(list {0} {0})", lob(kind, count)));
            lines.push(format!("(struct (4 {}))", lob(kind, count)));
        }
        for byte in 0..=255 {
            lines.push(format!("({kind} {byte:02x})"));
        }
        for bad in ["0", "000", "0g", "g0", "AA", "aA", "6f ", " 6f", "6f 6f", "-6f", "\"a\"", "6f)"] {
            lines.push(format!("({kind} {bad})"));
        }
        lines.push(format!("({kind} )"));
        lines.push(format!("({kind}6f)"));
    }
    lines
}

/// Every lead byte over 127 with continuations at the edges of RFC 3629's ranges, cut anywhere.
pub fn utf8() -> Vec<String> {
    let seconds = [0x00, 0x7f, 0x80, 0x8f, 0x90, 0x9f, 0xa0, 0xbf, 0xc0, 0xff];
    let others = [0x7f, 0x80, 0xbf, 0xc0];
    let mut texts: Vec<Vec<u8>> = Vec::new();
    for lead in 0x80..=0xffu8 {
        texts.push(vec![lead]);
        for second in seconds {
            texts.push(vec![lead, second]);
            for third in others {
                texts.push(vec![lead, second, third]);
                texts.extend(others.map(|fourth| vec![lead, second, third, fourth]));
            }
        }
    }
    // The first and last code point of each length, and the neighbours of the surrogates.
    for point in [0, 0x7f, 0x80, 0x7ff, 0x800, 0xd7ff, 0xe000, 0xfffd, 0xffff, 0x10000, 0x10ffff] {
        let point = char::from_u32(point).expect("a code point");
        let text = point.to_string();
        for end in 0..text.len() {
            texts.push(text.as_bytes()[..end + 1].to_vec());
            texts.push([b"go", &text.as_bytes()[..end + 1]].concat());
            texts.push([&text.as_bytes()[..end + 1], b"go"].concat());
        }
        texts.push(text.repeat(2).into_bytes());
        texts.push(text.repeat(64).into_bytes());
    }
    // A bad byte at each place of a longer text.
    for at in 0..40 {
        let mut text = vec![b'x'; 40];
        text[at] = 0x80;
        texts.push(text.clone());
        text[at] = 0xc3;
        texts.push(text.clone());
    }
    let mut lines = Vec::new();
    for text in texts {
        let pairs: String = text.iter().map(|b| format!("{b:02x}")).collect();
        lines.push(format!("(string {pairs})"));
        if text.len() == 1 || text.len() > 4 {
            lines.push(format!("(clob {pairs})"));
            lines.push(format!("(ann (10) (string {pairs}))"));
            lines.push(format!("(list (string {pairs}))"));
        }
    }
    lines
}
