//! Values and bytes: how they are written down in a text, and as bytes of a job.

use super::names::{expected, TYPES};

/// Most bytes that one word comes to.
const MOST: usize = 131_072;
/// Most elements that the length of an array can say.
const ELEMENTS: usize = 0xffff;
const REAL: u8 = 5;

/// A value: its type tag, its numbers as bits, and whether an array's length has two bytes.
#[derive(Debug, Clone, PartialEq, Eq)]
pub struct Value {
    pub kind: u8,
    pub numbers: Vec<u32>,
    pub wide: bool,
}

/// What is wrong in a word: at which of its bytes, and what was expected.
#[derive(Debug, Clone, PartialEq, Eq)]
pub(super) struct Wrong {
    pub(super) at: usize,
    pub(super) said: String,
}

pub(super) fn wrong<T>(at: usize, said: impl Into<String>) -> Result<T, Wrong> {
    Err(Wrong { at, said: said.into() })
}

impl Wrong {
    /// The same so many bytes further on.
    pub(super) fn after(mut self, n: usize) -> Wrong {
        self.at += n;
        self
    }
}

// ---------------------------------------------------------------- bytes of a job

/// Bytes of one number of a type.
pub fn number_width(kind: u8) -> usize {
    [1, 2, 4, 2, 4, 4, 4, 4][usize::from(kind & 7)]
}

/// Appends a number in the byte order.
pub fn put_number(out: &mut Vec<u8>, high_first: bool, size: usize, number: u32) {
    let low = number.to_le_bytes();
    if high_first {
        out.extend(low[..size].iter().rev());
    } else {
        out.extend(&low[..size]);
    }
}

/// Appends a value in the byte order.
pub fn put_value(out: &mut Vec<u8>, high_first: bool, value: &Value) {
    out.push(value.kind);
    if (0xc8..=0xcd).contains(&value.kind) {
        out.push(if value.wide { 0xc1 } else { 0xc0 });
        put_number(out, high_first, if value.wide { 2 } else { 1 }, value.numbers.len() as u32);
    }
    for &n in &value.numbers {
        put_number(out, high_first, number_width(value.kind), n);
    }
}

/// Appends an attribute number.
pub fn put_attribute(out: &mut Vec<u8>, high_first: bool, number: u16, wide: bool) {
    out.push(if wide { 0xf9 } else { 0xf8 });
    put_number(out, high_first, if wide { 2 } else { 1 }, number.into());
}

/// Appends embedded data.
pub fn put_data(out: &mut Vec<u8>, high_first: bool, wide: bool, data: &[u8]) {
    out.push(if wide { 0xfa } else { 0xfb });
    put_number(out, high_first, if wide { 4 } else { 1 }, data.len() as u32);
    out.extend(data);
}

// ---------------------------------------------------------------- numbers

/// From which number to which a type goes; a real is taken by its bits.
fn range(kind: u8) -> (i64, i64) {
    match kind {
        0 => (0, 0xff),
        1 => (0, 0xffff),
        3 => (-0x8000, 0x7fff),
        4 => (-0x8000_0000, 0x7fff_ffff),
        _ => (0, 0xffff_ffff),
    }
}

/// The type numbers have when none is named: the first of ubyte, uint16, sint16, uint32 and sint32 that holds all, but
/// uint16 for UnitsPerMeasure and DestinationSize if that does.
fn default_type(attribute: Option<u16>, numbers: &[i64]) -> u8 {
    let holds = |kind: u8| numbers.iter().all(|n| (range(kind).0..=range(kind).1).contains(n));
    let sizes = matches!(attribute, Some(137 | 103));
    [0, 1, 3, 2].into_iter().find(|&kind| holds(kind) && !(sizes && kind == 0)).unwrap_or(4)
}

/// Bits of a number by type, as the signed or unsigned number they stand for.
fn meaning(kind: u8, bits: u32) -> i64 {
    match kind & 7 {
        3 => i64::from(bits as u16 as i16),
        4 => i64::from(bits as i32),
        _ => i64::from(bits),
    }
}

/// Whether a number is written as a real: with a point, an exponent, or as infinite.
fn is_real(number: &str) -> bool {
    let number = number.trim_start_matches(['-', '+']);
    number == "inf"
        || !number.starts_with("0x")
            && number.starts_with(|c: char| c == '.' || c.is_ascii_digit())
            && number.contains(['.', 'e'])
}

/// Whether any of some numbers parted by commas is written as a real.
fn has_real(text: &str) -> bool {
    text.split(',').any(|part| is_real(part.split('*').next().unwrap_or(part)))
}

/// A real as a decimal that reads back to the same bits; one that is not a number as its bits.
fn show_real(bits: u32) -> String {
    let real = f32::from_bits(bits);
    if real.is_nan() {
        format!("0x{bits:08x}")
    } else {
        format!("{real:?}")
    }
}

/// One number.
fn parse_number(text: &str, kind: Option<u8>) -> Result<i64, Wrong> {
    let digits = text.strip_prefix("0x").map(|hex| i64::from_str_radix(hex, 16).ok().filter(|&n| n <= 0xffff_ffff));
    let number = match (digits, kind) {
        (Some(bits), _) => bits,
        (None, Some(REAL)) => text.parse::<f32>().ok().map(|real| i64::from(real.to_bits())),
        (None, _) => text.parse::<i64>().ok(),
    };
    let what = if kind == Some(REAL) { "a real as 1.5" } else { "a number" };
    number.map_or_else(|| wrong(0, expected(what, text, [].into_iter())), Ok)
}

/// What stands before a `*` and how often it is meant.
fn repeated(part: &str) -> Result<(&str, usize), Wrong> {
    let Some((once, times)) = part.split_once('*') else {
        return Ok((part, 1));
    };
    match times.parse::<usize>() {
        Ok(n) if n <= MOST => Ok((once, n)),
        Ok(_) => wrong(once.len() + 1, format!("at most {MOST} times, found {times}")),
        Err(_) => wrong(once.len() + 1, expected("how often", times, [].into_iter())),
    }
}

/// Parts of a text between commas, each with its place; empty ones are left out.
fn parts(text: &str) -> impl Iterator<Item = (usize, &str)> {
    let mut at = 0;
    text.split(',')
        .map(move |part| {
            let here = at;
            at += part.len() + 1;
            (here, part)
        })
        .filter(|(_, part)| !part.is_empty())
}

/// Numbers parted by commas, `n*k` for k of them.
fn parse_numbers(text: &str, kind: Option<u8>) -> Result<Vec<i64>, Wrong> {
    let mut all = Vec::new();
    for (at, part) in parts(text) {
        let (once, times) = repeated(part).map_err(|w| w.after(at))?;
        let number = parse_number(once, kind).map_err(|w| w.after(at))?;
        if all.len() + times > ELEMENTS {
            return wrong(at, format!("an array has at most {ELEMENTS} elements"));
        }
        all.extend(std::iter::repeat_n(number, times));
    }
    Ok(all)
}

// ---------------------------------------------------------------- text in quotes

/// The bytes of a quoted text, with `\xNN`, `\\` and `\"`.
pub(super) fn unquote(text: &str) -> Result<Vec<u8>, Wrong> {
    let Some(inside) = text.strip_prefix('"').and_then(|t| t.strip_suffix('"')) else {
        return wrong(0, expected("text in quotation marks", text, [].into_iter()));
    };
    let mut out = Vec::new();
    let mut bytes = inside.bytes().enumerate();
    while let Some((at, b)) = bytes.next() {
        if b != b'\\' {
            out.push(b);
            continue;
        }
        match bytes.next() {
            Some((_, b'x')) => {
                let byte = inside.get(at + 2..at + 4).and_then(|digits| u8::from_str_radix(digits, 16).ok());
                let Some(byte) = byte else {
                    return wrong(at + 1, "expected two hex digits behind \\x");
                };
                out.push(byte);
                bytes.nth(1);
            }
            Some((_, other)) => out.push(other),
            None => return wrong(at + 1, "expected something behind \\"),
        }
    }
    Ok(out)
}

/// Whether a character may stand in a listing as it is.
fn is_shown(c: char) -> bool {
    c == '\'' || c == ' ' || c.escape_debug().eq([c]) && !c.is_whitespace()
}

/// A quoted text that reads back to the same bytes; what is UTF-8 stays text.
pub(super) fn quote(bytes: &[u8]) -> String {
    let mut out = String::from("\"");
    for chunk in bytes.utf8_chunks() {
        for c in chunk.valid().chars() {
            match c {
                '"' | '\\' => out.extend(['\\', c]),
                c if is_shown(c) => out.push(c),
                c => c.encode_utf8(&mut [0; 4]).bytes().for_each(|b| out.push_str(&format!("\\x{b:02x}"))),
            }
        }
        chunk.invalid().iter().for_each(|b| out.push_str(&format!("\\x{b:02x}")));
    }
    out.push('"');
    out
}

/// Whether bytes are best shown in quotes.
fn is_text(bytes: &[u8]) -> bool {
    !bytes.is_empty()
        && std::str::from_utf8(bytes).is_ok_and(|text| text.chars().all(|c| is_shown(c) || c == '"' || c == '\\'))
}

// ---------------------------------------------------------------- values

/// The type and the width that stand behind a value.
fn suffixes(text: &str) -> Result<(Option<u8>, bool), Wrong> {
    let (mut kind, mut wide, mut at) = (None, false, 0);
    for suffix in text.split(':').skip(1) {
        at += 1;
        match TYPES.iter().position(|&t| t == suffix) {
            Some(k) => kind = Some(k as u8),
            None if suffix == "wide" => wide = true,
            None => return wrong(at, expected("a type or wide", suffix, TYPES.into_iter().chain(["wide"]))),
        }
        at += suffix.len();
    }
    Ok((kind, wide))
}

/// Reads a value; the attribute decides only the type that need not be named.
pub(super) fn parse_value(text: &str, attribute: Option<u16>) -> Result<Value, Wrong> {
    let close = text.rfind(['"', ')', ']']).map_or(0, |i| i + 1);
    let colon = text[close..].find(':').map_or(text.len(), |i| i + close);
    let (body, behind) = text.split_at(colon);
    let (mut kind, wide) = suffixes(behind).map_err(|w| w.after(colon))?;
    let inside = |open: char, shut: char| body.strip_prefix(open).and_then(|b| b.strip_suffix(shut));
    let list = inside('[', ']').or(inside('(', ')')).unwrap_or(body);
    if kind.is_none() && !body.starts_with('"') && has_real(list) {
        kind = Some(REAL);
    }
    let numbers = if body.starts_with('"') {
        unquote(body)?.into_iter().map(i64::from).collect()
    } else if body.is_empty() {
        return wrong(0, "expected a value");
    } else {
        parse_numbers(list, kind).map_err(|w| w.after(usize::from(list.len() < body.len())))?
    };
    let family = match (body.as_bytes()[0], numbers.len()) {
        (b'"' | b'[', _) => 0xc8,
        (b'(', 2) => 0xd0,
        (b'(', 4) => 0xe0,
        (b'(', n) => return wrong(0, format!("expected two or four numbers in brackets, found {n}")),
        (_, 1) => 0xc0,
        (_, n) => return wrong(0, format!("expected one number, found {n}; several stand in (1,2) or [1,2,3]")),
    };
    let kind = match kind {
        Some(kind) => kind,
        None if family == 0xc8 => 0,
        None => default_type(attribute, &numbers),
    };
    let (from, to) = range(kind);
    if let Some(n) = numbers.iter().find(|n| !(from..=to).contains(n)) {
        return wrong(0, format!("{n} is no {}, which goes from {from} to {to}", TYPES[usize::from(kind)]));
    }
    let wide = wide || family == 0xc8 && numbers.len() > 255;
    Ok(Value { kind: family + kind, numbers: numbers.into_iter().map(|n| n as u32).collect(), wide })
}

/// Writes a value so that it reads back the same.
pub(super) fn show_value(value: &Value, attribute: Option<u16>) -> String {
    let meant: Vec<i64> = value.numbers.iter().map(|&n| meaning(value.kind, n)).collect();
    let kind = value.kind & 7;
    let each: Vec<String> = if kind == REAL {
        value.numbers.iter().map(|&n| show_real(n)).collect()
    } else {
        meant.iter().map(|n| n.to_string()).collect()
    };
    let (mut text, default) = match value.kind {
        0xc0..=0xc5 => (each[0].clone(), default_type(attribute, &meant)),
        0xd0..=0xef => (format!("({})", each.join(",")), default_type(attribute, &meant)),
        _ => {
            let bytes: Vec<u8> = value.numbers.iter().map(|&n| n as u8).collect();
            let text = if kind == 0 && is_text(&bytes) { quote(&bytes) } else { format!("[{}]", show_run(&each)) };
            (text, 0)
        }
    };
    let default = if kind == REAL && each.iter().any(|n| is_real(n)) { REAL } else { default };
    if kind != default {
        text.push(':');
        text.push_str(TYPES[usize::from(kind)]);
    }
    if value.wide && value.numbers.len() <= 255 {
        text.push_str(":wide");
    }
    text
}

/// Joins words by commas, a run of more than three equal ones as `word*count`.
fn show_run(words: &[String]) -> String {
    let mut parts = Vec::new();
    for run in words.chunk_by(|a, b| a == b) {
        if run.len() > 3 {
            parts.push(format!("{}*{}", run[0], run.len()));
        } else {
            parts.extend(run.iter().cloned());
        }
    }
    parts.join(",")
}

// ---------------------------------------------------------------- bytes in hex

/// Bytes written as hex digits, `XX*n` for runs, parts joined by commas, or a quoted text.
pub(super) fn parse_bytes(text: &str) -> Result<Vec<u8>, Wrong> {
    if text.starts_with('"') {
        return unquote(text);
    }
    let mut out = Vec::new();
    for (at, part) in parts(text) {
        let (digits, times) = repeated(part).map_err(|w| w.after(at))?;
        let pairs: Option<Vec<u8>> =
            digits.is_ascii().then(|| digits.as_bytes().chunks(2).map(hex_byte).collect()).flatten();
        let Some(once) = pairs else {
            return wrong(at, expected("pairs of hex digits", digits, [].into_iter()));
        };
        if out.len() + once.len() * times > MOST {
            return wrong(at, format!("more than {MOST} bytes in one word"));
        }
        for _ in 0..times {
            out.extend(&once);
        }
    }
    Ok(out)
}

fn hex_byte(pair: &[u8]) -> Option<u8> {
    let digit = |b: u8| (b as char).to_digit(16);
    match *pair {
        [a, b] => Some((digit(a)? * 16 + digit(b)?) as u8),
        _ => None,
    }
}

pub(super) fn show_bytes(bytes: &[u8]) -> String {
    let mut parts: Vec<String> = Vec::new();
    let mut loose = String::new();
    for run in bytes.chunk_by(|a, b| a == b) {
        if run.len() > 4 {
            if !loose.is_empty() {
                parts.push(std::mem::take(&mut loose));
            }
            parts.push(format!("{:02x}*{}", run[0], run.len()));
        } else {
            run.iter().for_each(|b| loose.push_str(&format!("{b:02x}")));
        }
    }
    if !loose.is_empty() {
        parts.push(loose);
    }
    parts.join(",")
}

/// Bytes as hex pairs with single spaces.
pub fn hex(bytes: &[u8]) -> String {
    bytes.iter().map(|b| format!("{b:02x}")).collect::<Vec<_>>().join(" ")
}

#[cfg(test)]
mod tests {
    use super::*;

    #[test]
    fn reals_read_back_to_the_same_bits() {
        let edges = [0, 1, 0x7f_ffff, 0x80_0000, 0x3f80_0000, 0x3fc0_0000, 0x4b80_0001, 0x7f7f_ffff, 0x7f80_0000];
        let not_numbers = [0x7f80_0001, 0x7fc0_0000, 0x7fff_ffff];
        let spread = (0..4000u32).map(|i| i.wrapping_mul(0x9e37_79b9));
        for bits in edges.into_iter().chain(not_numbers).flat_map(|b| [b, b | 1 << 31]).chain(spread) {
            for (kind, count) in [(0xc5, 1), (0xcd, 3), (0xd5, 2), (0xe5, 4)] {
                for other in [bits, 0x7fc0_0001] {
                    let numbers = [bits, other, other, bits][..count].to_vec();
                    let value = Value { kind, numbers, wide: false };
                    let text = show_value(&value, Some(76));
                    assert_eq!(parse_value(&text, Some(76)), Ok(value), "{text}");
                }
            }
        }
        let pair = Value { kind: 0xd5, numbers: vec![0x3fc0_0000, 0xbf80_0000], wide: false };
        assert_eq!(show_value(&pair, None), "(1.5,-1.0)");
    }

    #[test]
    fn default_types() {
        for (text, attribute, kind) in [
            ("255", None, 0xc0),
            ("256", None, 0xc1),
            ("-1", None, 0xc3),
            ("65536", None, 0xc2),
            ("-32769", None, 0xc4),
            ("(1,2)", Some(76), 0xd0),
            ("(1,2)", Some(137), 0xd1),
            ("(-1,300)", Some(76), 0xd3),
            ("(1,2,3,400)", Some(66), 0xe1),
            ("(1,0.5)", Some(76), 0xd5),
            ("\"a\"", None, 0xc8),
        ] {
            assert_eq!(parse_value(text, attribute).map(|v| v.kind), Ok(kind), "{text}");
        }
    }

    #[test]
    fn text_comes_back_as_text() {
        for text in ["\"Flügel\"", "\"波 ~ ' \\\" \\\\\"", "\"a\\x00\\xff\\x0a\""] {
            assert_eq!(quote(&unquote(text).unwrap()), text);
        }
        let name = parse_value("\"Flügel\"", None).unwrap();
        assert_eq!((name.numbers.len(), show_value(&name, None).as_str()), (7, "\"Flügel\""));
        // What would not be seen, or would turn the line round, is not shown as it is.
        assert_eq!(quote("\u{202e}\u{a0}".as_bytes()), "\"\\xe2\\x80\\xae\\xc2\\xa0\"");
    }

    #[test]
    fn faults_of_values_are_told_where_they_are() {
        for (text, at, said) in [
            ("(1,x)", 3, "expected a number, found x"),
            ("1:unit16", 2, "expected a type or wide, found unit16: did you mean uint16?"),
            ("(1,2,3)", 0, "expected two or four numbers in brackets, found 3"),
            ("1,2", 0, "expected one number, found 2; several stand in (1,2) or [1,2,3]"),
            ("300:ubyte", 0, "300 is no ubyte, which goes from 0 to 255"),
            ("[1,0*9999999]", 5, "at most 131072 times, found 9999999"),
            ("[0*60000,0*60000]", 9, "an array has at most 65535 elements"),
            ("\"\\xg0\"", 1, "expected two hex digits behind \\x"),
            ("", 0, "expected a value"),
        ] {
            assert_eq!(parse_value(text, None), wrong(at, said), "{text}");
        }
        assert_eq!(parse_bytes("00*4,0"), wrong(5, "expected pairs of hex digits, found 0"));
        assert!(parse_bytes("00*131072,00*1").is_err());
    }
}
