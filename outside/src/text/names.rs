//! Names of operators, attributes and types, and the nearest of some words.

pub const OPERATORS: [(u8, &str); 32] = [
    (0x41, "BeginSession"),
    (0x42, "EndSession"),
    (0x43, "BeginPage"),
    (0x44, "EndPage"),
    (0x47, "Comment"),
    (0x48, "OpenDataSource"),
    (0x49, "CloseDataSource"),
    (0x57, "SetDefaultGS"),
    (0x5b, "BeginStream"),
    (0x5c, "ReadStream"),
    (0x5d, "EndStream"),
    (0x5e, "ExecStream"),
    (0x60, "PopGS"),
    (0x61, "PushGS"),
    (0x63, "SetBrushSource"),
    (0x6a, "SetColorSpace"),
    (0x6b, "SetCursor"),
    (0x6c, "SetCursorRel"),
    (0x79, "SetPenSource"),
    (0x7a, "SetPenWidth"),
    (0x84, "CloseSubPath"),
    (0x85, "NewPath"),
    (0x86, "PaintPath"),
    (0x9b, "LinePath"),
    (0x9d, "LineRelPath"),
    (0xa0, "Rectangle"),
    (0xb0, "BeginImage"),
    (0xb1, "ReadImage"),
    (0xb2, "EndImage"),
    (0xb3, "BeginRastPattern"),
    (0xb4, "ReadRastPattern"),
    (0xb5, "EndRastPattern"),
];

pub const ATTRIBUTES: [(u16, &str); 37] = [
    (3, "ColorSpace"),
    (4, "NullBrush"),
    (5, "NullPen"),
    (8, "PatternSelectID"),
    (9, "GrayLevel"),
    (11, "RGBColor"),
    (37, "MediaSize"),
    (38, "MediaSource"),
    (39, "MediaType"),
    (40, "Orientation"),
    (49, "PageCopies"),
    (66, "BoundingBox"),
    (69, "EndPoint"),
    (75, "PenWidth"),
    (76, "Point"),
    (77, "NumberOfPoints"),
    (80, "PointType"),
    (98, "ColorDepth"),
    (99, "BlockHeight"),
    (100, "ColorMapping"),
    (101, "CompressMode"),
    (103, "DestinationSize"),
    (104, "PatternPersistence"),
    (105, "PatternDefineID"),
    (107, "SourceHeight"),
    (108, "SourceWidth"),
    (109, "StartLine"),
    (110, "PadBytesMultiple"),
    (111, "BlockByteLength"),
    (129, "CommentData"),
    (130, "DataOrg"),
    (134, "Measure"),
    (136, "SourceType"),
    (137, "UnitsPerMeasure"),
    (139, "StreamName"),
    (140, "StreamDataLength"),
    (143, "ErrorReport"),
];

pub(super) const TYPES: [&str; 6] = ["ubyte", "uint16", "uint32", "sint16", "sint32", "real32"];

/// Words that begin a statement besides operators.
pub(super) const STATEMENTS: [&str; 5] = ["header", "hex", "items", "motif", "repeat"];

pub fn operator_name(tag: u8) -> String {
    match OPERATORS.iter().find(|(t, _)| *t == tag) {
        Some((_, name)) => (*name).to_string(),
        None => format!("op:{tag:02x}"),
    }
}

pub fn attribute_name(number: u16) -> String {
    match ATTRIBUTES.iter().find(|(n, _)| *n == number) {
        Some((_, name)) => (*name).to_string(),
        None => format!("a{number}"),
    }
}

/// The tag of an operator by its name, or as `op:45`.
pub(super) fn operator_tag(name: &str) -> Result<u8, String> {
    if let Some(hex) = name.strip_prefix("op:") {
        return u8::from_str_radix(hex, 16).map_err(|_| format!("expected two hex digits behind op:, found {hex}"));
    }
    match OPERATORS.iter().find(|(_, n)| *n == name) {
        Some((tag, _)) => Ok(*tag),
        None => {
            let words = OPERATORS.iter().map(|o| o.1).chain(STATEMENTS);
            Err(expected("an operator, header, hex, items, motif or repeat", name, words))
        }
    }
}

/// The number of an attribute by its name, or as `a200`.
pub(super) fn attribute_number(name: &str) -> Result<u16, String> {
    if let Some((number, _)) = ATTRIBUTES.iter().find(|(_, n)| *n == name) {
        return Ok(*number);
    }
    let by_number = name.strip_prefix('a').and_then(|n| n.parse().ok());
    by_number.ok_or_else(|| expected("an attribute", name, ATTRIBUTES.iter().map(|a| a.1)))
}

/// What was expected and what stands there, and the nearest of some words if one is near.
pub(super) fn expected<'a>(what: &str, found: &str, words: impl Iterator<Item = &'a str>) -> String {
    let shown = if found.chars().count() > 40 {
        format!("{} ..", found.chars().take(40).collect::<String>())
    } else {
        found.into()
    };
    match nearest(found, words) {
        Some(word) => format!("expected {what}, found {shown}: did you mean {word}?"),
        None => format!("expected {what}, found {shown}"),
    }
}

/// The word that takes the fewest changes to come to, if those are few; large and small letters count as the same.
fn nearest<'a>(found: &str, words: impl Iterator<Item = &'a str>) -> Option<&'a str> {
    let found: Vec<char> = found.to_lowercase().chars().take(40).collect();
    let (changes, word) = words.map(|word| (changes(&found, &word.to_lowercase()), word)).min_by_key(|w| w.0)?;
    (changes <= 1 + found.len() / 4 && changes < word.len()).then_some(word)
}

/// How many letters must be put in, left out or changed.
fn changes(from: &[char], to: &str) -> usize {
    let mut row: Vec<usize> = (0..=from.len()).collect();
    for (i, c) in to.chars().enumerate() {
        let mut before = i;
        row[0] = i + 1;
        for (j, &d) in from.iter().enumerate() {
            let change = before + usize::from(c != d);
            before = row[j + 1];
            row[j + 1] = change.min(before + 1).min(row[j] + 1);
        }
    }
    row[from.len()]
}

#[cfg(test)]
mod tests {
    use super::*;

    #[test]
    fn near_words_are_found() {
        let near = |word| nearest(word, OPERATORS.iter().map(|o| o.1));
        assert_eq!(near("LinePaht"), Some("LinePath"));
        assert_eq!(near("linepath"), Some("LinePath"));
        assert_eq!(near("SetCurser"), Some("SetCursor"));
        assert_eq!(near("EndPag"), Some("EndPage"));
        assert_eq!(near("x"), None);
        assert_eq!(near("Everything"), None);
    }
}
