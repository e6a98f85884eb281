//! Reading a job back into statements, and its listing.

use super::assemble::reads_back;
use super::names::{attribute_name, operator_name};
use super::values::{hex, number_width, quote, show_bytes, show_value, Value};
use crate::plain::is_space;

/// A part of a statement in front of its tag.
#[derive(Debug, Clone, PartialEq, Eq)]
pub enum Piece {
    Space(Vec<u8>),
    Value(Value),
    Number { number: u16, wide: bool },
}

/// One operator with everything that stands before its tag and its data.
#[derive(Debug, Clone, PartialEq, Eq)]
pub struct Statement {
    pub from: usize,
    pub to: usize,
    pub pieces: Vec<(usize, Piece)>,
    pub tag: u8,
    pub tag_at: usize,
    /// White space between tag and data, whether the length has 4 bytes, and the data.
    pub data: Option<(Vec<u8>, bool, Vec<u8>)>,
}

fn number_at(bytes: &[u8], at: usize, size: usize, high_first: bool) -> Option<u32> {
    let mut part = [0u8; 4];
    let from = bytes.get(at..at.checked_add(size)?)?;
    part[..size].copy_from_slice(from);
    if high_first {
        part[..size].reverse();
    }
    Some(u32::from_le_bytes(part))
}

/// A header as a statement line, its byte order and length; none if it is not well formed.
pub fn read_header(bytes: &[u8]) -> Option<(String, bool, usize)> {
    let fixed = bytes.get(1..12)?;
    let high = match bytes[0] {
        0x28 => true,
        0x29 => false,
        _ => return None,
    };
    let (major, minor) = (*bytes.get(12)?, *bytes.get(14)?);
    if fixed != b" HP-PCL XL;" || bytes[13] != b';' || !major.is_ascii_digit() || !minor.is_ascii_digit() {
        return None;
    }
    let mut line = format!("header {}", if high { "high" } else { "low" });
    if (major, minor) != (b'1', b'1') {
        line.push_str(&format!(" {}.{}", major as char, minor as char));
    }
    let length = match *bytes.get(15)? {
        b'\n' => 16,
        b';' => {
            let end = 16 + bytes[16..].iter().position(|&b| b == b'\n')?;
            line.push(' ');
            line.push_str(&quote(&bytes[16..end]));
            end + 1
        }
        _ => return None,
    };
    (length <= 256).then_some((line, high, length))
}

/// The statement at `from`, if its items are whole; after a tag, data is taken if it stands there.
pub fn read_statement(bytes: &[u8], from: usize, high_first: bool) -> Option<Statement> {
    let mut at = from;
    let mut pieces = Vec::new();
    let space = |at: usize| bytes[at..].iter().take_while(|&&b| is_space(b)).count();
    loop {
        let start = at;
        let tag = *bytes.get(at)?;
        match tag {
            _ if is_space(tag) => {
                at += space(at);
                pieces.push((start, Piece::Space(bytes[start..at].to_vec())));
            }
            0xc0..=0xc5 | 0xc8..=0xcd | 0xd0..=0xd5 | 0xe0..=0xe5 => {
                let mut wide = false;
                at += 1;
                let count = match tag {
                    0xc0..=0xc5 => 1,
                    0xd0..=0xd5 => 2,
                    0xe0..=0xe5 => 4,
                    _ => {
                        wide = match *bytes.get(at)? {
                            0xc0 => false,
                            0xc1 => true,
                            _ => return None,
                        };
                        let size = if wide { 2 } else { 1 };
                        let count = number_at(bytes, at + 1, size, high_first)?;
                        at += 1 + size;
                        count
                    }
                };
                let size = number_width(tag);
                let mut numbers = Vec::new();
                for _ in 0..count {
                    numbers.push(number_at(bytes, at, size, high_first)?);
                    at += size;
                }
                pieces.push((start, Piece::Value(Value { kind: tag, numbers, wide })));
            }
            0xf8 | 0xf9 => {
                let size = usize::from(tag - 0xf7);
                let number = number_at(bytes, at + 1, size, high_first)? as u16;
                at += 1 + size;
                pieces.push((start, Piece::Number { number, wide: size == 2 }));
            }
            0x41..=0xbf => {
                at += 1;
                let mut statement = Statement { from, to: at, pieces, tag, tag_at: start, data: None };
                let gap = space(at);
                let size = match bytes.get(at + gap) {
                    Some(0xfa) => 4,
                    Some(0xfb) => 1,
                    _ => return Some(statement),
                };
                let body = at + gap + 1 + size;
                let length = number_at(bytes, at + gap + 1, size, high_first)? as usize;
                let data = bytes.get(body..body.checked_add(length)?)?.to_vec();
                statement.data = Some((bytes[at..at + gap].to_vec(), size == 4, data));
                statement.to = body + length;
                return Some(statement);
            }
            _ => return None,
        }
    }
}

fn show_number(number: u16, wide: bool) -> String {
    let name = attribute_name(number);
    if wide && number <= 255 {
        name + "/2"
    } else {
        name
    }
}

fn show_statement(s: &Statement) -> String {
    let mut words = vec![operator_name(s.tag)];
    let mut pieces = s.pieces.iter().map(|(_, p)| p).peekable();
    while let Some(piece) = pieces.next() {
        words.push(match piece {
            Piece::Space(bytes) => format!("~{}", show_bytes(bytes)),
            Piece::Number { number, wide } => format!("@{}", show_number(*number, *wide)),
            Piece::Value(value) => match pieces.peek() {
                Some(Piece::Number { number, wide }) => {
                    pieces.next();
                    format!("{}={}", show_number(*number, *wide), show_value(value, Some(*number)))
                }
                _ => format!("={}", show_value(value, None)),
            },
        });
    }
    if let Some((gap, wide, data)) = &s.data {
        if !gap.is_empty() {
            words.push("|".into());
            words.push(format!("~{}", show_bytes(gap)));
        }
        let name = if *wide && data.len() <= 255 { "data/4" } else { "data" };
        words.push(format!("{name}={}", show_bytes(data)));
    }
    words.join(" ")
}

/// The text of a job: statements as far as its items are whole, then hex, so that it reads back to the same bytes.
pub fn list(bytes: &[u8]) -> String {
    shown(bytes, |line| line.text.clone())
}

/// The same, each line with the place of its first byte and, if that is another, of its operator's tag; in a motif counted
/// from the motif's first byte.
pub fn list_with_places(bytes: &[u8]) -> String {
    shown(bytes, |line| match line.tag {
        Some(tag) if tag != line.at => format!("{}  # {}, tag {tag}", line.text, line.at),
        _ => format!("{}  # {}", line.text, line.at),
    })
}

fn shown(bytes: &[u8], show: impl Fn(&Line) -> String) -> String {
    list_lines(bytes, true).0.iter().map(|line| show(line) + "\n").collect()
}

/// A line of a listing, and the places of its first byte and of its operator's tag.
struct Line {
    text: String,
    at: usize,
    tag: Option<usize>,
}

fn show_hex(bytes: &[u8], from: usize, lines: &mut Vec<Line>) {
    for (i, part) in bytes.chunks(32).enumerate() {
        lines.push(Line { text: format!("hex {}", hex(part)), at: from + 32 * i, tag: None });
    }
}

/// Lines of a text, and whether the whole could be told as statements.
fn list_lines(bytes: &[u8], motifs: bool) -> (Vec<Line>, bool) {
    let mut lines = Vec::new();
    let Some((text, high, mut at)) = read_header(bytes) else {
        show_hex(bytes, 0, &mut lines);
        return (lines, false);
    };
    lines.push(Line { text, at: 0, tag: None });
    let mut open: Vec<(usize, Statement)> = Vec::new();
    while let Some(s) = read_statement(bytes, at, high) {
        at = s.to;
        lines.push(Line { text: show_statement(&s), at: s.from, tag: Some(s.tag_at) });
        match s.tag {
            0x5b => open = vec![(lines.len() - 1, s)],
            0x5c if !open.is_empty() => open.push((lines.len() - 1, s)),
            0x5d if motifs && !open.is_empty() => {
                let first = open[0].0;
                open.push((lines.len() - 1, s));
                if let Some(block) = motif_block(bytes, &open, high) {
                    lines.truncate(first);
                    lines.extend(block);
                }
                open.clear();
            }
            _ => open.clear(),
        }
    }
    let rest = &bytes[at..];
    if !rest.is_empty() && rest.iter().all(|&b| is_space(b)) {
        lines.push(Line { text: format!("~{}", show_bytes(rest)), at, tag: None });
        return (lines, true);
    }
    show_hex(rest, at, &mut lines);
    (lines, rest.is_empty())
}

/// The statements of a stream as one block, if that reads back to the same bytes.
fn motif_block(bytes: &[u8], all: &[(usize, Statement)], high_first: bool) -> Option<Vec<Line>> {
    let (begin, end) = (&all[0].1, &all[all.len() - 1].1);
    let name = begin.pieces.iter().find_map(|(_, p)| match p {
        Piece::Value(v) => Some(show_value(v, Some(139))),
        _ => None,
    })?;
    let blocks: Vec<&Vec<u8>> =
        all[1..all.len() - 1].iter().map(|(_, s)| s.data.as_ref().map(|d| &d.2)).collect::<Option<_>>()?;
    let body: Vec<u8> = blocks.iter().flat_map(|b| b.iter().copied()).collect();
    let (inner, whole) = list_lines(&body, false);
    if !whole {
        return None;
    }
    let mut first = format!("motif {name}");
    if blocks.len() > 1 {
        let sizes: Vec<String> = blocks[..blocks.len() - 1].iter().map(|b| b.len().to_string()).collect();
        first.push_str(&format!(" split={}", sizes.join(",")));
    }
    first.push_str(" {");
    let mut lines = vec![Line { text: first, at: begin.from, tag: Some(begin.tag_at) }];
    lines.extend(inner.into_iter().map(|l| Line { text: format!("  {}", l.text), ..l }));
    lines.push(Line { text: "}".into(), at: end.from, tag: Some(end.tag_at) });
    let text: String = lines.iter().map(|line| line.text.clone() + "\n").collect();
    reads_back(&text, high_first, &bytes[begin.from..end.to]).then_some(lines)
}
