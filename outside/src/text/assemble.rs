//! The assembler: statements to bytes.

use super::names::{attribute_number, expected, operator_tag, STATEMENTS};
use super::values::{parse_bytes, parse_value, put_attribute, put_data, put_value, unquote, wrong, Value, Wrong};
use super::words::{fault, sentences, Fault, Sentence, Spot, Word};
use crate::plain::JOB_MAX;
use std::collections::BTreeMap;

/// Texts by name that a text may use.
pub type Macros = BTreeMap<String, String>;

/// Most bytes of jobs that are made to be too long.
const TOO_LONG: usize = 131_072;
/// Most statements performed, those of repeated blocks each time.
const STATEMENTS_MAX: usize = 1_000_000;
/// Most texts by name inside each other.
const MACROS_NESTED: usize = 30;

/// Where the bytes from one place on come from.
type Origin = (usize, Spot);

/// What a text comes to: its bytes, the marks outside and inside motifs, and where each byte comes from.
#[derive(Debug, Default, Clone, PartialEq, Eq)]
pub struct Assembled {
    pub bytes: Vec<u8>,
    pub marks: Vec<usize>,
    pub inner_marks: Vec<usize>,
    origins: Vec<Origin>,
    /// Of each motif the place of its EndStream, and where its own bytes come from.
    motifs: Vec<(usize, Vec<Origin>)>,
}

impl Assembled {
    /// The spot that a byte of the job comes from.
    pub fn spot(&self, position: usize) -> Option<Spot> {
        find(&self.origins, position)
    }

    /// The spot that a byte of the motif that ends at `position` comes from.
    pub fn inner_spot(&self, position: usize, inner: usize) -> Option<Spot> {
        self.motifs.iter().find(|m| m.0 == position).and_then(|m| find(&m.1, inner))
    }
}

fn find(origins: &[Origin], position: usize) -> Option<Spot> {
    origins.iter().rev().find(|o| o.0 <= position).map(|o| o.1)
}

/// The bytes of a text, also those of a job that is too long; what is wrong is told as `line:column: what`.
pub fn assemble(text: &str) -> Result<Vec<u8>, String> {
    assemble_with(text, &Macros::new()).map(|a| a.bytes)
}

/// The bytes and marks of a text that may use `macros`.
pub fn assemble_with(text: &str, macros: &Macros) -> Result<Assembled, String> {
    run(text, macros, TOO_LONG, false).map_err(|f| f.to_string())
}

/// The bytes of a text that comes to a job of at most 61,440 bytes.
pub fn assemble_job(text: &str) -> Result<Assembled, Fault> {
    run(text, &Macros::new(), JOB_MAX, false)
}

/// Whether a text comes to these bytes in this byte order.
pub(super) fn reads_back(text: &str, high_first: bool, bytes: &[u8]) -> bool {
    run(text, &Macros::new(), TOO_LONG, high_first).is_ok_and(|a| a.bytes == bytes)
}

fn run(text: &str, macros: &Macros, most: usize, high_first: bool) -> Result<Assembled, Fault> {
    let out = Assembled::default();
    let mut a = Assembler { macros, out, high_first, inside: false, most, left: STATEMENTS_MAX, used: Vec::new() };
    a.all(&sentences(text)?)?;
    Ok(a.out)
}

struct Assembler<'m> {
    macros: &'m Macros,
    out: Assembled,
    high_first: bool,
    inside: bool,
    /// Most bytes, and statements left to be performed.
    most: usize,
    left: usize,
    /// Spots at which texts by name are used: what they say comes from the first.
    used: Vec<Spot>,
}

/// Puts what is wrong in a word, from a byte of it on, at its spot.
fn at<T>(word: &Word, from: usize, result: Result<T, Wrong>) -> Result<T, Fault> {
    result.or_else(|w| fault(word.spot(from + w.at), w.said))
}

impl Assembler<'_> {
    fn all(&mut self, all: &[Sentence]) -> Result<(), Fault> {
        for sentence in all {
            let spot = self.used.first().copied().unwrap_or(sentence.spot);
            if self.left == 0 {
                return fault(spot, format!("more than {STATEMENTS_MAX} statements"));
            }
            self.left -= 1;
            self.sentence(sentence).map_err(|f| if self.used.is_empty() { f } else { Fault { spot, ..f } })?;
            if self.out.bytes.len() > self.most {
                return fault(spot, format!("more than {} bytes up to here", self.most));
            }
        }
        Ok(())
    }

    /// Says that the bytes from here on come from a spot.
    fn from(&mut self, spot: Spot) {
        let spot = self.used.first().copied().unwrap_or(spot);
        self.out.origins.push((self.out.bytes.len(), spot));
    }

    fn mark(&mut self) {
        let at = self.out.bytes.len();
        if self.inside {
            self.out.inner_marks.push(at);
        } else {
            self.out.marks.push(at);
        }
    }

    fn sentence(&mut self, s: &Sentence) -> Result<(), Fault> {
        let Some(first) = s.words.first() else {
            return fault(s.spot, "expected motif or repeat before {");
        };
        let rest = &s.words[1..];
        self.from(first.spot(0));
        match (first.text.as_str(), &s.block) {
            ("^", None) if rest.is_empty() => self.mark(),
            ("header", None) => self.header(rest)?,
            ("hex", None) => rest.iter().try_for_each(|w| self.hex(w))?,
            ("items", None) => rest.iter().try_for_each(|w| self.item(w))?,
            ("repeat", Some(block)) => self.repeat(first, rest, block)?,
            ("motif" | "^motif", Some(block)) => self.motif(first, rest, block)?,
            ("motif" | "^motif" | "repeat", None) => {
                return fault(s.words[s.words.len() - 1].spot(usize::MAX), "expected { behind this");
            }
            (word, None) if word.starts_with('~') => s.words.iter().try_for_each(|w| self.item(w))?,
            (word, None) if self.macros.contains_key(word) => self.named(first, rest)?,
            (word, None) => {
                let marked = word.starts_with('^');
                let name = word.strip_prefix('^').unwrap_or(word);
                let tag = operator_tag(name).or_else(|said| wrong(usize::from(marked), said));
                self.operator(first, marked, at(first, 0, tag)?, rest)?;
            }
            (word, Some(_)) => {
                let said = expected("motif or repeat before {", word, STATEMENTS.into_iter());
                return fault(first.spot(0), said);
            }
        }
        Ok(())
    }

    /// A text by name, with `$1`, `$2` replaced by the words behind it.
    fn named(&mut self, first: &Word, rest: &[Word]) -> Result<(), Fault> {
        if self.used.len() == MACROS_NESTED {
            return fault(first.spot(0), format!("texts by name stand at most {MACROS_NESTED} inside each other"));
        }
        let mut text = self.macros[&first.text].clone();
        for (i, word) in rest.iter().enumerate() {
            text = text.replace(&format!("${}", i + 1), &word.text);
        }
        self.used.push(first.spot(0));
        let done = sentences(&text).and_then(|all| self.all(&all));
        self.used.pop();
        done
    }

    fn hex(&mut self, word: &Word) -> Result<(), Fault> {
        let marked = usize::from(word.text.starts_with('^'));
        if marked == 1 {
            self.mark();
        }
        self.from(word.spot(0));
        self.out.bytes.extend(at(word, marked, parse_bytes(&word.text[marked..]))?);
        Ok(())
    }

    fn repeat(&mut self, first: &Word, rest: &[Word], block: &[Sentence]) -> Result<(), Fault> {
        let [word] = rest else {
            return fault(first.spot(0), "expected one number behind repeat");
        };
        let Ok(times) = word.text.parse::<usize>() else {
            return fault(word.spot(0), expected("how often", &word.text, [].into_iter()));
        };
        for _ in 0..times {
            self.all(block)?;
            if block.is_empty() {
                break;
            }
        }
        Ok(())
    }

    fn header(&mut self, words: &[Word]) -> Result<(), Fault> {
        let mut digits = *b"11";
        let mut after = None;
        for word in words {
            match word.text.as_str() {
                "low" => self.high_first = false,
                "high" => self.high_first = true,
                w if w.starts_with('"') => after = Some(at(word, 0, unquote(w))?),
                w if w.len() == 3 && w.as_bytes()[1] == b'.' => digits = [w.as_bytes()[0], w.as_bytes()[2]],
                w => {
                    let what = "low or high, a class as 2.1, or text in quotation marks";
                    return fault(word.spot(0), expected(what, w, ["low", "high"].into_iter()));
                }
            }
        }
        let out = &mut self.out.bytes;
        out.push(if self.high_first { 0x28 } else { 0x29 });
        out.extend(b" HP-PCL XL;");
        out.extend([digits[0], b';', digits[1]]);
        if let Some(text) = after {
            out.push(b';');
            out.extend(text);
        }
        out.push(b'\n');
        Ok(())
    }

    /// One word of an operator but its tag.
    fn item(&mut self, word: &Word) -> Result<(), Fault> {
        let marked = usize::from(word.text.starts_with('^'));
        if marked == 1 {
            self.mark();
        }
        self.from(word.spot(marked));
        let text = &word.text[marked..];
        let mut bytes = Vec::new();
        at(word, marked, item(text, self.high_first, &mut bytes))?;
        self.out.bytes.extend(bytes);
        Ok(())
    }

    /// An operator; its tag stands at `|`, else before the data, else last.
    fn operator(&mut self, first: &Word, marked: bool, tag: u8, words: &[Word]) -> Result<(), Fault> {
        let is_data = |w: &Word| {
            let text = w.text.trim_start_matches('^');
            text.starts_with("data=") || text.starts_with("data/4=")
        };
        let place =
            words.iter().position(|w| w.text == "|").or_else(|| words.iter().position(is_data)).unwrap_or(words.len());
        words[..place].iter().try_for_each(|w| self.item(w))?;
        if marked {
            self.mark();
        }
        self.from(first.spot(0));
        self.out.bytes.push(tag);
        words[place..].iter().filter(|w| w.text != "|").try_for_each(|w| self.item(w))
    }

    /// A motif block: measures its body and splits it into ReadStream data.
    fn motif(&mut self, first: &Word, words: &[Word], block: &[Sentence]) -> Result<(), Fault> {
        let Some(name) = words.first() else {
            return fault(first.spot(0), "expected a name in quotation marks behind motif");
        };
        let mut split = Vec::new();
        for word in &words[1..] {
            split.extend(at(word, 0, sizes(&word.text))?);
        }
        let inside = self.body(block)?;
        self.out.inner_marks.extend(inside.inner_marks);
        let high = self.high_first;
        let name = at(name, 0, parse_value(&name.text, Some(139)))?;
        let out = &mut self.out.bytes;
        put_value(out, high, &name);
        put_attribute(out, high, 139, false);
        out.push(0x5b);
        let mut sizes = split.into_iter();
        let mut rest = &inside.bytes[..];
        while !rest.is_empty() {
            let size = sizes.next().unwrap_or(0xffff).clamp(1, 0xffff).min(rest.len());
            let (block, after) = rest.split_at(size);
            let kind = if size > 255 { 0xc1 } else { 0xc0 };
            put_value(out, high, &Value { kind, numbers: vec![size as u32], wide: false });
            put_attribute(out, high, 140, false);
            out.push(0x5c);
            put_data(out, high, size > 255, block);
            rest = after;
        }
        if first.text.starts_with('^') {
            self.mark();
        }
        self.out.motifs.push((self.out.bytes.len(), inside.origins));
        self.out.bytes.push(0x5d);
        Ok(())
    }

    /// What the statements of a motif come to.
    fn body(&mut self, block: &[Sentence]) -> Result<Assembled, Fault> {
        let (high_first, was_inside) = (self.high_first, self.inside);
        let outside = std::mem::take(&mut self.out);
        self.inside = true;
        let done = self.all(block);
        let inside = std::mem::replace(&mut self.out, outside);
        (self.high_first, self.inside) = (high_first, was_inside);
        done.map(|()| inside)
    }
}

/// The sizes of the blocks of a motif.
fn sizes(text: &str) -> Result<Vec<usize>, Wrong> {
    let Some(list) = text.strip_prefix("split=") else {
        return wrong(0, expected("split=16,4 or {", text, ["split="].into_iter()));
    };
    let number = |size: &str| size.parse().or_else(|_| wrong(6, expected("sizes", size, [].into_iter())));
    list.split(',').map(number).collect()
}

/// An attribute's number, and whether it has two bytes.
fn number_of(name: &str) -> Result<(u16, bool), Wrong> {
    let (name, wide) = name.strip_suffix("/2").map_or((name, false), |n| (n, true));
    let number = attribute_number(name).or_else(|said| wrong(0, said))?;
    Ok((number, wide || number > 255))
}

/// The bytes of one word of an operator.
fn item(text: &str, high: bool, out: &mut Vec<u8>) -> Result<(), Wrong> {
    if let Some(space) = text.strip_prefix('~') {
        out.extend(parse_bytes(space).map_err(|w| w.after(1))?);
    } else if let Some(name) = text.strip_prefix('@') {
        let (number, wide) = number_of(name).map_err(|w| w.after(1))?;
        put_attribute(out, high, number, wide);
    } else if let Some(data) = text.strip_prefix("data/4=") {
        put_data(out, high, true, &parse_bytes(data).map_err(|w| w.after(7))?);
    } else if let Some(data) = text.strip_prefix("data=") {
        let data = parse_bytes(data).map_err(|w| w.after(5))?;
        put_data(out, high, data.len() > 255, &data);
    } else if let Some(value) = text.strip_prefix('=') {
        put_value(out, high, &parse_value(value, None).map_err(|w| w.after(1))?);
    } else if let Some((name, value)) = text.split_once('=') {
        let (number, wide) = number_of(name)?;
        put_value(out, high, &parse_value(value, Some(number)).map_err(|w| w.after(name.len() + 1))?);
        put_attribute(out, high, number, wide);
    } else {
        return wrong(
            0,
            match number_of(text) {
                Ok(_) => format!("expected = and a value behind {text}"),
                Err(w) => w.said.replace("an attribute", "an attribute and its value as Name=1"),
            },
        );
    }
    Ok(())
}

#[cfg(test)]
mod tests {
    use super::*;

    fn told(text: &str) -> String {
        assemble_job(text).map_or_else(|f| f.to_string(), |_| "nothing".into())
    }

    #[test]
    fn faults_are_told_where_they_are() {
        for (text, said) in [
            ("PushGS {", "1:8: this { is not closed"),
            ("PushGS\n}", "2:1: this } closes nothing"),
            ("header low\n  LinePaht EndPoint=(1,2)", "2:3: expected an operator, header, hex, items, motif or repeat, found LinePaht: did you mean LinePath?"),
            ("SetCursor  Pont = (1, 2)", "1:12: expected an attribute, found Pont: did you mean Point?"),
            ("SetCursor Point", "1:11: expected = and a value behind Point"),
            ("SetCursor Point = (1,\n  two)", "2:3: expected a number, found two"),
            ("SetCursor Point=(1,2", "1:17: this ( is not closed"),
            ("hex 0", "1:5: expected pairs of hex digits, found 0"),
            ("hex \"ab", "1:5: this quotation mark is not closed in its line"),
            ("Comment CommentData=1:odd", "1:23: expected a type or wide, found odd"),
            ("header lo", "1:8: expected low or high, a class as 2.1, or text in quotation marks, found lo: did you mean low?"),
            ("repeat five { PushGS }", "1:8: expected how often, found five"),
            ("repeat 3", "1:8: expected { behind this"),
            ("motif { PushGS }", "1:1: expected a name in quotation marks behind motif"),
            ("motif \"a\" splitt=3 { PushGS }", "1:11: expected split=16,4 or {, found splitt=3: did you mean split=?"),
            ("PushGS { PopGS }", "1:1: expected motif or repeat before {, found PushGS"),
            ("{ PushGS }", "1:1: expected motif or repeat before {"),
            ("SetPenWidth PenWidth=70000:uint16", "1:22: 70000 is no uint16, which goes from 0 to 65535"),
        ] {
            assert_eq!(told(text), said, "{text}");
        }
    }

    #[test]
    fn sizes_are_bounded() {
        assert_eq!(told("repeat 61440 { PushGS }"), "nothing");
        assert_eq!(told("repeat 61441 { PushGS }"), "1:16: more than 61440 bytes up to here");
        assert_eq!(told("repeat 4000000000 { repeat 4000000000 { items } }"), "1:41: more than 1000000 statements");
        assert_eq!(told("repeat 4000000000 { }"), "nothing");
        assert_eq!(told("hex 00*4000000000"), "1:8: at most 131072 times, found 4000000000");
        assert_eq!(told("motif \"a\" { repeat 70000 { PushGS } }"), "1:28: more than 61440 bytes up to here");
        assert!(told(&"{".repeat(100_000)).ends_with("blocks stand at most 60 inside each other"));
        let rings = Macros::from([("A".to_string(), "A".to_string())]);
        assert!(assemble_with("A", &rings).is_err());
    }

    #[test]
    fn bytes_are_carried_back_to_their_line() {
        let a = assemble_job("header low\nPushGS\nmotif \"a\" {\n  header low\n  PopGS }\nSetPenWidth\n PenWidth=1")
            .unwrap_err();
        assert_eq!(a.spot.line, 7);
        let a =
            assemble_job("header low\nPushGS\nmotif \"a\" {\n  header low\n  PopGS }\nSetPenWidth PenWidth=1").unwrap();
        let line = |at| a.spot(at).map(|s| (s.line, s.column));
        assert_eq!((line(0), line(16)), (Some((1, 1)), Some((2, 1))));
        let end = a.bytes.len() - 6;
        assert_eq!((a.bytes[end], line(end)), (0x5d, Some((3, 1))));
        assert_eq!((line(end + 1), line(end + 5)), (Some((6, 13)), Some((6, 1))));
        assert_eq!(a.inner_spot(end, 16), Some(Spot { line: 5, column: 3 }));
    }

    #[test]
    fn marks_and_macros() {
        let macros = Macros::from([("X".to_string(), "ExecStream StreamName=$1".to_string())]);
        let a =
            assemble_with("hex 00 ^01; X \"a\"; ^motif \"a\" { hex 05 06; ^PushGS }; repeat 2 { hex 07 }; ^", &macros);
        let a = a.unwrap();
        assert_eq!(a.marks, [1, a.bytes.len() - 3, a.bytes.len()]);
        assert_eq!(a.inner_marks, [2]);
        assert_eq!(a.bytes[..9], [0, 1, 0xc8, 0xc0, 1, b'a', 0xf8, 139, 0x5e]);
    }
}
