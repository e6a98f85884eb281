//! A text as statements of words, each with its place.

/// Line and column of a text, counted from 1.
#[derive(Debug, Clone, Copy, PartialEq, Eq)]
pub struct Spot {
    pub line: usize,
    pub column: usize,
}

/// What is wrong in a text, and where.
#[derive(Debug, Clone, PartialEq, Eq)]
pub struct Fault {
    pub spot: Spot,
    pub said: String,
}

impl std::fmt::Display for Fault {
    fn fmt(&self, f: &mut std::fmt::Formatter) -> std::fmt::Result {
        write!(f, "{}:{}: {}", self.spot.line, self.spot.column, self.said)
    }
}

pub(super) fn fault<T>(spot: Spot, said: impl Into<String>) -> Result<T, Fault> {
    Err(Fault { spot, said: said.into() })
}

/// A word without the blanks that may stand in it, and the spot of each of its bytes.
#[derive(Debug, Clone, PartialEq, Eq)]
pub(super) struct Word {
    pub(super) text: String,
    pub(super) spots: Vec<Spot>,
}

impl Word {
    pub(super) fn spot(&self, at: usize) -> Spot {
        self.spots.get(at).or(self.spots.last()).copied().unwrap_or(Spot { line: 1, column: 1 })
    }

    fn push(&mut self, c: char, spot: Spot) {
        self.text.push(c);
        self.spots.extend(std::iter::repeat_n(spot, c.len_utf8()));
    }

    /// A name with nothing behind it that could belong to a value.
    fn is_bare_name(&self) -> bool {
        self.text.starts_with(|c: char| c.is_alphabetic()) && !self.text.contains(['=', '"', '(', '['])
    }
}

/// A statement: its words and the block after them.
#[derive(Debug, Clone, PartialEq, Eq)]
pub(super) struct Sentence {
    pub(super) words: Vec<Word>,
    pub(super) block: Option<Vec<Sentence>>,
    pub(super) spot: Spot,
}

/// Most blocks inside each other.
const NESTED: usize = 60;

/// The statements of a text.
pub(super) fn sentences(text: &str) -> Result<Vec<Sentence>, Fault> {
    let mut reader = Reader { chars: text.chars().collect(), at: 0, spot: Spot { line: 1, column: 1 } };
    reader.block(None, 0)
}

struct Reader {
    chars: Vec<char>,
    at: usize,
    spot: Spot,
}

impl Reader {
    fn peek(&self) -> Option<char> {
        self.chars.get(self.at).copied()
    }

    fn step(&mut self) {
        if self.peek() == Some('\n') {
            self.spot = Spot { line: self.spot.line + 1, column: 1 };
        } else {
            self.spot.column += 1;
        }
        self.at += 1;
    }

    /// Goes by blanks of a line and a comment.
    fn skip_blanks(&mut self) {
        while self.peek().is_some_and(|c| c.is_whitespace() && c != '\n') {
            self.step();
        }
        if self.peek() == Some('#') {
            while self.peek().is_some_and(|c| c != '\n') {
                self.step();
            }
        }
    }

    /// Statements up to the end, or up to the brace that closes the block opened at `open`.
    fn block(&mut self, open: Option<Spot>, depth: usize) -> Result<Vec<Sentence>, Fault> {
        let mut all: Vec<Sentence> = Vec::new();
        let mut words: Vec<Word> = Vec::new();
        loop {
            self.skip_blanks();
            let spot = self.spot;
            let first = words.first().map_or(spot, |w| w.spot(0));
            match self.peek() {
                Some('{') => {
                    if depth == NESTED {
                        return fault(spot, format!("blocks stand at most {NESTED} inside each other"));
                    }
                    self.step();
                    let block = Some(self.block(Some(spot), depth + 1)?);
                    all.push(Sentence { words: std::mem::take(&mut words), block, spot: first });
                }
                None | Some('\n' | ';' | '}') => {
                    if !words.is_empty() {
                        all.push(Sentence { words: std::mem::take(&mut words), block: None, spot: first });
                    }
                    match (self.peek(), open) {
                        (None, None) => return Ok(all),
                        (None, Some(open)) => return fault(open, "this { is not closed"),
                        (Some('}'), None) => return fault(spot, "this } closes nothing"),
                        (Some('}'), Some(_)) => {
                            self.step();
                            return Ok(all);
                        }
                        _ => self.step(),
                    }
                }
                _ => {
                    let word = self.word(words.is_empty())?;
                    words.push(word);
                }
            }
        }
    }

    /// A word: quotes keep everything, brackets leave blanks out, and so do the signs that join.
    fn word(&mut self, first: bool) -> Result<Word, Fault> {
        let mut word = Word { text: String::new(), spots: Vec::new() };
        while let Some(c) = self.peek() {
            match c {
                '"' => self.quoted(&mut word)?,
                '(' | '[' => self.bracketed(&mut word)?,
                '{' | '}' | ';' | '\n' | '#' => break,
                c if c.is_whitespace() => {
                    let (at, spot) = (self.at, self.spot);
                    self.skip_blanks();
                    if !self.joins(&word, first) {
                        (self.at, self.spot) = (at, spot);
                        break;
                    }
                }
                c => {
                    word.push(c, self.spot);
                    self.step();
                }
            }
        }
        Ok(word)
    }

    /// Whether what stands behind a blank belongs to the word before it.
    fn joins(&self, word: &Word, first: bool) -> bool {
        let Some(next) = self.peek().filter(|c| !matches!(c, '\n' | ';' | '{' | '}' | '#')) else {
            return false;
        };
        match next {
            ':' | '*' | ',' => true,
            '=' => !first && word.is_bare_name(),
            '~' | '|' | '@' | '^' => false,
            _ => word.text.ends_with(['=', ',', '*', ':']),
        }
    }

    fn quoted(&mut self, word: &mut Word) -> Result<(), Fault> {
        let open = self.spot;
        loop {
            let spot = self.spot;
            let Some(c) = self.peek().filter(|&c| c != '\n') else {
                return fault(open, "this quotation mark is not closed in its line");
            };
            word.push(c, spot);
            self.step();
            if c == '\\' {
                if let Some(c) = self.peek().filter(|&c| c != '\n') {
                    word.push(c, self.spot);
                    self.step();
                }
            } else if c == '"' && spot != open {
                return Ok(());
            }
        }
    }

    fn bracketed(&mut self, word: &mut Word) -> Result<(), Fault> {
        let (open, bracket) = (self.spot, self.chars[self.at]);
        loop {
            let Some(c) = self.peek().filter(|c| !matches!(c, ';' | '{' | '}' | '"' | '#')) else {
                return fault(open, format!("this {bracket} is not closed"));
            };
            if !c.is_whitespace() {
                word.push(c, self.spot);
            }
            self.step();
            if matches!(c, ')' | ']') {
                return Ok(());
            }
        }
    }
}

#[cfg(test)]
mod tests {
    use super::*;

    fn words(text: &str) -> Vec<String> {
        sentences(text).unwrap()[0].words.iter().map(|w| w.text.clone()).collect()
    }

    #[test]
    fn blanks_where_people_put_them() {
        let want = ["LinePath", "EndPoint=(1,-2):sint16"];
        for text in [
            "LinePath EndPoint=(1,-2):sint16",
            "LinePath EndPoint = (1, -2) : sint16",
            "  LinePath  EndPoint= ( 1 , -2 ):sint16  # a line",
            "LinePath EndPoint =( 1,\n   -2 ) :sint16",
        ] {
            assert_eq!(words(text), want, "{text}");
        }
        assert_eq!(words("hex c0 00 * 16 20"), ["hex", "c0", "00*16", "20"]);
        assert_eq!(words("motif \"a\" split = 16, 4 { PushGS }"), ["motif", "\"a\"", "split=16,4"]);
        assert_eq!(words("BeginSession =0 ~20 @Measure"), ["BeginSession", "=0", "~20", "@Measure"]);
        assert_eq!(
            words("ReadStream StreamDataLength=0 data= ; PushGS"),
            ["ReadStream", "StreamDataLength=0", "data="]
        );
        assert_eq!(words("Comment CommentData=\"a ; b = { c\""), ["Comment", "CommentData=\"a ; b = { c\""]);
    }

    #[test]
    fn spots_are_told() {
        let all = sentences("PushGS\n  SetCursor Point = (1,\n 2)").unwrap();
        let word = &all[1].words[1];
        assert_eq!((word.spot(0), word.spot(6)), (Spot { line: 2, column: 13 }, Spot { line: 2, column: 21 }));
        assert_eq!(word.spot(9), Spot { line: 3, column: 2 });
    }
}
