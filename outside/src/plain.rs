//! The independent checker: written from the rules alone, plain and safe, judging calls by walking them.

use std::collections::{BTreeSet, HashMap, VecDeque};

/// Longest job that is judged.
pub const JOB_MAX: usize = 61_440;
/// Bytes of motifs a session holds, and least length of the work buffer.
pub const STORE: usize = 16_384;
/// Inner position when nothing inside a motif is meant.
pub const NO_INNER: u32 = u32::MAX;
/// Most operators one job performs.
pub const PERFORMED_MAX: u64 = 1_000_000;
/// Most states saved at a time.
pub const SAVED_MAX: usize = 24;
/// Most motifs a session holds.
pub const MOTIFS_MAX: usize = 64;
/// Most patterns of each persistence.
pub const PATTERNS_MAX: usize = 32;
/// Most calls nested.
pub const NESTING_MAX: usize = 32;
/// Most attributes of one operator.
pub const ATTRIBUTES_MAX: usize = 16;
/// Most elements of an array.
pub const ARRAY_MAX: u32 = 1_024;
/// Longest header with its LF.
pub const HEADER_MAX: usize = 256;
/// Calls that unfold to more operators than this are judged by their shape and remembered facts, shorter ones by walking.
const WALK_MAX: u64 = 100_000;

/// The answer to one job.
#[repr(C)]
#[derive(Debug, Clone, Copy, PartialEq, Eq)]
pub struct Verdict {
    pub code: u32,
    pub position: u32,
    pub inner: u32,
    pub records: u32,
    pub performed: u32,
}

/// A refusal: its code, the byte it points at, and the byte inside a motif or NO_INNER.
#[derive(Debug, Clone, Copy, PartialEq, Eq)]
struct Fault {
    code: u32,
    at: u32,
    inner: u32,
}

fn fault<T>(code: u32, at: usize) -> Result<T, Fault> {
    Err(Fault { code, at: at as u32, inner: NO_INNER })
}

/// Judges one job; of `work` only the length matters, and it is left zero, `list` gets the records.
/// A page starts in gray if `rgb` is 0, else in RGB.
pub fn check(job: &[u8], work: &mut [u8], list: &mut [u8], rgb: u32) -> Verdict {
    let early = |code, position| Verdict { code, position, inner: NO_INNER, records: 0, performed: 0 };
    if work.len() < STORE {
        return early(29, 0);
    }
    if job.len() > JOB_MAX {
        return early(1, JOB_MAX as u32);
    }
    let mut arm = Arm::new(list, rgb == 0);
    let end = match arm.job(job) {
        Ok(()) => Fault { code: 0, at: job.len() as u32, inner: NO_INNER },
        Err(fault) => fault,
    };
    let verdict = Verdict {
        code: end.code,
        position: end.at,
        inner: end.inner,
        records: arm.records as u32,
        performed: arm.performed as u32,
    };
    work[..STORE].fill(0);
    verdict
}

// ---------------------------------------------------------------- header

/// The class of a job, which decides what its attributes and operators are.
#[derive(Debug, Clone, Copy, PartialEq, Eq, PartialOrd, Ord)]
pub enum Profile {
    /// Class 1;1.
    One,
    /// Class 2;1.
    Two,
}

/// Reads a header: whether the high byte comes first, the class, and where the items start.
fn header(bytes: &[u8]) -> Result<(bool, Profile, usize), Fault> {
    if bytes.first() == Some(&0x27) {
        return fault(3, 0);
    }
    let end = header_end(bytes)?;
    let profile = match (bytes[12], bytes[14]) {
        (b'1', b'1') => Profile::One,
        (b'2', b'1') => Profile::Two,
        _ => return fault(4, 12),
    };
    Ok((bytes[0] == 0x28, profile, end))
}

/// The length of a well formed header, of whatever class.
fn header_end(bytes: &[u8]) -> Result<usize, Fault> {
    const FIXED: &[u8] = b" HP-PCL XL;";
    for at in 0..HEADER_MAX {
        let Some(&byte) = bytes.get(at) else {
            return fault(2, at);
        };
        let fits = match at {
            0 => byte == 0x28 || byte == 0x29,
            1..=11 => byte == FIXED[at - 1],
            12 | 14 => byte.is_ascii_digit(),
            13 => byte == b';',
            15 => byte == b';' || byte == b'\n',
            _ => at + 1 < HEADER_MAX || byte == b'\n',
        };
        if !fits {
            return fault(2, at);
        }
        if at >= 15 && byte == b'\n' {
            return Ok(at + 1);
        }
    }
    unreachable!("byte 255 is LF or refused")
}

// ---------------------------------------------------------------- items

/// One attribute as it stands in the bytes.
#[derive(Debug, Clone, Copy, Default)]
struct Attribute {
    number: u16,
    /// Type tag and its offset.
    kind: u8,
    at: usize,
    /// Count of numbers, and offset of the first.
    count: u32,
    body: usize,
}

/// An operator with its attributes.
#[derive(Debug, Default)]
struct Operator {
    tag: u8,
    at: usize,
    room: [Attribute; ATTRIBUTES_MAX],
    given: usize,
}

impl Operator {
    fn attributes(&self) -> &[Attribute] {
        &self.room[..self.given]
    }

    fn find(&self, number: u16) -> Option<&Attribute> {
        self.attributes().iter().find(|a| a.number == number)
    }

    fn has(&self, number: u16) -> bool {
        self.find(number).is_some()
    }
}

/// Reads items from the left.
struct Reader<'a> {
    bytes: &'a [u8],
    at: usize,
    high_first: bool,
    profile: Profile,
    /// Whether a page starts in gray.
    starts_gray: bool,
}

/// White space between items.
pub fn is_space(byte: u8) -> bool {
    matches!(byte, 0x00 | 0x09..=0x0d | 0x20)
}

/// Bytes of one number of a value type.
fn width(kind: u8) -> usize {
    match kind & 7 {
        0 => 1,
        1 | 3 => 2,
        _ => 4,
    }
}

impl<'a> Reader<'a> {
    fn skip_space(&mut self) {
        while self.bytes.get(self.at).is_some_and(|&b| is_space(b)) {
            self.at += 1;
        }
    }

    /// The number in `size` bytes at `at`, by the byte order; none if it is cut off.
    fn number(&self, at: usize, size: usize) -> Option<u32> {
        let part = self.bytes.get(at..at + size)?;
        let join = |sum: u32, &byte: &u8| sum << 8 | u32::from(byte);
        Some(if self.high_first { part.iter().fold(0, join) } else { part.iter().rev().fold(0, join) })
    }

    /// Number `index` of a value that was read whole.
    fn element(&self, a: &Attribute, index: usize) -> u32 {
        let size = width(a.kind);
        self.number(a.body + index * size, size).unwrap_or(0)
    }

    /// The only number of attribute `number`, or 0 if it is missing.
    fn scalar(&self, op: &Operator, number: u16) -> u32 {
        op.find(number).map_or(0, |a| self.element(a, 0))
    }

    /// Reads the value whose tag stands at the reader's place.
    fn value(&mut self, kind: u8) -> Result<Attribute, Fault> {
        let at = self.at;
        let mut body = at + 1;
        let count = match kind {
            0xc0..=0xc5 => 1,
            0xd0..=0xd5 => 2,
            0xe0..=0xe5 => 4,
            _ => {
                let size = match self.bytes.get(body) {
                    None => return fault(5, at),
                    Some(0xc0) => 1,
                    Some(0xc1) => 2,
                    Some(_) => return fault(6, body),
                };
                let Some(length) = self.number(body + 1, size) else {
                    return fault(5, at);
                };
                if length > ARRAY_MAX {
                    return fault(8, at);
                }
                body += 1 + size;
                length
            }
        };
        let end = body + count as usize * width(kind);
        if end > self.bytes.len() {
            return fault(5, at);
        }
        self.at = end;
        Ok(Attribute { number: 0, kind, at, count, body })
    }

    /// Reads pairs up to an operator tag; false at the end of the bytes with nothing waiting.
    fn operator(&mut self, op: &mut Operator) -> Result<bool, Fault> {
        op.given = 0;
        // Whether room[given] has a value that waits for its number.
        let mut waiting = false;
        loop {
            self.skip_space();
            let at = self.at;
            let Some(&tag) = self.bytes.get(at) else {
                return if waiting || op.given > 0 { fault(27, at) } else { Ok(false) };
            };
            match tag {
                0x41..=0xbf if !waiting => {
                    op.tag = tag;
                    op.at = at;
                    self.at += 1;
                    return Ok(true);
                }
                0xc0..=0xc5 | 0xc8..=0xcd | 0xd0..=0xd5 | 0xe0..=0xe5 if !waiting => {
                    if op.given == ATTRIBUTES_MAX {
                        return fault(7, at);
                    }
                    op.room[op.given] = self.value(tag)?;
                    waiting = true;
                }
                0xf8 | 0xf9 if waiting => {
                    let size = usize::from(tag - 0xf7);
                    let Some(number) = self.number(at + 1, size) else {
                        return fault(5, at);
                    };
                    op.room[op.given].number = number as u16;
                    op.given += 1;
                    waiting = false;
                    self.at += 1 + size;
                }
                _ => return fault(6, at),
            }
        }
    }

    /// Reads the embedded data due after an operator; its offset.
    fn data(&mut self, op: &Operator, due: u64) -> Result<usize, Fault> {
        self.skip_space();
        let at = self.at;
        let size = match self.bytes.get(at) {
            None => return fault(27, at),
            Some(0xfa) => 4,
            Some(0xfb) => 1,
            Some(_) => return fault(18, op.at),
        };
        let Some(length) = self.number(at + 1, size) else {
            return fault(5, at);
        };
        if u64::from(length) != due {
            return fault(18, op.at);
        }
        let body = at + 1 + size;
        if self.bytes.len() - body < length as usize {
            return fault(5, at);
        }
        self.at = body + length as usize;
        Ok(body)
    }
}

// ---------------------------------------------------------------- attribute rules

/// What one attribute of one operator may be.
#[derive(Debug, Clone, Copy)]
enum Rule {
    /// One ubyte from..=to.
    Enumeration(u32, u32),
    /// One ubyte 0..=12 or 14..=16.
    MediaSize,
    /// One ubyte 0..=21 or 96, or a ubyte array of at least one element.
    MediaSizeOrName,
    /// One ubyte or uint16 from..=to.
    Number(u32, u32),
    /// One ubyte, uint16 or uint32.
    Length,
    /// One sint16.
    Signed,
    /// Two uint16, both at least 1, or two real32 above zero.
    Sizes,
    /// Two ubyte, uint16, sint16 or real32.
    Point,
    /// Four ubyte, uint16 or sint16.
    Box,
    /// ubyte array of from..=to elements.
    Array(u32, u32),
}

/// The rule of an attribute of an operator; none if it is not this operator's.
fn rule(profile: Profile, tag: u8, number: u16) -> Option<Rule> {
    use Rule::*;
    if profile == Profile::Two {
        match (tag, number) {
            (0x43, 37) => return Some(MediaSizeOrName),
            (0x43, 39) => return Some(Array(0, ARRAY_MAX)),
            (0xb1 | 0xb4, 110) => return Some(Enumeration(1, 255)),
            (0xb1 | 0xb4, 111) => return Some(Length),
            _ => {}
        }
    }
    Some(match (tag, number) {
        (0x41, 134) => Enumeration(0, 2),
        (0x41, 137) => Sizes,
        (0x41, 143) => Enumeration(0, 3),
        (0x43, 40) => Enumeration(0, 3),
        (0x43, 37) => MediaSize,
        (0x43, 38) => Enumeration(0, 6),
        (0x44, 49) => Number(1, 1),
        (0x47, 129) => Array(0, ARRAY_MAX),
        (0x48, 136) => Enumeration(0, 0),
        (0x48, 130) => Enumeration(0, 1),
        (0x5b | 0x5e, 139) => Array(1, 16),
        (0x5c, 140) => Number(1, 0xffff),
        (0x63 | 0x79, 11) => Array(3, 3),
        (0x63 | 0x79, 9) => Enumeration(0, 255),
        (0x63, 4) | (0x79, 5) => Enumeration(0, 0),
        (0x63, 8) => Signed,
        (0x6a, 3) => Enumeration(1, 2),
        (0x6b | 0x6c, 76) => Point,
        (0x7a, 75) => Number(0, 0xffff),
        (0x9b | 0x9d, 69) => Point,
        (0x9b | 0x9d, 77) => Number(1, 0xffff),
        (0x9b | 0x9d, 80) => Enumeration(0, 3),
        (0xa0, 66) => Box,
        (0xb0 | 0xb3, 100) => Enumeration(0, 0),
        (0xb0 | 0xb3, 98) => Enumeration(0, 2),
        (0xb0 | 0xb3, 108 | 107) => Number(1, 0xffff),
        (0xb0 | 0xb3, 103) => Sizes,
        (0xb3, 105) => Signed,
        (0xb3, 104) => Enumeration(1, 2),
        (0xb1 | 0xb4, 109) => Number(0, 0xffff),
        (0xb1 | 0xb4, 99) => Number(1, 0xffff),
        (0xb1 | 0xb4, 101) => Enumeration(0, 0),
        _ => return None,
    })
}

/// Two real32.
const REALS: u8 = 0xd5;

/// Whether 32 bits are a real that is neither infinite nor not a number: not all eight exponent bits are ones.
fn is_finite(bits: u32) -> bool {
    bits >> 23 & 0xff != 0xff
}

/// Whether 32 bits are a real above zero: no sign bit, and not all bits zero.
fn is_above_zero(bits: u32) -> bool {
    bits >> 31 == 0 && bits != 0
}

impl Rule {
    fn takes_type(self, kind: u8) -> bool {
        match self {
            Rule::Enumeration(..) | Rule::MediaSize => kind == 0xc0,
            Rule::MediaSizeOrName => matches!(kind, 0xc0 | 0xc8),
            Rule::Number(..) => matches!(kind, 0xc0 | 0xc1),
            Rule::Length => matches!(kind, 0xc0..=0xc2),
            Rule::Signed => kind == 0xc3,
            Rule::Sizes => matches!(kind, 0xd1 | REALS),
            Rule::Point => matches!(kind, 0xd0 | 0xd1 | 0xd3 | REALS),
            Rule::Box => matches!(kind, 0xe0 | 0xe1 | 0xe3),
            Rule::Array(..) => kind == 0xc8,
        }
    }

    fn takes_value(self, reader: &Reader, a: &Attribute) -> bool {
        match self {
            Rule::Enumeration(from, to) | Rule::Number(from, to) => (from..=to).contains(&reader.element(a, 0)),
            Rule::MediaSize => matches!(reader.element(a, 0), 0..=12 | 14..=16),
            Rule::MediaSizeOrName if a.kind == 0xc8 => a.count >= 1,
            Rule::MediaSizeOrName => matches!(reader.element(a, 0), 0..=21 | 96),
            Rule::Sizes if a.kind == REALS => [0, 1].iter().all(|&i| {
                let bits = reader.element(a, i);
                is_finite(bits) && is_above_zero(bits)
            }),
            Rule::Sizes => reader.element(a, 0) >= 1 && reader.element(a, 1) >= 1,
            Rule::Point if a.kind == REALS => is_finite(reader.element(a, 0)) && is_finite(reader.element(a, 1)),
            Rule::Point | Rule::Box | Rule::Length | Rule::Signed => true,
            Rule::Array(from, to) => (from..=to).contains(&a.count),
        }
    }
}

#[inline(always)]
fn in_table(profile: Profile, tag: u8) -> bool {
    tag == 0x57 && profile == Profile::Two
        || matches!(
            tag,
            0x41..=0x44 | 0x47..=0x49 | 0x5b..=0x5e | 0x60 | 0x61 | 0x63 | 0x6a..=0x6c | 0x79 | 0x7a
                | 0x84..=0x86 | 0x9b | 0x9d | 0xa0 | 0xb0..=0xb5
        )
}

/// Operators without attributes.
#[inline(always)]
fn takes_none(tag: u8) -> bool {
    matches!(tag, 0x42 | 0x49 | 0x57 | 0x5d | 0x60 | 0x61 | 0x84..=0x86 | 0xb2 | 0xb5)
}

/// Attributes an operator must have.
fn required(profile: Profile, tag: u8) -> &'static [u16] {
    match tag {
        0x41 => &[134, 137],
        0x43 if profile == Profile::One => &[40, 37],
        0x48 => &[136, 130],
        0x5b | 0x5e => &[139],
        0x5c => &[140],
        0x6a => &[3],
        0x6b | 0x6c => &[76],
        0x7a => &[75],
        0xa0 => &[66],
        0xb0 => &[100, 98, 108, 107, 103],
        0xb1 | 0xb4 => &[109, 99, 101],
        0xb3 => &[100, 98, 108, 107, 103, 105, 104],
        _ => &[],
    }
}

/// Judges 11, 12, 15 and 16 attribute by attribute, then 13, then clashes of 14.
fn judge_attributes(reader: &Reader, op: &Operator) -> Result<(), Fault> {
    if op.given == 0 && takes_none(op.tag) {
        return Ok(());
    }
    for (index, a) in op.attributes().iter().enumerate() {
        let Some(rule) = rule(reader.profile, op.tag, a.number) else {
            return fault(11, a.at);
        };
        if op.room[..index].iter().any(|b| b.number == a.number) {
            return fault(12, a.at);
        }
        if !rule.takes_type(a.kind) {
            return fault(15, a.at);
        }
        if !rule.takes_value(reader, a) {
            return fault(16, a.at);
        }
    }
    if required(reader.profile, op.tag).iter().any(|&number| !op.has(number)) {
        return fault(13, op.at);
    }
    match op.tag {
        // Exactly one of a choice, and only the choice is taken.
        0x63 | 0x79 => match op.given {
            0 => fault(13, op.at),
            1 => Ok(()),
            _ => fault(14, op.at),
        },
        0x9b | 0x9d => match (op.has(69), op.has(77), op.has(80)) {
            (false, false, false) => fault(13, op.at),
            (true, false, false) | (false, true, true) => Ok(()),
            _ => fault(14, op.at),
        },
        _ => Ok(()),
    }
}

// ---------------------------------------------------------------- images, patterns and data

/// An image or a pattern being read.
#[derive(Debug, Clone, Copy)]
struct Image {
    width: u32,
    depth: u32,
    height: u32,
    rows: u32,
}

/// Bytes of one row: whole bytes, then a multiple of `pad`.
pub fn row_bytes(width: u32, depth: u32, pad: u32) -> u64 {
    let bits = match depth {
        0 => 1,
        1 => 4,
        _ => 8,
    };
    (u64::from(width) * bits).div_ceil(8).next_multiple_of(pad.into())
}

impl Image {
    fn begin(reader: &Reader, op: &Operator) -> Image {
        let [width, depth, height] = [108, 98, 107].map(|number| reader.scalar(op, number));
        Image { width, depth, height, rows: 0 }
    }

    fn done(&self) -> bool {
        self.rows == self.height
    }

    /// Bytes of the rows that a ReadImage or ReadRastPattern has; its PadBytesMultiple stands in place of the 4.
    fn block_bytes(&self, reader: &Reader, op: &Operator) -> u64 {
        let pad = if op.has(110) { reader.scalar(op, 110) } else { 4 };
        row_bytes(self.width, self.depth, pad) * u64::from(reader.scalar(op, 99))
    }

    /// StartLine is the rows read so far, the rows never exceed the height, and BlockByteLength, if given, is the length due.
    fn takes_block(&self, reader: &Reader, op: &Operator) -> bool {
        reader.scalar(op, 109) == self.rows
            && self.rows + reader.scalar(op, 99) <= self.height
            && (!op.has(111) || u64::from(reader.scalar(op, 111)) == self.block_bytes(reader, op))
    }
}

/// What an accepted operator does to the image or pattern being read.
#[inline(always)]
fn image_after(image: &mut Option<Image>, reader: &Reader, op: &Operator) {
    match (op.tag, image) {
        (0xb0 | 0xb3, image) => *image = Some(Image::begin(reader, op)),
        (0xb1 | 0xb4, Some(image)) => image.rows += reader.scalar(op, 99),
        (0xb2 | 0xb5, image) => *image = None,
        _ => {}
    }
}

/// Length of the embedded data an operator reads, if it reads any.
#[inline(always)]
fn data_due(reader: &Reader, op: &Operator, image: Option<&Image>) -> Option<u64> {
    match op.tag {
        0x5c => Some(reader.scalar(op, 140).into()),
        0x9b | 0x9d if op.has(77) => {
            let each = if reader.scalar(op, 80) < 2 { 2 } else { 4 };
            Some(u64::from(reader.scalar(op, 77)) * each)
        }
        0xb1 | 0xb4 => image.map(|i| i.block_bytes(reader, op)),
        _ => None,
    }
}

// ---------------------------------------------------------------- the page

/// State of a page; what PushGS saves is the pair of both.
#[derive(Debug, Clone, Copy, PartialEq, Eq)]
struct Look {
    cursor: bool,
    gray: bool,
}

/// What an operator of a page means for the state.
#[derive(Debug, Clone, Copy, PartialEq, Eq)]
enum Step {
    Save,
    Restore,
    Cursor(bool),
    Gray(bool),
    NeedCursor,
    NeedGray(bool),
    /// BeginImage needs the cursor and gray.
    NeedBoth,
    /// Cursor not set, and gray or RGB as a page starts.
    Start(bool),
    /// SetBrushSource with the number of a pattern, which must be defined.
    Select(u16),
    Call(usize),
    Other,
}

/// The meaning of an operator of a page, calls apart.
#[inline(always)]
fn step(reader: &Reader, op: &Operator) -> Step {
    match op.tag {
        0x61 => Step::Save,
        0x60 => Step::Restore,
        0x57 => Step::Start(reader.starts_gray),
        0x6b => Step::Cursor(true),
        0x85 => Step::Cursor(false),
        0x6a => Step::Gray(reader.scalar(op, 3) == 1),
        0x6c | 0x9b | 0x9d => Step::NeedCursor,
        0x63 | 0x79 if op.has(11) => Step::NeedGray(false),
        0x63 | 0x79 if op.has(9) => Step::NeedGray(true),
        0x63 if op.has(8) => Step::Select(reader.scalar(op, 8) as u16),
        0xb0 => Step::NeedBoth,
        0xb3 => Step::NeedGray(true),
        _ => Step::Other,
    }
}

impl Step {
    fn breaks_cursor(self, look: Look) -> bool {
        matches!(self, Step::NeedCursor | Step::NeedBoth) && !look.cursor
    }

    fn breaks_gray(self, look: Look) -> bool {
        match self {
            Step::NeedGray(gray) => look.gray != gray,
            Step::NeedBoth => !look.gray,
            _ => false,
        }
    }

    fn breaks_pattern(self, patterns: &Patterns) -> bool {
        matches!(self, Step::Select(number) if !patterns.defined(number))
    }

    /// The effect on cursor and colour space alone.
    fn change(self, look: &mut Look) {
        match self {
            Step::Cursor(set) => look.cursor = set,
            Step::Gray(gray) => look.gray = gray,
            Step::Start(gray) => *look = Look { cursor: false, gray },
            _ => {}
        }
    }
}

/// Order inside a page or motif: every operator that may stand there, EndPage, BeginRastPattern and counts of saves apart.
fn page_operator(tag: u8) -> bool {
    matches!(tag, 0x47 | 0x57 | 0x5e | 0x60 | 0x61) || (0x63..=0xb0).contains(&tag)
}

/// The numbers of the patterns that are defined; which of two of the same number is meant changes no answer.
#[derive(Debug, Default)]
struct Patterns {
    page: BTreeSet<u16>,
    session: BTreeSet<u16>,
}

impl Patterns {
    fn defined(&self, number: u16) -> bool {
        self.page.contains(&number) || self.session.contains(&number)
    }

    /// Those of a persistence: 1 is the page's, 2 the session's.
    fn of(&mut self, persistence: u32) -> &mut BTreeSet<u16> {
        if persistence == 1 {
            &mut self.page
        } else {
            &mut self.session
        }
    }
}

// ---------------------------------------------------------------- motifs

/// A motif held by the session.
#[derive(Debug)]
struct Motif {
    steps: Vec<Step>,
    length: usize,
    /// Whether an operator of its own reads data.
    reads: bool,
}

/// The names that a session has met, each with its motif if it holds one; a call means the name.
#[derive(Debug, Default)]
struct Motifs {
    ids: HashMap<Vec<u8>, usize>,
    held: Vec<Option<Motif>>,
    /// The patterns that a motif may select if it is called now.
    patterns: Patterns,
}

impl Motifs {
    /// The number that stands for a name here.
    fn id(&mut self, name: &[u8]) -> usize {
        if let Some(&id) = self.ids.get(name) {
            return id;
        }
        let id = self.held.len();
        self.ids.insert(name.to_vec(), id);
        self.held.push(None);
        id
    }

    fn how_many(&self) -> usize {
        self.held.iter().flatten().count()
    }

    fn bytes(&self) -> usize {
        self.held.iter().flatten().map(|m| m.length).sum()
    }

    /// The names that a motif calls.
    fn calls(&self, id: usize) -> impl Iterator<Item = usize> + '_ {
        let steps = self.held[id].iter().flat_map(|m| &m.steps);
        steps.filter_map(|step| if let Step::Call(called) = step { Some(*called) } else { None })
    }
}

fn name_of<'a>(reader: &Reader<'a>, op: &Operator) -> &'a [u8] {
    op.find(139).map_or(&[], |a| &reader.bytes[a.body..a.body + a.count as usize])
}

/// Persistence and number of a BeginRastPattern.
fn pattern_of(reader: &Reader, op: &Operator) -> (u32, u16) {
    (reader.scalar(op, 104), reader.scalar(op, 105) as u16)
}

/// Judges the bytes of a motif of a job at its EndStream, all but names, nesting, patterns, 17 and 23 to 26.
fn judge_motif(bytes: &[u8], motifs: &mut Motifs, job: &Reader) -> Result<Motif, Fault> {
    let (high_first, profile, at) = header(bytes)?;
    if profile != job.profile {
        return fault(4, 12);
    }
    let mut reader = Reader { bytes, at, high_first, ..*job };
    let mut op = Operator::default();
    let mut motif = Motif { steps: Vec::new(), length: bytes.len(), reads: false };
    let mut image: Option<Image> = None;
    let mut saved = 0usize;
    while reader.operator(&mut op)? {
        if !in_table(profile, op.tag) {
            return fault(9, op.at);
        }
        let in_order = match (&image, op.tag) {
            (Some(_), 0xb1) => true,
            (Some(image), 0xb2) => image.done(),
            (Some(_), _) => false,
            (None, 0x60) => saved > 0,
            (None, tag) => page_operator(tag),
        };
        if !in_order {
            return fault(10, op.at);
        }
        judge_attributes(&reader, &op)?;
        if let (Some(image), 0xb1) = (&image, op.tag) {
            if !image.takes_block(&reader, &op) {
                return fault(14, op.at);
            }
        }
        if let Some(due) = data_due(&reader, &op, image.as_ref()) {
            reader.data(&op, due)?;
            motif.reads = true;
        }
        let mut now = step(&reader, &op);
        match op.tag {
            0x5e => now = Step::Call(motifs.id(name_of(&reader, &op))),
            0x61 => saved += 1,
            0x60 => saved -= 1,
            _ => image_after(&mut image, &reader, &op),
        }
        motif.steps.push(now);
    }
    if image.is_some() || saved > 0 {
        return fault(27, bytes.len());
    }
    Ok(motif)
}

/// What the unfolding of a call meets.
#[derive(Debug, Clone, Copy, PartialEq, Eq)]
struct Walk {
    look: Look,
    /// Most states saved at a time.
    saved: usize,
    cursor_broken: bool,
    gray_broken: bool,
    /// A pattern selected that is not defined.
    bare: bool,
    reads: bool,
    /// Operators performed, the call that is judged not among them; stops at the largest u64.
    count: u64,
    /// A call of a name not held, of a motif already running, and one that would go below 32.
    not_held: bool,
    ring: bool,
    too_deep: bool,
}

impl Walk {
    fn from(look: Look) -> Walk {
        Walk {
            look,
            saved: 0,
            cursor_broken: false,
            gray_broken: false,
            bare: false,
            reads: false,
            count: 0,
            not_held: false,
            ring: false,
            too_deep: false,
        }
    }

    /// Performs the operators of a motif one after the other; what a call comes to is left to `call`.
    fn pass(
        &mut self,
        motif: &Motif,
        patterns: &Patterns,
        stack: &mut Vec<Look>,
        mut call: impl FnMut(&mut Walk, &mut Vec<Look>, usize),
    ) {
        self.reads |= motif.reads;
        for &step in &motif.steps {
            self.count = self.count.saturating_add(1);
            self.cursor_broken |= step.breaks_cursor(self.look);
            self.gray_broken |= step.breaks_gray(self.look);
            self.bare |= step.breaks_pattern(patterns);
            match step {
                Step::Save => {
                    stack.push(self.look);
                    self.saved = self.saved.max(stack.len());
                }
                Step::Restore => self.look = stack.pop().unwrap_or(self.look),
                Step::Call(called) => call(self, stack, called),
                _ => step.change(&mut self.look),
            }
        }
    }

    /// The code of a call that is never unfolded to its end.
    fn cut(&self) -> Option<u32> {
        let cuts = [(self.not_held, 21), (self.ring, 32), (self.too_deep, 22)];
        cuts.iter().find(|cut| cut.0).map(|cut| cut.1)
    }
}

/// Performs what a name holds and the calls in it, on an unlimited stack of saved states, as long as that is not too long.
/// A name not held, a motif already running and a call that would go below 32 come to nothing.
fn walk(motifs: &Motifs, id: usize, running: &mut Vec<usize>, stack: &mut Vec<Look>, found: &mut Walk) {
    let Some(motif) = &motifs.held[id] else {
        found.not_held = true;
        return;
    };
    if running.contains(&id) {
        found.ring = true;
    } else if running.len() == NESTING_MAX {
        found.too_deep = true;
    } else if found.count <= WALK_MAX {
        running.push(id);
        found.pass(motif, &motifs.patterns, stack, |found, stack, called| {
            walk(motifs, called, running, stack, found);
        });
        running.pop();
    }
}

/// How deep each name is first met in a call of `first`, which is 1 deep itself.
fn depths(motifs: &Motifs, first: usize) -> Vec<Option<usize>> {
    let mut depths = vec![None; motifs.held.len()];
    depths[first] = Some(1);
    let mut next = VecDeque::from([(first, 1)]);
    while let Some((id, depth)) = next.pop_front() {
        for called in motifs.calls(id) {
            if depths[called].is_none() {
                depths[called] = Some(depth + 1);
                next.push_back((called, depth + 1));
            }
        }
    }
    depths
}

/// How many motifs the shortest ring of calls through a motif has.
fn shortest_ring(motifs: &Motifs, id: usize) -> Option<usize> {
    let depths = depths(motifs, id);
    let back = |other: &usize| motifs.calls(*other).any(|called| called == id);
    (0..depths.len()).filter(back).filter_map(|other| depths[other]).min()
}

/// How many motifs the longest chain of calls from a motif has; none if it never ends.
fn longest_chain(motifs: &Motifs, id: usize, known: &mut Vec<Option<Option<usize>>>) -> Option<usize> {
    if let Some(known) = known[id] {
        return known;
    }
    // A chain that comes back here before this is answered never ends.
    known[id] = Some(None);
    let chain = motifs.calls(id).try_fold(0, |most, called| Some(most.max(longest_chain(motifs, called, known)?)))?;
    known[id] = Some(Some(chain + 1));
    Some(chain + 1)
}

/// The code of a call that is cut somewhere, told by the shape of the calls alone: a name not held in a motif that is met, a
/// ring that closes within 32 motifs, or a chain of more than 32.
fn cut_by_shape(motifs: &Motifs, first: usize) -> Option<u32> {
    let depths = depths(motifs, first);
    let met: Vec<(usize, usize)> = (0..depths.len()).filter_map(|id| Some((id, depths[id]?))).collect();
    let not_held = |id: usize| motifs.held[id].is_none();
    let lost = |&(id, depth): &(usize, usize)| depth <= NESTING_MAX && motifs.calls(id).any(not_held);
    let turns =
        |&(id, depth): &(usize, usize)| shortest_ring(motifs, id).is_some_and(|ring| depth + ring - 1 <= NESTING_MAX);
    if not_held(first) || met.iter().any(lost) {
        Some(21)
    } else if met.iter().any(turns) {
        Some(32)
    } else {
        let chain = longest_chain(motifs, first, &mut vec![None; depths.len()]);
        chain.is_none_or(|chain| chain > NESTING_MAX).then_some(22)
    }
}

/// What a walk of each motif finds from each of the four looks, each made once, where nothing is cut; saved is counted from 0.
struct Facts<'a> {
    motifs: &'a Motifs,
    known: Vec<[Option<Walk>; 4]>,
}

impl<'a> Facts<'a> {
    fn new(motifs: &'a Motifs) -> Self {
        Facts { motifs, known: vec![[None; 4]; motifs.held.len()] }
    }

    fn of(&mut self, id: usize, look: Look) -> Walk {
        let slot = usize::from(look.cursor) * 2 + usize::from(look.gray);
        if let Some(walk) = self.known[id][slot] {
            return walk;
        }
        let mut found = Walk::from(look);
        let motifs = self.motifs;
        if let Some(motif) = &motifs.held[id] {
            found.pass(motif, &motifs.patterns, &mut Vec::new(), |found, stack, called| {
                let inside = self.of(called, found.look);
                found.look = inside.look;
                found.saved = found.saved.max(stack.len() + inside.saved);
                found.cursor_broken |= inside.cursor_broken;
                found.gray_broken |= inside.gray_broken;
                found.bare |= inside.bare;
                found.reads |= inside.reads;
                found.count = found.count.saturating_add(inside.count);
            });
        }
        self.known[id][slot] = Some(found);
        found
    }
}

// ---------------------------------------------------------------- the job

/// Where in the order of operators the job stands.
#[derive(Debug, Clone, Copy, PartialEq, Eq)]
enum Place {
    Outside,
    Session,
    Stream,
    Page,
    Image,
    Pattern,
}

/// The arm while it reads a job.
struct Arm<'b> {
    list: &'b mut [u8],
    /// Whether a page starts in gray.
    starts_gray: bool,
    records: usize,
    performed: u64,
    place: Place,
    source_open: bool,
    motifs: Motifs,
    /// The stream being read: the number of its name, and its bytes so far.
    stream: (usize, Vec<u8>),
    look: Look,
    saved: Vec<Look>,
    /// The image or pattern being read.
    image: Option<Image>,
    /// Persistence and number of the pattern being read.
    pattern: (u32, u16),
}

impl<'b> Arm<'b> {
    fn new(list: &'b mut [u8], starts_gray: bool) -> Self {
        Arm {
            list,
            starts_gray,
            records: 0,
            performed: 0,
            place: Place::Outside,
            source_open: false,
            motifs: Motifs::default(),
            stream: (0, Vec::new()),
            look: Look { cursor: false, gray: false },
            saved: Vec::new(),
            image: None,
            pattern: (0, 0),
        }
    }

    /// Reads the whole job from the left.
    fn job(&mut self, job: &[u8]) -> Result<(), Fault> {
        let (high_first, profile, at) = header(job)?;
        let mut reader = Reader { bytes: job, at, high_first, profile, starts_gray: self.starts_gray };
        let mut op = Operator::default();
        let mut sessions = 0;
        while reader.operator(&mut op)? {
            self.perform(&mut reader, &op)?;
            sessions += usize::from(op.tag == 0x42);
        }
        if self.place != Place::Outside || sessions == 0 {
            return fault(27, job.len());
        }
        Ok(())
    }

    fn in_order(&self, tag: u8) -> bool {
        match self.place {
            Place::Outside => tag == 0x41,
            Place::Session => match tag {
                0x43 | 0x47 | 0x5b => true,
                0x42 | 0x48 => !self.source_open,
                0x49 => self.source_open,
                _ => false,
            },
            Place::Stream => matches!(tag, 0x5c | 0x5d),
            Place::Page => match tag {
                0x44 => self.saved.is_empty(),
                0x60 => !self.saved.is_empty(),
                _ => tag == 0xb3 || page_operator(tag),
            },
            Place::Image => match tag {
                0xb1 => true,
                0xb2 => self.image.is_some_and(|i| i.done()),
                _ => false,
            },
            Place::Pattern => match tag {
                0xb4 => true,
                0xb5 => self.image.is_some_and(|i| i.done()),
                _ => false,
            },
        }
    }

    /// Judges one operator of the job, and if it keeps all rules lists and performs it.
    fn perform(&mut self, reader: &mut Reader, op: &Operator) -> Result<(), Fault> {
        if !in_table(reader.profile, op.tag) {
            return fault(9, op.at);
        }
        if !self.in_order(op.tag) {
            return fault(10, op.at);
        }
        judge_attributes(reader, op)?;
        if matches!(op.tag, 0xb1 | 0xb4) && !self.image.is_some_and(|i| i.takes_block(reader, op)) {
            return fault(14, op.at);
        }
        let mut data = (0, 0);
        if let Some(due) = data_due(reader, op, self.image.as_ref()) {
            if !self.source_open {
                return fault(17, op.at);
            }
            data = (due as usize, reader.data(op, due)?);
        }

        let mut motif = None;
        let mut look = self.look;
        let mut count = 1;
        match op.tag {
            0x5b => {
                let id = self.motifs.id(name_of(reader, op));
                if self.motifs.held[id].is_none() && self.motifs.how_many() == MOTIFS_MAX {
                    return fault(19, op.at);
                }
            }
            // The motif that is to be replaced counts too.
            0x5c if self.motifs.bytes() + self.stream.1.len() + data.0 > STORE => return fault(19, op.at),
            0x5d => match judge_motif(&self.stream.1, &mut self.motifs, reader) {
                Ok(judged) => motif = Some(judged),
                Err(f) => return Err(Fault { code: f.code, at: op.at as u32, inner: f.at }),
            },
            0x5e => {
                let found = match self.call(name_of(reader, op)) {
                    Ok(found) => found,
                    Err(code) => return fault(code, op.at),
                };
                if found.reads && !self.source_open {
                    return fault(17, op.at);
                }
                if self.saved.len() + found.saved > SAVED_MAX {
                    return fault(23, op.at);
                }
                if found.cursor_broken {
                    return fault(24, op.at);
                }
                if found.gray_broken {
                    return fault(25, op.at);
                }
                if found.bare {
                    return fault(34, op.at);
                }
                look = found.look;
                count = found.count.saturating_add(1);
            }
            0x61 if self.saved.len() == SAVED_MAX => return fault(23, op.at),
            // A number that is defined needs no further place.
            0xb3 if self.no_place(reader, op) => return fault(33, op.at),
            _ => {
                let step = step(reader, op);
                if step.breaks_cursor(look) {
                    return fault(24, op.at);
                }
                if step.breaks_gray(look) {
                    return fault(25, op.at);
                }
                if step.breaks_pattern(&self.motifs.patterns) {
                    return fault(34, op.at);
                }
                step.change(&mut look);
            }
        }
        if self.performed.saturating_add(count) > PERFORMED_MAX {
            return fault(26, op.at);
        }
        self.write(op, data)?;
        self.performed += count;
        self.look = look;
        self.effect(reader, op, data, motif);
        Ok(())
    }

    /// Whether a BeginRastPattern has a number not defined at its persistence, and all places there are taken.
    fn no_place(&mut self, reader: &Reader, op: &Operator) -> bool {
        let (persistence, number) = pattern_of(reader, op);
        let defined = self.motifs.patterns.of(persistence);
        defined.len() == PATTERNS_MAX && !defined.contains(&number)
    }

    /// Walks a call from the state of the page, or refuses it by 21, 32 or 22. A motif never pops below its start, so its own
    /// stack starts empty.
    fn call(&mut self, name: &[u8]) -> Result<Walk, u32> {
        let id = self.motifs.id(name);
        let mut found = Walk::from(self.look);
        walk(&self.motifs, id, &mut Vec::new(), &mut Vec::new(), &mut found);
        if found.count <= WALK_MAX {
            return found.cut().map_or(Ok(found), Err);
        }
        match cut_by_shape(&self.motifs, id) {
            Some(code) => Err(code),
            None => Ok(Facts::new(&self.motifs).of(id, self.look)),
        }
    }

    /// Puts down the records of an operator, or nothing if they do not fit.
    fn write(&mut self, op: &Operator, data: (usize, usize)) -> Result<(), Fault> {
        let from = self.records * 16;
        let Some(room) = self.list.get_mut(from..from + (op.given + 1) * 16) else {
            return fault(28, op.at);
        };
        let (pairs, last) = room.split_at_mut(op.given * 16);
        for (record, a) in pairs.chunks_exact_mut(16).zip(op.attributes()) {
            record[..4].copy_from_slice(&[1, a.number as u8, a.kind, 0]);
            record[4..8].copy_from_slice(&(a.at as u32).to_le_bytes());
            record[8..12].copy_from_slice(&a.count.to_le_bytes());
            record[12..].copy_from_slice(&(a.body as u32).to_le_bytes());
        }
        last[..4].copy_from_slice(&[2, op.tag, op.given as u8, 0]);
        last[4..8].copy_from_slice(&(op.at as u32).to_le_bytes());
        last[8..12].copy_from_slice(&(data.0 as u32).to_le_bytes());
        last[12..].copy_from_slice(&(data.1 as u32).to_le_bytes());
        self.records += op.given + 1;
        Ok(())
    }

    /// The effect of an accepted operator on order, source, motifs, saves, images and patterns.
    fn effect(&mut self, reader: &Reader, op: &Operator, data: (usize, usize), motif: Option<Motif>) {
        match op.tag {
            0x41 => self.place = Place::Session,
            0x42 => {
                self.place = Place::Outside;
                self.motifs = Motifs::default();
            }
            0x43 => {
                self.place = Place::Page;
                self.look = Look { cursor: false, gray: self.starts_gray };
            }
            0x44 => {
                self.place = Place::Session;
                self.motifs.patterns.page.clear();
            }
            0x48 => self.source_open = true,
            0x49 => self.source_open = false,
            0x5b => {
                self.place = Place::Stream;
                self.stream = (self.motifs.id(name_of(reader, op)), Vec::new());
            }
            0x5c => self.stream.1.extend(&reader.bytes[data.1..data.1 + data.0]),
            0x5d => {
                self.place = Place::Session;
                self.motifs.held[self.stream.0] = motif;
            }
            0x60 => {
                if let Some(look) = self.saved.pop() {
                    self.look = look;
                }
            }
            0x61 => self.saved.push(self.look),
            0xb0 => self.place = Place::Image,
            0xb2 => self.place = Place::Page,
            0xb3 => {
                self.place = Place::Pattern;
                self.pattern = pattern_of(reader, op);
            }
            0xb5 => {
                self.place = Place::Page;
                let (persistence, number) = self.pattern;
                self.motifs.patterns.of(persistence).insert(number);
            }
            _ => {}
        }
        image_after(&mut self.image, reader, op);
    }
}

#[cfg(test)]
mod tests {
    use super::*;
    use crate::generate::{self, Rng, Setting};
    use crate::text::{self, Piece, Statement};

    fn judge(job: &[u8], rgb: u32) -> Verdict {
        check(job, &mut vec![1; STORE], &mut vec![1; 16 * (job.len() + 1)], rgb)
    }

    #[test]
    fn rows_are_filled_up() {
        let four = |width, depth| row_bytes(width, depth, 4);
        assert_eq!([four(32, 0), four(33, 0), four(33, 1), four(33, 2)], [4, 8, 20, 36]);
        assert_eq!([four(1, 0), four(8, 1), four(65_535, 2)], [4, 4, 65_536]);
        assert_eq!([1, 2, 5, 200, 255].map(|pad| row_bytes(33, 0, pad)), [5, 6, 5, 200, 255]);
        assert_eq!(row_bytes(65_535, 2, 200) * 65_535, 4_299_096_000);
    }

    #[test]
    fn reals_by_their_bits_are_those_of_the_machine() {
        let edges = [0, 1, 0x7f_ffff, 0x80_0000, 0x3f80_0000, 0x7f7f_ffff, 0x7f80_0000, 0x7f80_0001, 0x7fff_ffff];
        for bits in edges.into_iter().flat_map(|b: u32| [b, b | 1 << 31]) {
            let real = f32::from_bits(bits);
            assert_eq!(is_finite(bits), real.is_finite(), "{bits:x}");
            assert_eq!(is_finite(bits) && is_above_zero(bits), real.is_finite() && real > 0.0, "{bits:x}");
        }
    }

    #[test]
    fn headers() {
        assert_eq!(header(b"( HP-PCL XL;1;1\nx"), Ok((true, Profile::One, 16)));
        assert_eq!(header(b") HP-PCL XL;2;1;abc\n"), Ok((false, Profile::Two, 20)));
        assert_eq!(header(b") HP-PCL XL;2;0\n"), fault(4, 12));
        for cut in 0..15 {
            assert_eq!(header(&b") HP-PCL XL;1;1\n"[..cut]), fault(2, cut));
        }
    }

    #[test]
    fn numbers_follow_the_byte_order() {
        let bytes = [1, 2, 3, 4];
        for (high_first, want) in [(true, [0x1, 0x102, 0x0102_0304]), (false, [0x1, 0x201, 0x0403_0201])] {
            let reader = Reader { bytes: &bytes, at: 0, high_first, profile: Profile::One, starts_gray: true };
            assert_eq!([1, 2, 4].map(|n| reader.number(0, n)), want.map(Some));
            assert_eq!(reader.number(1, 4), None);
        }
    }

    /// A motif of random steps that never pops below its start.
    fn random_steps(rng: &mut Rng, held: usize) -> Vec<Step> {
        let mut steps = Vec::new();
        let mut saved = 0;
        for _ in 0..rng.below(8) {
            steps.push(match rng.below(9) {
                0 => {
                    saved += 1;
                    Step::Save
                }
                1 if saved > 0 => {
                    saved -= 1;
                    Step::Restore
                }
                2 => Step::Cursor(rng.one_in(2)),
                3 => Step::Gray(rng.one_in(2)),
                4 => Step::NeedCursor,
                5 => Step::NeedGray(rng.one_in(2)),
                6 if held > 0 => Step::Call(rng.below(held)),
                7 => Step::Select(rng.below(3) as u16),
                _ => Step::Other,
            });
        }
        steps.extend(vec![Step::Restore; saved]);
        steps
    }

    /// Motifs of random steps, some names not held.
    fn random_motifs(rng: &mut Rng, n: usize) -> Motifs {
        let mut motifs = Motifs::default();
        let (tame, lost) = (rng.one_in(2), rng.one_in(3));
        motifs.patterns.page.extend([0, 1].iter().filter(|_| rng.one_in(2)));
        motifs.patterns.session.extend([1, 2].iter().filter(|_| rng.one_in(2)));
        for i in 0..n {
            let id = motifs.id(&[i as u8]);
            // Calls of earlier ones only make no ring.
            let steps = random_steps(rng, if tame { i } else { n });
            motifs.held[id] = Some(Motif { steps, length: 0, reads: rng.one_in(4) });
        }
        if lost {
            motifs.held[0] = None;
        }
        motifs
    }

    #[test]
    fn shape_and_facts_are_those_of_the_walk() {
        let mut seen = std::collections::BTreeMap::new();
        for seed in 0..1200 {
            let mut rng = Rng::new(seed, 4);
            let motifs = random_motifs(&mut rng, 10);
            for (id, n) in (0..10).flat_map(|i| (0..4).map(move |n| (i, n))) {
                let look = Look { cursor: n & 1 == 1, gray: n & 2 == 2 };
                let mut found = Walk::from(look);
                walk(&motifs, id, &mut Vec::new(), &mut Vec::new(), &mut found);
                if found.count > WALK_MAX {
                    continue;
                }
                assert_eq!(cut_by_shape(&motifs, id), found.cut());
                *seen.entry(found.cut()).or_insert(0) += 1;
                if found.cut().is_none() {
                    assert_eq!(Facts::new(&motifs).of(id, look), found);
                }
            }
        }
        assert!([None, Some(21), Some(32)].iter().all(|c| seen.contains_key(c)), "{seen:?}");
    }

    /// A row of motifs, each calling the next; the last calls nothing or the one at `back`.
    fn row_of_motifs(n: usize, back: Option<usize>) -> Motifs {
        let mut motifs = Motifs::default();
        for i in 0..n {
            let id = motifs.id(&[i as u8]);
            let next = if i + 1 < n { Some(i + 1) } else { back };
            let steps = next.map(Step::Call).into_iter().collect();
            motifs.held[id] = Some(Motif { steps, length: 0, reads: false });
        }
        motifs
    }

    #[test]
    fn rings_and_chains_at_the_edge() {
        let code = |motifs: &Motifs| {
            let mut found = Walk::from(Look { cursor: true, gray: true });
            walk(motifs, 0, &mut Vec::new(), &mut Vec::new(), &mut found);
            assert_eq!(cut_by_shape(motifs, 0), found.cut());
            found.cut()
        };
        assert_eq!([31, 32, 33, 40].map(|n| code(&row_of_motifs(n, None))), [None, None, Some(22), Some(22)]);
        for back in [0, 1, 20] {
            let codes = [31, 32, 33, 34].map(|n| code(&row_of_motifs(n, Some(back))));
            assert_eq!(codes, [Some(32), Some(32), Some(22), Some(22)], "back to {back}");
        }
        // A name not held in the 32nd of a chain is met, in the 33rd it is not.
        for (n, want) in [(31, 21), (32, 21), (33, 22)] {
            let mut motifs = row_of_motifs(n, None);
            let lost = motifs.id(b"lost");
            motifs.held[n - 1] = Some(Motif { steps: vec![Step::Call(lost)], length: 0, reads: false });
            assert_eq!(code(&motifs), Some(want), "{n}");
        }
    }

    /// The arm of demand 3: performs each operator, calls unfolded, and stops where a rule of the state breaks.
    #[derive(Default)]
    struct Slow {
        starts_gray: bool,
        held: Vec<(Vec<u8>, Vec<u8>)>,
        open: bool,
        cursor: bool,
        gray: bool,
        saved: Vec<(bool, bool)>,
        /// Numbers of patterns, of the page and of the session.
        patterns: [BTreeSet<u32>; 2],
        count: u64,
    }

    fn given(s: &Statement) -> Vec<(u16, &text::Value)> {
        s.pieces
            .iter()
            .filter_map(|(_, p)| if let Piece::Number { number, .. } = p { Some(*number) } else { None })
            .zip(s.pieces.iter().filter_map(|(_, p)| if let Piece::Value(v) = p { Some(v) } else { None }))
            .collect()
    }

    impl Slow {
        fn perform(&mut self, bytes: &[u8]) -> bool {
            let Some((_, high, mut at)) = text::read_header(bytes) else { return false };
            let mut stream = (Vec::new(), Vec::new());
            while let Some(s) = text::read_statement(bytes, at, high) {
                at = s.to;
                self.count += 1;
                let pairs = given(&s);
                let has = |n: u16| pairs.iter().any(|p| p.0 == n);
                let name = || pairs[0].1.numbers.iter().map(|&n| n as u8).collect::<Vec<u8>>();
                let kept = match s.tag {
                    0x42 => {
                        self.held.clear();
                        self.patterns[1].clear();
                        true
                    }
                    0x44 => {
                        self.patterns[0].clear();
                        true
                    }
                    0x43 => {
                        (self.cursor, self.gray) = (false, self.starts_gray);
                        true
                    }
                    0x57 => {
                        (self.cursor, self.gray) = (false, self.starts_gray);
                        true
                    }
                    0x48 | 0x49 => {
                        self.open = s.tag == 0x48;
                        true
                    }
                    0x5b => {
                        stream = (name(), Vec::new());
                        true
                    }
                    0x5c => {
                        stream.1.extend(s.data.as_ref().map_or(&[][..], |d| &d.2));
                        self.open
                    }
                    0x5d => {
                        self.held.retain(|h| h.0 != stream.0);
                        self.held.push(std::mem::take(&mut stream));
                        true
                    }
                    0x5e => match self.held.iter().find(|h| h.0 == name()).map(|h| h.1.clone()) {
                        Some(body) => self.perform(&body),
                        None => false,
                    },
                    0x60 => {
                        let back = self.saved.pop();
                        (self.cursor, self.gray) = back.unwrap_or_default();
                        back.is_some()
                    }
                    0x61 => {
                        self.saved.push((self.cursor, self.gray));
                        self.saved.len() <= 24
                    }
                    0x6a => {
                        self.gray = pairs[0].1.numbers[0] == 1;
                        true
                    }
                    0x6b | 0x85 => {
                        self.cursor = s.tag == 0x6b;
                        true
                    }
                    0x63 if has(8) => self.patterns.iter().any(|of| of.contains(&pairs[0].1.numbers[0])),
                    0x63 | 0x79 => !(has(9) && !self.gray || has(11) && self.gray),
                    0x6c => self.cursor,
                    0x9b | 0x9d => self.cursor && (!has(77) || self.open),
                    0xb0 => self.cursor && self.gray,
                    0xb1 | 0xb4 => self.open,
                    // No operator of the page comes before its end, so it may count as defined at once.
                    0xb3 => {
                        let number = |n: u16| pairs.iter().find(|p| p.0 == n).map_or(0, |p| p.1.numbers[0]);
                        self.patterns[number(104) as usize - 1].insert(number(105));
                        self.gray
                    }
                    _ => true,
                };
                if !kept || self.count > 1_000_000 {
                    return false;
                }
            }
            true
        }
    }

    #[test]
    fn passes_exactly_if_the_slow_arm_comes_to_the_end() {
        let mut seen = [0; 40];
        let setting =
            |i: u64| Setting { gray: i.is_multiple_of(2), profile: [Profile::One, Profile::Two][i as usize / 2 % 2] };
        let rich = |i| generate::write(&generate::rich(&mut Rng::new(i, 5), setting(i)));
        let jobs = (0..1500u64).map(|i| (i, rich(i)));
        let limits = (0..160u64).map(|i| (i / 3, generate::limit(&mut Rng::new(i, 6), setting(i / 3), i as usize)));
        // A ring never ends for the slow arm, so what is refused by 21, 32 or 22 is not performed.
        let motifs = (0..1500u64).map(|i| (i, generate::motifs(&mut Rng::new(i, 7), setting(i))));
        let patterns = (0..600u64).map(|i| (i, generate::patterns(&mut Rng::new(i, 8), setting(i))));
        for (i, job) in jobs.chain(limits).chain(motifs).chain(patterns) {
            let starts_gray = setting(i).gray;
            let v = judge(&job, u32::from(!starts_gray));
            seen[v.code as usize] += 1;
            match v.code {
                0 => {
                    let mut slow = Slow { starts_gray, ..Slow::default() };
                    assert!(slow.perform(&job), "{v:?}\n{}", text::list(&job));
                    assert_eq!(slow.count, v.performed.into());
                }
                17 | 23..=26 | 34 => {
                    let mut slow = Slow { starts_gray, ..Slow::default() };
                    assert!(!slow.perform(&job), "{v:?}\n{}", text::list(&job));
                }
                _ => {}
            }
        }
        assert!([0, 17, 23, 24, 25, 26, 34].iter().all(|&c| seen[c] > 0), "{seen:?}");
    }

    #[test]
    fn lists_read_back_to_the_same_job() {
        // Each record points at its tag, and the records of a passing job are its operators in order.
        for index in 0..300 {
            let job = generate::write(&generate::valid(
                &mut Rng::new(index, 8),
                Setting { gray: true, profile: Profile::Two },
            ));
            let mut list = vec![0; 16 * (job.len() + 1)];
            let v = check(&job, &mut vec![0; STORE], &mut list, 0);
            let (_, high, mut at) = text::read_header(&job).unwrap();
            let mut records = list.chunks(16).take(v.records as usize);
            let word = |r: &[u8], i: usize| u32::from_le_bytes(r[i..i + 4].try_into().unwrap()) as usize;
            while let Some(s) = text::read_statement(&job, at, high) {
                at = s.to;
                let pairs = given(&s);
                for (number, value) in &pairs {
                    let r = records.next().unwrap();
                    assert_eq!(r[..4], [1, *number as u8, value.kind, 0]);
                    assert_eq!((job[word(r, 4)], word(r, 8)), (value.kind, value.numbers.len()));
                    let length = if value.kind < 0xc8 || value.kind >= 0xd0 { 0 } else { 2 + usize::from(value.wide) };
                    assert_eq!(word(r, 12), word(r, 4) + 1 + length);
                }
                let r = records.next().unwrap();
                assert_eq!((r[0], r[1], r[2], r[3]), (2, s.tag, pairs.len() as u8, 0));
                assert_eq!(word(r, 4), s.tag_at);
                let data = s.data.as_ref().map_or((0, 0), |d| (d.2.len(), s.to - d.2.len()));
                assert_eq!((word(r, 8), word(r, 12)), data);
            }
            assert!(records.next().is_none());
        }
    }
}
