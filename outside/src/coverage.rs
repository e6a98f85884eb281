//! What a run of cases has reached: codes outside and inside motifs, and attribute rules broken.

use crate::generate::{all_rules, class_of, shapes_of, Broken, Class, Need, Size, CLASSES};
use crate::plain::{Profile, Verdict, MOTIFS_MAX, NO_INNER, PATTERNS_MAX};
use crate::text::{attribute_name, operator_name, read_header, read_statement, Piece, Statement};
use std::collections::{BTreeMap, BTreeSet};
use std::fmt::Write;

/// One more than the highest code.
const CODES: usize = 35;
/// Codes no job gives: 20 is retired, 30 and 31 are not a checker's.
pub const NEVER: [u32; 3] = [20, 30, 31];
/// Codes a motif can have at its EndStream.
pub const INSIDE: [u32; 17] = [2, 3, 4, 5, 6, 7, 8, 9, 10, 11, 12, 13, 14, 15, 16, 18, 27];

#[derive(Debug, Clone)]
pub struct Coverage {
    pub outside: [u64; CODES],
    pub inside: [u64; CODES],
    pub kinds: BTreeMap<&'static str, u64>,
    pub rules: BTreeMap<Broken, [u64; 2]>,
    /// What passed jobs have, outside and in motifs.
    pub shown: BTreeMap<&'static str, [u64; 2]>,
    /// Attributes with a class of real, low and high byte first: taken in a passed job, or the cause of a 16.
    pub reals: BTreeMap<(u16, Class), [u64; 2]>,
    /// Passed jobs and refusals of the colour space, by start: gray, RGB.
    pub starts: BTreeMap<u32, [u64; 2]>,
}

/// Codes that must come up in both starts.
const STARTS: [u32; 2] = [0, 25];

/// The attributes that take reals; the first two take any that is finite, the others only those above zero.
const REALS: [u16; 4] = [76, 69, 103, 137];

fn takes_real(number: u16, class: Class) -> bool {
    let Class(size, negative) = class;
    match size {
        Size::Infinite | Size::NotANumber => false,
        Size::Zero => REALS[..2].contains(&number),
        Size::Denormal | Size::Normal => !negative || REALS[..2].contains(&number),
    }
}

/// What some passed job must have, and whether some motif of one too.
pub const SHOWN: [(&str, bool); 30] = [
    ("zero bytes between items", true),
    ("class 2.1", true),
    ("SetDefaultGS", true),
    ("PadBytesMultiple", true),
    ("BlockByteLength", true),
    ("MediaType", false),
    ("MediaSize as a name", false),
    ("a replaced motif", false),
    ("a motif that names one not yet held", false),
    ("a call of one replaced amid others", false),
    ("a call of a name of 1 byte", false),
    ("a call of a name of 16 bytes", false),
    ("a call of a name that begins another", false),
    ("a call of a name that another begins", false),
    ("names told apart by zero bytes", false),
    ("names told apart by the first byte", false),
    ("names told apart by byte 8 of more", false),
    ("names told apart by byte 9 of more", false),
    ("names told apart by the last byte", false),
    ("names told apart by the highest bit", false),
    ("64 names held in rising order", false),
    ("64 names held in falling order", false),
    ("PatternSelectID", true),
    ("a replaced pattern", false),
    ("a page pattern hiding a session one", false),
    ("a session pattern hidden before", false),
    ("a session pattern of another page", false),
    ("32 patterns of each persistence", false),
    ("a call that selects a pattern", false),
    ("a call that selects 64 patterns", false),
];

/// The operators of a string of items, as far as they can be told.
fn statements(bytes: &[u8]) -> Vec<Statement> {
    let Some((_, high, mut at)) = read_header(bytes) else {
        return Vec::new();
    };
    let mut all = Vec::new();
    while let Some(s) = read_statement(bytes, at, high) {
        at = s.to;
        all.push(s);
    }
    all
}

/// The data of the ReadStream operators just before the EndStream at `position`, joined.
fn motif_at(job: &[u8], position: usize) -> Vec<u8> {
    let all = statements(job);
    let Some(end) = all.iter().position(|s| s.tag_at == position) else {
        return Vec::new();
    };
    let from = all[..end].iter().rposition(|s| s.tag == 0x5b).map_or(0, |i| i + 1);
    all[from..end].iter().filter_map(|s| s.data.as_ref()).flat_map(|d| d.2.clone()).collect()
}

/// The motifs that a job defines, as bytes.
fn motifs(all: &[Statement]) -> Vec<Vec<u8>> {
    let mut found: Vec<Vec<u8>> = Vec::new();
    for s in all {
        match (s.tag, &s.data, found.last_mut()) {
            (0x5b, ..) => found.push(Vec::new()),
            (0x5c, Some(data), Some(motif)) => motif.extend(&data.2),
            _ => {}
        }
    }
    found
}

/// The StreamName of an operator.
fn name_of(s: &Statement) -> Vec<u8> {
    let pairs = s.pieces.windows(2).find_map(|pair| match pair {
        [(_, Piece::Value(v)), (_, Piece::Number { number: 139, .. })] => Some(v),
        _ => None,
    });
    pairs.map_or_else(Vec::new, |v| v.numbers.iter().map(|&n| n as u8).collect())
}

/// What of SHOWN a called name has to do with another one that is held.
fn shown_by_names(called: &[u8], other: &[u8]) -> Vec<&'static str> {
    let Some(at) = called.iter().zip(other).position(|(a, b)| a != b) else {
        let (begins, rest) = if called.len() < other.len() {
            ("a call of a name that begins another", &other[called.len()..])
        } else {
            ("a call of a name that another begins", &called[other.len()..])
        };
        let zeros = rest.iter().all(|&b| b == 0).then_some("names told apart by zero bytes");
        return [begins].into_iter().chain(zeros).collect();
    };
    let high = ((called[at] ^ other[at]) >= 0x80).then_some("names told apart by the highest bit");
    let last = called.len() - 1;
    let alone = called.len() == other.len() && called[at + 1..] == other[at + 1..];
    let place = match at {
        _ if !alone || last == 0 => None,
        0 => Some("names told apart by the first byte"),
        _ if at == last => Some("names told apart by the last byte"),
        7 => Some("names told apart by byte 8 of more"),
        8 => Some("names told apart by byte 9 of more"),
        _ => None,
    };
    high.into_iter().chain(place).collect()
}

/// What of SHOWN a call has to do with the names held, which are in the order of their first definition.
fn shown_by_call(called: &[u8], held: &[Vec<u8>], replaced: &BTreeSet<Vec<u8>>) -> Vec<&'static str> {
    let mut shown: Vec<_> =
        held.iter().filter(|other| **other != called).flat_map(|other| shown_by_names(called, other)).collect();
    match called.len() {
        1 => shown.push("a call of a name of 1 byte"),
        16 => shown.push("a call of a name of 16 bytes"),
        _ => {}
    }
    let amid = held.iter().any(|other| &other[..] < called) && held.iter().any(|other| &other[..] > called);
    if amid && replaced.contains(called) {
        shown.push("a call of one replaced amid others");
    }
    if held.len() == MOTIFS_MAX && held.is_sorted() {
        shown.push("64 names held in rising order");
    }
    if held.len() == MOTIFS_MAX && held.is_sorted_by(|a, b| a > b) {
        shown.push("64 names held in falling order");
    }
    shown
}

/// What of SHOWN the motifs of a job have to do with each other.
fn shown_by_motifs(all: &[Statement]) -> BTreeSet<&'static str> {
    let (mut shown, mut held, mut replaced) = (BTreeSet::new(), Vec::new(), BTreeSet::new());
    let mut bodies = motifs(all).into_iter();
    for s in all {
        match s.tag {
            0x42 => {
                held.clear();
                replaced.clear();
            }
            0x5b => {
                let body = bodies.next().unwrap_or_default();
                let calls = |s: &Statement| s.tag == 0x5e && !held.contains(&name_of(s));
                if statements(&body).iter().any(calls) {
                    shown.insert("a motif that names one not yet held");
                }
                let name = name_of(s);
                if held.contains(&name) {
                    shown.insert("a replaced motif");
                    replaced.insert(name);
                } else {
                    held.push(name);
                }
            }
            0x5e => shown.extend(shown_by_call(&name_of(s), &held, &replaced)),
            _ => {}
        }
    }
    shown
}

/// The number that an attribute of an operator has.
fn number_of(s: &Statement, wanted: u16) -> Option<u32> {
    s.pieces.windows(2).find_map(|pair| match pair {
        [(_, Piece::Value(v)), (_, Piece::Number { number, .. })] if *number == wanted => v.numbers.first().copied(),
        _ => None,
    })
}

/// What of SHOWN the patterns of a passed job have to do with each other.
fn shown_by_patterns(all: &[Statement]) -> BTreeSet<&'static str> {
    let mut shown = BTreeSet::new();
    // Numbers of the page and of the session, those that were hidden, and those that were defined in another page.
    let [mut page, mut session, mut hidden, mut old]: [BTreeSet<u32>; 4] = Default::default();
    let mut bodies = motifs(all).into_iter();
    let mut held: BTreeMap<Vec<u8>, Vec<Statement>> = BTreeMap::new();
    for s in all {
        match s.tag {
            0x42 => {
                [&mut session, &mut hidden, &mut old].into_iter().for_each(BTreeSet::clear);
                held.clear();
            }
            0x44 => {
                hidden.extend(page.intersection(&session));
                old.extend(session.iter());
                page.clear();
            }
            0x5b => {
                held.insert(name_of(s), statements(&bodies.next().unwrap_or_default()));
            }
            0x5e => match selected_by(&held, &name_of(s)).len() {
                0 => {}
                n if n == 2 * PATTERNS_MAX => shown.extend(["a call that selects 64 patterns"]),
                _ => shown.extend(["a call that selects a pattern"]),
            },
            0x63 => {
                let Some(number) = number_of(s, 8) else { continue };
                match (page.contains(&number), session.contains(&number)) {
                    (true, true) => shown.extend(["a page pattern hiding a session one"]),
                    (false, true) if hidden.contains(&number) => shown.extend(["a session pattern hidden before"]),
                    (false, true) if old.contains(&number) => shown.extend(["a session pattern of another page"]),
                    _ => {}
                }
            }
            0xb3 => {
                let own = if number_of(s, 104) == Some(1) { &mut page } else { &mut session };
                if !own.insert(number_of(s, 105).unwrap_or(0)) {
                    shown.insert("a replaced pattern");
                }
                if page.len() == PATTERNS_MAX && session.len() == PATTERNS_MAX {
                    shown.insert("32 patterns of each persistence");
                }
            }
            _ => {}
        }
    }
    shown
}

/// The numbers that a call selects; a passed job has no rings.
fn selected_by(held: &BTreeMap<Vec<u8>, Vec<Statement>>, name: &[u8]) -> BTreeSet<u32> {
    let mut selected = BTreeSet::new();
    let (mut next, mut met) = (vec![name.to_vec()], BTreeSet::new());
    while let Some(name) = next.pop() {
        if let Some(body) = held.get(&name).filter(|_| met.insert(name.clone())) {
            selected.extend(body.iter().filter(|s| s.tag == 0x63).filter_map(|s| number_of(s, 8)));
            next.extend(body.iter().filter(|s| s.tag == 0x5e).map(name_of));
        }
    }
    selected
}

/// What of SHOWN a job or motif has.
fn shown_by(bytes: &[u8], all: &[Statement]) -> Vec<&'static str> {
    let mut shown = Vec::new();
    if bytes.get(12) == Some(&b'2') {
        shown.push("class 2.1");
    }
    if all.iter().any(|s| s.tag == 0x57) {
        shown.push("SetDefaultGS");
    }
    for pair in all.iter().flat_map(|s| s.pieces.windows(2)) {
        match pair {
            [(_, Piece::Value(_)), (_, Piece::Number { number: 110, .. })] => shown.push("PadBytesMultiple"),
            [(_, Piece::Value(_)), (_, Piece::Number { number: 111, .. })] => shown.push("BlockByteLength"),
            [(_, Piece::Value(_)), (_, Piece::Number { number: 39, .. })] => shown.push("MediaType"),
            [(_, Piece::Value(_)), (_, Piece::Number { number: 8, .. })] => shown.push("PatternSelectID"),
            [(_, Piece::Value(v)), (_, Piece::Number { number: 37, .. })] if v.kind == 0xc8 => {
                shown.push("MediaSize as a name");
            }
            _ => {}
        }
    }
    if all.iter().flat_map(|s| &s.pieces).any(|(_, p)| matches!(p, Piece::Space(bytes) if bytes.contains(&0))) {
        shown.push("zero bytes between items");
    }
    shown.extend(shown_by_motifs(all));
    shown.extend(shown_by_patterns(all));
    shown.sort();
    shown.dedup();
    shown
}

/// Attributes and classes of the reals of an operator, those of the value at `only` if that is given.
fn reals_of(s: &Statement, only: Option<usize>) -> Vec<(u16, Class)> {
    let mut found = Vec::new();
    for pair in s.pieces.windows(2) {
        if let [(at, Piece::Value(value)), (_, Piece::Number { number, .. })] = pair {
            if value.kind == 0xd5 && only.is_none_or(|only| *at == only) {
                found.extend(value.numbers.iter().map(|&bits| (*number, class_of(bits))));
            }
        }
    }
    found
}

/// The rules a refusal of 11 to 16 shows broken.
fn rules_of(bytes: &[u8], code: u32, position: usize) -> Vec<Broken> {
    let all = statements(bytes);
    let Some(s) = all.iter().find(|s| (s.from..=s.tag_at).contains(&position)) else {
        return Vec::new();
    };
    let numbers: Vec<u16> = s
        .pieces
        .iter()
        .filter_map(|(_, p)| match p {
            Piece::Number { number, .. } => Some(*number),
            _ => None,
        })
        .collect();
    let profile = if bytes[12] == b'2' { Profile::Two } else { Profile::One };
    let rule = |number| Broken { profile, tag: s.tag, number, code };
    match code {
        11 => vec![rule(0)],
        12 | 15 | 16 => {
            let after = s.pieces.iter().skip_while(|(at, _)| *at < position);
            let number = after.clone().find_map(|(_, p)| match p {
                Piece::Number { number, .. } => Some(*number),
                _ => None,
            });
            number.map(rule).into_iter().collect()
        }
        13 => {
            let missing: Vec<Broken> = shapes_of(profile, s.tag)
                .filter(|(n, _, need)| *need == Need::Must && !numbers.contains(n))
                .map(|(n, _, _)| rule(n))
                .collect();
            if missing.is_empty() {
                vec![rule(0)]
            } else {
                missing
            }
        }
        // Which of StartLine, rows and length was wrong is not told, so all that were given count.
        14 if matches!(s.tag, 0xb1 | 0xb4) => {
            [109, 99, 111].into_iter().filter(|n| numbers.contains(n)).map(rule).collect()
        }
        14 => numbers.into_iter().map(rule).collect(),
        _ => Vec::new(),
    }
}

impl Default for Coverage {
    fn default() -> Coverage {
        Coverage {
            outside: [0; CODES],
            inside: [0; CODES],
            kinds: BTreeMap::new(),
            rules: BTreeMap::new(),
            shown: BTreeMap::new(),
            reals: BTreeMap::new(),
            starts: BTreeMap::new(),
        }
    }
}

impl Coverage {
    /// Counts a case, asked with this start, and its verdict.
    pub fn add(&mut self, kind: &'static str, job: &[u8], rgb: u32, v: &Verdict) {
        if STARTS.contains(&v.code) {
            self.starts.entry(v.code).or_default()[usize::from(rgb != 0)] += 1;
        }
        *self.kinds.entry(kind).or_default() += 1;
        let inside = v.inner != NO_INNER;
        let code = v.code as usize;
        if code < CODES {
            if inside {
                self.inside[code] += 1;
            } else {
                self.outside[code] += 1;
            }
        }
        if v.code == 0 {
            self.show(job);
        }
        if (11..=16).contains(&v.code) {
            let motif;
            let (bytes, at) = if inside {
                motif = motif_at(job, v.position as usize);
                (&motif[..], v.inner as usize)
            } else {
                (job, v.position as usize)
            };
            for rule in rules_of(bytes, v.code, at) {
                self.rules.entry(rule).or_default()[usize::from(inside)] += 1;
            }
            if v.code == 16 {
                let found = statements(bytes).iter().flat_map(|s| reals_of(s, Some(at))).collect();
                self.count_reals(bytes, found, false);
            }
        }
    }

    /// Takes down what a passed job has.
    fn show(&mut self, job: &[u8]) {
        let all = statements(job);
        let inside = motifs(&all);
        let parts = [(0, job)].into_iter().chain(inside.iter().map(|m| (1, &m[..])));
        for (place, bytes) in parts {
            let all = statements(bytes);
            for what in shown_by(bytes, &all) {
                self.shown.entry(what).or_default()[place] += 1;
            }
            self.count_reals(bytes, all.iter().flat_map(|s| reals_of(s, None)).collect(), true);
        }
    }

    /// Counts reals of a job or motif that are taken, or that are not.
    fn count_reals(&mut self, bytes: &[u8], found: Vec<(u16, Class)>, taken: bool) {
        let high = usize::from(bytes.first() == Some(&0x28));
        for (number, class) in found {
            if takes_real(number, class) == taken {
                self.reals.entry((number, class)).or_default()[high] += 1;
            }
        }
    }

    /// What was never reached though it can be.
    pub fn gaps(&self) -> Vec<String> {
        let mut gaps = Vec::new();
        for code in 0..CODES as u32 {
            if self.outside[code as usize] == 0 && !NEVER.contains(&code) {
                gaps.push(format!("code {code}"));
            }
            if self.inside[code as usize] == 0 && INSIDE.contains(&code) {
                gaps.push(format!("code {code} in a motif"));
            }
        }
        for rule in all_rules() {
            let counts = self.rules.get(&rule).copied().unwrap_or_default();
            if counts[0] + counts[1] == 0 {
                gaps.push(rule_name(&rule));
            }
        }
        for code in STARTS {
            if self.starts.get(&code).is_none_or(|starts| starts.contains(&0)) {
                gaps.push(format!("code {code} in both starts"));
            }
        }
        for (number, class) in REALS.into_iter().flat_map(|n| CLASSES.map(|c| (n, c))) {
            if self.reals.get(&(number, class)).is_none_or(|orders| orders.contains(&0)) {
                gaps.push(format!("{} {class:?}", attribute_name(number)));
            }
        }
        for (what, in_motifs) in SHOWN {
            let [o, i] = self.shown.get(what).copied().unwrap_or_default();
            if o == 0 || i == 0 && in_motifs {
                gaps.push(what.to_string());
            }
        }
        gaps
    }

    pub fn table(&self) -> String {
        let mut out = String::from("kind            cases\n");
        for (kind, n) in &self.kinds {
            let _ = writeln!(out, "{kind:<12} {n:>8}");
        }
        out.push_str("code  outside   in a motif\n");
        for code in 0..CODES {
            let _ = writeln!(out, "{code:>4} {:>8} {:>12}", self.outside[code], self.inside[code]);
        }
        let _ = writeln!(
            out,
            "attribute rules broken: {} of {}",
            self.rules.len().min(all_rules().len()),
            all_rules().len()
        );
        for rule in all_rules() {
            let [o, i] = self.rules.get(&rule).copied().unwrap_or_default();
            let _ = writeln!(out, "{:<36} {o:>8} {i:>8}", rule_name(&rule));
        }
        out.push_str("reals taken or refused           low byte first, high byte first\n");
        for ((number, class), [low, high]) in &self.reals {
            let sign = if class.1 { '-' } else { '+' };
            let name = format!("{} {sign}{:?}", attribute_name(*number), class.0);
            let _ = writeln!(out, "{name:<36} {low:>8} {high:>8}");
        }
        for (code, [gray, rgb]) in &self.starts {
            let _ = writeln!(out, "code {code} in jobs that start in gray {gray:>8}, in RGB {rgb:>8}");
        }
        out.push_str("passed jobs with                      outside, in a motif\n");
        for (what, [o, i]) in &self.shown {
            let _ = writeln!(out, "{what:<36} {o:>8} {i:>8}");
        }
        out
    }
}

fn rule_name(rule: &Broken) -> String {
    let attribute = if rule.number == 0 { "-".into() } else { attribute_name(rule.number) };
    let class = if rule.profile == Profile::One { "1.1" } else { "2.1" };
    format!("{class} {} {} {}", operator_name(rule.tag), attribute, rule.code)
}

#[cfg(test)]
mod tests {
    use super::*;
    use crate::{generate, plain};

    #[test]
    fn generated_cases_reach_everything() {
        let mut c = Coverage::default();
        for index in 0..20_000 {
            let mut case = generate::case(1, index);
            let verdict = plain::check(&case.job, &mut case.work, &mut case.list, case.rgb);
            c.add(case.kind, &case.job, case.rgb, &verdict);
        }
        assert!(c.gaps().is_empty(), "{:?}\n{}", c.gaps(), c.table());
    }
}
